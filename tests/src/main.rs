//! Compares the built programs with the second program and with the examples of the papers.
//!
//! Run it from the root of the repository, after the listers, desk and libqalithonda.a are built. Arguments choose parts of
//! it by name. The last line is `N passed, M failed`.

mod calls;
mod checks;
mod examples;
mod fault;
mod formats;
mod guarded;
mod lent;
mod library;
mod parts;
mod peers;
mod program;
mod report;
mod rng;
mod second;
mod settings;
mod texts;
mod trial;

use std::env;
use std::process::ExitCode;

use report::Report;
use settings::Settings;

fn main() -> ExitCode {
    let settings = Settings::from_environment();
    println!("seed {} (QALITHONDA_SEED sets another)", settings.seed);
    fault::watch(settings.seed);

    let words: Vec<String> = env::args().skip(1).collect();
    let parts = match parts::chosen(checks::parts(settings), &words) {
        Ok(parts) => parts,
        Err(problem) => {
            println!("{problem}");
            return ExitCode::FAILURE;
        }
    };
    let mut report = Report::default();
    let mut times = Vec::new();
    parts::run(&parts, |name, seconds, part| {
        report.add(part);
        times.push(format!("{name} {seconds:.1}"));
    });
    println!("seconds of each part: {}", times.join(", "));
    report.finish()
}
