//! The parts of the comparison, run side by side and printed in their order.

use std::collections::BTreeMap;
use std::num::NonZero;
use std::sync::atomic::{AtomicUsize, Ordering};
use std::sync::mpsc;
use std::thread;
use std::time::Instant;

use crate::report::Report;

/// Checks that need nothing of other checks.
pub struct Part {
    name: String,
    /// It is run only if it is named.
    aside: bool,
    run: Box<dyn Fn(&mut Report) + Send + Sync>,
}

impl Part {
    pub fn new(name: impl Into<String>, run: impl Fn(&mut Report) + Send + Sync + 'static) -> Part {
        Part { name: name.into(), aside: false, run: Box::new(run) }
    }

    /// A part that is run only if it is named: it needs what a machine may lack.
    pub fn aside(name: impl Into<String>, run: impl Fn(&mut Report) + Send + Sync + 'static) -> Part {
        Part { aside: true, ..Part::new(name, run) }
    }

    /// Whether it is chosen by this word: its name, or words of it from the first on.
    fn is_named(&self, word: &str) -> bool {
        self.name.strip_prefix(word).is_some_and(|rest| rest.is_empty() || rest.starts_with('-'))
    }
}

/// The parts that are chosen by one of these words, or all but those aside if there is none; a word that chooses none is
/// a fault.
pub fn chosen(parts: Vec<Part>, words: &[String]) -> Result<Vec<Part>, String> {
    if let Some(word) = words.iter().find(|word| !parts.iter().any(|part| part.is_named(word))) {
        let names: Vec<&str> = parts.iter().map(|part| part.name.as_str()).collect();
        return Err(format!("no part is named {word}; the parts are {}", names.join(" ")));
    }
    let is_chosen =
        |part: &Part| if words.is_empty() { !part.aside } else { words.iter().any(|word| part.is_named(word)) };
    Ok(parts.into_iter().filter(is_chosen).collect())
}

/// Runs the parts on as many threads as the machine has cores, and hands on the report of each in the order of the
/// parts, with its name and the seconds that it took.
pub fn run(parts: &[Part], mut hand_on: impl FnMut(&str, f64, Report)) {
    let next = AtomicUsize::new(0);
    let (sender, receiver) = mpsc::channel();
    let work = |sender: mpsc::Sender<_>| {
        while let Some((index, part)) = take(parts, &next) {
            let began = Instant::now();
            let mut report = Report::default();
            (part.run)(&mut report);
            sender.send((index, began.elapsed().as_secs_f64(), report)).expect("a receiver");
        }
    };
    thread::scope(|scope| {
        for _ in 0..thread::available_parallelism().map_or(1, NonZero::get) {
            let sender = sender.clone();
            scope.spawn(|| work(sender));
        }
        drop(sender);
        let mut done = BTreeMap::new();
        let mut due = 0;
        for (index, seconds, report) in receiver {
            done.insert(index, (seconds, report));
            while let Some((seconds, report)) = done.remove(&due) {
                hand_on(&parts[due].name, seconds, report);
                due += 1;
            }
        }
    });
}

/// The next part that no thread has taken.
fn take<'a>(parts: &'a [Part], next: &AtomicUsize) -> Option<(usize, &'a Part)> {
    let index = next.fetch_add(1, Ordering::Relaxed);
    parts.get(index).map(|part| (index, part))
}

#[cfg(test)]
mod tests {
    use super::*;
    use std::time::Duration;

    #[test]
    fn parts_are_handed_on_in_their_order() {
        let part = |(number, wait)| {
            Part::new(format!("part-{number}"), move |_: &mut Report| thread::sleep(Duration::from_millis(wait)))
        };
        let parts: Vec<Part> = (1..).zip([40, 0, 20, 0]).map(part).collect();
        let mut names = Vec::new();
        run(&parts, |name, _, _| names.push(name.to_string()));
        assert_eq!(names, ["part-1", "part-2", "part-3", "part-4"]);
    }

    #[test]
    fn parts_are_chosen_by_words_of_their_names() {
        let parts = || ["utf7-read", "utf7-write", "utf7-reading"].map(|name| Part::new(name, |_| {})).into();
        let names = |words: &[&str]| {
            let words: Vec<String> = words.iter().map(|word| word.to_string()).collect();
            chosen(parts(), &words).map(|parts| parts.into_iter().map(|part| part.name).collect::<Vec<String>>())
        };
        assert_eq!(names(&[]).map(|names| names.len()), Ok(3));
        assert_eq!(names(&["utf7"]).map(|names| names.len()), Ok(3));
        assert_eq!(names(&["utf7-read"]), Ok(vec!["utf7-read".to_string()]));
        assert!(names(&["utf7", "utf"]).is_err());
        assert_eq!(chosen(vec![Part::aside("peers", |_| {})], &[]).map(|parts| parts.len()), Ok(0));
        assert_eq!(chosen(vec![Part::aside("peers", |_| {})], &["peers".to_string()]).map(|parts| parts.len()), Ok(1));
    }
}
