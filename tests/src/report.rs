//! Runs checks, keeps a line for each, and counts the statuses that the built programs gave.

use std::collections::{BTreeMap, BTreeSet};
use std::process::ExitCode;

use crate::fault;

/// How often each function gave each status.
#[derive(Default)]
pub struct Statuses {
    given: BTreeMap<&'static str, BTreeMap<u32, usize>>,
}

impl Statuses {
    pub fn count(&mut self, function: &'static str, status: u32) {
        *self.given.entry(function).or_default().entry(status).or_default() += 1;
    }

    fn add(&mut self, others: Statuses) {
        for (function, given) in others.given {
            for (status, times) in given {
                *self.given.entry(function).or_default().entry(status).or_default() += times;
            }
        }
    }

    fn times(&self, function: &str, status: u32) -> usize {
        self.given.get(function).and_then(|given| given.get(&status)).copied().unwrap_or(0)
    }

    /// That the function gave each of these statuses, and no other; the count is that of the statuses.
    fn are_exactly(&self, function: &str, expected: &BTreeSet<u32>) -> Result<usize, String> {
        let given: BTreeSet<u32> =
            self.given.get(function).into_iter().flat_map(|given| given.keys().copied()).collect();
        match given == *expected {
            true => Ok(expected.len()),
            false => Err(format!("the statuses given were {given:?}, and those it can give are {expected:?}")),
        }
    }

    fn print(&self) {
        let statuses: BTreeSet<u32> = self.given.values().flat_map(|given| given.keys().copied()).collect();
        let columns = |cell: &dyn Fn(u32) -> String| -> String {
            statuses.iter().map(|&status| format!("{:>9}", cell(status))).collect()
        };
        println!("{:<30}{}", "times each status was given", columns(&|status| status.to_string()));
        for function in self.given.keys() {
            println!("{function:<30}{}", columns(&|status| self.times(function, status).to_string()));
        }
    }
}

#[derive(Default)]
pub struct Report {
    lines: Vec<String>,
    statuses: Statuses,
    /// The statuses that functions can give.
    expected: BTreeMap<&'static str, BTreeSet<u32>>,
    passed: usize,
    failed: usize,
}

impl Report {
    /// Runs a check, which gives how many inputs it tried, or what went wrong.
    pub fn check(&mut self, name: &str, what: &str, run: impl FnOnce(&mut Statuses) -> Result<usize, String>) {
        fault::in_check(name);
        let result = run(&mut self.statuses);
        self.record(name, what, result);
    }

    /// Keeps a line that is no check.
    pub fn note(&mut self, line: String) {
        self.lines.push(line);
    }

    /// Has it checked in the end that a function gave each of these statuses, which are all that it can give.
    pub fn expect_statuses(&mut self, function: &'static str, statuses: &[u32]) {
        self.expected.entry(function).or_default().extend(statuses);
    }

    fn record(&mut self, name: &str, what: &str, result: Result<usize, String>) {
        match result {
            Ok(count) => {
                self.passed += 1;
                self.lines.push(format!("ok {name}: {what}, {count}"));
            }
            Err(problem) => {
                self.failed += 1;
                self.lines.push(format!("FAILED {name}: {what}: {problem}"));
            }
        }
    }

    /// Prints the lines of the report of a part, and adds its counts.
    pub fn add(&mut self, mut part: Report) {
        part.print_lines();
        self.statuses.add(part.statuses);
        for (function, statuses) in part.expected {
            self.expected.entry(function).or_default().extend(statuses);
        }
        self.passed += part.passed;
        self.failed += part.failed;
    }

    fn print_lines(&mut self) {
        self.lines.drain(..).for_each(|line| println!("{line}"));
    }

    /// Checks the statuses, and prints the table of them and, as the last line, the counts.
    pub fn finish(mut self) -> ExitCode {
        self.check_statuses();
        self.print_lines();
        self.statuses.print();
        println!("{} passed, {} failed", self.passed, self.failed);
        if self.failed > 0 {
            ExitCode::FAILURE
        } else {
            ExitCode::SUCCESS
        }
    }

    fn check_statuses(&mut self) {
        for (function, expected) in std::mem::take(&mut self.expected) {
            let result = self.statuses.are_exactly(function, &expected);
            self.record(&format!("statuses-{function}"), "every status that it can give was given", result);
        }
    }
}

#[cfg(test)]
mod tests {
    use super::*;

    #[test]
    fn a_status_that_was_never_given_is_a_fault() {
        let mut statuses = Statuses::default();
        assert!(statuses.are_exactly("f", &[0].into()).is_err());
        statuses.count("f", 0);
        statuses.count("f", 9);
        assert_eq!(statuses.are_exactly("f", &[0, 9].into()), Ok(2));
        assert!(statuses.are_exactly("f", &[0, 9, 16].into()).is_err());
        assert!(statuses.are_exactly("f", &[0].into()).is_err());
    }

    #[test]
    fn checks_of_parts_are_counted() {
        let mut report = Report::default();
        for status in [0, 9] {
            let mut part = Report::default();
            part.check("a", "passes", |statuses| {
                statuses.count("f", status);
                Ok(1)
            });
            part.check("b", "fails", |_| Err("so".to_string()));
            part.expect_statuses("f", &[0, 9]);
            report.add(part);
        }
        assert_eq!((report.passed, report.failed), (2, 2));
        report.check_statuses();
        assert_eq!((report.passed, report.failed), (3, 2));
    }
}
