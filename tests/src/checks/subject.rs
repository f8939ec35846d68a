//! What is checked: a program or a function, with what it is compared with.

use std::fmt::UpperHex;

use crate::examples::{Example, Group};
use crate::report::{Report, Statuses};
use crate::trial::{try_all, try_examples};

pub trait Subject {
    /// An element of its input.
    type Element: Copy + UpperHex;

    /// What is compared.
    type Expected;

    /// How its checks are named.
    fn name(&self) -> &str;

    /// What the second program expects of it.
    fn second(&self, input: &[Self::Element]) -> Self::Expected;

    /// Compares what it gives for an input with what is expected.
    fn compare(
        &self,
        input: &[Self::Element],
        expected: &Self::Expected,
        statuses: &mut Statuses,
    ) -> Result<(), String>;

    /// Checks it on the examples of each group.
    fn check_groups(&self, report: &mut Report, groups: &[Group<Example<Self::Element, Self::Expected>>]) {
        for Group { name, what, examples } in groups {
            report.check(&format!("{}-{name}", self.name()), what, |statuses| {
                try_examples(examples, |example| self.compare(&example.input, &example.expected, statuses))
            });
        }
    }

    /// Checks it against the second program on every input.
    fn check(&self, report: &mut Report, name: &str, what: &str, inputs: impl IntoIterator<Item = Vec<Self::Element>>) {
        report.check(&format!("{}-{name}", self.name()), what, |statuses| {
            try_all(inputs, |input| self.compare(input, &self.second(input), statuses))
        });
    }
}
