//! The ledger of one bench, after order 13 of document 02: "its ledger is fed its own kind, arrived text and calls
//! alone." It is a page's ledger, but that its mark is "a count of its steps, kept and asked about by order 5's rules
//! with standing steps in place of words done, in its ledger too".

use super::ledger::Ledger;
use super::{Call, Kind};

#[derive(Clone, Debug, PartialEq, Eq)]
pub struct BenchLedger {
    /// The reading and the steps; its own mark, by words, is not asked.
    pub page: Ledger,
    pub saved: Option<usize>,
}

impl BenchLedger {
    /// There is none if the bytes do not read. Order 5: "An accepted open sets it to 0".
    pub fn new(kind: Kind, arrived: &[u8]) -> Option<BenchLedger> {
        Some(BenchLedger { page: Ledger::new(kind, arrived)?, saved: Some(0) })
    }

    /// Hears a call of its bench, and whether it was accepted.
    pub fn hear(&mut self, call: &Call, accepted: bool) {
        let standing = self.page.standing.len();
        match call {
            // "an accepted replace made while the mark exceeds" the standing steps "sets it to none"
            Call::Replace { .. } if accepted && self.saved > Some(standing) => self.saved = None,
            // "an accepted save sets it to" the standing steps
            Call::Save { .. } if accepted => self.saved = Some(standing),
            _ => {}
        }
        self.page.hear(call, accepted);
    }

    /// '"unchanged" exactly when the mark equals' the standing steps.
    pub fn is_unchanged(&self) -> bool {
        self.saved == Some(self.page.standing.len())
    }
}

#[cfg(test)]
mod tests {
    use super::*;

    #[test]
    fn the_mark_is_a_count_of_steps() {
        let mut ledger = BenchLedger::new(Kind::Utf7Body, b"abc").expect("a whole text");
        assert!(ledger.saved == Some(0) && ledger.is_unchanged());
        let mut after = |call: Call, accepted| {
            ledger.hear(&call, accepted);
            (ledger.page.standing.len(), ledger.saved, ledger.is_unchanged())
        };
        let replace = || Call::Replace { place: 1, count: 2, cells: vec![0x58] };
        let save = || Call::Save { arrived: vec![], room: 9 };
        assert_eq!(after(replace(), true), (1, Some(0), false));
        assert_eq!(after(save(), false), (1, Some(0), false));
        assert_eq!(after(save(), true), (1, Some(1), true));
        assert_eq!(after(replace(), true), (2, Some(1), false));
        assert_eq!(after(save(), true), (2, Some(2), true));
        assert_eq!(after(Call::Undo, true), (1, Some(2), false));
        assert_eq!(after(Call::Redo, true), (2, Some(2), true));
        assert_eq!(after(Call::Undo, true), (1, Some(2), false));
        assert_eq!(after(replace(), false), (1, Some(2), false));
        assert_eq!(after(replace(), true), (2, None, false));
        assert_eq!(after(Call::Undo, true), (1, None, false));
        assert_eq!(after(save(), true), (1, Some(1), true));
    }
}
