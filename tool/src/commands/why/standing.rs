//! How certain it is that a row is in a set, or that a guard passes: read from what is certified, and held against what the set's verdict promises.

use txindurbe::Verdict;

#[derive(Clone, Copy, PartialEq, Eq, Debug)]
pub struct Standing {
    /// As it is read.
    pub holds: bool,
    /// Whether more certificates can never change that.
    pub certain: bool,
}

impl Standing {
    pub const fn certain(holds: bool) -> Standing {
        Standing { holds, certain: true }
    }

    /// Of a row that such a set has, or lacks: a lower one may gain rows, an upper one may lose them.
    pub fn in_set(has: bool, verdict: Verdict) -> Standing {
        let undecided = if has { Verdict::Upper } else { Verdict::Lower };
        Standing { holds: has, certain: verdict != undecided }
    }

    /// Of the guard that a row is absent.
    pub fn turned(self) -> Standing {
        Standing { holds: !self.holds, ..self }
    }

    /// Of a guard.
    pub fn passes(self) -> &'static str {
        match (self.holds, self.certain) {
            (true, true) => "passed",
            (true, false) => "may pass",
            (false, true) => "fails",
            (false, false) => "not known",
        }
    }

    /// Of a row and a set.
    pub fn is_in(self) -> &'static str {
        match (self.holds, self.certain) {
            (true, true) => "is in",
            (true, false) => "may be in",
            (false, true) => "is not in",
            (false, false) => "is not known to be in",
        }
    }
}

#[cfg(test)]
mod tests {
    use super::*;

    #[test]
    fn only_what_a_verdict_promises_is_certain() {
        let said = |has, verdict| (Standing::in_set(has, verdict).is_in(), Standing::in_set(has, verdict).turned().passes());
        assert_eq!(said(true, Verdict::Lower), ("is in", "fails"));
        assert_eq!(said(false, Verdict::Lower), ("is not known to be in", "may pass"));
        assert_eq!(said(true, Verdict::Upper), ("may be in", "not known"));
        assert_eq!(said(false, Verdict::Upper), ("is not in", "passed"));
        assert_eq!(said(true, Verdict::Exact), ("is in", "fails"));
        assert_eq!(said(false, Verdict::Exact), ("is not in", "passed"));
    }
}
