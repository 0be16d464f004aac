//! How strongly a rule is meant: "The caretaker wants each "should" of the card profiles apart from each "must"."

/// The level of a finding, with the number that its entry has: "1 for must, 2 for should".
#[derive(Clone, Copy, Debug, PartialEq, Eq)]
#[repr(u16)]
pub enum Level {
    Must = 1,
    Should = 2,
}

/// The rules that a certificate should keep, a row each; every other rule it must keep: "all rules so far are 1".
const SHOULD_RULES: &[u16] = &[];

impl Level {
    /// The level of a rule, which all its entries have.
    #[inline]
    pub fn of_rule(rule: u16) -> Level {
        if SHOULD_RULES.contains(&rule) {
            Level::Should
        } else {
            Level::Must
        }
    }

    /// What the "fourth pair of octets" holds.
    pub fn number(self) -> u16 {
        self as u16
    }

    /// "a printed finding ends in " must" or " should""
    pub fn word(self) -> &'static str {
        match self {
            Level::Must => "must",
            Level::Should => "should",
        }
    }
}

#[cfg(test)]
mod tests {
    use super::*;

    #[test]
    fn each_level_has_its_number_and_its_word() {
        assert_eq!((Level::Must.number(), Level::Must.word()), (1, "must"));
        assert_eq!(
            (Level::Should.number(), Level::Should.word()),
            (2, "should")
        );
    }
}
