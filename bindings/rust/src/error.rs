//! Refusals.

use std::fmt;

/// A refusal: the number of the rule that the input breaks, and where.
///
/// A refused call changes nothing.
///
/// ```
/// let error = popejoanplum::score_map(b"MH").unwrap_err();
/// assert_eq!((error.number(), error.offset()), (2, 0));
/// assert_eq!(error.to_string(), "refused 2 at 0: the input ends inside a record, or one byte is left for a mark");
/// ```
#[derive(Clone, Copy, Debug, PartialEq, Eq, Hash)]
pub struct Error {
    number: u8,
    offset: usize,
}

impl Error {
    /// The rule's number: 2 to 15, and 1 from [`listing`](crate::listing) alone.
    pub fn number(&self) -> u8 {
        self.number
    }

    /// The offset of the first byte of the record that breaks the rule. It is 0 for 1 and for 11 to
    /// 15, for a missing header, and for all that is given beside a file: a play, an edit's object.
    pub fn offset(&self) -> usize {
        self.offset
    }

    /// The rule in words.
    pub fn rule(&self) -> &'static str {
        match self.number {
            1 => "the input is above 65,536 bytes",
            2 => "the input ends inside a record, or one byte is left for a mark",
            3 => {
                "a mark is unknown or out of order, or the input is empty; in an edit also: bytes follow the object's record"
            }
            4 => "a time, setting or duration is not finite or out of range",
            5 => "a slider's nested list is wrong: its last item must be its only tail",
            6 => "a 129th break, an 8,193rd object, or more than 1,000 nested items",
            7 => "the legacy bonus of all objects is above 2,147,483,647",
            8 => "a play's field is out of range",
            9 => {
                "the play exceeds its map: too many judgements, too much combo or too many slider hits"
            }
            // No call gives 10: document 02 took it away.
            11 => "the board has too few words, or the start table fewer numbers than objects",
            12 => "the edited place is not below the object count",
            13 => "a word of the board or a start time is outside its limits",
            14 => "a slider factor is not finite or not from 0 to 10",
            15 => "the heat has more than 64 plays, or fewer outcomes than plays",
            _ => "an unknown number",
        }
    }

    /// The refusal of an input that is too long for the listing.
    pub(crate) const TOO_LONG: Self = Self {
        number: 1,
        offset: 0,
    };

    /// Good where the status is 0.
    pub(crate) fn check(status: u8, offset: usize) -> Result<(), Self> {
        match status {
            0 => Ok(()),
            number => Err(Self { number, offset }),
        }
    }
}

impl fmt::Display for Error {
    fn fmt(&self, f: &mut fmt::Formatter) -> fmt::Result {
        write!(
            f,
            "refused {} at {}: {}",
            self.number,
            self.offset,
            self.rule()
        )
    }
}

impl std::error::Error for Error {}

#[cfg(test)]
mod tests {
    use std::collections::HashSet;

    use super::Error;

    #[test]
    fn each_rule_has_its_words() {
        let refusal = |number| Error { number, offset: 24 };
        let rules: HashSet<&str> = (1..=16).map(|number| refusal(number).rule()).collect();
        assert_eq!(rules.len(), 15);
        assert_eq!(refusal(10).rule(), refusal(16).rule());
        assert_eq!(
            refusal(12).to_string(),
            "refused 12 at 24: the edited place is not below the object count"
        );
    }

    #[test]
    fn a_status_of_0_is_good() {
        assert_eq!(Error::check(0, 5), Ok(()));
        let error = Error::check(4, 5).unwrap_err();
        assert_eq!((error.number(), error.offset()), (4, 5));
    }
}
