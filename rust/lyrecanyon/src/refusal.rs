//! Why a call is refused.

use std::error::Error;
use std::fmt;

/// Why a call was refused. Nothing that was lent has changed.
///
/// More reasons may be added, and a reason may come to say more: a `match` has a last arm for all others, and [`OutOfRange`] is matched
/// as `OutOfRange { .. }`.
///
/// [`OutOfRange`]: Refusal::OutOfRange
#[derive(Clone, Copy, Debug, PartialEq, Eq, Hash)]
#[non_exhaustive]
pub enum Refusal {
    /// 1: the table is not as the rules say.
    BadTable,
    /// 2: the record is not as the rules and its table say, or is over 4,096 bytes.
    BadRecord,
    /// 3: the format has bad syntax or no period, or is over 2,048 bytes.
    BadSyntax,
    /// 4: the format has a name that is not in the table.
    UnknownName,
    /// 5: the format breaks a use rule.
    UseRule,
    /// 6: the update names an occurrence twice.
    NamedTwice,
    /// 7: an item ends beyond the record buffer or beyond 32,767 bytes.
    BeyondBuffer,
    /// 8: the record buffer has a bad value.
    BadValue,
    /// 9: a value is outside the conversion range or does not fit.
    #[non_exhaustive]
    OutOfRange {},
    /// 10: the new record is over 4,096 bytes or over the lent room.
    NoRoom,
    /// A number that this version of the crate does not know, from a later library.
    Other(u8),
}

impl Refusal {
    /// The number that the library returned.
    pub fn number(self) -> u8 {
        match self {
            Refusal::BadTable => 1,
            Refusal::BadRecord => 2,
            Refusal::BadSyntax => 3,
            Refusal::UnknownName => 4,
            Refusal::UseRule => 5,
            Refusal::NamedTwice => 6,
            Refusal::BeyondBuffer => 7,
            Refusal::BadValue => 8,
            Refusal::OutOfRange {} => 9,
            Refusal::NoRoom => 10,
            Refusal::Other(number) => number,
        }
    }

    /// The refusal that has a number; 0 is none.
    pub(crate) fn of(number: u8) -> Option<Refusal> {
        Some(match number {
            0 => return None,
            1 => Refusal::BadTable,
            2 => Refusal::BadRecord,
            3 => Refusal::BadSyntax,
            4 => Refusal::UnknownName,
            5 => Refusal::UseRule,
            6 => Refusal::NamedTwice,
            7 => Refusal::BeyondBuffer,
            8 => Refusal::BadValue,
            9 => Refusal::OutOfRange {},
            10 => Refusal::NoRoom,
            _ => Refusal::Other(number),
        })
    }
}

impl fmt::Display for Refusal {
    fn fmt(&self, f: &mut fmt::Formatter<'_>) -> fmt::Result {
        f.write_str(match self {
            Refusal::BadTable => "the table is not as the rules say",
            Refusal::BadRecord => "the record is not as the rules and its table say, or is over 4,096 bytes",
            Refusal::BadSyntax => "the format has bad syntax or no period, or is over 2,048 bytes",
            Refusal::UnknownName => "the format has a name that is not in the table",
            Refusal::UseRule => "the format breaks a use rule",
            Refusal::NamedTwice => "the update names an occurrence twice",
            Refusal::BeyondBuffer => "an item ends beyond the record buffer or beyond 32,767 bytes",
            Refusal::BadValue => "the record buffer has a bad value",
            Refusal::OutOfRange {} => "a value is outside the conversion range or does not fit",
            Refusal::NoRoom => "the new record is over 4,096 bytes or over the lent room",
            Refusal::Other(number) => {
                return write!(f, "refused by a number that this version does not know: {}", number)
            }
        })
    }
}

impl Error for Refusal {}

/// Why a read was refused, and which length the value needs that was refused. It turns into its [`Refusal`], so that `?` serves in a
/// function that returns one.
///
/// ```
/// # use lyrecanyon::{read_needing, Refusal};
/// fn weight(table: &[u8], job: &[u8], digits: &mut [u8; 5]) -> Result<(), Refusal> {
///     read_needing(table, job, b"\xC1\xC2\x6B\xF5\x6B\xE4\x4B", digits)?;
///     Ok(())
/// }
/// # assert_eq!(weight(&[], &[], &mut [0; 5]), Err(Refusal::BadTable));
/// ```
#[derive(Clone, Copy, Debug, PartialEq, Eq, Hash)]
#[non_exhaustive]
pub struct ReadRefusal {
    /// Why the read was refused.
    pub refusal: Refusal,
    /// With [`Refusal::OutOfRange`], the smallest length from 1 up, in the format in effect, that would have held the value. None where the
    /// value is outside the conversion range, so that no length would do, and with every other refusal.
    pub needed: Option<usize>,
}

impl ReadRefusal {
    /// The refusal that has a number, and the length needed, where 0 is none; the number 0 is no refusal.
    pub(crate) fn of(number: u8, needed: usize) -> Option<ReadRefusal> {
        let needed = Some(needed).filter(|&length| length != 0);
        Refusal::of(number).map(|refusal| ReadRefusal { refusal, needed })
    }
}

impl fmt::Display for ReadRefusal {
    fn fmt(&self, f: &mut fmt::Formatter<'_>) -> fmt::Result {
        match self.needed {
            Some(length) => write!(f, "{}: it needs length {}", self.refusal, length),
            None => fmt::Display::fmt(&self.refusal, f),
        }
    }
}

impl Error for ReadRefusal {}

impl From<ReadRefusal> for Refusal {
    fn from(refused: ReadRefusal) -> Refusal {
        refused.refusal
    }
}

#[cfg(test)]
mod tests {
    use super::{ReadRefusal, Refusal};

    #[test]
    fn numbers_go_there_and_back() {
        assert_eq!(Refusal::of(0), None);
        for number in 1..=255 {
            let refusal = Refusal::of(number).unwrap();
            assert_eq!(refusal.number(), number);
            assert_eq!(matches!(refusal, Refusal::Other(_)), number > 10);
        }
    }

    #[test]
    fn a_length_of_0_is_none() {
        assert_eq!(ReadRefusal::of(0, 0), None);
        let refused = |needed| ReadRefusal::of(9, needed).unwrap();
        assert_eq!((refused(0).needed, refused(5).needed), (None, Some(5)));
        assert_eq!(refused(0).to_string(), Refusal::OutOfRange {}.to_string());
        assert!(refused(5).to_string().ends_with(" does not fit: it needs length 5"));
        assert_eq!(Refusal::from(refused(5)), Refusal::OutOfRange {});
    }

    /// The names and sentences of the header, in the order of their numbers, are those of this crate.
    #[test]
    fn the_header_says_the_same() {
        let header = include_str!("../../../include/lyrecanyon.h");
        let meanings: Vec<&str> = header.lines().filter_map(|line| line.trim().strip_prefix("return \"")).collect();
        let names: Vec<&str> = header.lines().filter_map(|line| line.trim().strip_prefix("LYRECANYON_")).collect();
        for number in 1..=10 {
            let (refusal, at) = (Refusal::of(number).unwrap(), usize::from(number));
            let name = format!("{:?} = {}", refusal, number).to_lowercase();
            assert_eq!(meanings[at], format!("{}\";", refusal));
            assert_eq!(names[at].trim_end_matches(',').replace('_', "").to_lowercase(), name);
        }
    }
}
