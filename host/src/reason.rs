//! The reasons by name, each with document 01's number.

use std::fmt;

use crate::words::{self, Words};

/// Why a delivery, a record or a value is refused. Its number is the one that the verdict's line
/// and the C header have; [`Reason::words`] says it in plain words.
#[derive(Clone, Copy, Debug, PartialEq, Eq, PartialOrd, Ord, Hash)]
#[non_exhaustive]
#[repr(u8)]
pub enum Reason {
    /// A file is longer than 16,384 records' bytes.
    LongFile = 10,
    /// A file's length is no multiple of the record's length.
    RaggedFile = 11,
    /// A record does not end in 0D 0A.
    BadEnd = 20,
    /// There is no bar after a field.
    NoBar = 21,
    /// An N field is neither all digits nor all blanks.
    NotNumber = 22,
    /// An A field has a byte that no text may have, begins in a blank, or begins or ends in A0.
    NotText = 23,
    /// A field is missing that may not be, or is blank while its partner isn't.
    Missing = 24,
    /// A field is outside its domain.
    Outside = 25,
    /// A key equals that of an earlier record of the file.
    SameKey = 30,
    /// A reference names no record.
    NoRecord = 40,
    /// A code is catalogued under another type than the file's.
    OtherType = 41,
    /// A vertex has order 0, or its line has no order one less.
    OrderGap = 50,
    /// A vertex has order 1 and its line no order 2.
    OrderAlone = 51,
    /// A line's first vertex lies elsewhere than the start node.
    StartElsewhere = 52,
    /// A line's last vertex lies elsewhere than the end node.
    EndElsewhere = 53,
    /// A node has the X, Y and Z of an earlier one.
    SamePlace = 54,
    /// A point object lies elsewhere than the node it names.
    PointElsewhere = 55,
    /// A node stands alone, and fewer than two point objects name it.
    IdleNode = 56,
    /// A linear object is named by no tramo.
    IdleObject = 57,
    /// A node's TIPO says another kind of node than it is.
    OtherKind = 58,
    /// A tramo's line has no last vertex; never told first.
    NoLastVertex = 59,
    /// There is no file of the number.
    NoFile = 60,
    /// The lent room is too short.
    ShortRoom = 61,
    /// A value is too large for its digits.
    TooLarge = 62,
    /// A text does not fit its field.
    BadText = 63,
    /// A value is missing that may not be.
    NotGiven = 64,
    /// A value is outside its domain.
    Unfit = 65,
    /// There is no such record.
    NoSuchRecord = 66,
    /// A cell of two grids' sum is over 9,999,999,999.
    SumTooLarge = 67,
    /// A composite object is named by no object.
    IdleComposite = 70,
}

impl Reason {
    /// Every reason, by number.
    pub const ALL: [Reason; 30] = [
        Reason::LongFile,
        Reason::RaggedFile,
        Reason::BadEnd,
        Reason::NoBar,
        Reason::NotNumber,
        Reason::NotText,
        Reason::Missing,
        Reason::Outside,
        Reason::SameKey,
        Reason::NoRecord,
        Reason::OtherType,
        Reason::OrderGap,
        Reason::OrderAlone,
        Reason::StartElsewhere,
        Reason::EndElsewhere,
        Reason::SamePlace,
        Reason::PointElsewhere,
        Reason::IdleNode,
        Reason::IdleObject,
        Reason::OtherKind,
        Reason::NoLastVertex,
        Reason::NoFile,
        Reason::ShortRoom,
        Reason::TooLarge,
        Reason::BadText,
        Reason::NotGiven,
        Reason::Unfit,
        Reason::NoSuchRecord,
        Reason::SumTooLarge,
        Reason::IdleComposite,
    ];

    /// The reason's number, 10 to 70.
    #[must_use]
    pub const fn number(self) -> u8 {
        self as u8
    }

    /// The reason of a number, if there is one.
    #[must_use]
    pub fn of(number: u8) -> Option<Reason> {
        Reason::ALL.into_iter().find(|each| each.number() == number)
    }

    /// What the reason means and what to do about it.
    #[must_use]
    pub const fn words(self) -> Words {
        words::of(self)
    }
}

/// The number and what is wrong, as `reason 53: the line ends elsewhere than its end node`.
impl fmt::Display for Reason {
    fn fmt(&self, out: &mut fmt::Formatter<'_>) -> fmt::Result {
        let wrong = self.words().wrong;
        let first = wrong.chars().take(1).flat_map(char::to_lowercase);
        let rest = wrong.chars().skip(1);
        let words: String = first.chain(rest).collect();
        write!(
            out,
            "reason {}: {}",
            self.number(),
            words.trim_end_matches('.')
        )
    }
}
