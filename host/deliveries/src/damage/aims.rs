//! What can be aimed at, in one table.

use std::fmt;

/// What a damage aims at. The table below says each one's meaning.
#[derive(Clone, Copy, Debug, PartialEq, Eq, PartialOrd, Ord, Hash)]
pub enum Aim {
    // Reasons 10 to 25.
    TooLong,
    RaggedEnd,
    RecordEnd,
    NoBar,
    BrokenNumber,
    BrokenText,
    NoBreakPadding,
    MissingField,
    MissingPartner,
    OutsideDomain,
    MinusZero,
    // Reasons 30 to 41.
    DoubledKey,
    UnknownComposite,
    PerimeterGiven,
    UnknownCode,
    UnknownNode,
    UnknownLinear,
    UnknownLine,
    UnusedLine,
    CodeOfOtherType,
    // Reasons 50 to 58.
    OrderZero,
    OrderGap,
    SingleVertex,
    StartElsewhere,
    EndElsewhere,
    TwinNode,
    PointElsewhere,
    IdleNode,
    IdleLinear,
    OtherKind,
    // Reason 70.
    IdleComposite,
    // Mistakes of a converter.
    OrderAsText,
    OrderByPlace,
    TurnedSense,
    BlankIdAsZero,
    // Near misses.
    AtTheLimit,
    VertexHeight,
    NodeHeight,
    PointHeight,
    NodeAbove,
    EndNodeAbove,
    NodeAtMiddle,
    NodeHeldByPoints,
    PointLetsGo,
    SecondTramo,
    SenseChanged,
    LineIdSpelled,
    VertexRemoved,
    VertexAdded,
    MinusBeforeNonzero,
    Mirrored,
    CompositeAdded,
    ObjectMoves,
    RenamedId,
    UnusedCode,
    NodeType,
    OptionalFields,
    BarInText,
    NoBreakWithin,
    NaInName,
    FreeWords,
    RecordsSwapped,
    Reshuffled,
    AllEmpty,
    // Blunt damage.
    ChangedByte,
    NastyByte,
    ByteInserted,
    ByteRemoved,
    Truncated,
    RecordRemoved,
    RecordDoubled,
    FilesSwapped,
    FileEmptied,
    RandomFile,
    MixedPair,
    MixedRecord,
    MixedOrders,
    MixedTramo,
    MixedComposites,
}

/// What a damage works on. Damage to the values writes all files anew, and so
/// has to come before damage to the bytes.
#[derive(Clone, Copy, Debug, PartialEq, Eq, PartialOrd, Ord)]
pub enum Layer {
    Values,
    Bytes,
}

/// What an aim brings about when it is applied, alone, to a lawful delivery.
#[derive(Clone, Copy, Debug, PartialEq, Eq)]
pub enum Outcome {
    /// There is a break of this reason, perhaps others of the same ten or
    /// above, and none of a lower ten.
    Broken(u8),
    /// The delivery stays lawful.
    Lawful,
    /// Nothing is promised.
    Open,
}

use Layer::{Bytes, Values};
use Outcome::{Broken, Lawful, Open};

type Row = (Aim, Layer, Outcome, &'static str);

// One row, one line.
#[rustfmt::skip]
const TABLE: &[Row] = &[
    (Aim::TooLong, Bytes, Broken(10), "a file longer than 16,384 records' bytes"),
    (Aim::RaggedEnd, Bytes, Broken(11), "a file with part of a record at its end"),
    (Aim::RecordEnd, Bytes, Broken(20), "a record that doesn't end in 0D 0A"),
    (Aim::NoBar, Bytes, Broken(21), "another byte in a bar's place"),
    (Aim::BrokenNumber, Bytes, Broken(22), "a number neither all digits nor all blanks"),
    (Aim::BrokenText, Bytes, Broken(23), "a text after a blank or with a byte outside the A set"),
    (Aim::NoBreakPadding, Bytes, Broken(23), "a text that begins or ends in a no-break blank"),
    (Aim::MissingField, Bytes, Broken(24), "a field missing that may not be"),
    (Aim::MissingPartner, Bytes, Broken(24), "a sign without number, a number without sign, or part of a centroid"),
    (Aim::OutsideDomain, Bytes, Broken(25), "a type, sign, sense, orientation or justification outside its domain"),
    (Aim::MinusZero, Bytes, Broken(25), "- before zero"),
    (Aim::DoubledKey, Values, Broken(30), "two records of a file with one key"),
    (Aim::UnknownComposite, Values, Broken(40), "an object naming no composite"),
    (Aim::PerimeterGiven, Values, Broken(40), "a perimeter id, which has no file"),
    (Aim::UnknownCode, Values, Broken(40), "a code that isn't catalogued"),
    (Aim::UnknownNode, Values, Broken(40), "a point object or tramo naming no node"),
    (Aim::UnknownLinear, Values, Broken(40), "a tramo naming no linear object"),
    (Aim::UnknownLine, Values, Broken(40), "a tramo whose line, named or of its own id, has no vertex"),
    (Aim::UnusedLine, Values, Broken(40), "vertices of a line that no tramo uses"),
    (Aim::CodeOfOtherType, Values, Broken(41), "a code catalogued under another type"),
    (Aim::OrderZero, Values, Broken(50), "a vertex of order 0"),
    (Aim::OrderGap, Values, Broken(50), "a gap in a line's orders"),
    (Aim::SingleVertex, Values, Broken(51), "a vertex of order 1 without an order 2"),
    (Aim::StartElsewhere, Values, Broken(52), "a start node away from its line's order 1 in X or Y"),
    (Aim::EndElsewhere, Values, Broken(53), "an end node away from its line's highest order in X or Y"),
    (Aim::TwinNode, Values, Broken(54), "two nodes with one X, Y and Z, or Z missing in both"),
    (Aim::PointElsewhere, Values, Broken(55), "a point object away from its node in X or Y"),
    (Aim::IdleNode, Values, Broken(56), "a node that nothing holds, or one point object alone"),
    (Aim::IdleLinear, Values, Broken(57), "a linear object that no tramo names"),
    (Aim::OtherKind, Values, Broken(58), "a node whose TIPO is not that of what it is"),
    (Aim::IdleComposite, Values, Broken(70), "a composite that no object names"),
    (Aim::OrderAsText, Values, Broken(53), "a line renumbered after its orders were sorted as unpadded text"),
    (Aim::OrderByPlace, Values, Open, "a line renumbered by place in the file"),
    (Aim::TurnedSense, Values, Broken(52), "a tramo's nodes changed over under sense -"),
    (Aim::BlankIdAsZero, Values, Open, "blank ids written as 0"),
    (Aim::AtTheLimit, Values, Lawful, "a file of exactly 16,384 records"),
    (Aim::VertexHeight, Values, Lawful, "another Z at a line's end"),
    (Aim::NodeHeight, Values, Lawful, "another Z of a node"),
    (Aim::PointHeight, Values, Lawful, "another Z of a point object on a node"),
    (Aim::NodeAbove, Values, Lawful, "a further node at a node's X and Y with another Z"),
    (Aim::EndNodeAbove, Values, Lawful, "a tramo's end given to a further node of another Z there"),
    (Aim::NodeAtMiddle, Values, Lawful, "a further node at a middle vertex"),
    (Aim::NodeHeldByPoints, Values, Lawful, "a further node that only two point objects hold"),
    (Aim::PointLetsGo, Values, Lawful, "a point object without its node id, the node held otherwise"),
    (Aim::SecondTramo, Values, Lawful, "a further tramo over a line"),
    (Aim::SenseChanged, Values, Lawful, "another sense of a tramo"),
    (Aim::LineIdSpelled, Values, Lawful, "a line id equal to the tramo's own, blanked or filled in"),
    (Aim::VertexRemoved, Values, Lawful, "a middle vertex removed, the rest renumbered"),
    (Aim::VertexAdded, Values, Lawful, "a middle vertex added, the rest renumbered"),
    (Aim::MinusBeforeNonzero, Values, Lawful, "a free position or centroid below zero"),
    (Aim::Mirrored, Values, Lawful, "all X, all Y or all Z with the other sign"),
    (Aim::CompositeAdded, Values, Lawful, "a further composite that an object names"),
    (Aim::ObjectMoves, Values, Lawful, "an object of another composite or of none, its own named by others"),
    (Aim::RenamedId, Values, Lawful, "an id changed everywhere"),
    (Aim::UnusedCode, Values, Lawful, "a further code that nothing uses"),
    (Aim::NodeType, Values, Lawful, "another TIPO of a node that agrees with what it is"),
    (Aim::OptionalFields, Values, Lawful, "optional fields blanked or filled in"),
    (Aim::BarInText, Values, Lawful, "a bar within a text"),
    (Aim::NoBreakWithin, Values, Lawful, "a no-break blank within a text, or the byte beside it at an end"),
    (Aim::NaInName, Values, Lawful, "NA or ND as a name"),
    (Aim::FreeWords, Values, Lawful, "other words in all free texts"),
    (Aim::RecordsSwapped, Bytes, Lawful, "two records of a file changed over"),
    (Aim::Reshuffled, Values, Lawful, "all records in another order"),
    (Aim::AllEmpty, Values, Lawful, "all files empty"),
    (Aim::ChangedByte, Bytes, Open, "any byte changed to any other"),
    (Aim::NastyByte, Bytes, Open, "any byte changed to a telling one"),
    (Aim::ByteInserted, Bytes, Broken(11), "a byte inserted"),
    (Aim::ByteRemoved, Bytes, Broken(11), "a byte removed"),
    (Aim::Truncated, Bytes, Open, "a file cut at any length"),
    (Aim::RecordRemoved, Bytes, Open, "a record removed"),
    (Aim::RecordDoubled, Bytes, Broken(30), "a record doubled"),
    (Aim::FilesSwapped, Bytes, Open, "two files changed over"),
    (Aim::FileEmptied, Bytes, Open, "a file emptied"),
    (Aim::RandomFile, Bytes, Open, "random bytes for a file"),
    (Aim::MixedPair, Bytes, Open, "a sign and its number each present, missing or damaged"),
    (Aim::MixedRecord, Bytes, Open, "many fields of a record blanked, filled or damaged"),
    (Aim::MixedOrders, Values, Open, "a line's orders drawn anew from 0 on"),
    (Aim::MixedTramo, Values, Open, "a tramo's references drawn anew"),
    (Aim::MixedComposites, Values, Open, "all objects' composites drawn anew"),
];

/// Every aim there is.
pub const AIMS: [Aim; TABLE.len()] = {
    let mut aims = [Aim::TooLong; TABLE.len()];
    let mut place = 0;
    while place < TABLE.len() {
        aims[place] = TABLE[place].0;
        place += 1;
    }
    aims
};

impl Aim {
    fn row(self) -> &'static Row {
        &TABLE[self as usize]
    }

    pub fn layer(self) -> Layer {
        self.row().1
    }

    pub fn outcome(self) -> Outcome {
        self.row().2
    }

    /// The delivery stays lawful if it was.
    pub fn is_near_miss(self) -> bool {
        self.outcome() == Lawful
    }

    /// The aim makes a file of 16,384 records or more.
    pub fn is_big(self) -> bool {
        matches!(self, Aim::TooLong | Aim::AtTheLimit)
    }

    /// What the aim is, without its outcome.
    pub fn words(self) -> &'static str {
        self.row().3
    }
}

impl fmt::Display for Aim {
    fn fmt(&self, out: &mut fmt::Formatter<'_>) -> fmt::Result {
        match self.outcome() {
            Broken(reason) => write!(out, "{:?}, for reason {}: ", self, reason)?,
            Lawful => write!(out, "{:?}, a near miss: ", self)?,
            Open => write!(out, "{:?}, blunt: ", self)?,
        }
        out.write_str(self.words())
    }
}
