//! A break, and who hears of it.
//!
//! Each rule stands once and tells every break it finds. Whoever listens says
//! whether the search goes on: the verdict leaves at the first break, the grid
//! counts them all.

/// A broken rule and its place.
#[derive(Clone, Copy, Debug, PartialEq, Eq)]
pub struct Break {
    /// The reason's number in document 01.
    pub reason: u8,
    /// The file, 1 to 8.
    pub file: usize,
    /// The record, 0 for a file that is too long.
    pub record: usize,
    /// The field, 0 for the whole record.
    pub field: usize,
    /// What else there is to tell: of 30 and 54 the earlier record, of 41 the
    /// letter that the code is catalogued under, as a byte; else 0.
    pub other: u64,
}

/// File, record and field, the record counted from 0 as the loops count it.
pub(crate) type Place = (usize, usize, usize);

/// A break at a place, with what else there is to tell.
pub(crate) fn broken(reason: u8, (file, i, field): Place, other: u64) -> Break {
    Break {
        reason,
        file,
        record: i + 1,
        field,
        other,
    }
}

/// A record as it is told, counted from 1.
pub(crate) fn told(i: usize) -> u64 {
    i as u64 + 1
}

/// Hears the breaks in the order of ten, file, record, field and reason.
pub(crate) trait Listener {
    /// What is known when the rules need not be read any further.
    type Stop;

    /// Told of each break.
    fn hear(&mut self, found: Break) -> Result<(), Self::Stop>;

    /// Told after each ten. A listener that has heard of a break has to stop
    /// here: the next ten is read only of deliveries that broke none before.
    fn end_ten(&mut self) -> Result<(), Self::Stop>;

    /// Tells a break unless the rule holds.
    fn ensure(&mut self, holds: bool, reason: u8, place: Place) -> Result<(), Self::Stop> {
        if holds {
            Ok(())
        } else {
            self.hear(broken(reason, place, 0))
        }
    }
}

/// Stops at the first break.
pub(crate) struct First;

impl Listener for First {
    type Stop = Break;

    fn hear(&mut self, found: Break) -> Result<(), Break> {
        Err(found)
    }

    fn end_ten(&mut self) -> Result<(), Break> {
        Ok(())
    }
}
