//! Deliveries of an exact size, for measuring.

use crate::lawful::{lawful, Size};
use crate::model::{write, Files};
use crate::random::Random;

/// No file may be longer than the bytes of so many records.
pub const MOST_RECORDS: usize = 16_384;

/// A lawful delivery with exactly `n` records (8 to 16,384) in each file but
/// OB_COMP, which is empty, in no order.
pub fn full(random: &mut Random, n: usize) -> Files {
    write(&lawful(random, Size::Exact(n)))
}

/// The same with `n` composites as well.
pub fn composed(random: &mut Random, n: usize) -> Files {
    write(&lawful(random, Size::Composed(n)))
}
