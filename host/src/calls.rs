//! The C calls of canopyrail.h as safe functions. All unsafe code of the library's host side is
//! here, but for one line of verdict.rs that hands a caller's promise on.
//!
//! What makes every block below sound: a Rust slice or array is valid for its length, aligned for
//! its type and at most `isize::MAX` bytes long; its pointer is never null, not even at length 0; a
//! call only borrows, keeps nothing, and writes nothing but memory that is passed here as `&mut`,
//! which overlaps no other. Every call but those that judge takes less than 64 KiB of stack
//! (examples/stack.c measures it), and a stack with less left is met at its guard page
//! (tests/guard.c), as with any function.

use std::io;
use std::panic;
use std::thread;

use crate::Reason;

/// How many files a delivery has.
pub const FILES: usize = 8;
/// The most fields a record has.
pub const FIELDS: usize = 14;
/// The bytes of the longest text.
pub const TEXT: usize = 60;
/// How many groups of reasons there are, by their tens.
pub const GROUPS: usize = 6;
/// How many cells a grid has.
const CELLS: usize = FILES * GROUPS;
/// A judging takes at most so many bytes of stack: `CANOPYRAIL_STACK` of the header.
pub const STACK: usize = 4 * 1024 * 1024;
/// What a judging thread's own start and end may take beside it.
const BESIDE: usize = 256 * 1024;

/// The values of one record, laid out as the calls take them: the value of field f at index f - 1.
pub struct Lent {
    pub numbers: [u64; FIELDS],
    pub coordinates: [i64; FIELDS],
    /// 0: missing. Of a text its bytes; of a number or a coordinate not 0.
    pub lengths: [usize; FIELDS],
    pub texts: [u8; FIELDS * TEXT],
}

impl Lent {
    pub fn missing() -> Lent {
        Lent {
            numbers: [0; FIELDS],
            coordinates: [0; FIELDS],
            lengths: [0; FIELDS],
            texts: [b' '; FIELDS * TEXT],
        }
    }
}

/// A file's bytes as the call takes them: `canopyrail_bytes` of the header.
#[repr(C)]
struct Bytes {
    bytes: *const u8,
    len: usize,
}

/// Counts of breaks: a row for each file, and in it a cell for each group. As the calls take them,
/// the cells of one row after those of another.
pub type Rows = [[u64; GROUPS]; FILES];

/// What an answer tells, taken apart.
pub struct Told {
    pub reason: Reason,
    pub file: usize,
    pub record: usize,
    pub field: usize,
    pub other: u64,
}

#[rustfmt::skip]
extern "C" {
    fn canopyrail_version() -> u64;
    fn canopyrail_judge(files: *const Bytes, n: usize) -> u64;
    fn canopyrail_grid(files: *const Bytes, n: usize, cells: *mut u64, cells_len: usize) -> u64;
    fn canopyrail_grid_add(
        into: *mut u64, into_len: usize,
        from: *const u64, from_len: usize,
    ) -> u64;
    fn canopyrail_reason(answer: u64) -> u64;
    fn canopyrail_file(answer: u64) -> u64;
    fn canopyrail_record(answer: u64) -> u64;
    fn canopyrail_field(answer: u64) -> u64;
    fn canopyrail_other(answer: u64) -> u64;
    fn canopyrail_count(file: usize, bytes: *const u8, len: usize) -> usize;
    fn canopyrail_fields(file: usize) -> usize;
    fn canopyrail_length(file: usize) -> usize;
    fn canopyrail_offset(file: usize, field: usize) -> usize;
    fn canopyrail_width(file: usize, field: usize) -> usize;
    fn canopyrail_form(file: usize, field: usize) -> usize;
    fn canopyrail_read(
        file: usize, bytes: *const u8, len: usize, n: usize,
        numbers: *mut u64, numbers_len: usize,
        coordinates: *mut i64, coordinates_len: usize,
        lengths: *mut usize, lengths_len: usize,
        texts: *mut u8, texts_len: usize,
    ) -> u64;
    fn canopyrail_write(
        file: usize,
        numbers: *const u64, numbers_len: usize,
        coordinates: *const i64, coordinates_len: usize,
        lengths: *const usize, lengths_len: usize,
        texts: *const u8, texts_len: usize,
        room: *mut u8, room_len: usize,
    ) -> u64;
}

pub fn version() -> u64 {
    // SAFETY: a number is answered; no memory is lent.
    unsafe { canopyrail_version() }
}

/// Judges on a thread of its own. The error is the system's, where no thread can be made.
pub fn judge(files: &[&[u8]; FILES]) -> io::Result<u64> {
    // SAFETY: the thread has STACK bytes for the judging.
    on_a_thread(|| unsafe { judge_here(files) })
}

/// Judges on this thread.
///
/// # Safety
///
/// The thread has STACK bytes of stack left.
pub unsafe fn judge_here(files: &[&[u8]; FILES]) -> u64 {
    let lent = lent(files);
    // SAFETY: an array with its length, and in it slices, each with its own; the call only reads
    // them. It has the stack that it takes.
    unsafe { canopyrail_judge(lent.as_ptr(), lent.len()) }
}

/// Counts the breaks on a thread of its own. The error is the system's, where no thread can be made.
pub fn grid(files: &[&[u8]; FILES]) -> io::Result<Rows> {
    // SAFETY: the thread has STACK bytes for the counting.
    on_a_thread(|| unsafe { grid_here(files) })
}

/// Counts the breaks on this thread.
///
/// # Panics
///
/// Where a grid has more cells than this crate knows, which is so in an archive of another version.
///
/// # Safety
///
/// The thread has STACK bytes of stack left.
pub unsafe fn grid_here(files: &[&[u8]; FILES]) -> Rows {
    let lent = lent(files);
    let mut rows = Rows::default();
    let cells = rows.as_mut_ptr().cast();
    // SAFETY: as in judging; and an array apart from those, lent for writing with the length in
    // numbers that its rows have together.
    let answer = unsafe { canopyrail_grid(lent.as_ptr(), lent.len(), cells, CELLS) };
    // A grid that was refused is all zeros still, and would look like an accepted delivery's.
    assert_eq!(answer, 0, "libcanopyrail.a is of another version");
    rows
}

/// Adds the second to the first.
pub fn grid_add(into: &mut Rows, from: &Rows) -> u64 {
    // SAFETY: two arrays apart from each other, each with the length in numbers that its rows have
    // together; the second is only read.
    unsafe { canopyrail_grid_add(into.as_mut_ptr().cast(), CELLS, from.as_ptr().cast(), CELLS) }
}

fn lent(files: &[&[u8]; FILES]) -> [Bytes; FILES] {
    files.map(|file| Bytes {
        bytes: file.as_ptr(),
        len: file.len(),
    })
}

/// Does work that judges on a thread of its own, whose stack is known to do: a safe function may
/// not ask for more stack than its caller has.
fn on_a_thread<T: Send>(work: impl FnOnce() -> T + Send) -> io::Result<T> {
    thread::scope(|scope| {
        let thread = thread::Builder::new()
            .name("judging".to_string())
            .stack_size(STACK + BESIDE)
            .spawn_scoped(scope, work)?;
        Ok(thread
            .join()
            .unwrap_or_else(|panic| panic::resume_unwind(panic)))
    })
}

/// What an answer tells; nothing where nothing is wrong.
///
/// # Panics
///
/// On a reason that this crate doesn't know, which only an archive of another version answers.
pub fn told(answer: u64) -> Option<Told> {
    if answer == 0 {
        return None;
    }
    let [reason, file, record, field, other] = parts(answer);
    // Each number has as many digits as the header names, so nothing is cut off.
    let reason = Reason::of(reason as u8)
        .unwrap_or_else(|| panic!("libcanopyrail.a is of another version: reason {reason}"));
    Some(Told {
        reason,
        file: file as usize,
        record: record as usize,
        field: field as usize,
        other,
    })
}

/// Reason, file, record, field and what else the reason tells.
fn parts(answer: u64) -> [u64; 5] {
    // SAFETY: five functions of a number; no memory is lent.
    unsafe {
        [
            canopyrail_reason(answer),
            canopyrail_file(answer),
            canopyrail_record(answer),
            canopyrail_field(answer),
            canopyrail_other(answer),
        ]
    }
}

pub fn count(file: usize, bytes: &[u8]) -> usize {
    // SAFETY: a slice with its length; the call only reads it.
    unsafe { canopyrail_count(file, bytes.as_ptr(), bytes.len()) }
}

pub fn fields(file: usize) -> usize {
    // SAFETY: a function of a number; no memory is lent.
    unsafe { canopyrail_fields(file) }
}

pub fn length(file: usize) -> usize {
    // SAFETY: a function of a number; no memory is lent.
    unsafe { canopyrail_length(file) }
}

pub fn offset(file: usize, field: usize) -> usize {
    // SAFETY: a function of two numbers; no memory is lent.
    unsafe { canopyrail_offset(file, field) }
}

pub fn form(file: usize, field: usize) -> usize {
    // SAFETY: a function of two numbers; no memory is lent.
    unsafe { canopyrail_form(file, field) }
}

pub fn width(file: usize, field: usize) -> usize {
    // SAFETY: a function of two numbers; no memory is lent.
    unsafe { canopyrail_width(file, field) }
}

#[rustfmt::skip]
pub fn read(file: usize, bytes: &[u8], record: usize, values: &mut Lent) -> u64 {
    // SAFETY: a slice that is only read, and four arrays apart from it and from each other, each
    // with its own length in elements. Every bit pattern of their numbers is a value, so whatever
    // is written leaves them whole.
    unsafe {
        canopyrail_read(
            file, bytes.as_ptr(), bytes.len(), record,
            values.numbers.as_mut_ptr(), values.numbers.len(),
            values.coordinates.as_mut_ptr(), values.coordinates.len(),
            values.lengths.as_mut_ptr(), values.lengths.len(),
            values.texts.as_mut_ptr(), values.texts.len(),
        )
    }
}

#[rustfmt::skip]
pub fn write(file: usize, values: &Lent, room: &mut [u8]) -> u64 {
    // SAFETY: four arrays that are only read, each with its own length in elements, and a slice
    // apart from them, lent for writing with its own length.
    unsafe {
        canopyrail_write(
            file,
            values.numbers.as_ptr(), values.numbers.len(),
            values.coordinates.as_ptr(), values.coordinates.len(),
            values.lengths.as_ptr(), values.lengths.len(),
            values.texts.as_ptr(), values.texts.len(),
            room.as_mut_ptr(), room.len(),
        )
    }
}
