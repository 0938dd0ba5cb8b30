//! Everything is asked through the public calls. The widths and the records
//! are set down here once more by hand, so that a slip in the library's
//! tables shows.

mod build;
mod cases;
mod grid;
mod listing;
mod noise;
mod reading_writing;
mod readings;
