//! The key directory of document 01 once more, written from that document and FIPS 180-4 and from nothing of this repository, with the
//! standard library alone. The test `differ` holds the proved directory to it, and measurements compare the two.
//!
//! Every function is over plain slices. A refusal is `Err` of document 01's number; then nothing that was lent is changed.

pub mod bits;
pub mod check;
pub mod line;
pub mod plan;
pub mod publish;
pub mod sha256;
pub mod strings;
pub mod table;
pub mod tree;
pub mod write;

pub use bits::first_difference;
pub use check::{check_audit, check_history, check_lookup, Audited, Found, Shown};
pub use line::program_line;
pub use plan::history_paths;
pub use publish::{publish, start};
pub use sha256::sha256;
pub use table::State;
pub use tree::{tree_path, tree_root};
pub use write::{write_audit, write_history, write_lookup};

/// The numbers that say no.
pub mod no {
    pub const INPUT: u8 = 1;
    pub const FORM: u8 = 2;
    pub const HEAD: u8 = 3;
    pub const ROOT: u8 = 4;
    pub const RULE: u8 = 5;
    pub const FULL: u8 = 6;
    pub const CLASH: u8 = 7;
    pub const ROOM: u8 = 8;
    pub const TWICE: u8 = 9;
    pub const EPOCH: u8 = 10;
    pub const TABLE: u8 = 11;
}

/// A test: its number if it fails.
pub(crate) fn need(holds: bool, number: u8) -> Result<(), u8> {
    if holds {
        Ok(())
    } else {
        Err(number)
    }
}
