//! Where a board is damaged, and how.

use crate::board::{list_place, FIRST_TABLE, QUERIES, SLICE_NAMES, SLOT_NUMBERS, STATE, STATE_NUMBERS};
use std::fmt;

pub const TABLES: usize = 6;
pub const FIELD_NAMES: [&str; SLOT_NUMBERS] = ["number", "kind", "range", "slide", "g", "order"];
pub const STATE_NAMES: [&str; STATE_NUMBERS] = [
    "n",
    "P",
    "open case",
    "open start",
    "open sum",
    "open max",
    "open min",
    "sums head",
    "sums len",
    "sums lap",
    "sums before",
    "max head",
    "max len",
    "M",
    "min head",
    "min len",
    "N",
    "query count",
];

/// How a number is altered.
#[derive(Clone, Copy, Debug, PartialEq)]
pub enum How {
    /// To any word.
    Word,
    /// One more.
    Up,
    /// One less.
    Down,
    /// One bit turned.
    Bit,
    /// To an upper end of a width.
    Huge,
    /// To any number below 5,000.
    Small,
    /// To the number of another place.
    Copy,
    /// To a limit of what stands there, or just outside.
    Edge,
    /// Exchanged with the number of another place.
    Swap,
    /// A stretch of a table.
    Run,
    /// The whole table.
    Whole,
}

pub const HOWS: [(How, &str); 11] = [
    (How::Word, "word"),
    (How::Up, "+1"),
    (How::Down, "-1"),
    (How::Bit, "bit"),
    (How::Huge, "huge"),
    (How::Small, "small"),
    (How::Copy, "copy"),
    (How::Edge, "edge"),
    (How::Swap, "swap"),
    (How::Run, "run"),
    (How::Whole, "whole"),
];

impl How {
    /// Whether a stretch of a table is altered, and not one number.
    pub fn is_stretch(self) -> bool {
        matches!(self, How::Run | How::Whole)
    }
}

/// Where a number is altered. The sixth field of a record is the place by ascending number at its slot.
#[derive(Clone, Copy, Debug, PartialEq)]
pub enum Site {
    State { number: usize },
    Record { slot: usize, field: usize, used: bool },
    Table { table: usize, place: usize },
}

/// The sites by kind: 18 numbers of the state, the fields of used records and of unused ones, six tables.
pub const SITES: usize = STATE_NUMBERS + 2 * SLOT_NUMBERS + TABLES;

impl Site {
    /// The row of its kind.
    pub fn row(self) -> usize {
        match self {
            Site::State { number } => number,
            Site::Record { field, used: true, .. } => STATE_NUMBERS + field,
            Site::Record { field, .. } => STATE_NUMBERS + SLOT_NUMBERS + field,
            Site::Table { table, .. } => STATE_NUMBERS + 2 * SLOT_NUMBERS + table,
        }
    }

    /// The slice and the place in it.
    pub fn place(self) -> (usize, usize) {
        match self {
            Site::State { number } => (STATE, number),
            Site::Record { slot, field, .. } => (QUERIES, list_place(field, slot)),
            Site::Table { table, place } => (FIRST_TABLE + table, place),
        }
    }
}

/// The name of a site's row.
pub fn row_name(row: usize) -> String {
    let (records, tables) = (STATE_NUMBERS, STATE_NUMBERS + 2 * SLOT_NUMBERS);
    if row < records {
        format!("state {row} {}", STATE_NAMES[row])
    } else if row < tables {
        let (unused, field) = ((row - records) / SLOT_NUMBERS, (row - records) % SLOT_NUMBERS);
        format!("{} record {}", ["used", "unused"][unused], FIELD_NAMES[field])
    } else {
        format!("table {}", SLICE_NAMES[FIRST_TABLE + row - tables])
    }
}

/// What was done to a board.
#[derive(Clone, Copy, Debug)]
pub enum Damage {
    /// One number, two that were exchanged, or a stretch of a table that begins there.
    At { site: Site, how: How, before: u64, after: u64 },
    /// Every place of everything, with any number.
    Arbitrary,
    /// Every place, with numbers that a state could have: most calls accept it.
    Plausible,
}

impl fmt::Display for Damage {
    fn fmt(&self, f: &mut fmt::Formatter<'_>) -> fmt::Result {
        match self {
            Damage::At { site, how, before, after } => write!(f, "{site:?} {how:?} {before} -> {after}"),
            Damage::Arbitrary => write!(f, "arbitrary board"),
            Damage::Plausible => write!(f, "plausible board"),
        }
    }
}
