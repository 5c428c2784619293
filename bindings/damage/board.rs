//! Everything that a call is lent.

use crate::places::{Places, Slice};

pub const STATE_NUMBERS: usize = 18;
/// The state number that is n.
pub const N: usize = 0;
/// The state number that is P.
pub const P: usize = 1;
/// The state number that is the query count.
pub const QUERY_COUNT: usize = 17;
/// The fields of a record of the query list.
pub const FIELDS: usize = 5;
/// Counted as a sixth field of a slot: the place by ascending number there. These stand after all records.
pub const ORDER: usize = FIELDS;
pub const SLOT_NUMBERS: usize = FIELDS + 1;
pub const QUERY_LIMIT: usize = 32;
pub const TABLE_PLACES: usize = 4_096;
pub const ANSWER_PLACES: usize = 4;

/// The eight slices in the order of the calls: state, query list, six tables.
pub const SLICES: usize = 8;
pub const STATE: usize = 0;
pub const QUERIES: usize = 1;
pub const FIRST_TABLE: usize = 2;
pub const SLICE_NAMES: [&str; SLICES] =
    ["state", "queries", "starts", "sums", "max_starts", "max_values", "min_starts", "min_values"];

/// Where a field of a record, or the place by ascending number of a slot, stands in the query list.
pub fn list_place(field: usize, slot: usize) -> usize {
    if field == ORDER {
        FIELDS * QUERY_LIMIT + slot
    } else {
        FIELDS * slot + field
    }
}

pub struct Board {
    pub state: Places<u64>,
    pub queries: Places<u32>,
    pub starts: Places<u32>,
    pub sums: Places<i64>,
    pub max_starts: Places<u32>,
    pub max_values: Places<i32>,
    pub min_starts: Places<u32>,
    pub min_values: Places<i32>,
    pub answers: Places<i64>,
    pub answered: Places<usize>,
    pub totals: Places<u64>,
}

impl Board {
    /// A board of which nothing is known but that all places hold a pattern. With `exact` each call is lent
    /// allocations of just the lent length.
    pub fn new(exact: bool) -> Board {
        Board {
            state: Places::new(STATE_NUMBERS, exact),
            queries: Places::new(SLOT_NUMBERS * QUERY_LIMIT, exact),
            starts: Places::new(TABLE_PLACES, exact),
            sums: Places::new(TABLE_PLACES, exact),
            max_starts: Places::new(TABLE_PLACES, exact),
            max_values: Places::new(TABLE_PLACES, exact),
            min_starts: Places::new(TABLE_PLACES, exact),
            min_values: Places::new(TABLE_PLACES, exact),
            answers: Places::new(ANSWER_PLACES * QUERY_LIMIT, exact),
            answered: Places::new(1, exact),
            totals: Places::new(4, exact),
        }
    }

    pub fn slice(&self, slice: usize) -> &dyn Slice {
        let all: [&dyn Slice; SLICES] = [
            &self.state,
            &self.queries,
            &self.starts,
            &self.sums,
            &self.max_starts,
            &self.max_values,
            &self.min_starts,
            &self.min_values,
        ];
        all[slice]
    }

    pub fn slice_mut(&mut self, slice: usize) -> &mut dyn Slice {
        let all: [&mut dyn Slice; SLICES] = [
            &mut self.state,
            &mut self.queries,
            &mut self.starts,
            &mut self.sums,
            &mut self.max_starts,
            &mut self.max_values,
            &mut self.min_starts,
            &mut self.min_values,
        ];
        all.into_iter().nth(slice).expect("one of the eight slices")
    }

    /// The record of a place in the query list.
    pub fn record(&self, slot: usize) -> [u32; FIELDS] {
        std::array::from_fn(|field| self.queries.values()[list_place(field, slot)])
    }

    /// The places by ascending number.
    pub fn order(&self) -> &[u32] {
        &self.queries.values()[list_place(ORDER, 0)..]
    }

    /// Whether guards and places beyond those that a call may write hold their pattern; the answers' own apart.
    pub fn frames_hold(&self) -> bool {
        (0..SLICES).all(|slice| self.slice(slice).frame_holds())
            && self.answers.frame_holds()
            && self.answered.frame_holds()
            && self.totals.frame_holds()
    }

    /// Fills what readings and totals calls write with the pattern.
    pub fn refill_replies(&mut self) {
        self.answers.refill();
        self.answered.refill();
        self.totals.refill();
    }

    /// Whether the six tables are equal.
    pub fn same_tables(&self, other: &Board) -> bool {
        self.starts.same(&other.starts)
            && self.sums.same(&other.sums)
            && self.max_starts.same(&other.max_starts)
            && self.max_values.same(&other.max_values)
            && self.min_starts.same(&other.min_starts)
            && self.min_values.same(&other.min_values)
    }

    /// Whether what only a reading and a totals call write is equal.
    pub fn same_replies(&self, other: &Board) -> bool {
        self.answers.same(&other.answers) && self.answered.same(&other.answered) && self.totals.same(&other.totals)
    }

    /// Whether every place of everything is equal.
    pub fn same(&self, other: &Board) -> bool {
        self.state.same(&other.state)
            && self.queries.same(&other.queries)
            && self.same_tables(other)
            && self.same_replies(other)
    }

    pub fn copy_from(&mut self, other: &Board) {
        self.state.copy_from(&other.state);
        self.queries.copy_from(&other.queries);
        self.starts.copy_from(&other.starts);
        self.sums.copy_from(&other.sums);
        self.max_starts.copy_from(&other.max_starts);
        self.max_values.copy_from(&other.max_values);
        self.min_starts.copy_from(&other.min_starts);
        self.min_values.copy_from(&other.min_values);
        self.answers.copy_from(&other.answers);
        self.answered.copy_from(&other.answered);
        self.totals.copy_from(&other.totals);
    }

    /// After a call: what was lent in allocations of its own comes back.
    pub fn take_back(&mut self) {
        self.state.take_back();
        self.queries.take_back();
        self.starts.take_back();
        self.sums.take_back();
        self.max_starts.take_back();
        self.max_values.take_back();
        self.min_starts.take_back();
        self.min_values.take_back();
        self.answers.take_back();
        self.answered.take_back();
        self.totals.take_back();
    }
}
