// The slices that are lent to every call, as arrays of just the places that are needed. The query list is numbers here:
// what they stand for the wrapper knows.
use crate::pchelodar::{LIST_NUMBERS, STATE_NUMBERS, TABLE_PLACES};

#[derive(Clone)]
pub struct Board {
    pub state: [u64; STATE_NUMBERS],
    pub queries: [u32; LIST_NUMBERS],
    pub starts: [u32; TABLE_PLACES],
    pub sums: [i64; TABLE_PLACES],
    pub max_starts: [u32; TABLE_PLACES],
    pub max_values: [i32; TABLE_PLACES],
    pub min_starts: [u32; TABLE_PLACES],
    pub min_values: [i32; TABLE_PLACES],
}

impl Board {
    pub fn new() -> Board {
        Board {
            state: [0; STATE_NUMBERS],
            queries: [0; LIST_NUMBERS],
            starts: [0; TABLE_PLACES],
            sums: [0; TABLE_PLACES],
            max_starts: [0; TABLE_PLACES],
            max_values: [0; TABLE_PLACES],
            min_starts: [0; TABLE_PLACES],
            min_values: [0; TABLE_PLACES],
        }
    }
}
