//! How to save an engine and go on from the copy: all that it knows stands in the slices that are lent to it. In one
//! process a clone of an `Engine` is such a copy; this is how slices of your own go to bytes and come back.
//!
//! `save FILE` saves an engine between two calls, restores it into other slices, and lets both go on: they have to give
//! the same answers and to leave the same slices. A copy with one byte changed is not restored.

use pchelodar::{Answer, Lent, Queries, MAXIMUM, MINIMUM, SUM};
use pchelodar::{LIST_NUMBERS, QUERY_LIMIT, STATE_NUMBERS, TABLE_PLACES};

/// Bytes of an engine: 18 numbers of 64 bits, 192 of 32, and six tables, one of 64 bits and five of 32.
const SAVED: usize = 115_600;

/// Between two calls: every number in little-endian bytes, and a checksum.
fn save(lent: &Lent) -> Vec<u8> {
    let mut b = Vec::new();
    lent.state[..STATE_NUMBERS].iter().for_each(|x| b.extend(x.to_le_bytes()));
    lent.queries[..LIST_NUMBERS].iter().for_each(|x| b.extend(x.to_le_bytes()));
    lent.starts[..TABLE_PLACES].iter().for_each(|x| b.extend(x.to_le_bytes()));
    lent.sums[..TABLE_PLACES].iter().for_each(|x| b.extend(x.to_le_bytes()));
    lent.max_starts[..TABLE_PLACES].iter().for_each(|x| b.extend(x.to_le_bytes()));
    lent.max_values[..TABLE_PLACES].iter().for_each(|x| b.extend(x.to_le_bytes()));
    lent.min_starts[..TABLE_PLACES].iter().for_each(|x| b.extend(x.to_le_bytes()));
    lent.min_values[..TABLE_PLACES].iter().for_each(|x| b.extend(x.to_le_bytes()));
    b.extend(checksum(&b).to_le_bytes());
    b
}

/// In place of a start, on slices that are long enough. Where it returns false, nothing was written.
fn restore(lent: &mut Lent, saved: &[u8]) -> bool {
    let Some((mut b, sum)) = saved.split_last_chunk() else { return false };
    if b.len() != SAVED || checksum(b) != u64::from_le_bytes(*sum) {
        return false;
    }
    lent.state[..STATE_NUMBERS].fill_with(|| u64::from_le_bytes(next(&mut b)));
    lent.queries[..LIST_NUMBERS].fill_with(|| u32::from_le_bytes(next(&mut b)));
    lent.starts[..TABLE_PLACES].fill_with(|| u32::from_le_bytes(next(&mut b)));
    lent.sums[..TABLE_PLACES].fill_with(|| i64::from_le_bytes(next(&mut b)));
    lent.max_starts[..TABLE_PLACES].fill_with(|| u32::from_le_bytes(next(&mut b)));
    lent.max_values[..TABLE_PLACES].fill_with(|| i32::from_le_bytes(next(&mut b)));
    lent.min_starts[..TABLE_PLACES].fill_with(|| u32::from_le_bytes(next(&mut b)));
    lent.min_values[..TABLE_PLACES].fill_with(|| i32::from_le_bytes(next(&mut b)));
    true
}

/// The bytes of the next number.
fn next<const K: usize>(bytes: &mut &[u8]) -> [u8; K] {
    let (first, rest) = bytes.split_first_chunk().expect("the length was tested");
    *bytes = rest;
    *first
}

/// FNV-1a; use the checksum that your storage asks for.
fn checksum(bytes: &[u8]) -> u64 {
    let step = |h: u64, b: &u8| (h ^ u64::from(*b)).wrapping_mul(1_099_511_628_211);
    bytes.iter().fold(14_695_981_039_346_656_037, step)
}

// ---- what is saved here, and how it goes on

/// Slices that an engine is lent.
struct Slices {
    state: Vec<u64>,
    queries: Queries,
    counts: [Vec<u32>; 3],
    sums: Vec<i64>,
    values: [Vec<i32>; 2],
}

impl Slices {
    fn new() -> Slices {
        Slices {
            state: vec![0; STATE_NUMBERS],
            queries: Queries::new(),
            counts: [(); 3].map(|()| vec![0; TABLE_PLACES]),
            sums: vec![0; TABLE_PLACES],
            values: [(); 2].map(|()| vec![0; TABLE_PLACES]),
        }
    }

    fn lent(&mut self) -> Lent<'_> {
        let [starts, max_starts, min_starts] = &mut self.counts;
        let [max_values, min_values] = &mut self.values;
        let (state, queries, sums) = (&mut self.state, self.queries.numbers_mut(), &mut self.sums);
        Lent { state, queries, starts, sums, max_starts, max_values, min_starts, min_values }
    }
}

/// The same five queries and 6,000 readings as in `c/save.c`, so that the two write the same bytes.
fn begin(lent: &mut Lent) {
    lent.start().expect("the slices are long enough");
    for kind in SUM..=MINIMUM {
        lent.register(kind, kind, 100 * kind, kind).expect("it is registered");
    }
    lent.register(9, MAXIMUM, 4096, 1).expect("it is registered");
    let mut answers = [Answer::default(); QUERY_LIMIT];
    for i in 0..6000 {
        lent.reading(i * 7919 % 1009 - 500, &mut answers).expect("it is taken");
    }
}

fn main() {
    let file = std::env::args().nth(1).expect("a file to save to");
    let (mut slices, mut others) = (Slices::new(), Slices::new());
    let (mut engine, mut restored) = (slices.lent(), others.lent());
    begin(&mut engine);
    std::fs::write(&file, save(&engine)).expect("the file is written");

    let saved = std::fs::read(&file).expect("the file is read");
    for at in [0, 60_000] {
        let mut damaged = saved.clone();
        damaged[at] ^= 1;
        assert!(!restore(&mut restored, &damaged));
    }
    assert!(restore(&mut restored, &saved));
    let (mut a, mut b) = ([Answer::default(); QUERY_LIMIT], [Answer::default(); QUERY_LIMIT]);
    for i in 0..5000 {
        let value = i * 4051 % 1013 - 500;
        let given = engine.reading(value, &mut a).expect("it is taken");
        assert_eq!(given, restored.reading(value, &mut b).expect("it is taken"));
    }
    assert_eq!(save(&engine), save(&restored));
}
