//! What document 01 says of a lent board, whatever it holds: check 1, and the cases in which 2 is always given; and
//! those that the library adds, of the places by ascending number.

use crate::board::{Board, N, QUERY_COUNT, QUERY_LIMIT, SLICES, STATE};

/// "Number 2 is always given where the query count is above 32, a used record breaks 3 to 6 or has g above n, or two
/// used records share a number." So it is where the places by ascending number are not those of the used records, or
/// the numbers descend along them.
pub const CASES: [&str; 14] = [
    "query count above 32",
    "query number 0",
    "query number above 65,535",
    "kind 0",
    "kind above 4",
    "range 0",
    "range above 4,096",
    "slide 0",
    "slide above 4,096",
    "g above n",
    "number shared by two",
    "place of no used record",
    "place that stands twice",
    "numbers that descend",
];

/// Where the cases of the places by ascending number begin.
const ORDER_CASES: usize = 11;

/// Which of the cases hold.
pub type Listed = [bool; CASES.len()];

/// Check 1: some slice is too short.
pub fn short(board: &Board) -> bool {
    (0..SLICES).any(|slice| board.slice(slice).lent() < board.slice(slice).needed())
}

/// The cases of check 2 that hold of the numbers of a board.
pub fn listed(board: &Board) -> Listed {
    let mut found = [false; CASES.len()];
    let count = board.slice(STATE).get(QUERY_COUNT);
    if count > QUERY_LIMIT as u64 {
        found[0] = true;
        return found;
    }
    let n = board.slice(STATE).get(N);
    for slot in 0..count as usize {
        note_record(board, slot, n, &mut found);
    }
    note_order(board, count as usize, &mut found);
    found
}

/// The cases that hold of the places of so many used records. Numbers descend only along places that are all there.
fn note_order(board: &Board, count: usize, found: &mut Listed) {
    let order = &board.order()[..count];
    let outside = order.iter().any(|&place| place as usize >= count);
    let twice = (0..count).any(|later| order[..later].contains(&order[later]));
    let number = |place: u32| board.record(place as usize)[0];
    let descend = !outside && !twice && order.windows(2).any(|pair| number(pair[0]) > number(pair[1]));
    found[ORDER_CASES..].copy_from_slice(&[outside, twice, descend]);
}

/// The cases that hold of one used record.
fn note_record(board: &Board, slot: usize, n: u64, found: &mut Listed) {
    let [number, kind, range, slide, origin] = board.record(slot);
    let holds = [
        false,
        number == 0,
        number > 65_535,
        kind == 0,
        kind > 4,
        range == 0,
        range > 4_096,
        slide == 0,
        slide > 4_096,
        u64::from(origin) > n,
        (0..slot).any(|earlier| board.record(earlier)[0] == number),
    ];
    for (case, holds) in holds.into_iter().enumerate() {
        found[case] |= holds;
    }
}

/// How many queries are used, as far as the state can be believed.
pub fn used(board: &Board) -> usize {
    board.slice(STATE).get(QUERY_COUNT).min(QUERY_LIMIT as u64) as usize
}

/// The names of the cases that hold.
pub fn names(listed: &Listed) -> Vec<&'static str> {
    (0..CASES.len()).filter(|&case| listed[case]).map(|case| CASES[case]).collect()
}
