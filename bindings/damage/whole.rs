//! Damage of a whole board.

use crate::board::{list_place, Board, QUERIES, QUERY_COUNT, QUERY_LIMIT, SLICES, STATE_NUMBERS};
use crate::random::Random;
use crate::site::Damage;

/// Any number in every place of everything.
pub fn make_arbitrary(random: &mut Random, board: &mut Board) -> Damage {
    let small = random.one_in(2);
    for slice in 0..SLICES {
        let numbers = board.slice_mut(slice);
        for place in 0..numbers.needed() {
            let word = random.next();
            numbers.put(place, if small { word % 40 } else { word });
        }
    }
    Damage::Arbitrary
}

/// Every place as if it had come from a start, each for itself: the numbers are within their limits and do not fit
/// together.
pub fn make_plausible(random: &mut Random, board: &mut Board) -> Damage {
    make_arbitrary(random, board);
    let (low, any) = (random.word(5_000), random.word(1 << 32));
    let n = random.pick(&[low, low, any, (1 << 32) - 1, (1 << 32) - 2, 0]);
    let closed = random.word(n + 1);
    let total = if closed == 0 { 1 } else { 2 * closed - 1 };
    let open_start = n.saturating_sub(random.word(4_095) + 1).max(closed);
    let mut numbers = [0; STATE_NUMBERS];
    numbers[..3].copy_from_slice(&[n, closed, random.word(3)]);
    numbers[3..7].copy_from_slice(&[open_start, random.word(1 << 30), random.word(1 << 32), random.word(1 << 32)]);
    for (head, lap_or_total) in [(7, 1 << 40), (11, total), (14, total)] {
        numbers[head] = random.word(4_096);
        numbers[head + 1] = random.word(4_097);
        numbers[head + 2] = random.word(lap_or_total);
    }
    numbers[10] = random.word(1 << 40);
    numbers[QUERY_COUNT] = random.word(33);
    board.state.values_mut().copy_from_slice(&numbers);
    for slot in 0..QUERY_LIMIT {
        plausible_record(random, board, slot, n);
    }
    Damage::Plausible
}

/// A record within its limits: the slot's own number, a registration point at most n, and, since the numbers ascend,
/// the slot itself as its place by number.
fn plausible_record(random: &mut Random, board: &mut Board, slot: usize, n: u64) {
    let longest = random.pick(&[2, 9, 4_096]);
    let record = [
        slot as u64 * 7 + 1,
        random.word(4) + 1,
        random.word(longest) + 1,
        random.word(longest) + 1,
        n - random.word(n.min(20) + 1),
        slot as u64,
    ];
    for (field, bits) in record.into_iter().enumerate() {
        board.slice_mut(QUERIES).put(list_place(field, slot), bits);
    }
}
