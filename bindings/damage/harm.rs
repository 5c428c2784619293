//! Damage at a site: one number altered, two exchanged, or a stretch of a table.

use crate::board::{list_place, Board, N, ORDER, P, QUERY_COUNT, QUERY_LIMIT, SLOT_NUMBERS};
use crate::board::{STATE, STATE_NUMBERS, TABLE_PLACES};
use crate::judge::used;
use crate::random::Random;
use crate::site::{Damage, How, Site, HOWS, TABLES};

/// Chooses where and how. Consecutive seeds walk on through the places of the tables, so that many runs damage each.
pub struct Sites {
    next: [usize; TABLES],
}

impl Sites {
    pub fn new(seed: u64) -> Sites {
        Sites { next: [(seed % TABLE_PLACES as u64) as usize * 32; TABLES] }
    }

    pub fn choose(&mut self, random: &mut Random, board: &Board) -> (Site, How) {
        let (how, _) = random.pick(&HOWS);
        let site = match random.below(10) {
            _ if how.is_stretch() => Site::Table { table: random.below(TABLES), place: random.below(TABLE_PLACES) },
            0..=2 => Site::State { number: random.below(STATE_NUMBERS) },
            3..=5 => self.record(random, board),
            _ => self.table(random, board),
        };
        (site, how)
    }

    fn record(&self, random: &mut Random, board: &Board) -> Site {
        let count = used(board);
        let slot = if count > 0 && random.one_in(2) { random.below(count) } else { random.below(QUERY_LIMIT) };
        Site::Record { slot, field: random.below(SLOT_NUMBERS), used: slot < count }
    }

    /// The next place of a table, or one at which its ring has an entry.
    fn table(&mut self, random: &mut Random, board: &Board) -> Site {
        let table = random.below(TABLES);
        let (head, len) = ring(board, table);
        if random.one_in(3) && len > 0 {
            let any = random.below(len);
            let entry = random.pick(&[0, len - 1, any]);
            return Site::Table { table, place: (head + entry) % TABLE_PLACES };
        }
        self.next[table] += 1;
        Site::Table { table, place: self.next[table] * 1_597 % TABLE_PLACES }
    }
}

/// Head and length of the ring that lies in a table, if the state has one.
fn ring(board: &Board, table: usize) -> (usize, usize) {
    let head_at = [7, 11, 14][table / 2];
    let (head, len) = (board.slice(STATE).get(head_at), board.slice(STATE).get(head_at + 1));
    let limit = TABLE_PLACES as u64;
    ((head % limit) as usize, len.min(limit) as usize)
}

/// Damages a board at a site.
pub fn damage(random: &mut Random, board: &mut Board, site: Site, how: How) -> Damage {
    let (slice, place) = site.place();
    let before = board.slice(slice).get(place);
    match how {
        How::Run => {
            let end = (place + random.between(2, 64)).min(TABLE_PLACES);
            fill(random, board, slice, place..end);
        }
        How::Whole => fill(random, board, slice, 0..TABLE_PLACES),
        How::Swap => swap(random, board, site),
        _ => alter(random, board, site, how),
    }
    let after = board.slice(slice).get(place);
    Damage::At { site, how, before, after }
}

/// Fills places of a slice: with any numbers, with one number, with one more than the first, or with small ones.
fn fill(random: &mut Random, board: &mut Board, slice: usize, places: std::ops::Range<usize>) {
    let numbers = board.slice_mut(slice);
    let first = numbers.get(places.start);
    let (one, way) = (random.next(), random.below(4));
    for place in places {
        let bits = match way {
            0 => random.next(),
            1 => one,
            2 => first.wrapping_add(1),
            _ => random.next() % 8_192,
        };
        numbers.put(place, bits);
    }
}

/// Exchanges a number with that of another place. Where the two are equal, nothing is damaged.
fn swap(random: &mut Random, board: &mut Board, site: Site) {
    let (slice, place) = site.place();
    let other = another(random, board, site);
    let numbers = board.slice_mut(slice);
    let (first, second) = (numbers.get(place), numbers.get(other));
    numbers.put(place, second);
    numbers.put(other, first);
}

/// Alters one number; it is another one after that.
fn alter(random: &mut Random, board: &mut Board, site: Site, how: How) {
    let (slice, place) = site.place();
    let before = board.slice(slice).get(place);
    let bits = board.slice(slice).bits();
    let wanted = match how {
        How::Up => before.wrapping_add(1),
        How::Down => before.wrapping_sub(1),
        How::Bit => before ^ (1 << random.below(bits as usize)),
        How::Huge => random.pick(if bits == 32 { &HUGE_32 } else { &HUGE_64 }),
        How::Small => random.below(5_000) as u64,
        How::Copy => board.slice(slice).get(another(random, board, site)),
        How::Edge => edge(random, board, site),
        _ => random.next(),
    };
    board.slice_mut(slice).put(place, wanted);
    if board.slice(slice).get(place) == before {
        board.slice_mut(slice).put(place, before.wrapping_add(1));
    }
}

/// Numbers at the upper ends of 32 and of 64 bits, signed and unsigned.
const HUGE_32: [u64; 6] = [(1 << 32) - 1, (1 << 32) - 2, 1 << 31, (1 << 31) - 1, (1 << 31) + 1, 1 << 30];
const HUGE_64: [u64; 8] =
    [u64::MAX, u64::MAX - 1, 1 << 63, (1 << 63) - 1, (1 << 63) + 1, 1 << 60, 1 << 32, 0x7FFF_FFFF_8000_0000];

/// Another place of the slice: any of the state, the same field of a used record, any of the same table.
fn another(random: &mut Random, board: &Board, site: Site) -> usize {
    match site {
        Site::State { .. } => random.below(STATE_NUMBERS),
        Site::Record { field, .. } => list_place(field, random.below(used(board).max(1))),
        Site::Table { .. } => random.below(TABLE_PLACES),
    }
}

/// A number at a limit of what stands there, or just outside.
fn edge(random: &mut Random, board: &Board, site: Site) -> u64 {
    let n = board.slice(STATE).get(N);
    let most = board.slice(STATE).get(P).saturating_mul(2).saturating_sub(2); // comparisons are at most 2 P - 2
    let limits = [0, 3, 4_095, 4_096, 4_097, n, n.wrapping_add(1), most, most.wrapping_add(1), (1 << 32) - 1, 1 << 32];
    match site {
        Site::State { number: QUERY_COUNT } => random.pick(&[33, 32, 0, 34, 1 << 32]),
        Site::State { .. } => random.pick(&limits),
        Site::Record { field: 0, .. } => random.pick(&[0, 65_535, 65_536]),
        Site::Record { field: 1, .. } => random.pick(&[0, 1, 2, 3, 4, 5]),
        Site::Record { field: 4, .. } => random.pick(&[0, n, n.wrapping_add(1)]),
        Site::Record { field: ORDER, .. } => random.pick(&[0, used(board) as u64, 31, 32, 160]),
        Site::Record { .. } => random.pick(&[0, 1, 4_096, 4_097]),
        Site::Table { .. } => random.pick(&[0, n, n.wrapping_add(1), 1 << 31, (1 << 31) - 1, 1 << 59, u64::MAX]),
    }
}
