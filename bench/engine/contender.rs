// What every contender does, and the loops that drive it. The loops are compiled for each contender by itself; the call
// for a reading is inlined in none, as the library's cannot be.
use crate::workload::Values;
use std::hint::black_box;
use std::time::Instant;

pub const SUM: u32 = 1;
pub const COUNT: u32 = 2;
pub const MAXIMUM: u32 = 3;

pub const QUERY_LIMIT: usize = 32;
pub const ANSWER_PLACES: usize = 4;

// Four numbers an answer: query number, kind, count of readings in the window, value.
pub type Answers = [i64; ANSWER_PLACES * QUERY_LIMIT];

#[derive(Clone, Copy)]
pub struct Query {
    pub number: u32,
    pub kind: u32, // 1 sum, 2 count, 3 maximum, 4 minimum
    pub range: u32,
    pub slide: u32,
}

pub fn put_answer(answers: &mut Answers, at: usize, query: &Query, count: u32, value: i64) {
    let place = ANSWER_PLACES * at;
    answers[place..place + ANSWER_PLACES].copy_from_slice(&[
        query.number as i64,
        query.kind as i64,
        count as i64,
        value,
    ]);
}

pub trait Contender {
    fn register(&mut self, query: Query);

    // Takes a reading, writes the answers of the queries that are due in order of registration, and returns how many
    // there are.
    fn reading(&mut self, value: i32, answers: &mut Answers) -> usize;

    // Readings, closed partials, comparisons for maxima and for minima, where the contender has partials.
    fn totals(&mut self) -> Option<[u64; 4]> {
        None
    }
}

// A contender that can be driven without knowing which one it is.
pub trait Driven {
    fn register(&mut self, query: Query);
    fn totals(&mut self) -> Option<[u64; 4]>;

    // Feeds the readings `from` + 1 to `to` and returns the number of answers. This is what is timed.
    fn feed(&mut self, values: Values, from: u32, to: u32) -> u64;

    // The same with a checksum of every answer, continued from an earlier one.
    fn feed_checked(&mut self, values: Values, from: u32, to: u32, checksum: u64) -> u64;

    // Feeds a reading for each place, from `from` + 1 on, and lowers the place to the nanoseconds that the reading took
    // on the clock, where it took fewer.
    fn feed_singly(&mut self, values: Values, from: u32, least: &mut [u64]);
}

impl<C: Contender> Driven for C {
    fn register(&mut self, query: Query) {
        Contender::register(self, query)
    }

    fn totals(&mut self) -> Option<[u64; 4]> {
        Contender::totals(self)
    }

    fn feed(&mut self, values: Values, from: u32, to: u32) -> u64 {
        let mut answers = [0; ANSWER_PLACES * QUERY_LIMIT];
        let mut answered = 0;
        for n in from..to {
            answered += self.reading(values.at(n), &mut answers) as u64;
            black_box(&mut answers);
        }
        answered
    }

    fn feed_checked(&mut self, values: Values, from: u32, to: u32, mut checksum: u64) -> u64 {
        let mut answers = [0; ANSWER_PLACES * QUERY_LIMIT];
        for n in from..to {
            let answered = self.reading(values.at(n), &mut answers);
            checksum = mix(checksum, answered as u64);
            for number in &answers[..ANSWER_PLACES * answered] {
                checksum = mix(checksum, *number as u64)
            }
        }
        checksum
    }

    fn feed_singly(&mut self, values: Values, from: u32, least: &mut [u64]) {
        let mut answers = [0; ANSWER_PLACES * QUERY_LIMIT];
        for (n, least) in (from..).zip(least) {
            let value = values.at(n);
            let begin = Instant::now();
            black_box(self.reading(value, &mut answers));
            *least = (*least).min(begin.elapsed().as_nanos() as u64);
            black_box(&mut answers);
        }
    }
}

// One step of a checksum that depends on the order (FNV-1a, by whole numbers).
fn mix(checksum: u64, number: u64) -> u64 {
    let mixed = (checksum ^ number).wrapping_mul(0x0000_0100_0000_01B3);
    mixed ^ (mixed >> 29)
}
