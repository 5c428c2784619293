// The last 4,096 readings in a ring, and each due window evaluated anew: loops over slices that the compiler
// vectorises.
use crate::contender::{put_answer, Answers, Contender, Query, COUNT, MAXIMUM, SUM};

const CAPACITY: usize = 4096;

struct Registered {
    query: Query,
    taken: u32, // readings since registration
    until_due: u32,
}

pub struct Reevaluate {
    n: usize,
    readings: [i32; CAPACITY],
    queries: Vec<Registered>,
}

impl Reevaluate {
    pub fn new() -> Self {
        Reevaluate { n: 0, readings: [0; CAPACITY], queries: Vec::new() }
    }
}

// The last `count` of the n readings, as the two pieces that they are in the ring, the older first.
fn window(readings: &[i32; CAPACITY], n: usize, count: usize) -> (&[i32], &[i32]) {
    let end = n % CAPACITY;
    if count <= end {
        (&[], &readings[end - count..end])
    } else {
        (&readings[CAPACITY + end - count..], &readings[..end])
    }
}

fn sum(readings: &[i32]) -> i64 {
    readings.iter().map(|v| *v as i64).sum()
}

fn maximum(readings: &[i32]) -> i32 {
    readings.iter().fold(i32::MIN, |a, b| a.max(*b))
}

fn minimum(readings: &[i32]) -> i32 {
    readings.iter().fold(i32::MAX, |a, b| a.min(*b))
}

fn evaluate(kind: u32, older: &[i32], newer: &[i32]) -> i64 {
    match kind {
        SUM => sum(older) + sum(newer),
        COUNT => (older.len() + newer.len()) as i64,
        MAXIMUM => maximum(older).max(maximum(newer)) as i64,
        _ => minimum(older).min(minimum(newer)) as i64,
    }
}

impl Contender for Reevaluate {
    fn register(&mut self, query: Query) {
        self.queries.push(Registered { query, taken: 0, until_due: query.slide })
    }

    #[inline(never)]
    fn reading(&mut self, value: i32, answers: &mut Answers) -> usize {
        self.readings[self.n % CAPACITY] = value;
        self.n += 1;
        let mut answered = 0;
        for q in &mut self.queries {
            q.taken += 1;
            q.until_due -= 1;
            if q.until_due > 0 {
                continue;
            }
            q.until_due = q.query.slide;
            let count = q.taken.min(q.query.range);
            let (older, newer) = window(&self.readings, self.n, count as usize);
            put_answer(answers, answered, &q.query, count, evaluate(q.query.kind, older, newer));
            answered += 1;
        }
        answered
    }
}
