// Each query on its own, as one writes it for a single window: a running sum over a ring, a monotonic deque, a count.
// Each reading goes to each query.
use crate::contender::{put_answer, Answers, Contender, Query, COUNT, MAXIMUM, SUM};
use std::collections::VecDeque;

// A monotonic deque of indices and values: the values fall from front to back.
type Deque = VecDeque<(u32, i32)>;

enum Window {
    Sum { readings: Box<[i32]>, oldest: usize, sum: i64 },
    Count,
    Maximum(Deque),
    Minimum(Deque), // of the complements !v, which reverse the order
}

// A ring as long as the window holds zeros at first, so that what leaves can always be subtracted.
fn window_of(kind: u32, range: usize) -> Window {
    match kind {
        SUM => Window::Sum { readings: vec![0; range].into(), oldest: 0, sum: 0 },
        COUNT => Window::Count,
        MAXIMUM => Window::Maximum(VecDeque::with_capacity(range)),
        _ => Window::Minimum(VecDeque::with_capacity(range)),
    }
}

struct Registered {
    query: Query,
    window: Window,
    taken: u32, // readings since registration
    until_due: u32,
}

// The reading `index` enters the deque: first what has left the window is evicted at the front, and what it surpasses
// at the back.
fn enter(deque: &mut Deque, index: u32, value: i32, range: u32) {
    if deque.front().is_some_and(|(first, _)| first + range <= index) {
        deque.pop_front();
    }
    while deque.back().is_some_and(|(_, last)| *last <= value) {
        deque.pop_back();
    }
    deque.push_back((index, value));
}

fn front(deque: &Deque) -> i32 {
    deque.front().map_or(i32::MIN, |(_, value)| *value)
}

impl Registered {
    fn take(&mut self, value: i32) {
        match &mut self.window {
            Window::Sum { readings, oldest, sum } => {
                *sum += value as i64 - readings[*oldest] as i64;
                readings[*oldest] = value;
                *oldest = if *oldest + 1 == readings.len() { 0 } else { *oldest + 1 };
            }
            Window::Count => {}
            Window::Maximum(deque) => enter(deque, self.taken, value, self.query.range),
            Window::Minimum(deque) => enter(deque, self.taken, !value, self.query.range),
        }
        self.taken += 1;
    }

    fn value(&self, count: u32) -> i64 {
        match &self.window {
            Window::Sum { sum, .. } => *sum,
            Window::Count => count as i64,
            Window::Maximum(deque) => front(deque) as i64,
            Window::Minimum(deque) => !front(deque) as i64,
        }
    }
}

pub struct PerQuery {
    queries: Vec<Registered>,
}

impl PerQuery {
    pub fn new() -> Self {
        PerQuery { queries: Vec::new() }
    }
}

impl Contender for PerQuery {
    fn register(&mut self, query: Query) {
        let window = window_of(query.kind, query.range as usize);
        self.queries.push(Registered { query, window, taken: 0, until_due: query.slide });
    }

    #[inline(never)]
    fn reading(&mut self, value: i32, answers: &mut Answers) -> usize {
        let mut answered = 0;
        for q in &mut self.queries {
            q.take(value);
            q.until_due -= 1;
            if q.until_due > 0 {
                continue;
            }
            q.until_due = q.query.slide;
            let count = q.taken.min(q.query.range);
            put_answer(answers, answered, &q.query, count, q.value(count));
            answered += 1;
        }
        answered
    }
}
