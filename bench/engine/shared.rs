// Document 01's algorithm in plain Rust without checks: partial aggregates shared by all queries, closed at edges;
// running sums and two monotonic deques in rings, eviction at the horizon, binary search by start. With REMAINDERS it
// takes the remainders for every query at every reading, as the proved engine does; otherwise it remembers where the
// next edge is.
use crate::contender::{put_answer, Answers, Contender, Query, COUNT, MAXIMUM, SUM};
use crate::ring::Ring;

// A monotonic deque of maxima and its count of comparisons. For minima the complements !v are stored, which reverses
// the order.
struct Deque {
    ring: Ring<i32>,
    comparisons: u64,
}

impl Deque {
    fn new() -> Self {
        Deque { ring: Ring::new(), comparisons: 0 }
    }

    fn close(&mut self, horizon: u32, start: u32, value: i32) {
        self.ring.evict(horizon);
        while let Some((_, last)) = self.ring.back() {
            self.comparisons += 1;
            if last > value {
                break;
            }
            self.ring.pop_back();
        }
        self.ring.push(start, value);
    }
}

// A registered query, with where its next edges are: it is due at the first, and a window of it begins at the second.
struct Registered {
    query: Query,
    origin: u32,
    due: u32,
    begin: u32,
}

impl Registered {
    fn window_start(&self, n: u32) -> u32 {
        self.origin.max(n.saturating_sub(self.query.range))
    }

    // Whether it is due at n, and whether a window of it begins there.
    fn edges(&self, n: u32) -> (bool, bool) {
        let Query { range, slide, .. } = self.query;
        let rest = (n - self.origin) % slide;
        (rest == 0, (rest + range) % slide == 0)
    }
}

// The open partial.
struct Partial {
    start: u32,
    sum: i64,
    max: i32,
    min: i32,
}

impl Partial {
    fn new(start: u32) -> Self {
        Partial { start, sum: 0, max: i32::MIN, min: i32::MAX }
    }

    fn take(&mut self, value: i32) {
        self.sum += value as i64;
        self.max = self.max.max(value);
        self.min = self.min.min(value);
    }
}

pub struct Shared<const REMAINDERS: bool> {
    n: u32,
    closed: u64,
    queries: Vec<Registered>,
    next_edge: u32, // the least `due` or `begin` of all queries
    open: Partial,
    total: i64,      // the sum of all closed partials
    sums: Ring<i64>, // for each closed partial the sum of those before it
    maxima: Deque,
    minima: Deque,
}

impl<const REMAINDERS: bool> Shared<REMAINDERS> {
    pub fn new() -> Self {
        Shared {
            n: 0,
            closed: 0,
            queries: Vec::new(),
            next_edge: u32::MAX,
            open: Partial::new(0),
            total: 0,
            sums: Ring::new(),
            maxima: Deque::new(),
            minima: Deque::new(),
        }
    }

    // The open partial closes and the next one opens; what starts before the horizon is evicted first.
    fn close(&mut self) {
        let n = self.n;
        let horizon = self.queries.iter().map(|q| q.window_start(n)).min().unwrap_or(n);
        let partial = std::mem::replace(&mut self.open, Partial::new(n));
        self.sums.evict(horizon);
        self.sums.push(partial.start, self.total);
        self.total += partial.sum;
        self.maxima.close(horizon, partial.start, partial.max);
        self.minima.close(horizon, partial.start, !partial.min);
        self.closed += 1;
    }

    fn answer(&self, q: &Registered, answers: &mut Answers, at: usize) {
        let from = q.window_start(self.n);
        let value = match q.query.kind {
            SUM => self.total - self.sums.first_from(from),
            COUNT => (self.n - from) as i64,
            MAXIMUM => self.maxima.ring.first_from(from) as i64,
            _ => !self.minima.ring.first_from(from) as i64,
        };
        put_answer(answers, at, &q.query, self.n - from, value);
    }

    // An edge of some query: the open partial closes, the due queries are answered, and the next edge is looked up.
    fn edge(&mut self, answers: &mut Answers) -> usize {
        self.close();
        let (n, mut next, mut answered) = (self.n, u32::MAX, 0);
        for i in 0..self.queries.len() {
            let q = &mut self.queries[i];
            let due = q.due == n;
            if due {
                q.due += q.query.slide
            }
            if q.begin == n {
                q.begin += q.query.slide
            }
            next = next.min(q.due).min(q.begin);
            if due {
                self.answer(&self.queries[i], answers, answered);
                answered += 1;
            }
        }
        self.next_edge = next;
        answered
    }

    // The same by remainders, two for each query.
    fn edge_by_remainders(&mut self, answers: &mut Answers) -> usize {
        let (mut any, mut due) = (false, 0u32);
        for (i, q) in self.queries.iter().enumerate() {
            let (ends, begins) = q.edges(self.n);
            any |= ends | begins;
            due |= (ends as u32) << i;
        }
        if !any {
            return 0;
        }
        self.close();
        let mut answered = 0;
        for (i, q) in self.queries.iter().enumerate() {
            if due >> i & 1 == 0 {
                continue;
            }
            self.answer(q, answers, answered);
            answered += 1;
        }
        answered
    }
}

impl<const REMAINDERS: bool> Contender for Shared<REMAINDERS> {
    fn register(&mut self, query: Query) {
        if !self.queries.is_empty() && self.open.start < self.n {
            self.close()
        }
        let origin = self.n;
        self.open = Partial::new(origin);
        let (due, begin) = (origin + query.slide, origin + query.slide - query.range % query.slide);
        self.next_edge = self.next_edge.min(due).min(begin);
        self.queries.push(Registered { query, origin, due, begin });
    }

    #[inline(never)]
    fn reading(&mut self, value: i32, answers: &mut Answers) -> usize {
        self.n += 1;
        self.open.take(value);
        if REMAINDERS {
            return self.edge_by_remainders(answers);
        }
        if self.n == self.next_edge {
            self.edge(answers)
        } else {
            0
        }
    }

    fn totals(&mut self) -> Option<[u64; 4]> {
        Some([self.n as u64, self.closed, self.maxima.comparisons, self.minima.comparisons])
    }
}
