//! The reference model: document 01's bench reckoner, written from that document alone. It keeps every reading and
//! every closed partial, evaluates each due sliding window anew over the raw readings, and works out the standing
//! partials anew at each closing. It is meant to be plainly right, not fast. The damage test of `bindings/damage` uses
//! this file too, with `fault.rs`.

use crate::fault::Fault;

/// A refusal number of document 01's table.
pub type Refusal = u8;

const MOST_QUERIES: usize = 32;
const MOST_READINGS: usize = u32::MAX as usize;
const LONGEST: u32 = 4_096;

/// A registered query; `registered_at` is its registration point g.
#[derive(Clone, Copy, Debug, PartialEq, Eq)]
pub struct Query {
    pub number: u32,
    pub kind: u32,
    pub range: usize,
    pub slide: usize,
    pub registered_at: usize,
}

/// A closed partial aggregate: readings start + 1 to the n at its closing. Its extremes are kept so that a closing does
/// not read all live readings again.
#[derive(Clone, Copy, Debug)]
pub struct Partial {
    pub start: usize,
    maximum: i32,
    minimum: i32,
}

/// An answer; `full` says that its count has reached the range.
#[derive(Clone, Copy, Debug, PartialEq, Eq)]
pub struct Answer {
    pub number: u32,
    pub kind: u32,
    pub count: usize,
    pub value: i64,
    pub full: bool,
}

/// n, P, M, N.
#[derive(Clone, Copy, Debug, PartialEq, Eq)]
pub struct Totals {
    pub n: usize,
    pub p: usize,
    pub max_comparisons: u64,
    pub min_comparisons: u64,
}

/// The bench reckoner's state.
pub struct Reckoner {
    pub readings: Vec<i32>,
    pub queries: Vec<Query>,
    /// The start a of the open partial, or none.
    pub open: Option<usize>,
    pub closed: Vec<Partial>,
    max_comparisons: u64,
    min_comparisons: u64,
    fault: Fault,
}

impl Query {
    /// Due at each n > g where n - g is a multiple of s.
    fn is_due(&self, n: usize, fault: Fault) -> bool {
        let g = if fault == Fault::DueFromStart { 0 } else { self.registered_at };
        n > self.registered_at && (n - g) % self.slide == 0
    }

    /// Cuts at m > g where m - g, or m - g + r, is a multiple of s.
    fn cuts_at(&self, m: usize, fault: Fault) -> bool {
        if m <= self.registered_at {
            return false;
        }
        let since = m - self.registered_at;
        let window_begins = (since + self.range) % self.slide == 0 && fault != Fault::SlideCutsOnly;
        since % self.slide == 0 || window_begins
    }

    /// max(g, n - r): the readings before the window.
    fn window_start(&self, n: usize) -> usize {
        self.registered_at.max(n.saturating_sub(self.range))
    }
}

impl Reckoner {
    /// Start: everything empty, open partial none, totals 0.
    pub fn new(fault: Fault) -> Self {
        Reckoner {
            readings: Vec::new(),
            queries: Vec::new(),
            open: None,
            closed: Vec::new(),
            max_comparisons: 0,
            min_comparisons: 0,
            fault,
        }
    }

    /// Register a query.
    pub fn register(&mut self, number: u32, kind: u32, range: u32, slide: u32) -> Result<(), Refusal> {
        if self.fault == Fault::ListBeforeFields {
            self.check_list(number)?;
        }
        check_fields(number, kind, range, slide)?;
        self.check_list(number)?;
        let n = self.readings.len();
        if self.fault != Fault::NoCutAtRegistration || self.open.is_none() {
            if self.open.is_some_and(|start| start < n) {
                self.close(); // the new query is not yet in the list
            }
            self.open = Some(n);
        }
        let (range, slide) = (range as usize, slide as usize);
        self.queries.push(Query { number, kind, range, slide, registered_at: n });
        Ok(())
    }

    /// Refusals 7 and 8.
    fn check_list(&self, number: u32) -> Result<(), Refusal> {
        let most = if self.fault == Fault::OneQueryTooMany { MOST_QUERIES + 1 } else { MOST_QUERIES };
        if self.queries.iter().any(|query| query.number == number) {
            return Err(7);
        }
        if self.queries.len() >= most {
            return Err(8);
        }
        Ok(())
    }

    /// Withdraw a query.
    pub fn withdraw(&mut self, number: u32) -> Result<(), Refusal> {
        let Some(place) = self.queries.iter().position(|query| query.number == number) else {
            return Err(9);
        };
        let open_holds = self.open.is_some_and(|start| start < self.readings.len());
        if self.fault == Fault::WithdrawalCloses && self.queries.len() == 1 && open_holds {
            self.close();
        }
        if self.fault == Fault::WithdrawalReorders {
            self.queries.swap_remove(place);
        } else {
            self.queries.remove(place);
        }
        if self.queries.is_empty() {
            self.open = None; // dropped unclosed
        }
        Ok(())
    }

    /// Take a reading; `places` is the length of the call's answer table.
    pub fn reading(&mut self, value: i32, places: usize) -> Result<Vec<Answer>, Refusal> {
        if self.readings.len() == MOST_READINGS {
            return Err(10);
        }
        let due = self.due_next();
        if places < 4 * due.len() {
            return Err(11);
        }
        self.readings.push(value);
        let n = self.readings.len();
        if self.queries.iter().any(|query| query.cuts_at(n, self.fault)) {
            self.close();
            self.open = Some(n);
        }
        Ok(due.iter().map(|query| self.answer(query)).collect())
    }

    /// The queries that are due at n + 1, in order of registration.
    pub fn due_next(&self) -> Vec<Query> {
        let n = self.readings.len() + 1;
        self.queries.iter().copied().filter(|query| query.is_due(n, self.fault)).collect()
    }

    /// Totals: n, P, M, N, changing nothing.
    pub fn totals(&self) -> Totals {
        Totals {
            n: self.readings.len(),
            p: self.closed.len(),
            max_comparisons: self.max_comparisons,
            min_comparisons: self.min_comparisons,
        }
    }

    /// The answer of a due query, folded anew over the raw readings of its window.
    fn answer(&self, query: &Query) -> Answer {
        let n = self.readings.len();
        let start = match self.fault {
            Fault::WindowBeforeRegistration => n.saturating_sub(query.range),
            _ => query.window_start(n),
        };
        let window = &self.readings[start..];
        let value = match query.kind {
            1 => self.sum(window),
            2 => window.len() as i64,
            3 => self.extreme(window.iter().copied().max(), Fault::MaximumFromZero, i32::max),
            _ => self.extreme(window.iter().copied().min(), Fault::MinimumFromZero, i32::min),
        };
        let count = window.len();
        Answer { number: query.number, kind: query.kind, count, value, full: count == query.range }
    }

    fn sum(&self, window: &[i32]) -> i64 {
        if self.fault == Fault::NarrowSum {
            return i64::from(window.iter().fold(0, |total: i32, &value| total.wrapping_add(value)));
        }
        window.iter().map(|&value| i64::from(value)).sum()
    }

    /// The window's maximum or minimum; a due window is never empty.
    fn extreme(&self, found: Option<i32>, from_zero: Fault, join: fn(i32, i32) -> i32) -> i64 {
        let found = found.expect("a due window holds a reading");
        i64::from(if self.fault == from_zero { join(found, 0) } else { found })
    }

    /// The horizon: the least max(g, n - r) over the registered queries.
    fn horizon(&self) -> usize {
        let n = self.readings.len();
        self.queries.iter().map(|query| query.window_start(n)).min().unwrap_or(n)
    }

    /// The live closed partials: those that do not start before the horizon. Starts grow along the list, so they are
    /// its end.
    pub fn live(&self) -> &[Partial] {
        let horizon = match self.fault {
            Fault::PastHorizonCompared => 0,
            Fault::HorizonTooLate => self.horizon() + 1,
            _ => self.horizon(),
        };
        &self.closed[self.closed.partition_point(|partial| partial.start < horizon)..]
    }

    /// Closes the open partial at n and counts the comparisons of partials. The closed one joins the list, live or not;
    /// a later closing finds out whether it still stands.
    fn close(&mut self) {
        let start = self.open.expect("only an open partial is closed");
        let held = &self.readings[start..];
        let maximum = *held.iter().max().expect("a closed partial holds a reading");
        let minimum = *held.iter().min().expect("a closed partial holds a reading");
        let live = match self.fault {
            Fault::RingTooShort => &self.live()[self.live().len().saturating_sub(LONGEST as usize - 2)..],
            _ => self.live(),
        };
        let for_maxima = self.comparisons(live.iter().map(|p| i64::from(p.maximum)), i64::from(maximum));
        // Minima are maxima in the opposite order.
        let for_minima = self.comparisons(live.iter().map(|p| -i64::from(p.minimum)), -i64::from(minimum));
        self.max_comparisons += for_maxima;
        self.min_comparisons += for_minima;
        self.closed.push(Partial { start, maximum, minimum });
    }

    /// One for each standing partial at most the new one, and one more if any standing partial is left. Standing are
    /// the live ones strictly greater than every later one; going back from the latest, each new best stands.
    fn comparisons(&self, live: impl DoubleEndedIterator<Item = i64>, new: i64) -> u64 {
        let or_equal = self.fault == Fault::OlderEqualKept;
        let mut best = None;
        let (mut removed, mut left) = (0, false);
        for value in live.rev() {
            let stands = best.is_none_or(|later| value > later || (or_equal && value == later));
            if !stands {
                continue;
            }
            best = Some(value);
            if value < new || (value == new && !or_equal) {
                removed += 1;
            } else {
                left = true;
            }
        }
        removed + u64::from(left && self.fault != Fault::LastComparisonDropped)
    }
}

/// Refusals 3 to 6.
fn check_fields(number: u32, kind: u32, range: u32, slide: u32) -> Result<(), Refusal> {
    if !(1..=65_535).contains(&number) {
        return Err(3);
    }
    if !(1..=4).contains(&kind) {
        return Err(4);
    }
    if !(1..=LONGEST).contains(&range) {
        return Err(5);
    }
    if !(1..=LONGEST).contains(&slide) {
        return Err(6);
    }
    Ok(())
}
