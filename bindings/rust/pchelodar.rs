//! Pchelodar for Rust: sliding windows over one feed of readings, shared by up to 32 queries.
//!
//! A safe wrapper of the five calls of `libpchelodar_c.a`, which `tools/build library` proves and writes. Names
//! and numbers are those of document 01, "Shared window engine for a crane-site feed". Two layers:
//!
//! - [`Lent`]: the caller lends every slice, as in C. Nothing is allocated. Every length and every content is safe.
//! - [`Engine`]: one box that owns the slices. The one allocation is the wrapper's.
//!
//! [`raw`] has the functions as the library has them, for those who need no wrapper.
#![allow(dead_code)] // a program that takes this file as a module need not use all of it

use std::error::Error;
use std::fmt;

/// How many numbers a state is written as.
pub const STATE_NUMBERS: usize = 18;
/// How many queries may be registered together.
pub const QUERY_LIMIT: usize = 32;
/// How many numbers the query list needs: five for each record, and the places by ascending number.
pub const LIST_NUMBERS: usize = 6 * QUERY_LIMIT;
/// How many places each of the six tables of the board needs.
pub const TABLE_PLACES: usize = 4_096;

/// Kind of a query: the sum of the window's readings.
pub const SUM: u32 = 1;
/// Kind of a query: the count of the window's readings.
pub const COUNT: u32 = 2;
/// Kind of a query: the maximum of the window's readings.
pub const MAXIMUM: u32 = 3;
/// Kind of a query: the minimum of the window's readings.
pub const MINIMUM: u32 = 4;

/// The five functions of the library, as they are. `bindings/c/pchelodar.h` says what each does.
///
/// # Safety
///
/// A pointer is not null, is aligned for its type and has as many places as the call says; the slices of one call do
/// not overlap; `answered` has one place and `totals` four; no other thread uses the slices meanwhile. Nothing is asked
/// of the content of any slice, nor of its length.
pub mod raw {
    #[link(name = "pchelodar_c", kind = "static")]
    extern "C" {
        /// Start. Returns 0, or refusal 1.
        pub fn pchelodar_start(
            state: *mut u64,
            state_places: usize,
            queries: *mut u32,
            queries_places: usize,
            starts: *mut u32,
            starts_places: usize,
            sums: *mut i64,
            sums_places: usize,
            max_starts: *mut u32,
            max_starts_places: usize,
            max_values: *mut i32,
            max_values_places: usize,
            min_starts: *mut u32,
            min_starts_places: usize,
            min_values: *mut i32,
            min_values_places: usize,
        ) -> u32;

        /// Register. Returns 0, or refusal 1 to 8.
        pub fn pchelodar_register(
            state: *mut u64,
            state_places: usize,
            queries: *mut u32,
            queries_places: usize,
            starts: *mut u32,
            starts_places: usize,
            sums: *mut i64,
            sums_places: usize,
            max_starts: *mut u32,
            max_starts_places: usize,
            max_values: *mut i32,
            max_values_places: usize,
            min_starts: *mut u32,
            min_starts_places: usize,
            min_values: *mut i32,
            min_values_places: usize,
            number: u32,
            kind: u32,
            range: u32,
            slide: u32,
        ) -> u32;

        /// Withdraw. Returns 0, or refusal 1, 2 or 9.
        pub fn pchelodar_withdraw(
            state: *mut u64,
            state_places: usize,
            queries: *mut u32,
            queries_places: usize,
            starts: *const u32,
            starts_places: usize,
            sums: *const i64,
            sums_places: usize,
            max_starts: *const u32,
            max_starts_places: usize,
            max_values: *const i32,
            max_values_places: usize,
            min_starts: *const u32,
            min_starts_places: usize,
            min_values: *const i32,
            min_values_places: usize,
            number: u32,
        ) -> u32;

        /// Reading. Returns 0, or refusal 1, 2, 10 or 11.
        pub fn pchelodar_reading(
            state: *mut u64,
            state_places: usize,
            queries: *const u32,
            queries_places: usize,
            starts: *mut u32,
            starts_places: usize,
            sums: *mut i64,
            sums_places: usize,
            max_starts: *mut u32,
            max_starts_places: usize,
            max_values: *mut i32,
            max_values_places: usize,
            min_starts: *mut u32,
            min_starts_places: usize,
            min_values: *mut i32,
            min_values_places: usize,
            answers: *mut i64,
            answers_places: usize,
            answered: *mut usize,
            value: i32,
        ) -> u32;

        /// Totals. Returns 0, or refusal 1 or 2.
        pub fn pchelodar_totals(
            state: *const u64,
            state_places: usize,
            queries: *const u32,
            queries_places: usize,
            starts: *const u32,
            starts_places: usize,
            sums: *const i64,
            sums_places: usize,
            max_starts: *const u32,
            max_starts_places: usize,
            max_values: *const i32,
            max_values_places: usize,
            min_starts: *const u32,
            min_starts_places: usize,
            min_values: *const i32,
            min_values_places: usize,
            totals: *mut u64,
        ) -> u32;
    }
}

/// Why a call was refused, by document 01's numbers. A refused call changes nothing.
#[derive(Clone, Copy, Debug, PartialEq, Eq, Hash)]
#[repr(u32)]
pub enum Refusal {
    /// 1: the state or one of the seven tables has too few places.
    TableTooShort = 1,
    /// 2: state and tables could not have come from a start by these calls.
    Damaged = 2,
    /// 3: the query's number is not 1 to 65,535.
    NumberOutside = 3,
    /// 4: its kind is not 1 to 4.
    KindOutside = 4,
    /// 5: its range is not 1 to 4,096.
    RangeOutside = 5,
    /// 6: its slide is not 1 to 4,096.
    SlideOutside = 6,
    /// 7: a query with that number is registered.
    NumberTaken = 7,
    /// 8: 32 queries are registered.
    ListFull = 8,
    /// 9: no query with that number is registered.
    NotRegistered = 9,
    /// 10: 4,294,967,295 readings were taken.
    CountExhausted = 10,
    /// 11: there is not an answer place for each query that is due.
    AnswersTooShort = 11,
}

impl Refusal {
    /// Every refusal, in the order of the numbers.
    pub const ALL: [Refusal; 11] = [
        Refusal::TableTooShort,
        Refusal::Damaged,
        Refusal::NumberOutside,
        Refusal::KindOutside,
        Refusal::RangeOutside,
        Refusal::SlideOutside,
        Refusal::NumberTaken,
        Refusal::ListFull,
        Refusal::NotRegistered,
        Refusal::CountExhausted,
        Refusal::AnswersTooShort,
    ];

    /// Document 01's number of this refusal, 1 to 11.
    #[must_use]
    pub fn number(self) -> u32 {
        self as u32
    }

    /// The refusal of this number; none where no call is refused with it.
    #[must_use]
    pub fn from_number(number: u32) -> Option<Refusal> {
        Refusal::ALL.into_iter().find(|refusal| refusal.number() == number)
    }

    /// What is wrong, in words.
    fn reason(self) -> &'static str {
        match self {
            Refusal::TableTooShort => "the state or a table has too few places",
            Refusal::Damaged => "state and tables could not have come from a start",
            Refusal::NumberOutside => "the query number is not 1 to 65,535",
            Refusal::KindOutside => "the kind is not 1 to 4",
            Refusal::RangeOutside => "the range is not 1 to 4,096",
            Refusal::SlideOutside => "the slide is not 1 to 4,096",
            Refusal::NumberTaken => "that query number is registered",
            Refusal::ListFull => "32 queries are registered",
            Refusal::NotRegistered => "that query number is not registered",
            Refusal::CountExhausted => "4,294,967,295 readings were taken",
            Refusal::AnswersTooShort => "there are too few answer places for the queries that are due",
        }
    }
}

impl fmt::Display for Refusal {
    fn fmt(&self, f: &mut fmt::Formatter<'_>) -> fmt::Result {
        write!(f, "refused with {}: {}", self.number(), self.reason())
    }
}

impl Error for Refusal {}

/// One query, as its record of the list.
#[derive(Clone, Copy, Debug, Default, PartialEq, Eq, Hash)]
#[repr(C)]
pub struct Query {
    /// The number that the caller chose, 1 to 65,535.
    pub number: u32,
    /// [`SUM`], [`COUNT`], [`MAXIMUM`] or [`MINIMUM`].
    pub kind: u32,
    /// How many of the latest readings a window holds, 1 to 4,096.
    pub range: u32,
    /// How many readings lie between two answers, 1 to 4,096.
    pub slide: u32,
    /// The registration point g: the count of readings at which it was registered.
    pub origin: u32,
}

/// The query list, as it is lent. The registered queries come first, in order of registration; a record without a query
/// is all 0, and no query has the number 0.
#[derive(Clone, Copy, Debug, PartialEq, Eq, Hash)]
#[repr(C)]
pub struct Queries {
    /// The records.
    pub query: [Query; QUERY_LIMIT],
    /// The places of the registered queries by ascending number, and then 0. It is kept by the calls and not to be
    /// changed by the caller: where it does not have those places, every call but a start is refused with 2.
    pub order: [u32; QUERY_LIMIT],
}

// records and places without padding, so that they can be lent as one slice
const _: () = assert!(size_of::<Queries>() == size_of::<[u32; LIST_NUMBERS]>());
const _: () = assert!(align_of::<Queries>() == align_of::<u32>());

impl Queries {
    /// A list without a query.
    #[must_use]
    pub const fn new() -> Queries {
        let none = Query { number: 0, kind: 0, range: 0, slide: 0, origin: 0 };
        Queries { query: [none; QUERY_LIMIT], order: [0; QUERY_LIMIT] }
    }

    /// How many queries are registered.
    #[must_use]
    pub fn registered(&self) -> usize {
        self.query.iter().take_while(|query| query.number != 0).count()
    }

    /// Query i, in order of registration; none where fewer are registered.
    #[must_use]
    pub fn query(&self, i: usize) -> Option<Query> {
        self.queries().nth(i)
    }

    /// The registered queries, in order of registration, each read in place.
    pub fn queries(&self) -> impl ExactSizeIterator<Item = Query> + '_ {
        self.query[..self.registered()].iter().copied()
    }

    /// All numbers of it, as they are lent: five of each record, and the places.
    #[must_use]
    pub fn numbers(&self) -> &[u32; LIST_NUMBERS] {
        // SAFETY: 32 records of five numbers and 32 places, in this order, without padding, as is asserted above.
        unsafe { &*(&raw const *self).cast::<[u32; LIST_NUMBERS]>() }
    }

    /// The same, to be written.
    #[must_use]
    pub fn numbers_mut(&mut self) -> &mut [u32; LIST_NUMBERS] {
        // SAFETY: as at `numbers`; every content is a list.
        unsafe { &mut *(&raw mut *self).cast::<[u32; LIST_NUMBERS]>() }
    }
}

impl Default for Queries {
    fn default() -> Queries {
        Queries::new()
    }
}

/// One answer, as it stands in its four answer places.
#[derive(Clone, Copy, Debug, Default, PartialEq, Eq, Hash)]
#[repr(C)]
pub struct Answer {
    /// The query's number.
    pub number: i64,
    /// The query's kind.
    pub kind: i64,
    /// The count of readings in the window: below the range while the window is still filling.
    pub count: i64,
    /// The sum, count, maximum or minimum of the window.
    pub value: i64,
}

/// What a totals call returns.
#[derive(Clone, Copy, Debug, Default, PartialEq, Eq, Hash)]
pub struct Totals {
    /// n: the accepted readings since the start.
    pub readings: u64,
    /// P: the closed partials.
    pub partials: u64,
    /// M: the comparisons of partials for maxima.
    pub max_comparisons: u64,
    /// N: the comparisons of partials for minima.
    pub min_comparisons: u64,
}

/// The eight slices that a caller lends to each call, the same to every call, as the call before left them.
///
/// A start may be made on any content, and no other call may come first. What did not come from a start by these calls
/// is refused with 2 in the cases that the specification lists. Other damage may pass: nothing undefined happens then
/// and nothing outside is written, but an accepted answer may be wrong, so a saved engine wants a checksum. Only the
/// first [`STATE_NUMBERS`], [`LIST_NUMBERS`] and [`TABLE_PLACES`] places are ever written. Where one of the slices has
/// fewer places, every call is refused with 1.
///
/// The checks go in the order of the numbers; the first that applies decides. A refused call changes nothing: no place
/// of any slice, and no answer place.
#[derive(Debug)]
pub struct Lent<'a> {
    /// The counts, the open partial and the rings, in the library's own layout.
    pub state: &'a mut [u64],
    /// The query list: [`Queries::numbers_mut`], or any slice that is laid out so.
    pub queries: &'a mut [u32],
    /// Starts of closed partials.
    pub starts: &'a mut [u32],
    /// Sums by laps: at place p the sum of the partials at the places before p of the same lap of the ring. It is not
    /// the sum of the partial at p.
    pub sums: &'a mut [i64],
    /// Starts of the partials that stand for maxima.
    pub max_starts: &'a mut [u32],
    /// Their values.
    pub max_values: &'a mut [i32],
    /// Starts of the partials that stand for minima.
    pub min_starts: &'a mut [u32],
    /// Their values.
    pub min_values: &'a mut [i32],
}

// Calls a function of the library with the eight slices, each as a pointer and a number of places, and what else it
// takes.
macro_rules! call {
    ($function:ident, $lent:expr $(, $more:expr)*) => {{
        let state: *mut [u64] = $lent.state;
        let queries: *mut [u32] = $lent.queries;
        let starts: *mut [u32] = $lent.starts;
        let sums: *mut [i64] = $lent.sums;
        let max_starts: *mut [u32] = $lent.max_starts;
        let max_values: *mut [i32] = $lent.max_values;
        let min_starts: *mut [u32] = $lent.min_starts;
        let min_values: *mut [i32] = $lent.min_values;
        raw::$function(
            state.cast::<u64>(),
            state.len(),
            queries.cast::<u32>(),
            queries.len(),
            starts.cast::<u32>(),
            starts.len(),
            sums.cast::<i64>(),
            sums.len(),
            max_starts.cast::<u32>(),
            max_starts.len(),
            max_values.cast::<i32>(),
            max_values.len(),
            min_starts.cast::<u32>(),
            min_starts.len(),
            min_values.cast::<i32>(),
            min_values.len(),
            $($more),*
        )
    }};
}

impl Lent<'_> {
    /// Start: no reading, no query, totals 0. It writes the state, and 0 to the numbers of the query list and to the
    /// first 4,096 places of each table, whatever they held.
    ///
    /// # Errors
    ///
    /// Refused with 1.
    pub fn start(&mut self) -> Result<(), Refusal> {
        // SAFETY: each pointer is that of a slice with this length; exclusive slices do not overlap.
        outcome(unsafe { call!(pchelodar_start, self) })
    }

    /// Register: the query joins the end of the list. Its windows hold readings taken from now on: it is due whenever
    /// `slide` more were taken, and its window holds the last `range` of them. `kind` is [`SUM`], [`COUNT`],
    /// [`MAXIMUM`] or [`MINIMUM`].
    ///
    /// # Errors
    ///
    /// Refused with 1, 2, and 3 to 8.
    pub fn register(&mut self, number: u32, kind: u32, range: u32, slide: u32) -> Result<(), Refusal> {
        // SAFETY: as at `start`.
        outcome(unsafe { call!(pchelodar_register, self, number, kind, range, slide) })
    }

    /// Withdraw: the query leaves, the others keep their order.
    ///
    /// # Errors
    ///
    /// Refused with 1, 2 and 9.
    pub fn withdraw(&mut self, number: u32) -> Result<(), Refusal> {
        // SAFETY: as at `start`; the tables are only read.
        outcome(unsafe { call!(pchelodar_withdraw, self, number) })
    }

    /// Reading: it is counted, and the queries that are due are answered in order of registration. The answers are
    /// written to the first of `answers`, no other place of it is written, and they are returned. [`QUERY_LIMIT`]
    /// answers are always enough.
    ///
    /// # Errors
    ///
    /// Refused with 1, 2, 10 and 11.
    pub fn reading<'b>(&mut self, value: i32, answers: &'b mut [Answer]) -> Result<&'b [Answer], Refusal> {
        let places: *mut [Answer] = answers;
        let (first, length) = (places.cast::<i64>(), 4 * places.len());
        let mut answered: usize = 0;
        // SAFETY: as at `start`; an answer is four places without padding, and `answered` is one place of its own.
        outcome(unsafe { call!(pchelodar_reading, self, first, length, &raw mut answered, value) })?;
        Ok(&answers[..answered])
    }

    /// Totals: n, P, M and N, changing nothing.
    ///
    /// # Errors
    ///
    /// Refused with 1 and 2.
    pub fn totals(&self) -> Result<Totals, Refusal> {
        let seen = Seen {
            state: self.state,
            queries: self.queries,
            starts: self.starts,
            sums: self.sums,
            max_starts: self.max_starts,
            max_values: self.max_values,
            min_starts: self.min_starts,
            min_values: self.min_values,
        };
        seen.totals()
    }
}

/// The eight slices where they are only read.
struct Seen<'a> {
    state: &'a [u64],
    queries: &'a [u32],
    starts: &'a [u32],
    sums: &'a [i64],
    max_starts: &'a [u32],
    max_values: &'a [i32],
    min_starts: &'a [u32],
    min_values: &'a [i32],
}

impl Seen<'_> {
    fn totals(&self) -> Result<Totals, Refusal> {
        let mut four = [0; 4];
        // SAFETY: each pointer is that of a slice with this length, which is only read; `four` has four places.
        let number = unsafe {
            raw::pchelodar_totals(
                self.state.as_ptr(),
                self.state.len(),
                self.queries.as_ptr(),
                self.queries.len(),
                self.starts.as_ptr(),
                self.starts.len(),
                self.sums.as_ptr(),
                self.sums.len(),
                self.max_starts.as_ptr(),
                self.max_starts.len(),
                self.max_values.as_ptr(),
                self.max_values.len(),
                self.min_starts.as_ptr(),
                self.min_starts.len(),
                self.min_values.as_ptr(),
                self.min_values.len(),
                four.as_mut_ptr(),
            )
        };
        outcome(number)?;
        let [readings, partials, max_comparisons, min_comparisons] = four;
        Ok(Totals { readings, partials, max_comparisons, min_comparisons })
    }
}

/// What a function of the library returned: 0 is an acceptance, any other number the refusal's.
fn outcome(number: u32) -> Result<(), Refusal> {
    if number == 0 {
        return Ok(());
    }
    Err(Refusal::from_number(number).expect("the library returns 0 or a number of its refusals"))
}

/// An engine that owns its slices and its answer places, in one box of some 117,000 bytes, which [`Engine::new`]
/// allocates; no call allocates. What it holds always came from a start, so no call is refused with 1 or 2.
#[derive(Clone)]
pub struct Engine {
    held: Box<Held>,
}

/// What the engine owns.
#[derive(Clone)]
struct Held {
    state: [u64; STATE_NUMBERS],
    queries: Queries,
    starts: [u32; TABLE_PLACES],
    sums: [i64; TABLE_PLACES],
    max_starts: [u32; TABLE_PLACES],
    max_values: [i32; TABLE_PLACES],
    min_starts: [u32; TABLE_PLACES],
    min_values: [i32; TABLE_PLACES],
    answers: [Answer; QUERY_LIMIT],
}

/// What an engine's start and totals would have to break: its slices are long enough and came from a start.
const FROM_A_START: &str = "slices that are long enough and came from a start are not refused";

impl Engine {
    /// A fresh engine: no reading, no query, totals 0. What goes into the box may stand on the stack first.
    #[must_use]
    pub fn new() -> Engine {
        let held = Box::new(Held {
            state: [0; STATE_NUMBERS],
            queries: Queries::new(),
            starts: [0; TABLE_PLACES],
            sums: [0; TABLE_PLACES],
            max_starts: [0; TABLE_PLACES],
            max_values: [0; TABLE_PLACES],
            min_starts: [0; TABLE_PLACES],
            min_values: [0; TABLE_PLACES],
            answers: [Answer::default(); QUERY_LIMIT],
        });
        let mut engine = Engine { held };
        engine.start();
        engine
    }

    /// Start again: the engine is fresh after it. Never refused.
    pub fn start(&mut self) {
        self.lend().0.start().expect(FROM_A_START);
    }

    /// Register, as [`Lent::register`] does.
    ///
    /// # Errors
    ///
    /// Refused with 3 to 8.
    pub fn register(&mut self, number: u32, kind: u32, range: u32, slide: u32) -> Result<(), Refusal> {
        self.lend().0.register(number, kind, range, slide)
    }

    /// Withdraw, as [`Lent::withdraw`] does.
    ///
    /// # Errors
    ///
    /// Refused with 9.
    pub fn withdraw(&mut self, number: u32) -> Result<(), Refusal> {
        self.lend().0.withdraw(number)
    }

    /// Reading, as [`Lent::reading`] does. There are places for 32 answers. The answers stand until the next reading.
    ///
    /// # Errors
    ///
    /// Refused with 10.
    pub fn reading(&mut self, value: i32) -> Result<&[Answer], Refusal> {
        let (mut lent, answers) = self.lend();
        lent.reading(value, answers)
    }

    /// Totals: n, P, M and N, changing nothing. Never refused.
    #[must_use]
    pub fn totals(&self) -> Totals {
        let held = &*self.held;
        let seen = Seen {
            state: &held.state,
            queries: held.queries.numbers(),
            starts: &held.starts,
            sums: &held.sums,
            max_starts: &held.max_starts,
            max_values: &held.max_values,
            min_starts: &held.min_starts,
            min_values: &held.min_values,
        };
        seen.totals().expect(FROM_A_START)
    }

    /// Query i, in order of registration; none where fewer are registered.
    #[must_use]
    pub fn query(&self, i: usize) -> Option<Query> {
        self.held.queries.query(i)
    }

    /// The registered queries, in order of registration, each read in place.
    pub fn queries(&self) -> impl ExactSizeIterator<Item = Query> + '_ {
        self.held.queries.queries()
    }

    /// The slices as a call takes them, and the answer places.
    fn lend(&mut self) -> (Lent<'_>, &mut [Answer]) {
        let held = &mut *self.held;
        let lent = Lent {
            state: &mut held.state,
            queries: held.queries.numbers_mut(),
            starts: &mut held.starts,
            sums: &mut held.sums,
            max_starts: &mut held.max_starts,
            max_values: &mut held.max_values,
            min_starts: &mut held.min_starts,
            min_values: &mut held.min_values,
        };
        (lent, &mut held.answers)
    }
}

impl Default for Engine {
    fn default() -> Engine {
        Engine::new()
    }
}

impl fmt::Debug for Engine {
    fn fmt(&self, f: &mut fmt::Formatter<'_>) -> fmt::Result {
        let queries: Vec<Query> = self.queries().collect();
        f.debug_struct("Engine").field("queries", &queries).field("totals", &self.totals()).finish()
    }
}
