// Readings that take long. A case is a round from a start: registrations, readings, and one reading more, which is the
// one that counts.
use crate::pchelodar::{Engine, MAXIMUM, MINIMUM, QUERY_LIMIT};

pub struct Case {
    pub name: &'static str,
    pub about: &'static str,
    // What is registered after the start.
    pub open: fn(&mut Engine),
    // The value of each reading before the last, by its place.
    pub value: fn(i32) -> i32,
    // What is called between them and the last.
    pub close: fn(&mut Engine),
    pub last: i32,
}

const WIDEST: u32 = 4_096;
const NARROW: u32 = 48; // the widest range of the 32 queries that are left
const FIRST: u32 = 1_000; // the number that is registered first there; they descend from it

// The readings of a round before the last. With it they are three times the widest range, so that by then every window
// has been full for long.
pub const BEFORE: i32 = 3 * WIDEST as i32 - 1;

pub const CASES: [Case; 4] = [
    Case {
        name: "maxima",
        about: "1 query: values fall, the last beats the 4,095 that stand for maxima",
        open: |engine| register(engine, 1, MAXIMUM, WIDEST),
        value: |place| -place,
        close: |_| {},
        last: 1,
    },
    Case {
        name: "minima",
        about: "1 query: values rise, the last beats the 4,095 that stand for minima",
        open: |engine| register(engine, 1, MINIMUM, WIDEST),
        value: |place| place,
        close: |_| {},
        last: -1,
    },
    Case {
        name: "withdrawal",
        about: "1 query of range 1 is left, the widest was just withdrawn: all 4,096 partials are evicted",
        open: |engine| {
            register(engine, 1, MAXIMUM, WIDEST);
            register(engine, 2, MAXIMUM, 1);
        },
        value: |place| -place,
        close: |engine| withdraw(engine, 1),
        last: -BEFORE,
    },
    Case {
        name: "withdrawal-32",
        about: "the same with 32 queries left, all due: all partials but those of the last 48 readings are evicted",
        open: |engine| {
            register(engine, FIRST, MAXIMUM, WIDEST);
            (1..QUERY_LIMIT as u32).for_each(|i| narrow(engine, i));
        },
        value: converging,
        close: |engine| {
            withdraw(engine, FIRST);
            narrow(engine, QUERY_LIMIT as u32);
        },
        last: 0,
    },
];

// A query that is due at every reading, so that every reading closes a partial.
fn register(engine: &mut Engine, number: u32, kind: u32, range: u32) {
    engine.register(number, kind, range, 1).expect("the query is within its limits");
}

fn withdraw(engine: &mut Engine, number: u32) {
    engine.withdraw(number).expect("the query is registered");
}

// The narrow query i, from 1 to 32: numbers and ranges descend, maxima and minima by turns.
fn narrow(engine: &mut Engine, i: u32) {
    let queries = QUERY_LIMIT as u32;
    let kind = if i % 2 == 1 { MAXIMUM } else { MINIMUM };
    register(engine, FIRST - i, kind, ((queries + 1 - i) * NARROW).div_ceil(queries));
}

// High and low by turns, each nearer to 0 than the one before: every other partial stands for maxima and the rest for
// minima, so that the guess of a search, which takes each reading for a partial that stands, is mostly wrong.
fn converging(place: i32) -> i32 {
    let size = BEFORE + 1 - place;
    if place % 2 == 0 {
        size
    } else {
        -size
    }
}
