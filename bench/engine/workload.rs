// Configurations and streams.
use crate::contender::{Driven, Query};
use std::fmt;

const STAGGER: u32 = 5; // readings between two registrations
const NUMBER_LIMIT: u32 = 65_535; // the greatest number of a query

// A stream is a function of the number of readings before, so that it needs no memory and every contender sees the same
// one.
#[derive(Clone, Copy, PartialEq, Debug)]
pub enum Values {
    Random,
    Rising,
    Falling,
}

impl Values {
    pub const ALL: [Values; 3] = [Values::Random, Values::Rising, Values::Falling];

    pub fn name(self) -> &'static str {
        match self {
            Values::Random => "random",
            Values::Rising => "rising",
            Values::Falling => "falling",
        }
    }

    pub fn at(self, n: u32) -> i32 {
        match self {
            Values::Random => scattered(n),
            Values::Rising => n as i32 ^ i32::MIN,
            Values::Falling => !(n as i32 ^ i32::MIN),
        }
    }
}

// Every number of 32 bits with the same frequency, by multiplication, fold and multiplication.
fn scattered(n: u32) -> i32 {
    let product = (n as u64 + 1).wrapping_mul(0x9E37_79B9_7F4A_7C15);
    let folded = (product ^ (product >> 32)).wrapping_mul(0xD6E8_FEB8_6659_FD93);
    (folded >> 32) as i32
}

// How the numbers of the queries go, from one registration to the next.
#[derive(Clone, Copy, PartialEq, Debug)]
pub enum Order {
    Mixed,
    Ascending,
}

impl Order {
    // The number of the query that is registered after so many others. The mixed ones are always the same, and
    // distinct: the library refuses a number that it has.
    fn number(self, others: u32) -> u32 {
        match self {
            Order::Mixed => NUMBER_LIMIT - scattered(others) as u32 % NUMBER_LIMIT,
            Order::Ascending => others + 1,
        }
    }
}

#[derive(Clone, Copy, PartialEq)]
pub struct Configuration {
    pub queries: usize,
    pub range: u32,
    pub slide: u32,
    pub values: Values,
}

impl fmt::Display for Configuration {
    fn fmt(&self, f: &mut fmt::Formatter) -> fmt::Result {
        write!(f, "{},{},{},{}", self.queries, self.range, self.slide, self.values.name())
    }
}

impl Configuration {
    // Registers the queries, a few readings apart, feeds readings until `to` were taken, and returns the checksum of
    // all answers.
    pub fn set_up(&self, contender: &mut dyn Driven, order: Order, to: u32) -> u64 {
        let (mut taken, mut checksum) = (0, 0);
        for i in 0..self.queries as u32 {
            let Configuration { range, slide, .. } = *self;
            contender.register(Query { number: order.number(i), kind: i % 4 + 1, range, slide });
            checksum = contender.feed_checked(self.values, taken, taken + STAGGER, checksum);
            taken += STAGGER;
        }
        contender.feed_checked(self.values, taken, to, checksum)
    }

    // How many answers are due from reading `from` + 1 to `to`, all queries being registered.
    pub fn due(&self, from: u32, to: u32) -> u64 {
        let origins = (0..self.queries as u32).map(|i| i * STAGGER);
        origins.map(|origin| ((to - origin) / self.slide - (from - origin) / self.slide) as u64).sum()
    }
}

pub const QUERIES: [usize; 3] = [1, 8, 32];
pub const RANGES: [u32; 3] = [16, 256, 4096];
pub const SLIDES: [u32; 3] = [1, 7, 64];

// Those of the picture over the number of queries.
pub const PICTURE_QUERIES: [usize; 6] = [1, 2, 4, 8, 16, 32];
pub const PICTURE_SLIDES: [u32; 2] = [1, 7];
pub const PICTURE_RANGE: u32 = 256;

// Every configuration of the tables: random values first, then by queries, range and slide.
pub fn table_configurations() -> Vec<Configuration> {
    let mut all = Vec::new();
    for values in Values::ALL {
        for queries in QUERIES {
            for range in RANGES {
                all.extend(SLIDES.map(|slide| Configuration { queries, range, slide, values }));
            }
        }
    }
    all
}

// What the pictures need beyond the tables.
pub fn picture_configurations() -> Vec<Configuration> {
    let missing = PICTURE_QUERIES.into_iter().filter(|queries| !QUERIES.contains(queries));
    let with = |queries| {
        PICTURE_SLIDES.map(|slide| Configuration { queries, range: PICTURE_RANGE, slide, values: Values::Random })
    };
    missing.flat_map(with).collect()
}
