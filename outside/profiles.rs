//! The kinds of random session: how long, which queries, which readings, how often each sort of line.

use crate::random::{Shape, ALL_SHAPES};

/// How ranges and slides are drawn.
#[derive(Clone, Copy)]
pub enum Sizes {
    /// All relations of r to s, up to the limit.
    Any,
    /// Ranges near the limit, slides mostly 1: as many live partials as can be.
    Full,
    /// Slides near the limit, ranges of all relations.
    Slides,
}

pub struct Profile {
    pub name: &'static str,
    /// Fewest and most lines.
    pub lines: (u64, u64),
    /// The longest range and slide.
    pub limit: u64,
    pub sizes: Sizes,
    /// Query numbers are mostly drawn from 1 to this.
    pub pool: u64,
    /// The most registrations before the first reading.
    pub first: u64,
    pub shapes: &'static [Shape],
    pub longest_run: u64,
    /// In ten thousand lines: registrations, withdrawals, withdrawals of all, refused calls, damaged lines. The others
    /// are readings.
    pub weights: [u64; 5],
}

const RISE_AND_FALL: [Shape; 7] =
    [Shape::Teeth, Shape::Teeth, Shape::Teeth, Shape::Falling, Shape::Rising, Shape::Equal, Shape::Zigzag];
const BOTH_ENDS: [Shape; 4] = [Shape::Ends, Shape::OneEnd, Shape::OneEnd, Shape::Wide];

/// Short sessions, taken in turn.
pub const SHORT: [Profile; 9] = [
    Profile {
        name: "few lines",
        lines: (1, 25),
        limit: 4,
        sizes: Sizes::Any,
        pool: 4,
        first: 3,
        shapes: &ALL_SHAPES,
        longest_run: 4,
        weights: [1_200, 600, 100, 300, 300],
    },
    Profile {
        name: "small ranges",
        lines: (10, 120),
        limit: 9,
        sizes: Sizes::Any,
        pool: 6,
        first: 3,
        shapes: &ALL_SHAPES,
        longest_run: 12,
        weights: [500, 300, 50, 50, 50],
    },
    Profile {
        name: "mixed",
        lines: (100, 900),
        limit: 64,
        sizes: Sizes::Any,
        pool: 40,
        first: 6,
        shapes: &ALL_SHAPES,
        longest_run: 60,
        weights: [200, 140, 30, 100, 100],
    },
    Profile {
        name: "churn",
        lines: (50, 500),
        limit: 24,
        sizes: Sizes::Any,
        pool: 12,
        first: 4,
        shapes: &ALL_SHAPES,
        longest_run: 20,
        weights: [2_000, 1_500, 300, 100, 50],
    },
    Profile {
        name: "crowd",
        lines: (80, 400),
        limit: 40,
        sizes: Sizes::Any,
        pool: 70,
        first: 40,
        shapes: &ALL_SHAPES,
        longest_run: 40,
        weights: [1_500, 400, 20, 600, 100],
    },
    Profile {
        name: "refused calls",
        lines: (10, 200),
        limit: 16,
        sizes: Sizes::Any,
        pool: 8,
        first: 4,
        shapes: &ALL_SHAPES,
        longest_run: 10,
        weights: [800, 400, 50, 5_000, 100],
    },
    Profile {
        name: "damaged lines",
        lines: (10, 300),
        limit: 16,
        sizes: Sizes::Any,
        pool: 8,
        first: 4,
        shapes: &ALL_SHAPES,
        longest_run: 10,
        weights: [600, 400, 50, 300, 6_000],
    },
    Profile {
        name: "ends of the width",
        lines: (50, 1_200),
        limit: 512,
        sizes: Sizes::Any,
        pool: 20,
        first: 5,
        shapes: &BOTH_ENDS,
        longest_run: 300,
        weights: [80, 50, 10, 30, 30],
    },
    Profile {
        name: "wide ranges",
        lines: (200, 1_500),
        limit: 4_096,
        sizes: Sizes::Any,
        pool: 30,
        first: 6,
        shapes: &ALL_SHAPES,
        longest_run: 200,
        weights: [100, 60, 10, 30, 30],
    },
];

/// Long sessions, taken less often.
pub const FULL_WINDOWS: Profile = Profile {
    name: "full windows",
    lines: (10_500, 13_000),
    limit: 4_096,
    sizes: Sizes::Any,
    pool: 20,
    first: 6,
    shapes: &ALL_SHAPES,
    longest_run: 3_000,
    weights: [5, 3, 0, 10, 10],
};
pub const RING_TURNS: Profile = Profile {
    name: "ring turns",
    lines: (10_500, 13_000),
    limit: 4_096,
    sizes: Sizes::Full,
    pool: 20,
    first: 3,
    shapes: &RISE_AND_FALL,
    longest_run: 11_000,
    weights: [5, 3, 0, 10, 10],
};
pub const LONG_SLIDES: Profile = Profile {
    name: "long slides",
    lines: (6_000, 10_500),
    limit: 4_096,
    sizes: Sizes::Slides,
    pool: 20,
    first: 5,
    shapes: &ALL_SHAPES,
    longest_run: 2_000,
    weights: [5, 3, 0, 10, 10],
};
pub const MANY_READINGS: Profile = Profile {
    name: "many readings",
    lines: (66_000, 70_000),
    limit: 300,
    sizes: Sizes::Any,
    pool: 40,
    first: 8,
    shapes: &ALL_SHAPES,
    longest_run: 900,
    weights: [30, 30, 0, 10, 10],
};
