//! What the calls of a run are like.

use crate::call::Call;
use crate::random::Random;

/// How the readings of a run go.
#[derive(Clone, Copy, Debug)]
enum Shape {
    Few,
    Wide,
    Ends,
    Rising,
    Falling,
}

#[derive(Debug)]
pub struct Profile {
    /// Ranges and slides up to this.
    longest: usize,
    /// Query numbers up to this.
    numbers: usize,
    shape: Shape,
    last: i32,
    /// Calls before any damage, so that the rings are filled and have turned.
    pub warm: usize,
    /// Queries that are registered first.
    pub first: usize,
    pub steps: usize,
}

impl Profile {
    /// Every eighth seed has a run with long windows, whose rings turn.
    pub fn new(seed: u64, random: &mut Random, steps: usize) -> Profile {
        let long = seed % 8 == 0;
        Profile {
            longest: if long { 4_096 } else { random.pick(&[2, 5, 16, 90, 600]) },
            numbers: random.pick(&[6, 40, 60]),
            shape: random.pick(&[Shape::Few, Shape::Wide, Shape::Ends, Shape::Rising, Shape::Falling]),
            last: 0,
            warm: if long { random.between(200, 4_600) } else { 0 },
            first: random.pick(&[0, 1, 1, 2, 5, 32]),
            steps,
        }
    }

    /// A call for a board that goes on.
    pub fn call(&mut self, random: &mut Random) -> Call {
        match random.below(400) {
            0 => Call::Start,
            1..=45 => self.register(random),
            46..=70 => Call::Withdraw { number: self.number(random) },
            71..=90 => Call::Totals,
            _ => self.reading(random),
        }
    }

    /// A call for a damaged board, where each is as likely as a reading.
    pub fn any_call(&mut self, random: &mut Random) -> Call {
        match random.below(16) {
            0 => Call::Start,
            1..=3 => self.register(random),
            4..=5 => Call::Withdraw { number: self.number(random) },
            6..=7 => Call::Totals,
            _ => self.reading(random),
        }
    }

    pub fn reading(&mut self, random: &mut Random) -> Call {
        let step = random.below(3) as i32;
        self.last = match self.shape {
            Shape::Few => random.below(7) as i32 - 3,
            Shape::Wide => random.next() as i32,
            Shape::Ends => random.pick(&[i32::MIN, i32::MIN + 1, i32::MAX - 1, i32::MAX]),
            Shape::Rising => self.last.wrapping_add(step),
            Shape::Falling => self.last.wrapping_sub(step),
        };
        Call::Reading { value: self.last }
    }

    /// A registration; one field in twelve is at a limit or outside.
    pub fn register(&mut self, random: &mut Random) -> Call {
        let number = self.number(random);
        let kind = if random.one_in(24) { random.pick(&[0, 5, u32::MAX]) } else { random.between(1, 4) as u32 };
        let range = self.length(random);
        let slide = if random.one_in(3) { 1 } else { self.length(random) };
        Call::Register { number, kind, range, slide }
    }

    /// A registration that is accepted while the list has a place.
    pub fn good_register(&mut self, random: &mut Random, number: u32) -> Call {
        let [kind, range, slide] = [4, self.longest, self.longest.min(64)].map(|most| random.between(1, most) as u32);
        Call::Register { number, kind, range, slide }
    }

    fn number(&self, random: &mut Random) -> u32 {
        if random.one_in(24) {
            return random.pick(&[0, 65_535, 65_536, u32::MAX]);
        }
        random.between(1, self.numbers) as u32
    }

    fn length(&self, random: &mut Random) -> u32 {
        if random.one_in(24) {
            return random.pick(&[0, 4_096, 4_097, u32::MAX]);
        }
        random.between(1, self.longest) as u32
    }
}
