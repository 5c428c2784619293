//! Random sessions. The seed alone decides the profile and every byte.

use crate::damage;
use crate::profiles::{Profile, Sizes, FULL_WINDOWS, LONG_SLIDES, MANY_READINGS, RING_TURNS, SHORT};
use crate::random::{Random, Stream};

/// After so many seeds each profile has come up.
pub const SEED_CYCLE: u64 = 1_024;

pub struct Session {
    pub profile: &'static str,
    pub input: Vec<u8>,
}

/// The session of a seed.
pub fn session(seed: u64) -> Session {
    let mut random = Random::new(seed);
    let profile = match (seed % SEED_CYCLE, seed % 128) {
        (500, _) => &MANY_READINGS,
        (_, 20) => &FULL_WINDOWS,
        (_, 40) => &RING_TURNS,
        (_, 60) => &LONG_SLIDES,
        _ if seed % 10 == 9 => return Session { profile: "any bytes", input: any_bytes(&mut random) },
        _ => &SHORT[(seed % 10) as usize],
    };
    Session { profile: profile.name, input: Maker::new(profile, random).make() }
}

/// Input that need not hold a line: empty, arbitrary, or a session cut off.
fn any_bytes(random: &mut Random) -> Vec<u8> {
    let length = random.below(400);
    match random.below(8) {
        0 => Vec::new(),
        1 => vec![b'\n'; random.between(1, 5) as usize],
        2 => damage::arbitrary(random, 600),
        3..=5 => (0..length).map(|_| random.pick(b"RDVV0123456789-\t\t\t\n\n \r")).collect(),
        _ => {
            let profile = &SHORT[random.place(3)];
            let mut input = Maker::new(profile, Random::new(random.next())).make();
            input.truncate(random.place(input.len() + 1));
            input
        }
    }
}

struct Maker {
    profile: &'static Profile,
    random: Random,
    stream: Stream,
    /// Numbers that should be registered now, as far as the good lines tell.
    registered: Vec<u64>,
    input: Vec<u8>,
    lines: u64,
}

impl Maker {
    fn new(profile: &'static Profile, random: Random) -> Self {
        let stream = Stream::new(profile.shapes, profile.longest_run);
        Maker { profile, random, stream, registered: Vec::new(), input: Vec::new(), lines: 0 }
    }

    fn make(mut self) -> Vec<u8> {
        let lines = self.random.between(self.profile.lines.0, self.profile.lines.1);
        for _ in 0..self.random.below(self.profile.first + 1).max(u64::from(!self.random.one_in(8))) {
            self.register();
        }
        while self.lines < lines {
            self.step();
        }
        if self.random.one_in(4) {
            self.input.pop(); // no byte 10 at the end
        }
        self.input
    }

    fn step(&mut self) {
        let [register, withdraw, clear, refused, damaged] = self.profile.weights;
        let roll = self.random.below(10_000);
        if roll < register {
            self.register();
        } else if roll < register + withdraw {
            self.withdraw();
        } else if roll < register + withdraw + clear {
            self.withdraw_all();
        } else if roll < register + withdraw + clear + refused {
            self.refused_call();
        } else if roll < register + withdraw + clear + refused + damaged {
            self.damaged_line();
        } else {
            self.reading();
        }
    }

    fn line(&mut self, line: &[u8]) {
        self.input.extend(line);
        self.input.push(b'\n');
        self.lines += 1;
    }

    fn reading(&mut self) {
        let value = self.stream.next(&mut self.random);
        self.line(format!("V\t{value}").as_bytes());
    }

    /// A registration that is accepted unless its number or the list stands against it.
    fn register(&mut self) {
        let mut number = self.number();
        if self.registered.contains(&number) && !self.random.one_in(8) {
            number = self.number();
        }
        let line = self.registration(number);
        self.line(&line);
        if self.registered.len() < 32 && !self.registered.contains(&number) {
            self.registered.push(number);
        }
    }

    fn registration(&mut self, number: u64) -> Vec<u8> {
        let (range, slide) = range_and_slide(&mut self.random, self.profile);
        let kind = match self.profile.sizes {
            Sizes::Full => self.random.pick(&[1, 3, 3, 4, 4]),
            _ => self.random.between(1, 4),
        };
        format!("R\t{number}\t{kind}\t{range}\t{slide}").into_bytes()
    }

    fn number(&mut self) -> u64 {
        if self.random.one_in(8) {
            return self.random.between(65_533, 65_535);
        }
        self.random.between(1, self.profile.pool)
    }

    fn withdraw(&mut self) {
        if self.registered.is_empty() {
            return self.reading();
        }
        let place = self.random.place(self.registered.len());
        let number = self.registered.remove(place);
        self.line(format!("D\t{number}").as_bytes());
    }

    /// All withdrawn, some readings with no query, then begun again.
    fn withdraw_all(&mut self) {
        while !self.registered.is_empty() {
            self.withdraw();
        }
        for _ in 0..self.random.below(5) {
            self.reading();
        }
        for _ in 0..self.random.below(4) {
            self.register();
        }
    }

    /// Well-formed lines whose call is refused with 3 to 9, several reasons at a time so that the order of the checks
    /// shows.
    fn refused_call(&mut self) {
        let line = match self.random.below(3) {
            0 => {
                let number = self.number();
                let other = self.random.pick(&[0, number, 65_536, 4_294_967_295]);
                format!("D\t{other}")
            }
            _ => self.refused_registration(),
        };
        self.line(line.as_bytes());
        if let Some(number) = line.strip_prefix("D\t").and_then(|field| field.parse().ok()) {
            self.registered.retain(|&other| other != number); // it may have been there
        }
    }

    fn refused_registration(&mut self) -> String {
        let random = &mut self.random;
        let (mut range, mut slide) = range_and_slide(random, self.profile);
        let mut kind = random.between(1, 4);
        let mut number = random.pick(&[0, 65_536, 65_537, 131_073, 4_294_967_295]);
        if !self.registered.is_empty() && !random.one_in(4) {
            number = random.pick(&self.registered);
        }
        if random.one_in(3) {
            kind = random.pick(&[0, 5, 9, 257, 4_294_967_295]);
        }
        if random.one_in(3) {
            range = random.pick(&[0, 4_097, 8_192, 65_537, 4_294_967_295]);
        }
        if random.one_in(3) {
            slide = random.pick(&[0, 4_097, 8_192, 65_537, 4_294_967_295]);
        }
        format!("R\t{number}\t{kind}\t{range}\t{slide}")
    }

    fn damaged_line(&mut self) {
        let number = self.number();
        let good = match self.random.below(4) {
            0 => self.registration(number),
            1 => format!("D\t{number}").into_bytes(),
            _ => format!("V\t{}", self.stream.next(&mut self.random)).into_bytes(),
        };
        let line = damage::line(&mut self.random, &good);
        self.line(&line);
    }
}

/// Range and slide: r below, equal to, a multiple of and no multiple of s.
fn range_and_slide(random: &mut Random, profile: &Profile) -> (u64, u64) {
    let limit = profile.limit;
    match profile.sizes {
        Sizes::Full => {
            let range = limit - random.pick(&[0, 0, 0, 0, 1, 63]);
            return (range, random.pick(&[1, 1, 1, 1, 1, 1, 2, limit]));
        }
        Sizes::Slides if random.one_in(2) => {
            let slide = limit - random.pick(&[0, 0, 1, 2, 1_000, 2_047, 2_048]);
            let range = random.pick(&[1, 2, slide / 2, slide - 1, slide, limit, limit - 1]);
            return (range, slide);
        }
        _ => {}
    }
    let slide = random.size(limit);
    let times = limit / slide;
    match random.below(6) {
        0 => (slide, slide),
        1 => (random.between(1, slide), slide),
        2 => (slide * random.between(1, times), slide),
        3 => (random.between(slide, limit), slide),
        4 => (random.size(limit), 1),
        _ => (random.size(limit), random.pick(&[slide, limit, 1, 2])),
    }
}
