//! A small deterministic generator (splitmix64) and streams of readings.

pub struct Random(u64);

impl Random {
    pub fn new(seed: u64) -> Self {
        Random(seed.wrapping_mul(0x2545_F491_4F6C_DD1D) ^ 0x6A09_E667_F3BC_C909)
    }

    pub fn next(&mut self) -> u64 {
        self.0 = self.0.wrapping_add(0x9E37_79B9_7F4A_7C15);
        let mixed = (self.0 ^ (self.0 >> 30)).wrapping_mul(0xBF58_476D_1CE4_E5B9);
        let mixed = (mixed ^ (mixed >> 27)).wrapping_mul(0x94D0_49BB_1331_11EB);
        mixed ^ (mixed >> 31)
    }

    /// 0 to limit - 1.
    pub fn below(&mut self, limit: u64) -> u64 {
        self.next() % limit
    }

    /// low to high, both included.
    pub fn between(&mut self, low: u64, high: u64) -> u64 {
        low + self.below(high - low + 1)
    }

    pub fn one_in(&mut self, times: u64) -> bool {
        self.below(times) == 0
    }

    pub fn pick<T: Copy>(&mut self, from: &[T]) -> T {
        from[self.below(from.len() as u64) as usize]
    }

    /// A place in something of this length.
    pub fn place(&mut self, length: usize) -> usize {
        self.below(length as u64) as usize
    }

    pub fn byte(&mut self) -> u8 {
        self.below(256) as u8
    }

    /// 1 to limit, with each order of magnitude about as likely.
    pub fn size(&mut self, limit: u64) -> u64 {
        let bits = self.below(u64::from(limit.ilog2()) + 2);
        self.between(1, limit.min(1 << bits))
    }
}

/// How the readings of a run go on.
#[derive(Clone, Copy, Debug)]
pub enum Shape {
    Equal,
    Rising,
    Falling,
    Zigzag,
    /// A saw: steps one way for a tooth of readings, then back at once.
    Teeth,
    /// -3 to 3, so that equal values are frequent.
    Small,
    /// The whole 32-bit width.
    Wide,
    /// At both ends of the width.
    Ends,
    /// At one end of the width throughout.
    OneEnd,
}

pub const ALL_SHAPES: [Shape; 9] = [
    Shape::Equal,
    Shape::Rising,
    Shape::Falling,
    Shape::Zigzag,
    Shape::Teeth,
    Shape::Small,
    Shape::Wide,
    Shape::Ends,
    Shape::OneEnd,
];

const LEAST: i64 = i32::MIN as i64;
const GREATEST: i64 = i32::MAX as i64;

/// Readings in runs of one shape each.
pub struct Stream {
    shapes: &'static [Shape],
    longest_run: u64,
    shape: Shape,
    left: u64,
    value: i64,
    step: i64,
    tooth: u64,
}

impl Stream {
    pub fn new(shapes: &'static [Shape], longest_run: u64) -> Self {
        Stream { shapes, longest_run, shape: shapes[0], left: 0, value: 0, step: 1, tooth: 1 }
    }

    pub fn next(&mut self, random: &mut Random) -> i64 {
        if self.left == 0 {
            self.begin_run(random);
        }
        self.left -= 1;
        let next = match self.shape {
            Shape::Equal => self.value,
            Shape::Rising => self.value + self.step,
            Shape::Falling => self.value - self.step,
            Shape::Zigzag => {
                self.step = -self.step;
                self.value + self.step
            }
            Shape::Teeth if self.left % self.tooth == 0 => self.value - self.step * (self.tooth as i64 - 1),
            Shape::Teeth => self.value + self.step,
            Shape::Small => random.below(7) as i64 - 3,
            Shape::Wide => i64::from(random.next() as i32),
            Shape::Ends => random.pick(&[LEAST, LEAST + 1, GREATEST - 1, GREATEST]),
            Shape::OneEnd if self.value < 0 => LEAST,
            Shape::OneEnd => GREATEST,
        };
        self.value = next.clamp(LEAST, GREATEST);
        self.value
    }

    fn begin_run(&mut self, random: &mut Random) {
        self.shape = random.pick(self.shapes);
        self.left = random.between(self.longest_run.div_ceil(4), self.longest_run);
        self.step = random.pick(&[1, 1, 2, 7, 1_000, 300_000]);
        if random.one_in(3) {
            self.value = random.pick(&[0, 1, -1, 5, LEAST, GREATEST]);
        }
        match self.shape {
            Shape::Zigzag => self.step += random.below(50) as i64,
            Shape::Teeth => self.begin_teeth(random),
            _ => {}
        }
    }

    /// Short teeth, or teeth a little longer than the longest range, so that a full list of standing partials is
    /// emptied by one closing.
    fn begin_teeth(&mut self, random: &mut Random) {
        let long = self.longest_run > 4_300 && !random.one_in(4);
        self.tooth = if long { random.between(4_090, 4_300) } else { random.between(2, 40) };
        self.step = random.pick(&[1, -1, 2, -2, 7, -7, 1_000, -1_000]);
        self.value = 0;
    }
}
