// Equal answers first, then rounds of timed readings.
use crate::clock;
use crate::contender::{Answers, Contender, Driven, Query};
use crate::field::Name;
use crate::shared::Shared;
use crate::workload::{Configuration, Order, Values};

// Readings whose answers are compared before the first round; every window is full long before.
const CHECKED: u32 = 16_384;
const WHOLE: u32 = 7 * 64; // every measurement is a whole number of these, so of every slide
const TRIAL: u64 = 4_000_000; // nanoseconds that a trial has to take to tell the speed
const ROUND: u64 = 40_000_000; // nanoseconds that a measurement is meant to take
pub const SINGLE: u32 = 10 * WHOLE; // readings that are timed one by one, more than a ring has places
pub const REPEATS: usize = 4; // how often they are in a round

pub struct Measured {
    pub configuration: Configuration,
    times: Vec<Vec<f64>>, // nanoseconds a reading, by contender and round; empty where a contender is left out
    singles: Vec<Vec<u64>>, // the least nanoseconds of each single reading, by contender
}

impl Measured {
    fn of(&self, name: Name) -> &[f64] {
        &self.times[name as usize]
    }

    // Median, least and greatest nanoseconds a reading.
    pub fn time(&self, name: Name) -> Option<[f64; 3]> {
        spread(self.of(name).to_vec())
    }

    // The ratio of the medians, and the least and greatest ratio of a round.
    pub fn ratio(&self, name: Name, to: Name) -> Option<[f64; 3]> {
        let rounds = self.of(name).iter().zip(self.of(to)).map(|(a, b)| a / b).collect();
        let [_, least, greatest] = spread(rounds)?;
        Some([self.time(name)?[0] / self.time(to)?[0], least, greatest])
    }

    // Nanoseconds of the slowest single reading.
    pub fn worst(&self, name: Name) -> Option<u64> {
        self.singles[name as usize].iter().max().copied()
    }
}

// Median, least and greatest.
pub fn spread(mut numbers: Vec<f64>) -> Option<[f64; 3]> {
    numbers.sort_by(f64::total_cmp);
    let last = numbers.len().checked_sub(1)?;
    Some([(numbers[last / 2] + numbers[(last + 1) / 2]) / 2.0, numbers[0], numbers[last]])
}

// A contender at work: how many readings it has taken, and how many it takes in a round.
struct Runner {
    name: Name,
    contender: Box<dyn Driven>,
    taken: u32,
    a_round: u32,
}

impl Runner {
    // Takes readings and returns the nanoseconds. The number of answers has to be right.
    fn run(&mut self, configuration: Configuration, readings: u32) -> Result<u64, String> {
        let (from, to) = (self.taken, self.taken + readings);
        let before = clock::now();
        let answered = self.contender.feed(configuration.values, from, to);
        let time = clock::now() - before;
        self.taken = to;
        let due = configuration.due(from, to);
        if answered == due {
            Ok(time)
        } else {
            Err(format!("{configuration}: {} answers {answered} times, not {due}", self.name.text()))
        }
    }

    // Finds out how many readings make a round.
    fn calibrate(&mut self, configuration: Configuration) -> Result<(), String> {
        let mut readings = WHOLE;
        loop {
            let time = self.run(configuration, readings)?;
            if time < TRIAL {
                readings *= 2;
                continue;
            }
            let wholes = (readings / WHOLE) as u64 * ROUND / time;
            self.a_round = wholes.max(1) as u32 * WHOLE;
            return Ok(());
        }
    }
}

// Each contender on its first readings. Their answers have to be equal, and so do the totals of those that count
// partials. The numbers of the queries are in the answers, so plain_shared answers in both orders.
fn field(configuration: Configuration) -> Result<Vec<Runner>, String> {
    let checksum = |order| configuration.set_up(&mut Shared::<false>::new(), order, CHECKED);
    let expected = [Order::Mixed, Order::Ascending].map(checksum);
    let (mut runners, mut totals) = (Vec::new(), Vec::new());
    for name in Name::ALL {
        let Some(mut contender) = name.fresh() else { continue };
        if configuration.set_up(&mut *contender, name.order(), CHECKED) != expected[name.order() as usize] {
            return Err(format!("{configuration}: {} and plain_shared answer differently", name.text()));
        }
        totals.extend(contender.totals().map(|t| (name, t)));
        runners.push(Runner { name, contender, taken: CHECKED, a_round: 0 });
    }
    if totals.iter().any(|t| t.1 != totals[0].1) {
        return Err(format!("{configuration}: the totals differ: {totals:?}"));
    }
    Ok(runners)
}

// A configuration under measurement: its contenders at work, and their times so far.
struct Race {
    runners: Vec<Runner>,
    measured: Measured,
}

impl Race {
    fn new(configuration: Configuration) -> Result<Self, String> {
        let mut runners = field(configuration)?;
        for runner in &mut runners {
            runner.calibrate(configuration)?
        }
        let (times, singles) = (vec![Vec::new(); Name::ALL.len()], vec![Vec::new(); Name::ALL.len()]);
        Ok(Race { runners, measured: Measured { configuration, times, singles } })
    }

    // Every contender runs once; next time the order is reversed.
    fn round(&mut self) -> Result<(), String> {
        let Measured { configuration, times, singles } = &mut self.measured;
        for runner in &mut self.runners {
            let time = runner.run(*configuration, runner.a_round)?;
            times[runner.name as usize].push(time as f64 / runner.a_round as f64);
            time_singly(*configuration, runner.name, &mut singles[runner.name as usize]);
        }
        self.runners.reverse();
        Ok(())
    }
}

// The contender from a start, until every window is full, and then reading by reading. These readings are always the
// same, so what disturbs one of them some of the times is not in its least time.
fn time_singly(configuration: Configuration, name: Name, least: &mut Vec<u64>) {
    least.resize(SINGLE as usize, u64::MAX);
    for mut contender in (0..REPEATS).filter_map(|_| name.fresh()) {
        configuration.set_up(&mut *contender, name.order(), SINGLE);
        contender.feed_singly(configuration.values, SINGLE, least);
    }
}

// A round goes through all configurations, so what disturbs the machine for a while is spread over all of them.
pub fn measure(configurations: &[Configuration], rounds: usize) -> Result<Vec<Measured>, String> {
    let races: Result<Vec<Race>, String> = configurations.iter().map(|c| Race::new(*c)).collect();
    let mut races = races?;
    eprintln!("equal answers in {} configurations", races.len());
    for round in 1..=rounds {
        for race in &mut races {
            race.round()?
        }
        eprintln!("round {round} of {rounds}");
    }
    Ok(races.into_iter().map(|race| race.measured).collect())
}

// A contender that does nothing.
struct Nothing;

impl Contender for Nothing {
    fn register(&mut self, _: Query) {}

    #[inline(never)]
    fn reading(&mut self, value: i32, _: &mut Answers) -> usize {
        std::hint::black_box(value) as usize & 1
    }
}

// Nanoseconds a reading of the loop around the contenders: random values are made and a call is done. They are in every
// time.
pub fn empty_loop() -> f64 {
    let readings = 10_000_000;
    let times = (0..5).map(|_| {
        let before = clock::now();
        std::hint::black_box(Nothing.feed(Values::Random, 0, readings));
        (clock::now() - before) as f64 / readings as f64
    });
    spread(times.collect()).map_or(0.0, |s| s[0])
}

// Nanoseconds of the slowest single reading without an engine, so of a look at the clock. They are in every such time.
pub fn empty_single() -> u64 {
    let mut least = [u64::MAX; SINGLE as usize];
    (0..5 * REPEATS).for_each(|_| Nothing.feed_singly(Values::Random, 0, &mut least));
    least.into_iter().fold(0, u64::max)
}
