// One contender on one configuration for some seconds, for a profiler.
use crate::clock;
use crate::field::Name;
use crate::workload::Configuration;

const WARM_UP: u32 = 8192; // readings after which every window is full
const BATCH: u32 = 65_536; // readings between two looks at the clock
const MOST: u32 = 4_000_000_000; // readings before the contender is made anew: a count has 32 bits

pub fn run(configuration: Configuration, name: Name, seconds: u64) -> Result<(), String> {
    let fresh = || name.fresh().ok_or(format!("{} is left out of this build", name.text()));
    let (mut contender, mut taken, mut total) = (fresh()?, WARM_UP, 0u64);
    configuration.set_up(&mut *contender, name.order(), WARM_UP);
    let begin = clock::now();
    let time = loop {
        contender.feed(configuration.values, taken, taken + BATCH);
        taken += BATCH;
        total += BATCH as u64;
        let time = clock::now() - begin;
        if time >= seconds * 1_000_000_000 {
            break time;
        }
        if taken > MOST {
            contender = fresh()?;
            configuration.set_up(&mut *contender, name.order(), WARM_UP);
            taken = WARM_UP;
        }
    };
    println!("{} on {configuration}: {total} readings, {:.1} ns a reading", name.text(), time as f64 / total as f64);
    Ok(())
}
