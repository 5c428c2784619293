// One contender on one configuration for a fixed number of readings, for an instruction count.
use crate::contender::Driven;
use crate::field::Name;
use crate::workload::{Configuration, Values};

// Every window is full before, and neither number parts the slides of the tables. Where range and slide are 4,096, no
// counted reading is an edge: each query has its own within the first 156 readings from a multiple of 4,096 on.
const BEFORE: u32 = 20 * 7 * 64;
const COUNTED: u32 = 7 * 7 * 64;

// Prints how many readings are counted.
pub fn run(configuration: Configuration, name: Name) -> Result<(), String> {
    let mut contender = name.fresh().ok_or(format!("{} is left out of this build", name.text()))?;
    configuration.set_up(&mut *contender, name.order(), BEFORE);
    counted_readings(&mut *contender, configuration.values);
    println!("{COUNTED}");
    Ok(())
}

// callgrind collects what this one takes, by its name.
#[no_mangle]
#[inline(never)]
fn counted_readings(contender: &mut dyn Driven, values: Values) {
    contender.feed(values, BEFORE, BEFORE + COUNTED);
}
