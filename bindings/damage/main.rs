//! Damage: random runs of the five calls through the library's own functions, in which between calls state, records
//! and tables are damaged and slices are lent too short. After every call it is checked that no place was written that
//! the call may not write, that 1 is given exactly where a slice is too short, that 2 is given in every case that
//! document 01 lists, that a refused call changed nothing, and that on undamaged boards the outcome is that of the
//! reference model of `outside/`.

mod board;
mod call;
mod check;
#[allow(dead_code)] // the wrong variants are for the self-test of outside/
#[path = "../../outside/fault.rs"]
mod fault;
mod harm;
mod judge;
mod lengths;
mod places;
mod profile;
mod random;
#[path = "../../outside/reckoner.rs"]
mod reckoner;
mod reference;
mod report;
mod run;
mod site;
mod tally;
mod whole;

use run::{Run, Settings};
use std::process::ExitCode;
use tally::Tally;

const USAGE: &str = "usage: damage [--seed N] [--runs N] [--steps N] [--exact] [--partial] [--trace]
  --seed N    the seed of the first run; each later one has the next       (1)
  --runs N    how many runs                                                (640)
  --steps N   steps of a run: a call, or damage with some calls on it      (1000)
  --exact     each slice in an allocation of just its length, for valgrind
  --partial   what never occurred is no failure
  --trace     every call is printed before it is made";

struct Options {
    seed: u64,
    runs: u64,
    partial: bool,
    settings: Settings,
}

fn options() -> Option<Options> {
    let settings = Settings { steps: 1000, exact: false, trace: false };
    let mut options = Options { seed: 1, runs: 640, partial: false, settings };
    let mut words = std::env::args().skip(1);
    while let Some(word) = words.next() {
        match word.as_str() {
            "--seed" => options.seed = words.next()?.parse().ok()?,
            "--runs" => options.runs = words.next()?.parse().ok()?,
            "--steps" => options.settings.steps = words.next()?.parse().ok()?,
            "--exact" => options.settings.exact = true,
            "--partial" => options.partial = true,
            "--trace" => options.settings.trace = true,
            _ => return None,
        }
    }
    Some(options)
}

/// Every run: the counts, or what is wrong.
fn runs(options: &Options) -> Result<Tally, String> {
    let mut tally = Tally::new();
    for i in 0..options.runs {
        let seed = options.seed.wrapping_add(i);
        let run = Run::new(seed, options.settings, &mut tally);
        run.go().map_err(|wrong| {
            format!("seed {seed} (again: --seed {seed} --runs 1 --steps {} --partial): {wrong}", options.settings.steps)
        })?;
        tally.runs += 1;
    }
    Ok(tally)
}

fn main() -> ExitCode {
    let Some(options) = options() else {
        eprintln!("{USAGE}");
        return ExitCode::from(2);
    };
    let tally = match runs(&options) {
        Ok(tally) => tally,
        Err(wrong) => {
            println!("damage: FAILED: {wrong}");
            return ExitCode::FAILURE;
        }
    };
    println!("damage: seeds from {}", options.seed);
    report::print(&tally);
    let never = report::never(&tally);
    if never.is_empty() {
        println!("damage: passed");
        return ExitCode::SUCCESS;
    }
    if options.partial {
        println!("damage: passed; of what a whole run has to have, {} never occurred", never.len());
        return ExitCode::SUCCESS;
    }
    never.iter().take(40).for_each(|name| println!("damage: FAILED: never occurred: {name}"));
    ExitCode::FAILURE
}
