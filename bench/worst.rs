// What a caller has to provide for: the bytes that it lends, the stack that a call takes, and the reading that takes
// longest. `bench/worst` builds and runs it; bench/README.md says how it measures.
mod board; // the slices that are lent to every call
#[path = "caller/cases.rs"]
mod cases; // readings that take long
#[path = "engine/clock.rs"]
mod clock; // processor time
#[path = "caller/depth.rs"]
mod depth; // the stack of the five calls
#[path = "caller/lent.rs"]
mod lent; // everything that a caller lends
#[path = "../bindings/rust/pchelodar.rs"]
mod pchelodar;
#[allow(dead_code)]
#[path = "../bindings/damage/random.rs"]
mod random;
#[path = "caller/stack.rs"]
mod stack; // a call on a stack of its own

use cases::{Case, BEFORE, CASES};
use lent::Lent;
use pchelodar::Engine;
use std::process::exit;
use std::time::Instant;

const USAGE: &str = "\
usage: worst lent             the bytes that a caller lends
       worst stack            the stack that each call takes
       worst time ROUNDS      each case: nanoseconds of the last reading and of the mean
       worst cases            the names of the cases
       worst about CASE       what the case is
       worst all CASE         a round of the case, for callgrind; prints the number of readings
       worst but-last CASE    the same without the last reading";

fn main() {
    let arguments: Vec<String> = std::env::args().skip(1).collect();
    let words: Vec<&str> = arguments.iter().map(String::as_str).collect();
    let done = match words[..] {
        ["lent"] => Some(print_lent()),
        ["stack"] => Some(depth::print()),
        ["time", rounds] => rounds.parse().ok().filter(|rounds| *rounds > 0).map(print_times),
        ["cases"] => Some(CASES.iter().for_each(|case| println!("{}", case.name))),
        ["about", name] => find(name).map(|case| println!("{}", case.about)),
        ["all", name] => find(name).map(|case| count(case, true)),
        ["but-last", name] => find(name).map(|case| count(case, false)),
        _ => None,
    };
    if done.is_none() {
        eprintln!("{USAGE}");
        exit(2);
    }
}

fn find(name: &str) -> Option<&'static Case> {
    CASES.iter().find(|case| case.name == name)
}

fn print_lent() {
    let lent = Lent::new().bytes();
    println!("| lent | bytes |\n|---|---:|");
    lent.iter().for_each(|(name, bytes)| println!("| {name} | {bytes} |"));
    println!("| in all | {} |", lent.iter().map(|(_, bytes)| bytes).sum::<usize>());
}

fn take(engine: &mut Engine, value: i32) {
    engine.reading(value).expect("a reading is taken");
}

fn take_before(engine: &mut Engine, case: &Case) {
    (0..BEFORE).for_each(|place| take(engine, (case.value)(place)));
}

// One round for an instruction count, with the last reading or without it.
fn count(case: &Case, with_last: bool) {
    let mut engine = Engine::new();
    (case.open)(&mut engine);
    take_before(&mut engine, case);
    (case.close)(&mut engine);
    if with_last {
        take(&mut engine, case.last);
    }
    println!("{}", engine.totals().readings);
}

// The nanoseconds of the last reading of a round, and of the mean of all its readings. Those before the last are timed
// by the processor time of the process; a look at that takes too long beside a single reading.
fn time(case: &Case, engine: &mut Engine) -> [f64; 2] {
    engine.start();
    (case.open)(engine);
    let begin = clock::now();
    take_before(engine, case);
    let before = (clock::now() - begin) as f64;
    (case.close)(engine);
    let begin = Instant::now();
    take(engine, case.last);
    let last = begin.elapsed().as_nanos() as f64;
    [last, (before + last) / f64::from(BEFORE + 1)]
}

fn print_times(rounds: usize) {
    println!("Rounds: {rounds}. Medians; behind a ratio the middle half of the rounds.\n");
    println!("| case | ns, last reading | ns, mean | last / mean |");
    println!("|---|---:|---:|---:|");
    let mut engine = Engine::new();
    for case in &CASES {
        let times: Vec<[f64; 2]> = (0..rounds).map(|_| time(case, &mut engine)).collect();
        let [_, last, _] = quartiles(times.iter().map(|[last, _]| *last).collect());
        let [_, mean, _] = quartiles(times.iter().map(|[_, mean]| *mean).collect());
        let [low, ratio, high] = quartiles(times.iter().map(|[last, mean]| last / mean).collect());
        println!("| {} | {last:.0} | {mean:.0} | {ratio:.1} ({low:.1} to {high:.1}) |", case.name);
    }
}

// The numbers at one, two and three quarters in their order.
fn quartiles(mut numbers: Vec<f64>) -> [f64; 3] {
    numbers.sort_by(f64::total_cmp);
    [1, 2, 3].map(|quarters| numbers[(numbers.len() - 1) * quarters / 4])
}
