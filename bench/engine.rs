// Benchmark of the engine alone, without text lines: the proved library against three plain ways to do the same in
// Rust, side by side in one run over the same stream. `bench/run` builds and runs it; bench/README.md says how it
// measures.
#[cfg(not(without_library))]
mod board; // the slices that are lent to every call
#[path = "engine/clock.rs"]
mod clock; // processor time
#[path = "engine/contender.rs"]
mod contender; // what every contender does, and the loops that drive it
#[path = "engine/count.rs"]
mod count; // one contender for an instruction count
#[path = "engine/field.rs"]
mod field; // the contenders by name
#[cfg(not(without_library))]
#[path = "engine/library.rs"]
mod library; // the proved engine through the static library
#[path = "engine/measure.rs"]
mod measure; // equal answers first, then rounds
#[path = "engine/options.rs"]
mod options; // the command line
#[cfg(not(without_library))]
#[path = "../bindings/rust/pchelodar.rs"]
mod pchelodar; // the library's functions
#[path = "engine/per_query.rs"]
mod per_query; // each query on its own
#[path = "engine/picture.rs"]
mod picture; // pictures in SVG
#[path = "engine/plot.rs"]
mod plot; // panels with two logarithmic axes
#[path = "engine/profile.rs"]
mod profile; // one contender for some seconds
#[path = "engine/reevaluate.rs"]
mod reevaluate; // each due window evaluated anew
#[path = "engine/report.rs"]
mod report; // tables in Markdown
#[path = "engine/ring.rs"]
mod ring; // rings and monotonic deques of the plain engines
#[path = "engine/shared.rs"]
mod shared; // shared partial aggregates
#[path = "engine/summary.rs"]
mod summary; // in how many configurations the goals hold
#[path = "engine/workload.rs"]
mod workload; // configurations and streams

use measure::Measured;
use options::Mode;
use std::path::Path;
use std::process::exit;
use workload::{Configuration, Values};

fn main() {
    let arguments: Vec<String> = std::env::args().skip(1).collect();
    let outcome = match options::parse(&arguments) {
        Ok(Mode::Compare { rounds, pictures }) => compare(rounds, &pictures),
        Ok(Mode::Profile { configuration, contender, seconds }) => profile::run(configuration, contender, seconds),
        Ok(Mode::Count { configuration, contender }) => count::run(configuration, contender),
        Err(message) => Err(format!("{message}\n{}", options::USAGE)),
    };
    if let Err(message) = outcome {
        eprintln!("engine: {message}");
        exit(1);
    }
}

// Every configuration once; tables and summary on standard output, pictures into the folder.
fn compare(rounds: usize, pictures: &Path) -> Result<(), String> {
    let configurations = workload::table_configurations();
    let measured = measure::measure(&[configurations.clone(), workload::picture_configurations()].concat(), rounds)?;
    let (table, _) = measured.split_at(configurations.len());
    report::print(table, rounds);
    summary::print(table);
    picture::write(&measured, pictures).map_err(|e| format!("{}: {e}", pictures.display()))
}

// The measurement of a configuration.
fn find(measured: &[Measured], queries: usize, range: u32, slide: u32, values: Values) -> Option<&Measured> {
    let wanted = Configuration { queries, range, slide, values };
    measured.iter().find(|m| m.configuration == wanted)
}
