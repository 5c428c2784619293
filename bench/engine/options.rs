// The command line.
use crate::field::Name;
use crate::workload::{Configuration, Values};
use std::path::PathBuf;

pub const USAGE: &str = "\
usage: engine [--rounds N] [--pictures FOLDER]
       engine --profile QUERIES,RANGE,SLIDE,VALUES [--contender NAME] [--seconds N]
       engine --count QUERIES,RANGE,SLIDE,VALUES [--contender NAME]
  --rounds N         measurements of each contender in each configuration, 1 to 999; 5 if not given
  --pictures FOLDER  where the pictures go; target/bench if not given
  --profile ...      one contender on one configuration, for a profiler: as 8,256,7,random (or rising, falling)
  --count ...        the same for callgrind: it collects counted_readings, whose number is printed
  --contender NAME   library (if not given), library_ascending, reevaluate, per_query, plain_shared, plain_remainders
  --seconds N        processor seconds, 1 to 999; 5 if not given";

pub enum Mode {
    Compare { rounds: usize, pictures: PathBuf },
    Profile { configuration: Configuration, contender: Name, seconds: u64 },
    Count { configuration: Configuration, contender: Name },
}

pub fn parse(arguments: &[String]) -> Result<Mode, String> {
    let (mut rounds, mut seconds, mut contender) = (5, 5, Name::Library);
    let (mut pictures, mut profiled, mut counted) = (PathBuf::from("target/bench"), None, None);
    for pair in arguments.chunks(2) {
        let [option, value] = pair else { return Err(format!("{} is unknown or lacks its value", pair[0])) };
        match option.as_str() {
            "--rounds" => rounds = number(value, 999)? as usize,
            "--seconds" => seconds = number(value, 999)?,
            "--pictures" => pictures = PathBuf::from(value),
            "--contender" => contender = name(value)?,
            "--profile" => profiled = Some(configuration(value)?),
            "--count" => counted = Some(configuration(value)?),
            _ => return Err(format!("{option} is unknown")),
        }
    }
    Ok(match (profiled, counted) {
        (Some(configuration), _) => Mode::Profile { configuration, contender, seconds },
        (_, Some(configuration)) => Mode::Count { configuration, contender },
        _ => Mode::Compare { rounds, pictures },
    })
}

fn number(text: &str, most: u64) -> Result<u64, String> {
    text.parse().ok().filter(|n| (1..=most).contains(n)).ok_or(format!("{text} is not a number from 1 to {most}"))
}

fn name(text: &str) -> Result<Name, String> {
    Name::ALL.into_iter().find(|n| n.text() == text).ok_or(format!("{text} is not a contender"))
}

fn configuration(text: &str) -> Result<Configuration, String> {
    let fields: Vec<&str> = text.split(',').collect();
    let [queries, range, slide, values] = fields[..] else {
        return Err(format!("{text} is not QUERIES,RANGE,SLIDE,VALUES"));
    };
    Ok(Configuration {
        queries: number(queries, 32)? as usize,
        range: number(range, 4096)? as u32,
        slide: number(slide, 4096)? as u32,
        values: Values::ALL
            .into_iter()
            .find(|v| v.name() == values)
            .ok_or(format!("{values} is not random, rising or falling"))?,
    })
}
