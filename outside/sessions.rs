//! Random sessions: the session program compared by running with the reference model, byte for byte. See README.md for
//! the options.
//!
//! Refusals 10 and 11 do not come up in a session: 10 needs 4,294,967,295 readings, and the program's answer table is
//! long enough for 32 answers. Refusals 1 and 2 are about lent tables, which a session does not see.

mod damage;
mod fault;
mod figures;
mod generate;
mod lines;
mod profiles;
mod random;
mod reckoner;
mod report;
mod session;
mod shrink;
mod subject;

use fault::Fault;
use report::Difference;
use session::Tally;
use std::io::{Read, Write};
use std::path::PathBuf;
use std::process::exit;
use std::time::{Duration, Instant};
use subject::Subject;

const DEFAULT_PROGRAM: &str = "target/bin/pchelodar";

/// How often the default run goes through all profiles.
const DEFAULT_CYCLES: u64 = 8;

/// How many sessions the self-test tries for each wrong variant.
const SELF_TEST_SESSIONS: u64 = 3_000;

/// How often a session is run at most while it is shrunk, and how often in the self-test.
const SHRINKING: usize = 3_000;
const SELF_TEST_SHRINKING: usize = 400;

enum Task {
    Compare,
    Figures,
    SelfTest,
    /// Print a seed's session, or act as the session program.
    Show,
    Reckon(Fault),
}

struct Options {
    task: Task,
    program: PathBuf,
    /// One seed alone, if given.
    seed: Option<u64>,
    /// Else the first of the seeds.
    first: u64,
    sessions: u64,
    /// At least this many lines, if given, instead of a count of sessions.
    lines: Option<u64>,
}

fn main() {
    let options = read_options().unwrap_or_else(|message| {
        eprintln!("{message}");
        eprintln!(
            "options: --first N, --seed N, --sessions N, --lines N, --program PATH, --figures, --self-test, \
             --show (with --seed), --reckon FAULT"
        );
        exit(2);
    });
    let held = match options.task {
        Task::Figures => figures::check(),
        Task::SelfTest => self_test(),
        Task::Show => show(&options),
        Task::Reckon(fault) => reckon(fault),
        Task::Compare => compare(&options),
    };
    exit(if held { 0 } else { 1 });
}

fn read_options() -> Result<Options, String> {
    let program = PathBuf::from(DEFAULT_PROGRAM);
    let sessions = DEFAULT_CYCLES * generate::SEED_CYCLE;
    let mut options = Options { task: Task::Compare, program, seed: None, first: 1, sessions, lines: None };
    let mut arguments = std::env::args().skip(1);
    while let Some(name) = arguments.next() {
        let mut value = || arguments.next().ok_or(format!("{name} needs a value"));
        match name.as_str() {
            "--figures" => options.task = Task::Figures,
            "--self-test" => options.task = Task::SelfTest,
            "--show" => options.task = Task::Show,
            "--reckon" => {
                let name = value()?;
                options.task = Task::Reckon(fault::by_name(&name).ok_or(format!("no fault {name}"))?);
            }
            "--program" => options.program = PathBuf::from(value()?),
            "--first" => options.first = number(&value()?)?,
            "--seed" => options.seed = Some(number(&value()?)?),
            "--sessions" => options.sessions = number(&value()?)?,
            "--lines" => options.lines = Some(number(&value()?)?),
            _ => return Err(format!("unknown option {name}")),
        }
    }
    Ok(options)
}

fn number(text: &str) -> Result<u64, String> {
    text.parse().map_err(|_| format!("not a number: {text}"))
}

/// Prints the session of a seed as it is.
fn show(options: &Options) -> bool {
    let input = generate::session(options.seed.unwrap_or(1)).input;
    std::io::stdout().write_all(&input).is_ok()
}

/// Standard input to standard output through the model.
fn reckon(fault: Fault) -> bool {
    let mut input = Vec::new();
    let read = std::io::stdin().read_to_end(&mut input).is_ok();
    let output = session::run(&input, fault, &mut Tally::default());
    read && std::io::stdout().write_all(&output).is_ok()
}

/// The seeds to run: one, a count of them, or as many as give enough lines.
fn is_enough(options: &Options, seeds_done: u64, lines_done: u64) -> bool {
    match (options.seed, options.lines) {
        (Some(_), _) => seeds_done == 1,
        (None, Some(lines)) => lines_done >= lines,
        (None, None) => seeds_done >= options.sessions,
    }
}

/// Random sessions against the program.
fn compare(options: &Options) -> bool {
    let begun = Instant::now();
    let subject = Subject::Program { path: options.program.clone(), arguments: Vec::new() };
    let mut tally = Tally::default();
    let mut by_profile = Vec::new();
    let first = options.seed.unwrap_or(options.first);
    println!("outside: seeds from {first}");
    let mut sessions = 0;
    while !is_enough(options, sessions, tally.lines) {
        let seed = first.wrapping_add(sessions);
        let made = generate::session(seed);
        let expected = session::run(&made.input, Fault::None, &mut tally);
        let outcome = subject.run(&made.input);
        if outcome.trouble.is_some() || outcome.output != expected {
            found(&subject, seed, &made);
            return false;
        }
        report::count_profile(&mut by_profile, made.profile);
        sessions += 1;
    }
    report::coverage(&tally, &by_profile, first, sessions);
    let covered = options.seed.is_some() || report::is_covered(&tally);
    let seconds = begun.elapsed().as_secs_f64();
    if covered {
        println!("outside: {sessions} sessions, {} lines compared, all equal ({seconds:.1} s)", tally.lines);
    }
    covered
}

/// Shrinks and prints a failing session. A program that hangs takes its time over every run: no more is tried after a
/// minute.
fn found(subject: &Subject, seed: u64, made: &generate::Session) {
    println!("outside: seed {seed} ({}) differs; shrinking", made.profile);
    let until = Instant::now() + Duration::from_secs(60);
    let input = shrink::shrink(&made.input, &|input| Instant::now() < until && subject.differs(input), SHRINKING);
    let outcome = subject.run(&input);
    let expected = subject::expected(&input);
    report::difference(&Difference { seed, made, input, expected, outcome });
}

/// Every wrong variant has to be found, and its session has to shrink; and the way through a process has to tell a
/// right program from a wrong one.
fn self_test() -> bool {
    let mut held = true;
    for (fault, most_lines) in fault::WRONG_VARIANTS {
        let subject = Subject::Wrong(fault);
        let Some((seed, size, shrunk)) = first_difference(&subject, SELF_TEST_SESSIONS) else {
            println!("self-test: {fault:?} was not found");
            held = false;
            continue;
        };
        let lines = lines::split(&shrunk).len();
        let verdict = if lines <= most_lines { "" } else { ", too long" };
        println!("self-test: {fault:?} found by seed {seed}, {size} lines shrunk to {lines}{verdict}");
        held &= lines <= most_lines;
    }
    held & self_test_of_processes()
}

/// The first seed that shows a difference, its session's lines, and the shrunk session.
fn first_difference(subject: &Subject, most_sessions: u64) -> Option<(u64, usize, Vec<u8>)> {
    for seed in 1..=most_sessions {
        let input = generate::session(seed).input;
        if subject.differs(&input) {
            let shrunk = shrink::shrink(&input, &|input| subject.differs(input), SELF_TEST_SHRINKING);
            return Some((seed, lines::split(&input).len(), shrunk));
        }
    }
    None
}

/// This driver itself as the session program, right and wrong.
fn self_test_of_processes() -> bool {
    let path = std::env::current_exe().expect("the driver has a path");
    let as_program = |fault: Fault| Subject::Program {
        path: path.clone(),
        arguments: vec!["--reckon".to_string(), format!("{fault:?}")],
    };
    let right = first_difference(&as_program(Fault::None), 30).is_none();
    let wrong = first_difference(&as_program(Fault::MaximumFromZero), 300);
    let wrong = wrong.map_or(0, |(_, _, shrunk)| lines::split(&shrunk).len());
    let held = right && (1..=8).contains(&wrong);
    let verdict = if right { "equal" } else { "not equal" };
    println!("self-test: through a process, right variant {verdict}, wrong variant shrunk to {wrong} lines");
    held
}
