//! What the driver prints: coverage counts, and a difference when there is one.

use crate::generate::Session;
use crate::lines::split;
use crate::session::Tally;
use crate::subject::Outcome;

/// The refusals that a session can bring about.
const REFUSALS: [usize; 11] = [3, 4, 5, 6, 7, 8, 9, 12, 13, 14, 15];
const KINDS: [&str; 5] = ["", "sum", "count", "maximum", "minimum"];
const SHAPES: [&str; 4] = ["below", "equal to", "a multiple of", "no multiple of"];
const MOST_LINES_SHOWN: usize = 200;
const MOST_BYTES_SHOWN: usize = 160;

/// A failing session with both outputs.
pub struct Difference<'a> {
    pub seed: u64,
    pub made: &'a Session,
    pub input: Vec<u8>,
    pub expected: Vec<u8>,
    pub outcome: Outcome,
}

pub fn count_profile(by_profile: &mut Vec<(&'static str, u64)>, profile: &'static str) {
    match by_profile.iter_mut().find(|(name, _)| *name == profile) {
        Some((_, count)) => *count += 1,
        None => by_profile.push((profile, 1)),
    }
}

/// The coverage counts.
pub fn coverage(tally: &Tally, by_profile: &[(&'static str, u64)], first: u64, sessions: u64) {
    let profiles: Vec<String> = by_profile.iter().map(|(name, count)| format!("{name} {count}")).collect();
    let refusals: Vec<String> =
        REFUSALS.iter().map(|&number| format!("{number}: {}", tally.refusals[number])).collect();
    let answers: Vec<String> = (1..=4).map(|kind| format!("{} {}", KINDS[kind], tally.answers[kind])).collect();
    let full: Vec<String> = (1..=4).map(|kind| format!("{} {}", KINDS[kind], tally.full[kind])).collect();
    let shapes: Vec<String> = (0..4).map(|shape| format!("{} s {}", SHAPES[shape], tally.shapes[shape])).collect();
    let last = first.wrapping_add(sessions).wrapping_sub(1);
    println!("seeds {first} to {last}, {} lines, {} readings", tally.lines, tally.readings);
    println!("sessions: {}", profiles.join(", "));
    println!("refusals: {}", refusals.join(", "));
    println!("answers: {}", answers.join(", "));
    println!("answers with a full window: {}", full.join(", "));
    println!("registrations with r {}", shapes.join(", "));
    println!(
        "partials closed by a registration {}, dropped open {}; begun again {}, numbers used again {}",
        tally.cut_by_registration, tally.dropped_open, tally.begun_again, tally.used_again
    );
    println!("most partials in a session {}, most live at once {}", tally.most_closed, tally.most_live);
}

/// Whether every refusal, every kind (full windows too) and every relation of range to slide came up.
pub fn is_covered(tally: &Tally) -> bool {
    let mut missing: Vec<String> = Vec::new();
    let mut need = |count: u64, what: String| {
        if count == 0 {
            missing.push(what);
        }
    };
    REFUSALS.iter().for_each(|&number| need(tally.refusals[number], format!("refusal {number}")));
    (1..=4).for_each(|kind| need(tally.answers[kind], format!("answers, {}", KINDS[kind])));
    (1..=4).for_each(|kind| need(tally.full[kind], format!("full windows, {}", KINDS[kind])));
    (0..4).for_each(|shape| need(tally.shapes[shape], format!("r {} s", SHAPES[shape])));
    need(tally.cut_by_registration, "a partial closed by a registration".to_string());
    need(tally.dropped_open, "an open partial dropped".to_string());
    need(tally.begun_again, "begun again after all were withdrawn".to_string());
    need(tally.used_again, "a number used again".to_string());
    missing.iter().for_each(|what| println!("outside: never came up: {what}"));
    missing.is_empty()
}

/// The seed, the shortest session found, and both outputs.
pub fn difference(found: &Difference) {
    println!("seed {} ({}), {} lines:", found.seed, found.made.profile, split(&found.made.input).len());
    let ended = found.input.is_empty() || found.input.ends_with(b"\n");
    let end = if ended { "" } else { ", no byte 10 at the end" };
    print_block(&format!("shortest failing session found{end}"), &found.input);
    print_block("expected output", &found.expected);
    print_block("actual output", &found.outcome.output);
    if let Some(trouble) = &found.outcome.trouble {
        println!("the program ended badly: {trouble}");
    }
}

fn print_block(title: &str, bytes: &[u8]) {
    let lines = split(bytes);
    println!("--- {title}; lines: {}", lines.len());
    lines.iter().take(MOST_LINES_SHOWN).for_each(|line| println!("{}", readable(line)));
    if lines.len() > MOST_LINES_SHOWN {
        println!("... and {} more lines", lines.len() - MOST_LINES_SHOWN);
    }
}

/// Tabs as tabs, other bytes outside printable ASCII as \xNN.
fn readable(line: &[u8]) -> String {
    let show = |&byte: &u8| match byte {
        b'\\' => "\\\\".to_string(),
        b'\t' | b' '..=b'~' => char::from(byte).to_string(),
        _ => format!("\\x{byte:02x}"),
    };
    let shown: String = line.iter().take(MOST_BYTES_SHOWN).map(show).collect();
    if line.len() > MOST_BYTES_SHOWN {
        return format!("{shown}... ({} bytes)", line.len());
    }
    shown
}
