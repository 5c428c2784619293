//! The counts, printed, and what never occurred.

use crate::board::{FIRST_TABLE, SLICE_NAMES};
use crate::call::CALL_NAMES;
use crate::judge::CASES;
use crate::lengths::ANSWERS;
use crate::site::{row_name, How, FIELD_NAMES, HOWS, SITES, TABLES};
use crate::tally::{ByNumber, Tally, ARBITRARY, PLAUSIBLE, ROWS};

/// The numbers that each call can return.
const RETURNED: [&[usize]; CALL_NAMES.len()] =
    [&[0, 1], &[0, 1, 2, 3, 4, 5, 6, 7, 8], &[0, 1, 2, 9], &[0, 1, 2, 10, 11], &[0, 1, 2]];

pub fn print(tally: &Tally) {
    let calls: u64 = tally.calls.iter().flatten().sum();
    let damaged: u64 = tally.damaged.iter().flatten().sum();
    let boards: u64 = tally.boards.iter().sum();
    println!(
        "{} runs, {calls} calls: {} on undamaged boards ({} with longer slices), all as the reference has it;",
        tally.runs, tally.clean, tally.longer
    );
    println!(
        "  {damaged} on boards damaged {boards} times ({} with a slice too short), where readings wrote {} answers",
        tally.damaged_short, tally.damaged_answers
    );
    println!("  {} times two equal numbers were exchanged, and the call came to what it would have", tally.undamaged);
    print_calls(tally);
    print_sites(tally);
    print_cases(tally);
    print_lengths(tally);
    print_coverage(tally);
}

fn print_numbers(label: &str, counts: &ByNumber) {
    let counts: String = counts.iter().map(|count| format!("{count:>8}")).collect();
    println!("  {label:<26}{counts}");
}

fn print_head(label: &str) {
    let numbers: String = (0..12).map(|number| format!("{number:>8}")).collect();
    println!("{label:<28}{numbers}");
}

fn print_calls(tally: &Tally) {
    print_head("calls by returned number");
    for (name, counts) in CALL_NAMES.iter().zip(&tally.calls) {
        print_numbers(name, counts);
    }
    print_head("readings by answer table");
    for ((_, name), counts) in ANSWERS.iter().zip(&tally.answers) {
        print_numbers(name, counts);
    }
}

fn print_sites(tally: &Tally) {
    let hows: String = HOWS.iter().map(|(_, name)| format!("{name:>8}")).collect();
    println!("{:<28}{hows}", "damages by how");
    for site in 0..SITES {
        let counts: String = tally.hows[site].iter().map(|count| format!("{count:>8}")).collect();
        println!("  {:<26}{counts}", row_name(site));
    }
    print_head("calls, that alone damaged");
    for row in 0..ROWS {
        print_numbers(&label(row), &tally.damaged[row]);
    }
}

/// The name of a row of damaged calls.
fn label(row: usize) -> String {
    match row {
        ARBITRARY => "arbitrary board".to_string(),
        PLAUSIBLE => "plausible board".to_string(),
        site if site < SITES => row_name(site),
        _ => "several".to_string(),
    }
}

fn print_cases(tally: &Tally) {
    println!("{:<28}{:>8}{:>8}", "refusal 2, always given", "calls", "alone");
    for (case, name) in CASES.iter().enumerate() {
        println!("  {name:<26}{:>8}{:>8}", tally.cases[case], tally.cases_alone[case]);
    }
}

fn print_lengths(tally: &Tally) {
    println!("{:<28}{:>8}{:>8}", "refusal 1, slice too short", "alone", "others");
    for (short, [alone, with_others]) in &tally.shorts {
        println!("  {:<26}{alone:>8}{with_others:>8}", short.name());
    }
}

fn print_coverage(tally: &Tally) {
    let (fields, places) = missing(tally);
    println!("fields of records damaged: {} of 384, used and unused", 384 - fields.len());
    println!("places of tables damaged by themselves: {} of 24576", 24_576 - places.len());
}

/// Fields of records and places of tables that were not damaged.
fn missing(tally: &Tally) -> (Vec<String>, Vec<String>) {
    let mut fields = Vec::new();
    for (slot, record) in tally.fields.iter().enumerate() {
        for (field, uses) in record.iter().enumerate() {
            for (used, _) in uses.iter().enumerate().filter(|(_, damaged)| !**damaged) {
                fields.push(format!("{} record {slot}, {}", ["unused", "used"][used], FIELD_NAMES[field]));
            }
        }
    }
    let mut places = Vec::new();
    for (place, tables) in tally.places.iter().enumerate() {
        for table in (0..TABLES).filter(|&table| !tables[table]) {
            places.push(format!("{} place {place}", SLICE_NAMES[FIRST_TABLE + table]));
        }
    }
    (fields, places)
}

/// Everything that has to occur and never did.
pub fn never(tally: &Tally) -> Vec<String> {
    let counted = [returned(tally), damages(tally), lengths(tally)].concat();
    let never = counted.into_iter().filter(|(count, _)| *count == 0).map(|(_, name)| name);
    let (fields, places) = missing(tally);
    never.chain(fields).chain(places).collect()
}

/// Each call returned each of its numbers, and 2 for each listed case alone.
fn returned(tally: &Tally) -> Vec<(u64, String)> {
    let mut counted = Vec::new();
    for (call, numbers) in RETURNED.iter().enumerate() {
        let count = |&number: &usize| (tally.calls[call][number], format!("{} returning {number}", CALL_NAMES[call]));
        counted.extend(numbers.iter().map(count));
    }
    let case = |(case, &count): (&&str, &u64)| (count, format!("refusal 2 for {case} alone"));
    counted.extend(CASES.iter().zip(&tally.cases_alone).map(case));
    counted
}

/// Each site was damaged in each way, and each was damaged alone.
fn damages(tally: &Tally) -> Vec<(u64, String)> {
    let mut counted = Vec::new();
    for site in 0..SITES {
        let hows = HOWS.iter().zip(&tally.hows[site]).filter(|((how, _), _)| applies(site, *how));
        counted.extend(hows.map(|((_, name), &count)| (count, format!("{}: {name}", row_name(site)))));
    }
    counted.extend((0..ROWS).map(|row| (tally.boards[row], format!("alone damaged: {}", label(row)))));
    counted.push((tally.undamaged, "two equal numbers exchanged".to_string()));
    counted
}

/// Each slice was too short, alone and with others, and each kind of answer table was lent.
fn lengths(tally: &Tally) -> Vec<(u64, String)> {
    let mut counted = Vec::new();
    for (short, [alone, with_others]) in &tally.shorts {
        counted.push((*alone, format!("too short alone: {}", short.name())));
        counted.push((*with_others, format!("too short with others: {}", short.name())));
    }
    let answers = ANSWERS.iter().zip(&tally.answers);
    counted.extend(answers.map(|((_, name), counts)| (counts.iter().sum(), format!("answer table {name}"))));
    counted
}

/// Stretches are damage of tables alone.
fn applies(site: usize, how: How) -> bool {
    site >= SITES - TABLES || !how.is_stretch()
}
