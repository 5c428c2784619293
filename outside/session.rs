//! One whole session over the reference model: input bytes to output bytes, and a tally of what the session met.

use crate::fault::Fault;
use crate::lines::{self, Call};
use crate::reckoner::{Answer, Reckoner, Refusal};
use std::collections::BTreeSet;

/// The session program's answer table is long enough for 32 answers.
const ANSWER_PLACES: usize = 4 * 32;

/// What sessions met; the coverage counts are printed from it.
#[derive(Clone, Debug, Default)]
pub struct Tally {
    pub lines: u64,
    pub readings: u64,
    /// By refusal number.
    pub refusals: [u64; 16],
    /// By kind.
    pub answers: [u64; 5],
    /// By kind, answers whose count has reached the range.
    pub full: [u64; 5],
    /// Accepted registrations: r below s, equal, multiple, not a multiple.
    pub shapes: [u64; 4],
    /// Registrations that closed a partial with readings in it.
    pub cut_by_registration: u64,
    /// Last withdrawals that dropped a partial with readings in it.
    pub dropped_open: u64,
    /// Registrations after all queries had been withdrawn.
    pub begun_again: u64,
    /// Registrations of a number that had been withdrawn before.
    pub used_again: u64,
    withdrawn: BTreeSet<u32>,
    /// The most live partials at once, and the most closed in a session.
    pub most_live: usize,
    pub most_closed: usize,
}

/// Runs a session; the output is what the session program has to print.
pub fn run(input: &[u8], fault: Fault, tally: &mut Tally) -> Vec<u8> {
    let mut reckoner = Reckoner::new(fault);
    let mut out = Vec::new();
    tally.withdrawn.clear();
    for (place, line) in session_lines(input, fault).into_iter().enumerate() {
        tally.lines += 1;
        let call = lines::parse(line, fault);
        match call.and_then(|call| make(&mut reckoner, call, tally)) {
            Ok(answers) => {
                let n = reckoner.readings.len();
                answers.iter().for_each(|answer| lines::print_answer(&mut out, n, answer));
            }
            Err(refusal) => {
                tally.refusals[usize::from(refusal)] += 1;
                lines::print_refusal(&mut out, place + 1, refusal);
                if fault == Fault::RefusedLineCounted {
                    reckoner.readings.push(0);
                }
            }
        }
    }
    tally.most_closed = tally.most_closed.max(reckoner.closed.len());
    lines::print_totals(&mut out, &reckoner.totals());
    out
}

fn session_lines(input: &[u8], fault: Fault) -> Vec<&[u8]> {
    let mut all = lines::split(input);
    if fault == Fault::LastLineDropped && !input.ends_with(b"\n") {
        all.pop();
    }
    if fault == Fault::EmptyLineSkipped {
        all.retain(|line| !line.is_empty());
    }
    all
}

/// Makes the call and keeps the tally.
fn make(reckoner: &mut Reckoner, call: Call, tally: &mut Tally) -> Result<Vec<Answer>, Refusal> {
    let before = reckoner.closed.len();
    let open_holds = reckoner.open.is_some_and(|start| start < reckoner.readings.len());
    match call {
        Call::Register { number, kind, range, slide } => {
            let none_left = reckoner.queries.is_empty() && !reckoner.closed.is_empty();
            reckoner.register(number, kind, range, slide)?;
            tally.shapes[shape(range, slide)] += 1;
            tally.cut_by_registration += u64::from(reckoner.closed.len() > before);
            tally.begun_again += u64::from(none_left);
            tally.used_again += u64::from(tally.withdrawn.contains(&number));
            Ok(Vec::new())
        }
        Call::Withdraw { number } => {
            reckoner.withdraw(number)?;
            tally.withdrawn.insert(number);
            tally.dropped_open += u64::from(open_holds && reckoner.open.is_none());
            Ok(Vec::new())
        }
        Call::Reading { value } => {
            let answers = reckoner.reading(value, ANSWER_PLACES)?;
            tally.readings += 1;
            tally.most_live = tally.most_live.max(reckoner.live().len());
            answers.iter().for_each(|answer| count_answer(tally, answer));
            Ok(answers)
        }
    }
}

fn count_answer(tally: &mut Tally, answer: &Answer) {
    tally.answers[answer.kind as usize] += 1;
    tally.full[answer.kind as usize] += u64::from(answer.full);
}

fn shape(range: u32, slide: u32) -> usize {
    match range.cmp(&slide) {
        std::cmp::Ordering::Less => 0,
        std::cmp::Ordering::Equal => 1,
        std::cmp::Ordering::Greater if range % slide == 0 => 2,
        std::cmp::Ordering::Greater => 3,
    }
}
