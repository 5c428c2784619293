//! What is checked after a call.

use crate::board::{Board, ANSWER_PLACES, N, QUERY_COUNT, QUERY_LIMIT, STATE};
use crate::call::Call;
use crate::places::Slice;
use crate::reference::{Outcome, Reference};

/// Nothing, or what is wrong.
pub type Checked = Result<(), String>;

fn holds(condition: bool, wrong: &str) -> Checked {
    if condition {
        Ok(())
    } else {
        Err(wrong.to_string())
    }
}

pub fn returned(number: u32, expected: u32, why: &str) -> Checked {
    holds(number == expected, &format!("returned {number}, and {expected} is due: {why}"))
}

/// Of every call, whatever it was lent: the returned number, and which places it may have written.
pub fn every_call(call: Call, number: u32, before: &Board, after: &Board) -> Checked {
    holds(number == 0 || call.rows().contains(&number), &format!("returned {number}, which is none of its refusals"))?;
    if number != 0 {
        return holds(after.same(before), &format!("refused with {number}, and a place was changed"));
    }
    holds(after.frames_hold(), "a guard place, or a place beyond those that a call may write, was changed")?;
    match call {
        Call::Start | Call::Register { .. } => {
            holds(after.same_replies(before), "an answer place or a total was changed")
        }
        Call::Withdraw { .. } => {
            holds(after.same_replies(before), "an answer place or a total was changed")?;
            holds(after.same_tables(before), "a withdrawal changed a table")
        }
        Call::Reading { .. } => reading(before, after),
        Call::Totals => {
            let same = after.state.same(&before.state) && after.queries.same(&before.queries);
            holds(same && after.same_tables(before), "a totals call changed the board")?;
            let same = after.answers.same(&before.answers) && after.answered.same(&before.answered);
            holds(same, "a totals call changed an answer place")
        }
    }
}

/// An accepted reading writes the answers' own places and no other of the answer table, and no record.
fn reading(before: &Board, after: &Board) -> Checked {
    let answered = after.answered.values()[0];
    let places = answered.saturating_mul(ANSWER_PLACES);
    holds(answered <= QUERY_LIMIT, &format!("{answered} answers"))?;
    holds(places <= after.answers.lent(), &format!("{answered} answers in {} places", after.answers.lent()))?;
    holds(after.answers.same_from(places, &before.answers), "a place after the answers was changed")?;
    holds(after.queries.same(&before.queries), "a reading changed a record")?;
    holds(after.totals.same(&before.totals), "a reading changed a total")
}

/// Of an accepted start: everything is empty, and the state is what every start leaves.
pub fn fresh(board: &Board, state: &[u64]) -> Checked {
    let zero = board.queries.values().iter().all(|&number| number == 0)
        && board.starts.values().iter().all(|&start| start == 0)
        && board.sums.values().iter().all(|&sum| sum == 0)
        && board.max_starts.values().iter().all(|&start| start == 0)
        && board.max_values.values().iter().all(|&value| value == 0)
        && board.min_starts.values().iter().all(|&start| start == 0)
        && board.min_values.values().iter().all(|&value| value == 0);
    holds(zero, "a start left a place that is not 0")?;
    holds(board.state.values() == state, "two starts left different states")
}

/// Of a call on an undamaged board: the outcome, the query list and n are the reference's.
pub fn agrees(call: Call, number: u32, outcome: &Outcome, board: &Board, reference: &Reference) -> Checked {
    returned(number, outcome.returned, "by the reference")?;
    if number == 0 && matches!(call, Call::Reading { .. }) {
        answers(outcome, board)?;
    }
    if let Some(totals) = outcome.totals {
        let written = board.totals.values();
        holds(written == totals, &format!("totals {written:?}, and {totals:?} by the reference"))?;
    }
    let records = reference.records();
    let state = board.slice(STATE);
    let counts = state.get(N) == reference.n() as u64 && state.get(QUERY_COUNT) == records.len() as u64;
    holds(counts, "n or the query count is not the reference's")?;
    let record = |slot: usize| records.get(slot).copied().unwrap_or_default();
    holds((0..QUERY_LIMIT).all(|slot| board.record(slot) == record(slot)), "the query list is not the reference's")?;
    let mut order: Vec<u32> = (0..records.len() as u32).collect();
    order.sort_by_key(|&place| records[place as usize][0]);
    order.resize(QUERY_LIMIT, 0);
    holds(board.order() == order, "the places by ascending number are others")
}

fn answers(outcome: &Outcome, board: &Board) -> Checked {
    let answered = board.answered.values()[0];
    holds(
        answered == outcome.answers.len(),
        &format!("{answered} answers, {} by the reference", outcome.answers.len()),
    )?;
    let written = &board.answers.values()[..ANSWER_PLACES * answered];
    let expected = outcome.answers.concat();
    holds(written == expected, &format!("answers {written:?}, and {expected:?} by the reference"))
}
