//! The reference model of `outside/` as the damage test calls it: one call to one outcome.

use crate::board::{ANSWER_PLACES, FIELDS};
use crate::call::Call;
use crate::fault::Fault;
use crate::reckoner::{Answer, Query, Reckoner, Refusal, Totals};

/// What a call comes to: the returned number, the answers of a reading, the totals of a totals call.
#[derive(Debug, PartialEq)]
pub struct Outcome {
    pub returned: u32,
    pub answers: Vec<[i64; ANSWER_PLACES]>,
    pub totals: Option<[u64; 4]>,
}

pub struct Reference(Reckoner);

impl Reference {
    pub fn new() -> Reference {
        Reference(Reckoner::new(Fault::None))
    }

    /// What a call comes to, with an answer table of so many places. A refused call changes nothing.
    pub fn take(&mut self, call: Call, answer_places: usize) -> Outcome {
        let Reference(reckoner) = self;
        match call {
            Call::Start => {
                *self = Reference::new();
                outcome(Ok(Vec::new()))
            }
            Call::Register { number, kind, range, slide } => {
                outcome(reckoner.register(number, kind, range, slide).map(|()| Vec::new()))
            }
            Call::Withdraw { number } => outcome(reckoner.withdraw(number).map(|()| Vec::new())),
            Call::Reading { value } => outcome(reckoner.reading(value, answer_places)),
            Call::Totals => Outcome { totals: Some(totals(reckoner.totals())), ..outcome(Ok(Vec::new())) },
        }
    }

    pub fn n(&self) -> usize {
        self.0.readings.len()
    }

    /// The registered queries in order of registration, as records.
    pub fn records(&self) -> Vec<[u32; FIELDS]> {
        self.0.queries.iter().map(record).collect()
    }

    /// How many queries are due at the next reading.
    pub fn due_next(&self) -> usize {
        self.0.due_next().len()
    }
}

fn outcome(taken: Result<Vec<Answer>, Refusal>) -> Outcome {
    let returned = taken.as_ref().err().map_or(0, |&refusal| u32::from(refusal));
    let answers = taken.unwrap_or_default().iter().map(places).collect();
    Outcome { returned, answers, totals: None }
}

/// An answer as it stands in the answer table.
fn places(answer: &Answer) -> [i64; ANSWER_PLACES] {
    [i64::from(answer.number), i64::from(answer.kind), answer.count as i64, answer.value]
}

fn totals(totals: Totals) -> [u64; 4] {
    [totals.n as u64, totals.p as u64, totals.max_comparisons, totals.min_comparisons]
}

fn record(query: &Query) -> [u32; FIELDS] {
    [query.number, query.kind, query.range as u32, query.slide as u32, query.registered_at as u32]
}
