//! How many places of each slice a call is lent.

use crate::board::{Board, ANSWER_PLACES, QUERIES, SLICES, SLICE_NAMES, STATE};
use crate::places::{Slice, MORE};
use crate::random::Random;

/// A slice and a length that is too short for it; no length stands for any that is.
#[derive(Clone, Copy, Debug, PartialEq)]
pub struct Short {
    pub slice: usize,
    pub length: Option<usize>,
}

/// Every kind of a slice that is too short.
pub fn every_short() -> Vec<Short> {
    let lengths = |slice: usize| -> &[usize] {
        match slice {
            STATE => &[0, 17],
            QUERIES => &[0, 32, 159, 160, 161, 190, 191],
            _ => &[0, 4_095],
        }
    };
    let kinds =
        |slice| lengths(slice).iter().copied().map(Some).chain([None]).map(move |length| Short { slice, length });
    (0..SLICES).flat_map(kinds).collect()
}

impl Short {
    pub fn name(self) -> String {
        let length = self.length.map_or("any".to_string(), |length| length.to_string());
        format!("{} {length}", SLICE_NAMES[self.slice])
    }

    pub fn apply(self, random: &mut Random, board: &mut Board) {
        let slice = board.slice_mut(self.slice);
        let any = random.below(slice.needed());
        slice.set_lent(self.length.unwrap_or(any));
    }
}

/// Each slice is long enough. Whether some is longer than it needs.
pub fn enough(random: &mut Random, board: &mut Board) -> bool {
    let longer = random.one_in(3);
    for slice in 0..SLICES {
        let more = if longer { random.below(MORE + 1) } else { 0 };
        let slice = board.slice_mut(slice);
        slice.set_lent(slice.needed() + more);
    }
    longer
}

/// The length of an answer table, beside the places that are needed.
#[derive(Clone, Copy, Debug, PartialEq)]
pub enum Answers {
    /// None where some is needed.
    None,
    /// One place too few.
    OneShort,
    /// Fewer places than are needed.
    Short,
    /// Just those that are needed.
    Just,
    /// More than are needed, up to those that are always enough.
    Longer,
    /// More than are ever needed.
    Beyond,
}

pub const ANSWERS: [(Answers, &str); 6] = [
    (Answers::None, "none"),
    (Answers::OneShort, "one place short"),
    (Answers::Short, "shorter"),
    (Answers::Just, "just as needed"),
    (Answers::Longer, "longer"),
    (Answers::Beyond, "beyond 128"),
];

/// Lends an answer table for so many answers: how long it is.
pub fn answers(random: &mut Random, board: &mut Board, due: usize) -> Answers {
    let (needed, always) = (ANSWER_PLACES * due, board.answers.needed());
    let wanted = if random.one_in(6) { ANSWERS[random.below(3)].0 } else { ANSWERS[random.between(3, 5)].0 };
    let answers = if needed == 0 && wanted as usize <= Answers::Short as usize { Answers::Just } else { wanted };
    let places = match answers {
        Answers::None => 0,
        Answers::OneShort => needed - 1,
        Answers::Short => random.below(needed),
        Answers::Just => needed,
        Answers::Longer => random.between(needed, always),
        Answers::Beyond => random.between(always + 1, always + MORE),
    };
    board.answers.set_lent(places);
    answers
}
