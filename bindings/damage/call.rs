//! The five calls, made through the library's own functions.

use crate::board::Board;
use pchelodar::raw;

#[derive(Clone, Copy, Debug, PartialEq)]
pub enum Call {
    Start,
    Register { number: u32, kind: u32, range: u32, slide: u32 },
    Withdraw { number: u32 },
    Reading { value: i32 },
    Totals,
}

pub const CALL_NAMES: [&str; 5] = ["start", "register", "withdraw", "reading", "totals"];

// Calls a function of the library with the eight slices of a board and what else it takes.
macro_rules! lend {
    ($function:ident, $board:ident $(, $more:expr)*) => {{
        let (state, state_places) = $board.state.lend();
        let (queries, queries_places) = $board.queries.lend();
        let (starts, starts_places) = $board.starts.lend();
        let (sums, sums_places) = $board.sums.lend();
        let (max_starts, max_starts_places) = $board.max_starts.lend();
        let (max_values, max_values_places) = $board.max_values.lend();
        let (min_starts, min_starts_places) = $board.min_starts.lend();
        let (min_values, min_values_places) = $board.min_values.lend();
        raw::$function(
            state,
            state_places,
            queries,
            queries_places,
            starts,
            starts_places,
            sums,
            sums_places,
            max_starts,
            max_starts_places,
            max_values,
            max_values_places,
            min_starts,
            min_starts_places,
            min_values,
            min_values_places,
            $($more),*
        )
    }};
}

impl Call {
    /// The place of its name in `CALL_NAMES`.
    pub fn name(self) -> usize {
        match self {
            Call::Start => 0,
            Call::Register { .. } => 1,
            Call::Withdraw { .. } => 2,
            Call::Reading { .. } => 3,
            Call::Totals => 4,
        }
    }

    /// The call's own rows of the refusal table.
    pub fn rows(self) -> &'static [u32] {
        match self {
            Call::Start => &[1],
            Call::Register { .. } => &[1, 2, 3, 4, 5, 6, 7, 8],
            Call::Withdraw { .. } => &[1, 2, 9],
            Call::Reading { .. } => &[1, 2, 10, 11],
            Call::Totals => &[1, 2],
        }
    }

    /// Makes the call with the places that are lent, and returns what it returned.
    pub fn make(self, board: &mut Board) -> u32 {
        let (answers, answers_places) = board.answers.lend();
        let (answered, _) = board.answered.lend();
        let (totals, _) = board.totals.lend();
        // SAFETY: each pointer is that of a slice with as many places, each in an allocation of its own.
        let returned = unsafe {
            match self {
                Call::Start => lend!(pchelodar_start, board),
                Call::Register { number, kind, range, slide } => {
                    lend!(pchelodar_register, board, number, kind, range, slide)
                }
                Call::Withdraw { number } => lend!(pchelodar_withdraw, board, number),
                Call::Reading { value } => {
                    lend!(pchelodar_reading, board, answers, answers_places, answered, value)
                }
                Call::Totals => lend!(pchelodar_totals, board, totals),
            }
        };
        board.take_back();
        returned
    }
}
