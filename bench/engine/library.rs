// The proved engine through the static library: bindings/c/pchelodar.h has the calls. The slices are lent anew at each
// call.
use crate::board::Board;
use crate::contender::{Answers, Contender, Query};
use crate::pchelodar::raw;

pub struct Library {
    board: Board,
}

// Makes a call with the slices of `$of` lent, and stops where it is refused.
macro_rules! call {
    ($name:ident($of:expr $(, $argument:expr)*)) => {{
        let of = &mut $of.board;
        let refusal = unsafe {
            raw::$name(
                of.state.as_mut_ptr(), of.state.len(), of.queries.as_mut_ptr(), of.queries.len(),
                of.starts.as_mut_ptr(), of.starts.len(), of.sums.as_mut_ptr(), of.sums.len(),
                of.max_starts.as_mut_ptr(), of.max_starts.len(), of.max_values.as_mut_ptr(), of.max_values.len(),
                of.min_starts.as_mut_ptr(), of.min_starts.len(), of.min_values.as_mut_ptr(), of.min_values.len(),
                $($argument),*
            )
        };
        assert_eq!(refusal, 0, "{} is refused", stringify!($name));
    }};
}

impl Library {
    pub fn new() -> Self {
        let mut library = Library { board: Board::new() };
        call!(pchelodar_start(library));
        library
    }
}

impl Contender for Library {
    fn register(&mut self, q: Query) {
        call!(pchelodar_register(self, q.number, q.kind, q.range, q.slide))
    }

    fn reading(&mut self, value: i32, answers: &mut Answers) -> usize {
        let mut answered = 0;
        call!(pchelodar_reading(self, answers.as_mut_ptr(), answers.len(), &mut answered, value));
        answered
    }

    fn totals(&mut self) -> Option<[u64; 4]> {
        let mut totals = [0; 4];
        call!(pchelodar_totals(self, totals.as_mut_ptr()));
        Some(totals)
    }
}
