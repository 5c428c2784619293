// Everything that a caller lends to the calls: the board, and the places for what they answer.
use crate::board::Board;
use crate::pchelodar::QUERY_LIMIT;

pub const SLICES: usize = 8;
const ANSWER_PLACES: usize = 4 * QUERY_LIMIT; // always enough

#[derive(Clone)]
pub struct Lent {
    pub board: Board,
    pub answers: [i64; ANSWER_PLACES],
    pub answered: usize,
    pub totals: [u64; 4],
}

impl Lent {
    pub fn new() -> Box<Lent> {
        Box::new(Lent { board: Board::new(), answers: [0; ANSWER_PLACES], answered: 0, totals: [0; 4] })
    }

    // The bytes of each slice, by name, and of what the calls write to beside.
    pub fn bytes(&self) -> [(&'static str, usize); SLICES + 3] {
        let board = &self.board;
        [
            ("state", size_of_val(&board.state)),
            ("queries", size_of_val(&board.queries)),
            ("starts", size_of_val(&board.starts)),
            ("sums", size_of_val(&board.sums)),
            ("max_starts", size_of_val(&board.max_starts)),
            ("max_values", size_of_val(&board.max_values)),
            ("min_starts", size_of_val(&board.min_starts)),
            ("min_values", size_of_val(&board.min_values)),
            ("answers, for 32 of them", size_of_val(&self.answers)),
            ("answered", size_of_val(&self.answered)),
            ("totals", size_of_val(&self.totals)),
        ]
    }

    // The eight slices as a call is given them: a pointer and a number of places each.
    pub fn slices(&mut self) -> Vec<u64> {
        let board = &mut self.board;
        let pairs: [[u64; 2]; SLICES] = [
            pair(&mut board.state),
            pair(&mut board.queries),
            pair(&mut board.starts),
            pair(&mut board.sums),
            pair(&mut board.max_starts),
            pair(&mut board.max_values),
            pair(&mut board.min_starts),
            pair(&mut board.min_values),
        ];
        pairs.concat()
    }
}

fn pair<T>(slice: &mut [T]) -> [u64; 2] {
    [slice.as_mut_ptr() as u64, slice.len() as u64]
}
