// The stack that each of the five calls takes: the most over a run of varied calls, refused ones and damaged boards
// among them.
use crate::lent::{Lent, SLICES};
use crate::pchelodar::{raw, LIST_NUMBERS, STATE_NUMBERS};
use crate::random::Random;
use crate::stack::{stacked_bytes, Stack};

const ROUNDS: usize = 64; // each from a start, with lengths and values of its own
const STARTS: usize = 8; // in a round, so that some are refused
const STEPS: usize = 6_000; // calls of a round; more than 4,096, so that the rings turn

#[derive(Clone, Copy, PartialEq)]
enum Name {
    Start,
    Register,
    Withdraw,
    Reading,
    Totals,
}

impl Name {
    const ALL: [Name; 5] = [Name::Start, Name::Register, Name::Withdraw, Name::Reading, Name::Totals];

    fn text(self) -> &'static str {
        ["start", "register", "withdraw", "reading", "totals"][self as usize]
    }

    fn function(self) -> *const () {
        match self {
            Name::Start => raw::pchelodar_start as *const (),
            Name::Register => raw::pchelodar_register as *const (),
            Name::Withdraw => raw::pchelodar_withdraw as *const (),
            Name::Reading => raw::pchelodar_reading as *const (),
            Name::Totals => raw::pchelodar_totals as *const (),
        }
    }

    // How many arguments it takes beside the eight slices.
    fn more(self) -> usize {
        [0, 4, 1, 4, 1][self as usize]
    }

    // Its own rows of the refusal table.
    fn refusals(self) -> &'static [u32] {
        match self {
            Name::Start => &[1],
            Name::Register => &[1, 2, 3, 4, 5, 6, 7, 8],
            Name::Withdraw => &[1, 2, 9],
            Name::Reading => &[1, 2, 10, 11],
            Name::Totals => &[1, 2],
        }
    }
}

// What was seen of one call: how many were made, the most bytes, and what was returned how often.
#[derive(Clone, Copy, Default)]
struct Seen {
    calls: u64,
    most: usize,
    returned: [u64; 12],
}

struct Run {
    random: Random,
    stack: Stack,
    lent: Box<Lent>,
    // Ranges and slides up to this.
    longest: usize,
    // Readings go on from the last one by this, or are any number.
    step: Option<i32>,
    last: i32,
    seen: [Seen; 5],
}

impl Run {
    // A call of this name with random arguments, some of them outside their limits.
    fn call(&mut self, name: Name) {
        let mut arguments = self.lent.slices();
        if self.random.one_in(64) {
            let places = 2 * self.random.below(SLICES) + 1;
            arguments[places] = self.random.word(arguments[places]);
        }
        arguments.extend(match name {
            Name::Start => vec![],
            Name::Register => vec![self.number(), self.kind(), self.length(), self.length()],
            Name::Withdraw => vec![self.number()],
            Name::Reading => self.reading(),
            Name::Totals => vec![self.lent.totals.as_mut_ptr() as u64],
        });
        assert_eq!(arguments.len(), 2 * SLICES + name.more());
        // SAFETY: the arguments are those of the function: slices of the board, each with at most its own places.
        let made = unsafe { self.stack.call(name.function(), &arguments) };
        let seen = &mut self.seen[name as usize];
        seen.calls += 1;
        seen.most = seen.most.max(made.bytes);
        seen.returned[made.returned as usize] += 1;
    }

    fn number(&mut self) -> u64 {
        if self.random.one_in(16) {
            self.random.pick(&[0, 65_536])
        } else {
            self.random.word(40) + 1
        }
    }

    fn kind(&mut self) -> u64 {
        if self.random.one_in(16) {
            self.random.pick(&[0, 5])
        } else {
            self.random.word(4) + 1
        }
    }

    fn length(&mut self) -> u64 {
        if self.random.one_in(16) {
            self.random.pick(&[0, 4_097])
        } else {
            self.random.between(1, self.longest) as u64
        }
    }

    fn reading(&mut self) -> Vec<u64> {
        let any = self.random.next() as i32;
        self.last = self.step.map_or(any, |step| self.last.wrapping_add(step));
        let all = self.lent.answers.len() as u64;
        let places = if self.random.one_in(8) { self.random.word(all) } else { all };
        let (answers, answered) = (self.lent.answers.as_mut_ptr() as u64, &raw mut self.lent.answered as u64);
        vec![answers, places, answered, u64::from(self.last as u32)]
    }

    fn step(&mut self) {
        let name = match self.random.below(64) {
            0..=5 => Name::Register,
            6..=7 => Name::Withdraw,
            8..=9 => Name::Totals,
            _ => Name::Reading,
        };
        if self.random.one_in(32) {
            self.on_damage(name)
        } else {
            self.call(name)
        }
    }

    // The same call on a board of which one number is another; then the board is as before.
    fn on_damage(&mut self, name: Name) {
        let before = self.lent.board.clone();
        let any = self.random.next();
        let number = self.random.pick(&[any, u64::from(u32::MAX), any % 5_000, 0]);
        match self.random.below(2) {
            0 => self.lent.board.state[self.random.below(STATE_NUMBERS)] = number,
            _ => self.lent.board.queries[self.random.below(LIST_NUMBERS)] = number as u32,
        }
        self.call(name);
        self.lent.board = before;
    }
}

pub fn print() {
    let mut run = Run {
        random: Random::new(1),
        stack: Stack::new(),
        lent: Lent::new(),
        longest: 1,
        step: None,
        last: 0,
        seen: [Seen::default(); 5],
    };
    for _ in 0..ROUNDS {
        run.longest = run.random.pick(&[1, 4, 60, 4_096]);
        run.step = run.random.pick(&[None, Some(-1), Some(0), Some(1)]);
        (0..STARTS).for_each(|_| run.call(Name::Start));
        (0..STEPS).for_each(|_| run.step());
    }
    println!("| call | calls | of them accepted | bytes of stack, at most | of them arguments |");
    println!("|---|---:|---:|---:|---:|");
    for name in Name::ALL {
        let seen = run.seen[name as usize];
        let arguments = stacked_bytes(2 * SLICES + name.more());
        println!("| {} | {} | {} | {} | {arguments} |", name.text(), seen.calls, seen.returned[0], seen.most);
    }
    for name in Name::ALL {
        let returned = run.seen[name as usize].returned;
        let missing = name.refusals().iter().find(|&&number| returned[number as usize] == 0);
        assert_eq!(missing, None, "{} was never refused so", name.text());
    }
}
