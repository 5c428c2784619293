//! The sample session of document 01 ("One session whole") through the wrapper. It prints what the session program
//! prints: a line for each answer (A, n, query number, kind, count, value), for each refusal (E, line of the session,
//! number), and at the end the totals (T, n, P, M, N), fields parted by tabs.

use pchelodar::{Engine, Refusal, MAXIMUM, SUM};

/// A line of the session.
enum Line {
    Register { number: u32, kind: u32, range: u32, slide: u32 },
    Withdraw { number: u32 },
    Reading { value: i32 },
}

const SESSION: [Line; 10] = [
    Line::Register { number: 2, kind: SUM, range: 5, slide: 3 },
    Line::Reading { value: 5 },
    Line::Reading { value: 3 },
    Line::Reading { value: 3 },
    Line::Register { number: 7, kind: MAXIMUM, range: 2, slide: 2 },
    Line::Reading { value: 8 },
    Line::Reading { value: -2 },
    Line::Withdraw { number: 2 },
    Line::Withdraw { number: 2 }, // it is not registered any more: refused with 9
    Line::Reading { value: 6 },
];

/// One reading: the answers of the queries that are due.
fn take_reading(engine: &mut Engine, value: i32) -> Result<(), Refusal> {
    let n = engine.totals().readings + 1;
    for answer in engine.reading(value)? {
        println!("A\t{n}\t{}\t{}\t{}\t{}", answer.number, answer.kind, answer.count, answer.value);
    }
    Ok(())
}

/// One line of the session.
fn play(engine: &mut Engine, line: &Line) -> Result<(), Refusal> {
    match *line {
        Line::Register { number, kind, range, slide } => engine.register(number, kind, range, slide),
        Line::Withdraw { number } => engine.withdraw(number),
        Line::Reading { value } => take_reading(engine, value),
    }
}

fn main() {
    let mut engine = Engine::new();
    for (i, line) in SESSION.iter().enumerate() {
        if let Err(refusal) = play(&mut engine, line) {
            println!("E\t{}\t{}", i + 1, refusal.number());
        }
    }
    let totals = engine.totals();
    println!("T\t{}\t{}\t{}\t{}", totals.readings, totals.partials, totals.max_comparisons, totals.min_comparisons);
}
