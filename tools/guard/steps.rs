//! Closing steps, which make the comparisons, the evictions before them, and the open calls that close: each stands
//! where `STEPS` says, as often as it says, in no loop there, and nowhere else.

use crate::source::{Finding, Function, Sources};
use crate::tokens::{each_word, mentions};

/// Who calls a step, which one, and how often it stands there: `evict` and `close` for the sums, the maxima and the
/// minima.
const STEPS: [(&str, &str, usize); 17] = [
    ("deque Sums::evict", "evict", 1),
    ("deque Deque::evict", "evict", 1),
    ("board Board::close", "evict", 3),
    ("board Board::close", "close", 3),
    ("engine State::close_open", "close", 1),
    ("engine register", "close_open", 1),
    ("engine reading", "close_open", 1),
    ("lent register", "register", 1),
    ("lent reading", "reading", 1),
    ("session call", "register", 1),
    ("session call", "reading", 1),
    ("pchelodar_c pchelodar_register", "register", 1),
    ("pchelodar_c pchelodar_reading", "reading", 1),
    ("pchelodar_c register", "register", 1),
    ("pchelodar_c reading", "reading", 1),
    ("demo Caller::perform", "register", 1),
    ("demo Caller::read", "reading", 1),
];
const NAMES: [&str; 5] = ["evict", "close", "close_open", "register", "reading"];

/// Where every ring is evicted before any is written: the one step does not stand after the other.
const ORDER: (&str, &str, &str) = ("board Board::close", "evict", "close");

pub fn findings(sources: &Sources) -> Vec<Finding> {
    let mut found = Vec::new();
    for function in &sources.functions {
        for step in NAMES {
            called(function, step, &mut found);
        }
        if function.is(ORDER.0) {
            in_order(function, &mut found);
        }
    }
    for (caller, _, _) in STEPS {
        if !sources.functions.iter().any(|function| function.is(caller)) {
            found.push(Finding::new("crates", 0, format!("no function `{caller}`")));
        }
    }
    found
}

/// How often a function names a step, in whatever way.
fn called(function: &Function, step: &str, found: &mut Vec<Finding>) {
    let lines = mentions(&function.body, step);
    let looped = ["loop", "while", "for"].into_iter().any(|word| !mentions(&function.body, word).is_empty());
    let wanted = STEPS.iter().find(|(caller, name, _)| function.is(caller) && *name == step);
    let wanted = wanted.map_or(0, |(_, _, times)| *times);
    if lines.len() != wanted || (wanted > 0 && looped) {
        let line = lines.last().copied().unwrap_or(function.line);
        let what = format!("`{step}` is called {} times in {}, not {wanted}", lines.len(), function.title());
        found.push(function.finding(line, if looped { format!("{what} and in no loop") } else { what }));
    }
}

/// The first step of `ORDER` after the second one.
fn in_order(function: &Function, found: &mut Vec<Finding>) {
    let (_, first, second) = ORDER;
    let mut begun = false;
    each_word(&function.body, &mut |word, line| {
        begun |= word == second;
        if begun && word == first {
            let what = format!("`{first}` stands after `{second}` in {}: all are to stand before it", function.title());
            found.push(function.finding(line, what));
        }
    });
}
