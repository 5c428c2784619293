//! The extremes of the open partial: they are values once it is closed. Readings join them, which compares them with a
//! reading; else they are handed to the closing steps, and written as numbers and back. Two fields of the same names
//! hold values of tables, of what is closed since the horizon. Both are named nowhere else.

use crate::shape::statements;
use crate::source::{Finding, Function, Sources};
use crate::tokens::{is_written, mentions, split, Tree};

const FIELDS: [&str; 2] = ["maximum", "minimum"];

/// Which function names those of the open partial, and how often each of the two.
const NAMED: [(&str, usize); 6] = [
    ("board Aggregate::first", 1),
    (JOINED_BY, 3),
    (CLOSED_BY, 1),
    ("encoding held_of", 2),
    ("encoding held_in", 1),
    ("encoding numbers_of", 1),
];

/// Which function names those of what is closed. There they are followed as what is read from a table.
const OF_CLOSED: [(&str, usize); 2] = [("board Board::heads", 1), ("board Heads::value", 1)];

/// Where one reading more joins them, how that is written, and the function that compares them for it, which is called
/// nowhere else in its crate.
const JOINED_BY: &str = "board Aggregate::extended";
const JOINED: [&str; 2] = [
    "let maximum = greater(Extreme::Maximum, self.maximum, value);",
    "let minimum = greater(Extreme::Minimum, self.minimum, value);",
];
const GREATER: (&str, &str) = ("board", "greater");

/// Where they are handed to the closing steps, as `a.maximum`.
const CLOSED_BY: &str = "board Board::close";
const CLOSING: &str = "close";

/// Whether a field of this name is, in this function, one of the open partial, which is no value of a table.
pub fn is_open(function: &Function, field: &str) -> bool {
    FIELDS.contains(&field) && NAMED.iter().any(|(name, _)| function.is(name))
}

pub fn report(sources: &Sources, function: &Function, found: &mut Vec<Finding>) {
    let mut known = NAMED.iter().chain(&OF_CLOSED);
    let wanted = known.find(|(name, _)| function.is(name)).map_or(0, |(_, times)| *times);
    let joins = if function.is(JOINED_BY) { JOINED.len() } else { 0 };
    let mut words = vec![(FIELDS[0], wanted), (FIELDS[1], wanted)];
    if function.krate == GREATER.0 {
        words.push((GREATER.1, joins));
    }
    for (word, times) in words {
        let lines = mentions(&function.body, word);
        if lines.len() != times {
            let what = format!("`{word}` is named {} times in {}, not {times}", lines.len(), function.title());
            found.push(function.finding(lines.last().copied().unwrap_or(function.line), what));
        }
    }
    let parts = statements(sources, &function.body);
    for text in JOINED.iter().filter(|_| function.is(JOINED_BY)) {
        if !parts.iter().any(|part| is_written(part, text)) {
            found.push(function.finding(function.line, format!("`{text}` is to stand in {}", function.title())));
        }
    }
    if function.is(CLOSED_BY) {
        closed(function, &function.body, found);
    }
}

/// Any mention of the extremes but as an argument of a closing step.
fn closed(function: &Function, list: &[Tree], found: &mut Vec<Finding>) {
    for at in 0..list.len() {
        if list[at].word().is_some_and(|word| FIELDS.contains(&word)) {
            let what = format!("an extreme of the open partial goes to something else than `{CLOSING}`");
            found.push(function.finding(list[at].line, what));
        }
        let closes = at > 0 && list[at - 1].is_word(CLOSING);
        let plain = |part: &[Tree]| part.len() == 3 && part[1].is_sign(".");
        for part in split(list[at].inner().unwrap_or_default(), ",") {
            if !(closes && plain(part)) {
                closed(function, part, found);
            }
        }
    }
}
