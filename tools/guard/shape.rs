//! The shape of a body: its statements, the arms of a `match`, assignments, calls, and where a block begins.

use crate::source::Sources;
use crate::tokens::{begins, Tree};

pub const COMPARISONS: [&str; 6] = ["<", "<=", ">", ">=", "==", "!="];
const ASSIGNMENTS: [&str; 11] = ["=", "+=", "-=", "*=", "/=", "%=", "&=", "|=", "^=", "<<=", ">>="];
const KEYWORDS: [&str; 16] = [
    "if", "else", "while", "for", "in", "loop", "match", "let", "mut", "return", "break", "continue", "as", "fn",
    "ref", "const",
];

pub fn is_keyword(word: &str) -> bool {
    KEYWORDS.contains(&word)
}

/// The place of the next block: braces that belong to no struct's name.
pub fn block_after(sources: &Sources, list: &[Tree], at: usize) -> Option<usize> {
    (at + 1..list.len()).find(|&i| list[i].group('{').is_some() && !is_struct(sources, list, i - 1))
}

/// Whether a struct is written at this place: its name, and braces.
pub fn is_struct(sources: &Sources, list: &[Tree], at: usize) -> bool {
    let named = list[at].word().is_some_and(|word| sources.is_type(word));
    named && list.get(at + 1).is_some_and(|next| next.group('{').is_some())
}

/// The arguments of a call at this place: a name that is no keyword, and parentheses.
pub fn arguments(list: &[Tree], at: usize) -> Option<&[Tree]> {
    list[at].word().filter(|word| !is_keyword(word))?;
    list.get(at + 1)?.group('(')
}

/// The statements of a block, each with its semicolon if it has one.
pub fn statements<'a>(sources: &Sources, block: &'a [Tree]) -> Vec<&'a [Tree]> {
    let mut out = Vec::new();
    let mut start = 0;
    for at in 0..block.len() {
        let goes_on = block.get(at + 1).is_some_and(|next| next.is_word("else"));
        let block_ends = block[at].group('{').is_some() && !goes_on && is_control(sources, &block[start..=at]);
        if block[at].is_sign(";") || block_ends {
            out.push(&block[start..=at]);
            start = at + 1;
        }
    }
    if start < block.len() {
        out.push(&block[start..]);
    }
    out
}

/// Whether this is a statement that ends with its braces: `if ..`, a loop, a `match`, or a block.
fn is_control(sources: &Sources, part: &[Tree]) -> bool {
    let part = if begins(part, "'") && part.len() > 3 { &part[3..] } else { part };
    let words = ["if", "while", "for", "loop", "match"];
    let control = part[0].word().is_some_and(|word| words.contains(&word));
    part.len() == 1 || (control && !is_struct(sources, part, part.len() - 2))
}

/// What a block comes to: its last statement, if that has no semicolon.
pub fn tail<'a>(sources: &Sources, block: &'a [Tree]) -> &'a [Tree] {
    statements(sources, block).pop().filter(|last| !last[last.len() - 1].is_sign(";")).unwrap_or_default()
}

/// What the arms of a `match` come to.
pub fn arms(body: &[Tree]) -> Vec<&[Tree]> {
    let mut out = Vec::new();
    let mut at = 0;
    while let Some(arrow) = (at..body.len()).find(|&i| body[i].is_sign("=>")) {
        let start = arrow + 1;
        at = if body.get(start).is_some_and(|tree| tree.group('{').is_some()) {
            start + 1
        } else {
            end_of_expression(body, start)
        };
        out.push(&body[start..at]);
    }
    out
}

/// Where an expression that begins here ends: at a semicolon, at a comma or with the list.
pub fn end_of_expression(list: &[Tree], start: usize) -> usize {
    (start..list.len()).find(|&i| list[i].is_sign(";") || list[i].is_sign(",")).unwrap_or(list.len())
}

/// An assignment or a `let`.
pub struct Assignment<'a> {
    pub line: usize,
    pub sign: &'static str,
    /// The names that a `let` binds; else none.
    pub names: Vec<&'a str>,
    /// What stands to the left, without `let`.
    pub place: &'a [Tree],
    pub is_let: bool,
    pub value: &'a [Tree],
}

/// The assignments of a list, not of those below it.
pub fn assignments<'a>(sources: &Sources, list: &'a [Tree]) -> Vec<Assignment<'a>> {
    let is_assignment = |tree: &Tree| tree.sign().is_some_and(|sign| ASSIGNMENTS.contains(&sign));
    (0..list.len()).filter(|&at| is_assignment(&list[at])).map(|at| assignment(sources, list, at)).collect()
}

fn assignment<'a>(sources: &Sources, list: &'a [Tree], at: usize) -> Assignment<'a> {
    let bounds = |tree: &Tree| tree.group('{').is_some() || tree.sign().is_some_and(|s| [";", ",", "=>"].contains(&s));
    let pattern = at > 1 && is_struct(sources, list, at - 2);
    let mut start = if pattern { at - 2 } else { at };
    while start > 0 && !bounds(&list[start - 1]) {
        start -= 1;
    }
    let left = &list[start..at];
    let bound = left.iter().position(|tree| tree.is_word("let"));
    let conditional = bound.is_some_and(|i| i > 0 && ["if", "while"].contains(&left[i - 1].word().unwrap_or_default()));
    let end = match block_after(sources, list, at) {
        Some(block) if conditional => block,
        _ => end_of_expression(list, at + 1),
    };
    let place = bound.map_or(left, |i| &left[i + 1..]);
    let named = place.iter().position(|tree| tree.is_sign(":")).map_or(place, |colon| &place[..colon]);
    let mut names = Vec::new();
    if bound.is_some() {
        bound_names(named, &mut names);
    }
    let sign = list[at].sign().unwrap_or_default();
    Assignment { line: list[at].line, sign, names, place, is_let: bound.is_some(), value: &list[at + 1..end] }
}

/// The names that a pattern binds.
pub fn bound_names<'a>(pattern: &'a [Tree], names: &mut Vec<&'a str>) {
    for tree in pattern {
        let is_name = |word: &&str| !is_keyword(word) && word.starts_with(|c: char| c.is_lowercase() || c == '_');
        names.extend(tree.word().filter(is_name));
        bound_names(tree.inner().unwrap_or_default(), names);
    }
}

/// The operands of the comparison at this place.
pub fn operands(list: &[Tree], at: usize) -> [&[Tree]; 2] {
    let stops = |tree: &Tree| {
        let signs = [";", ",", "=>", "&&", "||", "..", "..="];
        let sign =
            tree.sign().is_some_and(|s| signs.contains(&s) || COMPARISONS.contains(&s) || ASSIGNMENTS.contains(&s));
        let word = tree.word().is_some_and(|word| is_keyword(word) && word != "as");
        sign || word || tree.group('{').is_some()
    };
    let mut from = at;
    while from > 0 && !stops(&list[from - 1]) {
        from -= 1;
    }
    if from == at && at > 0 && list[at - 1].group('{').is_some() {
        from = 0;
    }
    let mut to = at + 1;
    while to < list.len() && !stops(&list[to]) {
        to += 1;
    }
    if to == at + 1 {
        to = end_of_expression(list, at + 1);
    }
    [&list[from..at], &list[at + 1..to]]
}
