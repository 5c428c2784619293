//! What is no code and is left out first: the clauses of a function between its head and its body, ghost items and
//! fields, and attributes that change no code.

use crate::derives;
use crate::tokens::{begins, is_written, Kind, Tree};

/// The attributes that may stand before an item, beside derives (`derives.rs`) and `#[tactic(..)]`, which may also
/// stand in a body.
const ATTRIBUTES: [&str; 2] = ["unsafe(no_mangle)", "inline(always)"];

/// What may stand at the head of a file.
const HEAD: &str = "tactic(auto)";

/// The code of a whole file, as it was read.
pub fn code(trees: &[Tree]) -> Vec<Tree> {
    let headed = begins(trees, "# ! [") && trees[2].group('[').is_some_and(|inner| is_written(inner, HEAD));
    part(if headed { &trees[3..] } else { trees }, false)
}

/// The code of a part of it. `body` is whether this stands in a function's body: there the words of contracts are words
/// like any other.
fn part(trees: &[Tree], body: bool) -> Vec<Tree> {
    let mut out = Vec::new();
    let mut before_body = false;
    let mut at = 0;
    while at < trees.len() {
        let rest = &trees[at..];
        if let Some(length) = attribute(rest, body).or(if body { None } else { ghost(rest, before_body) }) {
            at += length;
            continue;
        }
        let begins_body = before_body && rest[0].group('{').is_some();
        before_body = rest[0].is_word("fn") || (before_body && !begins_body && !rest[0].is_sign(";"));
        let kind = match &rest[0].kind {
            Kind::Group(open, inner) => Kind::Group(*open, part(inner, body || begins_body)),
            kind => kind.clone(),
        };
        out.push(Tree { line: rest[0].line, kind });
        at += 1;
    }
    out
}

/// The length of an attribute that begins here, if it is known.
fn attribute(rest: &[Tree], body: bool) -> Option<usize> {
    let inner = rest.get(1).filter(|_| rest[0].is_sign("#"))?.group('[')?;
    let tactic = inner.len() == 2 && begins(inner, "tactic (");
    let before_item = derives::is_known(inner) || ATTRIBUTES.iter().any(|text| is_written(inner, text));
    let known = tactic || (!body && before_item);
    known.then_some(2)
}

/// The length of what begins here and is for proofs alone: before a body `requires { .. }`, `ensures NAME { .. }` and
/// `ghost NAME: { .. }`, and outside of bodies `ghost use ..;`, `ghost NAME: { .. },` and `ghost NAME = { .. };`.
fn ghost(rest: &[Tree], before_body: bool) -> Option<usize> {
    if before_body && ["requires", "ensures", "ghost"].into_iter().any(|word| rest[0].is_word(word)) {
        let braces = rest.iter().position(|tree| tree.group('{').is_some())?;
        let plain = |tree: &Tree| tree.word().is_some() || tree.is_sign("*") || tree.is_sign(":");
        return rest[..braces].iter().all(plain).then_some(braces + 1);
    }
    if begins(rest, "ghost use") {
        return rest.iter().position(|tree| tree.is_sign(";")).map(|end| end + 1);
    }
    let named = rest.len() > 3 && rest[0].is_word("ghost") && rest[1].word().is_some();
    if !named || !(rest[2].is_sign(":") || rest[2].is_sign("=")) || rest[3].group('{').is_none() {
        return None;
    }
    let more = begins(&rest[4..], "by {") || begins(&rest[4..], "= {");
    let end = if more { 6 } else { 4 };
    match rest.get(end) {
        None => Some(end),
        Some(last) => (last.is_sign(",") || last.is_sign(";")).then_some(end + 1),
    }
}
