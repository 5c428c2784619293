//! Forms of the language in which this guard could not follow a value or see a call: each is a finding, wherever it
//! stands.

use crate::tokens::{each_list, split, Kind, Tree};

/// Words that begin an item. None stands in a function's body, where it would not be looked at as one.
const ITEMS: [&str; 12] =
    ["use", "fn", "struct", "enum", "union", "impl", "trait", "mod", "const", "static", "type", "macro_rules"];

/// The bounds of a type parameter, by the last word of their path: of a value of which no more is known nothing can be
/// compared. The last three are of what prints, of what is read from, and of what is written to.
const BOUNDS: [&str; 6] = ["Copy", "Clone", "Drop", "Print", "Read", "Write"];

/// A line, and what stands there.
pub type Unknown = Option<(usize, &'static str)>;

/// In a whole file: attributes that are not known, types that are not named, and type parameters that may stand for
/// what can be compared. `place` is the bracket that the list stands in; a file stands in braces.
pub fn in_items(list: &[Tree], place: char) -> Unknown {
    for at in 0..list.len() {
        let line = list[at].line;
        if list[at].is_sign("#") {
            return Some((line, "an attribute that this guard does not know"));
        }
        if list[at].is_word("dyn") || (list[at].is_word("impl") && !begins_item(list, at, place)) {
            return Some((line, "a type that is not named"));
        }
        if list[at].is_word("where") {
            return Some((line, "bounds in a clause of their own"));
        }
        if has_type_parameter(list, at) {
            return Some((line, "a type parameter that may be compared: what it stands for is not seen"));
        }
        if let Kind::Group(open, inner) = &list[at].kind {
            if let Some(found) = in_items(inner, *open) {
                return Some(found);
            }
        }
    }
    None
}

fn begins_item(list: &[Tree], at: usize, place: char) -> bool {
    let ended = |tree: &Tree| tree.is_sign(";") || tree.group('{').is_some();
    place == '{' && (at == 0 || ended(&list[at - 1]))
}

/// Whether the item whose keyword stands here has a parameter that is no lifetime: one of a function may have the
/// bounds of `BOUNDS`, and no others, and has one at least.
fn has_type_parameter(list: &[Tree], at: usize) -> bool {
    let start = match list[at].word() {
        Some("impl") => at + 1,
        Some("fn" | "struct" | "enum" | "type" | "trait") => at + 2,
        _ => return false,
    };
    let Some(parameters) = parameters(list, start) else {
        return list.get(start).is_some_and(|tree| tree.is_sign("<"));
    };
    let bounded = |part: &[Tree]| list[at].is_word("fn") && type_parameter(part).is_some();
    split(parameters, ",").into_iter().any(|part| !is_lifetime(part) && !bounded(part))
}

/// What stands between `<` and the next `>`, if the one stands here.
pub fn parameters(list: &[Tree], start: usize) -> Option<&[Tree]> {
    list.get(start).filter(|tree| tree.is_sign("<"))?;
    let end = (start..list.len()).find(|&i| list[i].is_sign(">"))?;
    Some(&list[start + 1..end])
}

fn is_lifetime(part: &[Tree]) -> bool {
    (0..part.len()).all(|i| part[i].sign().is_some() || (i > 0 && part[i - 1].is_sign("'")))
}

/// The name of a type parameter that is written with bounds of `BOUNDS` alone: `T: Copy`, `T: Clone + Drop`.
pub fn type_parameter(part: &[Tree]) -> Option<&str> {
    let bounds = part.get(2..).filter(|_| part[1].is_sign(":"))?;
    let path = |bound: &[Tree]| bound.iter().all(|tree| tree.word().is_some() || tree.is_sign("::"));
    let end = |bound: &[Tree]| bound.last().is_some_and(|last| BOUNDS.iter().any(|name| last.is_word(name)));
    let known = |bound: &[Tree]| path(bound) && end(bound);
    part[0].word().filter(|_| !bounds.is_empty() && bounds.split(|tree| tree.is_sign("+")).all(known))
}

/// In a function's body: items.
pub fn in_body(body: &[Tree]) -> Unknown {
    let mut found = None;
    each_list(body, &mut |list| {
        for at in 0..list.len() {
            let lifetime = at > 0 && list[at - 1].is_sign("'");
            if list[at].word().is_some_and(|word| ITEMS.contains(&word)) && !lifetime {
                found = found.or(Some((list[at].line, "an item in a function's body")));
            }
        }
    });
    found
}
