//! The answer places: where they are lent, in the crates of `ANSWERED_IN`, they keep their name. A place of them is
//! read or written by its index, their length is asked for, and as a whole they are handed to parameters of that name
//! alone, which are handed nothing else.

use crate::follow::{is_range, ANSWERED_IN, ANSWERS};
use crate::shape::arguments;
use crate::source::{Finding, Function, Sources};
use crate::tokens::{begins, each_list, split, Tree};

pub fn report(sources: &Sources, function: &Function, found: &mut Vec<Finding>) {
    if !ANSWERED_IN.contains(&function.krate.as_str()) {
        return;
    }
    if lent_at(function).is_some() {
        renamed(sources, function, &function.body, None, found);
    }
    each_list(&function.body, &mut |list| {
        for at in (0..list.len()).filter(|&at| hands_another(sources, list, at)) {
            let what = format!("something else is handed as the answer places, in {}", function.title());
            found.push(function.finding(list[at].line, what));
        }
    });
}

/// Which of a function's parameters is the answer places.
fn lent_at(function: &Function) -> Option<usize> {
    let is_slice = |kind: &[Tree]| kind.iter().any(|tree| tree.group('[').is_some());
    function.params.iter().position(|param| param.name == ANSWERS && is_slice(&param.kind))
}

/// Whether a function that takes the answer places is called here, by its name and with as many arguments, and none of
/// that name gets them.
fn hands_another(sources: &Sources, list: &[Tree], at: usize) -> bool {
    let Some(given) = arguments(list, at).map(|given| split(given, ",")) else { return false };
    let named = sources.functions.iter().filter(|function| list[at].is_word(&function.name));
    let places: Vec<usize> =
        named.filter(|function| function.params.len() == given.len()).filter_map(lent_at).collect();
    !places.is_empty() && !places.iter().any(|place| matches!(given[*place], [one] if one.is_word(ANSWERS)))
}

/// The struct that has a field of that name, which is a number: how many answers were written.
const COUNTED: &str = "Answered";

/// Every mention in a list and below it that is none of those. Where the list is what a call is handed, or what that
/// struct is written with, `call` is the name that stands before it.
fn renamed(sources: &Sources, function: &Function, list: &[Tree], call: Option<&str>, found: &mut Vec<Finding>) {
    for at in 0..list.len() {
        let counted = call == Some(COUNTED) && is_field(list, at);
        if list[at].is_word(ANSWERS) && !counted && !is_place(list, at) && !is_handed(sources, list, at, call) {
            let what = format!("the answer places get another name, in {}", function.title());
            found.push(function.finding(list[at].line, what));
        }
        let counts = at > 0 && list[at].group('{').is_some() && list[at - 1].is_word(COUNTED);
        let calls = at > 0 && list[at].group('(').is_some();
        let name = if calls || counts { list[at - 1].word() } else { None };
        renamed(sources, function, list[at].inner().unwrap_or_default(), name, found);
    }
}

/// The name of a field, by itself or with what it gets behind it.
fn is_field(list: &[Tree], at: usize) -> bool {
    let ends = |tree: &Tree| tree.is_sign(",") || tree.is_sign(":");
    (at == 0 || list[at - 1].is_sign(",")) && list.get(at + 1).map_or(true, ends)
}

/// A place, the length, a `let` that gives the name to something else, or the field of `COUNTED`, since no other struct
/// holds one of the name.
fn is_place(list: &[Tree], at: usize) -> bool {
    let index = list.get(at + 1).and_then(|next| next.group('['));
    let bound = at > 0 && list[at - 1].is_word("let") && begins(&list[at + 1..], "=");
    let of_another = at > 0 && list[at - 1].is_sign(".");
    bound || of_another || begins(&list[at + 1..], ". len (") || index.is_some_and(|index| !is_range(index))
}

/// An argument by itself, for a parameter of the same name.
fn is_handed(sources: &Sources, list: &[Tree], at: usize, call: Option<&str>) -> bool {
    let place = list[..at].iter().filter(|tree| tree.is_sign(",")).count();
    let alone = split(list, ",").get(place).is_some_and(|part| part.len() == 1);
    let takes = |function: &Function| {
        call == Some(&function.name) && function.params.get(place).is_some_and(|param| param.name == ANSWERS)
    };
    alone && sources.functions.iter().any(takes)
}
