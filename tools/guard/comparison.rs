//! Rule `comparison`: `compare` is the one function of its name, makes one comparison for each extreme, is called in
//! `Deque::close` alone, and the total that it returns is what the next comparison and the returned deque get. An
//! evicted deque keeps its total. Closing steps, the evictions before them, and the calls that close, stand where they
//! are to (`steps.rs`), so that no deque that one of them returned is left behind.

use crate::shape::{arguments, assignments, is_struct, tail};
use crate::source::{Finding, Function, Open, Sources};
use crate::steps;
use crate::tokens::{begins, each_list, is_written, split, Tree};

/// Where `compare` is defined, and the function that calls it.
const FILE: &str = "crates/deque/src/compare.rt";
const COMPARE: &str = "deque compare";
const CALLER: &str = "deque Deque::close";

/// How it is brought in.
const USED: &str = "crate::compare::compare";

/// Its body, as it is to be: one comparison for each extreme.
const BODY: &str =
    "let total = total + 1; match extreme { Extreme::Maximum => Compared { verdict: older <= newer, total }, \
     Extreme::Minimum => Compared { verdict: newer <= older, total } }";

/// The eviction before a closing, and its body, as it is to be: the deque keeps its total.
const EVICTION: &str = "deque Deque::evict";
const EVICTED: &str = "let ring = self.ring; let kept = ring.evict(starts, horizon); \
     Deque { ring: kept, comparisons: self.comparisons }";

/// Where deques are written out, of those crates that make comparisons or pass deques on: the empty one, the one that
/// is evicted, and the one that a closing returns.
const WRITERS: [&str; 3] = ["deque Deque::empty", EVICTION, CALLER];
const WRITTEN_IN: [&str; 3] = ["deque", "board", "engine"];

pub fn rule(sources: &Sources) -> Vec<Finding> {
    let mut found = definitions(sources);
    for file in &sources.files {
        for one in &file.uses {
            let mut say = |what| found.push(Finding::new(&file.path, one.line, what));
            if one.renamed {
                say("something is brought in under another name");
            }
            if one.name() == "*" {
                say("all that a module has is brought in: what that is is not seen");
            }
            if one.name() == "compare" && one.path != USED {
                say("`compare` is brought in by another path");
            }
        }
    }
    for function in &sources.functions {
        if function.is(CALLER) {
            found.extend(caller(sources, function));
        } else if !function.is(COMPARE) {
            called_elsewhere(function, &mut found);
        }
        if function.is(EVICTION) && !is_written(&function.body, EVICTED) {
            found.push(function.finding(function.line, format!("`{EVICTION}` is to be `{EVICTED}`")));
        }
        written_deques(sources, function, &mut found);
    }
    found.extend(steps::findings(sources));
    found
}

/// One definition, no more open than to its crate.
fn definitions(sources: &Sources) -> Vec<Finding> {
    let named = |name| sources.functions.iter().filter(move |function: &&Function| function.name == name);
    let mut found = Vec::new();
    for function in named("compare").filter(|function| function.file != FILE || !function.is(COMPARE)) {
        found.push(function.finding(function.line, "a second `compare`"));
    }
    let own: Vec<&Function> = named("compare").filter(|function| function.file == FILE).collect();
    if own.len() != 1 {
        found.push(Finding::new(FILE, 1, format!("`compare` is defined {} times here", own.len())));
    }
    for function in own {
        if function.open == Open::Everywhere {
            found.push(function.finding(function.line, "`compare` is open to other crates"));
        }
        if !is_written(&function.body, BODY) {
            found.push(function.finding(function.line, format!("`compare` is to be `{BODY}`")));
        }
    }
    if !sources.functions.iter().any(|function| function.is(CALLER)) {
        found.push(Finding::new("crates/deque/src/extremes.rt", 1, format!("no function `{CALLER}`")));
    }
    found
}

/// Any mention of `compare` in another function; `compare::` is the module.
fn called_elsewhere(function: &Function, found: &mut Vec<Finding>) {
    each_list(&function.body, &mut |list| {
        for at in (0..list.len()).filter(|&at| list[at].is_word("compare")) {
            if !list.get(at + 1).is_some_and(|next| next.is_sign("::")) {
                let what = format!("`compare` is called in {}, not in {CALLER} alone", function.title());
                found.push(function.finding(list[at].line, what));
            }
        }
    });
}

/// The calls in `Deque::close`: each is `let C = compare(.., T);`, and the next statement is `T = C.total;`.
fn caller(sources: &Sources, function: &Function) -> Vec<Finding> {
    let mut found = Vec::new();
    let mut totals: Vec<&str> = Vec::new();
    let mut calls = 0;
    each_list(&function.body, &mut |list| {
        for at in (0..list.len()).filter(|&at| list[at].is_word("compare")) {
            if list.get(at + 1).is_some_and(|next| next.is_sign("::")) {
                continue;
            }
            calls += 1;
            match taken_on(list, at) {
                Some((result, total)) => {
                    totals.push(total);
                    found.extend(result_uses(function, result));
                }
                None => {
                    let what = "a call of `compare` is to be `let C = compare(.., T);`, and `T = C.total;` after it";
                    found.push(function.finding(list[at].line, what));
                }
            }
        }
    });
    if calls == 0 {
        found.push(function.finding(function.line, "`compare` is not called here"));
    }
    totals.sort();
    totals.dedup();
    match totals[..] {
        [total] => found.extend(total_kept(sources, function, total, calls)),
        [] => {}
        _ => found.push(function.finding(function.line, "two totals are counted on here")),
    }
    found
}

/// The result and the total of a call that is written as it is to be.
fn taken_on(list: &[Tree], at: usize) -> Option<(&str, &str)> {
    let start = at.checked_sub(3)?;
    let result = list[start + 1].word()?;
    let begun = start == 0 || list[start - 1].is_sign(";") || list[start - 1].group('{').is_some();
    let total = match split(arguments(list, at)?, ",").pop()? {
        [total] => total.word()?,
        _ => return None,
    };
    let written = format!("let {result} = compare ( ; {total} = {result} . total ;");
    (begun && begins(&list[start..], &written)).then_some((result, total))
}

/// A result is bound once, and only its total, once, and its verdict are asked for.
fn result_uses(function: &Function, result: &str) -> Vec<Finding> {
    let mut found = Vec::new();
    let mut totals = 0;
    each_list(&function.body, &mut |list| {
        for at in (0..list.len()).filter(|&at| list[at].is_word(result)) {
            let bound = at > 0 && list[at - 1].is_word("let");
            let total = begins(&list[at + 1..], ". total");
            totals += usize::from(total);
            if !bound && !total && !begins(&list[at + 1..], ". verdict") {
                found.push(function.finding(list[at].line, format!("`{result}` goes where its total is not followed")));
            }
        }
    });
    if totals != 1 {
        found.push(function.finding(function.line, format!("the total of `{result}` is taken {totals} times")));
    }
    found
}

/// The total begins as the deque's own, is what the comparisons returned, and is what every returned deque gets.
fn total_kept(sources: &Sources, function: &Function, total: &str, calls: usize) -> Vec<Finding> {
    let mut found = Vec::new();
    let (mut begun, mut taken) = (0, 0);
    each_list(&function.body, &mut |list| {
        for one in assignments(sources, list) {
            let first = one.names.contains(&total) && one.value.len() == 3 && begins(one.value, "self . comparisons");
            let on = !one.is_let && begins(one.value, &format!("{} . total", shown(one.value.first())));
            let plain = one.sign == "=" && matches!(one.place, [place] if place.is_word(total));
            begun += usize::from(first);
            taken += usize::from(on && plain);
            let touched = one.names.contains(&total) || one.place.first().is_some_and(|place| place.is_word(total));
            if touched && !first && !(on && plain) {
                found.push(function.finding(one.line, format!("`{total}` is set to something else than a total")));
            }
        }
        for at in (0..list.len()).filter(|&at| list[at].is_word("return") && !begins(&list[at + 1..], "Deque {")) {
            found.push(function.finding(list[at].line, "what is returned is to be written out as a deque"));
        }
        for at in (0..list.len()).filter(|&at| list[at].is_word("Deque") && is_struct(sources, list, at)) {
            let kept = split(list[at + 1].group('{').unwrap_or_default(), ",").into_iter().any(|part| {
                let named = part.len() == 3 && begins(part, &format!("comparisons : {total}"));
                named || (total == "comparisons" && part.len() == 1 && part[0].is_word(total))
            });
            if !kept {
                found.push(function.finding(list[at].line, format!("a deque that does not get `{total}`")));
            }
        }
    });
    if begun != 1 || taken != calls {
        let what = format!("`{total}` begins {begun} times and is taken on {taken} times, with {calls} comparisons");
        found.push(function.finding(function.line, what));
    }
    if !begins(tail(sources, &function.body), "Deque {") {
        found.push(function.finding(function.line, "what comes back at the end is to be written out as a deque"));
    }
    found
}

fn shown(tree: Option<&Tree>) -> &str {
    tree.and_then(Tree::word).unwrap_or_default()
}

/// Deques that are written out elsewhere, totals that are written over, and what `compare` returns, made up.
fn written_deques(sources: &Sources, function: &Function, found: &mut Vec<Finding>) {
    if !WRITTEN_IN.contains(&function.krate.as_str()) {
        return;
    }
    each_list(&function.body, &mut |list| {
        for at in (0..list.len()).filter(|&at| is_struct(sources, list, at)) {
            let deque = list[at].is_word("Deque") && !WRITERS.iter().any(|writer| function.is(writer));
            if deque || (list[at].is_word("Compared") && !function.is(COMPARE)) {
                let what = format!("a `{}` is written out in {}", shown(list.get(at)), function.title());
                found.push(function.finding(list[at].line, what));
            }
        }
        for one in assignments(sources, list) {
            if !one.is_let && one.place.last().is_some_and(|last| last.is_word("comparisons") || last.is_word("total"))
            {
                if one.place.len() > 1 {
                    found.push(function.finding(one.line, "a total is written over"));
                }
            }
        }
    });
}
