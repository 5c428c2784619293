//! Rule `session`: the session program (`program.rs`). What it hears from standard input goes on as it was heard, and
//! what it says is what the session put into the output: each of its functions calls what `CALLS` says, as often as it
//! says, and nothing else; the statements of `WRITTEN` stand there one after the other; and the verdicts, what reads
//! and writes, and what is read from and written to, are named where `NAMED` says. No crate but this one and the
//! demonstration names what reads and writes (`kit.rs`).

use crate::kit;
use crate::program::{BESIDE, BROUGHT, CALLS, CRATE, FILE, FUNCTIONS, KIT, LENT, NAMED, PARAMETERS, WRITTEN};
use crate::shape::{arguments, is_keyword, statements};
use crate::source::{File, Finding, Function, Sources};
use crate::tokens::{each_list, is_written, mentions, Tree};
use std::collections::BTreeSet;

/// Words that are counted with the calls: no statement is made to depend on something by another one.
const BRANCHES: [&str; 8] = ["while", "loop", "for", "if", "match", "return", "break", "continue"];

pub fn rule(sources: &Sources) -> Vec<Finding> {
    let mut found = Vec::new();
    for file in &sources.files {
        kit::report(sources, file, &mut found);
        if file.krate == CRATE {
            brought_in(file, &mut found);
        }
    }
    let own: Vec<&Function> = sources.functions.iter().filter(|function| function.krate == CRATE).collect();
    for name in FUNCTIONS {
        let defined = own.iter().filter(|function| function.title() == name && function.file == FILE).count();
        if defined != 1 {
            found.push(Finding::new(FILE, 1, format!("`{name}` is defined {defined} times, not once")));
        }
    }
    for function in &own {
        if !FUNCTIONS.contains(&function.title().as_str()) {
            found.push(function.finding(function.line, format!("`{}` is none of the program's", function.title())));
        }
        called(function, &mut found);
        for (_, wanted) in WRITTEN.iter().filter(|(name, _)| function.title() == *name) {
            written(sources, function, wanted, &mut found);
        }
        parameters(function, &mut found);
    }
    named(sources, &own, &mut found);
    found
}

/// One file, with no module below it, and what it brings in by `use`: of `std` what `BROUGHT` says, of the kit nothing,
/// and nothing under another name.
fn brought_in(file: &File, found: &mut Vec<Finding>) {
    if file.path != FILE {
        found.push(Finding::new(&file.path, 1, format!("the program is to stand in {FILE} alone")));
    }
    let modules = mentions(&file.trees, "mod").into_iter();
    found.extend(modules.map(|line| Finding::new(&file.path, line, "a module in the program")));
    for one in &file.uses {
        if one.renamed || one.name() == "*" {
            found.push(Finding::new(&file.path, one.line, "only plain paths are brought in"));
        }
        let kit = KIT.iter().any(|(word, _)| *word == one.root());
        if kit || (one.root() == "std" && !BROUGHT.contains(&one.path.as_str())) {
            found.push(Finding::new(&file.path, one.line, format!("`{}` is brought in", one.path)));
        }
    }
    for path in BROUGHT {
        let times = file.uses.iter().filter(|one| one.path == path).count();
        if times != 1 {
            found.push(Finding::new(&file.path, 1, format!("`{path}` is brought in {times} times, not once")));
        }
    }
}

/// The parameters of a function, by `PARAMETERS`.
fn parameters(function: &Function, found: &mut Vec<Finding>) {
    for (_, name, kind) in PARAMETERS.iter().filter(|(title, _, _)| function.title() == *title) {
        if !function.params.iter().any(|param| param.name == *name && is_written(&param.kind, kind)) {
            let what = format!("a parameter of `{}` is to be `{name}: {kind}`", function.title());
            found.push(function.finding(function.line, what));
        }
    }
}

/// The calls of a function, against `CALLS`.
fn called(function: &Function, found: &mut Vec<Finding>) {
    let calls = calls(&function.body);
    let own = || CALLS.iter().filter(|(caller, _, _)| function.title() == *caller);
    for (path, line) in &calls {
        if !own().any(|(_, callee, _)| callee == path) {
            found.push(
                function.finding(*line, format!("`{path}` stands in `{}`, where none is to be", function.title())),
            );
        }
    }
    for (_, callee, times) in own() {
        let lines: Vec<usize> = calls.iter().filter(|(path, _)| path == callee).map(|(_, line)| *line).collect();
        if lines.len() != *times {
            let what = format!("`{callee}` stands {} times in `{}`, not {times}", lines.len(), function.title());
            found.push(function.finding(lines.last().copied().unwrap_or(function.line), what));
        }
    }
}

/// What is called in a body, each by its path, macros with their sign, and its branches. `.len()` is left out; what is
/// called without a name is `()`.
fn calls(body: &[Tree]) -> Vec<(String, usize)> {
    let mut out = Vec::new();
    each_list(body, &mut |list| {
        for at in 0..list.len() {
            let word = list[at].word().unwrap_or_default();
            let next = |ahead: usize| list.get(at + ahead);
            let makes =
                next(1).is_some_and(|next| next.is_sign("!")) && next(2).is_some_and(|next| next.inner().is_some());
            let unnamed = list[at].inner().is_some() && next(1).is_some_and(|next| next.group('(').is_some());
            if BRANCHES.contains(&word) || list[at].is_sign("?") {
                out.push((list[at].sign().unwrap_or(word).to_string(), list[at].line));
            } else if arguments(list, at).is_some() && path(list, at) != ".len" {
                out.push((path(list, at), list[at].line));
            } else if unnamed {
                out.push(("()".to_string(), list[at].line));
            } else if makes && !word.is_empty() && !is_keyword(word) {
                out.push((format!("{word}!"), list[at].line));
            }
        }
    });
    out
}

/// The path that ends at this place: `session::stream::feed`, or `.feed` for a method.
fn path(list: &[Tree], at: usize) -> String {
    let shown = |place: usize| list[place].word().unwrap_or("?").to_string();
    let mut path = shown(at);
    let mut start = at;
    while start > 1 && list[start - 1].is_sign("::") {
        path = format!("{}::{path}", shown(start - 2));
        start -= 2;
    }
    match start.checked_sub(1).and_then(|before| list[before].sign()) {
        Some(sign @ ("." | "::")) => format!("{sign}{path}"),
        _ => path,
    }
}

/// Statements that are to stand in a function one after the other, once. Where they do not, the finding is at the first
/// one that is another, after the most that are as they should be. But in `BESIDE` they are to be the whole body.
fn written(sources: &Sources, function: &Function, wanted: &[&str], found: &mut Vec<Finding>) {
    let wanted: Vec<String> = wanted.iter().map(|text| text.replace("LENT", LENT)).collect();
    let mut whole = 0;
    let (mut most, mut line) = (0, function.line);
    each_list(&function.body, &mut |list| {
        let parts = statements(sources, list);
        for start in 0..parts.len() {
            let pairs = parts[start..].iter().zip(&wanted);
            let fits = pairs.take_while(|(part, text)| is_written(part, text)).count();
            whole += usize::from(fits == wanted.len());
            if fits > most && fits < wanted.len() {
                most = fits;
                line = parts.get(start + fits).map_or(line, |part| part[0].line);
            }
        }
    });
    if whole != 1 {
        let what = format!("`{}` is to stand here, in `{}`", wanted[most], function.title());
        found.push(function.finding(line, what));
    } else if function.title() != BESIDE && !is_written(&function.body, &wanted.join(" ")) {
        let what = format!("in `{}` nothing is to stand beside the statements that are to", function.title());
        found.push(function.finding(function.line, what));
    }
}

/// Where the words of `NAMED` are named, also outside of all functions' bodies, and that the functions are named where
/// they are called, and nowhere else.
fn named(sources: &Sources, own: &[&Function], found: &mut Vec<Finding>) {
    let all = |word: &str| -> Vec<usize> {
        let files = sources.files.iter().filter(|file| file.krate == CRATE);
        files.flat_map(|file| mentions(&file.trees, word)).collect()
    };
    for (word, outside, places) in NAMED {
        let mut inside = Vec::new();
        for function in own {
            let lines = mentions(&function.body, word);
            let wanted = places.iter().find(|(name, _)| function.title() == *name).map_or(0, |(_, times)| *times);
            if lines.len() != wanted {
                let what = format!("`{word}` is named {} times in `{}`, not {wanted}", lines.len(), function.title());
                found.push(function.finding(lines.last().copied().unwrap_or(function.line), what));
            }
            inside.extend(lines);
        }
        if all(word).len() != inside.len() + outside {
            let line = all(word).into_iter().filter(|line| !inside.contains(line)).last().unwrap_or(1);
            let what = format!("outside of all functions' bodies `{word}` is to be named {outside} times");
            found.push(Finding::new(FILE, line, what));
        }
    }
    let last = |path: &'static str| path.rsplit(['.', ':']).next().unwrap_or_default().trim_end_matches('!');
    let others = CALLS.iter().filter_map(|(_, path, _)| path.strip_prefix("session::stream::"));
    let names: BTreeSet<&str> = FUNCTIONS.into_iter().map(last).chain(others).collect();
    for name in names.into_iter().filter(|name| !NAMED.iter().any(|(word, _, _)| word == name)) {
        let calls = CALLS.iter().filter(|(_, path, _)| last(path) == name);
        let defined = FUNCTIONS.into_iter().filter(|title| last(title) == name).count();
        let wanted = calls.map(|(_, _, times)| times).sum::<usize>() + defined;
        let lines = all(name);
        if lines.len() != wanted {
            let what = format!("`{name}` is named {} times, not {wanted}", lines.len());
            found.push(Finding::new(FILE, lines.last().copied().unwrap_or(1), what));
        }
    }
}
