//! Derives: the traits that may be derived, and the types for which none is that compares, shows or makes up their
//! values: those of `deque`, `board` and `engine`, and what holds one of them or a table of values.

use crate::source::{Declared, Finding, Sources};
use crate::tokens::{begins, each_list, each_word, split, Tree};
use std::collections::BTreeSet;

/// The traits that may be derived for any type, and those that may be where the type holds no value of a table.
const ANY: [&str; 3] = ["Clone", "Copy", "Drop"];
const OF_NO_VALUE: [&str; 4] = ["Debug", "Default", "PartialEq", "Eq"];

/// The crates whose types hold values of tables, and the one type there that holds none.
const HOLDING: [&str; 3] = ["deque", "board", "engine"];
const TALLY: (&str, &str) = ("engine", "Tally");

/// What is derived for a struct or an enum, beside `ANY`.
#[derive(Debug)]
pub struct Derived {
    pub file: String,
    pub line: usize,
    pub name: String,
    pub traits: Vec<String>,
}

/// Whether what stands in the brackets of an attribute is a derive of known traits.
pub fn is_known(inner: &[Tree]) -> bool {
    derived(inner).is_some_and(|traits| traits.iter().all(|name| ANY.contains(name) || OF_NO_VALUE.contains(name)))
}

fn derived(inner: &[Tree]) -> Option<Vec<&str>> {
    let traits = inner.get(1).filter(|_| inner.len() == 2 && inner[0].is_word("derive"))?.group('(')?;
    split(traits, ",").into_iter().map(|one| if one.len() == 1 { one[0].word() } else { None }).collect()
}

/// The derives of a file, as it was read, with the names of what they stand before.
pub fn of_file(path: &str, trees: &[Tree]) -> Result<Vec<Derived>, Finding> {
    let mut out = Vec::new();
    let mut lost = None;
    each_list(trees, &mut |list| {
        for at in (0..list.len()).filter(|&at| list[at].is_sign("#")) {
            let Some(traits) = list.get(at + 1).and_then(|next| derived(next.group('[')?)) else { continue };
            let traits: Vec<String> =
                traits.into_iter().filter(|name| !ANY.contains(name)).map(str::to_string).collect();
            match declared_after(&list[at + 2..]) {
                Some(name) => {
                    out.push(Derived { file: path.to_string(), line: list[at].line, name: name.to_string(), traits })
                }
                None => lost = lost.or(Some(list[at].line)),
            }
        }
    });
    match lost {
        None => Ok(out),
        Some(line) => Err(Finding::new(path, line, "a derive that stands before neither a struct nor an enum")),
    }
}

/// The name of the struct or enum that begins here, behind other attributes.
fn declared_after(mut rest: &[Tree]) -> Option<&str> {
    loop {
        if begins(rest, "# [") {
            rest = &rest[2..];
        } else if begins(rest, "pub (") {
            rest = &rest[2..];
        } else if begins(rest, "pub") {
            rest = &rest[1..];
        } else {
            let keyword = rest.first()?.word()?;
            return rest.get(1)?.word().filter(|_| ["struct", "enum"].contains(&keyword));
        }
    }
}

/// A derive of a type that holds values of tables, of more than `ANY`.
pub fn of_a_holder(sources: &Sources) -> Option<Finding> {
    let holders = holders(sources);
    let one = sources.derived.iter().find(|one| !one.traits.is_empty() && holders.contains(&one.name))?;
    let what = format!("`{}` is derived for `{}`, which holds values of tables", one.traits.join(", "), one.name);
    Some(Finding::new(&one.file, one.line, what))
}

/// The types that hold values of tables, each by its name.
fn holders(sources: &Sources) -> BTreeSet<String> {
    let is_tally = |one: &Declared| (one.krate.as_str(), one.name.as_str()) == TALLY;
    let in_them = |one: &&Declared| HOLDING.contains(&one.krate.as_str()) && !is_tally(one);
    let mut holders: BTreeSet<String> = sources.declared.iter().filter(in_them).map(|one| one.name.clone()).collect();
    loop {
        let before = holders.len();
        for one in &sources.declared {
            let mut holds = false;
            each_word(&one.body, &mut |word, _| holds |= holders.contains(word));
            each_list(&one.body, &mut |list| holds |= list.iter().any(|tree| sources.is_i32_table(tree)));
            if holds {
                holders.insert(one.name.clone());
            }
        }
        if holders.len() == before {
            return holders;
        }
    }
}
