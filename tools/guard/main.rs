//! The guard: a check of the sources' text for what no proof says. See README.md.
//!
//!     guard ROOT FOLDER [RULE..]      the sources under ROOT, the planted violations in FOLDER, and the rules to try:
//!                                     those that are on, if none is named

mod answers;
mod brought;
mod comparison;
mod derives;
mod erased;
mod follow;
mod forms;
mod kit;
mod lending;
mod open_partial;
mod planted;
mod program;
mod session;
mod shape;
mod source;
mod steps;
mod tokens;
mod values;

use source::{Finding, Sources, Texts};
use std::path::Path;
use std::process::exit;

struct Rule {
    name: &'static str,
    find: fn(&Sources) -> Vec<Finding>,
}

const RULES: [Rule; 3] = [
    Rule { name: "comparison", find: comparison::rule },
    Rule { name: "values", find: values::rule },
    Rule { name: "session", find: session::rule },
];

/// What finds that the sources cannot be read, whatever rules are tried.
const READING: &str = "sources";

fn main() {
    let words: Vec<String> = std::env::args().skip(1).collect();
    let (Some(root), Some(folder)) = (words.first(), words.get(1)) else {
        eprintln!("usage: guard ROOT FOLDER [RULE..]");
        exit(2);
    };
    match check(Path::new(root), Path::new(folder), &words[2..]) {
        Ok(done) => println!("guard: {done}"),
        Err(lines) => {
            for line in lines {
                eprintln!("guard: {line}");
            }
            exit(1);
        }
    }
}

/// The rules on the sources as they are, and on each edit of them.
fn check(root: &Path, folder: &Path, named: &[String]) -> Result<String, Vec<String>> {
    let unknown = |name: &&String| !RULES.iter().any(|rule| rule.name == name.as_str());
    if let Some(name) = named.iter().find(unknown) {
        return Err(vec![format!("no rule `{name}`")]);
    }
    let tried = |rule: &&Rule| named.is_empty() || named.iter().any(|name| name == rule.name);
    let rules: Vec<&Rule> = RULES.iter().filter(tried).collect();
    let texts = source::load(root).map_err(|error| vec![error])?;
    let findings = findings(&rules, &texts);
    if !findings.is_empty() {
        return Err(findings.into_iter().map(|(rule, one)| shown(rule, &one)).collect());
    }
    let functions = Sources::of(&texts).map_or(0, |sources| sources.functions.len());
    let (planted, harmless) = check_planted(&rules, &texts, folder)?;
    let names: Vec<&str> = rules.iter().map(|rule| rule.name).collect();
    Ok(format!(
        "{} files, {functions} functions, rules {}: nothing found; {planted} planted violations, all found; {harmless} \
         harmless edits, nothing found",
        texts.len(),
        names.join(" and ")
    ))
}

fn shown(rule: &str, one: &Finding) -> String {
    format!("{}:{}: {} (rule {rule})", one.file, one.line, one.what)
}

/// What the rules find, each with its rule; of sources that cannot be read, that alone.
fn findings<'a>(rules: &[&'a Rule], texts: &Texts) -> Vec<(&'a str, Finding)> {
    match Sources::of(texts) {
        Ok(sources) => {
            rules.iter().flat_map(|rule| (rule.find)(&sources).into_iter().map(|one| (rule.name, one))).collect()
        }
        Err(one) => vec![(READING, one)],
    }
}

/// How many violations were planted and found, and how many harmless edits were made.
fn check_planted(rules: &[&Rule], texts: &Texts, folder: &Path) -> Result<(usize, usize), Vec<String>> {
    let (mut planted, mut harmless) = (0, 0);
    let edits = planted::load(folder).map_err(|error| vec![error])?;
    let tried: Vec<&str> = rules.iter().map(|rule| rule.name).chain([READING]).collect();
    let unplanted = |name: &&&str| !edits.iter().any(|edit| edit.rule() == Some(**name));
    let none = |name: &&str| format!("planted: no violation of rule {name}");
    let mut wrong: Vec<String> = tried.iter().filter(unplanted).map(none).collect();
    for edit in &edits {
        if edit.rule().is_some_and(|name| !tried.contains(&name)) {
            if !RULES.iter().any(|rule| Some(rule.name) == edit.rule()) {
                wrong.push(format!("planted/{}: named after no rule", edit.name));
            }
            continue;
        }
        for edited in edit.applied(texts).map_err(|error| vec![format!("planted/{error}")])? {
            let found = findings(rules, &edited);
            let reported = found.iter().any(|(rule, one)| Some(*rule) == edit.rule() && one.file == edit.file());
            match edit.rule() {
                Some(_) => planted += 1,
                None => harmless += 1,
            }
            if edit.rule().is_some() && !reported {
                wrong.push(format!("planted/{}: not found", edit.name));
            }
            if edit.rule().is_none() && !found.is_empty() {
                wrong.extend(found.iter().map(|(rule, one)| format!("planted/{}: {}", edit.name, shown(rule, one))));
            }
        }
    }
    if wrong.is_empty() {
        Ok((planted, harmless))
    } else {
        Err(wrong)
    }
}
