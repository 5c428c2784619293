//! Rule `values`: what is read from a table of values (`follow.rs`) is compared by `compare` alone. It may be returned,
//! stored in a table of values or in the answers, and kept in a field, where it is followed. It may not stand beside a
//! comparison sign, in `deque`, `board` and `engine` beside an arithmetic operator, decide an `if`, a `match`, a
//! `let .. else` or a loop, be an index, or be handed to a macro or to any function but `compare`, those of `HANDED`
//! and `from` of a wider number. A table keeps its name, also as a field (`lending.rs`), and of its methods `len` alone
//! is called, and `fill` in `OVERWRITTEN`; so it is with the answer places (`answers.rs`). For the extremes of the open
//! partial, which are compared with readings, see `open_partial.rs`.

use crate::follow::{is_range, Facts, View, ANSWERS, COMPARE, FILL, HANDED, OVERWRITTEN, TABLES};
use crate::shape::{arguments, assignments, block_after, is_keyword, operands, Assignment, COMPARISONS};
use crate::source::{File, Finding, Sources};
use crate::tokens::{begins, each_list, split, Tree};
use crate::{answers, forms, open_partial};

/// The crates that come with the language; their functions are not looked at, and no table is lent to them.
const KIT: [&str; 8] = ["std", "core", "check", "libc", "io", "os", "bytes", "itoa"];

/// The number, wider than a value, whose `from` may be handed one; what it returns is followed on.
const WIDER: &str = "i64";

/// Arithmetic and bit operators, `&` before a place being taken for one, and the crates in which no value stands beside
/// one.
const ARITHMETIC: [&str; 20] =
    ["+", "-", "*", "/", "%", "&", "|", "^", "<<", ">>", "+=", "-=", "*=", "/=", "%=", "&=", "|=", "^=", "<<=", ">>="];
const NO_ARITHMETIC_IN: [&str; 3] = ["deque", "board", "engine"];

pub fn rule(sources: &Sources) -> Vec<Finding> {
    let facts = Facts::of(sources);
    let mut found = Vec::new();
    for file in &sources.files {
        table_names(sources, file, &file.trees, false, &mut found);
    }
    let fields = sources.declared.iter().filter_map(|one| Some((&one.name, facts.field_of(one)?)));
    for (name, field) in fields {
        let derived = sources.derived.iter().filter(|one| one.name == *name && !one.traits.is_empty());
        found.extend(derived.map(|one| {
            let what = format!("`{}` is derived for `{name}`, where `{field}` holds a value", one.traits.join(", "));
            Finding::new(&one.file, one.line, what)
        }));
    }
    for function in sources.functions.iter().filter(|function| !function.is(COMPARE)) {
        View::of(sources, &facts, function).report(&mut found);
        answers::report(sources, function, &mut found);
        open_partial::report(sources, function, &mut found);
    }
    found
}

/// Slices and arrays of `i32` under other names. `overwrites` is whether these are the parameters of `OVERWRITTEN`.
fn table_names(sources: &Sources, file: &File, list: &[Tree], overwrites: bool, found: &mut Vec<Finding>) {
    for at in 0..list.len() {
        let name = declared_name(list, at);
        let known = name.is_some_and(|name| TABLES.contains(&name) || (overwrites && name == OVERWRITTEN.1));
        if sources.is_i32_table(&list[at]) && !known {
            let what = format!("a slice or array of i32 named {}: no name of a table of values", shown(name));
            found.push(Finding::new(&file.path, list[at].line, what));
        }
        let overwriting = named_before(list, at).is_some_and(|name| format!("{} {name}", file.krate) == OVERWRITTEN.0);
        table_names(sources, file, list[at].inner().unwrap_or_default(), overwriting, found);
    }
}

/// The name of the function whose parameters stand at this place.
fn named_before(list: &[Tree], at: usize) -> Option<&str> {
    list[at].group('(')?;
    let start = list[..at].iter().rposition(|tree| tree.is_word("fn"))?;
    let after = forms::parameters(list, start + 2).map_or(start + 2, |parameters| start + parameters.len() + 4);
    list[start + 1].word().filter(|_| after == at)
}

fn shown(name: Option<&str>) -> String {
    name.map_or("nothing".to_string(), |name| format!("`{name}`"))
}

/// The name that is declared with the type, or bound to the array, at this place.
fn declared_name(list: &[Tree], at: usize) -> Option<&str> {
    let mut before = at;
    let lifetime = |i: usize| i > 1 && list[i - 2].is_sign("'");
    while before > 0 {
        let tree = &list[before - 1];
        if !(tree.is_sign("&") || tree.is_sign("'") || tree.is_word("mut") || lifetime(before)) {
            break;
        }
        before -= 1;
    }
    let sign = list.get(before.checked_sub(1)?)?.sign()?;
    list[before.checked_sub(2)?].word().filter(|_| sign == ":" || sign == "=")
}

impl View<'_> {
    fn report(&self, found: &mut Vec<Finding>) {
        let name = self.function.title();
        each_list(&self.function.body, &mut |list| {
            for at in 0..list.len() {
                let mut say =
                    |what: String| found.push(self.function.finding(list[at].line, format!("{what}, in {name}")));
                self.report_decision(list, at, &mut say);
                self.report_table(list, at, &mut say);
                self.report_method(list, at, &mut say);
                self.report_call(list, at, &mut say);
                self.report_macro(list, at, &mut say);
                self.report_index(list, at, &mut say);
                self.report_fields(list, at, &mut say);
                self.report_lending(list, at, &mut say);
            }
            for one in assignments(self.sources, list) {
                let mut say = |what: String| found.push(self.function.finding(one.line, format!("{what}, in {name}")));
                self.report_store(&one, &mut say);
            }
        });
    }

    /// A comparison, arithmetic, a condition, or what a `match`, a `for` or a `let .. else` goes by.
    fn report_decision(&self, list: &[Tree], at: usize, say: &mut dyn FnMut(String)) {
        let beside = |sign: &&str| COMPARISONS.contains(sign) || self.is_arithmetic(sign);
        if let Some(sign) = list[at].sign().filter(beside) {
            if operands(list, at).into_iter().any(|operand| self.has_value(operand)) {
                say(format!("a value of a table stands beside `{sign}`"));
            }
        }
        if let Some(word) = list[at].word().filter(|word| ["if", "while", "match", "in"].contains(word)) {
            let end = block_after(self.sources, list, at).unwrap_or(list.len());
            if self.has_value(&list[at + 1..end]) {
                say(format!("a value of a table decides after `{word}`"));
            }
        }
        if list[at].is_word("else") && at > 0 && list[at - 1].group('{').is_none() {
            let start = list[..at].iter().rposition(|tree| tree.is_word("let")).unwrap_or(0);
            if self.has_value(&list[start..at]) {
                say("a value of a table decides after `let`".to_string());
            }
        }
    }

    fn is_arithmetic(&self, sign: &str) -> bool {
        NO_ARITHMETIC_IN.contains(&self.function.krate.as_str()) && ARITHMETIC.contains(&sign)
    }

    /// A table as a whole, or a part of it, that is compared, matched or gone through, or whose method is called.
    fn report_table(&self, list: &[Tree], at: usize, say: &mut dyn FnMut(String)) {
        if let Some(sign) = list[at].sign().filter(|sign| COMPARISONS.contains(sign)) {
            if operands(list, at).into_iter().any(|operand| self.has_table(operand)) {
                say(format!("a table of values stands beside `{sign}`"));
            }
        }
        if let Some(word) = list[at].word().filter(|word| ["match", "in"].contains(word)) {
            let end = block_after(self.sources, list, at).unwrap_or(list.len());
            if self.has_table(&list[at + 1..end]) {
                say(format!("a table of values stands after `{word}`"));
            }
        }
        let lent = at > 0 && arguments(list, at - 1).is_some();
        let indexed = list.get(at + 1).is_some_and(|next| next.group('[').is_some() || next.is_sign("."));
        if !lent && indexed && self.has_table(list[at].inner().unwrap_or_default()) {
            say("a table of values in brackets is not followed".to_string());
        }
        let is_part = list.get(at + 1).and_then(|next| next.group('[')).is_some_and(is_range);
        let after = &list[(at + 1 + usize::from(is_part)).min(list.len())..];
        let is_table = list[at].word().is_some_and(|word| self.tables.contains(&word));
        let fills = self.fills(list, at + 2 + usize::from(is_part));
        if is_table && begins(after, ".") && !begins(after, ". len (") && !fills {
            say("something else than the length of a table of values is asked for".to_string());
        }
    }

    /// A call or a case that is given a value, and a table that is lent to the kit.
    fn report_call(&self, list: &[Tree], at: usize, say: &mut dyn FnMut(String)) {
        let Some(arguments) = arguments(list, at) else { return };
        let name = list[at].word().unwrap_or_default();
        let mut start = at;
        while start > 1 && list[start - 1].is_sign("::") {
            start -= 2;
        }
        if list[start].word().is_some_and(|root| self.is_of_kit(root)) && self.has_table(arguments) {
            say(format!("a table of values is lent to `{name}` of the kit"));
        }
        if name == "compare" || widens(list, at) || self.fills(list, at) || !self.has_value(arguments) {
            return;
        }
        if name.starts_with(char::is_uppercase) {
            say(format!("a value of a table is kept in `{name}(..)`, where it is not followed"));
            return;
        }
        let taker = self
            .sources
            .functions
            .iter()
            .find(|other| other.name == name && HANDED.iter().any(|(handed, _)| other.is(handed)));
        for (i, argument) in split(arguments, ",").into_iter().enumerate() {
            let param = taker.and_then(|taker| taker.params.get(i));
            let takes = param.is_some_and(|param| HANDED.iter().any(|(_, name)| param.name == *name));
            if !takes && self.has_value(argument) {
                say(format!("a value of a table is handed to `{name}`"));
            }
        }
    }

    /// Whether what is called at this place is `FILL` of the table of `OVERWRITTEN`, or of a part of it.
    fn fills(&self, list: &[Tree], at: usize) -> bool {
        let called = list.get(at).is_some_and(|tree| tree.is_word(FILL)) && arguments(list, at).is_some();
        let Some(dot) = at.checked_sub(1).filter(|&dot| called && list[dot].is_sign(".")) else { return false };
        let part = dot > 0 && list[dot - 1].group('[').is_some_and(is_range);
        let table = list[..dot - usize::from(part)].last().is_some_and(|tree| tree.is_word(OVERWRITTEN.1));
        table && self.function.is(OVERWRITTEN.0)
    }

    /// Whether a path that begins so is one of the kit, also where its file brings that in.
    fn is_of_kit(&self, root: &str) -> bool {
        let files = self.sources.files.iter().filter(|file| file.path == self.function.file);
        let brought = |file: &File| file.uses.iter().any(|one| one.name() == root && KIT.contains(&one.root()));
        KIT.contains(&root) || files.into_iter().any(brought)
    }

    /// What is written by a macro, which is not seen.
    fn report_macro(&self, list: &[Tree], at: usize, say: &mut dyn FnMut(String)) {
        let Some(name) = list[at].word().filter(|word| !is_keyword(word)) else { return };
        let given = list.get(at + 2).and_then(Tree::inner).filter(|_| list[at + 1].is_sign("!"));
        if given.is_some_and(|given| self.has_value(given) || self.has_table(given)) {
            say(format!("a value of a table, or one as a whole, is handed to the macro `{name}`"));
        }
    }

    /// A method of a value, or of something in brackets that holds one, which may compare it with something.
    fn report_method(&self, list: &[Tree], at: usize, say: &mut dyn FnMut(String)) {
        let is_index = |tree: &&Tree| tree.group('[').is_some() || tree.group('(').is_some();
        let after = &list[at + 1 + list[at + 1..].iter().take_while(is_index).count()..];
        let calls = begins(after, ".") && after.get(2).is_some_and(|next| next.group('(').is_some());
        let called = |at: usize| arguments(list, at).is_some() && !widens(list, at);
        let follows = at > 0 && (is_index(&&list[at - 1]) || called(at - 1));
        let holds = list[at].inner().filter(|_| !follows).is_some_and(|inner| self.has_value(inner));
        if calls && (holds || self.reads(list, at)) {
            say("a method of a value of a table is called".to_string());
        }
    }

    fn report_index(&self, list: &[Tree], at: usize, say: &mut dyn FnMut(String)) {
        let Some(index) = list[at].group('[') else { return };
        let indexed = at > 0 && (list[at - 1].inner().is_some() || list[at - 1].word().is_some_and(|w| !is_keyword(w)));
        if indexed && self.has_value(index) {
            say("a value of a table is used as an index".to_string());
        }
    }

    /// A value that is stored in a table of something else, and a table of values that gets another name.
    fn report_store(&self, one: &Assignment, say: &mut dyn FnMut(String)) {
        if let [.., base, index] = one.place {
            let known = base.word().is_some_and(|word| self.tables.contains(&word) || word == ANSWERS);
            if index.group('[').is_some() && !one.is_let && !known && self.is_value(one.value) {
                say("a value of a table is stored in a table of something else".to_string());
            }
        }
        if one.place.first().is_some_and(|first| first.is_sign("*")) && self.is_value(one.value) {
            say("a value of a table is stored behind a reference, where it is not followed".to_string());
        }
        let in_brackets = match one.place {
            [group] => group.group('(').or(group.group('[')).filter(|_| !one.is_let),
            _ => None,
        };
        if in_brackets.is_some_and(|inner| !split(inner, ",").iter().all(|part| part.len() == 1)) {
            if self.has_value(one.value) || self.has_table(one.value) {
                say("a value of a table is stored with others, where it is not followed".to_string());
            }
        }
        let set = one.place.last().and_then(Tree::word).is_some_and(|word| self.tables.contains(&word));
        if set && !one.is_let {
            say("a table of values is set to something else".to_string());
        }
        let renamed = !one.names.iter().all(|name| TABLES.contains(name)) || !one.is_let;
        if renamed && self.has_loose_table(one.value) {
            say("a table of values gets another name".to_string());
        }
    }
}

/// Whether what is called here is `i64::from`: it makes a value wider and does no more.
fn widens(list: &[Tree], at: usize) -> bool {
    let goes_on = at > 2 && list[at - 3].is_sign("::");
    at > 1 && list[at].is_word("from") && list[at - 1].is_sign("::") && list[at - 2].is_word(WIDER) && !goes_on
}
