//! What holds a value of a partial: what is read from a table of values, followed through locals, through the fields
//! that it is stored in, and through the functions that return it.

use crate::open_partial;
use crate::shape::{
    arguments, arms, assignments, block_after, bound_names, end_of_expression, is_struct, tail, Assignment,
};
use crate::source::{Declared, Function, Sources};
use crate::tokens::{each_list, split, Tree};
use std::collections::BTreeSet;

/// The names under which tables of values are lent, in every crate.
pub const TABLES: [&str; 3] = ["values", "max_values", "min_values"];

/// The one other name, which a parameter of this function has: it fills a table of any numbers with one of them. It
/// alone calls the method `FILL`, which writes places and reads none.
pub const OVERWRITTEN: (&str, &str) = ("board overwrite", "table");
pub const FILL: &str = "fill";

/// The answer places, which a value may be stored in, and the crates in which one that is read back is followed on.
/// Above them answers are printed.
pub const ANSWERS: &str = "answers";
pub const ANSWERED_IN: [&str; 6] = ["deque", "board", "engine", "lent", "encoding", "pchelodar_c"];

/// Functions that may be handed a value, with the parameter that takes it, which is followed there.
pub const HANDED: [(&str, &str); 1] = [("engine put_answer", "value")];

/// The one function that compares values.
pub const COMPARE: &str = "deque compare";

/// Crates in which every parameter of type `i32` is the value of a partial. In `engine` those are readings.
const OF_VALUES: [&str; 1] = ["deque"];

/// What is known of all functions together: which of them return a value, and which fields hold one.
#[derive(Default, PartialEq, Clone)]
pub struct Facts {
    functions: BTreeSet<String>,
    methods: BTreeSet<String>,
    fields: BTreeSet<String>,
}

impl Facts {
    pub fn of(sources: &Sources) -> Facts {
        let mut facts = Facts::default();
        loop {
            let before = facts.clone();
            for function in sources.functions.iter().filter(|function| !function.is(COMPARE)) {
                let (returns, fields) = {
                    let view = View::of(sources, &before, function);
                    (view.returns_value(), view.fields_stored())
                };
                if returns {
                    let carriers = if function.owner.is_some() { &mut facts.methods } else { &mut facts.functions };
                    carriers.insert(function.name.clone());
                }
                facts.fields.extend(fields);
            }
            if facts == before {
                return facts;
            }
        }
    }

    /// The first field of a struct or of an enum's cases that holds a value.
    pub fn field_of<'a>(&self, declared: &'a Declared) -> Option<&'a str> {
        let mut fields = Vec::new();
        each_list(&declared.body, &mut |list| {
            let named = |at: &usize| list.get(at + 1).is_some_and(|next| next.is_sign(":"));
            fields.extend((0..list.len()).filter(named).filter_map(|at| list[at].word()));
        });
        fields.into_iter().find(|field| self.fields.contains(*field))
    }

    /// Whether what is called at this place returns a value. After a dot it is a function of a type, after a path it
    /// may be one, and else it is none. `into` calls `from`, and `try_into` calls `try_from`.
    fn returned_at(&self, list: &[Tree], at: usize) -> bool {
        let called = match list[at].word() {
            Some("into") => Some("from"),
            Some("try_into") => Some("try_from"),
            word => word,
        };
        let known = |carriers: &BTreeSet<String>| called.is_some_and(|word| carriers.contains(word));
        match at.checked_sub(1).and_then(|before| list[before].sign()) {
            Some(".") => known(&self.methods),
            Some("::") => known(&self.methods) || known(&self.functions),
            _ => known(&self.functions),
        }
    }
}

/// A function, and what holds a value in it.
pub struct View<'a> {
    pub sources: &'a Sources,
    pub function: &'a Function,
    facts: &'a Facts,
    pub tables: Vec<&'a str>,
    locals: BTreeSet<&'a str>,
}

impl<'a> View<'a> {
    pub fn of(sources: &'a Sources, facts: &'a Facts, function: &'a Function) -> View<'a> {
        let mut tables: Vec<&str> = TABLES.to_vec();
        let mut locals = BTreeSet::new();
        for param in &function.params {
            if param.kind.iter().any(|tree| sources.is_i32_table(tree)) {
                tables.push(&param.name);
            }
            let is_i32 = matches!(&param.kind[..], [one] if sources.i32s.iter().any(|name| one.is_word(name)));
            let handed = HANDED.iter().any(|(name, taker)| function.is(name) && param.name == *taker);
            let of_any = |tree: &Tree| function.generics.iter().any(|name| tree.is_word(name));
            let handed = handed || matches!(&param.kind[..], [one] if of_any(one));
            if handed || (is_i32 && OF_VALUES.contains(&function.krate.as_str())) {
                locals.insert(param.name.as_str());
            }
        }
        let mut view = View { sources, function, facts, tables, locals };
        loop {
            let before = view.locals.len();
            view.follow();
            if view.locals.len() == before {
                return view;
            }
        }
    }

    /// The locals that a value is assigned to, or that a pattern binds to a field that holds one.
    fn follow(&mut self) {
        let mut more = Vec::new();
        self.each_assignment(&mut |view, one| {
            if view.is_value(one.value) {
                more.extend(&one.names);
                if !one.is_let {
                    assigned_locals(one.place, &mut more);
                }
            }
        });
        each_list(&self.function.body, &mut |list| {
            for (field, value) in (0..list.len()).flat_map(|at| fields_at(self.sources, list, at)) {
                if self.holds_value(field) && is_pattern(value) {
                    bound_names(value, &mut more);
                }
            }
        });
        self.locals.extend(more);
    }

    fn each_assignment(&self, visit: &mut dyn FnMut(&View<'a>, &Assignment<'a>)) {
        each_list(&self.function.body, &mut |list| {
            for one in assignments(self.sources, list) {
                visit(self, &one);
            }
        });
    }

    /// Whether a name is that of a parameter or a local, as a closure is called by one.
    pub fn binds(&self, name: &str) -> bool {
        let mut bound = self.function.params.iter().any(|param| param.name == name);
        self.each_assignment(&mut |_, one| bound |= one.names.contains(&name));
        bound
    }

    /// Whether a field of this name holds a value. Those of the open partial, where they are named, do not.
    fn holds_value(&self, field: &str) -> bool {
        self.facts.fields.contains(field) && !open_partial::is_open(self.function, field)
    }

    /// Whether a value is read at this place of a list.
    pub fn reads(&self, list: &[Tree], at: usize) -> bool {
        let Some(word) = list[at].word() else { return false };
        let next = list.get(at + 1);
        let after_dot = at > 0 && list[at - 1].is_sign(".");
        if next.is_some_and(|next| next.group('[').is_some()) {
            let answer = word == ANSWERS && ANSWERED_IN.contains(&self.function.krate.as_str());
            if answer || self.tables.contains(&word) {
                let mut indexes = list[at + 1..].iter().map_while(|tree| tree.group('['));
                return indexes.any(|index| !is_range(index));
            }
        }
        if next.is_some_and(|next| next.group('(').is_some()) {
            let plain = !after_dot && !(at > 0 && list[at - 1].is_sign("::"));
            return self.facts.returned_at(list, at) || (plain && self.locals.contains(word));
        }
        if after_dot {
            return self.holds_value(word);
        }
        let labels = |tree: &Tree| tree.is_sign(":") || tree.is_sign("::");
        self.locals.contains(word) && !next.is_some_and(labels)
    }

    /// Whether a value is read anywhere in these trees, the arguments of `compare` aside.
    pub fn has_value(&self, trees: &[Tree]) -> bool {
        let mut at = 0;
        while at < trees.len() {
            if trees[at].is_word("compare") && arguments(trees, at).is_some() {
                at += 2;
                continue;
            }
            if self.reads(trees, at) || self.has_value(trees[at].inner().unwrap_or_default()) {
                return true;
            }
            at += 1;
        }
        false
    }

    /// Whether an expression comes to a value, or to something reckoned from one. What a struct holds is followed by
    /// its fields.
    pub fn is_value(&self, expression: &[Tree]) -> bool {
        let mut at = 0;
        while at < expression.len() {
            let tree = &expression[at];
            match tree.word() {
                Some("return" | "break" | "continue") => return false,
                Some(keyword @ ("if" | "match" | "loop" | "while" | "for")) => {
                    let Some(place) = block_after(self.sources, expression, at) else { return false };
                    let block = expression[place].group('{').unwrap_or_default();
                    return self.block_value(keyword, block) || self.is_value(&expression[place + 1..]);
                }
                _ => {}
            }
            if is_struct(self.sources, expression, at) {
                at += 2;
                continue;
            }
            if let Some(arguments) = arguments(expression, at) {
                let compares = tree.is_word("compare");
                if self.reads(expression, at) || (!compares && self.has_value(arguments)) {
                    return true;
                }
                at += 2;
                continue;
            }
            let inner = tree.inner().unwrap_or_default();
            let inside = match tree.group('{') {
                Some(block) => self.is_value(tail(self.sources, block)),
                None => self.is_value(inner),
            };
            if self.reads(expression, at) || inside {
                return true;
            }
            at += 1;
        }
        false
    }

    /// Whether the block after this keyword comes to a value.
    fn block_value(&self, keyword: &str, block: &[Tree]) -> bool {
        match keyword {
            "if" => self.is_value(tail(self.sources, block)),
            "match" => arms(block).into_iter().any(|arm| self.is_value(arm)),
            "loop" => self.hands_on("break", block),
            _ => false,
        }
    }

    /// Whether a `return` or a `break` in a body has a value.
    fn hands_on(&self, keyword: &str, body: &[Tree]) -> bool {
        let mut found = false;
        each_list(body, &mut |list| {
            for at in (0..list.len()).filter(|&at| list[at].is_word(keyword)) {
                found |= self.is_value(&list[at + 1..end_of_expression(list, at)]);
            }
        });
        found
    }

    fn returns_value(&self) -> bool {
        let body = &self.function.body;
        self.is_value(tail(self.sources, body)) || self.hands_on("return", body)
    }

    /// The fields that a value is stored in.
    fn fields_stored(&self) -> Vec<String> {
        let mut fields = Vec::new();
        each_list(&self.function.body, &mut |list| {
            for (field, value) in (0..list.len()).flat_map(|at| fields_at(self.sources, list, at)) {
                if self.is_value(value) {
                    fields.push(field.to_string());
                }
            }
        });
        self.each_assignment(&mut |view, one| {
            if let [.., dot, field] = one.place {
                if dot.is_sign(".") && view.is_value(one.value) {
                    fields.extend(field.word().map(str::to_string));
                }
            }
        });
        fields
    }

    /// Whether a table itself, or a part of it, is what these trees come to: not lent to a call, and not its length.
    pub fn has_table(&self, trees: &[Tree]) -> bool {
        self.comes_to_table(trees, false)
    }

    /// The same, but for those that a struct holds, whose fields are looked at where it is written.
    pub fn has_loose_table(&self, trees: &[Tree]) -> bool {
        self.comes_to_table(trees, true)
    }

    fn comes_to_table(&self, trees: &[Tree], loose: bool) -> bool {
        (0..trees.len()).any(|at| {
            let next = trees.get(at + 1);
            if loose && at > 0 && is_struct(self.sources, trees, at - 1) {
                return false;
            }
            let read =
                next.is_some_and(|next| next.is_sign(".") || next.group('[').is_some_and(|index| !is_range(index)));
            let is_table = trees[at].word().is_some_and(|word| self.tables.contains(&word)) && !read;
            let lent = at > 0 && trees[at].group('(').is_some() && arguments(trees, at - 1).is_some();
            is_table || (!lent && self.comes_to_table(trees[at].inner().unwrap_or_default(), loose))
        })
    }
}

/// The fields of a struct that is written at this place, as an expression or as a pattern: each name, and what it gets
/// or is bound to.
pub fn fields_at<'a>(sources: &Sources, list: &'a [Tree], at: usize) -> Vec<(&'a str, &'a [Tree])> {
    if !is_struct(sources, list, at) {
        return Vec::new();
    }
    let parts = split(list[at + 1].group('{').unwrap_or_default(), ",");
    let field = |part: &'a [Tree]| {
        let value = if part.len() > 2 && part[1].is_sign(":") { &part[2..] } else { part };
        Some((part.first()?.word()?, value))
    };
    parts.into_iter().filter_map(field).collect()
}

/// Whether a field can be bound by this: in no pattern is there a dot, so that with one it is an expression.
fn is_pattern(value: &[Tree]) -> bool {
    value.iter().all(|tree| !tree.is_sign(".") && is_pattern(tree.inner().unwrap_or_default()))
}

/// The locals that are assigned to, also several in brackets.
fn assigned_locals<'a>(place: &'a [Tree], locals: &mut Vec<&'a str>) {
    match place {
        [star, local] if star.is_sign("*") => locals.extend(local.word()),
        [one] if one.inner().is_some() => bound_names(place, locals),
        [local] => locals.extend(local.word()),
        _ => {}
    }
}

/// Whether an index is a range, so that what is indexed by it is a part of the table.
pub fn is_range(index: &[Tree]) -> bool {
    index.iter().any(|tree| tree.is_sign("..") || tree.is_sign("..="))
}
