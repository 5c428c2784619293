//! How tables of values are lent on: in a struct, as fields of their own names, and to parameters that are tables of
//! values, which are lent nothing else.

use crate::follow::{fields_at, View, OVERWRITTEN, TABLES};
use crate::shape::arguments;
use crate::source::Function;
use crate::tokens::{split, Tree};

impl View<'_> {
    /// A table in a struct, as it is written or taken apart: in a field of its own name alone.
    pub fn report_fields(&self, list: &[Tree], at: usize, say: &mut dyn FnMut(String)) {
        for (field, value) in fields_at(self.sources, list, at) {
            if TABLES.contains(&field) {
                if !keeps_name(field, value) {
                    say(format!("a table of values gets another name, from or for the field `{field}`"));
                }
            } else if self.has_table(value) {
                say(format!("a table of values is kept in the field `{field}`"));
            }
        }
    }

    /// A table as a whole that is handed to something else than a parameter for one, and what else is handed to such a
    /// parameter.
    pub fn report_lending(&self, list: &[Tree], at: usize, say: &mut dyn FnMut(String)) {
        let unnamed = at > 0 && list[at - 1].inner().is_some();
        if list[at].group('(').filter(|_| unnamed).is_some_and(|given| self.has_table(given) || self.has_value(given)) {
            say("a table of values, or a value of one, is handed to what has no name".to_string());
        }
        let Some(given) = arguments(list, at).map(|given| split(given, ",")) else { return };
        let name = list[at].word().unwrap_or_default();
        let is_method = at > 0 && list[at - 1].is_sign(".");
        let takers: Vec<(&Function, usize)> = self
            .sources
            .functions
            .iter()
            .filter_map(|one| Some((one, self_at(one, name, is_method, given.len())?)))
            .collect();
        for (i, argument) in given.into_iter().enumerate() {
            let takes = |(taker, before): &(&Function, usize)| {
                i.checked_sub(*before).and_then(|place| taker.params.get(place)).is_some_and(|param| {
                    TABLES.contains(&param.name.as_str()) || (taker.is(OVERWRITTEN.0) && param.name == OVERWRITTEN.1)
                })
            };
            if self.has_table(argument) {
                if name.starts_with(char::is_uppercase) {
                    say(format!("a table of values is kept in `{name}(..)`"));
                } else if takers.is_empty() && (is_method || self.binds(name)) {
                    say(format!("a table of values is handed to `{name}`, which is none of the repository's"));
                } else if !takers.iter().all(takes) {
                    say(format!("a table of values is handed to `{name}` under another name"));
                }
            } else if takers.iter().any(|taker| takes(taker) && !taker.0.is(OVERWRITTEN.0)) && !is_new(argument) {
                say(format!("something else is handed to `{name}` as a table of values"));
            }
        }
    }
}

/// How many arguments stand before the first parameter, where the function may be what is called.
fn self_at(function: &Function, name: &str, is_method: bool, given: usize) -> Option<usize> {
    let before = usize::from(function.takes_self && !is_method);
    let fits = function.params.len() + before == given && (function.takes_self || !is_method);
    (function.name == name && fits).then_some(before)
}

/// Whether a field of a struct that is written gets the table of its name, or an array that is written there; or, where
/// the struct is taken apart, is bound to its name.
fn keeps_name(field: &str, value: &[Tree]) -> bool {
    let plain = without_borrow(value);
    let path =
        plain.iter().enumerate().all(|(i, tree)| if i % 2 == 0 { tree.word().is_some() } else { tree.is_sign(".") });
    is_new(value) || (path && plain.last().is_some_and(|last| last.is_word(field)))
}

/// Whether this is an array that is written here, behind a reference.
fn is_new(value: &[Tree]) -> bool {
    matches!(without_borrow(value), [array] if value.len() > 1 && array.group('[').is_some())
}

fn without_borrow(value: &[Tree]) -> &[Tree] {
    let borrows = |tree: &Tree| tree.is_sign("&") || tree.is_sign("*") || tree.is_word("mut");
    &value[value.iter().take_while(|tree| borrows(tree)).count()..]
}
