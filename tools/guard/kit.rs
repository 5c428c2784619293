//! What crates name beside each other: what reads and writes (`KIT`) where that list says, of `std` what neither reads
//! nor writes (`STD`), and no other crate that comes with the language.

use crate::program::{CRATE, DEMO, KIT, OF_IO, PRINTING, STD};
use crate::shape::is_keyword;
use crate::source::{File, Finding, Sources};
use crate::tokens::{each_list, mentions, Tree};

/// The types of the language that have functions of their own.
const TYPES: [&str; 14] =
    ["i8", "i16", "i32", "i64", "i128", "isize", "u8", "u16", "u32", "u64", "u128", "usize", "bool", "char"];

pub fn report(sources: &Sources, file: &File, found: &mut Vec<Finding>) {
    for (word, _) in KIT.iter().filter(|(_, crates)| !crates.contains(&file.krate.as_str())) {
        for line in mentions(&file.trees, word) {
            found.push(Finding::new(&file.path, line, format!("`{word}` in a crate that is not to name it")));
        }
    }
    let modules = modules(file);
    let mut named = |root: &str, next: &str, line: usize| {
        let of_std = root == "std" && (file.krate == CRATE || STD.contains(&next));
        let own = sources.files.iter().any(|file| file.krate == root) || modules.iter().any(|name| name == root);
        let kit = KIT.iter().any(|(word, _)| *word == root);
        let of_io = file.krate == DEMO && root == "io" && next != OF_IO;
        if of_io || !(of_std || own || kit || is_of_language(root)) {
            found.push(Finding::new(&file.path, line, format!("`{root}::{next}` is none of the repository's")));
        }
    };
    let prints = |path: &str| file.krate == DEMO && PRINTING.contains(&path);
    for one in file.uses.iter().filter(|one| !prints(&one.path)) {
        named(one.root(), one.path.split("::").nth(1).unwrap_or_default(), one.line);
    }
    each_path(&file.trees, &mut named);
}

/// The modules that a file declares or brings in.
fn modules(file: &File) -> Vec<String> {
    let mut names: Vec<String> = file.uses.iter().map(|one| one.name().to_string()).collect();
    each_list(&file.trees, &mut |list| {
        for pair in list.windows(2).filter(|pair| pair[0].is_word("mod")) {
            names.extend(pair[1].word().map(str::to_string));
        }
    });
    names
}

/// Whether a path may begin with this: a type, or the place that it is in.
fn is_of_language(root: &str) -> bool {
    let named = root.starts_with(|c: char| c.is_uppercase());
    named || ["crate", "self", "super"].contains(&root) || TYPES.contains(&root)
}

/// Calls a function on the first two words of every path that is no `use` item, with its line.
fn each_path(list: &[Tree], visit: &mut dyn FnMut(&str, &str, usize)) {
    let mut at = 0;
    while at < list.len() {
        if list[at].is_word("use") {
            at += list[at..].iter().position(|tree| tree.is_sign(";")).unwrap_or(0);
        }
        let goes_on = at > 1 && list[at - 1].is_sign("::") && ends_name(&list[at - 2]);
        let begins = list.get(at + 1).is_some_and(|next| next.is_sign("::")) && !goes_on;
        let words = list[at].word().zip(list.get(at + 2).and_then(Tree::word));
        if let Some((root, next)) = words.filter(|_| begins) {
            visit(root, next, list[at].line);
        }
        each_path(list[at].inner().unwrap_or_default(), visit);
        at += 1;
    }
}

fn ends_name(tree: &Tree) -> bool {
    tree.word().is_some_and(|word| !is_keyword(word)) || tree.is_sign(">")
}
