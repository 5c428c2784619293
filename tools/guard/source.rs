//! The sources: every file of crates/*/src, its functions, the types that it declares and what it brings in by `use`.

use crate::brought::{brought, Brought};
use crate::derives::{self, Derived};
use crate::tokens::{begins, each_list, read_all, split, Tree};
use crate::{erased, forms};
use std::collections::BTreeMap;
use std::fs;
use std::path::{Path, PathBuf};

/// What a rule found.
#[derive(Clone, Debug)]
pub struct Finding {
    pub file: String,
    pub line: usize,
    pub what: String,
}

impl Finding {
    pub fn new(file: &str, line: usize, what: impl Into<String>) -> Finding {
        Finding { file: file.to_string(), line, what: what.into() }
    }
}

/// From where a function can be called.
#[derive(Clone, Copy, Debug, PartialEq)]
pub enum Open {
    Module,
    Crate,
    Everywhere,
}

#[derive(Debug)]
pub struct Param {
    pub name: String,
    pub kind: Vec<Tree>,
}

#[derive(Debug)]
pub struct Function {
    pub krate: String,
    pub file: String,
    pub line: usize,
    /// The type of the `impl` that it stands in.
    pub owner: Option<String>,
    pub name: String,
    pub open: Open,
    /// Its type parameters.
    pub generics: Vec<String>,
    /// Whether it is a method, which takes `self`.
    pub takes_self: bool,
    /// Without `self`.
    pub params: Vec<Param>,
    pub body: Vec<Tree>,
}

impl Function {
    /// Its name, with that of its type: `Deque::close`.
    pub fn title(&self) -> String {
        self.owner.as_ref().map_or(self.name.clone(), |owner| format!("{owner}::{}", self.name))
    }

    /// Whether it is this one, as `deque Deque::close`.
    pub fn is(&self, wanted: &str) -> bool {
        let (krate, title) = wanted.split_once(' ').unwrap_or_default();
        let (owner, name) = title.split_once("::").map_or((None, title), |(owner, name)| (Some(owner), name));
        self.krate == krate && self.name == name && self.owner.as_deref() == owner
    }

    pub fn finding(&self, line: usize, what: impl Into<String>) -> Finding {
        Finding::new(&self.file, line, what)
    }
}

#[derive(Debug)]
pub struct File {
    pub krate: String,
    pub path: String,
    pub trees: Vec<Tree>,
    /// What it brings in by `use`.
    pub uses: Vec<Brought>,
}

/// A struct or an enum.
#[derive(Debug)]
pub struct Declared {
    pub krate: String,
    pub name: String,
    /// All that stands behind its name.
    pub body: Vec<Tree>,
}

#[derive(Debug, Default)]
pub struct Sources {
    pub files: Vec<File>,
    pub functions: Vec<Function>,
    pub declared: Vec<Declared>,
    pub derived: Vec<Derived>,
    /// Names of structs and enums, and of those cases of enums that have fields.
    pub types: Vec<String>,
    /// `i32`, and the names that stand for it.
    pub i32s: Vec<String>,
}

/// The texts of all sources, by their paths from the repository's root.
pub type Texts = BTreeMap<String, String>;

pub fn load(root: &Path) -> Result<Texts, String> {
    let mut texts = Texts::new();
    let crates = folder(&root.join("crates"))?;
    for source in crates.into_iter().map(|krate| krate.join("src")).filter(|source| source.is_dir()) {
        load_folder(root, &source, &mut texts)?;
    }
    Ok(texts)
}

fn load_folder(root: &Path, at: &Path, texts: &mut Texts) -> Result<(), String> {
    for path in folder(at)? {
        if path.is_dir() {
            load_folder(root, &path, texts)?;
        } else if path.extension().is_some_and(|end| end == "rt") {
            let text = fs::read_to_string(&path).map_err(|error| format!("{}: {error}", path.display()))?;
            let name = path.strip_prefix(root).unwrap_or(&path).display().to_string();
            texts.insert(name, text);
        }
    }
    Ok(())
}

/// The paths in a folder, in order.
pub fn folder(at: &Path) -> Result<Vec<PathBuf>, String> {
    let entries = fs::read_dir(at).map_err(|error| format!("{}: {error}", at.display()))?;
    let mut paths: Vec<PathBuf> = entries.flatten().map(|entry| entry.path()).collect();
    paths.sort();
    Ok(paths)
}

impl Sources {
    /// Reads the texts. What cannot be read is a finding: nothing is passed over.
    pub fn of(texts: &Texts) -> Result<Sources, Finding> {
        let mut sources = Sources { i32s: vec!["i32".to_string()], ..Sources::default() };
        for (path, text) in texts {
            let all = read_all(text).map_err(|line| {
                Finding::new(
                    path,
                    line,
                    "this cannot be read: brackets do not match, or a string is of a kind that is not known",
                )
            })?;
            let trees = erased::code(&all);
            if let Some((line, what)) = forms::in_items(&trees, '{') {
                return Err(Finding::new(path, line, what));
            }
            sources.derived.extend(derives::of_file(path, &all)?);
            let krate = path.split('/').nth(1).unwrap_or_default().to_string();
            let mut file = File { krate, path: path.clone(), trees: Vec::new(), uses: Vec::new() };
            sources.items(&trees, None, &mut file)?;
            file.trees = trees;
            sources.files.push(file);
        }
        sources.name_i32s();
        match derives::of_a_holder(&sources) {
            Some(finding) => Err(finding),
            None => Ok(sources),
        }
    }

    /// The items of a module or of an `impl`.
    fn items(&mut self, trees: &[Tree], owner: Option<&str>, file: &mut File) -> Result<(), Finding> {
        let mut at = 0;
        while at < trees.len() {
            let start = at;
            while trees[at..].first().is_some_and(is_before_item) {
                at += 1;
            }
            at += usize::from(begins(&trees[at..], "const fn"));
            let line = trees[start].line;
            let unknown = || Finding::new(&file.path, line, "no item that this guard knows begins here");
            let known = trees.get(at).and_then(Tree::word).zip(trees.get(at + 1));
            let (keyword, next) = known.ok_or_else(unknown)?;
            at = match keyword {
                "fn" => self.function(trees, start, at, owner, file)?,
                "impl" | "mod" => {
                    let end = end_of_item(trees, at).ok_or_else(unknown)?;
                    let name = if keyword == "impl" { Some(implemented(&trees[at..end], file)?) } else { owner };
                    if let Some(inner) = trees[end].group('{') {
                        self.items(inner, name, file)?;
                    }
                    end + 1
                }
                "struct" | "enum" | "const" | "type" | "use" => {
                    let end = end_of_item(trees, at).ok_or_else(unknown)?;
                    if keyword == "struct" || keyword == "enum" {
                        self.declare(keyword, next.word().ok_or_else(unknown)?, &trees[at + 2..=end], file);
                    }
                    if keyword == "use" {
                        brought(&trees[at + 1..end], &[], &mut file.uses);
                    }
                    end + 1
                }
                _ => return Err(unknown()),
            };
        }
        Ok(())
    }

    fn declare(&mut self, keyword: &str, name: &str, body: &[Tree], file: &File) {
        self.types.push(name.to_string());
        let cases = body.last().and_then(|last| last.group('{')).filter(|_| keyword == "enum");
        let with_fields = |case: &&[Tree]| case.get(1).is_some_and(|next| next.group('{').is_some());
        let named = split(cases.unwrap_or_default(), ",").into_iter().filter(with_fields);
        self.types.extend(named.filter_map(|case| case[0].word()).map(str::to_string));
        self.declared.push(Declared { krate: file.krate.clone(), name: name.to_string(), body: body.to_vec() });
    }

    /// The function whose `fn` stands at `at`. Returned is where the next item begins.
    fn function(
        &mut self,
        trees: &[Tree],
        start: usize,
        at: usize,
        owner: Option<&str>,
        file: &File,
    ) -> Result<usize, Finding> {
        let unknown = || Finding::new(&file.path, trees[at].line, "a function that this guard cannot read");
        let place = |from: usize, open| trees[from..].iter().position(|tree| tree.group(open).is_some());
        let name = trees[at + 1].word().ok_or_else(unknown)?.to_string();
        let params = at + place(at, '(').ok_or_else(unknown)?;
        let end = params + place(params, '{').ok_or_else(unknown)?;
        if trees[at + 1..end].iter().any(|tree| tree.is_sign(";") || tree.is_word("fn")) {
            return Err(unknown());
        }
        let body = trees[end].group('{').unwrap_or_default().to_vec();
        if let Some((line, what)) = forms::in_body(&body) {
            return Err(Finding::new(&file.path, line, what));
        }
        let open = match trees[start..at].iter().position(|tree| tree.is_word("pub")) {
            None => Open::Module,
            Some(place) if trees[start + place + 1].group('(').is_some() => Open::Crate,
            Some(_) => Open::Everywhere,
        };
        let generics = forms::parameters(trees, at + 2).unwrap_or_default();
        let generics = split(generics, ",").into_iter().filter_map(forms::type_parameter).map(str::to_string);
        let (mut read, mut takes_self) = (Vec::new(), false);
        for part in split_types(trees[params].group('(').unwrap_or_default()) {
            match param(part) {
                Some(param) => read.push(param),
                None if is_self(part) => takes_self = true,
                None => return Err(Finding::new(&file.path, part[0].line, "a parameter that this guard cannot read")),
            }
        }
        self.functions.push(Function {
            krate: file.krate.clone(),
            file: file.path.clone(),
            line: trees[at].line,
            owner: owner.map(str::to_string),
            name,
            open,
            generics: generics.collect(),
            takes_self,
            params: read,
            body,
        });
        Ok(end + 1)
    }

    /// Names that are declared to stand for `i32`, also through another such name.
    fn name_i32s(&mut self) {
        let mut declared = Vec::new();
        for file in &self.files {
            each_list(&file.trees, &mut |list| {
                for at in 0..list.len() {
                    if list[at].is_word("type") && list.len() > at + 3 && list[at + 2].is_sign("=") {
                        declared.push((list[at + 1].word(), path_end(&list[at + 3..])));
                    }
                }
            });
        }
        for _ in 0..declared.len() {
            for (name, meaning) in &declared {
                let (Some(name), Some(meaning)) = (name, meaning) else { continue };
                if self.i32s.iter().any(|known| known == meaning) && !self.i32s.iter().any(|known| known == name) {
                    self.i32s.push(name.to_string());
                }
            }
        }
    }

    pub fn is_type(&self, word: &str) -> bool {
        self.types.iter().any(|name| name == word)
    }

    /// Whether a bracketed group is a slice or an array of `i32`: `[i32]`, `[i32; 3]`, `[0i32; 3]`. One of what a type
    /// parameter stands for may be one.
    pub fn is_i32_table(&self, tree: &Tree) -> bool {
        let Some(element) = tree.group('[').and_then(path_end) else { return false };
        let number = element.starts_with(|c: char| c.is_ascii_digit()) && element.ends_with("i32");
        let stands_for = self.functions.iter().any(|function| function.generics.iter().any(|name| name == element));
        number || stands_for || self.i32s.iter().any(|name| name == element)
    }
}

/// The last word of a path that ends with the list or with a semicolon.
fn path_end(list: &[Tree]) -> Option<&str> {
    let path = list.split(|tree| tree.is_sign(";")).next()?;
    let plain = path.iter().all(|tree| tree.word().is_some() || tree.is_sign("::"));
    path.last().filter(|_| plain)?.word()
}

/// What may stand before an item's keyword.
fn is_before_item(tree: &Tree) -> bool {
    tree.group('(').is_some() || tree.word().is_some_and(|word| ["pub", "extern", "0"].contains(&word))
}

/// The place of the sign or of the braces with which an item ends.
fn end_of_item(trees: &[Tree], at: usize) -> Option<usize> {
    let ends = |tree: &Tree| tree.is_sign(";") || tree.group('{').is_some();
    let braces_go_on = trees[at].is_word("use") || trees[at].is_word("const");
    let ends_late = |tree: &Tree| tree.is_sign(";");
    let place = if braces_go_on { trees[at..].iter().position(ends_late) } else { trees[at..].iter().position(ends) };
    place.map(|place| at + place)
}

/// The traits that a type of the repository may have. What they are asked by is a call by name, but for `into` and
/// `try_into` (`follow.rs`).
const TRAITS: [&str; 6] = ["From", "TryFrom", "Iterator", "Default", "Display", "Error"];

/// The type for which an `impl` stands, from its keyword up to its braces.
fn implemented<'a>(head: &'a [Tree], file: &File) -> Result<&'a str, Finding> {
    let unknown = |what: &str| Finding::new(&file.path, head[0].line, what);
    let after = forms::parameters(head, 1).map_or(1, |parameters| parameters.len() + 3);
    let mut parts = head[after..].split(|tree| tree.is_word("for")).collect::<Vec<_>>();
    let named = parts.pop().and_then(path_start).ok_or_else(|| unknown("an `impl` for a type without a name"))?;
    match parts[..] {
        [] => Ok(named),
        [of] if path_start(of).is_some_and(|name| TRAITS.contains(&name)) => Ok(named),
        _ => Err(unknown("an `impl` of a trait that this guard does not know")),
    }
}

/// The last word of a path that begins here, before what it is given in `<..>`.
fn path_start(list: &[Tree]) -> Option<&str> {
    let path = list.split(|tree| tree.is_sign("<")).next()?;
    let plain = path.iter().all(|tree| tree.word().is_some() || tree.is_sign("::"));
    path.last().filter(|_| plain)?.word()
}

/// The parts of a list between commas, but for those in `<..>`.
fn split_types(list: &[Tree]) -> Vec<&[Tree]> {
    let (mut parts, mut start, mut depth) = (Vec::new(), 0, 0);
    for at in 0..list.len() {
        depth += match list[at].sign() {
            Some("<") => 1,
            Some(">") => -1,
            Some(">>") => -2,
            _ => 0,
        };
        if list[at].is_sign(",") && depth == 0 {
            parts.push(&list[start..at]);
            start = at + 1;
        }
    }
    if start < list.len() {
        parts.push(&list[start..]);
    }
    parts
}

/// Whether a parameter is `self`, also behind a reference.
fn is_self(part: &[Tree]) -> bool {
    let lifetime = |i: usize| i > 0 && part[i - 1].is_sign("'");
    let before = |i: usize| part[i].is_sign("&") || part[i].is_sign("'") || part[i].is_word("mut") || lifetime(i);
    (0..part.len()).find(|&i| !before(i)).is_some_and(|i| part[i].is_word("self") && i + 1 == part.len())
}

/// A parameter with its type; `self` has none.
fn param(part: &[Tree]) -> Option<Param> {
    let part = if begins(part, "mut") { &part[1..] } else { part };
    let name = part.first()?.word()?.to_string();
    let kind = if part.get(1)?.is_sign(":") { part[2..].to_vec() } else { return None };
    Some(Param { name, kind })
}
