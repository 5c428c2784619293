//! What `use` items bring in: each name by its whole path, also those of a group.

use crate::tokens::{split, Kind, Tree};

#[derive(Clone, Debug)]
pub struct Brought {
    pub line: usize,
    /// `engine::calls::reading`. A path that ends with `*` brings in all that stands there.
    pub path: String,
    /// Whether it gets another name, by `as`.
    pub renamed: bool,
}

impl Brought {
    /// The first word of the path.
    pub fn root(&self) -> &str {
        self.path.split("::").next().unwrap_or_default()
    }

    /// The last one.
    pub fn name(&self) -> &str {
        self.path.rsplit("::").next().unwrap_or_default()
    }
}

/// What an item brings in, from its first word on. `before` is the path that stands before a group.
pub fn brought(item: &[Tree], before: &[&str], out: &mut Vec<Brought>) {
    for part in split(item, ",") {
        let mut path = before.to_vec();
        let mut renamed = false;
        let mut group = None;
        for tree in part {
            match &tree.kind {
                Kind::Word(word) if word == "as" => renamed = true,
                Kind::Word(word) if !renamed && (word != "self" || path.is_empty()) => path.push(word),
                Kind::Sign("*") => path.push("*"),
                Kind::Group(_, inner) => group = Some(inner),
                _ => {}
            }
        }
        match group {
            Some(inner) => brought(inner, &path, out),
            None => {
                out.push(Brought { line: part.first().map_or(0, |tree| tree.line), path: path.join("::"), renamed })
            }
        }
    }
}
