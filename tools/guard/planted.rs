//! Planted violations: edits in the form of the must-fail edits (`file:`, `old:` and `new:` lines; a path is from the
//! repository's root), applied to the sources in memory. The name of an edit begins with that of the rule that must
//! report it, with `sources`, if that is the reading of them, or with `harmless`, which none may. Where an `old:` text
//! stands in its file more than once, each place is tried by itself.

use crate::source::{folder, Texts};
use std::fs;
use std::path::Path;

pub struct Edit {
    pub name: String,
    file: String,
    pairs: Vec<(String, String)>,
}

impl Edit {
    /// The rule that must report it; none for a harmless one.
    pub fn rule(&self) -> Option<&str> {
        self.name.split('_').next().filter(|rule| *rule != "harmless")
    }

    pub fn file(&self) -> &str {
        &self.file
    }

    /// The sources with the edit made: once for each place of its first text.
    pub fn applied(&self, texts: &Texts) -> Result<Vec<Texts>, String> {
        let text = texts.get(&self.file).ok_or(format!("{}: no file {}", self.name, self.file))?;
        let (first, rest) = self.pairs.split_first().ok_or(format!("{}: no `old:` and `new:`", self.name))?;
        let mut out = Vec::new();
        for (place, _) in text.match_indices(&first.0) {
            let mut edited = format!("{}{}{}", &text[..place], first.1, &text[place + first.0.len()..]);
            for (old, new) in rest {
                if edited.matches(old.as_str()).count() != 1 {
                    return Err(format!("{}: `{old}` is not once in {}", self.name, self.file));
                }
                edited = edited.replace(old, new);
            }
            let mut all = texts.clone();
            all.insert(self.file.clone(), edited);
            out.push(all);
        }
        if out.is_empty() {
            return Err(format!("{}: `{}` is not in {}", self.name, first.0, self.file));
        }
        Ok(out)
    }
}

pub fn load(at: &Path) -> Result<Vec<Edit>, String> {
    let mut edits = Vec::new();
    for path in folder(at)?.into_iter().filter(|path| path.extension().is_some_and(|end| end == "edit")) {
        let text = fs::read_to_string(&path).map_err(|error| format!("{}: {error}", path.display()))?;
        let name = path.file_stem().unwrap_or_default().to_string_lossy().into_owned();
        let mut edit = Edit { name, file: String::new(), pairs: Vec::new() };
        let mut old = None;
        for line in text.lines() {
            if let Some(file) = line.strip_prefix("file: ") {
                edit.file = file.to_string();
            } else if let Some(text) = line.strip_prefix("old: ") {
                old = Some(text.to_string());
            } else if let Some(text) = line.strip_prefix("new: ") {
                let old = old.take().ok_or(format!("{}: `new:` without `old:`", edit.name))?;
                edit.pairs.push((old, text.to_string()));
            }
        }
        edits.push(edit);
    }
    Ok(edits)
}
