//! A source as a tree of tokens: words, signs and bracketed groups, each with its line. Comments, strings and what is
//! no code (`erased.rs`) are left out.

use crate::erased;

#[derive(Clone, Debug, PartialEq)]
pub enum Kind {
    Word(String),
    Sign(&'static str),
    /// What stands in brackets, by the opening one.
    Group(char, Vec<Tree>),
}

#[derive(Clone, Debug, PartialEq)]
pub struct Tree {
    pub line: usize,
    pub kind: Kind,
}

/// The longer ones first, since the first that fits is taken.
const SIGNS: [&str; 44] = [
    "<<=", ">>=", "..=", "::", "->", "=>", "==", "!=", "<=", ">=", "&&", "||", "+=", "-=", "*=", "/=", "%=", "&=",
    "|=", "^=", "<<", ">>", "..", "<", ">", "=", "!", "+", "-", "*", "/", "%", "&", "|", "^", ".", ",", ";", ":", "#",
    "'", "@", "?", "$",
];

impl Tree {
    pub fn word(&self) -> Option<&str> {
        match &self.kind {
            Kind::Word(word) => Some(word),
            _ => None,
        }
    }

    pub fn is_word(&self, word: &str) -> bool {
        self.word() == Some(word)
    }

    pub fn sign(&self) -> Option<&'static str> {
        match self.kind {
            Kind::Sign(sign) => Some(sign),
            _ => None,
        }
    }

    pub fn is_sign(&self, sign: &str) -> bool {
        self.sign() == Some(sign)
    }

    /// What stands in it, if it is a group with this opening bracket.
    pub fn group(&self, open: char) -> Option<&[Tree]> {
        match &self.kind {
            Kind::Group(bracket, inner) if *bracket == open => Some(inner),
            _ => None,
        }
    }

    pub fn inner(&self) -> Option<&[Tree]> {
        match &self.kind {
            Kind::Group(_, inner) => Some(inner),
            _ => None,
        }
    }
}

/// The tree of a text, or the line at which it cannot be read.
pub fn read(text: &str) -> Result<Vec<Tree>, usize> {
    Ok(erased::code(&read_all(text)?))
}

/// The same, with what is no code.
pub fn read_all(text: &str) -> Result<Vec<Tree>, usize> {
    let mut reader = Reader { chars: text.chars().collect(), at: 0, line: 1 };
    reader.trees(None)
}

struct Reader {
    chars: Vec<char>,
    at: usize,
    line: usize,
}

impl Reader {
    fn peek(&self, ahead: usize) -> char {
        self.chars.get(self.at + ahead).copied().unwrap_or('\0')
    }

    fn step(&mut self) {
        if self.peek(0) == '\n' {
            self.line += 1;
        }
        self.at += 1;
    }

    fn starts_with(&self, text: &str) -> bool {
        text.chars().enumerate().all(|(i, c)| self.peek(i) == c)
    }

    /// The trees up to a closing bracket, or to the end of the text.
    fn trees(&mut self, close: Option<char>) -> Result<Vec<Tree>, usize> {
        let mut out = Vec::new();
        loop {
            self.skip_blank();
            let (line, c) = (self.line, self.peek(0));
            if self.at >= self.chars.len() {
                return if close.is_none() { Ok(out) } else { Err(line) };
            }
            let kind = match c {
                ')' | ']' | '}' => {
                    self.step();
                    return if close == Some(c) { Ok(out) } else { Err(line) };
                }
                '(' | '[' | '{' => {
                    self.step();
                    let end = if c == '(' {
                        ')'
                    } else if c == '[' {
                        ']'
                    } else {
                        '}'
                    };
                    Kind::Group(c, self.trees(Some(end))?)
                }
                '"' => self.literal('"'),
                'b' if self.peek(1) == '"' || self.peek(1) == '\'' => {
                    self.step();
                    self.literal(self.peek(0))
                }
                '\'' if self.peek(1) == '\\' || self.peek(2) == '\'' => self.literal('\''),
                _ if c.is_alphanumeric() || c == '_' => Kind::Word(self.take_word()?),
                _ => self.take_sign(),
            };
            out.push(Tree { line, kind });
        }
    }

    /// White space and comments.
    fn skip_blank(&mut self) {
        loop {
            if self.peek(0).is_whitespace() {
                self.step();
            } else if self.starts_with("//") {
                while self.at < self.chars.len() && self.peek(0) != '\n' {
                    self.step();
                }
            } else if self.starts_with("/*") {
                self.skip_block_comment();
            } else {
                return;
            }
        }
    }

    fn skip_block_comment(&mut self) {
        let mut depth = 0;
        while self.at < self.chars.len() {
            let change = if self.starts_with("/*") {
                1
            } else if self.starts_with("*/") {
                -1
            } else {
                0
            };
            depth += change;
            self.step();
            if change != 0 {
                self.step();
            }
            if depth == 0 {
                return;
            }
        }
    }

    /// A string or a byte, of which nothing is kept.
    fn literal(&mut self, end: char) -> Kind {
        self.step();
        while self.at < self.chars.len() && self.peek(0) != end {
            if self.peek(0) == '\\' {
                self.step();
            }
            self.step();
        }
        self.step();
        Kind::Word("0".to_string())
    }

    /// A word. One that begins a string, as in `r"`, is not known.
    fn take_word(&mut self) -> Result<String, usize> {
        let mut word = String::new();
        while self.peek(0).is_alphanumeric() || self.peek(0) == '_' {
            word.push(self.peek(0));
            self.step();
        }
        if ['"', '#'].contains(&self.peek(0)) {
            return Err(self.line);
        }
        Ok(word)
    }

    /// A sign; those of the proof language, which stand in contracts alone, are one and the same.
    fn take_sign(&mut self) -> Kind {
        let sign = SIGNS.into_iter().find(|sign| self.starts_with(sign)).unwrap_or("$");
        for _ in sign.chars() {
            self.step();
        }
        Kind::Sign(sign)
    }
}

/// The parts of a list between signs of this kind; a last part with nothing in it is none.
pub fn split<'a>(trees: &'a [Tree], sign: &str) -> Vec<&'a [Tree]> {
    let mut parts: Vec<&[Tree]> = trees.split(|tree| tree.is_sign(sign)).collect();
    if parts.last().is_some_and(|part| part.is_empty()) {
        parts.pop();
    }
    parts
}

/// The lines at which a word stands in these trees.
pub fn mentions(trees: &[Tree], word: &str) -> Vec<usize> {
    let mut lines = Vec::new();
    each_list(trees, &mut |list| lines.extend(list.iter().filter(|tree| tree.is_word(word)).map(|tree| tree.line)));
    lines
}

/// Whether trees are written just so. A comma before a closing bracket is as good as none.
pub fn is_written(trees: &[Tree], text: &str) -> bool {
    read(text).is_ok_and(|wanted| same(trees, &wanted))
}

fn same(these: &[Tree], those: &[Tree]) -> bool {
    let (these, those) = (without_last_comma(these), without_last_comma(those));
    these.len() == those.len()
        && these.iter().zip(those).all(|(this, that)| match (&this.kind, &that.kind) {
            (Kind::Group(open, inner), Kind::Group(other, wanted)) => open == other && same(inner, wanted),
            (this, that) => this == that,
        })
}

fn without_last_comma(trees: &[Tree]) -> &[Tree] {
    match trees {
        [all @ .., last] if last.is_sign(",") => all,
        _ => trees,
    }
}

/// Calls a function on a list of trees and on every list below it.
pub fn each_list<'a>(trees: &'a [Tree], visit: &mut dyn FnMut(&'a [Tree])) {
    visit(trees);
    for tree in trees {
        if let Some(inner) = tree.inner() {
            each_list(inner, visit);
        }
    }
}

/// Calls a function on every word of these trees with its line, in the order of the text.
pub fn each_word(trees: &[Tree], visit: &mut dyn FnMut(&str, usize)) {
    for tree in trees {
        if let Some(word) = tree.word() {
            visit(word, tree.line);
        }
        each_word(tree.inner().unwrap_or_default(), visit);
    }
}

/// Whether a list begins with these: words and signs as they are written, `(`, `[` and `{` for a group.
pub fn begins(trees: &[Tree], pattern: &str) -> bool {
    let wanted: Vec<&str> = pattern.split(' ').collect();
    wanted.len() <= trees.len()
        && wanted.iter().zip(trees).all(|(wanted, tree)| match &tree.kind {
            Kind::Word(word) => word == wanted,
            Kind::Sign(sign) => sign == wanted,
            Kind::Group(open, _) => *wanted == open.to_string(),
        })
}
