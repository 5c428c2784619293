//! Shrinking of a failing session (delta debugging): lines are dropped in chunks and singly, then fields and bytes are
//! made simpler, for as long as the session still shows a difference.

use std::collections::BTreeSet;

struct Shrinker<'a> {
    differs: &'a dyn Fn(&[u8]) -> bool,
    runs_left: usize,
    lines: Vec<Vec<u8>>,
    ended: bool,
}

/// The shortest session found, in so many runs at most, that still differs.
pub fn shrink(input: &[u8], differs: &dyn Fn(&[u8]) -> bool, most_runs: usize) -> Vec<u8> {
    let lines = crate::lines::split(input).into_iter().map(<[u8]>::to_vec).collect();
    let ended = input.is_empty() || input.ends_with(b"\n");
    let mut shrinker = Shrinker { differs, runs_left: most_runs, lines, ended };
    shrinker.end_last_line();
    while shrinker.pass() {}
    shrinker.input(&shrinker.lines)
}

impl Shrinker<'_> {
    fn input(&self, lines: &[Vec<u8>]) -> Vec<u8> {
        let mut input = lines.join(&b'\n');
        if self.ended && !lines.is_empty() {
            input.push(b'\n');
        }
        input
    }

    fn is_spent(&self) -> bool {
        self.runs_left == 0
    }

    /// Takes these lines in place of the present ones if they still differ.
    fn attempt(&mut self, lines: Vec<Vec<u8>>) -> bool {
        if self.is_spent() {
            return false;
        }
        self.runs_left -= 1;
        let taken = (self.differs)(&self.input(&lines));
        if taken {
            self.lines = lines;
        }
        taken
    }

    /// A byte 10 at the end, where the difference does not hang on its absence.
    fn end_last_line(&mut self) {
        let before = std::mem::replace(&mut self.ended, true);
        if !self.attempt(self.lines.clone()) {
            self.ended = before;
        }
    }

    /// One round of everything; says whether anything was gained.
    fn pass(&mut self) -> bool {
        let mut gained = false;
        let mut chunk = self.lines.len().div_ceil(2);
        while chunk > 0 && !self.is_spent() {
            gained |= self.drop_chunks(chunk);
            // Every small size is tried: a difference may hang on n modulo a slide.
            chunk = if chunk > 12 { chunk / 2 } else { chunk - 1 };
        }
        gained |= self.rename_queries();
        for place in 0..self.lines.len() {
            gained |= self.simplify(place);
        }
        gained && !self.is_spent()
    }

    /// Drops chunks of this many lines, the last ones first.
    fn drop_chunks(&mut self, chunk: usize) -> bool {
        let mut gained = false;
        let mut end = self.lines.len();
        while end > 0 && !self.is_spent() {
            let start = end.saturating_sub(chunk);
            let kept = [&self.lines[..start], &self.lines[end..]].concat();
            gained |= self.attempt(kept);
            end = start;
        }
        gained
    }

    /// Gives each query the least number with which the session still differs, in all its lines at once.
    fn rename_queries(&mut self) -> bool {
        let mut gained = false;
        for old in query_numbers(&self.lines) {
            let renamed = |new: u64| self.lines.iter().map(|line| rename(line, old, new)).collect();
            let candidates: Vec<Vec<Vec<u8>>> = (1..old.min(5)).map(renamed).collect();
            gained |= candidates.into_iter().any(|lines| self.attempt(lines));
        }
        gained
    }

    /// Makes one line as simple as it can be.
    fn simplify(&mut self, place: usize) -> bool {
        let mut gained = false;
        while !self.is_spent() && self.simplify_once(place) {
            gained = true;
        }
        gained
    }

    fn simplify_once(&mut self, place: usize) -> bool {
        let line = self.lines[place].clone();
        let candidates = simpler_numbers(&line).into_iter().chain(shorter(&line));
        for candidate in candidates {
            let mut lines = self.lines.clone();
            lines[place] = candidate;
            if self.attempt(lines) {
                return true;
            }
        }
        false
    }
}

/// The query number of an R or D line.
fn query_number(line: &[u8]) -> Option<u64> {
    let mut fields = line.split(|&byte| byte == b'\t');
    let names_query = matches!(fields.next(), Some(b"R" | b"D"));
    let number = std::str::from_utf8(fields.next()?).ok()?.parse().ok()?;
    names_query.then_some(number)
}

/// The different query numbers of a session.
fn query_numbers(lines: &[Vec<u8>]) -> BTreeSet<u64> {
    lines.iter().filter_map(|line| query_number(line)).collect()
}

/// The line with one query number in place of another.
fn rename(line: &[u8], old: u64, new: u64) -> Vec<u8> {
    if query_number(line) != Some(old) {
        return line.to_vec();
    }
    let mut fields: Vec<&[u8]> = line.split(|&byte| byte == b'\t').collect();
    let text = new.to_string();
    fields[1] = text.as_bytes();
    fields.join(&b'\t')
}

/// The line with one number made smaller, the greatest gains first.
fn simpler_numbers(line: &[u8]) -> Vec<Vec<u8>> {
    let fields: Vec<&[u8]> = line.split(|&byte| byte == b'\t').collect();
    let mut candidates = Vec::new();
    for (place, field) in fields.iter().enumerate() {
        let Some(number) = std::str::from_utf8(field).ok().and_then(|text| text.parse::<i64>().ok()) else {
            continue;
        };
        for smaller in smaller_numbers(number) {
            let text = smaller.to_string();
            let mut changed = fields.clone();
            changed[place] = text.as_bytes();
            candidates.push(changed.join(&b'\t'));
        }
    }
    candidates
}

/// Numbers nearer to 0, or as near but not negative; so shrinking ends.
fn smaller_numbers(number: i64) -> Vec<i64> {
    let candidates = [0, 1, number.saturating_neg(), 2, number / 8, number / 2, number - number.signum()];
    let is_smaller = |&other: &i64| {
        let (near, far) = (other.unsigned_abs(), number.unsigned_abs());
        near < far || (near == far && other > number)
    };
    candidates.into_iter().filter(is_smaller).collect()
}

/// The line with bytes left out: in halves, quarters and so on, down to one.
fn shorter(line: &[u8]) -> Vec<Vec<u8>> {
    let mut candidates = Vec::new();
    let mut chunk = line.len().div_ceil(2);
    while chunk > 0 && line.len() / chunk <= 128 {
        let starts = (0..line.len()).step_by(chunk);
        candidates.extend(starts.map(|start| [&line[..start], &line[line.len().min(start + chunk)..]].concat()));
        chunk /= 2;
    }
    candidates
}
