// The session program once more, in plain Rust: what the proved program is timed against. It keeps its state to itself,
// so it never has to judge whether that state is sound. Without an argument it is the session program; `generate NAME`
// and `measure PROGRAM` serve the benchmark (runs.rs).
mod runs;
use std::io::{self, BufRead, Read, Write};
use std::process::exit;

const CAPACITY: usize = 4096; // entries of a ring
const CHUNK: usize = 65_536; // bytes a read or a write
const LONGEST: usize = 64; // bytes of a line
const ROOM: usize = 32 * 64; // more bytes than the answers of one reading take

// A ring of entries by start. `head` and `tail` only ever count; the place of an entry is its count modulo the
// capacity.
struct Ring<T> {
    entries: Box<[(u32, T); CAPACITY]>,
    head: usize,
    tail: usize,
}

impl<T: Copy + Default> Ring<T> {
    fn new() -> Self {
        Ring { entries: Box::new([(0, T::default()); CAPACITY]), head: 0, tail: 0 }
    }

    fn at(&self, i: usize) -> (u32, T) {
        self.entries[i % CAPACITY]
    }

    fn push(&mut self, start: u32, value: T) {
        self.entries[self.tail % CAPACITY] = (start, value);
        self.tail += 1;
    }

    // Drops the oldest entries that start before the horizon.
    fn evict(&mut self, horizon: u32) {
        while self.head < self.tail && self.at(self.head).0 < horizon {
            self.head += 1
        }
    }

    // The value of the first entry that starts at `from` or later, by binary search. A due query's window always has
    // one.
    fn first_from(&self, from: u32) -> T {
        let (mut low, mut high) = (self.head, self.tail);
        while low < high {
            let middle = low + (high - low) / 2;
            if self.at(middle).0 < from {
                low = middle + 1
            } else {
                high = middle
            }
        }
        self.at(low).1
    }
}

// A monotonic deque of maxima, and its count of comparisons. For minima the complement !v is stored, which reverses the
// order.
struct Deque {
    ring: Ring<i32>,
    comparisons: u64,
}

impl Deque {
    fn close(&mut self, horizon: u32, start: u32, value: i32) {
        let ring = &mut self.ring;
        ring.evict(horizon);
        while ring.head < ring.tail {
            self.comparisons += 1;
            if ring.at(ring.tail - 1).1 > value {
                break;
            }
            ring.tail -= 1;
        }
        ring.push(start, value);
    }
}

// A registered query, with where its next edges are: it is due at the first and a window of it begins at the second.
struct Query {
    number: u32,
    kind: u32,
    range: u32,
    slide: u32,
    origin: u32,
    due: u64,
    begin: u64,
}

struct Engine {
    n: u32,
    closed: u32,
    queries: Vec<Query>,
    next_edge: u64, // the least `due` or `begin` of all queries
    start: u32,     // the open partial: its start, sum, maximum and minimum
    sum: i64,
    max: i32,
    min: i32,
    total: i64,      // the sum of all closed partials
    sums: Ring<i64>, // for each closed partial the sum of those before it
    maxima: Deque,
    minima: Deque,
}

impl Engine {
    fn new() -> Self {
        let deque = || Deque { ring: Ring::new(), comparisons: 0 };
        Engine {
            n: 0,
            closed: 0,
            queries: Vec::with_capacity(32),
            next_edge: u64::MAX,
            start: 0,
            sum: 0,
            max: i32::MIN,
            min: i32::MAX,
            total: 0,
            sums: Ring::new(),
            maxima: deque(),
            minima: deque(),
        }
    }

    // An empty partial opens.
    fn open(&mut self) {
        (self.start, self.sum, self.max, self.min) = (self.n, 0, i32::MIN, i32::MAX);
    }

    // The open partial closes; what starts before the horizon is evicted first.
    fn close(&mut self) {
        let n = self.n;
        let horizon = self.queries.iter().map(|q| q.origin.max(n.saturating_sub(q.range))).min().unwrap_or(n);
        self.sums.evict(horizon);
        self.sums.push(self.start, self.total);
        self.total += self.sum;
        self.maxima.close(horizon, self.start, self.max);
        self.minima.close(horizon, self.start, !self.min);
        self.closed += 1;
        self.open();
    }

    fn register(&mut self, [number, kind, range, slide]: [u32; 4]) -> Result<(), u64> {
        if !(1..=65_535).contains(&number) {
            return Err(3);
        }
        if !(1..=4).contains(&kind) {
            return Err(4);
        }
        if !(1..=4096).contains(&range) {
            return Err(5);
        }
        if !(1..=4096).contains(&slide) {
            return Err(6);
        }
        if self.queries.iter().any(|q| q.number == number) {
            return Err(7);
        }
        if self.queries.len() == 32 {
            return Err(8);
        }
        if !self.queries.is_empty() && self.start < self.n {
            self.close()
        }
        self.open();
        let origin = self.n;
        let (due, begin) = (origin as u64 + slide as u64, origin as u64 + (slide - range % slide) as u64);
        self.next_edge = self.next_edge.min(due).min(begin);
        self.queries.push(Query { number, kind, range, slide, origin, due, begin });
        Ok(())
    }

    fn withdraw(&mut self, number: u32) -> Result<(), u64> {
        let place = self.queries.iter().position(|q| q.number == number).ok_or(9u64)?;
        self.queries.remove(place);
        self.next_edge = self.queries.iter().map(|q| q.due.min(q.begin)).min().unwrap_or(u64::MAX);
        Ok(())
    }

    fn reading(&mut self, value: i32, out: &mut Out) -> Result<(), u64> {
        if self.n == u32::MAX {
            return Err(10);
        }
        self.n += 1;
        self.sum += value as i64;
        self.max = self.max.max(value);
        self.min = self.min.min(value);
        if self.n as u64 == self.next_edge {
            self.edge(out)
        }
        Ok(())
    }

    // At an edge the open partial closes, and the due queries are answered.
    fn edge(&mut self, out: &mut Out) {
        self.close();
        let (n, mut next) = (self.n, u64::MAX);
        for q in &mut self.queries {
            if q.begin == n as u64 {
                q.begin += q.slide as u64
            }
            if q.due == n as u64 {
                q.due += q.slide as u64;
                let from = q.origin.max(n.saturating_sub(q.range));
                let value = match q.kind {
                    1 => self.total - self.sums.first_from(from),
                    2 => (n - from) as i64,
                    3 => self.maxima.ring.first_from(from) as i64,
                    _ => !self.minima.ring.first_from(from) as i64,
                };
                out.line(b'A', &[n as u64, q.number as u64, q.kind as u64, (n - from) as u64], Some(value));
            }
            next = next.min(q.due).min(q.begin);
        }
        self.next_edge = next;
    }
}

// A number as written: digits without a leading zero, or 0; at most `most`.
fn number(field: &[u8], most: u64) -> Result<u64, u64> {
    if field.is_empty() || field[0] == b'0' && field.len() > 1 {
        return Err(14);
    }
    let mut value = 0u64;
    for b in field {
        let digit = b.wrapping_sub(b'0');
        if digit > 9 {
            return Err(14);
        }
        value = value.wrapping_mul(10).wrapping_add(digit as u64);
    }
    if field.len() > 10 || value > most {
        Err(15)
    } else {
        Ok(value)
    }
}

fn signed(field: &[u8]) -> Result<i32, u64> {
    match field.strip_prefix(b"-") {
        None => number(field, i32::MAX as u64).map(|v| v as i32),
        Some(rest) => number(rest, 1 << 31).and_then(|v| if v == 0 { Err(14) } else { Ok((v as i32).wrapping_neg()) }),
    }
}

// One line without its end: it is parsed and its call is made.
fn obey(line: &[u8], engine: &mut Engine, out: &mut Out) -> Result<(), u64> {
    let tabs = |bytes: &[u8]| bytes.iter().filter(|b| **b == b'\t').count();
    let unsigned = |field: &[u8]| number(field, u32::MAX as u64).map(|v| v as u32);
    if line.len() > LONGEST {
        return Err(12);
    }
    match line {
        [b'V', b'\t', rest @ ..] => match signed(rest) {
            Ok(value) => engine.reading(value, out),
            Err(refusal) => Err(if tabs(rest) == 0 { refusal } else { 13 }),
        },
        [b'D', b'\t', rest @ ..] if tabs(rest) == 0 => engine.withdraw(unsigned(rest)?),
        [b'R', b'\t', rest @ ..] if tabs(rest) == 3 => {
            let mut fields = [0; 4];
            for (field, bytes) in fields.iter_mut().zip(rest.split(|b| *b == b'\t')) {
                *field = unsigned(bytes)?
            }
            engine.register(fields)
        }
        _ => Err(13),
    }
}

// What is printed, on its way to standard output. Room for the answers of one reading is made before each line.
struct Out {
    bytes: Box<[u8; CHUNK]>,
    at: usize,
}

// The digits of 00 to 99.
const PAIRS: &[u8; 200] = b"\
    0001020304050607080910111213141516171819202122232425262728293031323334353637383940414243444546474849\
    5051525354555657585960616263646566676869707172737475767778798081828384858687888990919293949596979899";

impl Out {
    fn byte(&mut self, b: u8) {
        self.bytes[self.at] = b;
        self.at += 1;
    }

    fn digits(&mut self, mut n: u64) {
        if n < 10 {
            return self.byte(b'0' + n as u8);
        }
        let mut i = self.at + n.ilog10() as usize + 1;
        self.at = i;
        while n >= 10 {
            i -= 2;
            self.bytes[i..i + 2].copy_from_slice(&PAIRS[(n % 100) as usize * 2..][..2]);
            n /= 100;
        }
        if n > 0 {
            self.bytes[i - 1] = b'0' + n as u8
        }
    }

    // A letter, the numbers, and if there is one a signed number at the end.
    fn line(&mut self, letter: u8, numbers: &[u64], last: Option<i64>) {
        self.byte(letter);
        for n in numbers {
            self.byte(b'\t');
            self.digits(*n)
        }
        if let Some(value) = last {
            self.byte(b'\t');
            if value < 0 {
                self.byte(b'-')
            }
            self.digits(value.unsigned_abs());
        }
        self.byte(b'\n');
    }

    fn flush(&mut self) {
        if io::stdout().write_all(&self.bytes[..self.at]).is_err() {
            exit(1)
        }
        self.at = 0;
    }
}

// Standard input to its end. Of a line that goes on after a chunk 65 bytes are kept at most: they tell that it is too
// long.
fn session() -> io::Result<()> {
    let (mut engine, mut out) = (Engine::new(), Out { bytes: Box::new([0; CHUNK]), at: 0 });
    let mut buffer = vec![0; LONGEST + 1 + CHUNK];
    let (mut kept, mut lines, mut input) = (0, 0u64, io::stdin().lock());
    let mut next = |line: &[u8], out: &mut Out| {
        lines += 1;
        if out.at > CHUNK - ROOM {
            out.flush()
        }
        if let Err(refusal) = obey(line, &mut engine, out) {
            out.line(b'E', &[lines, refusal], None)
        }
    };
    loop {
        let got = input.read(&mut buffer[kept..kept + CHUNK])?;
        if got == 0 {
            break;
        }
        let (all, mut from) = (kept + got, 0);
        while from < all {
            let taken = (&buffer[from..all]).skip_until(b'\n')?; // a search by memchr
            if buffer[from + taken - 1] != b'\n' {
                break;
            }
            next(&buffer[from..from + taken - 1], &mut out);
            from += taken;
        }
        out.flush();
        kept = (all - from).min(LONGEST + 1);
        buffer.copy_within(from..from + kept, 0);
    }
    if kept > 0 {
        next(&buffer[..kept], &mut out)
    }
    out.line(
        b'T',
        &[engine.n as u64, engine.closed as u64, engine.maxima.comparisons, engine.minima.comparisons],
        None,
    );
    out.flush();
    Ok(())
}

fn main() -> io::Result<()> {
    match &std::env::args().skip(1).collect::<Vec<String>>()[..] {
        [] => session(),
        [word, name] if word == "generate" => runs::generate(name),
        [word, program] if word == "measure" => runs::measure(program),
        _ => exit(2),
    }
}
