//! The session program as it is to be: what each function of crates/pchelodar/src/main.rt calls, statements that are
//! written just so, and where verdicts, and what reads and writes, are named. What `after_write` and `after_feed`
//! decide is proved.

pub const CRATE: &str = "pchelodar";
pub const FILE: &str = "crates/pchelodar/src/main.rt";

/// Its functions, each of them once and no other one.
pub const FUNCTIONS: [&str; 12] = [
    "Error::fmt",
    "after_write",
    "after_feed",
    "Memory::printed",
    "Memory::write",
    "Memory::feed",
    "Memory::feed_chunk",
    "Memory::after_read",
    "Memory::read_all",
    "Memory::conclude",
    "Memory::run",
    "main",
];

/// What a function calls, by its path, and how often it stands there; macros, its loops, branches and returns too, `?`
/// among them, and cases that hold something.
pub const CALLS: [(&str, &str, usize); 54] = [
    ("main", "State::fresh", 1),
    ("main", ".run", 1),
    ("main", ".stdin", 1),
    ("main", ".stdout", 1),
    ("main", "if", 1),
    ("main", "Err", 1),
    ("main", "eprintln!", 1),
    ("main", "Some", 1),
    ("Memory::run", "Some", 1),
    ("Memory::run", "session::stream::open", 1),
    ("Memory::run", ".read_all", 1),
    ("Memory::run", ".conclude", 1),
    ("Memory::read_all", "for", 1),
    ("Memory::read_all", "if", 1),
    ("Memory::read_all", "return", 1),
    ("Memory::read_all", "Ok", 1),
    ("Memory::read_all", "Err", 1),
    ("Memory::read_all", "?", 1),
    ("Memory::read_all", ".read", 1),
    ("Memory::read_all", ".as_ref", 1),
    ("Memory::read_all", ".ok", 1),
    ("Memory::read_all", ".copied", 1),
    ("Memory::read_all", ".after_read", 1),
    ("Memory::after_read", "if", 1),
    ("Memory::after_read", "return", 1),
    ("Memory::after_read", "Ok", 2),
    ("Memory::after_read", "?", 2),
    ("Memory::after_read", ".map_err", 1),
    ("Memory::after_read", ".feed_chunk", 1),
    ("Memory::feed_chunk", "while", 1),
    ("Memory::feed_chunk", "?", 1),
    ("Memory::feed_chunk", "Ok", 1),
    ("Memory::feed_chunk", ".is_empty", 1),
    ("Memory::feed_chunk", ".feed", 1),
    ("Memory::feed", "session::stream::feed", 1),
    ("Memory::feed", ".write", 1),
    ("Memory::feed", "?", 1),
    ("Memory::feed", "after_feed", 1),
    ("Memory::write", "after_write", 1),
    ("Memory::write", ".write_all", 1),
    ("Memory::write", ".printed", 1),
    ("Memory::write", ".is_ok", 1),
    ("Memory::conclude", "session::stream::finish", 1),
    ("Memory::conclude", ".write", 1),
    ("Memory::conclude", "?", 1),
    ("after_write", ".map_err", 1),
    ("after_feed", "if", 1),
    ("after_feed", "return", 1),
    ("after_feed", "Ok", 1),
    ("after_feed", "Err", 1),
    ("Error::fmt", "match", 1),
    ("Error::fmt", "Error::ReadFailed", 1),
    ("Error::fmt", "Error::WriteFailed", 1),
    ("Error::fmt", "write!", 1),
];

/// What `LENT` stands for in the statements below: the session, and all that is lent to it.
pub const LENT: &str = "self.session, self.list, self.line, &mut self.tables";

/// Statements that stand in a function one after the other, once. Nothing stands beside them, but in `BESIDE`. Of a
/// string nothing is compared.
pub const WRITTEN: [(&str, &[&str]); 11] = [
    ("main", &LENDING),
    ("main", &MAIN),
    ("Memory::run", &RUN),
    ("Memory::read_all", &READ),
    ("Memory::after_read", &AFTER_READ),
    ("Memory::feed_chunk", &CHUNK),
    ("Memory::feed", &FEED),
    ("Memory::write", &WRITE),
    ("Memory::printed", &PRINTED),
    ("Memory::conclude", &CONCLUDE),
    ("Error::fmt", &REPORT),
];
pub const BESIDE: &str = "main";

const LENDING: [&str; 2] = [
    "let tables = LentTables { starts: &mut [0; CAPACITY], sums: &mut [0; CAPACITY], \
     max_starts: &mut [0; CAPACITY], max_values: &mut [0; CAPACITY], min_starts: &mut [0; CAPACITY], \
     min_values: &mut [0; CAPACITY] };",
    "let mut memory = Memory { session: Session { state: State::fresh(), lines: 0, kept: 0 }, \
     list: &mut [0; LIST_PLACES], line: &mut [0; KEPT], tables, out: &mut [0; BUFFER], said: true, got: Some(0) };",
];
const MAIN: [&str; 3] = [
    "let mut chunk = [0; BUFFER];",
    "let ended = memory.run(&mut rt.stdin(), &mut chunk, &mut rt.stdout());",
    "if let Err(error) = ended { let _ = eprintln!(rt; \"\"); }",
];
const RUN: [&str; 5] = [
    "self.said = true;",
    "self.got = Some(0);",
    "self.session = session::stream::open(self.list, &mut self.tables);",
    "let read = self.read_all(input, chunk, output);",
    "self.conclude(read, output)",
];
const READ: [&str; 2] = [
    "for _ in 0..u64::MAX { let got = input.read(chunk); self.got = got.as_ref().ok().copied(); \
     if self.after_read(got, chunk, output)? == 0 { return Ok(()); } }",
    "Err(Error::TooLong)",
];
const AFTER_READ: [&str; 4] = [
    "let count = got.map_err(Error::ReadFailed)?;",
    "if count == 0 { return Ok(0); }",
    "self.feed_chunk(&chunk[..count], output)?;",
    "Ok(count)",
];
const CHUNK: [&str; 3] = [
    "let mut rest = chunk;",
    "while !rest.is_empty() { let taken = self.feed(rest, output)?; rest = &rest[taken..]; }",
    "Ok(())",
];
const FEED: [&str; 4] = [
    "let taken = session::stream::feed(LENT, bytes, 0, self.out);",
    "self.session = taken.session;",
    "self.write(taken.at, output)?;",
    "after_feed(taken.to)",
];
const WRITE: [&str; 3] =
    ["let said = output.write_all(self.printed(at));", "self.said = said.is_ok();", "after_write(said)"];
const PRINTED: [&str; 1] = ["&self.out[..at]"];
const CONCLUDE: [&str; 3] = ["read?;", "let at = session::stream::finish(LENT, self.out);", "self.write(at, output)"];
const REPORT: [&str; 2] = [
    "let what = match self { Error::ReadFailed(_) => \"\", Error::WriteFailed(_) => \"\", Error::TooLong => \"\" };",
    "write!(f, \"\")",
];

/// A parameter of a function, with its type.
pub const PARAMETERS: [(&str, &str, &str); 13] = [
    ("main", "rt", "HostRuntime"),
    ("Memory::run", "input", "&mut R"),
    ("Memory::run", "output", "&mut W"),
    ("Memory::read_all", "input", "&mut R"),
    ("Memory::read_all", "output", "&mut W"),
    ("Memory::after_read", "got", "io::Result<usize>"),
    ("Memory::after_read", "output", "&mut W"),
    ("Memory::feed_chunk", "output", "&mut W"),
    ("Memory::feed", "output", "&mut W"),
    ("Memory::write", "output", "&mut W"),
    ("Memory::conclude", "read", "Result<(), Error>"),
    ("Memory::conclude", "output", "&mut W"),
    ("after_write", "said", "io::Result<()>"),
];

/// The verdicts, what reads and writes and what is read from and written to, what that said, and the struct of the
/// tables: how often each is named outside of all functions' bodies, and how often in which body.
pub const NAMED: [(&str, usize, &[(&str, usize)]); 24] = [
    ("ReadFailed", 1, &[("Error::fmt", 1), ("Memory::after_read", 1)]),
    ("WriteFailed", 1, &[("Error::fmt", 1), ("after_write", 1)]),
    ("TooLong", 1, &[("Error::fmt", 1), ("after_feed", 1), ("Memory::read_all", 1)]),
    ("HostRuntime", 1, &[]),
    ("rt", 1, &[("main", 3)]),
    ("stdin", 0, &[("main", 1)]),
    ("stdout", 0, &[("main", 1)]),
    ("eprintln", 0, &[("main", 1)]),
    ("std", 2, &[]),
    ("io", 6, &[]),
    ("fmt", 6, &[]),
    ("Read", 3, &[]),
    ("Write", 9, &[]),
    ("input", 2, &[("Memory::run", 1), ("Memory::read_all", 1)]),
    ("output", 7, &OUTPUT),
    ("read", 1, &[("Memory::read_all", 1), ("Memory::run", 2), ("Memory::conclude", 1)]),
    ("write_all", 0, &[("Memory::write", 1)]),
    ("write", 1, &[("Memory::feed", 1), ("Memory::conclude", 1), ("Error::fmt", 1)]),
    ("said", 2, &[("after_write", 1), ("Memory::write", 4), ("Memory::run", 1), ("main", 1)]),
    ("got", 2, &[("Memory::after_read", 1), ("Memory::read_all", 4), ("Memory::run", 1), ("main", 1)]),
    ("memory", 0, &[("main", 2)]),
    ("ended", 0, &[("main", 2)]),
    ("error", 0, &[("main", 1)]),
    ("tables", 2, &[("main", 2), ("Memory::run", 1), ("Memory::feed", 1), ("Memory::conclude", 1)]),
];

/// Where `output` is named: `run` hands it on twice.
const OUTPUT: [(&str, usize); 7] = [
    ("Memory::run", 2),
    ("Memory::read_all", 1),
    ("Memory::after_read", 1),
    ("Memory::feed_chunk", 1),
    ("Memory::feed", 1),
    ("Memory::write", 1),
    ("Memory::conclude", 1),
];

/// What is brought in of `std`, each once.
pub const BROUGHT: [&str; 4] = ["std::fmt", "std::io", "std::io::Read", "std::io::Write"];

/// The demonstration, which prints.
pub const DEMO: &str = "demo";

/// What reads and writes, and the crates that name it: the program, and the demonstration, which reads nothing; and
/// `itoa`, which puts the digits of a number into a slice and neither reads nor writes.
pub const KIT: [(&str, &[&str]); 21] = [
    ("io", &[CRATE, DEMO]),
    ("itoa", &["print"]),
    ("HostRuntime", &[CRATE, DEMO]),
    ("Read", &[CRATE]),
    ("Write", &[CRATE, DEMO]),
    ("stdin", &[CRATE]),
    ("stdout", &[CRATE]),
    ("eprintln", &[CRATE]),
    ("println", &[DEMO]),
    ("Stdin", &[]),
    ("Stdout", &[]),
    ("Stderr", &[]),
    ("stderr", &[]),
    ("eprint", &[]),
    ("LibcRuntime", &[]),
    ("Input", &[]),
    ("Print", &[DEMO]),
    ("Eprint", &[]),
    ("core", &[]),
    ("libc", &[]),
    ("os", &[]),
];

/// What of `std` any crate may name, since it neither reads nor writes.
pub const STD: [&str; 4] = ["error", "fmt", "mem", "num"];

/// What of `std` the demonstration brings in besides, and what of `io` it may then name.
pub const PRINTING: [&str; 3] = ["std::array", "std::io", "std::io::Print"];

pub const OF_IO: &str = "Result";
