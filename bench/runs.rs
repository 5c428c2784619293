// What the benchmark needs beside the two programs: the inputs, and a measured run.
use std::io::{self, Write};
use std::process::{exit, Command, Stdio};

// Lines that are refused with 13, 14 and 15.
const DAMAGED: [&str; 16] = [
    "",
    "V",
    "X\t1",
    "R\t1\t2\t3",
    "D\t1\t2",
    "\tV\t1",
    "V\t01",
    "V\t-0",
    "V\t+5",
    "V\t",
    "D\t1x",
    "R\t1\t1\t\t1",
    "V\t2147483648",
    "V\t-2147483649",
    "D\t4294967296",
    "R\t1\t1\t9999999999\t1",
];

// The inputs, always the same bytes. Readings are a walk in small steps, as of wind or load.
pub fn generate(name: &str) -> io::Result<()> {
    let mut out = io::BufWriter::with_capacity(65_536, io::stdout().lock());
    let mut seed = 1u64;
    let mut random = move |below: u64| {
        seed = seed.wrapping_mul(6_364_136_223_846_793_005).wrapping_add(1_442_695_040_888_963_407);
        (seed >> 33) % below
    };
    let (queries, range, slide, lines) = match name {
        "a" => (1, 16, 1, 2_000_000),
        "b" => (8, 256, 7, 2_000_000),
        "c" => (32, 4096, 64, 2_000_000),
        "d" => (8, 1000, 4096, 2_000_000),
        "e" | "f" => (0, 0, 0, 2_000_000),
        "g" => (4, 5, 3, 1000),
        _ => exit(2),
    };
    if name == "g" {
        for _ in 0..1_000_000 {
            out.write_all(&[b'9'; 1000])?
        }
        writeln!(out)?;
    }
    for i in 0..queries {
        writeln!(out, "R\t{}\t{}\t{range}\t{slide}", i + 1, i % 4 + 1)?
    }
    let mut value = 0i64;
    for i in queries..lines {
        match (name, i % 300) {
            ("e", _) => match DAMAGED.get(random(20) as usize) {
                Some(line) => writeln!(out, "{line}")?,
                None => writeln!(out, "V\t{:0>1$}", 1, 63 + random(100) as usize)?, // 65 bytes or more: 12
            },
            ("f", 0) => {
                writeln!(out, "R\t{}\t{}\t{}\t{}", random(40) + 1, random(4) + 1, random(4096) + 1, random(256) + 1)?
            }
            ("f", 150) => writeln!(out, "D\t{}", random(40) + 1)?,
            _ => {
                value = (value + random(2001) as i64 - 1000).clamp(-1_000_000, 1_000_000);
                writeln!(out, "V\t{value}")?;
            }
        }
    }
    out.flush()
}

// The C library's struct rusage on 64-bit Linux: two times in seconds and microseconds, and fourteen numbers.
#[repr(C)]
#[derive(Default)]
struct Usage {
    user: [i64; 2],
    system: [i64; 2],
    others: [i64; 14],
}

extern "C" {
    fn getrusage(who: i32, usage: *mut Usage) -> i32;
}

// Runs the program on standard input, its output dropped; prints its user and system time together in microseconds and
// its peak resident memory in KiB. The memory is VmHWM, looked up every 5 ms: what getrusage says of it counts in the
// process that starts the program.
pub fn measure(program: &str) -> io::Result<()> {
    let mut child = Command::new(program).stdout(Stdio::null()).spawn()?;
    let (path, mut peak) = (format!("/proc/{}/status", child.id()), 0u64);
    let status = loop {
        let text = std::fs::read_to_string(&path).unwrap_or_default();
        let field = text.lines().find_map(|l| l.strip_prefix("VmHWM:")).and_then(|l| l.split_whitespace().next());
        peak = peak.max(field.and_then(|f| f.parse().ok()).unwrap_or(0));
        if let Some(status) = child.try_wait()? {
            break status;
        }
        std::thread::sleep(std::time::Duration::from_millis(5));
    };
    let mut usage = Usage::default();
    if !status.success() || unsafe { getrusage(-1, &mut usage) } != 0 {
        exit(1)
    }
    println!("{} {peak}", (usage.user[0] + usage.system[0]) * 1_000_000 + usage.user[1] + usage.system[1]);
    Ok(())
}
