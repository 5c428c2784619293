//! Damaged session lines, made from good ones: refusals 12 to 15 and lines that are almost refused.

use crate::random::Random;

/// Numbers just inside and just outside each width, and numbers that come out small when cut to 32 or 64 bits.
const EDGE_NUMBERS: [&str; 22] = [
    "0",
    "1",
    "65535",
    "65536",
    "2147483647",
    "2147483648",
    "2147483649",
    "4294967294",
    "4294967295",
    "4294967296",
    "4294967297",
    "9999999999",
    "9223372036854775807",
    "9223372036854775808",
    "18446744073709551615",
    "18446744073709551616",
    "18446744073709551617",
    "-1",
    "-2147483647",
    "-2147483648",
    "-2147483649",
    "-4294967295",
];

/// Fields that are not numbers as document 01 writes them.
const NOT_NUMBERS: [&str; 20] = [
    "", "-", "-0", "00", "01", "-01", "007", "+1", "--1", "-1", "1-", "1.0", "1e3", "0x10", " 1", "1 ", "1\r",
    "\u{661}", "\u{ff11}", "a",
];

/// Whole lines that are damaged in themselves.
const ODD_LINES: [&str; 20] = [
    "",
    " ",
    "\t",
    "\t\t",
    "R",
    "D",
    "V",
    "R\t",
    "D\t",
    "V\t",
    "V\t-",
    "R\t\t\t\t",
    "V\t\t",
    "v\t1",
    "r\t1\t1\t1\t1",
    "T",
    "A\t1\t1\t1\t1\t1",
    "V1",
    "RR\t1\t1\t1\t1",
    "\r",
];

/// A damaged line, without its end.
pub fn line(random: &mut Random, good: &[u8]) -> Vec<u8> {
    match random.below(16) {
        0..=3 => bytes(random, good),
        4..=7 => fields(random, good),
        8..=11 => numbers(random, good),
        12..=13 => lengths(random, good),
        14 => random.pick(&ODD_LINES).into(),
        _ => arbitrary(random, 12),
    }
}

/// Bytes changed, put in, taken out, or exchanged.
fn bytes(random: &mut Random, good: &[u8]) -> Vec<u8> {
    let mut line = good.to_vec();
    let place = random.place(line.len());
    match random.below(7) {
        0 => line[place] = random.byte(),
        1 => line[place] ^= 1 << random.below(8),
        2 => line.insert(place, random.byte()),
        3 => line.insert(place, random.pick(b"\t -0159\r\n\0")),
        4 => {
            line.remove(place);
        }
        5 => {
            let other = random.place(line.len());
            line.swap(place, other);
        }
        _ => line.push(b'\r'),
    }
    line
}

/// Fields missing, too many, doubled tabs, spaces, another first field.
fn fields(random: &mut Random, good: &[u8]) -> Vec<u8> {
    let mut fields: Vec<Vec<u8>> = good.split(|&byte| byte == b'\t').map(<[u8]>::to_vec).collect();
    let place = random.place(fields.len());
    match random.below(8) {
        0 => {
            fields.remove(place);
        }
        1 => fields.push(b"1".to_vec()),
        2 => fields.push(Vec::new()),
        3 => fields.insert(place, Vec::new()),
        4 => fields.insert(place, fields[place].clone()),
        5 => fields[place].insert(0, b' '),
        6 => fields[place].push(b' '),
        _ => fields[0] = random.pick(&["R", "D", "V", "r", "E", "", "VV", "\u{412}"]).into(),
    }
    let between: &[u8] = if random.one_in(12) { b" " } else { b"\t" };
    fields.join(between)
}

/// One or more number fields replaced; two of them bad show which is judged first.
fn numbers(random: &mut Random, good: &[u8]) -> Vec<u8> {
    let mut fields: Vec<Vec<u8>> = good.split(|&byte| byte == b'\t').map(<[u8]>::to_vec).collect();
    for _ in 0..random.between(1, 2) {
        let place = random.place(fields.len() - 1) + 1;
        fields[place] = match random.below(4) {
            0 => random.pick(&NOT_NUMBERS).into(),
            1 => [b"0", &fields[place][..]].concat(),
            2 => [b"-", &fields[place][..]].concat(),
            _ => random.pick(&EDGE_NUMBERS).into(),
        };
    }
    fields.join(&b'\t')
}

/// Lines of 63 to 66 bytes and much longer ones.
fn lengths(random: &mut Random, good: &[u8]) -> Vec<u8> {
    let length = match random.below(12) {
        0 => random.between(67, 600) as usize,
        1 => random.pick(&[127, 128, 255, 256, 1_023, 1_024, 4_095, 4_096, 4_097]),
        2 if random.one_in(8) => random.pick(&[8_191, 8_192, 65_535, 65_536, 65_537]),
        _ => random.between(62, 66) as usize,
    };
    let mut line = good.to_vec();
    let filler = random.pick(b"0127\t \xff");
    match random.below(3) {
        0 => line.resize(length.max(line.len()), filler),
        1 => line.resize(length.max(line.len()), b'0'),
        _ => {
            let last_field = line.iter().rposition(|&byte| byte == b'\t').map_or(0, |tab| tab + 1);
            let missing = length.saturating_sub(line.len());
            line.splice(last_field..last_field, std::iter::repeat_n(b'0', missing));
        }
    }
    line
}

/// Any bytes at all, byte 10 among them.
pub fn arbitrary(random: &mut Random, longest: u64) -> Vec<u8> {
    let length = random.below(longest + 1);
    (0..length).map(|_| random.byte()).collect()
}
