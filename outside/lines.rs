//! Session lines: parser and printer, after document 01, "Session lines". Works on bytes; nothing is assumed to be
//! UTF-8.

use crate::fault::Fault;
use crate::reckoner::{Answer, Refusal, Totals};

/// The most bytes before a line's end (refusal 12).
const LINE_LIMIT: usize = 64;

/// The call a well-formed line asks for.
#[derive(Clone, Copy, Debug, PartialEq, Eq)]
pub enum Call {
    Register { number: u32, kind: u32, range: u32, slide: u32 },
    Withdraw { number: u32 },
    Reading { value: i32 },
}

/// A line ends at byte 10; a last line without it counts if it has a byte.
pub fn split(input: &[u8]) -> Vec<&[u8]> {
    let mut lines: Vec<&[u8]> = input.split(|&byte| byte == b'\n').collect();
    if lines.last().is_some_and(|rest| rest.is_empty()) {
        lines.pop();
    }
    lines
}

/// Refusals 12 to 15, from top to bottom; the first that applies decides.
pub fn parse(line: &[u8], fault: Fault) -> Result<Call, Refusal> {
    let limit = if fault == Fault::LineLimitTooLong { LINE_LIMIT + 1 } else { LINE_LIMIT };
    if line.len() > limit {
        return Err(12);
    }
    let fields: Vec<&[u8]> = line.split(|&byte| byte == b'\t').collect();
    match (fields[0], &fields[1..]) {
        (b"R", [number, kind, range, slide]) => {
            if fault == Fault::FormBeforeWidth && fields[1..].iter().any(|field| !is_number(field)) {
                return Err(14);
            }
            let number = unsigned(number)?;
            let kind = unsigned(kind)?;
            let range = unsigned(range)?;
            let slide = unsigned(slide)?;
            Ok(Call::Register { number, kind, range, slide })
        }
        (b"D", [number]) => Ok(Call::Withdraw { number: unsigned(number)? }),
        (b"V", [value]) => Ok(Call::Reading { value: signed(value, fault)? }),
        _ => Err(13),
    }
}

/// A number is digits without a leading zero, or 0.
fn is_number(field: &[u8]) -> bool {
    match field {
        [] => false,
        [b'0', rest @ ..] => rest.is_empty(),
        digits => digits.iter().all(u8::is_ascii_digit),
    }
}

/// The number's size; anything beyond 64 bits stays at the largest, which is outside every width.
fn magnitude(field: &[u8]) -> Result<u64, Refusal> {
    if !is_number(field) {
        return Err(14);
    }
    let add = |total: u64, &digit: &u8| total.saturating_mul(10).saturating_add(u64::from(digit - b'0'));
    Ok(field.iter().fold(0, add))
}

/// The width of R's and D's fields: unsigned 32-bit.
fn unsigned(field: &[u8]) -> Result<u32, Refusal> {
    u32::try_from(magnitude(field)?).map_err(|_| 15)
}

/// V's width, signed 32-bit; a minus sign only before a number other than 0.
fn signed(field: &[u8], fault: Fault) -> Result<i32, Refusal> {
    let Some(digits) = field.strip_prefix(b"-") else {
        return i32::try_from(magnitude(field)?).map_err(|_| 15);
    };
    let size = magnitude(digits)?;
    if size == 0 && fault != Fault::MinusZeroRead {
        return Err(14);
    }
    let size = i64::try_from(size).map_err(|_| 15)?;
    i32::try_from(-size).map_err(|_| 15)
}

/// A, n, number, kind, count, value.
pub fn print_answer(out: &mut Vec<u8>, n: usize, answer: &Answer) {
    let Answer { number, kind, count, value, .. } = answer;
    out.extend(format!("A\t{n}\t{number}\t{kind}\t{count}\t{value}\n").bytes());
}

/// E, line number from 1, refusal.
pub fn print_refusal(out: &mut Vec<u8>, line_number: usize, refusal: Refusal) {
    out.extend(format!("E\t{line_number}\t{refusal}\n").bytes());
}

/// T, n, P, M, N.
pub fn print_totals(out: &mut Vec<u8>, totals: &Totals) {
    let Totals { n, p, max_comparisons, min_comparisons } = totals;
    out.extend(format!("T\t{n}\t{p}\t{max_comparisons}\t{min_comparisons}\n").bytes());
}
