//! Document 01's "Figures to hold it to", its sample session and the rules about lines, each against the reference
//! model.

use crate::fault::Fault;
use crate::reckoner::Reckoner;
use crate::subject::expected;

/// Stream S.
const S: [&str; 7] = ["V 5", "V 3", "V 3", "V 8", "V -2", "V 6", "V 1"];

/// Counts the checks that were made and those that failed.
#[derive(Default)]
struct Checks {
    made: usize,
    failed: usize,
}

impl Checks {
    fn equal<T: PartialEq + std::fmt::Debug>(&mut self, name: &str, found: T, stated: T) {
        self.made += 1;
        if found != stated {
            self.failed += 1;
            println!("figures: {name}: found {found:?}, stated {stated:?}");
        }
    }
}

/// All figures; says whether they hold.
pub fn check() -> bool {
    let mut checks = Checks::default();
    maxima(&mut checks);
    sums(&mut checks);
    single_cases(&mut checks);
    refused_registrations(&mut checks);
    session_lines(&mut checks);
    widths(&mut checks);
    sample(&mut checks);
    answer_table(&mut checks);
    println!("figures: {} checks, {} failed", checks.made, checks.failed);
    checks.failed == 0
}

/// The printed lines of a session, tabs shown as spaces as in document 01.
fn printed(lines: &[&str]) -> Vec<String> {
    let input: String = lines.iter().map(|line| line.replace(' ', "\t") + "\n").collect();
    printed_raw(input.as_bytes())
}

fn printed_raw(input: &[u8]) -> Vec<String> {
    let output = String::from_utf8(expected(input)).expect("printed lines are ASCII");
    output.lines().map(|line| line.replace('\t', " ")).collect()
}

/// n, P, M, N at a session's end.
fn totals(lines: &[&str]) -> Vec<u64> {
    let printed = printed(lines);
    let last = printed.last().expect("the totals are always printed");
    last.split(' ').skip(1).map(|field| field.parse().expect("a number")).collect()
}

/// All printed lines but the totals, as one text.
fn answered(lines: &[&str]) -> String {
    let printed = printed(lines);
    printed[..printed.len() - 1].join(" / ")
}

fn over_s(first: &[&'static str], readings: usize) -> Vec<&'static str> {
    [first, &S[..readings]].concat()
}

/// Cases 1, 2, 4 and 5.
fn maxima(checks: &mut Checks) {
    let run = over_s(&["R 1 3 3 1"], 7);
    let answers =
        ["A 1 1 3 1 5", "A 2 1 3 2 5", "A 3 1 3 3 5", "A 4 1 3 3 8", "A 5 1 3 3 8", "A 6 1 3 3 8", "A 7 1 3 3 6"];
    checks.equal("case 1", answered(&run), answers.join(" / "));
    checks.equal("case 2, M after the third", totals(&over_s(&["R 1 3 3 1"], 3))[2], 3);
    checks.equal("case 2, totals", totals(&run), vec![7, 7, 8, 8]);
    let run = over_s(&["R 1 3 1 4"], 7);
    checks.equal("case 4, answers", answered(&run), "A 4 1 3 1 8".to_string());
    checks.equal("case 4, P", totals(&run)[1], 3);
    let found = answered(&["R 1 3 1 1", "V -2147483648"]);
    checks.equal("case 5", found, "A 1 1 3 1 -2147483648".to_string());
}

/// Cases 3 and 6.
fn sums(checks: &mut Checks) {
    let run = over_s(&["R 1 1 5 3"], 7);
    checks.equal("case 3, answers", answered(&run), "A 3 1 1 3 11 / A 6 1 1 5 18".to_string());
    checks.equal("case 3, P", totals(&run)[1], 5);
    let mut run = vec!["R 1 1 5 3", "V 5", "V 3", "R 2 3 2 2"];
    checks.equal("case 6, P at the registration", totals(&run)[1], 2);
    run.push("V 3");
    checks.equal("case 6, P after the third", totals(&run)[1], 3);
    checks.equal("case 6, sum", answered(&run), "A 3 1 1 3 11".to_string());
}

/// Case 7, and that a refused reading is not counted.
fn single_cases(checks: &mut Checks) {
    checks.equal("case 7, before", totals(&["R 1 1 2 4", "V 5"])[1], 0);
    checks.equal("case 7, after", totals(&["R 1 1 2 4", "V 5", "D 1"])[1], 0);
    checks.equal("a refused reading", totals(&["V 1", "V x", "V 2147483648"])[0], 1);
}

/// Cases 8 to 10.
fn refused_registrations(checks: &mut Checks) {
    let found = printed(&["R 1 1 4096 1", "R 2 1 4097 1", "R 2 1 0 1", "R 0 9 1 1"]);
    checks.equal("cases 8 and 9", found.join(" / "), "E 2 5 / E 3 5 / E 4 3 / T 0 0 0 0".to_string());
    let mut lines: Vec<String> = (1..=33).map(|number| format!("R {number} 1 1 1")).collect();
    lines.extend(["D 7".to_string(), "R 33 1 1 1".to_string()]);
    let lines: Vec<&str> = lines.iter().map(String::as_str).collect();
    checks.equal("case 10", printed(&lines).join(" / "), "E 33 8 / T 0 0 0 0".to_string());
}

/// Case 11 and the rules about lines and fields.
fn session_lines(checks: &mut Checks) {
    let digits = "1".repeat(62);
    let of_64 = format!("V {digits}");
    let of_65 = format!("V {digits}1");
    let cases = [
        (of_64.as_str(), "E 1 15"),
        (of_65.as_str(), "E 1 12"),
        ("V -0", "E 1 14"),
        ("V 2147483648", "E 1 15"),
        ("", "E 1 13"),
        ("W 1", "E 1 13"),
        ("V", "E 1 13"),
        ("V  1", "E 1 13"),
        ("V 1 ", "E 1 13"),
        ("V ", "E 1 14"),
        ("V -", "E 1 14"),
        ("V 01", "E 1 14"),
        ("V +1", "E 1 14"),
        ("V 1\r", "E 1 14"),
        ("D -1", "E 1 14"),
        ("R 4294967296 x 1 1", "E 1 15"),
        ("R x 4294967296 1 1", "E 1 14"),
        ("D 4294967295", "E 1 9"),
    ];
    for (line, refused) in cases {
        let found = printed(&[line]);
        checks.equal(line, found, vec![refused.to_string(), "T 0 0 0 0".to_string()]);
    }
}

/// The ends of V's width, and how lines end.
fn widths(checks: &mut Checks) {
    let found = totals(&["V 2147483647", "V -2147483648", "V -2147483649", "V 0"]);
    checks.equal("the ends of V's width", found[0], 3);
    checks.equal("empty input", printed_raw(b"").join(" / "), "T 0 0 0 0".to_string());
    checks.equal("no byte 10 at the end", printed_raw(b"V\t1\nV\t2").join(" / "), "T 2 0 0 0".to_string());
    checks.equal("byte 10 at the end", printed_raw(b"V\t1\nV\t2\n").join(" / "), "T 2 0 0 0".to_string());
    checks.equal("an empty line", printed_raw(b"V\t1\n\n").join(" / "), "E 2 13 / T 1 0 0 0".to_string());
}

/// Document 01's one whole session.
fn sample(checks: &mut Checks) {
    let input = ["R 2 1 5 3", "V 5", "V 3", "V 3", "R 7 3 2 2", "V 8", "V -2", "D 2", "D 2", "V 6"];
    let output = "A 3 2 1 3 11 / A 5 7 3 2 8 / E 9 9 / T 6 4 4 4";
    checks.equal("the sample session", printed(&input).join(" / "), output.to_string());
}

/// Refusal 11, which no session can bring about.
fn answer_table(checks: &mut Checks) {
    let mut reckoner = Reckoner::new(Fault::None);
    checks.equal("a registration", reckoner.register(1, 1, 2, 2), Ok(()));
    checks.equal("no query due, no place", reckoner.reading(4, 0).map(|answers| answers.len()), Ok(0));
    checks.equal("a query due, three places", reckoner.reading(4, 3).map(|answers| answers.len()), Err(11));
    checks.equal("n after refusal 11", reckoner.totals().n, 1);
    checks.equal("a query due, four places", reckoner.reading(4, 4).map(|answers| answers.len()), Ok(1));
}
