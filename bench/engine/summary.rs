// In how many configurations the goals hold.
use crate::field::Name;
use crate::find;
use crate::measure::{spread, Measured};
use crate::report::{head, ratio, row};
use crate::workload::{Values, QUERIES, RANGES, SLIDES};

const SHARED_FROM: usize = 8; // queries from which sharing has to pay
const WITHIN: f64 = 1.5; // how much slower than plain code

pub fn print(measured: &[Measured]) {
    println!("## Summary\n");
    at_most(
        measured,
        &format!("library at least as fast as per_query, {SHARED_FROM} queries and more"),
        Name::PerQuery,
        SHARED_FROM,
        1.0,
    );
    for to in [Name::PlainShared, Name::PlainRemainders] {
        at_most(measured, &format!("library within {WITHIN} of {}", to.text()), to, 1, WITHIN);
    }
    at_most(measured, "library at least as fast as reevaluate", Name::Reevaluate, 1, 1.0);
    println!();
    flatness(measured);
}

// One line: in how many configurations, of so many queries or more, the ratio is at most this; and the spread of the
// ratio over them.
fn at_most(measured: &[Measured], goal: &str, to: Name, queries: usize, most: f64) {
    let of_enough = measured.iter().filter(|m| m.configuration.queries >= queries);
    let ratios: Vec<f64> = of_enough.filter_map(|m| m.ratio(Name::Library, to)).map(|[median, ..]| median).collect();
    let holds = ratios.iter().filter(|r| **r <= most).count();
    let (all, spread) = (ratios.len(), spread(ratios));
    match spread {
        None => println!("- {goal}: not measured"),
        Some([median, least, greatest]) => {
            let [median, least, greatest] = [median, least, greatest].map(ratio);
            println!(
                "- {goal}: in {holds} of {all} configurations; ratio {median} in the median, {least} to {greatest}"
            );
        }
    }
}

// The time at the longest range over that at the shortest.
fn growth(measured: &[Measured], name: Name, queries: usize, slide: u32, values: Values) -> Option<f64> {
    let time = |range| find(measured, queries, range, slide, values)?.time(name);
    Some(time(RANGES[RANGES.len() - 1])?[0] / time(RANGES[0])?[0])
}

fn flatness(measured: &[Measured]) {
    let (shortest, longest) = (RANGES[0], RANGES[RANGES.len() - 1]);
    println!(
        "Flat in the range: time at range {longest} over time at range {shortest}, library (in brackets plain_shared, \
         per_query)\n"
    );
    head(&["queries", "slide", "random", "rising", "falling"]);
    let mut all = Vec::new();
    for (queries, slide) in QUERIES.into_iter().flat_map(|q| SLIDES.map(|s| (q, s))) {
        let mut cells = vec![queries.to_string(), slide.to_string()];
        for values in Values::ALL {
            let of = |name| growth(measured, name, queries, slide, values);
            let text = |name| of(name).map_or("-".to_string(), ratio);
            cells.push(format!("{} ({}, {})", text(Name::Library), text(Name::PlainShared), text(Name::PerQuery)));
            all.extend(of(Name::Library));
        }
        row(&cells);
    }
    if let Some(growths) = spread(all) {
        let [median, least, greatest] = growths.map(ratio);
        println!("\n- library, all of these: {median} in the median, {least} to {greatest}");
    }
}
