// Tables in Markdown on standard output.
use crate::field::Name;
use crate::find;
use crate::measure::{self, Measured};
use crate::workload::{Configuration, Values, QUERIES, RANGES, SLIDES};

pub fn print(measured: &[Measured], rounds: usize) {
    println!("# Nanoseconds a reading\n");
    println!(
        "Rounds: {rounds}. Medians, processor time. A ratio is that of the medians; behind it the least and greatest of \
         a round."
    );
    println!(
        "The loop around the contenders, without an engine, takes {:.1} ns a reading; it is in every time.\n",
        measure::empty_loop()
    );
    random_table(measured);
    monotonic_table(measured);
    worst_table(measured, rounds);
}

// One table row.
pub fn row(cells: &[String]) {
    println!("| {} |", cells.join(" | "))
}

// The head of a table: the titles, and a line of dashes; numbers stand to the right.
pub fn head(titles: &[&str]) {
    row(&titles.iter().map(|t| t.to_string()).collect::<Vec<_>>());
    println!("|{}", "---:|".repeat(titles.len()));
}

// A number of nanoseconds.
pub fn nanoseconds(time: Option<[f64; 3]>) -> String {
    match time {
        None => "-".to_string(),
        Some([median, ..]) if median < 99.95 => format!("{median:.1}"),
        Some([median, ..]) => format!("{median:.0}"),
    }
}

// A ratio in two decimals; from 10 on, in one.
pub fn ratio(value: f64) -> String {
    if value < 9.995 {
        format!("{value:.2}")
    } else {
        format!("{value:.1}")
    }
}

fn short(of: Option<[f64; 3]>) -> String {
    of.map_or("-".to_string(), |[median, ..]| ratio(median))
}

fn with_spread(of: Option<[f64; 3]>) -> String {
    of.map_or("-".to_string(), |[median, least, greatest]| {
        format!("{} ({} to {})", ratio(median), ratio(least), ratio(greatest))
    })
}

fn configuration_cells(c: &Configuration) -> Vec<String> {
    vec![c.queries.to_string(), c.range.to_string(), c.slide.to_string()]
}

// Random values: every contender and every ratio.
fn random_table(measured: &[Measured]) {
    println!("## Random values\n");
    let mut titles = vec!["queries", "range", "slide"];
    titles.extend(Name::ALL.map(Name::text));
    titles.extend(["library / per_query", "library / plain_shared", "library / reevaluate"]);
    head(&titles);
    for m in measured.iter().filter(|m| m.configuration.values == Values::Random) {
        let mut cells = configuration_cells(&m.configuration);
        cells.extend(Name::ALL.map(|name| nanoseconds(m.time(name))));
        cells.push(with_spread(m.ratio(Name::Library, Name::PerQuery)));
        cells.push(with_spread(m.ratio(Name::Library, Name::PlainShared)));
        cells.push(short(m.ratio(Name::Library, Name::Reevaluate)));
        row(&cells);
    }
    println!();
}

// Rising and falling values side by side, in short.
fn monotonic_table(measured: &[Measured]) {
    println!("## Rising and falling values\n");
    println!("First the six columns for rising values, then the same for falling ones.\n");
    let names = [Name::Library, Name::LibraryAscending, Name::PerQuery, Name::PlainShared];
    let columns = [&names.map(Name::text)[..], &["library / per_query", "library / plain_shared"]].concat();
    head(&[&["queries", "range", "slide"], &columns[..], &columns[..]].concat());
    for (queries, range, slide) in shapes() {
        let mut cells = vec![queries.to_string(), range.to_string(), slide.to_string()];
        for values in [Values::Rising, Values::Falling] {
            let Some(m) = find(measured, queries, range, slide, values) else { continue };
            cells.extend(names.map(|name| nanoseconds(m.time(name))));
            cells.extend([Name::PerQuery, Name::PlainShared].map(|name| short(m.ratio(Name::Library, name))));
        }
        row(&cells);
    }
    println!();
}

// The slowest single reading of each contender.
fn worst_table(measured: &[Measured], rounds: usize) {
    println!("## The slowest single reading\n");
    println!(
        "Nanoseconds on the clock, a look at which takes {} and is in them. The slowest of {} readings, each the \
         fastest of {} times.",
        measure::empty_single(),
        measure::SINGLE,
        rounds * measure::REPEATS
    );
    println!("First the columns for random values, then three for rising values and three for falling ones.\n");
    let monotonic = [Name::Library, Name::PerQuery, Name::PlainShared];
    let groups = [(Values::Random, &Name::ALL[..]), (Values::Rising, &monotonic), (Values::Falling, &monotonic)];
    let columns: Vec<&str> = groups.iter().flat_map(|(_, names)| names.iter().map(|name| name.text())).collect();
    head(&[&["queries", "range", "slide"], &columns[..]].concat());
    for (queries, range, slide) in shapes() {
        let mut cells = vec![queries.to_string(), range.to_string(), slide.to_string()];
        for (values, names) in groups {
            let Some(m) = find(measured, queries, range, slide, values) else { continue };
            cells.extend(names.iter().map(|name| m.worst(*name).map_or("-".to_string(), |ns| ns.to_string())));
        }
        row(&cells);
    }
    println!();
}

// Queries, range and slide of every row.
fn shapes() -> impl Iterator<Item = (usize, u32, u32)> {
    QUERIES.into_iter().flat_map(|q| RANGES.into_iter().flat_map(move |r| SLIDES.into_iter().map(move |s| (q, r, s))))
}
