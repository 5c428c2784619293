// The two pictures: time over the range, and time over the number of queries.
use crate::field::Name;
use crate::find;
use crate::measure::Measured;
use crate::plot::{Figure, Marker, Panel, Series, Style};
use crate::workload::{Values, PICTURE_QUERIES, PICTURE_RANGE, PICTURE_SLIDES, QUERIES, RANGES};
use std::fs;
use std::io;
use std::path::Path;

const TIME: &str = "nanoseconds a reading";

pub fn write(measured: &[Measured], folder: &Path) -> io::Result<()> {
    fs::create_dir_all(folder)?;
    fs::write(folder.join("performance-range.svg"), over_range(measured).svg())?;
    fs::write(folder.join("performance-queries.svg"), over_queries(measured).svg())
}

fn style(name: Name) -> Style {
    let (colour, width, dash, marker) = match name {
        Name::Library | Name::LibraryAscending => ("#0072b2", 2.8, "none", Marker::Circle),
        Name::Reevaluate => ("#808080", 1.8, "none", Marker::Square),
        Name::PerQuery => ("#d55e00", 1.8, "none", Marker::Triangle),
        Name::PlainShared => ("#009e73", 1.8, "none", Marker::Diamond),
        Name::PlainRemainders => ("#a05090", 1.8, "5 4", Marker::Ring),
    };
    Style { name: name.text(), colour, width, dash, marker }
}

// A series for each contender: `time` gives the nanoseconds at a place of the horizontal axis. The library is drawn
// last, above the others, and once: ascending numbers are in the tables alone.
fn series(ticks: &[f64], time: impl Fn(Name, f64) -> Option<f64>) -> Vec<Series> {
    let series = |name| Series {
        style: style(name),
        points: ticks.iter().filter_map(|x| Some((*x, time(name, *x)?))).collect(),
    };
    let drawn = Name::ALL.into_iter().rev().filter(|name| *name != Name::LibraryAscending);
    drawn.map(series).filter(|s| !s.points.is_empty()).collect()
}

fn over_range(measured: &[Measured]) -> Figure {
    let x_ticks: Vec<f64> = RANGES.map(f64::from).to_vec();
    let panel = |queries: usize| Panel {
        title: format!("{queries} {}", if queries == 1 { "query" } else { "queries" }),
        series: series(&x_ticks, |name, range| {
            Some(find(measured, queries, range as u32, 1, Values::Random)?.time(name)?[0])
        }),
    };
    let panels = QUERIES.map(panel).into_iter().collect();
    let title = "Time by range (slide 1, random values)".to_string();
    Figure { title, x_label: "range, in readings", y_label: TIME, x_ticks, panel_width: 236.0, panels }
}

fn over_queries(measured: &[Measured]) -> Figure {
    let x_ticks: Vec<f64> = PICTURE_QUERIES.map(|q| q as f64).to_vec();
    let panel = |slide: u32| Panel {
        title: format!("slide {slide}"),
        series: series(&x_ticks, |name, q| {
            Some(find(measured, q as usize, PICTURE_RANGE, slide, Values::Random)?.time(name)?[0])
        }),
    };
    let panels = PICTURE_SLIDES.map(panel).into_iter().collect();
    let title = format!("Time by number of queries (range {PICTURE_RANGE}, random values)");
    Figure { title, x_label: "registered queries", y_label: TIME, x_ticks, panel_width: 367.0, panels }
}
