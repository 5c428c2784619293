// Figures in SVG: panels side by side with logarithmic axes, the vertical one common to all.
use std::fmt::Write;

const LEFT: f64 = 78.0; // room for the numbers and the label of the vertical axis
const RIGHT: f64 = 22.0;
const TOP: f64 = 112.0; // room for title, legend and panel titles
const BOTTOM: f64 = 58.0;
const GAP: f64 = 26.0; // between two panels
const HEIGHT: f64 = 300.0; // of a panel
const INSET: f64 = 18.0; // from the edge of a panel to the first and last points
const CHARACTER: f64 = 7.6; // more than the mean width of a letter in the legend

#[derive(Clone, Copy)]
pub enum Marker {
    Circle,
    Square,
    Triangle,
    Diamond,
    Ring,
}

// How a series is drawn.
#[derive(Clone, Copy)]
pub struct Style {
    pub name: &'static str,
    pub colour: &'static str,
    pub width: f64,
    pub dash: &'static str, // "none" for a solid line
    pub marker: Marker,
}

pub struct Series {
    pub style: Style,
    pub points: Vec<(f64, f64)>,
}

pub struct Panel {
    pub title: String,
    pub series: Vec<Series>,
}

pub struct Figure {
    pub title: String,
    pub x_label: &'static str,
    pub y_label: &'static str,
    pub x_ticks: Vec<f64>,
    pub panel_width: f64,
    pub panels: Vec<Panel>,
}

// A whole number with commas between the thousands.
fn grouped(number: f64) -> String {
    let digits = format!("{number:.0}");
    let mut text = String::new();
    for (i, digit) in digits.chars().enumerate() {
        if i > 0 && (digits.len() - i) % 3 == 0 {
            text.push(',')
        }
        text.push(digit);
    }
    text
}

fn text(out: &mut String, x: f64, y: f64, size: u32, anchor: &str, extra: &str, content: &str) {
    let _ = writeln!(
        out,
        r##"<text x="{x:.1}" y="{y:.1}" font-size="{size}" text-anchor="{anchor}"{extra}>{content}</text>"##
    );
}

fn line(out: &mut String, from: (f64, f64), to: (f64, f64), colour: &str, width: f64) {
    let ((x1, y1), (x2, y2)) = (from, to);
    let _ = writeln!(
        out,
        r##"<line x1="{x1:.1}" y1="{y1:.1}" x2="{x2:.1}" y2="{y2:.1}" stroke="{colour}" stroke-width="{width}"/>"##
    );
}

fn marker(out: &mut String, style: &Style, x: f64, y: f64) {
    let colour = style.colour;
    let polygon = |points: &[(f64, f64)]| {
        let corners: Vec<String> = points.iter().map(|(dx, dy)| format!("{:.1},{:.1}", x + dx, y + dy)).collect();
        format!(r##"<polygon points="{}" fill="{colour}"/>"##, corners.join(" "))
    };
    let shape = match style.marker {
        Marker::Circle => format!(r##"<circle cx="{x:.1}" cy="{y:.1}" r="4.5" fill="{colour}"/>"##),
        Marker::Ring => format!(
            r##"<circle cx="{x:.1}" cy="{y:.1}" r="3.8" fill="#ffffff" stroke="{colour}" stroke-width="1.8"/>"##
        ),
        Marker::Square => polygon(&[(-3.8, -3.8), (3.8, -3.8), (3.8, 3.8), (-3.8, 3.8)]),
        Marker::Triangle => polygon(&[(0.0, -5.0), (4.6, 3.6), (-4.6, 3.6)]),
        Marker::Diamond => polygon(&[(0.0, -5.4), (5.4, 0.0), (0.0, 5.4), (-5.4, 0.0)]),
    };
    let _ = writeln!(out, "{shape}");
}

fn polyline(out: &mut String, style: &Style, places: &[(f64, f64)]) {
    let points: Vec<String> = places.iter().map(|(x, y)| format!("{x:.1},{y:.1}")).collect();
    let Style { colour, width, dash, .. } = style;
    let _ = writeln!(
        out,
        r##"<polyline points="{}" fill="none" stroke="{colour}" stroke-width="{width}" stroke-dasharray="{dash}" stroke-linejoin="round"/>"##,
        points.join(" ")
    );
}

impl Figure {
    fn width(&self) -> f64 {
        let count = self.panels.len() as f64;
        LEFT + count * self.panel_width + (count - 1.0) * GAP + RIGHT
    }

    // The decades that hold every point.
    fn decades(&self) -> (i32, i32) {
        let values = self.panels.iter().flat_map(|p| &p.series).flat_map(|s| &s.points).map(|point| point.1);
        let (least, greatest) = values.fold((f64::MAX, f64::MIN_POSITIVE), |(a, b), v| (a.min(v), b.max(v)));
        let low = least.min(greatest).log10().floor() as i32;
        (low, (greatest.log10().ceil() as i32).max(low + 1))
    }

    fn x(&self, left: f64, value: f64) -> f64 {
        let (first, last) = (self.x_ticks[0].ln(), self.x_ticks[self.x_ticks.len() - 1].ln());
        left + INSET + (value.ln() - first) / (last - first) * (self.panel_width - 2.0 * INSET)
    }

    fn y(&self, value: f64) -> f64 {
        let (low, high) = self.decades();
        TOP + HEIGHT * (1.0 - (value.log10() - low as f64) / (high - low) as f64)
    }

    pub fn svg(&self) -> String {
        let (width, height) = (self.width(), TOP + HEIGHT + BOTTOM);
        let mut out = format!(
            r##"<svg xmlns="http://www.w3.org/2000/svg" width="{width:.0}" height="{height:.0}" viewBox="0 0 {width:.0} {height:.0}" "##
        );
        out.push_str("font-family=\"'DejaVu Sans', Verdana, Arial, sans-serif\" fill=\"#222222\">\n");
        let _ = writeln!(out, r##"<rect x="0" y="0" width="{width:.0}" height="{height:.0}" fill="#ffffff"/>"##);
        text(&mut out, LEFT, 28.0, 16, "start", r##" font-weight="bold""##, &self.title);
        self.legend(&mut out);
        let middle = TOP + HEIGHT / 2.0;
        let turned = format!(r##" transform="rotate(-90 18 {middle:.1})""##);
        text(&mut out, 18.0, middle, 12, "middle", &turned, self.y_label);
        for (i, panel) in self.panels.iter().enumerate() {
            self.panel(&mut out, i, panel)
        }
        out.push_str("</svg>\n");
        out
    }

    // The series by name, in one row above the panels; the one drawn last comes first.
    fn legend(&self, out: &mut String) {
        let mut x = LEFT;
        for Series { style, .. } in self.panels.iter().take(1).flat_map(|p| &p.series).rev() {
            polyline(out, style, &[(x, 56.0), (x + 30.0, 56.0)]);
            marker(out, style, x + 15.0, 56.0);
            text(out, x + 37.0, 60.0, 12, "start", "", style.name);
            x += 37.0 + style.name.len() as f64 * CHARACTER + 14.0;
        }
    }

    fn panel(&self, out: &mut String, index: usize, panel: &Panel) {
        let left = LEFT + index as f64 * (self.panel_width + GAP);
        let (right, middle, bottom) = (left + self.panel_width, left + self.panel_width / 2.0, TOP + HEIGHT);
        text(out, middle, TOP - 12.0, 13, "middle", r##" font-weight="bold""##, &panel.title);
        self.grid(out, left, right, index == 0);
        for tick in &self.x_ticks {
            let x = self.x(left, *tick);
            line(out, (x, bottom), (x, bottom + 5.0), "#444444", 1.0);
            text(out, x, bottom + 19.0, 12, "middle", "", &grouped(*tick));
        }
        text(out, middle, bottom + 42.0, 12, "middle", "", self.x_label);
        line(out, (left, TOP), (left, bottom), "#444444", 1.0);
        line(out, (left, bottom), (right, bottom), "#444444", 1.0);
        for series in &panel.series {
            let places: Vec<(f64, f64)> = series.points.iter().map(|(x, y)| (self.x(left, *x), self.y(*y))).collect();
            polyline(out, &series.style, &places);
            for (x, y) in places {
                marker(out, &series.style, x, y)
            }
        }
    }

    // A line for each decade, with its number in the first panel, and faint ones at its double and fivefold.
    fn grid(&self, out: &mut String, left: f64, right: f64, numbered: bool) {
        let (low, high) = self.decades();
        for decade in low..=high {
            let value = 10f64.powi(decade);
            let y = self.y(value);
            line(out, (left, y), (right, y), "#c4c4c4", 1.0);
            if numbered {
                let number = if decade < 0 { format!("{value}") } else { grouped(value) };
                text(out, left - 8.0, y + 4.0, 12, "end", "", &number);
            }
            if decade < high {
                for y in [2.0, 5.0].map(|times| self.y(times * value)) {
                    line(out, (left, y), (right, y), "#ececec", 1.0)
                }
            }
        }
    }
}
