//! The growth table as a picture: small panels with logarithmic axes, a line for each side. It is one SVG without scripts
//! or fonts of its own; a viewer that prefers dark colours gets them.

/// The sides, in the order of a point's times and of the classes `s0`, `s1` and `s2`.
pub const SIDES: [&str; 3] = ["port", "Rust", "plain C"];

/// One size and what a call took there, in nanoseconds, by side.
pub struct Point {
    pub size: u64,
    pub sides: [Option<f64>; 3],
}

pub struct Panel {
    pub title: String,
    /// What a size counts.
    pub unit: &'static str,
    /// The sizes that have their number at the axis.
    pub named: Vec<u64>,
    pub points: Vec<Point>,
}

// All lengths are in pixels.
const PLOT_WIDTH: f64 = 284.0;
const PLOT_HEIGHT: f64 = 132.0;
const LEFT: f64 = 74.0;
const TOP: f64 = 112.0;
const BETWEEN_COLUMNS: f64 = 28.0;
const BETWEEN_ROWS: f64 = 66.0;
const BELOW: f64 = 46.0;
const COLUMNS: usize = 3;
const WIDTH: f64 = LEFT + COLUMNS as f64 * (PLOT_WIDTH + BETWEEN_COLUMNS);

const STYLE: &str = "\
text { font-family: system-ui, 'Segoe UI', 'Helvetica Neue', Arial, sans-serif; font-size: 11px; fill: #4a525c }
.head { font-size: 17px; font-weight: 600; fill: #1c2127 }
.title { font-size: 12px; font-weight: 600; fill: #1c2127 }
.page { fill: #ffffff }
.plot { fill: #f6f8fa; stroke: #c9d0d8 }
.grid { stroke: #e1e6eb }
.guide { stroke: #7d8791; stroke-dasharray: 3 4; fill: none }
.line { fill: none; stroke-width: 1.8; stroke-linejoin: round }
.s0.line { stroke: #0b62c4; stroke-width: 2.4 } .s0.mark { fill: #0b62c4 }
.s1.line { stroke: #d1560a } .s1.mark { fill: #d1560a }
.s2.line { stroke: #0a8a62 } .s2.mark { fill: #0a8a62 }
@media (prefers-color-scheme: dark) {
text { fill: #a9b3be }
.head, .title { fill: #e8ecf0 }
.page { fill: #14181d }
.plot { fill: #1b2027; stroke: #3b444e }
.grid { stroke: #2b323a }
.guide { stroke: #8a949f }
.s0.line { stroke: #6cb2ff } .s0.mark { fill: #6cb2ff }
.s1.line { stroke: #ff9d57 } .s1.mark { fill: #ff9d57 }
.s2.line { stroke: #41cf9f } .s2.mark { fill: #41cf9f }
}";

/// The picture. Panels of one row have one scale of times.
pub fn svg(note: &str, rows: &[Vec<Panel>]) -> String {
    let height = TOP + rows.len() as f64 * (PLOT_HEIGHT + BETWEEN_ROWS) - BETWEEN_ROWS + BELOW;
    let mut out = format!(
        "<svg xmlns=\"http://www.w3.org/2000/svg\" viewBox=\"0 0 {WIDTH} {height}\" width=\"{WIDTH}\" height=\"{height}\" \
         role=\"img\">\n<title>How the cost of a call grows</title>\n<style>\n{STYLE}\n</style>\n\
         <rect class=\"page\" width=\"{WIDTH}\" height=\"{height}\"/>\n"
    );
    out += &text(LEFT, 30.0, "head", "start", "How the cost of a call grows");
    let note =
        format!("Time of one call (a record: the mean over the whole index); {note}. Both axes are logarithmic.");
    out += &text(LEFT, 49.0, "", "start", &note);
    out += &legend();
    for (row, panels) in rows.iter().enumerate() {
        let scale = Decades::of(panels.iter().flat_map(|panel| &panel.points));
        for (column, panel) in panels.iter().enumerate() {
            let left = LEFT + column as f64 * (PLOT_WIDTH + BETWEEN_COLUMNS);
            let top = TOP + row as f64 * (PLOT_HEIGHT + BETWEEN_ROWS);
            out += &Plot { left, top, panel, scale }.drawn(column == 0);
        }
    }
    out + "</svg>\n"
}

fn legend() -> String {
    let mut out = String::new();
    let (mut x, y) = (LEFT, 70.0);
    for (side, name) in ["port", "Rust", "plain C (index alone)"].iter().enumerate() {
        out += &format!("<path class=\"s{side} line\" d=\"M{x} {y}h26\"/>\n{}", mark(side, x + 13.0, y, None));
        out += &text(x + 32.0, y + 4.0, "", "start", name);
        x += if side < 2 { 90.0 } else { 180.0 };
    }
    out += &format!("<path class=\"guide\" d=\"M{x} {y}h26\"/>\n");
    out + &text(x + 32.0, y + 4.0, "", "start", "in proportion to the size, from the port's first point")
}

/// The powers of ten between which all times of a row are.
#[derive(Clone, Copy)]
struct Decades {
    low: i32,
    high: i32,
}

impl Decades {
    fn of<'a>(points: impl Iterator<Item = &'a Point>) -> Self {
        let (mut least, mut most) = (f64::INFINITY, 0.0_f64);
        for time in points.flat_map(|point| point.sides).flatten() {
            (least, most) = (least.min(time), most.max(time));
        }
        let low = least.log10().floor() as i32;
        Self { low, high: (most.log10().ceil() as i32).max(low + 2) }
    }
}

struct Plot<'a> {
    left: f64,
    top: f64,
    panel: &'a Panel,
    scale: Decades,
}

impl Plot<'_> {
    fn x(&self, size: u64) -> f64 {
        const INSIDE: f64 = 12.0;
        let log = |size: u64| (size as f64).log2();
        let points = &self.panel.points;
        let (first, last) = (log(points[0].size), log(points[points.len() - 1].size));
        self.left + INSIDE + (PLOT_WIDTH - 2.0 * INSIDE) * (log(size) - first) / (last - first)
    }

    fn y(&self, time: f64) -> f64 {
        let Decades { low, high } = self.scale;
        self.top + PLOT_HEIGHT * (f64::from(high) - time.log10()) / f64::from(high - low)
    }

    fn bottom(&self) -> f64 {
        self.top + PLOT_HEIGHT
    }

    /// The whole panel; the times' numbers stand beside the first of a row alone.
    fn drawn(&self, first: bool) -> String {
        let Self { left, top, .. } = *self;
        let mut out = format!(
            "<g>\n<rect class=\"plot\" x=\"{left}\" y=\"{top}\" width=\"{PLOT_WIDTH}\" height=\"{PLOT_HEIGHT}\"/>\n"
        );
        out += &text(left, top - 8.0, "title", "start", &self.panel.title);
        out += &self.times(first);
        out += &self.sizes();
        out += &self.guide();
        // The port last, above the others.
        for side in (0..SIDES.len()).rev() {
            out += &self.line(side);
        }
        out + "</g>\n"
    }

    fn times(&self, first: bool) -> String {
        let Decades { low, high } = self.scale;
        let mut out = String::new();
        for decade in low..=high {
            let y = self.y(10_f64.powi(decade));
            if decade != low && decade != high {
                out += &format!("<path class=\"grid\" d=\"M{} {y:.1}h{PLOT_WIDTH}\"/>\n", self.left);
            }
            if first {
                out += &text(self.left - 7.0, y + 4.0, "", "end", &power_of_ten(decade));
            }
        }
        if first {
            let (x, y) = (self.left - 58.0, self.top + PLOT_HEIGHT / 2.0);
            out += &format!(
                "<text text-anchor=\"middle\" transform=\"translate({x} {y}) rotate(-90)\">time of a call</text>\n"
            );
        }
        out
    }

    fn sizes(&self) -> String {
        let mut out = String::new();
        for point in &self.panel.points {
            let x = self.x(point.size);
            out += &format!("<path class=\"grid\" d=\"M{x:.1} {}v{PLOT_HEIGHT}\"/>\n", self.top);
            if self.panel.named.contains(&point.size) {
                out += &text(x, self.bottom() + 15.0, "", "middle", &grouped(point.size));
            }
        }
        out + &text(self.left + PLOT_WIDTH / 2.0, self.bottom() + 30.0, "", "middle", self.panel.unit)
    }

    /// Where the port's line would go if its time were in proportion to the size.
    fn guide(&self) -> String {
        let points = &self.panel.points;
        let (from, to) = (points[0].size, points[points.len() - 1].size);
        let Some(time) = points[0].sides[0] else { return String::new() };
        // Up to the plot's edge.
        let factor = (to as f64 / from as f64).min(10_f64.powi(self.scale.high) / time);
        let along = factor.log2() / (to as f64 / from as f64).log2();
        let x = self.x(from) + along * (self.x(to) - self.x(from));
        let (x0, y0, y) = (self.x(from), self.y(time), self.y(time * factor));
        format!("<path class=\"guide\" d=\"M{x0:.1} {y0:.1}L{x:.1} {y:.1}\"/>\n")
    }

    fn line(&self, side: usize) -> String {
        let times: Vec<(u64, f64)> =
            self.panel.points.iter().filter_map(|point| Some((point.size, point.sides[side]?))).collect();
        if times.is_empty() {
            return String::new();
        }
        let places: Vec<String> =
            times.iter().map(|(size, time)| format!("{:.1} {:.1}", self.x(*size), self.y(*time))).collect();
        let mut out = format!("<path class=\"s{side} line\" d=\"M{}\"/>\n", places.join("L"));
        for (size, time) in times {
            let said = format!("{}, {} {}: {}", SIDES[side], grouped(size), self.panel.unit, duration(time));
            out += &mark(side, self.x(size), self.y(time), Some(&said));
        }
        out
    }
}

/// A side's mark, by its shape too: a disc, a square, a triangle. A viewer may show what it says.
fn mark(side: usize, x: f64, y: f64, said: Option<&str>) -> String {
    let shape = match side {
        0 => format!("M{:.1} {y:.1}a3.4 3.4 0 1 0 6.8 0a3.4 3.4 0 1 0 -6.8 0z", x - 3.4),
        1 => format!("M{:.1} {:.1}h5.6v5.6h-5.6z", x - 2.8, y - 2.8),
        _ => format!("M{x:.1} {:.1}l3.5 6.2h-7z", y - 3.9),
    };
    let title = said.map_or(String::new(), |said| format!("<title>{}</title>", escaped(said)));
    format!("<path class=\"s{side} mark\" d=\"{shape}\">{title}</path>\n")
}

fn text(x: f64, y: f64, class: &str, anchor: &str, words: &str) -> String {
    let class = if class.is_empty() { String::new() } else { format!(" class=\"{class}\"") };
    format!("<text{class} x=\"{x:.1}\" y=\"{y:.1}\" text-anchor=\"{anchor}\">{}</text>\n", escaped(words))
}

fn escaped(words: &str) -> String {
    words.replace('&', "&amp;").replace('<', "&lt;").replace('>', "&gt;")
}

/// Nanoseconds in the unit that suits them.
fn duration(nanoseconds: f64) -> String {
    match nanoseconds {
        ns if ns < 1e3 => format!("{ns:.1} ns"),
        ns if ns < 1e6 => format!("{:.2} µs", ns / 1e3),
        ns => format!("{:.2} ms", ns / 1e6),
    }
}

fn power_of_ten(decade: i32) -> String {
    let (number, unit) = match decade {
        ..=-1 => return format!("{} ns", 10_f64.powi(decade)),
        0..=2 => (decade, "ns"),
        3..=5 => (decade - 3, "µs"),
        6..=8 => (decade - 6, "ms"),
        _ => (decade - 9, "s"),
    };
    format!("{} {unit}", 10_u64.pow(number as u32))
}

/// The number with a comma before each three digits.
pub fn grouped(number: u64) -> String {
    let digits = number.to_string();
    let mut out = String::new();
    for (i, digit) in digits.chars().enumerate() {
        if i > 0 && (digits.len() - i) % 3 == 0 {
            out.push(',');
        }
        out.push(digit);
    }
    out
}
