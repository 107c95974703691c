//! A report as a picture: a bar a row, on a logarithmic scale that each section has for
//! itself. An SVG without scripts, links or fonts of its own.

use super::{ratio, Report, Row, Section};

const WIDTH: f64 = 960.0;
const MARGIN: f64 = 24.0;
/// Where the bars begin, and how long the scale is.
const START: f64 = 290.0;
const LENGTH: f64 = 470.0;
const ROW: f64 = 26.0;
const BAR: f64 = 16.0;
/// From the middle of a row down to where its words stand.
const STAND: f64 = 4.5;
/// Above the rows of a section: its title and the labels of its scale.
const HEAD: f64 = 62.0;
const GAP: f64 = 26.0;
const LINE: f64 = 18.0;

const STYLE: &str = "\
text { font-family: 'DejaVu Sans', Verdana, Arial, sans-serif; font-size: 13px; fill: #1f2933; }
.title { font-size: 15px; font-weight: bold; }
.small { font-size: 11px; fill: #52606d; }
.name { text-anchor: end; }
.value { paint-order: stroke; stroke: #fcfcfd; stroke-width: 4px; }
.decade { text-anchor: middle; }
.grid { stroke: #dde2e8; stroke-width: 1; }
.bar { fill: #9fb3c8; }
.proved { fill: #1c6ea4; }
.goal { stroke: #c2410c; stroke-width: 2.5; }
";

/// Whole decades of nanoseconds, as powers of ten.
struct Scale {
    from: i32,
    to: i32,
}

impl Scale {
    /// From a decade that lies below every time, so that every bar has a length, to one
    /// that no time or goal lies above.
    fn of(section: &Section) -> Scale {
        let times = section.rows.iter().filter_map(median);
        let goals = section.rows.iter().filter_map(goal_at);
        let logs: Vec<f64> = times.chain(goals).map(f64::log10).collect();
        let low = logs.iter().copied().reduce(f64::min).unwrap_or(0.0);
        let high = logs.iter().copied().reduce(f64::max).unwrap_or(0.0);
        let from = (low - 0.1).floor() as i32;
        let to = (high.ceil() as i32).max(from + 1);
        Scale { from, to }
    }

    fn at(&self, nanoseconds: f64) -> f64 {
        let decades = f64::from(self.to - self.from);
        START + LENGTH * (nanoseconds.log10() - f64::from(self.from)) / decades
    }
}

fn median(row: &Row) -> Option<f64> {
    row.time.as_ref().ok().map(|time| time.median)
}

/// The time at which the ratio is the goal.
fn goal_at(row: &Row) -> Option<f64> {
    Some(median(row)? / row.ratio? * row.goal?.bound())
}

pub fn picture(report: &Report) -> String {
    let mut drawn = String::new();
    let mut y = MARGIN;
    for section in &report.sections {
        y = draw(&mut drawn, section, y) + GAP;
    }
    for line in caption(report) {
        text(&mut drawn, "small", (MARGIN, y), &line);
        y += LINE;
    }
    format!(
        "<svg xmlns=\"http://www.w3.org/2000/svg\" width=\"{w}\" height=\"{h}\" \
         viewBox=\"0 0 {w} {h}\">\n\
         <style>\n{style}</style>\n\
         <rect width=\"{w}\" height=\"{h}\" fill=\"#fcfcfd\"/>\n{drawn}</svg>\n",
        w = WIDTH,
        h = y + MARGIN - LINE,
        style = STYLE,
        drawn = drawn
    )
}

fn caption(report: &Report) -> Vec<String> {
    let reading = "Medians on a logarithmic scale: each line is ten times the one before it. \
                   In blue the proved code; a red mark stands where a goal is.";
    let mut lines = vec![reading.to_string()];
    let facts = report.facts.iter().take(FACTS);
    lines.extend(facts.cloned());
    lines
}

/// So many facts stand below the picture; the table has all.
const FACTS: usize = 4;

/// Draws a section from y on and says where it ends.
fn draw(drawn: &mut String, section: &Section, y: f64) -> f64 {
    let scale = Scale::of(section);
    let top = y + HEAD;
    let end = top + ROW * section.rows.len() as f64;
    text(drawn, "title", (MARGIN, y + 14.0), &section.title);
    let unit = format!("time a {}, and ratio to {}", section.each, section.beside);
    text(drawn, "small", (MARGIN, y + 32.0), &unit);
    for power in scale.from..=scale.to {
        let (value, x) = (10f64.powi(power), scale.at(10f64.powi(power)));
        text(drawn, "small decade", (x, top - 8.0), &duration(value));
        line(drawn, "grid", x, top - 3.0, end);
    }
    for (place, row) in section.rows.iter().enumerate() {
        bar(drawn, &scale, row, top + ROW * (place as f64 + 0.5));
    }
    end
}

/// A row, its middle at y.
fn bar(drawn: &mut String, scale: &Scale, row: &Row, y: f64) {
    let stand = y + STAND;
    text(drawn, "name", (START - 10.0, stand), &row.name);
    let time = match median(row) {
        Some(time) => time,
        None => return text(drawn, "value small", (START + 8.0, stand), "not measured"),
    };
    let end = scale.at(time);
    let class = if row.proved { "bar proved" } else { "bar" };
    drawn.push_str(&format!(
        "<rect class=\"{}\" x=\"{:.1}\" y=\"{:.1}\" width=\"{:.1}\" height=\"{:.1}\"/>\n",
        class,
        START,
        y - BAR / 2.0,
        end - START,
        BAR
    ));
    let goal = goal_at(row).map(|goal| scale.at(goal));
    if let Some(x) = goal {
        line(drawn, "goal", x, y - BAR / 2.0 - 2.0, y + BAR / 2.0 + 2.0);
    }
    let after = end.max(goal.unwrap_or(end)) + 8.0;
    text(drawn, "value", (after, stand), &value(row, time));
}

fn value(row: &Row, time: f64) -> String {
    let beside = row
        .ratio
        .map_or(String::new(), |by| format!(", × {}", ratio(by)));
    format!("{}{}", duration(time), beside)
}

/// Nanoseconds with the unit that suits them, three digits at most after rounding.
fn duration(nanoseconds: f64) -> String {
    const UNITS: [&str; 4] = ["ns", "µs", "ms", "s"];
    let mut value = nanoseconds;
    let mut unit = 0;
    while value >= 999.5 && unit + 1 < UNITS.len() {
        value /= 1000.0;
        unit += 1;
    }
    let places = usize::from(value < 9.95 && value.fract() != 0.0);
    format!("{:.*} {}", places, value, UNITS[unit])
}

fn text(drawn: &mut String, class: &str, (x, y): (f64, f64), words: &str) {
    drawn.push_str(&format!(
        "<text class=\"{}\" x=\"{:.1}\" y=\"{:.1}\">{}</text>\n",
        class,
        x,
        y,
        escaped(words)
    ));
}

fn line(drawn: &mut String, class: &str, x: f64, from: f64, to: f64) {
    drawn.push_str(&format!(
        "<line class=\"{c}\" x1=\"{x:.1}\" x2=\"{x:.1}\" y1=\"{from:.1}\" y2=\"{to:.1}\"/>\n",
        c = class,
        x = x,
        from = from,
        to = to
    ));
}

fn escaped(words: &str) -> String {
    let words = words.replace('&', "&amp;");
    words.replace('<', "&lt;").replace('>', "&gt;")
}
