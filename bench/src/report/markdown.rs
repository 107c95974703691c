//! A report as Markdown: the facts, a table a section, and what was measured.

use super::{ratio, thousands, Measured, Report, Row, Section, Told};

/// `picture` is the file that stands beside it.
pub fn markdown(report: &Report, picture: &str) -> String {
    let mut text = String::from("# Benchmark\n\n");
    text.push_str(&bullets(&report.facts));
    text.push_str(&format!("\n![the times as bars]({})\n", picture));
    for section in &report.sections {
        text.push_str(&table(section));
    }
    if !report.notes.is_empty() {
        text.push_str("\n## What is measured\n\n");
        text.push_str(&bullets(&report.notes));
    }
    text
}

fn bullets(lines: &[String]) -> String {
    lines.iter().map(|line| format!("- {}\n", line)).collect()
}

fn table(section: &Section) -> String {
    let mut text = format!("\n## {}\n\n{}\n\n", section.title, section.about);
    let heads = heads(section);
    text.push_str(&format!(
        "| | {} | ratio to {} | goal | met |\n",
        heads.join(" | "),
        section.beside
    ));
    text.push_str(&format!(
        "|---|{}--:|--:|---|\n",
        "--:|".repeat(heads.len())
    ));
    let rows = section.rows.iter().map(|row| {
        let mut times = times(section.told, &row.time);
        times.resize(heads.len(), String::new());
        line(row, &times)
    });
    text.extend(rows);
    text
}

/// What stands above the times.
fn heads(section: &Section) -> Vec<String> {
    let each = section.each;
    let best = "best".to_string();
    match section.told {
        Told::Nanoseconds => vec![format!("ns a {}, median", each), best],
        Told::SecondsFor(pieces) => vec![
            format!("s for {} {}s, median", thousands(pieces as f64), each),
            best,
            format!("{}s a second", each),
        ],
    }
}

/// A cell for each head, or why there is no time.
fn times(told: Told, time: &Measured) -> Vec<String> {
    let time = match time {
        Ok(time) => time,
        Err(why) => return vec![format!("not measured: {}", cell(why))],
    };
    let best = |tell: &dyn Fn(f64) -> String| time.best.map_or(String::new(), tell);
    match told {
        Told::Nanoseconds => vec![nanoseconds(time.median), best(&nanoseconds)],
        Told::SecondsFor(pieces) => {
            let seconds = |each: f64| format!("{:.3}", each * pieces as f64 / SECOND);
            let speed = thousands(SECOND / time.median);
            vec![seconds(time.median), best(&seconds), speed]
        }
    }
}

fn line(row: &Row, times: &[String]) -> String {
    let beside = row.ratio.map_or(String::new(), ratio);
    let goal = row.goal.map_or(String::new(), |goal| {
        format!("{} {}", goal.words(), ratio(goal.bound()))
    });
    let met = match row.met() {
        Some(true) => "yes",
        Some(false) => "no",
        None => "",
    };
    format!(
        "| {} | {} | {} | {} | {} |\n",
        cell(&row.name),
        times.join(" | "),
        beside,
        goal,
        met
    )
}

/// In nanoseconds.
const SECOND: f64 = 1e9;

/// One place after the point below 1,000.
fn nanoseconds(value: f64) -> String {
    if value < 999.95 {
        format!("{:.1}", value)
    } else {
        thousands(value)
    }
}

/// A bar would end the cell.
fn cell(words: &str) -> String {
    words.replace('|', "\\|")
}
