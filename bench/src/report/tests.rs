//! The writers on a small report: a goal is met, one is not, one system is left out, and
//! one section is told in seconds.

use super::markdown::markdown;
use super::picture::picture;
use super::{ratio, thousands, Goal, Report, Row, Section, Time, Told};

const TABLE: &str = "\
# Benchmark

- command: x
- A & B 1.0

![the times as bars](p.svg)

## Size <2>

About it.

| | ns a question, median | best | ratio to ours | goal | met |
|---|--:|--:|--:|--:|---|
| ours | 80.0 | 75.5 |  |  |  |
| slow | 4,000 | 3,900 | 50.0 | at least 20.0 | yes |
| near | 160.0 |  | 2.00 | at most 1.50 | no |
| gone \\| away | not measured: none here |  |  | at least 20.0 |  |

## Lists

In seconds.

| | s for 2,000 lines, median | best | lines a second | ratio to slow | goal | met |
|---|--:|--:|--:|--:|--:|---|
| slow | 4.000 | 3.000 | 500 |  |  |  |
| gone | not measured: none here |  |  |  |  |  |

## What is measured

- Things.
";

fn time(median: f64, best: f64) -> Time {
    let best = Some(best);
    Time { median, best }
}

fn questions() -> Section {
    let ours = Ok(time(80.0, 75.5));
    let twenty = Some(Goal::AtLeast(20.0));
    let slow = Row::new("slow", Ok(time(4000.0, 3900.0)));
    let near = Row::new("near", Ok(Time::less(&[200.0], &[40.0]).expect("more")));
    let gone = Row::new("gone | away", Err("none here".to_string()));
    Section {
        title: "Size <2>".to_string(),
        each: "question",
        told: Told::Nanoseconds,
        beside: "ours",
        about: "About it.".to_string(),
        rows: vec![
            Row::new("ours", ours.clone()).proved(),
            slow.beside(&ours).with_goal(twenty),
            near.beside(&ours).with_goal(Some(Goal::AtMost(1.5))),
            gone.beside(&ours).with_goal(twenty),
        ],
    }
}

fn lists() -> Section {
    Section {
        title: "Lists".to_string(),
        each: "line",
        told: Told::SecondsFor(2000),
        beside: "slow",
        about: "In seconds.".to_string(),
        rows: vec![
            Row::new("slow", Ok(time(2e6, 1.5e6))),
            Row::new("gone", Err("none here".to_string())),
        ],
    }
}

fn report() -> Report {
    let mut report = Report {
        facts: vec!["command: x".to_string()],
        ..Report::default()
    };
    report.add(Report {
        facts: vec!["A & B 1.0".to_string()],
        sections: vec![questions()],
        notes: vec!["Things.".to_string()],
    });
    report.sections.push(lists());
    report
}

#[test]
fn the_table_is_as_written() {
    assert_eq!(markdown(&report(), "p.svg"), TABLE);
}

#[test]
fn the_picture_shows_every_row() {
    let drawn = picture(&report());
    for words in [
        ">80 ns<",
        ">4 µs, × 50.0<",
        ">160 ns, × 2.00<",
        ">not measured<",
        ">Size &lt;2&gt;<",
        ">A &amp; B 1.0<",
    ] {
        assert!(drawn.contains(words), "{} in {}", words, drawn);
    }
    assert_eq!(drawn.matches("class=\"goal\"").count(), 2);
    assert_eq!(drawn.matches("class=\"bar proved\"").count(), 1);
}

/// The scale goes from 10 ns to 10 µs: each decade is a third of it.
#[test]
fn a_decade_is_as_long_as_another() {
    let drawn = picture(&report());
    let length = |ns: f64| (470.0 * (ns.log10() - 1.0) / 3.0 * 10.0).round() / 10.0;
    for ns in [80.0, 160.0, 4000.0] {
        let width = format!("width=\"{:.1}\" height=\"16.0\"", length(ns));
        assert!(drawn.contains(&width), "{} in {}", width, drawn);
    }
}

#[test]
fn an_empty_report_is_written_too() {
    let empty = Report::default();
    assert!(markdown(&empty, "p.svg").starts_with("# Benchmark\n"));
    assert!(picture(&empty).ends_with("</svg>\n"));
}

#[test]
fn rounds_have_a_middle_and_a_best() {
    assert_eq!(Time::of(vec![3.0, 1.0, 2.0]), Some(time(2.0, 1.0)));
    assert_eq!(Time::of(vec![4.0, 1.0, 2.0, 3.0]), Some(time(3.0, 1.0)));
    assert_eq!(Time::of(Vec::new()), None);
}

#[test]
fn a_part_is_taken_off_round_by_round() {
    let whole = [12.0, 31.0, 14.0];
    let left = Time {
        median: 3.0,
        best: None,
    };
    assert_eq!(Time::less(&whole, &[10.0, 28.0, 9.0]), Some(left));
    assert_eq!(Time::less(&whole, &[13.0, 32.0, 9.0]), None);
    assert_eq!(Time::less(&[], &[]), None);
}

#[test]
fn numbers_are_readable() {
    assert_eq!(ratio(0.871), "0.87");
    assert_eq!(ratio(9.996), "10.0");
    assert_eq!(ratio(99.96), "100");
    assert_eq!(ratio(1234.5), "1,234");
    assert_eq!(thousands(999.0), "999");
    assert_eq!(thousands(1234567.0), "1,234,567");
}
