//! The program as it is run: arguments, exit statuses, and the comparison with
//! another line program.

use crate::case::{INPUT, OUTPUT};
use second::compare::first_difference;
use std::io::Write;
use std::process::{Command, Output, Stdio};

const SECOND: &str = env!("CARGO_BIN_EXE_second");

fn run(arguments: &[&str], input: &str) -> Output {
    let mut child = Command::new(SECOND)
        .args(arguments)
        .stdin(Stdio::piped())
        .stdout(Stdio::piped())
        .stderr(Stdio::piped())
        .spawn()
        .expect("run");
    let mut stdin = child.stdin.take().expect("piped");
    // A command that reads nothing may be gone by now.
    stdin.write_all(input.as_bytes()).ok();
    drop(stdin);
    child.wait_with_output().expect("ended")
}

fn text(bytes: &[u8]) -> String {
    String::from_utf8_lossy(bytes).into_owned()
}

#[test]
fn the_line_program_is_run_with_no_arguments_and_by_run() {
    for arguments in [&[][..], &["run"], &["run", "--memory", "8"]] {
        let output = run(arguments, INPUT);
        assert_eq!(output.status.code(), Some(0));
        assert_eq!(text(&output.stdout), OUTPUT);
        assert_eq!(text(&output.stderr), "");
    }
}

#[test]
fn a_memory_of_another_size() {
    let none = OUTPUT.replace("FF0000000400000001", "FF0000000400000000");
    let output = run(&["run", "--memory", "0"], INPUT);
    assert_eq!(text(&output.stdout), none);
    // Over 64 is refused as 11, told, and it goes on with size 0.
    let output = run(&["run", "--memory", "65"], INPUT);
    assert_eq!(text(&output.stdout), none);
    assert!(text(&output.stderr).contains("11"));
}

#[test]
fn wrong_arguments_end_with_2() {
    for arguments in [
        &["walk"][..],
        &["run", "--memory"],
        &["run", "--memory", "many"],
        &["run", "--memory", "-1"],
        &["generate"],
        &["generate", "x"],
        &["generate", "1", "nothing"],
        &["coverage"],
        &["coverage", "x"],
        &["compare"],
        &["compare", "1", "--"],
        &["compare", "1", "1", "second"],
        &["profiles", "all"],
    ] {
        let output = run(arguments, "");
        assert_eq!(output.status.code(), Some(2), "{:?}", arguments);
        assert!(text(&output.stderr).contains("--help"), "{:?}", arguments);
        assert_eq!(text(&output.stdout), "");
    }
}

#[test]
fn help_and_profiles() {
    let help = run(&["--help"], "");
    assert_eq!(help.status.code(), Some(0));
    assert!(text(&help.stdout).contains("second compare N [SEED] -- PROGRAM"));
    let profiles = text(&run(&["profiles"], "").stdout);
    assert!(profiles.lines().count() > 5);
    for line in profiles.lines() {
        let name = line.split_whitespace().next().expect("a name");
        let list = run(&["generate", "3", name], "");
        assert_eq!(list.status.code(), Some(0), "{}", name);
    }
}

#[test]
fn coverage_prints_the_table() {
    let table = text(&run(&["coverage", "15", "1"], "").stdout);
    assert!(table.starts_with("kind"));
    assert!(table.contains("\n1B "));
    assert!(table.contains("\nunknown "));
}

#[test]
fn a_comparison_with_itself_agrees() {
    let output = run(&["compare", "16", "5", "--", SECOND, "run"], "");
    assert_eq!(output.status.code(), Some(0));
    assert_eq!(text(&output.stdout), "16 lists agree\n");
}

#[test]
fn a_comparison_draws_and_tells_a_seed() {
    let output = run(&["compare", "1", "--", SECOND], "");
    assert_eq!(output.status.code(), Some(0));
    assert!(text(&output.stderr).starts_with("seed "));
}

/// Takes away the list that a comparison left, and gives its bytes.
fn left(report: &str) -> Vec<u8> {
    let mut lines = report.lines();
    let name = lines.find_map(|line| line.strip_prefix("left in: "));
    let name = name.expect("a file is named");
    let list = std::fs::read(name).expect("the file is there");
    std::fs::remove_file(name).expect("removed");
    list
}

#[test]
fn a_comparison_with_another_tells_the_difference() {
    let other = ["compare", "15", "6", "--", SECOND, "run", "--memory", "0"];
    let output = run(&other, "");
    let report = text(&output.stdout);
    assert_eq!(output.status.code(), Some(1));
    assert!(report.contains("\nsecond: FF"), "{}", report);
    assert!(report.contains("\nother:  FF"), "{}", report);
    let made = report
        .lines()
        .find_map(|line| line.strip_prefix("made by: "));
    let made: Vec<&str> = made.expect("told").split(' ').collect();
    assert_eq!(run(&made, "").stdout, left(&report));
}

#[test]
fn a_comparison_with_nothing_says_so() {
    let output = run(&["compare", "1", "1", "--", "there is no such program"], "");
    assert_eq!(output.status.code(), Some(1));
    assert!(text(&output.stderr).contains("there is no such program"));
}

#[test]
fn a_comparison_with_a_program_that_dies_says_so() {
    let output = run(&["compare", "1", "1", "--", SECOND, "wrong"], "");
    let report = text(&output.stdout);
    assert_eq!(output.status.code(), Some(1));
    assert!(report.contains("died"), "{}", report);
    left(&report);
}

#[test]
fn the_first_difference_is_told_by_its_line() {
    let (list, ours) = (b"0001\n0005\n", b"0002\n0000\nFF00\n");
    assert!(first_difference(list, ours, ours).is_none());
    let found = first_difference(list, ours, b"0002\n07\nFF00\n").expect("differs");
    assert_eq!(found.line, 2);
    assert_eq!(found.request, "0005");
    assert_eq!((found.ours.as_str(), found.theirs.as_str()), ("0000", "07"));
    let found = first_difference(list, ours, b"0002\n0000\n").expect("differs");
    assert_eq!((found.line, found.ours.as_str()), (3, "FF00"));
    let found = first_difference(list, ours, b"0002\n0000\nFF00").expect("differs");
    assert_eq!(found.line, 4);
    let found = first_difference(list, ours, b"").expect("differs");
    assert_eq!(found.line, 1);
}
