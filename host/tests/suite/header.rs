//! The C header says the same as the Rust files: the fields of the structs in order, the
//! numbers of the kinds, and the words of the refusals.

use suvdorkhun::Refusal;

const HEADER: &str = include_str!("../../suvdorkhun.h");
const RAW: &str = include_str!("../../src/raw.rs");
const KINDS: &str = include_str!("../../src/kinds.rs");

/// The names of the fields, struct by struct, where `of` finds one in a line of them.
fn fields(source: &str, open: &str, of: fn(&str) -> Option<&str>) -> Vec<Vec<String>> {
    let structs = source.split(open).skip(1);
    let inside = structs.map(|text| text.split("\n}").next().expect("it has a first part"));
    let names = |text: &str| text.lines().filter_map(of).map(str::to_owned).collect();
    inside.map(names).collect()
}

#[test]
fn the_structs_have_the_same_fields() {
    // `pub aside: [u8; 8],` and `uint8_t aside[8];`
    let ours = fields(RAW, "pub struct", |line| {
        line.trim().strip_prefix("pub ")?.split(':').next()
    });
    let theirs = fields(HEADER, "typedef struct {", |line| {
        let declared = line.strip_suffix(';')?.split_whitespace().nth(1)?;
        declared.split('[').next()
    });
    assert_eq!(ours.len(), 11);
    assert_eq!(ours, theirs);
}

#[test]
fn the_kinds_have_the_same_numbers() {
    // `pub const GRANT: u8 = 0x07;` and `SUVDORKHUN_GRANT = 0x07,`
    let numbered = |source: &str| -> Vec<(String, String)> {
        let parts = source.lines().filter_map(|line| line.split_once(" = 0x"));
        let number = |text: &str| text[..2].to_owned();
        parts
            .map(|(name, rest)| (name.trim().to_owned(), number(rest)))
            .collect()
    };
    let c_name = |name: &str| {
        let name = name.strip_prefix("pub const ").expect("a constant");
        format!("SUVDORKHUN_{}", name.trim_end_matches(": u8"))
    };
    let ours: Vec<_> = numbered(KINDS)
        .into_iter()
        .map(|(name, number)| (c_name(&name), number))
        .collect();
    assert_eq!(ours.len(), 27);
    assert_eq!(ours, numbered(HEADER));
}

#[test]
fn the_refusals_have_the_same_words() {
    for refusal in Refusal::ALL {
        let words = format!("return \"{}: {}\";", refusal.name(), refusal.sentence());
        assert!(HEADER.contains(&words), "{}", words);
    }
}
