//! The whole case of document 01, section "Lines", byte for byte, and the empty
//! input of which it tells the output.

use second::lines::run;
use second::state::State;
use second::things::LINE_MEMORY;

/// What the line program prints.
pub fn printed(input: &[u8]) -> String {
    let mut output = Vec::new();
    run(&mut State::fresh(LINE_MEMORY), input, &mut output).expect("written");
    String::from_utf8(output).expect("digits")
}

pub const INPUT: &str = "\
0001
0005
00120000000000000000010000000000000000
000E02
011400
010A00
011400
011A0141
010B00
0007000102
010900
010900
0008000102
010B00
";

pub const OUTPUT: &str = "\
0002
0000
0000
0001
04
00
0000
04
05
00
0001
0001
00
05
FF0000000400000001
";

#[test]
fn the_whole_case() {
    assert_eq!(printed(INPUT.as_bytes()), OUTPUT);
}

#[test]
fn the_whole_case_without_the_last_line_feed() {
    assert_eq!(printed(INPUT.trim_end().as_bytes()), OUTPUT);
}

#[test]
fn empty_input() {
    assert_eq!(printed(b""), "FF0000000000000000\n");
}
