//! A whole list of lines. 01, section "Lines".

use crate::answers::Refusal;
use crate::lend;

/// The room that the library wants at the end of the output: the longest answer as a line
/// and the last line.
const ENDING: usize = 69 + 19;

/// Answers a list of lines from the fresh state, as the line program does: one answer a
/// line, and last FF, questions, hits. A memory size over 64 is refused 11.
///
/// ```
/// let answers = suvdorkhun::run(8, b"0001\n0005\n000900\n")?;
/// assert_eq!(answers, b"0002\n0000\n0001\nFF0000000100000000\n");
/// # Ok::<(), suvdorkhun::Refusal>(())
/// ```
pub fn run(memory: usize, lines: &[u8]) -> Result<Vec<u8>, Refusal> {
    let mut store = vec![0; lend::STORE];
    let mut out = vec![0; lines.len() + ENDING];
    loop {
        let ran = lend::run(memory, &mut store, lines, &mut out);
        Refusal::check(ran.status)?;
        if ran.complete == 1 {
            out.truncate(ran.written);
            return Ok(out);
        }
        // A line has a byte or more and its answer 69 or fewer, so this ends soon.
        out.resize(out.len() * 2, 0);
    }
}
