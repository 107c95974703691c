//! The seamount (../examples/seamount.md) from Rust: a cable firm lends the chart house a
//! sounding, gives the grid compiler leave to release it, and withdraws the leave. Each
//! answer is printed in words; example.out has what must come out.

use suvdorkhun::{Label, Monitor, Object, ObjectKind, Principal, Refusal, Tag, Thread};

/// 1,100 metres, as a message.
const SOUNDING: [u8; 4] = 1100u32.to_be_bytes();

#[rustfmt::skip]
fn main() -> Result<(), Refusal> {
    let mut monitor = Monitor::new(8)?;
    let m = &mut monitor;
    let office = Thread::FIRST;

    let firm = given("the office makes a principal for the cable firm", m.new_principal(office))?;
    let grid = given("the office makes a principal for the grid compiler", m.new_principal(office))?;
    let firms = given("the office forks a job that runs as the firm", m.fork(office, firm))?;
    let grids = given("the office forks a job that runs as the grid compiler", m.fork(office, grid))?;
    let tag = given("the firm makes a tag", m.new_tag(firms))?;
    let (secret, plain) = (Label::from(tag), Label::EMPTY);
    let cell = m.new_object(firms, ObjectKind::Cell, secret, plain);
    let cell = given("the firm makes a cell with the tag in its secrecy", cell)?;

    tell("the firm's job takes on the tag", m.into_secrecy(firms, tag));
    tell("the firm's job writes the sounding into the cell", m.write_cell(firms, cell, &SOUNDING));
    tell("the firm's job takes the tag off", m.out_of_secrecy(firms, tag));

    tell("the grid job reads the cell", m.read_cell(grids, cell));
    tell("the grid job takes on the tag", m.into_secrecy(grids, tag));
    tell("the grid job reads the cell", m.read_cell(grids, cell));
    tell("the grid job sends the sounding out", m.send_out(grids, &SOUNDING));
    tell("the grid job takes the tag off", m.out_of_secrecy(grids, tag));

    tell("the firm grants the tag to the grid compiler", m.grant(firms, tag, firm, grid));
    tell("the grid job asks whether it is authoritative", m.authoritative(grids, tag));
    tell("the grid job takes the tag off", m.out_of_secrecy(grids, tag));
    tell("the grid job sends the sounding out", m.send_out(grids, &SOUNDING));
    tell("the grid job takes on the tag for the next tile", m.into_secrecy(grids, tag));

    tell("the firm withdraws the leave", m.ungrant(firms, tag, firm, grid));
    tell("the grid job takes the tag off", m.out_of_secrecy(grids, tag));
    tell("the grid job sends the sounding out", m.send_out(grids, &SOUNDING));
    println!("questions: {}, hits: {}", m.questions(), m.hits());
    Ok(())
}

/// Says what was asked and how it was answered.
fn tell<T: Words>(what: &str, answer: Result<T, Refusal>) {
    match answer {
        Ok(done) => println!("{}: {}", what, done.words()),
        Err(refusal) => println!("{}: {}", what, refusal),
    }
}

/// The same of a number that the story goes on with.
fn given<T: Words + Copy>(what: &str, answer: Result<T, Refusal>) -> Result<T, Refusal> {
    tell(what, answer);
    answer
}

/// What a request that is done gives, in words.
trait Words {
    fn words(&self) -> String;
}

impl Words for () {
    fn words(&self) -> String {
        "done".to_owned()
    }
}

impl Words for bool {
    fn words(&self) -> String {
        let word = if *self { "yes" } else { "no" };
        word.to_owned()
    }
}

impl Words for Vec<u8> {
    fn words(&self) -> String {
        let digits: String = self.iter().map(|byte| format!("{:02X}", byte)).collect();
        format!("message {}", digits)
    }
}

macro_rules! display_is_words {
    ($($number:ty)*) => { $(
        impl Words for $number {
            fn words(&self) -> String {
                self.to_string()
            }
        }
    )* };
}

display_is_words!(Principal Tag Thread Object);
