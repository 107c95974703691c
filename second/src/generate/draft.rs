//! A list in the making. The clean state runs alongside, so that threads and
//! operands can be drawn from what is there, and a line can be aimed at a wished
//! status. Frames are as in document 01, section "Requests".

use super::random::Random;
use crate::answers::{status, Done};
use crate::kinds;
use crate::lines::{answer_line, line_of_bytes, LINE_FEED};
use crate::monitor::step;
use crate::state::{ObjectKind, State};
use crate::things::*;

/// How many frames are drawn for a wished status before any is taken.
const TRIES: usize = 16;

/// The kinds whose last operand is a message.
const MESSAGE_KINDS: [u8; 4] = [
    kinds::WRITE_CELL,
    kinds::PUT,
    kinds::SEND_OUT,
    kinds::BRING_IN,
];

pub struct Draft {
    pub random: Random,
    /// Where the list has led so far, under the line program's M.
    pub state: State,
    text: Vec<u8>,
}

impl Draft {
    pub fn new(seed: u64) -> Draft {
        Draft::on(State::fresh(LINE_MEMORY), seed)
    }

    /// A list that goes on from these tables.
    pub fn on(state: State, seed: u64) -> Draft {
        Draft {
            random: Random::new(seed),
            state,
            text: Vec::new(),
        }
    }

    /// The list; the last line may lack its LF.
    pub fn finish(mut self) -> Vec<u8> {
        if self.random.percent(20) {
            self.text.pop();
        }
        self.text
    }

    /// Adds any line, well formed or not. Gives the number answered, if one is.
    pub fn line(&mut self, line: &[u8]) -> Option<u8> {
        self.text.extend(line);
        self.text.push(LINE_FEED);
        match answer_line(&mut self.state, line) {
            Ok(Done::Value(number)) => Some(number),
            _ => None,
        }
    }

    pub fn send(&mut self, t: Thread, kind: u8, operands: &[u8]) -> Option<u8> {
        let mut frame = vec![t.0, kind];
        frame.extend(operands);
        self.line(&line_of_bytes(&frame))
    }

    pub fn aim(&mut self, kind: u8, wished: u8) {
        let frame = self.aimed(kind, wished);
        self.line(&line_of_bytes(&frame));
    }

    /// A frame of the kind, one that is answered as wished if it can be drawn.
    pub fn aimed(&mut self, kind: u8, wished: u8) -> Vec<u8> {
        let mut frame = self.frame(kind);
        for _ in 0..TRIES {
            if status(&step(&mut self.state.clone(), &frame)) == wished {
                break;
            }
            frame = self.frame(kind);
        }
        frame
    }

    /// The end of the last thread would make every answer after it 2. It is put
    /// off, if not always.
    pub fn put_off(&mut self, kind: u8) -> bool {
        kind == kinds::END && self.state.threads.len() < 2 && !self.random.percent(2)
    }

    /// Lines of the given kinds, half of them aimed at being done.
    pub fn storm(&mut self, kinds: &[u8], lines: usize) {
        for _ in 0..lines {
            let kind = self.random.pick(kinds);
            if self.put_off(kind) {
                continue;
            }
            let refusal = self.random.pick(&[3, 4, 5, 6, 7, 8]);
            let wished = self.random.pick(&[0, 0, 0, refusal, refusal, 2]);
            self.aim(kind, wished);
        }
    }

    /// A well-formed frame of the kind, with operands from what is there.
    pub fn frame(&mut self, kind: u8) -> Vec<u8> {
        let mut frame = vec![self.thread(), kind];
        match kind {
            kinds::DELEGATE | kinds::REVOKE | kinds::ACTS_FOR => {
                frame.extend(self.principal_link(kind == kinds::REVOKE));
            }
            kinds::GRANT | kinds::UNGRANT => {
                frame.extend(self.tag_link(kind == kinds::UNGRANT));
            }
            kinds::NEW_SUBTAG | kinds::AUTHORITATIVE => frame.push(self.tag()),
            kinds::INTO_SECRECY..=kinds::OUT_OF_INTEGRITY => frame.push(self.tag()),
            kinds::FORK | kinds::CALL => frame.push(self.principal()),
            kinds::NEW_OBJECT => {
                frame.push(self.random.pick(&ObjectKind::ALL) as u8);
                frame.extend(self.label());
                frame.extend(self.label());
            }
            kinds::DELETE..=kinds::UNLOCK => frame.push(self.object(kind)),
            _ => {}
        }
        if MESSAGE_KINDS.contains(&kind) {
            frame.extend(self.message());
        }
        frame
    }

    /// A live thread, or now and then a freed number or one over 15.
    fn thread(&mut self) -> u8 {
        let live = self.state.threads.keys().map(|t| t.0);
        let free = self.state.free_thread().map_or(0, |t| t.0);
        match self.random.any(live) {
            Some(live) if !self.random.percent(4) => live,
            _ => self.random.pick(&[free, 15, 16, 255]),
        }
    }

    /// A made number, often a small one, or now and then one just or far beyond.
    fn made(&mut self, count: usize) -> u8 {
        if count == 0 || self.random.percent(4) {
            return self.random.pick(&[count as u8, 64, 255]);
        }
        let end = self.random.pick(&[count, count, count.min(6)]);
        self.random.below(end) as u8
    }

    pub fn principal(&mut self) -> u8 {
        self.made(self.state.authority.principals)
    }

    pub fn tag(&mut self) -> u8 {
        self.made(self.state.authority.tags.len())
    }

    /// Two principals; for a removal mostly those of a link that is there.
    fn principal_link(&mut self, there: bool) -> Vec<u8> {
        let held = self.state.authority.principal_links.iter().copied();
        match self.random.any(held) {
            Some(l) if there && self.random.percent(60) => vec![l.from.0, l.to.0],
            _ => vec![self.principal(), self.principal()],
        }
    }

    fn tag_link(&mut self, there: bool) -> Vec<u8> {
        let held = self.state.authority.tag_links.iter().copied();
        match self.random.any(held) {
            Some(l) if there && self.random.percent(60) => {
                vec![l.tag.0, l.link.from.0, l.link.to.0]
            }
            // From one who holds the tag by grant, so that chains grow.
            Some(l) if self.random.percent(40) => vec![l.tag.0, l.link.to.0, self.principal()],
            _ => vec![self.tag(), self.principal(), self.principal()],
        }
    }

    /// A live object that fits the kind, or another, or none.
    fn object(&mut self, kind: u8) -> u8 {
        let fits = |fitting: ObjectKind| match kind {
            kinds::READ_CELL | kinds::WRITE_CELL => fitting == ObjectKind::Cell,
            kinds::PUT | kinds::GET => fitting == ObjectKind::Queue,
            kinds::LOCK | kinds::UNLOCK => fitting == ObjectKind::Lock,
            _ => true,
        };
        let objects = self.state.objects.iter();
        let fitting = objects.filter(|(_, row)| fits(row.contents.kind()));
        let fitting = fitting.map(|(o, _)| o.0);
        match self.random.any(fitting) {
            Some(o) if self.random.percent(90) => o,
            _ => self.random.pick(&[0, 1, 2, 3, 5, 8, 63, 64, 255]),
        }
    }

    /// Empty, a thread's or an object's, a tag or two, or now and then any bits.
    fn label(&mut self) -> [u8; LABEL_BYTES] {
        let threads = self.state.threads.values();
        let objects = self.state.objects.values();
        let of_threads = threads.flat_map(|row| [row.secrecy.bits(), row.integrity.bits()]);
        let of_objects = objects.flat_map(|row| [row.secrecy.bits(), row.integrity.bits()]);
        let there = self.random.any(of_threads.chain(of_objects)).unwrap_or(0);
        let tag = 1u64.checked_shl(self.tag().into()).unwrap_or(0);
        let unlikely = self.random.draw() & self.random.draw();
        let bits = match self.random.below(100) {
            0..=34 => 0,
            35..=59 => there,
            60..=79 => tag,
            80..=95 => there | tag,
            _ => unlikely,
        };
        bits.to_be_bytes()
    }

    /// A message operand: its length byte and the bytes.
    pub fn message(&mut self) -> Vec<u8> {
        let some = self.random.below(MAX_MESSAGE + 1);
        let length = self.random.pick(&[0, 1, some, MAX_MESSAGE]);
        let mut message = vec![length as u8];
        message.extend((0..length).map(|_| self.random.byte()));
        message
    }
}
