//! The objects with their messages, and the rows 12 to 1B of document 01, section
//! "Requests".

use super::super::walk::{has, only};
use super::{refuse, Answer, Done, Message, Monitor, Refusal};

const OBJECTS: usize = 64;
const QUEUED: usize = 8;
const NO_MESSAGE: Message = [0; 33];

const CELL: u8 = 0;
const QUEUE: u8 = 1;
const LOCK: u8 = 2;

#[derive(Clone, Copy, Default)]
pub struct Object {
    pub kind: u8,
    /// How many messages a queue holds; 1 for a lock that is held.
    pub held: u8,
    pub secrecy: u64,
    pub integrity: u64,
}

pub struct Objects {
    pub live: u64,
    pub rows: [Object; OBJECTS],
    /// A cell's is the first of its eight, and so is the first of a queue.
    pub messages: [[Message; QUEUED]; OBJECTS],
}

impl Objects {
    pub fn none() -> Objects {
        Objects {
            live: 0,
            rows: [Object::default(); OBJECTS],
            messages: [[NO_MESSAGE; QUEUED]; OBJECTS],
        }
    }
}

impl Monitor {
    pub fn new_object(&mut self, t: usize, kind: u8, [secrecy, integrity]: [u64; 2]) -> Answer {
        let made = self.authority.all_tags_made(secrecy | integrity);
        refuse(Refusal::NamesNothing, !made)?;
        self.null(t)?;
        refuse(Refusal::Flow, integrity & !self.threads[t].integrity != 0)?;
        let free = (!self.objects.live).trailing_zeros() as usize;
        let row = self.objects.rows.get_mut(free).ok_or(Refusal::Full)?;
        *row = Object {
            kind,
            held: 0,
            secrecy,
            integrity,
        };
        self.objects.live |= 1 << free;
        Ok(Done::Number(free as u8))
    }

    pub fn delete(&mut self, t: usize, o: u8) -> Answer {
        refuse(Refusal::NamesNothing, !has(self.objects.live, o))?;
        self.null(t)?;
        let place = usize::from(o);
        let objects = &mut self.objects;
        let equal = self.threads[t].integrity == objects.rows[place].integrity;
        refuse(Refusal::Flow, !equal)?;
        objects.live &= !only(o);
        objects.rows[place] = Object::default();
        objects.messages[place] = [NO_MESSAGE; QUEUED];
        Ok(Done::Nothing)
    }

    pub fn read_cell(&self, t: usize, o: u8) -> Answer {
        let place = self.named(o, CELL)?;
        refuse(Refusal::Flow, !self.may_read(t, place))?;
        Ok(Done::Message(self.objects.messages[place][0]))
    }

    pub fn write_cell(&mut self, t: usize, o: u8, message: &Message) -> Answer {
        let place = self.named(o, CELL)?;
        refuse(Refusal::Flow, !self.may_write(t, place))?;
        self.objects.messages[place][0] = *message;
        Ok(Done::Nothing)
    }

    pub fn put(&mut self, t: usize, o: u8, message: &Message) -> Answer {
        let place = self.named(o, QUEUE)?;
        refuse(Refusal::Flow, !self.may_write(t, place))?;
        let held = &mut self.objects.rows[place].held;
        let next = self.objects.messages[place].get_mut(usize::from(*held));
        *next.ok_or(Refusal::Full)? = *message;
        *held += 1;
        Ok(Done::Nothing)
    }

    pub fn get(&mut self, t: usize, o: u8) -> Answer {
        let place = self.named(o, QUEUE)?;
        refuse(Refusal::Flow, !self.equal_labels(t, place))?;
        let held = &mut self.objects.rows[place].held;
        refuse(Refusal::EmptyOrHeld, *held == 0)?;
        let messages = &mut self.objects.messages[place][..usize::from(*held)];
        let first = messages[0];
        messages.copy_within(1.., 0);
        *held -= 1;
        messages[usize::from(*held)] = NO_MESSAGE;
        Ok(Done::Message(first))
    }

    pub fn lock(&mut self, t: usize, o: u8) -> Answer {
        let place = self.named(o, LOCK)?;
        refuse(Refusal::Flow, !self.equal_labels(t, place))?;
        let held = &mut self.objects.rows[place].held;
        refuse(Refusal::EmptyOrHeld, *held == 1)?;
        *held = 1;
        Ok(Done::Nothing)
    }

    pub fn unlock(&mut self, t: usize, o: u8) -> Answer {
        let place = self.named(o, LOCK)?;
        refuse(Refusal::Flow, !self.may_write(t, place))?;
        self.objects.rows[place].held = 0;
        Ok(Done::Nothing)
    }

    pub fn send_out(&self, t: usize, message: &Message) -> Answer {
        self.null(t)?;
        Ok(Done::Message(*message))
    }

    pub fn bring_in(&self, t: usize, message: &Message) -> Answer {
        refuse(Refusal::Flow, self.threads[t].integrity != 0)?;
        Ok(Done::Message(*message))
    }

    /// The place of a live object of the kind.
    fn named(&self, o: u8, kind: u8) -> Result<usize, Refusal> {
        let place = usize::from(o);
        let fits = has(self.objects.live, o) && self.objects.rows[place].kind == kind;
        refuse(Refusal::NamesNothing, !fits)?;
        Ok(place)
    }

    /// "s within S, and I within i"
    fn may_read(&self, t: usize, place: usize) -> bool {
        let (thread, object) = (&self.threads[t], &self.objects.rows[place]);
        object.secrecy & !thread.secrecy | thread.integrity & !object.integrity == 0
    }

    /// "S within s, and i within I"
    fn may_write(&self, t: usize, place: usize) -> bool {
        let (thread, object) = (&self.threads[t], &self.objects.rows[place]);
        thread.secrecy & !object.secrecy | object.integrity & !thread.integrity == 0
    }

    /// "S = s and I = i"
    fn equal_labels(&self, t: usize, place: usize) -> bool {
        let (thread, object) = (&self.threads[t], &self.objects.rows[place]);
        thread.secrecy == object.secrecy && thread.integrity == object.integrity
    }
}
