//! From a frame to a request, or refusal 1.
//! Document 01, section "Requests", the columns of kinds and operands; and of
//! "Refusal numbers" the line of 1.

use crate::answers::Refusal;
use crate::kinds;
use crate::state::ObjectKind;
use crate::things::*;

#[derive(Clone, Debug, PartialEq, Eq)]
pub enum Request {
    NewPrincipal,
    Delegate(Principal, Principal),
    Revoke(Principal, Principal),
    ActsFor(Principal, Principal),
    NewTag,
    NewSubtag(Tag),
    Grant(Tag, Principal, Principal),
    Ungrant(Tag, Principal, Principal),
    Authoritative(Tag),
    IntoSecrecy(Tag),
    OutOfSecrecy(Tag),
    IntoIntegrity(Tag),
    OutOfIntegrity(Tag),
    Fork(Principal),
    End,
    Call(Principal),
    Return,
    NewObject(ObjectKind, Label, Label),
    Delete(Object),
    ReadCell(Object),
    WriteCell(Object, Message),
    Put(Object, Message),
    Get(Object),
    Lock(Object),
    Unlock(Object),
    SendOut(Message),
    BringIn(Message),
}

/// "A frame is thread byte, kind byte, operands."
#[derive(Clone, Debug, PartialEq, Eq)]
pub struct Frame {
    pub thread: Thread,
    pub kind: u8,
    pub request: Request,
}

/// All reasons for 1 are one class, and stand before any look at the tables.
pub fn read_frame(frame: &[u8]) -> Result<Frame, Refusal> {
    match frame {
        [thread, kind, operands @ ..] => Ok(Frame {
            thread: Thread(*thread),
            kind: *kind,
            request: read_request(*kind, operands).ok_or(Refusal::Malformed)?,
        }),
        _ => Err(Refusal::Malformed),
    }
}

/// None for an unknown kind or operands of the wrong form.
fn read_request(kind: u8, operands: &[u8]) -> Option<Request> {
    let request = match (kind, operands) {
        (kinds::NEW_PRINCIPAL, &[]) => Request::NewPrincipal,
        (kinds::DELEGATE, &[p, q]) => Request::Delegate(Principal(p), Principal(q)),
        (kinds::REVOKE, &[p, q]) => Request::Revoke(Principal(p), Principal(q)),
        (kinds::ACTS_FOR, &[p, q]) => Request::ActsFor(Principal(p), Principal(q)),
        (kinds::NEW_TAG, &[]) => Request::NewTag,
        (kinds::NEW_SUBTAG, &[t]) => Request::NewSubtag(Tag(t)),
        (kinds::GRANT, &[t, p, q]) => Request::Grant(Tag(t), Principal(p), Principal(q)),
        (kinds::UNGRANT, &[t, p, q]) => Request::Ungrant(Tag(t), Principal(p), Principal(q)),
        (kinds::AUTHORITATIVE, &[t]) => Request::Authoritative(Tag(t)),
        (kinds::INTO_SECRECY, &[t]) => Request::IntoSecrecy(Tag(t)),
        (kinds::OUT_OF_SECRECY, &[t]) => Request::OutOfSecrecy(Tag(t)),
        (kinds::INTO_INTEGRITY, &[t]) => Request::IntoIntegrity(Tag(t)),
        (kinds::OUT_OF_INTEGRITY, &[t]) => Request::OutOfIntegrity(Tag(t)),
        (kinds::FORK, &[p]) => Request::Fork(Principal(p)),
        (kinds::END, &[]) => Request::End,
        (kinds::CALL, &[p]) => Request::Call(Principal(p)),
        (kinds::RETURN, &[]) => Request::Return,
        (kinds::NEW_OBJECT, operands) => read_new_object(operands)?,
        (kinds::DELETE, &[o]) => Request::Delete(Object(o)),
        (kinds::READ_CELL, &[o]) => Request::ReadCell(Object(o)),
        (kinds::WRITE_CELL, [o, rest @ ..]) => Request::WriteCell(Object(*o), read_message(rest)?),
        (kinds::PUT, [o, rest @ ..]) => Request::Put(Object(*o), read_message(rest)?),
        (kinds::GET, &[o]) => Request::Get(Object(o)),
        (kinds::LOCK, &[o]) => Request::Lock(Object(o)),
        (kinds::UNLOCK, &[o]) => Request::Unlock(Object(o)),
        (kinds::SEND_OUT, operands) => Request::SendOut(read_message(operands)?),
        (kinds::BRING_IN, operands) => Request::BringIn(read_message(operands)?),
        _ => return None,
    };
    Some(request)
}

/// Operands "kind, s, i".
fn read_new_object(operands: &[u8]) -> Option<Request> {
    if operands.len() != 1 + 2 * LABEL_BYTES {
        return None;
    }
    let kind = ObjectKind::from_number(operands[0])?;
    let (s, i) = operands[1..].split_at(LABEL_BYTES);
    Some(Request::NewObject(kind, read_label(s), read_label(i)))
}

/// "Labels are 8 bytes, most significant first."
fn read_label(label: &[u8]) -> Label {
    let append = |number: u64, byte: &u8| number << 8 | u64::from(*byte);
    Label::from_bits(label.iter().fold(0, append))
}

/// "A message operand is a length byte and that many bytes."
fn read_message(operand: &[u8]) -> Option<Message> {
    let (length, message) = operand.split_first()?;
    let right = message.len() == usize::from(*length) && message.len() <= MAX_MESSAGE;
    right.then(|| message.to_vec())
}
