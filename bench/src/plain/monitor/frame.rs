//! A frame: thread byte, kind byte, operands, and the refusal 1. Document 01,
//! section "Requests", the columns of kinds and operands.

/// The most bytes of a frame: 15 or 16 with a message of 32 bytes.
pub const LONGEST: usize = 36;

/// "A message is 0 to 32 bytes": a length byte and the bytes, then zeros.
pub type Message = [u8; 33];
const LONGEST_MESSAGE: u8 = 32;

/// Where the operands start, behind thread and kind.
const OPERANDS: usize = 2;

/// "of kind 0 cell, 1 queue, 2 lock"
const LAST_OBJECT_KIND: u8 = 2;
const NEW_OBJECT: u8 = 0x12;

/// No frame is as long.
const NO_LENGTH: u8 = 255;

/// The length of a frame by its kind. The length byte of a message is counted, its
/// bytes are not.
const LENGTHS: [u8; 0x1C] = [
    NO_LENGTH, // 00 is no kind
    2, 4, 4, 4, // 01 to 04
    2, 3, 5, 5, 3, // 05 to 09
    3, 3, 3, 3, // 0A to 0D
    3, 2, 3, 2, // 0E to 11
    19, 3, // 12, 13
    3, 4, 4, 3, // 14 to 17
    3, 3, // 18, 19
    3, 3, // 1A, 1B
];

pub struct Frame {
    /// Zero past the length.
    bytes: [u8; LONGEST],
    length: usize,
}

impl Frame {
    /// The bytes past the length must be zero.
    pub fn new(bytes: [u8; LONGEST], length: usize) -> Frame {
        Frame { bytes, length }
    }

    /// None of more bytes than a frame can have.
    pub fn read(frame: &[u8]) -> Option<Frame> {
        let mut bytes = [0; LONGEST];
        bytes.get_mut(..frame.len())?.copy_from_slice(frame);
        Some(Frame::new(bytes, frame.len()))
    }

    /// Not 1: "frame under 2 bytes, unknown kind, wrong length, message over 32, object
    /// kind over 2".
    pub fn well_formed(&self) -> bool {
        let least = match LENGTHS.get(usize::from(self.kind())) {
            Some(least) => usize::from(*least),
            None => return false,
        };
        let message = match self.kind() {
            0x15 | 0x16 | 0x1A | 0x1B => self.bytes[least - 1],
            _ => 0,
        };
        self.length == least + usize::from(message)
            && message <= LONGEST_MESSAGE
            && (self.kind() != NEW_OBJECT || self.bytes[OPERANDS] <= LAST_OBJECT_KIND)
    }

    pub fn thread(&self) -> usize {
        usize::from(self.bytes[0])
    }

    pub fn kind(&self) -> u8 {
        self.bytes[1]
    }

    /// The first three operand bytes, zero where there is none.
    pub fn operands(&self) -> [u8; 3] {
        self.at(OPERANDS)
    }

    /// s and i of a new object.
    pub fn labels(&self) -> [u64; 2] {
        let label = |place| u64::from_be_bytes(self.at(place));
        [label(OPERANDS + 1), label(OPERANDS + 9)]
    }

    /// The message of 1A and 1B.
    pub fn message(&self) -> &Message {
        self.message_at(OPERANDS)
    }

    /// The message of 15 and 16, behind the object's number.
    pub fn message_for_object(&self) -> &Message {
        self.message_at(OPERANDS + 1)
    }

    fn message_at(&self, place: usize) -> &Message {
        let bytes = &self.bytes[place..][..33];
        bytes.try_into().expect("33 bytes")
    }

    fn at<const N: usize>(&self, place: usize) -> [u8; N] {
        self.bytes[place..][..N].try_into().expect("N bytes")
    }
}
