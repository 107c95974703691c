//! The kinds of request under their (hexadecimal) numbers. 01, section "Requests", the
//! first column of the table. [`Monitor`](crate::Monitor) has a function for each.

/// "new principal"; no operands.
pub const NEW_PRINCIPAL: u8 = 0x01;
/// "delegate"; operands "P Q".
pub const DELEGATE: u8 = 0x02;
/// "revoke"; operands "P Q".
pub const REVOKE: u8 = 0x03;
/// "acts for"; operands "P Q".
pub const ACTS_FOR: u8 = 0x04;
/// "new tag"; no operands.
pub const NEW_TAG: u8 = 0x05;
/// "new subtag"; operands "T, a supertag".
pub const NEW_SUBTAG: u8 = 0x06;
/// "grant"; operands "T P Q".
pub const GRANT: u8 = 0x07;
/// "ungrant"; operands "T P Q".
pub const UNGRANT: u8 = 0x08;
/// "authoritative"; operands "T".
pub const AUTHORITATIVE: u8 = 0x09;
/// "T into S"; operands "T".
pub const INTO_SECRECY: u8 = 0x0A;
/// "T out of S"; operands "T".
pub const OUT_OF_SECRECY: u8 = 0x0B;
/// "T into I"; operands "T".
pub const INTO_INTEGRITY: u8 = 0x0C;
/// "T out of I"; operands "T".
pub const OUT_OF_INTEGRITY: u8 = 0x0D;
/// "fork"; operands "P".
pub const FORK: u8 = 0x0E;
/// "end"; no operands.
pub const END: u8 = 0x0F;
/// "call"; operands "P".
pub const CALL: u8 = 0x10;
/// "return"; no operands.
pub const RETURN: u8 = 0x11;
/// "new object"; operands "kind, s, i".
pub const NEW_OBJECT: u8 = 0x12;
/// "delete"; operands "O".
pub const DELETE: u8 = 0x13;
/// "read cell"; operands "O".
pub const READ_CELL: u8 = 0x14;
/// "write cell"; operands "O, message".
pub const WRITE_CELL: u8 = 0x15;
/// "put"; operands "O queue, message".
pub const PUT: u8 = 0x16;
/// "get"; operands "O queue".
pub const GET: u8 = 0x17;
/// "lock"; operands "O lock".
pub const LOCK: u8 = 0x18;
/// "unlock"; operands "O lock".
pub const UNLOCK: u8 = 0x19;
/// "send out"; operands "message".
pub const SEND_OUT: u8 = 0x1A;
/// "bring in"; operands "message".
pub const BRING_IN: u8 = 0x1B;

/// Whether a request of this kind is answered a message: "the message" stands in its last
/// column, or "first message, removed".
pub fn answers_message(kind: u8) -> bool {
    matches!(kind, READ_CELL | GET | SEND_OUT | BRING_IN)
}
