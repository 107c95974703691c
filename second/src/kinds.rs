//! The kinds of request under their (hexadecimal) numbers.
//! Document 01, section "Requests", the first column of the table.

pub const NEW_PRINCIPAL: u8 = 0x01;
pub const DELEGATE: u8 = 0x02;
pub const REVOKE: u8 = 0x03;
pub const ACTS_FOR: u8 = 0x04;
pub const NEW_TAG: u8 = 0x05;
pub const NEW_SUBTAG: u8 = 0x06;
pub const GRANT: u8 = 0x07;
pub const UNGRANT: u8 = 0x08;
pub const AUTHORITATIVE: u8 = 0x09;
pub const INTO_SECRECY: u8 = 0x0A;
pub const OUT_OF_SECRECY: u8 = 0x0B;
pub const INTO_INTEGRITY: u8 = 0x0C;
pub const OUT_OF_INTEGRITY: u8 = 0x0D;
pub const FORK: u8 = 0x0E;
pub const END: u8 = 0x0F;
pub const CALL: u8 = 0x10;
pub const RETURN: u8 = 0x11;
pub const NEW_OBJECT: u8 = 0x12;
pub const DELETE: u8 = 0x13;
pub const READ_CELL: u8 = 0x14;
pub const WRITE_CELL: u8 = 0x15;
pub const PUT: u8 = 0x16;
pub const GET: u8 = 0x17;
pub const LOCK: u8 = 0x18;
pub const UNLOCK: u8 = 0x19;
pub const SEND_OUT: u8 = 0x1A;
pub const BRING_IN: u8 = 0x1B;

pub const FIRST: u8 = NEW_PRINCIPAL;
pub const LAST: u8 = BRING_IN;
