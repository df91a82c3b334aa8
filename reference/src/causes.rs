//! Document 01, "Causes and their numbers", and document 02's further ones.

/// The number a call answers with.
pub type Number = u8;

pub const DONE: Number = 0;
/// A lent buffer of another length.
pub const BUFFER: Number = 1;
/// An event field over its range.
pub const FIELD: Number = 2;
/// An event after 1,000,000 events, a reading after 60 readings.
pub const FULL: Number = 3;
/// A line over 80 bytes, or with a byte outside 32 to 126.
pub const LINE: Number = 4;
/// An unknown keyword or a wrong argument.
pub const COMMAND: Number = 5;
/// A commit waits.
pub const COMMIT_WAITS: Number = 6;
/// 32 commands were accepted in this frame.
pub const COMMANDS_FULL: Number = 7;
/// A package with no N, N below 2 or N not matching the bytes.
pub const PACKAGE: Number = 8;
/// A package that passes staging's end.
pub const STAGING_END: Number = 9;
/// A package whose sum is wrong.
pub const PACKAGE_SUM: Number = 10;
/// A packet that is not 272 bytes long or has none of the headers.
pub const HEADER: Number = 11;
/// A packet whose sum is wrong.
pub const PACKET_SUM: Number = 12;
/// A packet whose body has a fault.
pub const BODY: Number = 13;
/// No such listing packet: i over 249, or an address that is none of the 250; before 13.
pub const LISTING_ADDRESS: Number = 14;
/// An ask or a commit while a staged byte is bad; after 7.
pub const STAGED_BAD: Number = 15;
/// A commit whose sum is not that of the staged bytes; after 15.
pub const COMMIT_SUM: Number = 16;
/// On the way back: no first-edition code has some rate's least count; after 13.
pub const NO_FIRST_CODE: Number = 17;
