//! The numbers that lines and records are refused with (RULES, Refusals
//! 3).

pub type Refusal = u8;

/// Line not of the known forms.
pub const FORM: Refusal = 1;
/// No cluster yet, a second one, or its numbers out of range.
pub const CLUSTER: Refusal = 2;
/// No such server or bucket.
pub const RANGE: Refusal = 3;
/// Key or value of wrong length.
pub const LENGTH: Refusal = 4;
/// 1,000,000 lines accepted before.
pub const LIMIT: Refusal = 5;
/// Named server is stopped.
pub const STOPPED: Refusal = 6;
/// No message at that place.
pub const NO_MESSAGE: Refusal = 7;
/// Call at a server that does not lead.
pub const NOT_LEADER: Refusal = 8;
/// A call is open there on that bucket.
pub const CALL_OPEN: Refusal = 9;
/// Timeout with no round open.
pub const NO_ROUND: Refusal = 10;
/// Election of a server whose number or vote is 65,535.
pub const LAST_ELECTION: Refusal = 11;
/// More to send than places left.
pub const NO_ROOM: Refusal = 12;
/// Bucket bytes, or a table to be written as them, break the form.
pub const BUCKET_FORM: Refusal = 13;
/// Datagram, read or to be written, breaks the form.
pub const DATAGRAM_FORM: Refusal = 14;
/// Lent output too short.
pub const OUTPUT_SHORT: Refusal = 15;
/// Start of a running server, or a cut of another kind of message, at a stopped
/// server, or after more stores than are made.
pub const RESTART: Refusal = 18;
