//! Calls: what they ask for, how far they are, and how they end.

use crate::bucket::{Key, Table, Value};
use crate::cluster::server::Replica;
use crate::datagram::Header;
use crate::hash;

/// The words of a call without its server; `del K` is `set K -`. A value, new
/// or expected, is `None` for an absent key, which differs from an empty value.
#[derive(Clone, Copy, PartialEq, Eq, Debug)]
pub enum Request {
    Get {
        key: Key,
    },
    Keys {
        bucket: u32,
    },
    Set {
        key: Key,
        value: Option<Value>,
    },
    SetIf {
        key: Key,
        expected: Option<Value>,
        value: Option<Value>,
    },
}

/// What a call does, by the table of a recovered copy.
#[derive(Clone, Copy, PartialEq, Eq, Debug)]
pub enum Verdict {
    Value,
    Keys,
    Mismatch,
    Full,
    Write,
}

/// How a call ended, with the data to print; the value of an absent key is
/// `None`.
#[derive(Clone, Copy, PartialEq, Eq, Debug)]
pub enum Outcome<'a> {
    Value(Option<&'a Value>),
    Keys(&'a [Key]),
    Done,
    Mismatch,
    Full,
    NotDone,
    Unknown,
}

/// Takes the answers of a line, in the order in which its calls end.
pub trait Answers {
    fn answer(&mut self, call: u32, rounds: u32, outcome: Outcome);
}

impl Request {
    /// The call's bucket where there are `buckets` of them.
    #[inline]
    pub fn bucket(&self, buckets: usize) -> usize {
        match self {
            Request::Keys { bucket } => *bucket as usize,
            Request::Get { key } | Request::Set { key, .. } | Request::SetIf { key, .. } => {
                hash::bucket_of(key.as_slice(), buckets)
            }
        }
    }

    /// Whether keys and values are of proper length.
    #[inline]
    pub fn lengths_fit(&self) -> bool {
        let is_key = |key: &Key| !key.is_empty() && key.fits();
        let fits = |value: &Option<Value>| value.as_ref().is_none_or(Value::fits);
        match self {
            Request::Keys { .. } => true,
            Request::Get { key } => is_key(key),
            Request::Set { key, value } => is_key(key) && fits(value),
            Request::SetIf {
                key,
                expected,
                value,
            } => is_key(key) && fits(expected) && fits(value),
        }
    }

    /// Decides by the table of a recovered copy; mismatch comes before full.
    #[inline]
    pub fn verdict(&self, table: &Table) -> Verdict {
        match self {
            Request::Get { .. } => Verdict::Value,
            Request::Keys { .. } => Verdict::Keys,
            Request::SetIf { key, expected, .. } if table.look_up(key) != expected.as_ref() => {
                Verdict::Mismatch
            }
            Request::Set { key, value } | Request::SetIf { key, value, .. } => {
                if value.is_none() || table.has_room(key) {
                    Verdict::Write
                } else {
                    Verdict::Full
                }
            }
        }
    }

    /// Changes the table as a call with verdict `Write` does.
    #[inline]
    pub fn apply(&self, table: &mut Table) {
        if let Request::Set { key, value } | Request::SetIf { key, value, .. } = self {
            match value {
                None => table.remove(key),
                // The verdict was `Write`, so the key has room.
                Some(value) => {
                    let _ = table.put(key, value);
                }
            }
        }
    }

    /// The value that a `get` finds, `None` where its key is absent.
    #[inline]
    pub fn found<'a>(&self, table: &'a Table) -> Option<&'a Value> {
        match self {
            Request::Get { key } => table.look_up(key),
            _ => None,
        }
    }
}

/// The round that a call waits for. `Closed` means that no call is open.
#[derive(Clone, Copy, PartialEq, Eq, Debug)]
pub enum Stage {
    Closed,
    RecoveryRead,
    RecoveryWrite,
    Check,
    OwnWrite,
}

/// An open round: one mark for each server, in one of the two sets.
#[derive(Clone, Copy, PartialEq, Eq, Debug)]
pub struct Round {
    pub number: u32,
    pub election: u16,
    pub acks: u8,
    pub refusals: u8,
}

impl Round {
    /// Whether a reply counts: same election and round, first of its server.
    /// The bucket is the one that the round was found by.
    #[inline]
    pub fn awaits(&self, reply: &Header) -> bool {
        self.number == reply.round
            && self.election == reply.number
            && (self.acks | self.refusals) & (1 << reply.from) == 0
    }
}

/// The place of one call at a server and bucket, with its open round.
#[derive(Clone, Copy, PartialEq, Eq, Debug)]
pub struct Call {
    pub stage: Stage,
    pub number: u32,
    pub rounds: u32,
    pub request: Request,
    pub round: Round,
    /// Greatest version among the acknowledgements of a recovery read.
    pub best: Replica,
}

impl Call {
    pub const NONE: Self = Call {
        stage: Stage::Closed,
        number: 0,
        rounds: 0,
        request: Request::Keys { bucket: 0 },
        round: Round {
            number: 0,
            election: 0,
            acks: 0,
            refusals: 0,
        },
        best: Replica::EMPTY,
    };

    #[inline]
    pub fn is_open(&self) -> bool {
        self.stage != Stage::Closed
    }
}
