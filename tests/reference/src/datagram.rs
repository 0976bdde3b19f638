//! Datagrams: their fields, how they are read and how they are written.

use crate::bucket::{self, Pair, Table};
use crate::refusal::{Refusal, DATAGRAM_FORM, OUTPUT_SHORT};

pub const PLEASEVOTE: u8 = 1;
pub const ACKVOTE: u8 = 2;
pub const NACKVOTE: u8 = 3;
pub const REPLICAWRITE: u8 = 4;
pub const ACKWRITE: u8 = 5;
pub const NACKWRITE: u8 = 6;
pub const REPLICAREAD: u8 = 7;
pub const ACKREAD: u8 = 8;
pub const NACKREAD: u8 = 9;

/// Length without and with a bucket, and the bucket's first byte.
pub const SHORT: usize = 10;
pub const LONG: usize = 129;
const BUCKET_AT: usize = 16;

/// Version of a bucket's content, ordered by number, then counter.
#[derive(Clone, Copy, PartialEq, Eq, PartialOrd, Ord, Debug)]
pub struct Version {
    pub number: u16,
    pub counter: u32,
}

impl Version {
    pub const NONE: Self = Version {
        number: 0,
        counter: 0,
    };
}

/// Everything of a datagram but its table. Kinds without a bucket do not use
/// the version.
#[derive(Clone, Copy, PartialEq, Eq, Debug)]
pub struct Header {
    pub kind: u8,
    pub from: u8,
    pub to: u8,
    pub bucket: u8,
    pub number: u16,
    pub round: u32,
    pub version: Version,
}

impl Header {
    /// Whether this kind carries a version and a bucket.
    pub fn has_bucket(&self) -> bool {
        self.kind == REPLICAWRITE || self.kind == ACKREAD
    }

    /// A reply of this kind: it carries bucket, number and round of what it
    /// answers.
    pub fn reply(&self, kind: u8) -> Header {
        Header {
            kind,
            from: self.to,
            to: self.from,
            version: Version::NONE,
            ..*self
        }
    }

    fn length(&self) -> usize {
        if self.has_bucket() {
            LONG
        } else {
            SHORT
        }
    }

    /// Holds the fields to the form; `empty` says that the table has no key.
    fn is_well_formed(&self, empty: bool) -> bool {
        let vote = self.kind <= NACKVOTE;
        (PLEASEVOTE..=NACKREAD).contains(&self.kind)
            && self.from != self.to
            && self.from <= 6
            && self.to <= 6
            && self.bucket <= 7
            && self.number >= 1
            && vote == (self.round == 0)
            && (!vote || self.bucket == 0)
            && (!self.has_bucket() || self.version_fits(empty))
    }

    fn version_fits(&self, empty: bool) -> bool {
        let Version { number, counter } = self.version;
        (number == 0) == (counter == 0)
            && (number != 0 || empty)
            && (self.kind != REPLICAWRITE || number == self.number)
    }
}

/// Reads a datagram. 13 comes first, and only for a kind with a bucket at its
/// proper length; every other fault gives 14.
pub fn read(bytes: &[u8]) -> Result<(Header, Table), Refusal> {
    if bytes.len() != SHORT && bytes.len() != LONG {
        return Err(DATAGRAM_FORM);
    }
    let mut header = Header {
        kind: bytes[0],
        from: bytes[1],
        to: bytes[2],
        bucket: bytes[3],
        number: u16::from_be_bytes([bytes[4], bytes[5]]),
        round: four(&bytes[6..]),
        version: Version::NONE,
    };
    if bytes.len() != header.length() {
        return Err(DATAGRAM_FORM);
    }
    let mut table = Table::EMPTY;
    if header.has_bucket() {
        table = bucket::read(&bytes[BUCKET_AT..])?;
        header.version.number = u16::from_be_bytes([bytes[10], bytes[11]]);
        header.version.counter = four(&bytes[12..]);
    }
    if header.is_well_formed(table.is_empty()) {
        Ok((header, table))
    } else {
        Err(DATAGRAM_FORM)
    }
}

fn four(bytes: &[u8]) -> u32 {
    u32::from_be_bytes([bytes[0], bytes[1], bytes[2], bytes[3]])
}

/// Writes a datagram and gives its length: 13 for a table that breaks the
/// form, then 14, then 15. Kinds without a bucket do not look at the table.
/// Bytes of `out` past the datagram stay.
pub fn write(header: &Header, pairs: &[Pair], out: &mut [u8]) -> Result<usize, Refusal> {
    if header.has_bucket() {
        bucket::check(pairs)?;
    }
    if !header.is_well_formed(pairs.is_empty()) {
        return Err(DATAGRAM_FORM);
    }
    let out = out.get_mut(..header.length()).ok_or(OUTPUT_SHORT)?;
    out[..4].copy_from_slice(&[header.kind, header.from, header.to, header.bucket]);
    out[4..6].copy_from_slice(&header.number.to_be_bytes());
    out[6..10].copy_from_slice(&header.round.to_be_bytes());
    if header.has_bucket() {
        out[10..12].copy_from_slice(&header.version.number.to_be_bytes());
        out[12..16].copy_from_slice(&header.version.counter.to_be_bytes());
        bucket::write(pairs, &mut out[BUCKET_AT..])?;
    }
    Ok(header.length())
}
