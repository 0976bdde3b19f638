//! Random keys, values and tables, and their bucket bytes.

#![allow(dead_code)]

use reference::bucket::{self, Key, Pair, Table, Value};
pub use reference::random_tables::{bytes, table};
use reference::scripts::Random;

/// Lengths that lent bytes come in: too short, right and too long.
pub const LENGTHS: [usize; 9] = [0, 1, 112, 113, 114, 128, 129, 130, 5000];

/// Fills lent outputs before a call.
pub const OLD: u8 = 0xaa;

pub fn any_bytes(random: &mut Random, length: usize) -> Vec<u8> {
    (0..length).map(|_| random.byte()).collect()
}

/// A table with the greatest lengths, which fills its 113 bytes.
pub fn full_table(random: &mut Random) -> Table {
    let mut table = Table::EMPTY;
    while table.keys().len() < 4 {
        let key = Key::new(&any_bytes(random, 8));
        let value = Value::new(&any_bytes(random, 16));
        let _ = table.put(&key, &value);
    }
    table
}

/// The bucket bytes of a table, by the independent version.
pub fn form(table: &Table) -> Vec<u8> {
    let mut out = vec![0xaa; bucket::SIZE];
    bucket::write(&table.pairs()[..table.keys().len()], &mut out).unwrap();
    out
}

/// Entries laid out as in a bucket, whatever they are: too many, too long, with
/// a key of no bytes, unsorted.
pub fn laid_out(entries: &[(Vec<u8>, Vec<u8>)]) -> Vec<u8> {
    let mut bucket = vec![entries.len() as u8];
    let mut end = 1 + 4 * entries.len();
    for part in entries.iter().flat_map(|(key, value)| [key, value]) {
        bucket.extend([end as u8, part.len() as u8]);
        end += part.len();
    }
    for (key, value) in entries {
        bucket.extend(key);
        bucket.extend(value);
    }
    bucket.resize(bucket::SIZE, 0);
    bucket
}

/// Up to six entries, sorted or not, in which each length may be wrong. Some
/// values are empty.
pub fn any_entries(random: &mut Random) -> Vec<(Vec<u8>, Vec<u8>)> {
    let longest = random.within(1, 9);
    let count = random.below(7);
    let entry = |_| (bytes(random, 0, longest), bytes(random, 0, 2 * longest - 1));
    let mut entries: Vec<_> = (0..count).map(entry).collect();
    if random.chance(800) {
        entries.sort();
    }
    if random.chance(800) {
        entries.retain(|(key, _)| !key.is_empty());
    }
    entries
}

/// Bytes with one to three of them changed, often by one.
pub fn damage(random: &mut Random, bytes: &mut [u8]) {
    for _ in 0..random.within(1, 3) {
        // Counts, offsets and lengths stand in front.
        let front = if random.chance(700) { 40 } else { bytes.len() };
        let at = random.below(front.min(bytes.len()));
        bytes[at] = match random.below(4) {
            0 => bytes[at].wrapping_add(1),
            1 => bytes[at].wrapping_sub(1),
            2 => 0,
            _ => random.byte(),
        };
    }
}

/// A table as the proved writers take it: entry i has its two lengths at 2i of
/// `lengths`, its key at 24i and its value at 24i + 8 of `bytes`.
pub struct Rows {
    pub count: usize,
    pub lengths: Vec<u8>,
    pub bytes: Vec<u8>,
}

impl Rows {
    /// A random table with up to two faults: too many entries and lengths above
    /// the arrays among them.
    pub fn any(random: &mut Random) -> Rows {
        let table = match random.below(10) {
            0 => full_table(random),
            _ => table(random),
        };
        let mut rows = Rows::of(random, &table.pairs()[..table.keys().len()]);
        for _ in 0..random.below(3) {
            rows.damage(random);
        }
        rows
    }

    /// A table's entries, with any bytes where none count.
    pub fn of(random: &mut Random, pairs: &[Pair]) -> Rows {
        let mut rows = Rows {
            count: pairs.len(),
            lengths: any_bytes(random, 8),
            bytes: any_bytes(random, 96),
        };
        for (at, (key, value)) in pairs.iter().enumerate() {
            rows.lengths[2 * at] = key.len() as u8;
            rows.lengths[2 * at + 1] = value.len() as u8;
            rows.bytes[24 * at..][..key.len()].copy_from_slice(key);
            rows.bytes[24 * at + 8..][..value.len()].copy_from_slice(value);
        }
        rows
    }

    /// One fault, or what may be one.
    fn damage(&mut self, random: &mut Random) {
        match random.below(6) {
            0 => self.count = *random.pick(&[0, 1, 4, 5, 6, 255, 256, usize::MAX]),
            1 => {
                if let Some(length) = self.lengths.get_mut(random.below(8)) {
                    *length = *random.pick(&[0, 1, 8, 9, 16, 17, 255]);
                }
            }
            2 => self.lengths.truncate(random.below(8)),
            3 => self.bytes.truncate(random.below(96)),
            4 => {
                let first = self.bytes.len().min(24);
                self.bytes.rotate_left(first);
            }
            _ if self.bytes.len() >= 48 => self.bytes.copy_within(0..24, 24),
            _ => {}
        }
    }

    /// The keys and values; missing bytes are 0. Five entries are too many,
    /// whatever they are.
    pub fn pairs(&self) -> Vec<(Vec<u8>, Vec<u8>)> {
        let byte = |from: &[u8], at: usize| from.get(at).copied().unwrap_or(0);
        let part = |at: usize, length: u8| {
            let places = at..at + usize::from(length);
            places.map(|at| byte(&self.bytes, at)).collect()
        };
        let entry = |at: usize| {
            let key = part(24 * at, byte(&self.lengths, 2 * at));
            let value = part(24 * at + 8, byte(&self.lengths, 2 * at + 1));
            (key, value)
        };
        (0..self.count.min(5)).map(entry).collect()
    }
}
