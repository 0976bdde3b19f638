//! A bucket's table and its form of 113 bytes.

use crate::refusal::{Refusal, BUCKET_FORM, OUTPUT_SHORT};

/// Bytes of a bucket in its form.
pub const SIZE: usize = 113;
/// Most keys in one bucket.
pub const MOST_KEYS: usize = 4;
/// Longest key; the shortest has one byte.
pub const KEY: usize = 8;
/// Longest value; the shortest, the empty value, has no bytes.
pub const VALUE: usize = 16;

/// A short byte string. `len` is its true length; only the first `N` bytes
/// are kept, and bytes past the length are zero.
#[derive(Clone, Copy, PartialEq, Eq, Debug)]
pub struct Bytes<const N: usize> {
    bytes: [u8; N],
    len: u8,
}

pub type Key = Bytes<KEY>;
pub type Value = Bytes<VALUE>;

impl<const N: usize> Bytes<N> {
    pub const EMPTY: Self = Bytes {
        bytes: [0; N],
        len: 0,
    };

    /// Takes at most 255 bytes, of which the first `N` are kept.
    pub fn new(slice: &[u8]) -> Self {
        let mut bytes = Self::EMPTY;
        for &byte in slice {
            bytes.push(byte);
        }
        bytes
    }

    #[inline]
    pub fn push(&mut self, byte: u8) {
        if let Some(place) = self.bytes.get_mut(usize::from(self.len)) {
            *place = byte;
        }
        self.len += 1;
    }

    #[inline]
    pub fn len(&self) -> usize {
        usize::from(self.len)
    }

    #[inline]
    pub fn is_empty(&self) -> bool {
        self.len == 0
    }

    /// Whether the whole string is kept.
    #[inline]
    pub fn fits(&self) -> bool {
        self.len() <= N
    }

    /// The bytes of a string that fits.
    #[inline]
    pub fn as_slice(&self) -> &[u8] {
        &self.bytes[..self.len()]
    }
}

impl Key {
    /// Orders keys by their bytes, a shorter key before its extensions:
    /// padding with zeros makes only such pairs equal, and length decides them.
    #[inline]
    fn rank(&self) -> (u64, u8) {
        (u64::from_be_bytes(self.bytes), self.len)
    }
}

/// A key with its value, as handed in to be written.
pub type Pair<'a> = (&'a [u8], &'a [u8]);

/// There is no room for one more key.
#[derive(Clone, Copy, PartialEq, Eq, Debug)]
pub struct Full;

/// Keys in rising order with their values, some of which may be empty; places
/// past the last key are zeros.
#[derive(Clone, Copy, PartialEq, Eq, Debug)]
pub struct Table {
    count: u8,
    keys: [Key; MOST_KEYS],
    values: [Value; MOST_KEYS],
}

impl Table {
    pub const EMPTY: Self = Table {
        count: 0,
        keys: [Key::EMPTY; MOST_KEYS],
        values: [Value::EMPTY; MOST_KEYS],
    };

    #[inline]
    pub fn is_empty(&self) -> bool {
        self.count == 0
    }

    #[inline]
    pub fn keys(&self) -> &[Key] {
        &self.keys[..usize::from(self.count)]
    }

    /// The value of `key`, `None` where it is absent.
    #[inline]
    pub fn look_up(&self, key: &Key) -> Option<&Value> {
        self.place(key).ok().map(|at| &self.values[at])
    }

    /// Whether a value could be stored under `key`.
    #[inline]
    pub fn has_room(&self, key: &Key) -> bool {
        usize::from(self.count) < MOST_KEYS || self.place(key).is_ok()
    }

    /// Stores a value, which may be empty.
    pub fn put(&mut self, key: &Key, value: &Value) -> Result<(), Full> {
        let count = usize::from(self.count);
        match self.place(key) {
            Ok(at) => self.values[at] = *value,
            Err(_) if count == MOST_KEYS => return Err(Full),
            Err(at) => {
                self.keys.copy_within(at..count, at + 1);
                self.values.copy_within(at..count, at + 1);
                self.keys[at] = *key;
                self.values[at] = *value;
                self.count += 1;
            }
        }
        Ok(())
    }

    /// Takes `key` away where it stands.
    pub fn remove(&mut self, key: &Key) {
        let Ok(at) = self.place(key) else { return };
        let count = usize::from(self.count);
        self.keys.copy_within(at + 1..count, at);
        self.values.copy_within(at + 1..count, at);
        self.keys[count - 1] = Key::EMPTY;
        self.values[count - 1] = Value::EMPTY;
        self.count -= 1;
    }

    /// The table's entries, to be written; the first `keys().len()` are in use.
    pub fn pairs(&self) -> [Pair<'_>; MOST_KEYS] {
        std::array::from_fn(|at| (self.keys[at].as_slice(), self.values[at].as_slice()))
    }

    /// Where `key` stands, or where it would have to stand.
    #[inline]
    fn place(&self, key: &Key) -> Result<usize, usize> {
        let rank = key.rank();
        for (at, other) in self.keys().iter().enumerate() {
            if other.rank() >= rank {
                return if other == key { Ok(at) } else { Err(at) };
            }
        }
        Err(usize::from(self.count))
    }
}

/// Reads bucket bytes; 13 where they break the form.
pub fn read(bytes: &[u8]) -> Result<Table, Refusal> {
    if bytes.len() != SIZE || usize::from(bytes[0]) > MOST_KEYS {
        return Err(BUCKET_FORM);
    }
    let count = usize::from(bytes[0]);
    let mut table = Table::EMPTY;
    let mut end = 1 + 4 * count;
    for entry in bytes[1..end].chunks_exact(4) {
        let key = part(bytes, &mut end, entry[0], entry[1], KEY)?;
        let value = part(bytes, &mut end, entry[2], entry[3], VALUE)?;
        if key.is_empty() || !follows(table.keys(), key) {
            return Err(BUCKET_FORM);
        }
        let at = usize::from(table.count);
        table.keys[at] = Key::new(key);
        table.values[at] = Value::new(value);
        table.count += 1;
    }
    if bytes[end..].iter().any(|&byte| byte != 0) {
        return Err(BUCKET_FORM);
    }
    Ok(table)
}

/// The part at `offset`, which has to begin where the one before ended, also
/// if it has no bytes.
fn part<'a>(
    bytes: &'a [u8],
    end: &mut usize,
    offset: u8,
    length: u8,
    longest: usize,
) -> Result<&'a [u8], Refusal> {
    let (start, length) = (usize::from(offset), usize::from(length));
    if start != *end || length > longest {
        return Err(BUCKET_FORM);
    }
    *end = start + length;
    Ok(&bytes[start..*end])
}

/// Whether `key` stands after the last of `keys`.
fn follows(keys: &[Key], key: &[u8]) -> bool {
    keys.last().is_none_or(|last| last.as_slice() < key)
}

/// Writes a table in its form; 13 where it breaks the rules of a table,
/// then 15. Bytes of `out` past the bucket stay.
pub fn write(pairs: &[Pair], out: &mut [u8]) -> Result<(), Refusal> {
    check(pairs)?;
    let out = out.get_mut(..SIZE).ok_or(OUTPUT_SHORT)?;
    out.fill(0);
    out[0] = pairs.len() as u8;
    let mut end = 1 + 4 * pairs.len();
    for (at, (key, value)) in pairs.iter().enumerate() {
        for (bytes, head) in [(key, 1 + 4 * at), (value, 3 + 4 * at)] {
            out[head] = end as u8;
            out[head + 1] = bytes.len() as u8;
            out[end..end + bytes.len()].copy_from_slice(bytes);
            end += bytes.len();
        }
    }
    Ok(())
}

/// Whether `pairs` are a table: at most four, rising, with lengths in range.
pub fn check(pairs: &[Pair]) -> Result<(), Refusal> {
    let lengths = pairs
        .iter()
        .all(|(key, value)| (1..=KEY).contains(&key.len()) && value.len() <= VALUE);
    let rising = pairs.windows(2).all(|two| two[0].0 < two[1].0);
    if pairs.len() <= MOST_KEYS && lengths && rising {
        Ok(())
    } else {
        Err(BUCKET_FORM)
    }
}
