//! Random bytes and tables for the tests.

use crate::bucket::{Key, Table, Value, VALUE};
use crate::scripts::Random;

/// Few different bytes, so that keys are often close to each other.
pub fn bytes(random: &mut Random, least: usize, most: usize) -> Vec<u8> {
    let length = random.within(least, most);
    (0..length).map(|_| random.byte() & 3).collect()
}

/// A table of up to four keys, about one in three of which has the empty value.
pub fn table(random: &mut Random) -> Table {
    let mut table = Table::EMPTY;
    for _ in 0..random.below(6) {
        let key = Key::new(&bytes(random, 1, 8));
        let longest = if random.chance(300) { 0 } else { VALUE };
        let value = Value::new(&bytes(random, 0, longest));
        let _ = table.put(&key, &value);
    }
    table
}
