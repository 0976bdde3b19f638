//! Random scripts, the same for the same seed. The bench runs alongside, so
//! that most lines fit the state that they meet.

mod blind;
mod calm;
mod damaged;
mod hostile;
mod maker;
mod random;
mod restarts;
mod rivals;
mod rough;
mod settled;

pub use random::Random;

use maker::Maker;

/// Kinds of scripts.
#[derive(Clone, Copy, PartialEq, Eq, Debug)]
pub enum Kind {
    /// Rival leaders, copies, losses, timeouts, stops and cuts; most servers that
    /// stop come back.
    Ordinary,
    /// Six or seven servers, the list of messages full or nearly so.
    Crowded,
    /// Ordinary lines among malformed and refused ones.
    Hostile,
    /// Any size of cluster, most calls complete.
    Long,
    /// Election numbers up to the last and past it.
    Elections,
    /// 1,000,000 accepted lines, then `lines` more of any sort.
    Limit,
    /// Five servers, `lines` accepted lines, every kind of line, none refused.
    Speed,
    /// Servers that take turns in leading, with much that arrives late.
    Rivals,
    /// Drawn without a look at the state.
    Blind,
    /// A script of another kind, damaged as bytes, or noise.
    Damaged,
    /// Comes to rest again and again, and ends there.
    Settled,
}

impl Kind {
    pub const ALL: [(&'static str, Kind); 11] = [
        ("ordinary", Kind::Ordinary),
        ("crowded", Kind::Crowded),
        ("hostile", Kind::Hostile),
        ("long", Kind::Long),
        ("elections", Kind::Elections),
        ("limit", Kind::Limit),
        ("speed", Kind::Speed),
        ("rivals", Kind::Rivals),
        ("blind", Kind::Blind),
        ("damaged", Kind::Damaged),
        ("settled", Kind::Settled),
    ];

    pub fn named(name: &str) -> Option<Kind> {
        let found = Self::ALL.iter().find(|(other, _)| *other == name);
        found.map(|(_, kind)| *kind)
    }
}

/// The script of this kind and seed, with about `lines` lines after its
/// cluster line.
pub fn generate(kind: Kind, seed: u64, lines: usize) -> Vec<u8> {
    let mut maker = Maker::new(Random::new(seed ^ (kind as u64) << 56));
    match kind {
        Kind::Ordinary => maker.ordinary(lines),
        Kind::Crowded => maker.crowded(lines),
        Kind::Hostile => maker.hostile(lines),
        Kind::Long => maker.long(lines),
        Kind::Elections => maker.elections(lines),
        Kind::Limit => maker.limit(lines),
        Kind::Speed => maker.speed(lines),
        Kind::Rivals => maker.rivals(lines),
        Kind::Blind => maker.blind(lines),
        Kind::Damaged => return damaged::damaged(&mut maker.random, lines),
        Kind::Settled => maker.settled(lines),
    }
    maker.into_text()
}
