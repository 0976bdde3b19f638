//! Random scripts through the program and through the independent bench: the
//! outputs are the same, byte for byte.

use program::compare::{check, expected};
use program::process::{bench, run};
use reference::printed::{empty_values, refusals, results};
use reference::script::Script;
use reference::scripts::{generate, Kind, Random};

/// What the scripts met, so that a comparison of idle ones is noticed.
#[derive(Default)]
struct Met {
    scripts: usize,
    printed: Vec<u8>,
    /// Scripts with so many servers, and with so many buckets.
    servers: [usize; 8],
    buckets: [usize; 9],
}

impl Met {
    fn compare(&mut self, kind: Kind, seed: u64, lines: usize) {
        let text = generate(kind, seed, lines);
        let ran = run(&bench(), &text);
        let out = expected(&text);
        check(&format!("{kind:?}, seed {seed}, {lines} lines"), &ran, &out);
        self.add(&text, &out);
    }

    fn add(&mut self, text: &[u8], out: &[u8]) {
        self.scripts += 1;
        self.printed.extend_from_slice(out);
        let mut script = Script::new();
        script.feed(text, &mut Vec::new());
        if let Some(cluster) = script.cluster() {
            self.servers[cluster.size()] += 1;
            self.buckets[cluster.buckets()] += 1;
        }
    }

    /// Every result, the empty value, every refusal given and every size came at
    /// least so often.
    fn demand(&self, times: usize, refused: &[u32]) {
        for word in [
            "value", "keys", "done", "mismatch", "full", "notdone", "unknown",
        ] {
            let found = results(&self.printed, word);
            assert!(found >= times, "{word}: {found}");
        }
        let found = empty_values(&self.printed);
        assert!(found >= times, "empty values: {found}");
        for &number in refused {
            let found = refusals(&self.printed, number);
            assert!(found >= times, "refused {number}: {found}");
        }
        let sizes = self.servers[1..].iter().chain(&self.buckets[1..]);
        assert!(sizes.min() >= Some(&10), "a size is missing");
    }
}

/// So many scripts of a kind, of 50 to 500 lines.
fn short_scripts(kind: Kind, count: u64, met: &mut Met) {
    let mut random = Random::new(kind as u64);
    for seed in 1..=count {
        met.compare(kind, seed, random.within(50, 500));
    }
}

/// Rival leaders, copies, losses, stops, cuts, starts; few lines are refused.
#[test]
fn traffic() {
    let mut met = Met::default();
    for kind in [
        Kind::Ordinary,
        Kind::Rivals,
        Kind::Long,
        Kind::Blind,
        Kind::Settled,
    ] {
        short_scripts(kind, 300, &mut met);
    }
    assert_eq!(met.scripts, 1500);
    met.demand(100, &[7, 8, 9, 18]);
}

/// A list of messages that is full or nearly so.
#[test]
fn crowds() {
    let mut met = Met::default();
    short_scripts(Kind::Crowded, 300, &mut met);
    assert!(refusals(&met.printed, 12) >= 300);
}

/// Malformed lines, overlong ones and numbers, binary lines; scripts damaged
/// as bytes, carriage returns, runs of up to 200,000 bytes, no last line feed.
#[test]
fn hostile_input() {
    let mut met = Met::default();
    short_scripts(Kind::Hostile, 500, &mut met);
    short_scripts(Kind::Damaged, 500, &mut met);
    assert_eq!(met.scripts, 1000);
    met.demand(100, &[1, 2, 3, 4, 6, 7, 8, 9, 10, 18]);
}

#[test]
fn long_scripts() {
    let mut met = Met::default();
    for kind in [
        Kind::Ordinary,
        Kind::Rivals,
        Kind::Crowded,
        Kind::Hostile,
        Kind::Long,
    ] {
        for seed in 1001..=1008 {
            met.compare(kind, seed, 20_000);
        }
    }
    met.compare(Kind::Speed, 1, 300_000);
    assert!(results(&met.printed, "done") > 20_000);
}
