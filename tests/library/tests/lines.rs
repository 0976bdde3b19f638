//! Random scripts through the library and on the independent bench: after every
//! line the answers or the refusal, the messages under way and the tally are the
//! same.

use library::compare::{Pair, View};
use reference::printed::{empty_values, refusals, results};
use reference::scripts::{generate, Kind, Random};

/// What the scripts met, so that an idle comparison is noticed.
#[derive(Default)]
struct Met {
    lines: usize,
    printed: Vec<u8>,
    /// Scripts with so many servers, and with so many buckets.
    servers: [usize; 8],
    buckets: [usize; 9],
    /// Lines with so many messages under way after them.
    under_way: Vec<usize>,
}

impl Met {
    fn add(&mut self, view: &View) {
        self.lines += 1;
        self.printed.extend_from_slice(&view.printed);
        self.under_way.resize(65, 0);
        self.under_way[view.messages.len()] += 1;
    }

    fn end(&mut self, pair: &Pair) {
        if let Some(cluster) = pair.script.cluster() {
            self.servers[cluster.size()] += 1;
            self.buckets[cluster.buckets()] += 1;
        }
    }

    fn result(&self, word: &str) -> usize {
        results(&self.printed, word)
    }

    fn empty_values(&self) -> usize {
        empty_values(&self.printed)
    }

    fn refusal(&self, number: u32) -> usize {
        refusals(&self.printed, number)
    }
}

/// Bytes that the lent arrays hold at first: zeros or not, they do not matter.
fn old(seed: u64) -> u8 {
    [0, 0xaa, 0x01, 0xff][seed as usize % 4]
}

fn run(text: &[u8], old: u8, met: &mut Met) {
    let mut pair = Pair::new(old);
    let text = text.strip_suffix(b"\n").unwrap_or(text);
    for line in text.split(|&byte| byte == b'\n') {
        met.add(&pair.line(line));
    }
    met.end(&pair);
}

#[test]
fn random_scripts() {
    let mut random = Random::new(20_260_101);
    let mut met = Met::default();
    for seed in 0..120 {
        for kind in [
            Kind::Ordinary,
            Kind::Rivals,
            Kind::Crowded,
            Kind::Hostile,
            Kind::Long,
        ] {
            let lines = random.within(50, 500);
            run(&generate(kind, seed, lines), old(seed), &mut met);
        }
    }
    assert!(met.lines >= 100_000, "{} lines", met.lines);
    for word in [
        "value", "keys", "done", "mismatch", "full", "notdone", "unknown",
    ] {
        assert!(met.result(word) > 100, "{word}: {}", met.result(word));
    }
    let empty = met.empty_values();
    assert!(empty > 100, "empty values: {empty}");
    for number in [1, 2, 3, 4, 6, 7, 8, 9, 10, 12, 18] {
        assert!(
            met.refusal(number) > 50,
            "{number}: {}",
            met.refusal(number)
        );
    }
    assert!(met.servers[1..].iter().all(|&scripts| scripts > 10));
    assert!(met.buckets[1..].iter().all(|&scripts| scripts > 10));
    assert!(met.under_way[58..].iter().all(|&lines| lines > 100));
}

#[test]
fn blind_scripts() {
    let mut random = Random::new(7);
    let mut met = Met::default();
    for seed in 0..150 {
        let lines = random.within(50, 500);
        run(&generate(Kind::Blind, seed, lines), old(seed), &mut met);
    }
    assert!(met.lines >= 30_000, "{} lines", met.lines);
    for word in ["value", "keys", "done", "mismatch", "notdone", "unknown"] {
        assert!(met.result(word) > 30, "{word}: {}", met.result(word));
    }
    let empty = met.empty_values();
    assert!(empty > 30, "empty values: {empty}");
}

#[test]
fn the_last_election() {
    let mut met = Met::default();
    let mut text = b"cluster 1 1\n".to_vec();
    text.extend(b"elect 0\n".repeat(65_537));
    text.extend(b"set 0 61 62\nget 0 61\nelect 0\nget 0 61");
    run(&text, 0xaa, &mut met);
    assert_eq!(met.refusal(11), 3);
    assert_eq!(met.result("value"), 2);
}

/// One server completes every call in its line, so 1,000,000 accepted lines are
/// reached quickly.
#[test]
fn the_last_line() {
    let mut pair = Pair::new(0xaa);
    pair.line(b"cluster 1 2");
    pair.line(b"elect 0");
    let calls: [&[u8]; 8] = [
        b"set 0 61 6869",
        b"get 0 61",
        b"setif 0 61 6869 .",
        b"keys 0 0",
        b"del 0 61",
        b"get 0 61",
        b"setif 0 62 . 02",
        b"elect 0",
    ];
    for at in 1..1_000_000 {
        // An election in 64 lines: none is the last.
        let line = if at % 64 == 63 { 7 } else { at % 7 };
        pair.line(calls[line]);
    }
    assert_eq!(pair.script.accepted(), 1_000_000);
    for (line, refusal) in [
        ("elect", 1),
        ("get 0 .", 1),
        ("cluster 1 2", 2),
        ("elect 1", 3),
        ("keys 0 2", 3),
        ("get 0 -", 4),
        ("get 0 61", 5),
        ("set 0 61 62", 5),
        ("set 0 61 .", 5),
        ("setif 0 61 - 62", 5),
        ("del 0 61", 5),
        ("keys 0 1", 5),
        ("elect 0", 5),
        ("deliver 0", 5),
        ("copy 0", 5),
        ("lose 0", 5),
        ("timeout 0 0", 5),
        ("stop 0", 5),
        ("start", 1),
        ("cut 0", 1),
        ("start 1", 3),
        ("start 0", 5),
        ("cut 0 0", 5),
    ] {
        let printed = pair.line(line.as_bytes()).printed;
        let end = format!(" refused {refusal}\n");
        assert!(printed.ends_with(end.as_bytes()), "{line}");
    }
}
