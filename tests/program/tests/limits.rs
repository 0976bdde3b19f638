//! The limits that only long scripts reach: 1,000,000 accepted lines and
//! 65,535 elections.

use program::compare::{check, expected};
use program::process::{bench, run, run_fed};
use reference::scripts::{generate, Kind};

/// Most memory of the program, in kilobytes.
const MEMORY: u64 = 4096;

/// The last lines of an output, as text.
fn last_lines(out: &[u8], count: usize) -> Vec<&str> {
    let text = std::str::from_utf8(out).expect("output is text");
    let lines: Vec<&str> = text.lines().collect();
    lines[lines.len() - count..].to_vec()
}

#[test]
fn after_a_million_accepted_lines_5_is_given() {
    let mut text = b"cluster 1 1\nelect 0\nnonsense\n".to_vec();
    text.extend(b"get 0 61\n".repeat(999_999));
    text.extend(b"elect 0\nelect\ncluster 1 1\nelect 1\nget 0 -\nlose 0\ntimeout 0 0\ncut 0 0\nstart 0\nget 0 61");
    let ran = run(&bench(), &text);
    let last = [
        "999999 value 1 -",
        "line 1000003 refused 5",
        "line 1000004 refused 1",
        "line 1000005 refused 2",
        "line 1000006 refused 3",
        "line 1000007 refused 4",
        "line 1000008 refused 5",
        "line 1000009 refused 5",
        "line 1000010 refused 5",
        "line 1000011 refused 5",
        "line 1000012 refused 5",
        "messages 0 0 0 0 0",
    ];
    assert_eq!(last_lines(&ran.out, last.len()), last);
    check("a million lines", &ran, &expected(&text));
}

/// One server with calls of every kind; then lines of any sort.
#[test]
fn a_million_calls() {
    for seed in 1..=2 {
        let text = generate(Kind::Limit, seed, 2000);
        let ran = run(&bench(), &text);
        check(&format!("Limit, seed {seed}"), &ran, &expected(&text));
    }
}

/// Five servers and every kind of line; memory does not grow.
#[test]
fn a_million_lines_of_five_servers() {
    let mut text = generate(Kind::Speed, 2, 1_000_000);
    text.extend_from_slice(b"elect 0\ndeliver 0\nstop 0\ncut 0 0\nstart 0\n");
    let (ran, memory) = run_fed(&bench(), |feeder| {
        feeder.write(&text);
        feeder.peak_memory()
    });
    let refused = [
        "line 1000002 refused 5",
        "line 1000003 refused 5",
        "line 1000004 refused 5",
        "line 1000005 refused 5",
        "line 1000006 refused 5",
    ];
    assert_eq!(last_lines(&ran.out, 6)[..5], refused);
    check("Speed, seed 2", &ran, &expected(&text));
    assert!(memory < MEMORY, "{memory} kB");
}

#[test]
fn elections_end_at_65_535() {
    let mut text = b"cluster 1 1\n".to_vec();
    text.extend(b"elect 0\n".repeat(65_536));
    text.extend_from_slice(b"set 0 61 62\nelect 0\nget 0 61\n");
    let out = "line 65537 refused 11\n1 done 4\nline 65539 refused 11\n2 value 1 62\nmessages 0 0 0 0 0\n";
    check("65,535 elections", &run(&bench(), &text), out.as_bytes());
}

/// Up to three servers that stand for election up to the last number.
#[test]
fn elections_among_servers() {
    for seed in 1..=4 {
        let text = generate(Kind::Elections, seed, 300_000);
        let ran = run(&bench(), &text);
        check(&format!("Elections, seed {seed}"), &ran, &expected(&text));
    }
}
