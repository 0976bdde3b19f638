//! Random scripts: the tally, chunks of any size, and how much of them runs.

mod common;

use common::{run, run_in_chunks};
use reference::bucket::Value;
use reference::cluster::call::Request;
use reference::cluster::Step;
use reference::printed::empty_values;
use reference::script::{parse, Line, Script};
use reference::scripts::{generate, Kind};
use std::collections::{BTreeMap, BTreeSet};

const SHORT: [Kind; 5] = [
    Kind::Ordinary,
    Kind::Rivals,
    Kind::Crowded,
    Kind::Hostile,
    Kind::Long,
];

#[test]
fn the_same_seed_gives_the_same_script() {
    for kind in SHORT {
        assert_eq!(generate(kind, 5, 200), generate(kind, 5, 200));
        assert_ne!(generate(kind, 5, 200), generate(kind, 6, 200));
    }
}

#[test]
fn chunks_do_not_matter() {
    for kind in SHORT {
        for seed in 0..50 {
            let text = generate(kind, seed, 300);
            let out = run(&text);
            for size in [1, 2, 3, 7, 61, 120, 121, 122, 1000] {
                assert_eq!(run_in_chunks(&text, size), out, "{kind:?} {seed} {size}");
            }
        }
    }
}

#[test]
fn the_tally_agrees_with_itself_after_every_line() {
    for kind in SHORT.into_iter().chain([Kind::Blind, Kind::Settled]) {
        for seed in 100..200 {
            let mut script = Script::new();
            for line in generate(kind, seed, 300).split(|&byte| byte == b'\n') {
                let before = script.tally();
                let accepted = script.line(line, &mut Vec::new());
                let tally = script.tally();
                assert_eq!(
                    tally.sent + tally.copied,
                    tally.delivered + tally.lost + tally.under_way
                );
                assert!(tally.under_way <= 64);
                assert!(accepted || tally == before);
            }
        }
    }
}

#[test]
fn a_voter_never_stands_or_leads_under_a_lower_number() {
    use reference::cluster::server::Role;
    for kind in SHORT {
        for seed in 200..300 {
            let mut script = Script::new();
            for line in generate(kind, seed, 300).split(|&byte| byte == b'\n') {
                script.line(line, &mut Vec::new());
                let Some(cluster) = script.cluster() else {
                    continue;
                };
                for server in (0..cluster.size()).map(|s| cluster.server(s)) {
                    assert!(server.number <= server.vote);
                    // One that was cut may have stored a higher vote and noticed
                    // nothing.
                    let idle = server.role == Role::Idle || server.stopped;
                    assert!(idle || server.vote == server.number);
                    assert!(server
                        .replicas
                        .iter()
                        .all(|replica| replica.version.number <= server.vote));
                    let open = server.calls.iter().any(|call| call.is_open());
                    assert!(!open || server.role == Role::Leader);
                }
            }
        }
    }
}

/// Counts of the words that answers and refusals print.
fn count(outputs: &[Vec<u8>], word: &str) -> usize {
    outputs
        .iter()
        .flat_map(|out| out.split(|&byte| byte == b'\n'))
        .filter(|line| String::from_utf8_lossy(line).contains(word))
        .count()
}

#[test]
fn most_lines_are_accepted_and_calls_complete() {
    for kind in [Kind::Ordinary, Kind::Long] {
        let outputs: Vec<Vec<u8>> = (0..100)
            .map(|seed| run(&generate(kind, seed, 400)))
            .collect();
        assert!(count(&outputs, "refused") < 100 * 400 / 10);
        for word in [
            " value ",
            " keys ",
            " done ",
            " mismatch ",
            " full ",
            " notdone ",
            " unknown ",
        ] {
            assert!(count(&outputs, word) > 20, "{kind:?} {word}");
        }
        let empty: usize = outputs.iter().map(|out| empty_values(out)).sum();
        assert!(empty > 20, "{kind:?}: {empty}");
        let completing = outputs
            .iter()
            .filter(|out| count(&[out.to_vec()], " done ") > 0);
        assert!(completing.count() > 80);
    }
}

/// What a value is, as a word of a script; `..` are any bytes.
fn word(value: Option<&Value>) -> &'static str {
    match value {
        None => "-",
        Some(value) if value.is_empty() => ".",
        Some(_) => "..",
    }
}

/// What the copy at its server holds for a `setif`, what that expects and sets.
fn setif(script: &Script, line: &[u8]) -> Option<[&'static str; 3]> {
    let (Line::Step(step), cluster) = (parse(line)?, script.cluster()?) else {
        return None;
    };
    cluster.admit(&step).ok()?;
    let Step::Call(server, request) = step else {
        return None;
    };
    let Request::SetIf {
        key,
        expected,
        value,
    } = request
    else {
        return None;
    };
    let copies = &cluster.server(server as usize).replicas;
    let held = copies[request.bucket(cluster.buckets())]
        .table
        .look_up(&key);
    Some([held, expected.as_ref(), value.as_ref()].map(word))
}

#[test]
fn empty_and_absent_values_are_held_expected_and_set() {
    let mut met = BTreeMap::new();
    for kind in SHORT.into_iter().chain([Kind::Blind, Kind::Settled]) {
        for seed in 0..100 {
            let mut script = Script::new();
            for line in generate(kind, seed, 400).split(|&byte| byte == b'\n') {
                let words = setif(&script, line);
                if script.line(line, &mut Vec::new()) {
                    *met.entry(words).or_insert(0) += 1;
                }
            }
        }
    }
    // Each of three for each of three, and all other lines.
    assert_eq!(met.len(), 27 + 1);
    assert!(met.values().all(|&lines| lines > 5), "{met:?}");
}

/// The results and rounds of all answers, without their data.
fn rounds(output: &[u8]) -> BTreeSet<String> {
    let text = String::from_utf8_lossy(output);
    let answers = text
        .lines()
        .filter(|line| !line.starts_with("line ") && !line.starts_with("messages "));
    answers
        .map(|line| {
            line.split(' ')
                .skip(1)
                .take(2)
                .collect::<Vec<_>>()
                .join(" ")
        })
        .collect()
}

#[test]
fn every_result_takes_its_rounds_and_no_other() {
    // On a recovered bucket 1; on another 3 for what only answers and 4 for
    // what writes. A call may fail in any of these rounds: `unknown` in a write of
    // its own, `notdone` before.
    let expected = [
        "done 1",
        "done 4",
        "full 1",
        "full 3",
        "keys 1",
        "keys 3",
        "mismatch 1",
        "mismatch 3",
        "notdone 1",
        "notdone 2",
        "notdone 3",
        "unknown 1",
        "unknown 4",
        "value 1",
        "value 3",
    ];
    let found: BTreeSet<String> = (0..200)
        .flat_map(|seed| rounds(&run(&generate(Kind::Ordinary, seed, 400))))
        .collect();
    assert!(found.iter().eq(expected.iter()), "{found:?}");
}

#[test]
fn every_refusal_of_a_line_occurs() {
    let texts = [Kind::Hostile, Kind::Crowded]
        .into_iter()
        .flat_map(|kind| (0..100).map(move |seed| generate(kind, seed, 400)));
    let outputs: Vec<Vec<u8>> = texts.map(|text| run(&text)).collect();
    for refusal in [1, 2, 3, 4, 6, 7, 8, 9, 10, 12, 18] {
        let word = format!(" refused {refusal}");
        let exact = outputs
            .iter()
            .flat_map(|out| out.split(|&byte| byte == b'\n'))
            .filter(|line| line.ends_with(word.as_bytes()));
        assert!(exact.count() > 0, "{refusal}");
    }
    let elections = run(&generate(Kind::Elections, 1, 300_000));
    assert!(count(&[elections], " refused 11") > 0);
    let limit = run(&generate(Kind::Limit, 1, 1000));
    assert!(count(&[limit], " refused 5") > 100);
}

#[test]
fn the_speed_script_is_accepted_line_by_line() {
    let text = generate(Kind::Speed, 1, 1_000_000);
    let mut script = Script::new();
    let mut out = Vec::new();
    script.feed(&text, &mut out);
    assert_eq!(script.accepted(), 1_000_000);
    assert_eq!(
        text.iter().filter(|&&byte| byte == b'\n').count(),
        1_000_001
    );
    assert!(text.starts_with(b"cluster 5 "));
    for word in [
        "elect", "get", "set", "setif", "del", "keys", "deliver", "copy", "lose", "timeout",
        "stop", "cut", "start",
    ] {
        let word = format!("\n{word} ");
        assert!(
            text.windows(word.len()).any(|part| part == word.as_bytes()),
            "{word:?}"
        );
    }
}
