//! Answers held against the plain table (RULES, Plain table), which tells empty from
//! absent since Change 2. Calls are made one after another, so that there is
//! only one order of them; between them servers stop and come back.

mod common;

use common::plain::Plain;
use common::Bench;
use reference::cluster::server::Role;
use reference::cluster::{Step, SERVERS};
use reference::script::{parse, Line};
use reference::scripts::Random;
use std::collections::BTreeSet;

const KEYS: [&str; 7] = ["61", "6100", "62", "63", "64", "00", "ffffffffffffffff"];
const VALUES: [&str; 5] = ["-", ".", "00", "2e", "000102030405060708090a0b0c0d0e0f"];

/// A random call, without its server.
fn call(random: &mut Random, buckets: usize) -> Vec<String> {
    let key = *random.pick(&KEYS);
    let (expected, value) = (*random.pick(&VALUES), *random.pick(&VALUES));
    let bucket = random.below(buckets).to_string();
    let words = match random.below(10) {
        0 | 1 => vec!["get", key],
        2..=5 => vec!["set", key, value],
        6 | 7 => vec!["setif", key, expected, value],
        8 => vec!["del", key],
        _ => vec!["keys", &bucket],
    };
    words.into_iter().map(String::from).collect()
}

/// The bucket of a call in a line.
fn bucket_of(line: &str, buckets: usize) -> usize {
    match parse(line.as_bytes()) {
        Some(Line::Step(Step::Call(_, request))) => request.bucket(buckets),
        _ => panic!("no call: {line}"),
    }
}

/// An answer without the call's number and its rounds.
fn without_numbers(answer: &str) -> String {
    let words = answer.split(' ').enumerate();
    let kept = words.filter(|(at, _)| *at != 0 && *at != 2);
    kept.map(|(_, word)| word).collect::<Vec<_>>().join(" ")
}

/// A server that stops and comes back keeps what it stored.
fn restart(bench: &mut Bench, server: usize) {
    bench.quiet(&[&format!("stop {server}"), &format!("start {server}")]);
}

/// Delivers the messages of an election; where a majority is left without it,
/// one server is cut meanwhile.
fn cut_one_vote(bench: &mut Bench, random: &mut Random) {
    let size = bench.cluster().size();
    let messages = bench.cluster().messages();
    let asked = messages.slot(0).map(|slot| messages.header(slot).to);
    let Some(server) = asked.filter(|_| size > 2) else {
        assert_eq!(bench.deliver_all(), "");
        return;
    };
    // With or without the vote; a request below it has no store to make.
    if random.chance(500) || bench.refusal("cut 0 1") != 0 {
        bench.quiet(&["cut 0 0"]);
    }
    assert_eq!(bench.deliver_all(), "");
    bench.quiet(&[&format!("start {server}")]);
}

/// Makes calls in a cluster of this size, with elections between them; what
/// was answered.
fn compare(size: usize, buckets: usize, random: &mut Random) -> Vec<String> {
    let mut bench = Bench::new(&format!("cluster {size} {buckets}"));
    let mut tables: Vec<Plain> = (0..buckets).map(|_| Plain::default()).collect();
    let mut leader = None;
    let mut answers = Vec::new();
    while answers.len() < 2000 {
        let Some(server) = leader.filter(|_| random.chance(900)) else {
            restart(&mut bench, random.below(size));
            let server = random.below(size);
            bench.quiet(&[&format!("elect {server}")]);
            cut_one_vote(&mut bench, random);
            // One whose vote was cut before may stand too low.
            let leads = bench.cluster().server(server).role == Role::Leader;
            leader = leads.then_some(server);
            continue;
        };
        let words = call(random, buckets);
        let line = format!("{} {server} {}", words[0], words[1..].join(" "));
        let printed = bench.line(&line) + &bench.deliver_all();
        let words: Vec<&str> = words.iter().map(String::as_str).collect();
        let answer = tables[bucket_of(&line, buckets)].answer(&words);
        assert_eq!(without_numbers(&printed), answer, "{line}");
        answers.push(answer);
    }
    answers
}

/// The answer, without its keys where there are some.
fn shortened(answer: &str) -> String {
    match answer.split_once(' ') {
        Some(("keys", keys)) if keys != "-" => "keys".to_string(),
        _ => answer.to_string(),
    }
}

#[test]
fn answers_are_those_of_the_plain_table() {
    let mut random = Random::new(30);
    let mut met = BTreeSet::new();
    for size in 1..=SERVERS {
        for buckets in [1, 2, 8] {
            let answers = compare(size, buckets, &mut random);
            met.extend(answers.iter().map(|answer| shortened(answer)));
        }
    }
    let mut every = BTreeSet::from(VALUES.map(|word| format!("value {word}")));
    every.extend(["done", "full", "keys", "keys -", "mismatch"].map(String::from));
    assert_eq!(met, every);
}
