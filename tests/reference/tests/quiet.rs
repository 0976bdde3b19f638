//! How long a quiet call takes (RULES, Quiet calls): at most 8 (n - 1)
//! deliveries among n servers, on random quiet states; every size has a call
//! that takes them all; and what comes where a condition fails.

mod common;

use common::Bench;
use reference::cluster::{majority, SERVERS};
use reference::quiet::{after, most_deliveries, Conditions, State};
use reference::scripts::Random;
use std::collections::BTreeSet;

/// How a call went until nothing was under way.
struct Ended {
    deliveries: usize,
    result: String,
    /// Other calls that ended meanwhile.
    others: usize,
}

/// Makes a call and then delivers the message at the place that `choose` gives
/// from their number, until there is none; `None` where the call is refused.
fn ended(state: &State, call: &str, mut choose: impl FnMut(usize) -> usize) -> Option<Ended> {
    let mut script = after(&state.text);
    let number = script.cluster()?.calls() + 1;
    let mut out = Vec::new();
    if !script.line(call.as_bytes(), &mut out) {
        return None;
    }
    let mut deliveries = 0;
    while let Some(count @ 1..) = script.cluster().map(|cluster| cluster.messages().len()) {
        let line = format!("deliver {}", choose(count));
        assert!(script.line(line.as_bytes(), &mut out), "{call}: {line}");
        deliveries += 1;
    }
    // Calls of a deposed leader end as well, where some were open.
    let out = String::from_utf8(out).unwrap();
    let own = format!("{number} ");
    let answers: Vec<&str> = out.lines().filter(|line| line.starts_with(&own)).collect();
    assert_eq!(answers.len(), 1, "{call}: {out}");
    Some(Ended {
        deliveries,
        result: answers[0].split(' ').nth(1).unwrap().to_string(),
        others: out.lines().count() - 1,
    })
}

/// What the calls met, so that a test of few is noticed.
#[derive(Default)]
struct Met {
    calls: [usize; SERVERS + 1],
    most: [usize; SERVERS + 1],
    results: BTreeSet<String>,
    /// States of three servers or more in which no more than a majority runs,
    /// and states in which a server has stopped that voted above the leader's
    /// number.
    bare: usize,
    stopped_above: usize,
}

impl Met {
    fn state(&mut self, state: &State) {
        let script = after(&state.text);
        let cluster = script.cluster().unwrap();
        let servers = || (0..state.size).map(|s| cluster.server(s));
        let running = servers().filter(|server| !server.stopped).count();
        let number = cluster.server(state.leader).number;
        let above = servers().any(|server| server.stopped && server.vote > number);
        self.bare += usize::from(state.size > 2 && running as u32 == majority(state.size));
        self.stopped_above += usize::from(above);
    }

    fn call(&mut self, size: usize, ended: Ended) {
        self.calls[size] += 1;
        self.most[size] = self.most[size].max(ended.deliveries);
        self.results.insert(ended.result);
    }

    /// Many calls of every size, some that took all the deliveries, and no
    /// more; every result but `notdone` and `unknown`.
    fn check(&self) {
        for size in 1..=SERVERS {
            assert!(self.calls[size] > 300, "{size}: {}", self.calls[size]);
            assert_eq!(self.most[size], most_deliveries(size));
        }
        let expected = ["done", "full", "keys", "mismatch", "value"];
        assert!(self.results.iter().eq(expected), "{:?}", self.results);
        let (bare, above) = (self.bare, self.stopped_above);
        assert!(bare > 100 && above > 100, "{bare}, {above}");
    }
}

const SEEDS: u64 = 2000;

#[test]
fn a_quiet_call_takes_at_most_the_figure() {
    let mut met = Met::default();
    for state in (0..SEEDS).filter_map(State::quiet) {
        met.state(&state);
        for call in state.calls() {
            if let Some(ended) = ended(&state, &call, |_| 0) {
                assert_eq!(ended.others, 0);
                met.call(state.size, ended);
            }
        }
    }
    met.check();
}

#[test]
fn so_it_does_in_any_order_and_beside_open_calls() {
    let mut met = Met::default();
    let (mut open, mut others) = (0, 0);
    let mut random = Random::new(1);
    // Few states have open calls of a leader that was deposed unheard.
    for state in (0..4 * SEEDS).filter_map(State::quiet_but_for_open_calls) {
        met.state(&state);
        for call in state.calls() {
            if let Some(ended) = ended(&state, &call, |count| random.below(count)) {
                open += usize::from(!state.conditions.no_call_open);
                others += ended.others;
                met.call(state.size, ended);
            }
        }
    }
    met.check();
    assert!(open > 300 && others > 0, "{open}, {others}");
}

/// A cluster whose server 0 leads with all votes; nothing is under way.
fn led(size: u8) -> Bench {
    let mut bench = Bench::new(&format!("cluster {size} 1"));
    let voters: Vec<u8> = (1..size).collect();
    bench.elect(0, &voters);
    bench
}

/// In a quiet state, a set on an unrecovered bucket: so many deliveries empty
/// the list, no fewer, and it is done.
fn set_takes(mut bench: Bench, deliveries: usize) {
    assert_eq!(bench.conditions(0), Conditions::ALL);
    let mut out = bench.line("set 0 61 01");
    for _ in 0..deliveries {
        assert!(bench.under_way() > 0);
        out += &bench.line("deliver 0");
    }
    assert_eq!((out.as_str(), bench.under_way()), ("1 done 4", 0));
}

#[test]
fn every_size_has_a_call_that_takes_them_all() {
    for size in 1..=SERVERS {
        set_takes(led(size as u8), most_deliveries(size));
    }
}

#[test]
fn messages_to_stopped_servers_are_deliveries_too() {
    let mut bench = led(5);
    bench.quiet(&["stop 3", "stop 4"]);
    set_takes(bench, 24);
}

#[test]
fn a_stopped_server_may_have_voted_higher() {
    let mut bench = led(3);
    bench.quiet(&["elect 2", "lose 0", "lose 0", "stop 2"]);
    assert_eq!(bench.cluster().server(2).vote, 2);
    set_takes(bench, 12);
}

#[test]
fn with_higher_votes_a_call_may_end_as_notdone_or_unknown() {
    let failed = Conditions {
        number_no_lower_than_a_vote: false,
        ..Conditions::ALL
    };
    // A recovery read is refused, and on a recovered bucket a write.
    for (recovers, call, answer) in [
        ("", "get 0 61", "1 notdone 1"),
        ("get 0 61", "set 0 61 01", "2 unknown 1"),
    ] {
        let mut bench = led(3);
        if !recovers.is_empty() {
            bench.quiet(&[recovers]);
            let out: String = (0..12).map(|_| bench.line("deliver 0")).collect();
            assert_eq!(out, "1 value 3 -");
        }
        bench.quiet(&["elect 1", "elect 2"]);
        bench.lose_all();
        assert_eq!(bench.conditions(0), failed);
        bench.quiet(&[call, "deliver 0", "deliver 0", "deliver 0"]);
        assert_eq!(bench.line("deliver 0"), answer);
    }
}

#[test]
fn a_call_stays_open_at_a_stopped_server() {
    let mut bench = led(3);
    bench.quiet(&["get 0 61", "stop 0"]);
    bench.lose_all();
    bench.elect(1, &[2]);
    bench.lose_all();
    let failed = Conditions {
        no_call_open: false,
        ..Conditions::ALL
    };
    assert_eq!(bench.conditions(1), failed);
    // Once the server has come back, nobody has that call any more.
    bench.quiet(&["start 0"]);
    assert_eq!(bench.conditions(1), Conditions::ALL);
}

#[test]
fn servers_that_came_back_take_part() {
    let mut bench = led(3);
    bench.quiet(&["stop 1", "start 1", "get 0 62", "cut 1 0", "start 2"]);
    assert_eq!(bench.deliver_all(), "1 value 3 -");
    bench.elect(0, &[1]);
    assert_eq!(bench.deliver_all(), "");
    assert_eq!(bench.conditions(0), Conditions::ALL);
    let out = bench.line("set 0 61 01") + &bench.deliver_all();
    assert_eq!(out, "2 done 4");
}

#[test]
fn a_vote_that_a_cut_stored_counts_once_its_server_is_back() {
    let mut bench = led(3);
    bench.quiet(&["elect 1", "cut 1 1", "lose 0", "stop 1"]);
    let running = bench.conditions(0).number_no_lower_than_a_vote;
    bench.quiet(&["start 2"]);
    let back = bench.conditions(0).number_no_lower_than_a_vote;
    assert_eq!((running, back), (true, false));
}

#[test]
fn without_a_majority_a_call_has_no_result() {
    let mut bench = led(3);
    bench.quiet(&["stop 1", "stop 2"]);
    let failed = Conditions {
        majority_runs: false,
        ..Conditions::ALL
    };
    assert_eq!(bench.conditions(0), failed);
    bench.quiet(&["get 0 61", "deliver 0", "deliver 0"]);
    assert_eq!(bench.under_way(), 0);
    assert!(bench.cluster().server(0).calls[0].is_open());
}

#[test]
fn with_a_message_under_way_it_may_take_one_delivery_more() {
    let mut bench = Bench::new("cluster 2 1");
    bench.quiet(&["elect 0", "deliver 0", "copy 0"]);
    let failed = Conditions {
        list_empty: false,
        ..Conditions::ALL
    };
    assert_eq!(bench.conditions(0), failed);
    bench.quiet(&["set 0 61 01"]);
    let out: String = (0..8).map(|_| bench.line("deliver 0")).collect();
    assert_eq!((out.as_str(), bench.under_way()), ("", 1));
    assert_eq!(bench.line("deliver 0"), "1 done 4");
}
