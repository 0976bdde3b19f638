//! Elections that start high enough: the number they take, the vote that the
//! candidate gives itself, what they send, and when they are refused.

mod common;

use common::Bench;
use reference::cluster::server::Role;
use reference::datagram::{ACKVOTE, NACKVOTE, PLEASEVOTE, REPLICAREAD};

/// A cluster in which server 0 has stood `elections` times and `voter` alone
/// has heard of the last one; nothing is under way.
fn heard(size: u8, voter: u8, elections: u16) -> Bench {
    let mut bench = Bench::new(&format!("cluster {size} 1"));
    for _ in 1..elections {
        bench.quiet(&["elect 0"]);
        bench.lose_all();
    }
    bench.quiet(&["elect 0"]);
    assert_eq!(bench.deliver(PLEASEVOTE, 0, voter), "");
    bench.lose_all();
    bench
}

/// Number, vote, leader and role of a server.
fn standing(bench: &Bench, server: usize) -> (u16, u16, u8, Role) {
    let server = bench.cluster().server(server);
    (server.number, server.vote, server.leader, server.role)
}

#[test]
fn an_election_takes_one_above_the_larger_of_number_and_vote() {
    for elections in 1..=9 {
        let mut bench = heard(3, 1, elections);
        assert_eq!(standing(&bench, 1), (0, elections, 0, Role::Idle));
        bench.quiet(&["elect 1", "elect 2", "elect 0"]);
        let next = elections + 1;
        assert_eq!(standing(&bench, 0), (next, next, 0, Role::Candidate));
        assert_eq!(standing(&bench, 1), (next, next, 1, Role::Candidate));
        assert_eq!(standing(&bench, 2), (1, 1, 2, Role::Candidate));
        bench.quiet(&["elect 1"]);
        assert_eq!(standing(&bench, 1).0, next + 1);
    }
}

#[test]
fn a_server_that_was_cut_off_wins_at_its_first_election() {
    let mut bench = heard(3, 2, 7);
    bench.elect(2, &[1]);
    assert_eq!(standing(&bench, 2), (8, 8, 2, Role::Leader));
    // The deposed candidate hears of it, and its own next number is higher.
    assert_eq!(bench.exchange(PLEASEVOTE, 2, 0), "");
    assert_eq!(standing(&bench, 0), (7, 8, 2, Role::Idle));
    bench.elect(0, &[1]);
    assert_eq!(standing(&bench, 0), (9, 9, 0, Role::Leader));
}

#[test]
fn every_election_asks_all_others_under_its_number() {
    for size in 2..=7u8 {
        for elections in [1, 2, 5] {
            let mut bench = heard(size, 1, elections);
            bench.quiet(&["elect 1"]);
            let messages = bench.cluster().messages();
            let asked: Vec<(u8, u8, u8, u16)> = (0..messages.len())
                .map(|place| messages.header(messages.slot(place).unwrap()))
                .map(|header| (header.kind, header.from, header.to, header.number))
                .collect();
            let others = (0..size).filter(|&to| to != 1);
            let expected: Vec<_> = others
                .map(|to| (PLEASEVOTE, 1, to, elections + 1))
                .collect();
            assert_eq!(asked, expected);
        }
    }
}

#[test]
fn a_candidate_has_its_own_vote_and_needs_one_fewer() {
    for size in 2..=7u8 {
        let mut bench = heard(size, 1, 3);
        bench.quiet(&["elect 1"]);
        assert_eq!(bench.cluster().server(1).votes, 1 << 1);
        let voters: Vec<u8> = (0..size).filter(|&voter| voter != 1).collect();
        for (had, &voter) in (1..).zip(&voters) {
            let leads = had > size / 2;
            assert_eq!(bench.cluster().server(1).role == Role::Leader, leads);
            assert_eq!(bench.exchange(PLEASEVOTE, 1, voter), "");
        }
        assert_eq!(standing(&bench, 1), (4, 4, 1, Role::Leader));
    }
}

#[test]
fn an_election_starts_anew() {
    let mut bench = Bench::new("cluster 5 1");
    bench.elect(0, &[1, 2]);
    bench.deliver(PLEASEVOTE, 0, 3);
    bench.quiet(&["get 0 61"]);
    // Leadership, call and votes of the first election end with the second.
    assert_eq!(bench.line("elect 0"), "1 notdone 1");
    assert_eq!(standing(&bench, 0), (2, 2, 0, Role::Candidate));
    assert_eq!(bench.cluster().server(0).votes, 1);
    // A vote of the first counts for nothing now.
    bench.deliver(ACKVOTE, 3, 0);
    assert_eq!(bench.cluster().server(0).votes, 1);
    bench.exchange(PLEASEVOTE, 0, 1);
    assert_eq!(standing(&bench, 0).3, Role::Candidate);
    bench.exchange(PLEASEVOTE, 0, 4);
    assert_eq!(standing(&bench, 0).3, Role::Leader);
}

#[test]
fn its_own_vote_is_given_to_nobody_else_under_that_number() {
    let mut bench = heard(3, 1, 1);
    bench.quiet(&["elect 1", "elect 0"]);
    assert_eq!(standing(&bench, 1), (2, 2, 1, Role::Candidate));
    assert_eq!(standing(&bench, 0), (2, 2, 0, Role::Candidate));
    bench.deliver(PLEASEVOTE, 0, 1);
    bench.deliver(PLEASEVOTE, 1, 0);
    assert_eq!(bench.deliver(NACKVOTE, 1, 0), "");
    assert_eq!(bench.deliver(NACKVOTE, 0, 1), "");
    bench.deliver(PLEASEVOTE, 1, 2);
    assert_eq!(bench.deliver(ACKVOTE, 2, 1), "");
    assert_eq!(standing(&bench, 1).3, Role::Leader);
    assert_eq!(standing(&bench, 0).3, Role::Candidate);
}

#[test]
fn an_election_of_a_server_that_was_cut_off_needs_its_places() {
    for (left, refusal) in [(5, 12), (6, 0)] {
        let mut bench = heard(7, 1, 4);
        for _ in 0..9 {
            bench.quiet(&["elect 0"]);
        }
        while bench.under_way() < 64 - left {
            bench.quiet(&["copy 5"]);
        }
        let before = standing(&bench, 1);
        assert_eq!(before, (0, 4, 0, Role::Idle));
        assert_eq!(bench.refusal("elect 1"), refusal);
        match refusal {
            0 => assert_eq!(standing(&bench, 1), (5, 5, 1, Role::Candidate)),
            _ => assert_eq!(standing(&bench, 1), before),
        }
    }
}

#[test]
fn a_vote_of_65_535_is_the_last() {
    let mut bench = heard(3, 1, 65_535);
    let before = standing(&bench, 1);
    assert_eq!(before, (0, 65_535, 0, Role::Idle));
    assert_eq!(bench.refusal("elect 1"), 11);
    assert_eq!(standing(&bench, 1), before);
    assert_eq!(bench.refusal("elect 0"), 11);
    assert_eq!(standing(&bench, 0), (65_535, 65_535, 0, Role::Candidate));
    assert_eq!(bench.refusal("elect 2"), 0);
    // A stopped server is refused for that first.
    bench.quiet(&["stop 1"]);
    assert_eq!(bench.refusal("elect 1"), 6);
    // One below the last is still a number to stand above.
    let mut bench = heard(3, 1, 65_534);
    assert_eq!(bench.refusal("elect 1"), 0);
    assert_eq!(standing(&bench, 1), (65_535, 65_535, 1, Role::Candidate));
    assert_eq!(bench.refusal("elect 1"), 11);
}

#[test]
fn a_vote_that_a_call_raised_counts_too() {
    let mut bench = Bench::new("cluster 3 1");
    bench.elect(0, &[2]);
    bench.quiet(&["get 0 61"]);
    bench.deliver(REPLICAREAD, 0, 1);
    // Server 1 never heard of the election, only of the leader's read.
    assert_eq!(standing(&bench, 1), (0, 1, 0, Role::Idle));
    bench.elect(1, &[2]);
    assert_eq!(standing(&bench, 1), (2, 2, 1, Role::Leader));
}
