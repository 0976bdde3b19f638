//! Majorities of every size of cluster (RULES, Measures 7), held against
//! document 01's table, which the formula replaced.

mod common;

use common::Bench;
use reference::cluster::majority;
use reference::datagram::{NACKREAD, PLEASEVOTE, REPLICAREAD};

/// Document 01's majorities for 1 to 7 servers.
const MAJORITIES: [u8; 7] = [1, 2, 2, 3, 3, 4, 4];

/// Each size of cluster with its majority.
fn sizes() -> impl Iterator<Item = (u8, u8)> {
    (1..).zip(MAJORITIES)
}

/// A cluster of this size whose server 0 has its own vote and that many others.
fn voted(size: u8, others: u8) -> Bench {
    let mut bench = Bench::new(&format!("cluster {size} 1"));
    let voters: Vec<u8> = (1..=others).collect();
    bench.elect(0, &voters);
    bench
}

#[test]
fn the_formula_gives_the_numbers_of_the_table() {
    for (size, least) in sizes() {
        assert_eq!(majority(size.into()), u32::from(least));
    }
}

/// Sets of servers are bits of a number.
#[test]
fn two_majorities_share_a_server_and_smaller_sets_need_not() {
    for (size, _) in sizes() {
        let of = |count| (0..1u32 << size).filter(move |set| set.count_ones() == count);
        let meet = |count| of(count).all(|a| of(count).all(|b| a & b != 0));
        assert!(meet(majority(size.into())));
        assert!(!meet(majority(size.into()) - 1));
    }
}

#[test]
fn a_candidate_leads_from_a_majority_of_votes_on() {
    for (size, least) in sizes() {
        for others in 0..size {
            let refusal = if others + 1 < least { 8 } else { 0 };
            assert_eq!(voted(size, others).refusal("get 0 61"), refusal);
        }
    }
}

#[test]
fn a_round_closes_with_a_majority_of_acknowledgements() {
    // A server alone closes its rounds in the call's own line.
    for (size, least) in sizes().skip(1) {
        let mut bench = voted(size, least - 1);
        bench.quiet(&["get 0 61"]);
        for peer in 1..least {
            assert_eq!(bench.cluster().server(0).calls[0].rounds, 1);
            assert_eq!(bench.exchange(REPLICAREAD, 0, peer), "");
        }
        assert_eq!(bench.cluster().server(0).calls[0].rounds, 2);
    }
}

#[test]
fn a_round_fails_when_refusals_leave_fewer_than_a_majority() {
    for (size, least) in sizes().skip(1) {
        let mut bench = voted(size, least - 1);
        // Its second number is above the leader's: who votes under it refuses the leader's round.
        let rival = size - 1;
        bench.quiet(&[&format!("elect {rival}"), &format!("elect {rival}")]);
        for peer in 1..rival {
            assert_eq!(bench.deliver(PLEASEVOTE, rival, peer), "");
        }
        bench.lose_all();
        bench.quiet(&["get 0 61"]);
        for peer in 1..size {
            assert_eq!(bench.deliver(REPLICAREAD, 0, peer), "");
        }
        for refusals in 1..=size - least {
            assert_eq!(bench.deliver(NACKREAD, refusals, 0), "");
        }
        assert_eq!(bench.deliver(NACKREAD, size - least + 1, 0), "1 notdone 1");
    }
}
