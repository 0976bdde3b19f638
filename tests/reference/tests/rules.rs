//! Elections, rounds, calls, copies, losses and stops.

mod common;

use common::{print, Bench};
use reference::cluster::server::Role;
use reference::cluster::Tally;
use reference::datagram::{Version, ACKREAD, ACKVOTE, ACKWRITE, NACKREAD, NACKWRITE};
use reference::datagram::{PLEASEVOTE, REPLICAREAD, REPLICAWRITE};

#[test]
fn rounds_are_3_and_4_unrecovered_and_1_recovered() {
    let mut bench = Bench::new("cluster 3 1");
    bench.elect(0, &[1]);
    bench.quiet(&["set 0 61 62"]);
    assert_eq!(bench.read_unrecovered(0, 1), "");
    assert_eq!(bench.exchange(REPLICAWRITE, 0, 1), "1 done 4");
    bench.quiet(&["get 0 61"]);
    assert_eq!(bench.exchange(REPLICAREAD, 0, 1), "2 value 1 62");
    bench.quiet(&["set 0 63 64"]);
    assert_eq!(bench.exchange(REPLICAWRITE, 0, 1), "3 done 1");
    bench.elect(0, &[1]);
    bench.quiet(&["get 0 63"]);
    assert_eq!(bench.read_unrecovered(0, 1), "4 value 3 64");
    let replica = bench.cluster().server(0).replicas[0];
    assert_eq!(
        replica.version,
        Version {
            number: 2,
            counter: 1
        }
    );
    assert_eq!(bench.cluster().server(0).last_round, 9);
}

#[test]
fn unknown_once_the_own_write_was_sent_otherwise_notdone() {
    let mut bench = Bench::new("cluster 3 1");
    bench.elect(0, &[1]);
    bench.quiet(&["set 0 61 62"]);
    assert_eq!(bench.line("timeout 0 0"), "1 notdone 1");
    bench.elect(0, &[1]);
    bench.quiet(&["set 0 61 62"]);
    bench.exchange(REPLICAREAD, 0, 1);
    assert_eq!(bench.line("timeout 0 0"), "2 notdone 2");
    bench.elect(0, &[1]);
    bench.quiet(&["set 0 61 62"]);
    bench.read_unrecovered(0, 1);
    assert_eq!(bench.line("timeout 0 0"), "3 unknown 4");
    assert_eq!(bench.refusal("get 0 61"), 8);
    assert_eq!(bench.refusal("timeout 0 0"), 10);
}

#[test]
fn a_late_vote_does_not_bring_a_leader_back() {
    let mut bench = Bench::new("cluster 5 1");
    bench.elect(0, &[1, 2]);
    bench.deliver(PLEASEVOTE, 0, 3);
    bench.quiet(&["get 0 61"]);
    assert_eq!(bench.line("timeout 0 0"), "1 notdone 1");
    bench.deliver(ACKVOTE, 3, 0);
    bench.exchange(PLEASEVOTE, 0, 4);
    assert_eq!(bench.cluster().server(0).role, Role::Idle);
    assert_eq!(bench.refusal("get 0 61"), 8);
}

#[test]
fn calls_end_in_bucket_order_and_before_the_number_rises() {
    let mut bench = Bench::new("cluster 3 4");
    bench.elect(0, &[1]);
    bench.quiet(&["keys 0 3", "keys 0 1", "set 0 61 62"]);
    for _ in 0..3 {
        let place = bench.place(REPLICAREAD, 0, 1);
        bench.quiet(&[&format!("lose {place}")]);
    }
    assert_eq!(
        bench.line("elect 0"),
        "3 notdone 1\n2 notdone 1\n1 notdone 1"
    );
    assert_eq!(bench.cluster().server(0).number, 2);
}

#[test]
fn a_refused_election_ends_nothing() {
    let mut bench = Bench::new("cluster 7 8");
    bench.elect(0, &[1, 2, 3]);
    bench.lose_all();
    for bucket in 0..8 {
        bench.quiet(&[&format!("keys 0 {bucket}")]);
    }
    while bench.under_way() < 59 {
        bench.quiet(&["copy 0"]);
    }
    assert_eq!(bench.refusal("elect 0"), 12);
    assert_eq!(bench.cluster().server(0).role, Role::Leader);
    let ended = bench.line("timeout 0 7");
    let expected: Vec<String> = (1..=8).map(|call| format!("{call} notdone 1")).collect();
    assert_eq!(ended, expected.join("\n"));
}

#[test]
fn a_newer_leader_ends_the_calls_of_the_older() {
    let mut bench = Bench::new("cluster 3 2");
    bench.elect(0, &[1]);
    bench.quiet(&["keys 0 0"]);
    bench.quiet(&["elect 2"]);
    assert_eq!(bench.cluster().server(2).number, 1);
    bench.quiet(&["elect 2"]);
    assert_eq!(bench.deliver(PLEASEVOTE, 2, 0), "1 notdone 1");
    assert_eq!(bench.cluster().server(0).role, Role::Idle);
    assert_eq!(bench.cluster().server(0).vote, 2);
    assert_eq!(bench.deliver(ACKVOTE, 0, 2), "");
    assert_eq!(bench.cluster().server(2).role, Role::Leader);
    assert_eq!(bench.refusal("keys 0 0"), 8);
}

#[test]
fn refusals_fail_a_round_when_too_few_are_left() {
    let mut bench = Bench::new("cluster 5 1");
    bench.elect(0, &[1, 2]);
    bench.quiet(&["get 0 61"]);
    bench.quiet(&["elect 4", "elect 4"]);
    for voter in [1, 2, 3] {
        bench.deliver(PLEASEVOTE, 4, voter);
        bench.deliver(REPLICAREAD, 0, voter);
    }
    assert_eq!(bench.deliver(NACKREAD, 1, 0), "");
    assert_eq!(bench.deliver(NACKREAD, 2, 0), "");
    assert_eq!(bench.deliver(NACKREAD, 3, 0), "1 notdone 1");
    assert_eq!(bench.cluster().server(0).vote, 1);
}

#[test]
fn a_write_below_the_vote_gives_unknown() {
    let mut bench = Bench::new("cluster 3 1");
    bench.elect(0, &[1]);
    bench.quiet(&["set 0 61 62"]);
    bench.read_unrecovered(0, 1);
    bench.quiet(&["elect 2", "elect 2"]);
    bench.deliver(PLEASEVOTE, 2, 1);
    bench.deliver(REPLICAWRITE, 0, 1);
    bench.deliver(REPLICAWRITE, 0, 2);
    assert_eq!(bench.deliver(NACKWRITE, 1, 0), "");
    assert_eq!(bench.deliver(NACKWRITE, 2, 0), "1 unknown 4");
}

#[test]
fn one_server_is_marked_once_in_a_round() {
    let mut bench = Bench::new("cluster 5 1");
    bench.elect(0, &[1, 2]);
    bench.quiet(&["get 0 61"]);
    bench.deliver(REPLICAREAD, 0, 1);
    let place = bench.place(ACKREAD, 1, 0);
    bench.quiet(&[&format!("copy {place}"), &format!("copy {place}")]);
    assert_eq!(bench.cluster().server(0).calls[0].rounds, 1);
    bench.exchange(REPLICAREAD, 0, 3);
    assert_eq!(bench.cluster().server(0).calls[0].rounds, 2);
}

#[test]
fn recovery_takes_the_greatest_version_of_its_majority() {
    let mut bench = Bench::new("cluster 5 1");
    bench.elect(0, &[1, 2]);
    bench.quiet(&["set 0 61 62"]);
    for kind in [REPLICAREAD, REPLICAWRITE, REPLICAREAD] {
        bench.exchange(kind, 0, 1);
        bench.exchange(kind, 0, 2);
    }
    // Only server 1 stores the call's own write.
    assert_eq!(bench.deliver(REPLICAWRITE, 0, 1), "");
    assert_eq!(bench.line("timeout 0 0"), "1 unknown 4");
    bench.lose_all();
    bench.quiet(&["elect 4"]);
    bench.lose_all();
    bench.elect(4, &[2, 3]);
    bench.quiet(&["get 4 61"]);
    bench.exchange(REPLICAREAD, 4, 3);
    bench.exchange(REPLICAREAD, 4, 1);
    bench.exchange(REPLICAWRITE, 4, 3);
    bench.exchange(REPLICAWRITE, 4, 2);
    bench.exchange(REPLICAREAD, 4, 3);
    assert_eq!(bench.exchange(REPLICAREAD, 4, 2), "2 value 3 62");
}

#[test]
fn a_repeated_vote_request_is_acknowledged_again() {
    let mut bench = Bench::new("cluster 3 1");
    bench.quiet(&["elect 0", "copy 0", "copy 0"]);
    assert_eq!(bench.kinds(), [PLEASEVOTE, PLEASEVOTE, ACKVOTE, ACKVOTE]);
}

#[test]
fn broadcasts_go_in_rising_order_to_the_end_of_the_list() {
    let mut bench = Bench::new("cluster 4 1");
    bench.quiet(&["elect 2", "elect 0"]);
    let messages = bench.cluster().messages();
    let ends: Vec<(u8, u8)> = (0..messages.len())
        .map(|place| *messages.header(messages.slot(place).unwrap()))
        .map(|header| (header.from, header.to))
        .collect();
    assert_eq!(ends, [(2, 0), (2, 1), (2, 3), (0, 1), (0, 2), (0, 3)]);
}

#[test]
fn a_stopped_server_ends_nothing_and_loses_what_it_is_handed() {
    let mut bench = Bench::new("cluster 3 1");
    bench.elect(0, &[1]);
    bench.quiet(&["set 0 61 62", "stop 0"]);
    assert_eq!(bench.deliver(REPLICAREAD, 0, 1), "");
    assert_eq!(bench.deliver(REPLICAREAD, 0, 2), "");
    let before = bench.cluster().tally();
    assert_eq!(bench.deliver(ACKREAD, 1, 0), "");
    let place = bench.place(ACKREAD, 2, 0);
    bench.quiet(&[&format!("copy {place}")]);
    let after = bench.cluster().tally();
    assert_eq!(after.lost, before.lost + 2);
    assert_eq!(after.copied, before.copied + 1);
    assert_eq!(after.delivered, before.delivered);
    assert!(bench.cluster().server(0).calls[0].is_open());
    assert_eq!(bench.refusal("timeout 0 0"), 6);
}

#[test]
fn a_copy_is_handled_and_stays() {
    let mut bench = Bench::new("cluster 3 1");
    bench.quiet(&["elect 0", "copy 1"]);
    let tally = Tally {
        sent: 3,
        copied: 1,
        delivered: 1,
        lost: 0,
        under_way: 3,
    };
    assert_eq!(bench.cluster().tally(), tally);
    assert_eq!(bench.cluster().server(2).vote, 1);
    bench.quiet(&["lose 1"]);
    let tally = Tally {
        lost: 1,
        under_way: 2,
        ..tally
    };
    assert_eq!(bench.cluster().tally(), tally);
}

/// Copies the message between these servers until so many are under way.
fn fill(bench: &mut Bench, count: usize, kind: u8, from: u8, to: u8) {
    let place = bench.place(kind, from, to);
    while bench.under_way() < count {
        bench.quiet(&[&format!("copy {place}")]);
    }
}

/// Seven servers; the delivery of an ACKREAD from server 3 closes a recovery
/// read, with `count` messages under way. A marked reply of server 1 is left.
fn about_to_close(count: usize) -> (Bench, usize) {
    let mut bench = Bench::new("cluster 7 1");
    bench.elect(0, &[1, 2, 3]);
    bench.lose_all();
    bench.quiet(&["get 0 61"]);
    bench.deliver(REPLICAREAD, 0, 1);
    let reply = bench.place(ACKREAD, 1, 0);
    bench.quiet(&[&format!("copy {reply}")]);
    bench.exchange(REPLICAREAD, 0, 2);
    bench.deliver(REPLICAREAD, 0, 3);
    fill(&mut bench, count, REPLICAREAD, 0, 4);
    let place = bench.place(ACKREAD, 3, 0);
    (bench, place)
}

#[test]
fn refusal_12_counts_what_a_closing_reply_sends() {
    for (count, line, refusal) in [
        (59, "deliver", 0),
        (60, "deliver", 12),
        (58, "copy", 0),
        (59, "copy", 12),
    ] {
        let (mut bench, place) = about_to_close(count);
        let before = bench.cluster().tally();
        assert_eq!(
            bench.refusal(&format!("{line} {place}")),
            refusal,
            "{line} {count}"
        );
        if refusal == 12 {
            assert_eq!(bench.cluster().tally(), before);
        } else {
            assert_eq!(bench.under_way(), 64);
        }
    }
}

#[test]
fn refusal_12_spares_what_sends_nothing() {
    let (mut bench, place) = about_to_close(64);
    assert_eq!(bench.refusal(&format!("deliver {place}")), 12);
    assert_eq!(bench.refusal("elect 0"), 12);
    let marked = bench.place(ACKREAD, 1, 0);
    bench.quiet(&[&format!("copy {marked}")]);
    // At a stopped server the closing reply is lost and sends nothing.
    bench.quiet(&[
        "stop 0",
        &format!("copy {place}"),
        &format!("deliver {place}"),
    ]);
}

#[test]
fn a_call_that_ends_needs_no_place() {
    let mut bench = Bench::new("cluster 7 1");
    bench.elect(0, &[1, 2, 3]);
    bench.quiet(&["setif 0 61 00 62"]);
    for kind in [REPLICAREAD, REPLICAWRITE] {
        for peer in [1, 2, 3] {
            bench.exchange(kind, 0, peer);
        }
    }
    for peer in [1, 2] {
        bench.exchange(REPLICAREAD, 0, peer);
    }
    bench.deliver(REPLICAREAD, 0, 3);
    fill(&mut bench, 64, REPLICAREAD, 0, 4);
    assert_eq!(bench.deliver(ACKREAD, 3, 0), "1 mismatch 3");
}

#[test]
fn a_full_list_takes_a_reply_in_the_place_of_its_request() {
    let mut bench = Bench::new("cluster 7 1");
    for _ in 0..10 {
        bench.quiet(&["elect 0"]);
    }
    bench.quiet(&["copy 0", "copy 0", "copy 0", "copy 0"]);
    assert_eq!(bench.under_way(), 64);
    assert_eq!(bench.refusal("copy 0"), 12);
    bench.quiet(&["deliver 0"]);
    assert_eq!(bench.under_way(), 64);
    bench.quiet(&["lose 0", "copy 0"]);
    assert_eq!(bench.under_way(), 64);
}

#[test]
fn setting_absent_removes_and_removing_the_absent_is_done() {
    let script = "cluster 1 1\nelect 0\nset 0 61 62\nset 0 61 62\nset 0 61 -\nget 0 61\n\
                  del 0 61\nsetif 0 61 - -\nsetif 0 61 - 63\nsetif 0 61 62 64\n\
                  setif 0 61 63 64\nget 0 61\nkeys 0 0\nset 0 6100 65\nset 0 60 65\nkeys 0 0\n";
    let output = "1 done 4\n2 done 1\n3 done 1\n4 value 1 -\n5 done 1\n6 done 1\n7 done 1\n\
                  8 mismatch 1\n9 done 1\n10 value 1 64\n11 keys 1 61\n12 done 1\n13 done 1\n\
                  14 keys 1 60 61 6100\nmessages 0 0 0 0 0";
    assert_eq!(print(script), output);
}

#[test]
fn an_old_write_does_not_cover_a_newer_one() {
    let mut bench = Bench::new("cluster 3 1");
    bench.elect(0, &[1]);
    bench.quiet(&["set 0 61 62"]);
    bench.read_unrecovered(0, 1);
    assert_eq!(bench.exchange(REPLICAWRITE, 0, 1), "1 done 4");
    // Server 2 gets the own write (1, 2) first, then the recovery write (1, 1).
    bench.deliver(REPLICAWRITE, 0, 2);
    bench.deliver(REPLICAWRITE, 0, 2);
    let replica = bench.cluster().server(2).replicas[0];
    assert_eq!(
        replica.version,
        Version {
            number: 1,
            counter: 2
        }
    );
    let acks = bench.kinds().into_iter().filter(|&kind| kind == ACKWRITE);
    assert_eq!(acks.count(), 2);
}
