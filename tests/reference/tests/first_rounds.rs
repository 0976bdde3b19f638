//! The first round of a call (RULES, Calls 3): on a recovered bucket
//! what writes goes straight to the write, and what ends as `mismatch` or
//! `full` makes the checking round first.

mod common;

use common::{print, Bench};
use reference::cluster::server::Role;
use reference::datagram::{Version, PLEASEVOTE, REPLICAREAD, REPLICAWRITE};

/// A recovered bucket in which key 61 has value 01.
fn recovered() -> Bench {
    Bench::recovered("set 0 61 01")
}

/// The version of a server's copy of bucket 0.
fn version(bench: &Bench, server: usize) -> (u16, u32) {
    let Version { number, counter } = bench.cluster().server(server).replicas[0].version;
    (number, counter)
}

#[test]
fn every_write_on_a_recovered_bucket_is_sent_at_once_and_takes_1_round() {
    let mut bench = recovered();
    let writes = [
        "set 0 61 02",
        "setif 0 61 02 03",
        "setif 0 62 - 04",
        "setif 0 61 03 -",
        "del 0 62",
        "del 0 62",
        "set 0 62 -",
        "setif 0 62 - -",
    ];
    for (made, write) in writes.iter().enumerate() {
        bench.quiet(&[write]);
        assert_eq!(bench.kinds(), [REPLICAWRITE; 2], "{write}");
        // The leader's own copy has the next version in the call's line.
        assert_eq!(version(&bench, 0), (1, made as u32 + 3), "{write}");
        let answer = format!("{} done 1", made + 2);
        assert_eq!(bench.exchange(REPLICAWRITE, 0, 2), answer, "{write}");
        assert_eq!(version(&bench, 2), version(&bench, 0), "{write}");
        bench.lose_all();
    }
}

#[test]
fn what_only_answers_makes_the_checking_round_first() {
    let mut bench = recovered();
    for key in ["62", "63", "64"] {
        bench.quiet(&[&format!("set 0 {key} 01")]);
        bench.exchange(REPLICAWRITE, 0, 1);
        bench.lose_all();
    }
    let answers = [
        ("setif 0 61 02 03", "mismatch 1"),
        ("setif 0 61 - 03", "mismatch 1"),
        ("setif 0 61 02 -", "mismatch 1"),
        ("set 0 65 01", "full 1"),
        ("setif 0 65 - 01", "full 1"),
        // The expected value is looked at before there is found to be no room.
        ("setif 0 65 01 01", "mismatch 1"),
        ("get 0 61", "value 1 01"),
        ("get 0 65", "value 1 -"),
        ("keys 0 0", "keys 1 61 62 63 64"),
    ];
    for (made, (call, answer)) in answers.iter().enumerate() {
        bench.quiet(&[call]);
        assert_eq!(bench.kinds(), [REPLICAREAD; 2], "{call}");
        let answer = format!("{} {answer}", made + 5);
        assert_eq!(bench.exchange(REPLICAREAD, 0, 2), answer, "{call}");
        assert_eq!(version(&bench, 0), (1, 5), "{call}");
        bench.lose_all();
    }
}

#[test]
fn an_election_leaves_the_bucket_unrecovered() {
    let mut bench = recovered();
    bench.elect(0, &[1]);
    bench.lose_all();
    bench.quiet(&["set 0 61 02"]);
    assert_eq!(bench.kinds(), [REPLICAREAD; 2]);
    assert_eq!(bench.read_unrecovered(0, 1), "");
    assert_eq!(bench.exchange(REPLICAWRITE, 0, 1), "2 done 4");
    // The bucket is recovered again: the next write is sent at once.
    bench.quiet(&["setif 0 61 02 03"]);
    assert_eq!(bench.exchange(REPLICAWRITE, 0, 1), "3 done 1");
}

#[test]
fn buckets_are_recovered_one_by_one() {
    let mut bench = Bench::new("cluster 1 4");
    assert_eq!(bench.line("elect 0"), "");
    // Keys 61 and 65 fall into bucket 0, key 62 into bucket 1.
    assert_eq!(bench.line("set 0 61 01"), "1 done 4");
    assert_eq!(bench.line("set 0 65 01"), "2 done 1");
    assert_eq!(bench.line("set 0 62 01"), "3 done 4");
    assert_eq!(bench.line("del 0 62"), "4 done 1");
    // A read recovers a bucket as well.
    assert_eq!(bench.line("keys 0 2"), "5 keys 3 -");
    assert_eq!(bench.line("setif 0 63 - 01"), "6 done 1");
}

#[test]
fn a_straight_write_that_fails_is_unknown_after_1_round() {
    let ends: [fn(&mut Bench) -> String; 3] = [
        |bench| bench.line("timeout 0 0"),
        |bench| bench.line("elect 0"),
        |bench| {
            bench.quiet(&["elect 1"]);
            bench.deliver(PLEASEVOTE, 1, 0)
        },
    ];
    for end in ends {
        let mut bench = recovered();
        bench.quiet(&["set 0 61 02"]);
        assert_eq!(end(&mut bench), "2 unknown 1");
        let mut bench = recovered();
        bench.quiet(&["setif 0 61 02 03"]);
        assert_eq!(end(&mut bench), "2 notdone 1");
    }
}

/// Server 1 is elected by server 2, while server 0 still leads; server 1 then
/// writes 07.
fn depose(bench: &mut Bench) {
    bench.elect(1, &[2]);
    bench.lose_all();
    bench.quiet(&["set 1 61 07"]);
    assert_eq!(bench.read_unrecovered(1, 2), "");
    assert_eq!(bench.exchange(REPLICAWRITE, 1, 2), "2 done 4");
    bench.lose_all();
    assert_eq!(bench.cluster().server(0).role, Role::Leader);
}

/// Servers 1 and 2 refuse a request of server 0, whose refusal is of the kind
/// two above; gives what the second refusal prints.
fn refused_by_both(bench: &mut Bench, request: u8) -> String {
    for server in [1, 2] {
        assert_eq!(bench.deliver(request, 0, server), "");
    }
    assert_eq!(bench.deliver(request + 2, 1, 0), "");
    bench.deliver(request + 2, 2, 0)
}

#[test]
fn a_deposed_leader_answers_nothing_from_its_old_copy() {
    // In its copy key 61 has 01, so it would answer `mismatch`, falsely.
    let mut bench = recovered();
    depose(&mut bench);
    bench.quiet(&["setif 0 61 07 08"]);
    assert_eq!(refused_by_both(&mut bench, REPLICAREAD), "3 notdone 1");
}

#[test]
fn a_deposed_leader_writes_in_vain() {
    let mut bench = recovered();
    depose(&mut bench);
    bench.quiet(&["set 0 61 02"]);
    assert_eq!(refused_by_both(&mut bench, REPLICAWRITE), "3 unknown 1");
    assert_eq!(version(&bench, 0), (1, 3));
    bench.lose_all();
    // The copy of server 0 has 02, which is older than what server 1 wrote.
    bench.quiet(&["get 1 61"]);
    assert_eq!(bench.exchange(REPLICAREAD, 1, 0), "4 value 1 07");
    bench.elect(2, &[0]);
    bench.lose_all();
    bench.quiet(&["get 2 61"]);
    assert_eq!(bench.read_unrecovered(2, 0), "5 value 3 07");
}

#[test]
fn an_unknown_write_may_have_taken_effect() {
    let mut bench = recovered();
    bench.quiet(&["set 0 61 02"]);
    bench.deliver(REPLICAWRITE, 0, 2);
    assert_eq!(bench.line("timeout 0 0"), "2 unknown 1");
    bench.elect(1, &[2]);
    bench.lose_all();
    bench.quiet(&["get 1 61"]);
    assert_eq!(bench.read_unrecovered(1, 2), "3 value 3 02");
}

#[test]
fn a_straight_write_without_places_changes_nothing() {
    let mut bench = recovered();
    bench.quiet(&["elect 2"]);
    while bench.under_way() < 63 {
        bench.quiet(&["copy 0"]);
    }
    assert_eq!(bench.refusal("set 0 61 02"), 12);
    assert_eq!(version(&bench, 0), (1, 2));
    assert_eq!(bench.refusal("timeout 0 0"), 10);
    bench.quiet(&["lose 0", "set 0 61 02"]);
    assert_eq!(version(&bench, 0), (1, 3));
    assert_eq!(bench.under_way(), 64);
    // The refused call took no number.
    assert_eq!(bench.exchange(REPLICAWRITE, 0, 1), "2 done 1");
}

#[test]
fn a_server_alone_counts_its_rounds_alike() {
    let script = "cluster 1 1\nelect 0\nset 0 61 01\nset 0 61 02\nsetif 0 61 02 03\n\
                  setif 0 61 02 04\nsetif 0 62 - 01\ndel 0 62\ndel 0 62\nset 0 62 -\n\
                  get 0 61\nset 0 62 01\nset 0 63 01\nset 0 64 01\nset 0 65 01\n\
                  setif 0 65 - 01\nsetif 0 65 01 01\nset 0 65 -\nkeys 0 0\nelect 0\n\
                  setif 0 61 02 05\nset 0 61 05\nelect 0\nset 0 61 06\n";
    let output = "1 done 4\n2 done 1\n3 done 1\n4 mismatch 1\n5 done 1\n6 done 1\n7 done 1\n\
                  8 done 1\n9 value 1 03\n10 done 1\n11 done 1\n12 done 1\n13 full 1\n\
                  14 full 1\n15 mismatch 1\n16 done 1\n17 keys 1 61 62 63 64\n\
                  18 mismatch 3\n19 done 1\n20 done 4\nmessages 0 0 0 0 0";
    assert_eq!(print(script), output);
}
