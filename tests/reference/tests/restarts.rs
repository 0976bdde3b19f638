//! Servers that stop within their stores and servers that come back (document
//! 02, Change 8), sentence by sentence.

mod common;

use common::{run, Bench};
use reference::bucket::Table;
use reference::cluster::server::{Replica, Role, Server, Store};
use reference::datagram::{Header, Version, ACKREAD, ACKVOTE, ACKWRITE, NACKREAD, NACKVOTE};
use reference::datagram::{NACKWRITE, PLEASEVOTE, REPLICAREAD, REPLICAWRITE};

/// Number, vote, leader and the first bucket's version of a server.
fn stored(bench: &Bench, server: usize) -> (u16, u16, u8, (u16, u32)) {
    let server = bench.cluster().server(server);
    let Version { number, counter } = server.replicas[0].version;
    (server.number, server.vote, server.leader, (number, counter))
}

/// Cuts that message after so many stores; 0 where it is accepted.
fn cut(bench: &mut Bench, kind: u8, from: u8, to: u8, stores: usize) -> u8 {
    let place = bench.place(kind, from, to);
    bench.refusal(&format!("cut {place} {stores}"))
}

/// The most stores that a cut of that message may be made after; every number
/// up to it is accepted, those above are refused with 18.
fn stores_made(bench: &Bench, kind: u8, from: u8, to: u8) -> usize {
    let refusals: Vec<u8> = (0..6)
        .map(|stores| cut(&mut bench.clone(), kind, from, to, stores))
        .collect();
    let made = refusals.iter().take_while(|&&refusal| refusal == 0).count() - 1;
    assert!(refusals[made + 1..].iter().all(|&refusal| refusal == 18));
    let place = bench.place(kind, from, to);
    let most = format!("cut {place} 999999999");
    assert_eq!(bench.clone().refusal(&most), 18);
    made
}

/// Three servers, server 0 leads by the vote of 1 and has sent its own write of
/// `set 0 61 01`; server 2 has heard of nothing, so that the write makes two
/// stores there.
fn unheard() -> Bench {
    let mut bench = Bench::new("cluster 3 1");
    bench.elect(0, &[1]);
    bench.quiet(&["set 0 61 01"]);
    assert_eq!(bench.read_unrecovered(0, 1), "");
    bench
}

#[test]
fn the_number_is_stored_before_votes_are_asked_for() {
    let mut bench = Bench::new("cluster 3 1");
    bench.quiet(&["elect 1", "elect 1"]);
    bench.lose_all();
    bench.quiet(&["stop 1", "start 1"]);
    assert_eq!(stored(&bench, 1), (2, 2, 1, (0, 0)));
    bench.quiet(&["elect 1"]);
    let messages = bench.cluster().messages();
    assert_eq!(messages.header(messages.slot(0).unwrap()).number, 3);
}

#[test]
fn vote_leader_and_buckets_are_stored() {
    let mut bench = Bench::recovered("set 0 61 01");
    for server in [0, 1] {
        let before = stored(&bench, server);
        assert_eq!(before.1, 1);
        assert_eq!(before.3, (1, 2));
        let replicas = bench.cluster().server(server).replicas;
        bench.quiet(&[&format!("stop {server}"), &format!("start {server}")]);
        assert_eq!(stored(&bench, server), before);
        assert_eq!(bench.cluster().server(server).replicas, replicas);
    }
}

#[test]
fn a_server_alone_keeps_what_it_has_stored() {
    let script = "cluster 1 1\nelect 0\nset 0 61 01\nset 0 62 .\nstop 0\nget 0 61\nstart 0\n\
                  get 0 61\nelect 0\nget 0 61\nset 0 61 02\nkeys 0 0\n";
    let output = "1 done 4\n2 done 1\nline 6 refused 6\nline 8 refused 8\n3 value 3 01\n\
                  4 done 1\n5 keys 1 61 62\nmessages 0 0 0 0 0\n";
    assert_eq!(run(script.as_bytes()), output.as_bytes());
}

#[test]
fn the_vote_is_stored_before_the_bucket() {
    let bench = unheard();
    let fresh = (0, 0, u8::MAX, (0, 0));
    assert_eq!(stored(&bench, 2), fresh);
    assert_eq!(stores_made(&bench, REPLICAWRITE, 0, 2), 2);
    let after = |stores| {
        let mut bench = bench.clone();
        assert_eq!(cut(&mut bench, REPLICAWRITE, 0, 2, stores), 0);
        let cut = stored(&bench, 2);
        bench.quiet(&["start 2"]);
        assert_eq!(stored(&bench, 2), cut);
        cut
    };
    assert_eq!(after(0), fresh);
    assert_eq!(after(1), (0, 1, 0, (0, 0)));
    assert_eq!(after(2), (0, 1, 0, (1, 2)));
    let mut delivered = bench.clone();
    delivered.deliver(REPLICAWRITE, 0, 2);
    assert_eq!(after(2), stored(&delivered, 2));
}

#[test]
fn a_vote_is_one_store_if_it_rises() {
    let mut bench = Bench::new("cluster 4 1");
    bench.quiet(&["elect 0", "elect 1", "elect 3", "elect 3"]);
    assert_eq!(stores_made(&bench, PLEASEVOTE, 0, 2), 1);
    bench.quiet(&["copy 1"]);
    // Asked again by the one voted for, and by another under the same number.
    assert_eq!(stored(&bench, 2), (0, 1, 0, (0, 0)));
    assert_eq!(stores_made(&bench, PLEASEVOTE, 0, 2), 0);
    assert_eq!(stores_made(&bench, PLEASEVOTE, 1, 2), 0);
    // Under a higher number, then under a lower one.
    assert_eq!(stores_made(&bench, PLEASEVOTE, 3, 2), 1);
    bench.deliver(PLEASEVOTE, 3, 2);
    assert_eq!(stores_made(&bench, PLEASEVOTE, 0, 2), 0);
}

#[test]
fn a_read_is_one_store_if_vote_or_leader_change() {
    let mut bench = Bench::new("cluster 4 1");
    // Servers 2 and 1 vote for server 0; server 3 stands under the same number.
    bench.quiet(&["elect 3"]);
    bench.elect(0, &[1, 2]);
    bench.quiet(&["get 0 61"]);
    assert_eq!(stores_made(&bench, REPLICAREAD, 0, 1), 0);
    // A new leader under the same number is a change of that part.
    assert_eq!(stored(&bench, 3), (1, 1, 3, (0, 0)));
    assert_eq!(stores_made(&bench, REPLICAREAD, 0, 3), 1);
    let place = bench.place(REPLICAREAD, 0, 3);
    bench.quiet(&[&format!("copy {place}")]);
    assert_eq!(stored(&bench, 3), (1, 1, 0, (0, 0)));
    assert_eq!(stores_made(&bench, REPLICAREAD, 0, 3), 0);
    // Below the vote it is refused.
    bench.quiet(&["elect 3"]);
    assert_eq!(stores_made(&bench, REPLICAREAD, 0, 3), 0);
    // A server that heard of no election.
    let mut bench = Bench::new("cluster 3 1");
    bench.elect(0, &[1]);
    bench.quiet(&["get 0 61"]);
    assert_eq!(stores_made(&bench, REPLICAREAD, 0, 2), 1);
}

#[test]
fn a_write_is_one_store_for_each_part_that_changes() {
    let mut bench = unheard();
    assert_eq!(stores_made(&bench, REPLICAWRITE, 0, 1), 1);
    assert_eq!(stores_made(&bench, REPLICAWRITE, 0, 2), 2);
    let place = bench.place(REPLICAWRITE, 0, 2);
    bench.quiet(&[&format!("copy {place}")]);
    // The same again, and an older one: neither part changes.
    assert_eq!(stores_made(&bench, REPLICAWRITE, 0, 2), 0);
    bench.quiet(&[&format!("lose {place}")]);
    assert_eq!(stores_made(&bench, REPLICAWRITE, 0, 2), 0);
    // Below the vote it is refused.
    bench.quiet(&["elect 1"]);
    assert_eq!(stores_made(&bench, REPLICAWRITE, 0, 1), 0);
}

/// A write of (number, counter) from server `from` on bucket 0.
fn write_of(number: u16, counter: u32, from: u8) -> Header {
    Header {
        kind: REPLICAWRITE,
        from,
        to: 6,
        bucket: 0,
        number,
        round: 1,
        version: Version { number, counter },
    }
}

#[test]
fn each_part_is_judged_for_itself() {
    let table = Table::EMPTY;
    let mut server = Server::fresh();
    (server.vote, server.leader) = (5, 1);
    server.replicas[0].version = Version {
        number: 5,
        counter: 3,
    };
    let stores = |header: Header| server.stores(&header, &table).collect::<Vec<Store>>();
    let vote = |number, leader| Store::Vote { number, leader };
    let bucket = |header: Header| Store::Bucket {
        bucket: 0,
        version: header.version,
        table: &table,
    };
    let newer = write_of(5, 4, 1);
    assert_eq!(stores(newer), [bucket(newer)]);
    let newer = write_of(5, 4, 2);
    assert_eq!(stores(newer), [vote(5, 2), bucket(newer)]);
    let newer = write_of(6, 1, 1);
    assert_eq!(stores(newer), [vote(6, 1), bucket(newer)]);
    assert_eq!(stores(write_of(5, 3, 1)), []);
    assert_eq!(stores(write_of(5, 3, 2)), [vote(5, 2)]);
    assert_eq!(stores(write_of(5, 2, 2)), [vote(5, 2)]);
    assert_eq!(stores(write_of(4, 9, 2)), []);
}

#[test]
fn a_cut_sends_no_reply_and_counts_as_lost() {
    for stores in 0..=2 {
        let mut bench = unheard();
        let (before, list) = (bench.cluster().tally(), bench.kinds());
        let place = bench.place(REPLICAWRITE, 0, 2);
        bench.quiet(&[&format!("cut {place} {stores}")]);
        let tally = bench.cluster().tally();
        assert_eq!((tally.sent, tally.copied), (before.sent, before.copied));
        assert_eq!(tally.delivered, before.delivered);
        assert_eq!(tally.lost, before.lost + 1);
        assert_eq!(tally.under_way, before.under_way - 1);
        let mut left = list;
        left.remove(place);
        assert_eq!(bench.kinds(), left);
        assert!(bench.cluster().server(2).stopped);
    }
}

#[test]
fn later_messages_move_down_after_a_cut() {
    let mut bench = Bench::new("cluster 4 1");
    bench.quiet(&["elect 0", "cut 1 1"]);
    let messages = bench.cluster().messages();
    let to = |place| messages.header(messages.slot(place).unwrap()).to;
    assert_eq!((0..messages.len()).map(to).collect::<Vec<_>>(), [1, 3]);
    // What is handed to the stopped server is lost.
    bench.quiet(&["elect 1", "deliver 3"]);
    assert_eq!(bench.cluster().tally().lost, 2);
    assert_eq!(stored(&bench, 2), (0, 1, 0, (0, 0)));
}

#[test]
fn a_cut_ends_no_call_of_its_server() {
    for stores in [0, 1] {
        let mut bench = Bench::new("cluster 3 2");
        bench.elect(0, &[1]);
        bench.quiet(&["keys 0 0", "keys 0 1", "elect 1"]);
        // Delivered, the request would end leadership and both calls.
        let ended = bench.clone().deliver(PLEASEVOTE, 1, 0);
        assert_eq!(ended, "1 notdone 1\n2 notdone 1");
        let place = bench.place(PLEASEVOTE, 1, 0);
        bench.quiet(&[&format!("cut {place} {stores}")]);
        let server = bench.cluster().server(0);
        assert!(server.calls[0].is_open() && server.calls[1].is_open());
        assert_eq!(server.vote, 1 + stores);
        bench.quiet(&["start 0"]);
        let server = bench.cluster().server(0);
        assert!(!server.calls[0].is_open() && !server.calls[1].is_open());
        assert_eq!((server.vote, server.role), (1 + stores, Role::Idle));
    }
}

#[test]
fn a_start_forgets_all_that_is_not_stored() {
    let mut bench = Bench::new("cluster 3 2");
    bench.elect(0, &[1]);
    bench.quiet(&["set 0 61 01", "keys 0 1", "stop 0"]);
    let before = bench.cluster().server(0).clone();
    assert!(before.last_round > 0 && before.votes > 0);
    bench.quiet(&["start 0"]);
    let expected = Server {
        number: 1,
        vote: 1,
        leader: 0,
        replicas: before.replicas,
        ..Server::fresh()
    };
    assert_eq!(*bench.cluster().server(0), expected);
    assert_eq!(bench.refusal("keys 0 0"), 8);
}

#[test]
fn rounds_are_numbered_from_1_again() {
    let mut bench = Bench::new("cluster 3 2");
    bench.elect(0, &[1]);
    bench.quiet(&["keys 0 0", "keys 0 1"]);
    let rounds = |bench: &Bench| {
        let messages = bench.cluster().messages();
        let header = |place| messages.header(messages.slot(place).unwrap());
        let reads = (0..messages.len()).filter(|&place| header(place).kind == REPLICAREAD);
        reads.map(|place| header(place).round).collect::<Vec<_>>()
    };
    assert_eq!(rounds(&bench), [1, 1, 2, 2]);
    bench.quiet(&["stop 0"]);
    bench.lose_all();
    bench.quiet(&["start 0"]);
    bench.elect(0, &[1]);
    bench.quiet(&["keys 0 1", "keys 0 0"]);
    assert_eq!(rounds(&bench), [1, 1, 2, 2]);
}

#[test]
fn a_call_of_a_restarted_server_never_ends_and_frees_its_bucket() {
    let mut bench = Bench::new("cluster 3 1");
    bench.elect(0, &[1]);
    bench.quiet(&["get 0 61"]);
    bench.deliver(REPLICAREAD, 0, 1);
    bench.quiet(&["stop 0", "start 0"]);
    assert_eq!(bench.refusal("timeout 0 0"), 10);
    bench.elect(0, &[2]);
    // Round 1 is open again: the reply to the old round 1 has the old number.
    bench.quiet(&["get 0 61"]);
    let old = bench.place(ACKREAD, 1, 0);
    bench.quiet(&[&format!("deliver {old}")]);
    assert_eq!(bench.cluster().server(0).calls[0].rounds, 1);
    assert_eq!(bench.read_unrecovered(0, 1), "2 value 3 -");
    assert_eq!(bench.deliver_all(), "");
    assert_eq!(bench.refusal("timeout 0 0"), 10);
}

#[test]
fn a_write_of_a_restarted_server_may_take_effect_or_not() {
    for (heard, value) in [(true, "01"), (false, "-")] {
        let mut bench = unheard();
        if heard {
            bench.deliver(REPLICAWRITE, 0, 1);
        }
        bench.quiet(&["stop 0", "start 0"]);
        bench.lose_all();
        bench.quiet(&["elect 2"]);
        bench.lose_all();
        bench.elect(2, &[1]);
        bench.quiet(&["get 2 61"]);
        assert_eq!(bench.read_unrecovered(2, 1), format!("2 value 3 {value}"));
    }
}

#[test]
fn late_votes_do_not_make_a_restarted_candidate_leader() {
    let mut bench = Bench::new("cluster 3 1");
    bench.quiet(&["elect 0", "deliver 0", "deliver 0", "stop 0", "start 0"]);
    assert_eq!(bench.kinds(), [ACKVOTE, ACKVOTE]);
    bench.quiet(&["deliver 0", "deliver 0"]);
    let server = bench.cluster().server(0);
    assert_eq!((server.role, server.votes), (Role::Idle, 0));
    assert_eq!(bench.refusal("get 0 61"), 8);
    bench.elect(0, &[1]);
    assert_eq!(stored(&bench, 0), (2, 2, 0, (0, 0)));
    assert_eq!(bench.cluster().server(0).role, Role::Leader);
}

/// The kind of the reply that server 2 gives to candidate 1, after it was asked
/// by candidate 0 under the same number and `then` was done.
fn second_reply(then: &[&str]) -> u8 {
    let mut bench = Bench::new("cluster 3 1");
    bench.quiet(&["elect 0", "elect 1", "lose 0", "lose 1"]);
    // Left are 0 to 2 and 1 to 2.
    bench.quiet(then);
    bench.deliver(PLEASEVOTE, 1, 2);
    *bench.kinds().last().unwrap()
}

#[test]
fn a_stored_vote_is_kept() {
    assert_eq!(second_reply(&["lose 0"]), ACKVOTE);
    assert_eq!(second_reply(&["deliver 0"]), NACKVOTE);
    assert_eq!(second_reply(&["deliver 0", "stop 2", "start 2"]), NACKVOTE);
    assert_eq!(second_reply(&["cut 0 1", "start 2"]), NACKVOTE);
    assert_eq!(second_reply(&["cut 0 0", "start 2"]), ACKVOTE);
}

#[test]
fn elections_go_on_from_what_was_stored() {
    let mut bench = Bench::new("cluster 3 1");
    for _ in 0..4 {
        bench.quiet(&["elect 0"]);
    }
    // Server 2 stores the vote of the fourth and nothing else.
    assert_eq!(cut(&mut bench, PLEASEVOTE, 0, 2, 1), 0);
    bench.lose_all();
    bench.quiet(&["start 2", "elect 2", "stop 0", "start 0", "elect 0"]);
    assert_eq!(stored(&bench, 2), (5, 5, 2, (0, 0)));
    assert_eq!(stored(&bench, 0), (5, 5, 0, (0, 0)));
}

#[test]
fn refusal_18_of_a_start() {
    let mut bench = Bench::new("cluster 3 1");
    for server in 0..3 {
        assert_eq!(bench.refusal(&format!("start {server}")), 18);
    }
    assert_eq!(bench.refusal("start 3"), 3);
    bench.quiet(&["stop 1", "start 1"]);
    assert_eq!(bench.refusal("start 1"), 18);
    bench.quiet(&["elect 0", "cut 0 0"]);
    assert_eq!(bench.refusal("stop 1"), 6);
    bench.quiet(&["start 1"]);
    assert_eq!(bench.refusal("start 0"), 18);
    assert_eq!(bench.cluster().server(0).role, Role::Candidate);
}

#[test]
fn refusal_18_of_a_cut_of_another_kind() {
    // A vote granted and one refused, of servers 1 and 2.
    let mut votes = Bench::new("cluster 3 1");
    votes.quiet(&["elect 0", "elect 2", "deliver 0", "deliver 0"]);
    let mut reads = Bench::new("cluster 3 1");
    reads.elect(0, &[1]);
    reads.quiet(&["get 0 61", "elect 2", "elect 2"]);
    reads.deliver(REPLICAREAD, 0, 1);
    reads.deliver(REPLICAREAD, 0, 2);
    let mut writes = unheard();
    writes.quiet(&["elect 2", "elect 2"]);
    writes.deliver(REPLICAWRITE, 0, 1);
    writes.deliver(REPLICAWRITE, 0, 2);
    for (bench, kinds) in [
        (votes, [ACKVOTE, NACKVOTE]),
        (reads, [ACKREAD, NACKREAD]),
        (writes, [ACKWRITE, NACKWRITE]),
    ] {
        for (kind, from) in kinds.into_iter().zip([1, 2]) {
            let mut bench = bench.clone();
            for stores in [0, 1] {
                assert_eq!(cut(&mut bench, kind, from, 0, stores), 18, "{kind}");
            }
            assert!(!bench.cluster().server(0).stopped);
            let place = bench.place(kind, from, 0);
            assert_eq!(bench.refusal(&format!("deliver {place}")), 0);
        }
    }
}

#[test]
fn refusal_18_of_a_cut_at_a_stopped_server() {
    let mut bench = unheard();
    bench.quiet(&["stop 2"]);
    for stores in 0..3 {
        assert_eq!(cut(&mut bench, REPLICAWRITE, 0, 2, stores), 18);
    }
    bench.quiet(&["start 2"]);
    assert_eq!(cut(&mut bench, REPLICAWRITE, 0, 2, 2), 0);
    // From a stopped server it can be cut.
    let mut bench = unheard();
    bench.quiet(&["stop 0"]);
    assert_eq!(cut(&mut bench, REPLICAWRITE, 0, 2, 2), 0);
}

#[test]
fn refusal_18_changes_nothing() {
    let mut bench = unheard();
    let before: Vec<Server> = (0..3).map(|s| bench.cluster().server(s).clone()).collect();
    let (tally, kinds) = (bench.cluster().tally(), bench.kinds());
    for stores in [3, 4, 999_999_999] {
        assert_eq!(cut(&mut bench, REPLICAWRITE, 0, 2, stores), 18);
    }
    for server in ["start 0", "start 1", "start 2"] {
        assert_eq!(bench.refusal(server), 18);
    }
    let after: Vec<Server> = (0..3).map(|s| bench.cluster().server(s).clone()).collect();
    assert!(before == after);
    assert_eq!((bench.cluster().tally(), bench.kinds()), (tally, kinds));
}

#[test]
fn lower_numbers_come_first() {
    let mut bench = Bench::new("cluster 2 1");
    bench.quiet(&["elect 0", "deliver 0"]);
    // 7 before 18, whatever the stores; 3 before 18.
    for line in ["cut 1 0", "cut 1 9", "cut 999999999 999999999"] {
        assert_eq!(bench.refusal(line), 7);
    }
    assert_eq!(bench.refusal("cut 0 0"), 18);
    assert_eq!(bench.refusal("start 2"), 3);
    assert_eq!(bench.refusal("start 999999999"), 3);
    // A stopped server is no 6 for either.
    bench.quiet(&["stop 0"]);
    assert_eq!(bench.refusal("cut 0 0"), 18);
    bench.quiet(&["start 0"]);
    // 1 and 2 with and without a cluster.
    let out = run(b"cut 0\nstart\ncut 0 0\nstart 9\ncluster 1 1\ncut 0\nstart\n");
    let expected = "line 1 refused 1\nline 2 refused 1\nline 3 refused 2\nline 4 refused 2\n\
                    line 6 refused 1\nline 7 refused 1\nmessages 0 0 0 0 0\n";
    assert_eq!(out, expected.as_bytes());
}

/// A million accepted lines, of which those to be tested are the last.
fn after_a_million(last: &str) -> String {
    let mut text = b"cluster 2 1\nelect 0\nstop 1\nelect 0\n".to_vec();
    text.extend(b"copy 0\n".repeat(1_000_000 - 3));
    text.extend_from_slice(last.as_bytes());
    String::from_utf8(run(&text)).unwrap()
}

#[test]
fn refusal_5_comes_before_7_and_18() {
    let out = after_a_million("start 1\nstart 0\nstart 2\ncut 0 0\ncut 9 0\ncut 0 9\n");
    let refused: Vec<&str> = out.lines().collect();
    let numbers = [5, 5, 3, 5, 5, 5];
    for (at, number) in numbers.into_iter().enumerate() {
        let line = 1_000_002 + at;
        assert_eq!(refused[at], format!("line {line} refused {number}"));
    }
    assert_eq!(refused.len(), 7);
}

#[test]
fn cuts_and_starts_are_counted_among_the_accepted_lines() {
    let mut text = b"cluster 2 1\nelect 0\ncut 0 0\n".to_vec();
    text.extend(b"start 1\nstop 1\n".repeat(500_000 - 1));
    text.extend_from_slice(b"start 1\n");
    let out = String::from_utf8(run(&text)).unwrap();
    assert_eq!(out, "line 1000002 refused 5\nmessages 1 0 0 1 0\n");
}

#[test]
fn refusal_12_is_never_given_for_them() {
    let mut bench = Bench::new("cluster 7 1");
    for _ in 0..10 {
        bench.quiet(&["elect 0"]);
    }
    bench.quiet(&["copy 0", "copy 0", "copy 0", "copy 0"]);
    bench.quiet(&["stop 6"]);
    assert_eq!((bench.under_way(), bench.refusal("copy 0")), (64, 12));
    bench.quiet(&["start 6", "cut 0 0"]);
    assert_eq!(bench.under_way(), 63);
    bench.quiet(&["copy 0"]);
    assert_eq!(bench.under_way(), 64);
    bench.quiet(&["start 1"]);
}

#[test]
fn an_empty_bucket_is_stored_with_its_version() {
    // The recovery write of an empty bucket changes the version only.
    let mut bench = Bench::new("cluster 3 1");
    bench.elect(0, &[1]);
    bench.quiet(&["get 0 61"]);
    assert_eq!(bench.exchange(REPLICAREAD, 0, 1), "");
    assert_eq!(stores_made(&bench, REPLICAWRITE, 0, 1), 1);
    assert_eq!(stores_made(&bench, REPLICAWRITE, 0, 2), 2);
    assert_eq!(cut(&mut bench, REPLICAWRITE, 0, 2, 2), 0);
    let version = Version {
        number: 1,
        counter: 1,
    };
    let replica = Replica {
        version,
        ..Replica::EMPTY
    };
    assert_eq!(bench.cluster().server(2).replicas[0], replica);
}
