//! The example, rows and edges (RULES, Rows and edges), and an example of each
//! refusal.

mod common;

use common::{print, run, Bench};
use reference::bucket::{self, Key, Table, Value};
use reference::cluster::majority;
use reference::cluster::server::{Role, Server};
use reference::datagram::{self, Header, Version};
use reference::hash::{bucket_of, fnv1a};

#[test]
fn example() {
    let script = "cluster 1 4\nelect 0\nset 0 61 6869\nget 0 61\nget 0 65\nkeys 0 0\nelect 1\n";
    let output = "1 done 4\n2 value 1 6869\n3 value 1 -\n4 keys 1 61\nline 7 refused 3\nmessages 0 0 0 0 0\n";
    assert_eq!(run(script.as_bytes()), output.as_bytes());
}

#[test]
fn rows_p1_to_p3_hash() {
    assert_eq!(fnv1a(b"a"), 0xE40C292C);
    assert_eq!((bucket_of(b"a", 4), bucket_of(b"a", 8)), (0, 4));
    assert_eq!(fnv1a(b"e"), 0xE00C22E0);
    assert_eq!(bucket_of(b"e", 4), 0);
    assert_eq!(bucket_of(b"b", 4), 1);
}

#[test]
fn row_p4_majorities() {
    assert_eq!([1, 4, 7].map(majority), [1, 3, 4]);
}

#[test]
fn rows_p5_to_p7_bucket_bytes() {
    let mut bytes = [0xff; 113];
    bucket::write(&[(b"a", b"hi")], &mut bytes).unwrap();
    assert_eq!(bytes[..8], [1, 5, 1, 6, 2, 0x61, 0x68, 0x69]);
    assert_eq!(bytes[8..], [0; 105]);
    let mut table = Table::EMPTY;
    table.put(&Key::new(b"a"), &Value::new(b"hi")).unwrap();
    assert_eq!(bucket::read(&bytes), Ok(table));
    bytes[112] = 1;
    assert_eq!(bucket::read(&bytes), Err(13));
    let mut empty = [0xff; 113];
    bucket::write(&[], &mut empty).unwrap();
    assert_eq!(empty, [0; 113]);
    assert_eq!(bucket::read(&empty), Ok(Table::EMPTY));
}

fn version(number: u16, counter: u32) -> Version {
    Version { number, counter }
}

#[test]
fn row_p8_older_write_is_acknowledged_and_not_stored() {
    let mut server = Server::fresh();
    let mut table = Table::EMPTY;
    table.put(&Key::new(b"a"), &Value::new(b"x")).unwrap();
    assert!(server.replica_write(0, version(5, 3), &table, 1));
    assert_eq!(server.vote, 5);
    assert!(server.replica_write(0, version(5, 2), &Table::EMPTY, 1));
    assert_eq!(server.replicas[0].version, version(5, 3));
    assert_eq!(server.replicas[0].table, table);
}

#[test]
fn row_p9_write_below_the_vote_is_refused() {
    let mut server = Server::fresh();
    assert!(server.please_vote(6, 2));
    assert!(!server.replica_write(0, version(5, 9), &Table::EMPTY, 1));
    assert_eq!((server.vote, server.leader), (6, 2));
    assert_eq!(server.replicas[0].version, version(0, 0));
}

#[test]
fn row_p10_one_server_counts_once() {
    let mut bench = Bench::new("cluster 5 1");
    bench.quiet(&["elect 0", "deliver 0"]);
    let place = bench.place(datagram::ACKVOTE, 1, 0);
    bench.quiet(&[&format!("copy {place}"), &format!("deliver {place}")]);
    assert_eq!(bench.cluster().server(0).role, Role::Candidate);
    assert_eq!(bench.refusal("get 0 61"), 8);
    bench.exchange(datagram::PLEASEVOTE, 0, 2);
    assert_eq!(bench.cluster().server(0).role, Role::Leader);
}

#[test]
fn edge_fourth_key_is_stored_and_fifth_is_full() {
    let script = "cluster 1 1\nelect 0\nset 0 01 61\nset 0 02 61\nset 0 03 61\nset 0 04 61\n\
                  set 0 05 61\nset 0 04 62\nset 0 05 -\nsetif 0 05 00 61\nsetif 0 05 - 61\n\
                  setif 0 05 - -\ndel 0 01\nset 0 05 61\nkeys 0 0\n";
    let output = "1 done 4\n2 done 1\n3 done 1\n4 done 1\n5 full 1\n6 done 1\n7 done 1\n\
                  8 mismatch 1\n9 full 1\n10 done 1\n11 done 1\n12 done 1\n13 keys 1 02 03 04 05\n\
                  messages 0 0 0 0 0";
    assert_eq!(print(script), output);
}

/// Seven servers with so many messages under way, `elect 0` being next.
fn crowded(count: usize) -> Bench {
    let mut bench = Bench::new("cluster 7 1");
    for _ in 0..count / 6 {
        bench.quiet(&["elect 0"]);
    }
    for _ in 0..count % 6 {
        bench.quiet(&["copy 0"]);
    }
    assert_eq!(bench.under_way(), count);
    bench
}

#[test]
fn edge_58_under_way_lets_an_election_through() {
    assert_eq!(crowded(58).refusal("elect 0"), 0);
    assert_eq!(crowded(59).refusal("elect 0"), 12);
}

#[rustfmt::skip]
const MALFORMED: [&str; 48] = [
    "elect", "", " ", "elect ", "elect  0", " elect 0", "elect 0 ", "elect\t0", "elect 0\r",
    "Elect 0", "elect 00", "elect 01", "elect 1000000000", "elect -", "elect 0 0", "elect +1",
    "elect 0x1", "get 0", "get 0 ", "get 0 6", "get 0 616", "get 0 6A", "get 0 6g", "get 0 61 ",
    "get 0 --", "get 0 -61", "get 0 61-", "set 0 61", "setif 0 61 -", "del 0 61 -", "keys 0",
    "timeout 0", "cluster 3", "cluster 3 4 5", "deliver", "copy", "lose", "stop",
    "start", "start ", "start 00", "start 0 0", "cut", "cut 0", "cut 0 1 2", "cut 0 -1", "cut 0 01",
    "join 3",
];

#[test]
fn refusal_1_form() {
    for line in MALFORMED {
        let alone = format!("{line}\n");
        assert_eq!(
            print(&alone),
            "line 1 refused 1\nmessages 0 0 0 0 0",
            "{line:?}"
        );
        assert_eq!(Bench::new("cluster 1 1").refusal(line), 1, "{line:?}");
    }
}

#[test]
fn refusal_2_cluster() {
    for line in [
        "cluster 8 4",
        "cluster 0 4",
        "cluster 1 9",
        "cluster 1 0",
        "cluster 999999999 1",
    ] {
        assert_eq!(print(line), "line 1 refused 2\nmessages 0 0 0 0 0");
    }
    for line in [
        "elect 0",
        "get 9 -",
        "keys 9 9",
        "deliver 0",
        "stop 7",
        "start 7",
        "cut 0 0",
        "set 0 - 61",
    ] {
        assert_eq!(print(line), "line 1 refused 2\nmessages 0 0 0 0 0");
    }
    let mut bench = Bench::new("cluster 1 1");
    for line in ["cluster 1 1", "cluster 8 4"] {
        assert_eq!(bench.refusal(line), 2);
    }
    let retried = "cluster 8 4\ncluster 1 1\nelect 0\nget 0 61\n";
    assert_eq!(
        print(retried),
        "line 1 refused 2\n1 value 3 -\nmessages 0 0 0 0 0"
    );
}

#[test]
fn refusals_3_and_4_names_and_lengths() {
    let mut bench = Bench::new("cluster 3 2");
    for line in [
        "elect 3",
        "stop 3",
        "start 3",
        "get 3 61",
        "get 3 -",
        "keys 3 0",
        "keys 0 2",
        "timeout 0 2",
        "timeout 3 0",
        "set 999999999 61 61",
        "setif 3 - - -",
        "del 3 61",
    ] {
        assert_eq!(bench.refusal(line), 3, "{line}");
    }
    let (nine, seventeen) = ("61".repeat(9), "61".repeat(17));
    for line in [
        "get 0 -",
        "del 0 -",
        "set 0 - 61",
        "setif 0 - - 61",
        &format!("get 0 {nine}"),
        &format!("set 0 61 {seventeen}"),
        &format!("setif 0 61 {seventeen} 61"),
        &format!("setif 0 61 61 {seventeen}"),
    ] {
        assert_eq!(bench.refusal(line), 4, "{line}");
    }
    let (eight, sixteen) = ("61".repeat(8), "61".repeat(16));
    assert_eq!(
        bench.refusal(&format!("setif 0 {eight} {sixteen} {sixteen}")),
        8
    );
}

#[test]
fn refusals_6_to_10_examples() {
    let mut bench = Bench::new("cluster 3 1");
    assert_eq!(bench.refusal("get 1 61"), 8);
    assert_eq!(bench.refusal("timeout 0 0"), 10);
    for line in [
        "lose 0",
        "deliver 0",
        "copy 0",
        "cut 0 0",
        "deliver 999999999",
    ] {
        assert_eq!(bench.refusal(line), 7);
    }
    bench.quiet(&["stop 1"]);
    for line in ["stop 1", "elect 1", "get 1 61", "keys 1 0", "timeout 1 0"] {
        assert_eq!(bench.refusal(line), 6);
    }
    bench.elect(0, &[2]);
    bench.quiet(&["get 0 61"]);
    for line in ["get 0 61", "set 0 62 63", "keys 0 0"] {
        assert_eq!(bench.refusal(line), 9);
    }
}

#[test]
fn refusals_13_to_15_examples() {
    let mut bytes = [0; 129];
    assert_eq!(bucket::read(&bytes[..112]), Err(13));
    assert_eq!(bucket::read(&bytes[..114]), Err(13));
    bytes[112] = 1;
    assert_eq!(bucket::read(&bytes[..113]), Err(13));
    assert_eq!(bucket::write(&[], &mut [0; 112]), Err(15));
    let header = Header {
        kind: 10,
        from: 0,
        to: 1,
        bucket: 0,
        number: 1,
        round: 0,
        version: Version::NONE,
    };
    assert_eq!(datagram::write(&header, &[], &mut [0; 10]), Err(14));
    assert_eq!(datagram::read(&[10, 0, 1, 0, 0, 1, 0, 0, 0, 0]), Err(14));
    assert_eq!(
        datagram::read(&[1, 0, 1, 0, 0, 1, 0, 0, 0, 0])
            .unwrap()
            .0
            .kind,
        1
    );
    assert_eq!(
        datagram::write(&Header { kind: 1, ..header }, &[], &mut [0; 9]),
        Err(15)
    );
}
