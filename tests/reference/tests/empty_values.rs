//! Empty values (RULES, Keys 4): `.` is a value of no bytes, which is
//! stored, found and expected like any other; `-` means that the key is absent.

mod common;

use common::{print, Bench};
use reference::bucket::{Key, Value};
use reference::datagram::{REPLICAREAD, REPLICAWRITE};

/// What a key may have, in words of a script: nothing at all, the empty value,
/// a zero, or the byte that `.` is.
const HELD: [&str; 4] = ["-", ".", "00", "2e"];

/// A `setif` on a key in one of these states.
struct Case {
    held: &'static str,
    expected: &'static str,
    new: &'static str,
}

impl Case {
    fn all() -> impl Iterator<Item = Case> {
        (0..64).map(|at| Case {
            held: HELD[at / 16],
            expected: HELD[at / 4 % 4],
            new: HELD[at % 4],
        })
    }

    fn matches(&self) -> bool {
        self.held == self.expected
    }

    /// The call that brings the key into its state; it writes, whatever that is.
    fn set(&self) -> String {
        format!("set 0 61 {}", self.held)
    }

    fn setif(&self, server: u8) -> String {
        format!("setif {server} 61 {} {}", self.expected, self.new)
    }

    /// What the key has afterwards.
    fn left(&self) -> &str {
        if self.matches() {
            self.new
        } else {
            self.held
        }
    }
}

#[test]
fn an_empty_value_is_stored_found_listed_and_removed() {
    let script = "cluster 1 1\nelect 0\nkeys 0 0\nset 0 61 .\nget 0 61\nget 0 62\nkeys 0 0\n\
                  set 0 61 -\nget 0 61\nkeys 0 0\nset 0 61 .\ndel 0 61\nget 0 61\ndel 0 61\n\
                  set 0 61 01\nset 0 61 .\nget 0 61\nset 0 61 2e\nget 0 61\n\
                  set 0 6100 .\nset 0 60 .\nkeys 0 0\nelect 0\nget 0 6100\nget 0 61";
    let output = "1 keys 3 -\n2 done 1\n3 value 1 .\n4 value 1 -\n5 keys 1 61\n\
                  6 done 1\n7 value 1 -\n8 keys 1 -\n9 done 1\n10 done 1\n11 value 1 -\n12 done 1\n\
                  13 done 1\n14 done 1\n15 value 1 .\n16 done 1\n17 value 1 2e\n\
                  18 done 1\n19 done 1\n20 keys 1 60 61 6100\n21 value 3 .\n22 value 1 2e\n\
                  messages 0 0 0 0 0";
    assert_eq!(print(script), output);
}

/// Every case at a server alone, with these lines before its `setif`: the rounds
/// that this takes where it writes, and where it only answers.
fn setif_of_a_server_alone(before: &[&str], writing: u32, answering: u32) {
    for case in Case::all() {
        let mut bench = Bench::new("cluster 1 1");
        bench.quiet(&["elect 0"]);
        assert_eq!(bench.line(&case.set()), "1 done 4");
        bench.quiet(before);
        let answer = match case.matches() {
            true => format!("2 done {writing}"),
            false => format!("2 mismatch {answering}"),
        };
        let call = case.setif(0);
        assert_eq!(bench.line(&call), answer, "{call} on {}", case.held);
        let left = case.left();
        assert_eq!(bench.line("get 0 61"), format!("3 value 1 {left}"));
        let keys = if left == "-" { "-" } else { "61" };
        assert_eq!(bench.line("keys 0 0"), format!("4 keys 1 {keys}"));
    }
}

#[test]
fn setif_matches_the_same_value_alone() {
    setif_of_a_server_alone(&[], 1, 1);
}

#[test]
fn so_it_does_on_an_unrecovered_bucket() {
    setif_of_a_server_alone(&["elect 0"], 4, 3);
}

#[test]
fn a_match_is_written_at_once_and_a_mismatch_is_checked_first() {
    for case in Case::all() {
        let mut bench = Bench::recovered(&case.set());
        let call = case.setif(0);
        bench.quiet(&[&call]);
        let (request, answer) = match case.matches() {
            true => (REPLICAWRITE, "2 done 1"),
            false => (REPLICAREAD, "2 mismatch 1"),
        };
        assert_eq!(bench.kinds(), [request; 2], "{call} on {}", case.held);
        assert_eq!(bench.exchange(request, 0, 1), answer);
        bench.lose_all();
        bench.quiet(&["get 0 61"]);
        let answer = format!("3 value 1 {}", case.left());
        assert_eq!(bench.exchange(REPLICAREAD, 0, 1), answer);
    }
}

#[test]
fn another_leader_recovers_what_a_follower_holds() {
    for case in Case::all() {
        let mut bench = Bench::recovered(&case.set());
        // Server 2 has heard neither of the election, so that its first number
        // is too low, nor of the write, which it gets from server 1.
        bench.quiet(&["elect 2"]);
        bench.lose_all();
        bench.elect(2, &[1]);
        bench.lose_all();
        let call = case.setif(2);
        bench.quiet(&[&call]);
        if case.matches() {
            assert_eq!(bench.read_unrecovered(2, 1), "");
            assert_eq!(bench.exchange(REPLICAWRITE, 2, 1), "2 done 4", "{call}");
        } else {
            assert_eq!(bench.read_unrecovered(2, 1), "2 mismatch 3", "{call}");
        }
        bench.elect(1, &[0]);
        bench.lose_all();
        bench.quiet(&["get 1 61"]);
        let answer = format!("3 value 3 {}", case.left());
        assert_eq!(bench.read_unrecovered(1, 0), answer, "{call}");
    }
}

#[test]
fn messages_and_copies_tell_empty_from_absent() {
    for (call, held) in [
        ("set 0 61 .", Some(&Value::EMPTY)),
        ("set 0 61 -", None),
        ("del 0 61", None),
    ] {
        let mut bench = Bench::recovered("set 0 61 01");
        bench.quiet(&[call]);
        let messages = bench.cluster().messages();
        let sent = messages.table(messages.slot(0).unwrap());
        assert_eq!(sent.look_up(&Key::new(b"a")), held, "{call}");
        assert_eq!(bench.deliver_all(), "2 done 1");
        for server in 0..3 {
            let copy = &bench.cluster().server(server).replicas[0].table;
            assert_eq!(copy.look_up(&Key::new(b"a")), held, "{call}");
        }
    }
}

#[test]
fn keys_with_empty_values_count_for_the_four() {
    let script = "cluster 1 1\nelect 0\nset 0 61 .\nset 0 62 .\nset 0 63 .\nset 0 64 .\n\
                  set 0 65 .\nset 0 65 01\nsetif 0 65 - .\nsetif 0 65 . .\nset 0 65 -\n\
                  setif 0 65 - -\ndel 0 65\nset 0 61 .\nsetif 0 61 . 01\nkeys 0 0\n\
                  set 0 62 -\nset 0 65 .\nkeys 0 0\nelect 0\nset 0 66 .\nget 0 65\n";
    let output = "1 done 4\n2 done 1\n3 done 1\n4 done 1\n\
                  5 full 1\n6 full 1\n7 full 1\n8 mismatch 1\n9 done 1\n\
                  10 done 1\n11 done 1\n12 done 1\n13 done 1\n14 keys 1 61 62 63 64\n\
                  15 done 1\n16 done 1\n17 keys 1 61 63 64 65\n18 full 3\n19 value 1 .\n\
                  messages 0 0 0 0 0";
    assert_eq!(print(script), output);
}

#[test]
fn a_fifth_key_with_an_empty_value_is_checked_before_it_is_full() {
    let mut bench = Bench::recovered("set 0 61 .");
    for (number, key) in (2..).zip(["62", "63", "64"]) {
        bench.quiet(&[&format!("set 0 {key} .")]);
        assert_eq!(bench.deliver_all(), format!("{number} done 1"));
    }
    for (number, call) in (5..).zip(["set 0 65 .", "setif 0 65 - ."]) {
        bench.quiet(&[call]);
        assert_eq!(bench.kinds(), [REPLICAREAD; 2], "{call}");
        assert_eq!(bench.deliver_all(), format!("{number} full 1"));
    }
    for (number, call) in (7..).zip(["set 0 65 -", "set 0 64 .", "del 0 65"]) {
        bench.quiet(&[call]);
        assert_eq!(bench.kinds(), [REPLICAWRITE; 2], "{call}");
        assert_eq!(bench.deliver_all(), format!("{number} done 1"));
    }
}

/// Every kind of call on this word as its key.
fn calls_on(server: u8, key: &str) -> [String; 5] {
    [
        format!("get {server} {key}"),
        format!("set {server} {key} 01"),
        format!("set {server} {key} ."),
        format!("setif {server} {key} . ."),
        format!("del {server} {key}"),
    ]
}

/// The numbers that a line is refused with before the cluster line, after it,
/// and when its server leads; 0 where it is accepted.
fn refusals(line: &str) -> [u8; 3] {
    let mut leading = Bench::new("cluster 1 1");
    leading.quiet(&["elect 0"]);
    let before = print(line);
    let before = match before.strip_prefix("line 1 refused ") {
        Some(rest) => rest[..1].parse().unwrap(),
        None => 0,
    };
    [
        before,
        Bench::new("cluster 1 1").refusal(line),
        leading.refusal(line),
    ]
}

#[test]
fn a_dot_is_no_key_and_a_key_of_no_bytes_is_too_short() {
    for line in calls_on(0, ".").into_iter().chain(calls_on(9, ".")) {
        assert_eq!(refusals(&line), [1, 1, 1], "{line}");
    }
    for line in calls_on(0, "-") {
        assert_eq!(refusals(&line), [2, 4, 4], "{line}");
    }
    for line in calls_on(9, "-") {
        assert_eq!(refusals(&line), [2, 3, 3], "{line}");
    }
}

#[test]
fn a_dot_stands_alone() {
    for word in [
        "..", ".1", "1.", ".61", "61.", "6.", "-.", ".-", ". ", " .", ".\t",
    ] {
        let values = [
            format!("set 0 61 {word}"),
            format!("setif 0 61 {word} 01"),
            format!("setif 0 61 01 {word}"),
        ];
        for line in calls_on(0, word).iter().chain(&values) {
            assert_eq!(refusals(line), [1, 1, 1], "{line:?}");
        }
    }
}

#[test]
fn a_dot_is_no_number_and_no_surplus_word() {
    for line in [
        ".",
        "elect .",
        "stop .",
        "start .",
        "cut . 0",
        "cut 0 .",
        "deliver .",
        "copy .",
        "lose .",
        "keys 0 .",
        "keys . 0",
        "timeout 0 .",
        "timeout . 0",
        "cluster . 1",
        "cluster 1 .",
        "get . 61",
        "set . 61 01",
        "get 0 61 .",
        "set 0 61 . .",
        "setif 0 61 .",
        "setif 0 61 . . .",
        "del 0 61 .",
    ] {
        assert_eq!(refusals(line), [1, 1, 1], "{line}");
    }
}

#[test]
fn lines_with_empty_values_are_judged_like_others() {
    let (nine, seventeen) = ("61".repeat(9), "61".repeat(17));
    for (line, expected) in [
        ("set 0 61 .".to_string(), [2, 8, 0]),
        ("setif 0 61 . .".to_string(), [2, 8, 0]),
        ("setif 0 61 - .".to_string(), [2, 8, 0]),
        ("setif 0 61 . -".to_string(), [2, 8, 0]),
        ("set 1 61 .".to_string(), [2, 3, 3]),
        ("setif 1 61 . .".to_string(), [2, 3, 3]),
        (format!("set 0 {nine} ."), [2, 4, 4]),
        (format!("setif 0 {nine} . ."), [2, 4, 4]),
        (format!("setif 0 61 . {seventeen}"), [2, 4, 4]),
        (format!("setif 0 61 {seventeen} ."), [2, 4, 4]),
    ] {
        assert_eq!(refusals(&line), expected, "{line}");
    }
}
