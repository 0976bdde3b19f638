//! The limits of a script: lengths of lines, numbers of lines and elections.

mod common;

use common::{print, run, run_in_chunks, Bench};
use reference::datagram::PLEASEVOTE;
use reference::script::Script;

#[test]
fn after_a_million_accepted_lines_5_is_given() {
    let mut text = b"cluster 1 1\nelect 0\nnonsense\n".to_vec();
    for _ in 0..999_999 {
        text.extend_from_slice(b"get 0 61\n");
    }
    text.extend_from_slice(b"elect 0\nelect\ncluster 1 1\nelect 1\nget 0 -\nlose 0\nget 0 61\n");
    text.extend_from_slice(b"cut 0 0\nstart 0\nstart 1\ncut 0");
    let out = String::from_utf8(run(&text)).unwrap();
    let last: Vec<&str> = out.lines().skip(1_000_000 - 1).collect();
    assert_eq!(
        last,
        [
            "999999 value 1 -",
            "line 1000003 refused 5",
            "line 1000004 refused 1",
            "line 1000005 refused 2",
            "line 1000006 refused 3",
            "line 1000007 refused 4",
            "line 1000008 refused 5",
            "line 1000009 refused 5",
            "line 1000010 refused 5",
            "line 1000011 refused 5",
            "line 1000012 refused 3",
            "line 1000013 refused 1",
            "messages 0 0 0 0 0",
        ]
    );
}

#[test]
fn elections_end_at_65_535() {
    let mut bench = Bench::new("cluster 1 1");
    for _ in 0..65_535 {
        assert_eq!(bench.refusal("elect 0"), 0);
    }
    assert_eq!(bench.refusal("elect 0"), 11);
    assert_eq!(bench.line("set 0 61 62"), "1 done 4");
    assert_eq!(bench.refusal("elect 0"), 11);
    assert_eq!(bench.line("get 0 61"), "2 value 1 62");
}

#[test]
fn refusal_5_comes_before_11() {
    let mut text = b"cluster 1 1\n".to_vec();
    for _ in 0..65_536 {
        text.extend_from_slice(b"elect 0\n");
    }
    for _ in 65_535..1_000_000 {
        text.extend_from_slice(b"get 0 61\n");
    }
    text.extend_from_slice(b"elect 0\n");
    let out = String::from_utf8(run(&text)).unwrap();
    let refused: Vec<&str> = out
        .lines()
        .filter(|line| line.contains("refused"))
        .collect();
    assert_eq!(refused, ["line 65537 refused 11", "line 1000003 refused 5"]);
}

#[test]
fn refusal_11_comes_before_12() {
    let mut bench = Bench::new("cluster 7 1");
    for _ in 0..65_535 {
        if bench.under_way() > 58 {
            bench.lose_all();
        }
        assert_eq!(bench.refusal("elect 0"), 0);
    }
    while bench.under_way() < 64 {
        assert_eq!(bench.refusal("copy 0"), 0);
    }
    assert_eq!(bench.refusal("elect 0"), 11);
    // Server 1 has not yet heard of the last election.
    assert_eq!(bench.refusal("elect 1"), 12);
    bench.deliver(PLEASEVOTE, 0, 1);
    assert_eq!(bench.under_way(), 64);
    assert_eq!(bench.refusal("elect 1"), 11);
    assert_eq!(bench.refusal("elect 2"), 12);
}

#[test]
fn a_line_may_have_120_bytes() {
    let line = |length: usize| format!("get 0 {}", "61".repeat(length / 2 - 3));
    for (length, refusal) in [(118, 4), (120, 4), (122, 1)] {
        assert_eq!(line(length).len(), length);
        assert_eq!(Bench::new("cluster 1 1").refusal(&line(length)), refusal);
    }
    let line = |length: usize| format!("set 0 61 {}", "6".repeat(length - 9));
    for (length, refusal) in [(119, 4), (120, 1), (121, 1)] {
        assert_eq!(line(length).len(), length);
        assert_eq!(Bench::new("cluster 1 1").refusal(&line(length)), refusal);
    }
}

#[test]
fn a_very_long_line_is_one_refused_line() {
    let mut text = b"cluster 1 1\nelect 0".to_vec();
    text.resize(3_000_000, b' ');
    text.extend_from_slice(b"\nelect 0\nget 0 61\n");
    let output = "line 2 refused 1\n1 value 3 -\nmessages 0 0 0 0 0\n";
    for size in [1, 7, 4096, text.len()] {
        assert_eq!(run_in_chunks(&text, size), output.as_bytes());
    }
}

#[test]
fn the_last_line_may_lack_its_line_feed() {
    assert_eq!(print(""), "messages 0 0 0 0 0");
    assert_eq!(print("\n"), "line 1 refused 1\nmessages 0 0 0 0 0");
    assert_eq!(
        print("\n\n"),
        "line 1 refused 1\nline 2 refused 1\nmessages 0 0 0 0 0"
    );
    let with = print("cluster 1 1\nelect 0\nget 0 61\n");
    assert_eq!(with, "1 value 3 -\nmessages 0 0 0 0 0");
    assert_eq!(print("cluster 1 1\nelect 0\nget 0 61"), with);
}

#[test]
fn nothing_after_line_4_294_967_295_is_read() {
    let text = b"elect\ncluster 1 1\nelect 0\nget 0 61\nget 0 61\n";
    for size in [1, 5, text.len()] {
        let mut script = Script::after_line(u32::MAX - 4);
        let mut out = Vec::new();
        for chunk in text.chunks(size) {
            script.feed(chunk, &mut out);
        }
        assert!(script.is_over());
        script.finish(&mut out);
        let output = "line 4294967292 refused 1\n1 value 3 -\nmessages 0 0 0 0 0\n";
        assert_eq!(String::from_utf8(out).unwrap(), output);
    }
}

#[test]
fn the_last_line_of_all_may_lack_its_line_feed() {
    let mut script = Script::after_line(u32::MAX - 1);
    let mut out = Vec::new();
    script.feed(b"elect", &mut out);
    script.finish(&mut out);
    assert_eq!(out, b"line 4294967295 refused 1\nmessages 0 0 0 0 0\n");
}
