//! How long a quiet call takes (RULES, Quiet calls), on the program: after
//! 8 (n - 1) lines `deliver 0` the list is empty and the call has its result.

use program::compare::{check, expected};
use program::process::{bench, run};
use reference::cluster::SERVERS;
use reference::quiet::{after, most_deliveries, Conditions, State};
use reference::script::MOST_ACCEPTED;
use std::collections::BTreeMap;

/// A script whose last line, `lose 0`, tells whether the list is empty.
fn probed(before: &[u8], call: &str, size: usize) -> Vec<u8> {
    let mut text = before.to_vec();
    text.extend_from_slice(call.as_bytes());
    text.push(b'\n');
    text.extend(b"deliver 0\n".repeat(most_deliveries(size)));
    text.extend_from_slice(b"lose 0\n");
    text
}

/// What the program prints, which the independent bench prints too.
fn printed(what: &str, text: &[u8]) -> String {
    let ran = run(&bench(), text);
    check(what, &ran, &expected(text));
    String::from_utf8(ran.out).expect("output is text")
}

/// What the last line of the script prints where the list is empty.
fn list_empty(text: &[u8]) -> String {
    let lines = text.iter().filter(|&&byte| byte == b'\n').count();
    format!("line {lines} refused 7")
}

#[test]
fn every_size_has_a_call_that_takes_them_all() {
    for size in 1..=SERVERS {
        let mut text = format!("cluster {size} 1\nelect 0\n").into_bytes();
        text.extend(b"deliver 0\n".repeat(2 * (size - 1)));
        let text = probed(&text, "set 0 61 01", size);
        let sent = 10 * (size - 1);
        let empty = list_empty(&text);
        // No delivery is refused, so none was too many.
        let output = format!("1 done 4\n{empty}\nmessages {sent} 0 {sent} 0 0\n");
        assert_eq!(printed(&format!("{size} servers"), &text), output);
    }
}

/// The result that call `number` has among what was printed.
fn result(out: &str, number: u32) -> Option<&str> {
    out.lines().find_map(|line| {
        let (first, rest) = line.split_once(' ')?;
        let found = first == number.to_string();
        found.then(|| rest.split(' ').next())?
    })
}

#[test]
fn random_quiet_calls() {
    let mut results = BTreeMap::new();
    for (at, state) in (0..1600).filter_map(State::quiet).enumerate() {
        let calls = state.calls();
        let call = &calls[at % calls.len()];
        let mut script = after(&state.text);
        if !script.line(call.as_bytes(), &mut Vec::new()) {
            continue;
        }
        let number = script.cluster().expect("it made a call").calls();
        let text = probed(&state.text, call, state.size);
        let out = printed(&format!("state {at}"), &text);
        assert!(out.contains(&list_empty(&text)), "state {at}");
        let word = result(&out, number).expect("it has a result");
        *results.entry(word.to_string()).or_insert(0) += 1;
    }
    let words = ["done", "full", "keys", "mismatch", "value"];
    assert!(results.keys().eq(words), "{results:?}");
    assert!(results.values().sum::<usize>() > 600, "{results:?}");
}

/// A script of two servers whose leader has made gets on one bucket, none on
/// the other, until so many lines are left.
fn leaving(left: usize) -> Vec<u8> {
    let mut text = b"cluster 2 2\nelect 0\n".to_vec();
    text.extend(b"deliver 0\n".repeat(2));
    text.extend_from_slice(b"get 0 61\n");
    text.extend(b"deliver 0\n".repeat(6));
    let mut lines = 10;
    // A reply that is copied and then lost makes four lines of three.
    while (MOST_ACCEPTED as usize - left - lines) % 3 != 0 {
        text.extend_from_slice(b"get 0 61\ndeliver 0\ncopy 0\nlose 0\n");
        lines += 4;
    }
    let more = (MOST_ACCEPTED as usize - left - lines) / 3;
    text.extend(b"get 0 61\ndeliver 0\ndeliver 0\n".repeat(more));
    text
}

#[test]
fn one_line_fewer_is_too_few() {
    let needed = most_deliveries(2) + 1;
    let cases = [
        (needed, ["333329 done 4", "line 1000002 refused 5"]),
        (
            needed - 1,
            ["line 1000002 refused 5", "line 1000003 refused 5"],
        ),
    ];
    for (left, last) in cases {
        let text = leaving(left);
        let found = Conditions::of(&after(&text), 0).expect("a cluster");
        assert_eq!(found.lines_left, left == needed);
        assert_eq!(
            Conditions {
                lines_left: true,
                ..found
            },
            Conditions::ALL
        );
        let text = probed(&text, "set 0 62 01", 2);
        let out = printed(&format!("{left} lines left"), &text);
        let lines: Vec<&str> = out.lines().collect();
        assert_eq!(lines[lines.len() - 3..lines.len() - 1], last);
    }
}
