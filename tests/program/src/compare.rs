//! Output of the program beside output of the independent bench.

use crate::process::Ran;
use reference::script::Script;

/// What the independent bench prints.
pub fn expected(text: &[u8]) -> Vec<u8> {
    let mut script = Script::new();
    let mut out = Vec::new();
    script.feed(text, &mut out);
    script.finish(&mut out);
    out
}

/// Panics with `what` and the first line that differs, where the program did
/// not print what was expected, or did not end as it should.
pub fn check(what: &str, ran: &Ran, expected: &[u8]) {
    if ran.out != expected {
        panic!("{what}: {}", first_difference(&ran.out, expected));
    }
    let err = ran.err.escape_ascii();
    assert!(ran.err.is_empty(), "{what}: standard error: {err}");
    assert!(ran.status.success(), "{what}: {}", ran.status);
}

fn first_difference(found: &[u8], expected: &[u8]) -> String {
    let (found, expected) = (lines(found), lines(expected));
    let same = found.iter().zip(&expected).take_while(|(a, b)| a == b);
    let at = same.count();
    let show = |lines: &[&[u8]]| match lines.get(at) {
        Some(line) => format!("'{}'", line.escape_ascii()),
        None => "nothing".to_string(),
    };
    format!(
        "line {} of the output is {} and should be {}",
        at + 1,
        show(&found),
        show(&expected)
    )
}

fn lines(out: &[u8]) -> Vec<&[u8]> {
    out.split_inclusive(|&byte| byte == b'\n').collect()
}
