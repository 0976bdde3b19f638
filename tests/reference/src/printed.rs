//! What an output holds, so that a comparison of idle scripts is noticed.

/// Answers with this result.
pub fn results(out: &[u8], word: &str) -> usize {
    lines_with(out, 1, &[word])
}

/// Answers `value` with the empty value; no other line has `.` as its fourth
/// word.
pub fn empty_values(out: &[u8]) -> usize {
    lines_with(out, 3, &["."])
}

/// Lines refused with this number.
pub fn refusals(out: &[u8], number: u32) -> usize {
    lines_with(out, 2, &["refused", &number.to_string()])
}

/// Lines of output with these words, the first of them after `before` others.
fn lines_with(out: &[u8], before: usize, words: &[&str]) -> usize {
    let has = |line: &&[u8]| {
        let mut found = line.split(|&byte| byte == b' ').skip(before);
        words
            .iter()
            .all(|word| found.next() == Some(word.as_bytes()))
    };
    out.split(|&byte| byte == b'\n').filter(has).count()
}
