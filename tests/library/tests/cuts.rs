//! Every line of a script cut in two at every byte: its two parts print and
//! leave what the whole line does, and that is what the independent bench
//! prints.

use library::output::{Output, LINE_ROOM};
use library::session::Session;
use reference::printed::{refusals, results};
use reference::script::{Script, LONGEST};
use reference::scripts::{generate, Kind};

const KINDS: [Kind; 7] = [
    Kind::Ordinary,
    Kind::Rivals,
    Kind::Crowded,
    Kind::Hostile,
    Kind::Long,
    Kind::Blind,
    Kind::Damaged,
];

/// Feeds a part for which there is room; what was printed.
fn feed(session: &mut Session, part: &[u8], output: &mut Output) -> Vec<u8> {
    let taken = session.feed(part, output.lend(LINE_ROOM));
    assert_eq!(taken, part.len(), "bytes taken");
    assert!(session.intact(), "written outside");
    output.take(session.written(), LINE_ROOM).unwrap()
}

/// Where a line is cut: at every byte, of one that is far too long only at the
/// bytes around the longest length and before the line feed.
fn cuts(line: &[u8]) -> Vec<usize> {
    let near = 1..line.len().min(LONGEST + 5);
    let last = line.len() - 1;
    near.chain((last >= LONGEST + 5).then_some(last)).collect()
}

/// Both parts of a line, from the state before it.
fn compare_cut(before: &Session, line: &[u8], cut: usize, whole: &Session, printed: &[u8]) {
    let mut output = Output::new(LINE_ROOM);
    let mut session = before.clone();
    let (first, second) = line.split_at(cut);
    assert!(feed(&mut session, first, &mut output).is_empty());
    let held = first.len().min(LONGEST + 1);
    assert_eq!(session.held(), held, "bytes held");
    let text = feed(&mut session, second, &mut output);
    // The whole line was read where it lies, the cut one from the bytes kept.
    let mut kept = before.line.value;
    let ended = (line.len() - 1).min(kept.len());
    kept[..ended].copy_from_slice(&line[..ended]);
    assert_eq!(whole.line.value, before.line.value, "bytes of a whole line");
    let line = line.escape_ascii();
    assert_eq!(text, printed, "cut at byte {cut}: {line}");
    assert_eq!(session.line.value, kept, "bytes kept at {cut}: {line}");
    session.line.value = whole.line.value;
    assert!(session == *whole, "something else is left at {cut}: {line}");
}

/// Runs a script line by line; how many lines were cut somewhere, and what was
/// printed.
fn run(text: &[u8]) -> (usize, Vec<u8>) {
    let (mut script, mut expected) = (Script::new(), Vec::new());
    let (mut session, mut output) = (Session::new(), Output::new(LINE_ROOM));
    let (mut times, mut all) = (0, Vec::new());
    for line in text.split_inclusive(|&byte| byte == b'\n') {
        if !line.ends_with(b"\n") {
            break;
        }
        let before = session.clone();
        let printed = feed(&mut session, line, &mut output);
        for cut in cuts(line) {
            compare_cut(&before, line, cut, &session, &printed);
            times += 1;
        }
        script.feed(line, &mut expected);
        all.extend(printed);
        assert_eq!(all, expected, "line {}", session.lines());
    }
    (times, all)
}

#[test]
fn lines_cut_at_every_byte() {
    let (mut times, mut printed) = (0, Vec::new());
    for kind in KINDS {
        for seed in 1..=3 {
            let mut text = generate(kind, seed, 150);
            // Some are very long.
            text.truncate(12_000);
            println!("{kind:?}, seed {seed}");
            let (cut, text) = run(&text);
            times += cut;
            printed.extend(text);
        }
    }
    assert!(times > 20_000, "{times} cuts");
    for (what, found) in [
        ("values", results(&printed, "value")),
        ("keys", results(&printed, "keys")),
        ("done", results(&printed, "done")),
        ("refused 1", refusals(&printed, 1)),
        ("refused 7", refusals(&printed, 7)),
    ] {
        assert!(found > 10, "{what}: {found}");
    }
}
