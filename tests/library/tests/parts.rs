//! Scripts cut into parts of any size, with outputs of any size: how much every
//! call takes and writes is as the independent bench has it. On arrays filled
//! with anything the calls return, and write nothing outside.

use library::output::{Output, END_ROOM, LINE_ROOM};
use library::session::Session;
use reference::printed::{empty_values, refusals, results};
use reference::script::{Script, LAST_LINE, LONGEST};
use reference::scripts::{generate, Kind, Random};
use std::sync::mpsc::{self, RecvTimeoutError};
use std::thread;
use std::time::Duration;

/// Largest output.
const MOST_ROOM: usize = 8192;
/// No test takes nearly as long.
const LIMIT: Duration = Duration::from_secs(60);

const KINDS: [Kind; 7] = [
    Kind::Ordinary,
    Kind::Rivals,
    Kind::Crowded,
    Kind::Hostile,
    Kind::Long,
    Kind::Blind,
    Kind::Damaged,
];

fn draw_room(random: &mut Random) -> usize {
    match random.chance(600) {
        true => *random.pick(&[0, 1, 1023, 1024, 1025, 4096]),
        false => random.within(0, MOST_ROOM),
    }
}

/// A script on both sides, and what was printed for it.
struct Pair {
    session: Box<Session>,
    script: Script,
    output: Output,
    /// Lines ended, and bytes of the present one.
    lines: usize,
    present: usize,
    printed: Vec<u8>,
}

impl Pair {
    fn new() -> Self {
        Self::after_line(0)
    }

    fn after_line(lines: u32) -> Self {
        let mut session = Session::new();
        session.reader.value[0] = lines as usize;
        Pair {
            session,
            script: Script::after_line(lines),
            output: Output::new(MOST_ROOM),
            lines: lines as usize,
            present: 0,
            printed: Vec::new(),
        }
    }

    /// What the independent bench takes and prints, if it stops at a line feed
    /// where there is no room for a line.
    fn independent(&mut self, part: &[u8], room: usize) -> (usize, Vec<u8>) {
        let (mut taken, mut text) = (0, Vec::new());
        for piece in part.split_inclusive(|&byte| byte == b'\n') {
            if self.script.is_over() {
                return (part.len(), text);
            }
            let line = piece.strip_suffix(b"\n").unwrap_or(piece);
            self.script.feed(line, &mut text);
            taken += line.len();
            self.present += line.len();
            if line.len() < piece.len() {
                if room < text.len() + LINE_ROOM {
                    break;
                }
                self.script.feed(b"\n", &mut text);
                taken += 1;
                self.lines += 1;
                self.present = 0;
            }
        }
        (taken, text)
    }

    /// Feeds a part to both; how many bytes of it were taken.
    fn feed(&mut self, part: &[u8], room: usize) -> usize {
        let taken = self.session.feed(part, self.output.lend(room));
        let text = self.output.take(self.session.written(), room).unwrap();
        let (expected_taken, expected_text) = self.independent(part, room);
        assert_eq!(taken, expected_taken, "bytes taken");
        assert_same(&text, &expected_text);
        assert_eq!(self.session.lines(), self.lines, "lines read");
        let held = self.present.min(LONGEST + 1);
        assert_eq!(self.session.held(), held, "bytes held");
        if taken < part.len() {
            assert_eq!(part[taken], b'\n', "stopped within a line");
            assert!(room < text.len() + LINE_ROOM, "stopped with room");
        }
        assert!(taken > 0 || part.is_empty() || room < LINE_ROOM, "stuck");
        self.printed.extend(text);
        taken
    }

    /// Ends the input: without room nothing happens. Gives all that was
    /// printed.
    fn finish(mut self, room: usize) -> Vec<u8> {
        for short in [0, 1, END_ROOM - 1] {
            let before = self.session.clone();
            assert_eq!(self.session.finish(self.output.lend(short)), 0);
            self.output.take(0, short).unwrap();
            assert!(self.session == before, "changed without room");
        }
        let written = self.session.finish(self.output.lend(room));
        assert_eq!(self.session.written(), written, "bytes written");
        let text = self.output.take(written, room).unwrap();
        let mut expected = Vec::new();
        self.script.finish(&mut expected);
        assert_same(&text, &expected);
        assert!(self.session.intact(), "written outside");
        self.printed.extend(text);
        self.printed
    }
}

fn assert_same(found: &[u8], expected: &[u8]) {
    let (left, right) = (found.escape_ascii(), expected.escape_ascii());
    assert!(found == expected, "printed: {left}\nexpected: {right}");
}

/// What the independent bench prints before the end, and with it.
fn whole(text: &[u8]) -> (Vec<u8>, Vec<u8>) {
    let (mut script, mut before) = (Script::new(), Vec::new());
    script.feed(text, &mut before);
    let mut all = before.clone();
    script.finish(&mut all);
    (before, all)
}

/// What the calls met, so that an idle comparison is noticed.
#[derive(Default)]
struct Met {
    calls: usize,
    empty: usize,
    /// Calls that left bytes, with room for a line at first and without.
    full: usize,
    short: usize,
    printed: Vec<u8>,
}

/// Runs a script in parts of up to `most` bytes.
fn run(text: &[u8], most: usize, random: &mut Random, met: &mut Met) {
    let mut pair = Pair::new();
    let mut rest = text;
    while !rest.is_empty() {
        let part = &rest[..random.within(0, most).min(rest.len())];
        let room = draw_room(random);
        let taken = pair.feed(part, room);
        met.calls += 1;
        met.empty += usize::from(part.is_empty());
        met.full += usize::from(taken < part.len() && room >= LINE_ROOM);
        met.short += usize::from(taken < part.len() && room < LINE_ROOM);
        rest = &rest[taken..];
    }
    let (before, all) = whole(text);
    assert_same(&pair.printed, &before);
    let room = *random.pick(&[END_ROOM, END_ROOM + 1, 4096]);
    let printed = pair.finish(room);
    assert_same(&printed, &all);
    met.printed.extend(printed);
}

#[test]
fn scripts_in_parts() {
    let mut random = Random::new(20_260_102);
    let mut met = Met::default();
    for kind in KINDS {
        for seed in 1..=60 {
            let most = *random.pick(&[1, 3, 20, 125, 500, 5_000]);
            let mut text = generate(kind, seed, random.within(20, 400));
            // Some are very long.
            text.truncate(1_000 + 200 * most);
            println!("{kind:?}, seed {seed}, parts of up to {most} bytes");
            run(&text, most, &mut random, &mut met);
        }
    }
    assert!(met.calls > 100_000, "{} calls", met.calls);
    for (what, times) in [
        ("empty parts", met.empty),
        ("outputs filled", met.full),
        ("outputs too short", met.short),
        ("values", results(&met.printed, "value")),
        ("keys", results(&met.printed, "keys")),
        ("empty values", empty_values(&met.printed)),
        ("refused 1", refusals(&met.printed, 1)),
        ("refused 12", refusals(&met.printed, 12)),
    ] {
        assert!(times > 200, "{what}: {times}");
    }
}

/// Without room a call stops before the line feed, and stays there; what it
/// took before is kept.
#[test]
fn no_room() {
    let text = b"cluster 1 1\nelect 0\nget 0 61\nkeys 0 0";
    for room in [0, 1, LINE_ROOM - 1] {
        let mut pair = Pair::new();
        assert_eq!(pair.feed(&text[..7], room), 7);
        assert_eq!(pair.feed(&text[7..], room), 4);
        let before = pair.session.clone();
        assert_eq!(pair.feed(&text[11..], room), 0);
        assert!(pair.session == before, "changed without room");
        assert_eq!(pair.session.line.value[..11], text[..11]);
        // Nothing is printed before the last line feed, so all lines are run.
        assert_eq!(pair.feed(&text[11..], LINE_ROOM), text.len() - 11);
        assert_same(&pair.finish(END_ROOM), &whole(text).1);
    }
}

/// Every line prints: a call with room for one line runs one.
#[test]
fn room_for_one_line() {
    let text = b"x\n".repeat(50);
    let mut pair = Pair::new();
    assert_eq!(pair.feed(&text, LINE_ROOM), 3);
    let mut rest = &text[3..];
    while rest.len() > 2 {
        assert_eq!(pair.feed(rest, LINE_ROOM), 2);
        rest = &rest[2..];
    }
    assert_eq!(pair.feed(rest, LINE_ROOM), rest.len());
    assert_same(&pair.finish(END_ROOM), &whole(&text).1);
}

/// A line without end needs no room, and 121 bytes of it are held.
#[test]
fn long_lines() {
    for length in [119, 120, 121, 122, 5_000] {
        for end in ["", "\n", "\nget 0 61", "\nget 0 61\n"] {
            let line = "6".repeat(length - 6);
            let text = format!("cluster 1 1\nelect 0\nget 0 {line}{end}").into_bytes();
            let mut pair = Pair::new();
            assert_eq!(pair.feed(&text[..20], LINE_ROOM), 20);
            assert_eq!(pair.feed(&text[20..], 0), length);
            let rest = &text[20 + length..];
            assert_eq!(pair.feed(rest, 4096), rest.len());
            assert_same(&pair.finish(END_ROOM), &whole(&text).1);
        }
    }
}

/// Nothing after line 4,294,967,295 is read: it is taken without room.
#[test]
fn the_last_line() {
    let text = b"cluster 1 1\nelect 0\nset 0 61 62\nget 0 61\nget 0 61\nget 0 6";
    for before in 0..=5 {
        let mut pair = Pair::after_line(LAST_LINE - before);
        let mut rest = &text[..];
        while !rest.is_empty() {
            let taken = pair.feed(rest, LINE_ROOM);
            rest = &rest[taken..];
        }
        assert_eq!(pair.feed(b"\n\nget 0 61\n", 0), 11);
        pair.finish(END_ROOM);
    }
}

/// Draws some of the numbers anew, `share` of 1,000, with so many bits.
fn spoil<T>(array: &mut [T], share: usize, random: &mut Random, number: fn(u64) -> T) {
    let bits = *random.pick(&[1, 3, 7, 16, 32]);
    for at in array {
        if random.chance(share) {
            *at = number(random.draw() >> (64 - bits));
        }
    }
}

fn spoil_session(session: &mut Session, share: usize, random: &mut Random) {
    let word = |number| number as u32;
    let byte = |number| number as u8;
    spoil(&mut session.counts.value, share, random, word);
    spoil(&mut session.heads.value, share, random, word);
    spoil(&mut session.slots.value, share, random, word);
    spoil(&mut session.copies.value, share, random, byte);
    spoil(&mut session.working.value, share, random, byte);
    spoil(&mut session.texts.value, share, random, byte);
    spoil(&mut session.queue.value, share, random, word);
    spoil(&mut session.payloads.value, share, random, byte);
    spoil(&mut session.answers.value, share, random, word);
    spoil(&mut session.line.value, share, random, byte);
    let tally = &mut session.tally.value;
    let mut counts = [
        tally.sent,
        tally.copied,
        tally.delivered,
        tally.lost,
        tally.flight,
    ];
    spoil(&mut counts, share, random, word);
    [
        tally.sent,
        tally.copied,
        tally.delivered,
        tally.lost,
        tally.flight,
    ] = counts;
    // Mostly lines that are read.
    let last = LAST_LINE as usize;
    let any = random.draw() as usize;
    let lines = [0, 1, 5, 300, 70_000, last - 40, last, last + 1, any];
    let held = [0, 1, 8, 120, 121, 122, usize::MAX, any];
    let [read, present, written] = &mut session.reader.value;
    if random.chance(share) {
        *read = *random.pick(&lines);
        *present = *random.pick(&held);
        *written = any;
    }
}

/// Feeds a text, then ends it, looking only at the edges; what was printed.
fn run_spoiled(
    session: &mut Session,
    text: &[u8],
    random: &mut Random,
    output: &mut Output,
) -> Vec<u8> {
    let mut rest = text;
    let mut printed = Vec::new();
    for _ in 0..200 {
        let part = &rest[..random.within(0, 2_000).min(rest.len())];
        let room = draw_room(random);
        let taken = session.feed(part, output.lend(room));
        let written = session.written();
        printed.extend(output.take(written, room).unwrap());
        assert!(session.intact(), "written outside");
        assert!(taken <= part.len(), "{taken} bytes of {}", part.len());
        if taken < part.len() {
            assert_eq!(part[taken], b'\n', "stopped within a line");
            assert!(room < written + LINE_ROOM, "stopped with room");
        }
        rest = &rest[taken..];
    }
    for room in [END_ROOM - 1, END_ROOM] {
        let before = session.clone();
        let written = session.finish(output.lend(room));
        output.take(written, room).unwrap();
        assert!(session.intact(), "written outside");
        assert_eq!(written > 0, room == END_ROOM);
        assert!(written > 0 || *session == before, "changed without room");
    }
    printed
}

/// Lines were run, not only refused.
fn demand_results(printed: &[u8]) {
    for word in ["value", "keys", "done", "mismatch", "notdone"] {
        let times = results(printed, word);
        assert!(times > 30, "{word}: {times}");
    }
}

/// Fails where the work does not end.
fn within_time(work: impl FnOnce() + Send + 'static) {
    let (ended, end) = mpsc::channel::<()>();
    let working = thread::spawn(move || {
        let _ended = ended;
        work();
    });
    let late = end.recv_timeout(LIMIT) == Err(RecvTimeoutError::Timeout);
    assert!(!late, "still running after {LIMIT:?}");
    if let Err(panic) = working.join() {
        std::panic::resume_unwind(panic);
    }
}

/// Texts to run on spoiled arrays.
fn texts() -> Vec<Vec<u8>> {
    let kinds = KINDS.iter().flat_map(|&kind| [(kind, 71), (kind, 72)]);
    kinds
        .map(|(kind, seed)| {
            let mut text = generate(kind, seed, 300);
            text.truncate(20_000);
            text
        })
        .collect()
}

#[test]
fn arrays_filled_with_anything() {
    within_time(|| {
        let mut random = Random::new(3);
        let mut output = Output::new(MOST_ROOM);
        let texts = texts();
        let mut printed = Vec::new();
        for _ in 0..1000 {
            let mut session = Session::new();
            spoil_session(&mut session, 1000, &mut random);
            let text = random.pick(&texts).clone();
            let text = run_spoiled(&mut session, &text, &mut random, &mut output);
            printed.extend(text);
        }
        demand_results(&printed);
    });
}

/// The arrays of a script under way, with some numbers changed.
#[test]
fn arrays_damaged() {
    within_time(|| {
        let mut random = Random::new(4);
        let mut output = Output::new(MOST_ROOM);
        let texts = texts();
        let mut printed = Vec::new();
        for _ in 0..1000 {
            let text = random.pick(&texts).clone();
            let (first, second) = text.split_at(random.within(0, text.len()));
            let mut session = Session::new();
            let mut rest = first;
            while !rest.is_empty() {
                let taken = session.feed(rest, output.lend(MOST_ROOM));
                output.take(session.written(), MOST_ROOM).unwrap();
                rest = &rest[taken..];
            }
            let share = *random.pick(&[1, 10, 100]);
            spoil_session(&mut session, share, &mut random);
            let text = run_spoiled(&mut session, second, &mut random, &mut output);
            printed.extend(text);
        }
        demand_results(&printed);
    });
}
