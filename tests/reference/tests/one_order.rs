//! The answers of random scripts, cuts and starts among them, held against
//! the plain table (RULES, One order): the calls of each bucket have one order that
//! respects real time and gives these answers.

mod common;

use common::plain::Plain;
use common::LIVELY;
use reference::cluster::Step;
use reference::script::{parse, Line, Script};
use reference::scripts::generate;
use std::collections::{BTreeMap, BTreeSet};

/// The bucket of a call, and its words without the server.
type Words = (usize, Vec<String>);

/// A call, with the line that it ended with.
#[derive(Clone, Debug)]
struct Call {
    bucket: usize,
    /// Its words without the server.
    words: Vec<String>,
    begun: usize,
    /// The result with its data; `None` where the call never ended or ended as
    /// unknown, so that it may take effect at any time, or never.
    ended: Option<(usize, String)>,
}

impl Call {
    /// A call by its line, bucket and words, and by the line and answer that it
    /// ended with; `None` where it was not done.
    fn of(call: (usize, Words), ended: Option<(usize, String)>) -> Option<Self> {
        let (begun, (bucket, words)) = call;
        let ended = match ended {
            Some((_, answer)) if answer == "notdone" => return None,
            Some((_, answer)) if answer == "unknown" => None,
            ended => ended,
        };
        Some(Call {
            bucket,
            words,
            begun,
            ended,
        })
    }
}

/// The calls of a script in the order of their lines, without those that ended
/// as not done: they stand in no order.
struct History {
    calls: Vec<Call>,
    /// Open calls of servers that came back.
    forgotten: usize,
    buckets: usize,
}

/// Bucket and words of a call, if the line makes one.
fn called(script: &Script, line: &[u8]) -> Option<Words> {
    let (Line::Step(step), cluster) = (parse(line)?, script.cluster()?) else {
        return None;
    };
    cluster.admit(&step).ok()?;
    let Step::Call(_, request) = step else {
        return None;
    };
    let text = String::from_utf8_lossy(line);
    let words = text.split(' ').enumerate().filter(|(at, _)| *at != 1);
    let words = words.map(|(_, word)| word.to_string()).collect();
    Some((request.bucket(cluster.buckets()), words))
}

fn open_calls(script: &Script) -> usize {
    let Some(cluster) = script.cluster() else {
        return 0;
    };
    let open = |s| cluster.server(s).calls.iter().filter(|call| call.is_open());
    (0..cluster.size()).map(|s| open(s).count()).sum()
}

impl History {
    fn of(text: &[u8]) -> Self {
        let mut script = Script::new();
        let mut calls = BTreeMap::new();
        let mut ended = BTreeMap::new();
        let mut forgotten = 0;
        for (at, line) in text.split(|&byte| byte == b'\n').enumerate() {
            let call = called(&script, line);
            let open = open_calls(&script);
            let mut out = Vec::new();
            if script.line(line, &mut out) {
                if line.starts_with(b"start ") {
                    forgotten += open - open_calls(&script);
                }
                let number = script.cluster().map_or(0, |cluster| cluster.calls());
                calls.extend(call.map(|call| (number, (at, call))));
                ended.extend(answers(&out).map(|(number, answer)| (number, (at, answer))));
            }
        }
        let call = |(number, call)| Call::of(call, ended.remove(&number));
        History {
            calls: calls.into_iter().filter_map(call).collect(),
            forgotten,
            buckets: script.cluster().map_or(0, |cluster| cluster.buckets()),
        }
    }

    /// Whether the calls of every bucket have such an order.
    fn has_order(&self) -> bool {
        (0..self.buckets).all(|bucket| {
            let calls = self.calls.iter().filter(|call| call.bucket == bucket);
            Search::new(calls.collect()).succeeds()
        })
    }
}

/// Numbers of the calls that a line ends, with their results and data.
fn answers(out: &[u8]) -> impl Iterator<Item = (u32, String)> {
    let text = String::from_utf8(out.to_vec()).unwrap();
    let answer = |line: &str| {
        let words: Vec<&str> = line.split(' ').collect();
        let answer = [&words[1..2], &words[3..]].concat().join(" ");
        (words[0].parse().unwrap(), answer)
    };
    text.lines().map(answer).collect::<Vec<_>>().into_iter()
}

/// A table, and the calls that have taken their place in the order while they
/// are still to end.
type Point = (Plain, BTreeSet<usize>);

/// Looks for an order of one bucket's calls, end by end. A call takes its place
/// as late as possible: when it, or one after it, has to have ended.
struct Search<'a> {
    calls: Vec<&'a Call>,
    ended: BTreeSet<usize>,
    points: BTreeSet<Point>,
}

impl<'a> Search<'a> {
    fn new(calls: Vec<&'a Call>) -> Self {
        Search {
            calls,
            ended: BTreeSet::new(),
            points: BTreeSet::from([Point::default()]),
        }
    }

    fn succeeds(mut self) -> bool {
        let mut ends: Vec<(usize, usize)> = (0..self.calls.len())
            .filter_map(|call| Some((self.calls[call].ended.as_ref()?.0, call)))
            .collect();
        ends.sort();
        ends.into_iter().all(|(line, call)| {
            self.end(line, call);
            !self.points.is_empty()
        })
    }

    /// Keeps what is possible once this call has ended, with this line.
    fn end(&mut self, line: usize, ending: usize) {
        let mut found = BTreeSet::new();
        let mut reached: BTreeSet<Point> = self.points.clone();
        let mut left: Vec<Point> = std::mem::take(&mut self.points).into_iter().collect();
        while let Some((table, mut placed)) = left.pop() {
            if placed.remove(&ending) {
                found.insert((table, placed));
                continue;
            }
            let next =
                (0..self.calls.len()).filter_map(|call| self.place(line, call, &table, &placed));
            left.extend(next.filter(|point| reached.insert(point.clone())));
        }
        // A call without an end that was placed stays placed for good.
        self.points = found;
        self.ended.insert(ending);
    }

    /// The point after one more call took its place, if it can.
    fn place(
        &self,
        line: usize,
        at: usize,
        table: &Plain,
        placed: &BTreeSet<usize>,
    ) -> Option<Point> {
        let call = self.calls[at];
        if call.begun > line || self.ended.contains(&at) || placed.contains(&at) {
            return None;
        }
        let mut table = table.clone();
        let words: Vec<&str> = call.words.iter().map(String::as_str).collect();
        let answer = table.answer(&words);
        let fits = match &call.ended {
            Some((_, ended)) => *ended == answer,
            // Without an answer only its effect matters.
            None => answer == "done",
        };
        let mut placed = placed.clone();
        placed.insert(at);
        fits.then_some((table, placed))
    }
}

#[test]
fn answers_of_random_scripts_have_one_order() {
    let (mut ended, mut forgotten) = (0, 0);
    for kind in LIVELY {
        for seed in 0..600 {
            let history = History::of(&generate(kind, 500 + seed, 300));
            assert!(history.has_order(), "{kind:?} {seed}");
            let results = history.calls.iter().filter(|call| call.ended.is_some());
            ended += results.count();
            forgotten += history.forgotten;
        }
    }
    assert!(ended > 100_000, "{ended}");
    assert!(forgotten > 500, "{forgotten}");
}

/// Whether calls of one bucket have an order; `-` stands for no end.
fn ordered(calls: &[(&str, usize, &str)]) -> bool {
    let call = |&(words, begun, ended): &(&str, usize, &str)| Call {
        bucket: 0,
        words: words.split(' ').map(String::from).collect(),
        begun,
        ended: ended
            .split_once(": ")
            .map(|(line, answer)| (line.parse().unwrap(), answer.to_string())),
    };
    let history = History {
        calls: calls.iter().map(call).collect(),
        forgotten: 0,
        buckets: 1,
    };
    history.has_order()
}

#[test]
fn a_wrong_answer_has_no_order() {
    let set = ("set 61 01", 1, "2: done");
    assert!(ordered(&[set, ("get 61", 3, "4: value 01")]));
    assert!(!ordered(&[set, ("get 61", 3, "4: value -")]));
    assert!(!ordered(&[set, ("get 61", 3, "4: value 02")]));
    // While both are open, either may come first.
    assert!(ordered(&[set, ("get 61", 2, "4: value -")]));
    assert!(ordered(&[set, ("get 61", 2, "4: value 01")]));
    // Two that began later agree on what they found.
    let first = ("get 61", 1, "4: value 01");
    assert!(!ordered(&[set, first, ("get 61", 5, "6: value -")]));
}

#[test]
fn a_call_that_never_ends_takes_effect_once_or_never() {
    let set = ("set 61 01", 1, "-");
    let found = |line, value: &'static str| ("get 61", line, value);
    assert!(ordered(&[
        set,
        found(2, "3: value -"),
        found(4, "5: value 01")
    ]));
    assert!(ordered(&[
        set,
        found(2, "3: value -"),
        found(4, "5: value -")
    ]));
    assert!(!ordered(&[
        set,
        found(2, "3: value 01"),
        found(4, "5: value -")
    ]));
    let del = ("del 61", 4, "5: done");
    let again = found(6, "7: value 01");
    assert!(ordered(&[set, found(2, "3: value -"), del, again]));
    assert!(!ordered(&[set, found(2, "3: value 01"), del, again]));
    // Not before it began.
    assert!(!ordered(&[found(1, "2: value 01"), ("set 61 01", 3, "-")]));
}
