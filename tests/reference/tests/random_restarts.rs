//! Cuts and starts in random scripts: the three states that a cut may leave,
//! what a start forgets, and how often each case comes.

mod common;

use common::LIVELY;
use reference::cluster::server::{Replica, Role, Server, BUCKETS};
use reference::cluster::Step;
use reference::script::{parse, Line, Script};
use reference::scripts::{generate, Kind};
use std::collections::BTreeMap;
use std::ops::Range;

/// What a server stores: its number, the vote with its leader, its buckets.
#[derive(Clone, Copy, PartialEq, Eq, Debug)]
struct Stored {
    number: u16,
    vote: (u16, u8),
    replicas: [Replica; BUCKETS],
}

impl Stored {
    fn of(server: &Server) -> Self {
        Stored {
            number: server.number,
            vote: (server.vote, server.leader),
            replicas: server.replicas,
        }
    }
}

/// What can change in a line, but for the list of messages.
fn servers(script: &Script) -> Vec<Server> {
    let cluster = script.cluster().unwrap();
    (0..cluster.size())
        .map(|s| cluster.server(s).clone())
        .collect()
}

/// The list of messages, each as text.
fn list(script: &Script) -> Vec<String> {
    let messages = script.cluster().unwrap().messages();
    let shown = |place| {
        let slot = messages.slot(place).unwrap();
        let header = messages.header(slot);
        match header.has_bucket() {
            true => format!("{header:?} {:?}", messages.table(slot)),
            false => format!("{header:?}"),
        }
    };
    (0..messages.len()).map(shown).collect()
}

/// What is asked for, if a cluster is there to ask.
fn step(script: &Script, line: &[u8]) -> Option<Step> {
    script.cluster()?;
    match parse(line)? {
        Line::Step(step) => Some(step),
        Line::Cluster(..) => None,
    }
}

fn kinds() -> impl Iterator<Item = Kind> {
    LIVELY.into_iter().chain([Kind::Elections])
}

/// Random scripts of every kind.
fn scripts(seeds: Range<u64>) -> impl Iterator<Item = Vec<u8>> {
    let of_kind = move |kind| seeds.clone().map(move |seed| generate(kind, seed, 400));
    kinds().flat_map(of_kind)
}

/// Runs random scripts and shows each cut and start with the script before and
/// after, and whether it was accepted.
fn each_restart(seeds: Range<u64>, mut look: impl FnMut(&Step, &Script, &Script, bool)) {
    for text in scripts(seeds) {
        each_restart_of(&text, &mut look);
    }
}

fn each_restart_of(text: &[u8], look: &mut impl FnMut(&Step, &Script, &Script, bool)) {
    let mut script = Script::new();
    for line in text.split(|&byte| byte == b'\n') {
        let Some(step @ (Step::Cut(..) | Step::Start(_))) = step(&script, line) else {
            script.line(line, &mut Vec::new());
            continue;
        };
        let before = script.clone();
        let mut out = Vec::new();
        let accepted = script.line(line, &mut out);
        assert!(!accepted || out.is_empty());
        look(&step, &before, &script, accepted);
    }
}

/// Receiver of the message at a place.
fn receiver(script: &Script, place: u32) -> usize {
    let messages = script.cluster().unwrap().messages();
    let slot = messages.slot(place as usize).unwrap();
    usize::from(messages.header(slot).to)
}

/// The same script after another line.
fn after(script: &Script, line: String) -> Script {
    let mut script = script.clone();
    assert!(script.line(line.as_bytes(), &mut Vec::new()), "{line}");
    script
}

/// How many of the two parts differ.
fn parts(old: &Stored, new: &Stored) -> usize {
    usize::from(old.vote != new.vote) + usize::from(old.replicas != new.replicas)
}

/// A cut leaves the old state, the new vote with the old bucket, or the new
/// state, which is what a delivery stores; all else is as if the message had
/// been lost.
fn check_cut(before: &Script, after_cut: &Script, place: u32, kept: u32) -> (usize, usize) {
    let to = receiver(before, place);
    let delivered = after(before, format!("deliver {place}"));
    let lost = after(before, format!("lose {place}"));
    let old = Stored::of(&servers(before)[to]);
    let new = Stored::of(&servers(&delivered)[to]);
    let made = parts(&old, &new);
    let half = Stored {
        vote: new.vote,
        ..old
    };
    let expected = match (made, kept) {
        (_, 0) => old,
        (2, 1) => half,
        _ => new,
    };
    let found = servers(after_cut);
    assert_eq!(Stored::of(&found[to]), expected);
    let mut others = servers(&lost);
    others[to].stopped = true;
    (others[to].vote, others[to].leader) = expected.vote;
    others[to].replicas = expected.replicas;
    assert!(found == others);
    assert_eq!(after_cut.tally(), lost.tally());
    assert_eq!(list(after_cut), list(&lost));
    assert_eq!(after_cut.accepted(), before.accepted() + 1);
    (made, kept as usize)
}

#[test]
fn a_cut_leaves_one_of_three_states() {
    let mut met: BTreeMap<(usize, usize), usize> = BTreeMap::new();
    each_restart(0..250, |step, before, after, accepted| {
        if let (&Step::Cut(place, kept), true) = (step, accepted) {
            let case = check_cut(before, after, place, kept);
            *met.entry(case).or_default() += 1;
        }
    });
    let cases = [(0, 0), (1, 0), (1, 1), (2, 0), (2, 1), (2, 2)];
    assert!(met.keys().eq(&cases), "{met:?}");
    assert!(met.values().all(|&cuts| cuts > 40), "{met:?}");
}

/// What is forgotten with the restart of a server.
fn forgotten(server: &Server) -> &'static str {
    let open = server.calls.iter().any(|call| call.is_open());
    match (server.role, open) {
        (Role::Leader, true) => "a leader with open calls",
        (Role::Leader, false) => "a leader",
        (Role::Candidate, _) => "a candidate",
        (Role::Idle, _) => "nothing",
    }
}

#[test]
fn a_start_forgets_all_that_is_not_stored() {
    let mut met: BTreeMap<&str, usize> = BTreeMap::new();
    let mut voted_above = 0;
    each_restart(0..150, |step, before, after, accepted| {
        let (&Step::Start(s), true) = (step, accepted) else {
            return;
        };
        let (old, found) = (servers(before), servers(after));
        let server = &old[s as usize];
        assert!(server.stopped);
        let mut expected = old.clone();
        expected[s as usize] = Server {
            number: server.number,
            vote: server.vote,
            leader: server.leader,
            replicas: server.replicas,
            ..Server::fresh()
        };
        assert!(found == expected);
        assert_eq!((after.tally(), list(after)), (before.tally(), list(before)));
        *met.entry(forgotten(server)).or_default() += 1;
        voted_above += usize::from(server.role != Role::Idle && server.vote > server.number);
    });
    assert_eq!(met.len(), 4, "{met:?}");
    assert!(met.values().all(|&starts| starts > 60), "{met:?}");
    assert!(voted_above > 60, "{voted_above}");
}

#[test]
fn a_refused_cut_or_start_changes_nothing() {
    let mut met: BTreeMap<&str, usize> = BTreeMap::new();
    each_restart(0..100, |step, before, after, accepted| {
        if accepted {
            return;
        }
        assert!(servers(before) == servers(after));
        assert_eq!((after.tally(), list(after)), (before.tally(), list(before)));
        assert_eq!(after.accepted(), before.accepted());
        let word = match step {
            Step::Cut(..) => "cut",
            _ => "start",
        };
        *met.entry(word).or_default() += 1;
    });
    assert_eq!(met.len(), 2, "{met:?}");
    assert!(met.values().all(|&lines| lines > 100), "{met:?}");
}

/// The most stores are those of the message: one more is refused, and so is any
/// number of stores of a message that cannot be cut.
#[test]
fn a_cut_is_accepted_up_to_the_stores_that_a_delivery_makes() {
    let tried: usize = scripts(150..160).map(|text| try_cuts_in(&text)).sum();
    assert!(tried > 10_000, "{tried}");
}

fn try_cuts_in(text: &[u8]) -> usize {
    let mut script = Script::new();
    let mut tried = 0;
    for line in text.split(|&byte| byte == b'\n') {
        script.line(line, &mut Vec::new());
        if script.cluster().is_some() {
            tried += try_cuts(&script);
        }
    }
    tried
}

/// Tries every number of stores on the first messages of the list.
fn try_cuts(script: &Script) -> usize {
    let cluster = script.cluster().unwrap();
    let messages = cluster.messages();
    let count = messages.len().min(3);
    for place in 0..count {
        let header = messages.header(messages.slot(place).unwrap());
        let server = cluster.server(usize::from(header.to));
        let mut most = None;
        if [1, 4, 7].contains(&header.kind) && !server.stopped {
            let delivered = after(script, format!("deliver {place}"));
            let new = &servers(&delivered)[usize::from(header.to)];
            most = Some(parts(&Stored::of(server), &Stored::of(new)));
        }
        let accepted = (0..4).map(|kept| {
            let line = format!("cut {place} {kept}");
            script.clone().line(line.as_bytes(), &mut Vec::new())
        });
        assert!(accepted.eq((0..4).map(|kept| most.is_some_and(|most| kept <= most))));
    }
    count
}

/// Every kind of script has cuts, and servers that come back.
#[test]
fn every_kind_of_script_has_cuts_and_starts() {
    for kind in kinds() {
        let mut met = [0, 0];
        let mut count = |step: &Step, _: &Script, _: &Script, accepted: bool| {
            met[usize::from(matches!(step, Step::Start(_)))] += usize::from(accepted);
        };
        (0..100).for_each(|seed| each_restart_of(&generate(kind, seed, 400), &mut count));
        assert!(met.iter().all(|&lines| lines > 40), "{kind:?}: {met:?}");
    }
}
