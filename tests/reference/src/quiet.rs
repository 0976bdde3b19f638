//! How long a quiet call takes (RULES, Quiet calls): the figure, what has
//! to hold of a state before the call, and random states where it does.

use crate::cluster::majority;
use crate::cluster::server::Role;
use crate::script::{Script, MOST_ACCEPTED};
use crate::scripts::{generate, Kind};

/// The most deliveries that a quiet call takes in a cluster of this size.
pub fn most_deliveries(size: usize) -> usize {
    8 * (size - 1)
}

/// The conditions on a state, for a call at one server (RULES, Quiet calls).
#[derive(Clone, Copy, PartialEq, Eq, Debug)]
pub struct Conditions {
    pub leads: bool,
    pub number_no_lower_than_a_vote: bool,
    pub majority_runs: bool,
    pub list_empty: bool,
    pub no_call_open: bool,
    pub lines_left: bool,
}

impl Conditions {
    pub const ALL: Self = Conditions {
        leads: true,
        number_no_lower_than_a_vote: true,
        majority_runs: true,
        list_empty: true,
        no_call_open: true,
        lines_left: true,
    };

    /// Which of them hold; `None` before there is a cluster.
    pub fn of(script: &Script, leader: usize) -> Option<Self> {
        let cluster = script.cluster()?;
        let size = cluster.size();
        let server = |s| cluster.server(s);
        let running = || (0..size).filter(|&s| !server(s).stopped);
        let lines = 1 + most_deliveries(size) as u32;
        Some(Conditions {
            leads: server(leader).role == Role::Leader,
            number_no_lower_than_a_vote: running().all(|s| server(leader).number >= server(s).vote),
            majority_runs: running().count() as u32 >= majority(size),
            list_empty: cluster.messages().is_empty(),
            no_call_open: (0..size).all(|s| !server(s).calls.iter().any(|call| call.is_open())),
            lines_left: MOST_ACCEPTED - script.accepted() >= lines,
        })
    }

    /// The same, as if no call were open.
    pub fn but_for_open_calls(self) -> Self {
        Conditions {
            no_call_open: true,
            ..self
        }
    }
}

/// A bench that has run these lines.
pub fn after(text: &[u8]) -> Script {
    let mut script = Script::new();
    script.feed(text, &mut Vec::new());
    script
}

/// A random state, with a server that calls can be made at.
pub struct State {
    /// The lines that lead to it.
    pub text: Vec<u8>,
    pub size: usize,
    pub leader: usize,
    pub conditions: Conditions,
}

impl State {
    /// The state that the script of this seed ends in, if it is quiet at one of
    /// its servers.
    pub fn quiet(seed: u64) -> Option<Self> {
        Self::where_asked(seed, |found| found == Conditions::ALL)
    }

    /// The same, whether calls are open or not.
    pub fn quiet_but_for_open_calls(seed: u64) -> Option<Self> {
        Self::where_asked(seed, |found| found.but_for_open_calls() == Conditions::ALL)
    }

    fn where_asked(seed: u64, asked: impl Fn(Conditions) -> bool) -> Option<Self> {
        let text = generate(Kind::Settled, seed, 100 * (seed as usize % 4));
        let script = after(&text);
        let cluster = script.cluster()?;
        let size = cluster.size();
        (0..size).find_map(|leader| {
            let conditions = Conditions::of(&script, leader)?;
            let fits = !cluster.server(leader).stopped && asked(conditions);
            fits.then(|| State {
                text: text.clone(),
                size,
                leader,
                conditions,
            })
        })
    }

    /// The calls of its script, made anew at its leader, and one more, so that
    /// there always is one.
    pub fn calls(&self) -> Vec<String> {
        let text = String::from_utf8_lossy(&self.text);
        let again = |line: &str| {
            let mut words = line.splitn(3, ' ');
            let (word, _, rest) = (words.next()?, words.next()?, words.next()?);
            let is_call = ["get", "set", "setif", "del", "keys"].contains(&word);
            is_call.then(|| format!("{word} {} {rest}", self.leader))
        };
        let one = format!("set {} 61 01", self.leader);
        text.lines().filter_map(again).chain([one]).collect()
    }
}
