//! The text of a script in the making, the bench that runs it alongside, and
//! the choices that all kinds of scripts share.

use super::Random;
use crate::cluster::server::{Role, Server};
use crate::cluster::Cluster;
use crate::datagram::{ACKVOTE, PLEASEVOTE};
use crate::hash;
use crate::script::Script;

pub struct Maker {
    pub random: Random,
    pub script: Script,
    text: Vec<u8>,
    printed: Vec<u8>,
    keys: Vec<Vec<u8>>,
    values: Vec<String>,
}

/// The word of an absent key's value, and that of the empty value.
pub const ABSENT: &str = "-";
pub const EMPTY: &str = ".";

/// The bytes, of which there is at least one, as hexadecimal digits.
fn hex(bytes: &[u8]) -> String {
    bytes.iter().map(|byte| format!("{byte:02x}")).collect()
}

impl Maker {
    pub fn new(random: Random) -> Self {
        let mut maker = Maker {
            random,
            script: Script::new(),
            text: Vec::new(),
            printed: Vec::new(),
            keys: Vec::new(),
            values: Vec::new(),
        };
        maker.choose_words(3);
        maker
    }

    pub fn into_text(self) -> Vec<u8> {
        self.text
    }

    /// Adds a line, whether it is accepted or not.
    pub fn add(&mut self, line: impl AsRef<[u8]>) -> bool {
        self.add_text(line.as_ref());
        self.run(line.as_ref())
    }

    /// Adds a line only if it is accepted.
    pub fn add_accepted(&mut self, line: impl AsRef<[u8]>) -> bool {
        let accepted = self.run(line.as_ref());
        if accepted {
            self.add_text(line.as_ref());
        }
        accepted
    }

    fn add_text(&mut self, line: &[u8]) {
        self.text.extend_from_slice(line);
        self.text.push(b'\n');
    }

    fn run(&mut self, line: &[u8]) -> bool {
        self.printed.clear();
        self.script.line(line, &mut self.printed)
    }

    /// Takes the last line feed away again.
    pub fn drop_last_line_feed(&mut self) {
        self.text.pop();
    }

    /// Forms the cluster and chooses keys and values to use there.
    pub fn form(&mut self, size: usize, buckets: usize) {
        self.add(format!("cluster {size} {buckets}"));
        self.choose_words(6 * buckets);
    }

    /// Chooses at most so many keys, and few values, the empty one often.
    fn choose_words(&mut self, most_keys: usize) {
        let count = self.random.within(1, most_keys);
        self.keys = (0..count).map(|_| self.some_bytes(1, 8)).collect();
        // Keys that extend one another test their order.
        if let [first, second, ..] = self.keys.as_mut_slice() {
            first.truncate(7);
            second.clone_from(first);
            second.push(0);
        }
        let values = self.random.within(2, 5);
        self.values = (0..values)
            .map(|_| hex(&self.some_bytes(1, 16)))
            .chain([ABSENT, EMPTY, EMPTY].map(String::from))
            .collect();
    }

    /// Leaves the empty value out of what is set and expected.
    pub fn leave_out_empty_values(&mut self) {
        self.values.retain(|word| word != EMPTY);
    }

    /// Random bytes, mostly few, sometimes with zeros among them.
    pub fn some_bytes(&mut self, least: usize, most: usize) -> Vec<u8> {
        let length = if self.random.chance(600) {
            self.random.within(least, most.min(least + 2))
        } else {
            self.random.within(least, most)
        };
        let zeros = self.random.chance(150);
        let byte = |maker: &mut Self| match zeros && maker.random.chance(500) {
            true => 0,
            false => maker.random.byte(),
        };
        (0..length).map(|_| byte(self)).collect()
    }

    /// The cluster, once `form` was called.
    pub fn cluster(&self) -> &Cluster {
        self.script.cluster().expect("a cluster has been formed")
    }

    pub fn under_way(&self) -> usize {
        self.cluster().messages().len()
    }

    /// Servers that run and meet the condition.
    pub fn servers(&self, condition: impl Fn(&Server) -> bool) -> Vec<usize> {
        let cluster = self.cluster();
        let meets = |&s: &usize| !cluster.server(s).stopped && condition(cluster.server(s));
        (0..cluster.size()).filter(meets).collect()
    }

    pub fn leaders(&self) -> Vec<usize> {
        self.servers(|server| server.role == Role::Leader)
    }

    /// Servers and buckets with an open round.
    pub fn open_rounds(&self) -> Vec<(usize, usize)> {
        let buckets = self.cluster().buckets();
        let open = |s: usize| {
            let calls = &self.cluster().server(s).calls;
            (0..buckets)
                .filter(|&b| calls[b].is_open())
                .map(move |b| (s, b))
        };
        self.servers(|_| true).into_iter().flat_map(open).collect()
    }

    /// A running server whose next election is likely to be heard.
    pub fn likely_winner(&mut self) -> Option<usize> {
        let running = self.servers(|_| true);
        let number = |s: &usize| self.cluster().server(*s).next_number();
        let highest = running.iter().map(number).max()?;
        let near: Vec<usize> = running
            .iter()
            .copied()
            .filter(|s| number(s) == highest)
            .collect();
        Some(*self.random.pick(&near))
    }

    /// Where nobody leads: a step towards a leader.
    pub fn towards_leader(&mut self) -> String {
        match self.vote_place() {
            Some(place) => format!("deliver {place}"),
            None => {
                let winner = self.likely_winner().unwrap_or(0);
                format!("elect {winner}")
            }
        }
    }

    /// The first message of a candidate's present election.
    fn vote_place(&self) -> Option<usize> {
        let candidates = self.servers(|server| server.role == Role::Candidate);
        let messages = self.cluster().messages();
        let present = |server: u8, number: u16| {
            let server = usize::from(server);
            candidates.contains(&server) && self.cluster().server(server).number == number
        };
        (0..messages.len()).find(|&place| {
            let slot = messages.slot(place).unwrap_or(0);
            let header = messages.header(slot);
            match header.kind {
                PLEASEVOTE => present(header.from, header.number),
                ACKVOTE => present(header.to, header.number),
                _ => false,
            }
        })
    }

    /// A call at this server on a bucket that is free there, if a few trials
    /// find one.
    pub fn free_call(&mut self, server: usize) -> Option<String> {
        (0..6).find_map(|_| {
            let key = self.random.pick(&self.keys).clone();
            let bucket = hash::bucket_of(&key, self.cluster().buckets());
            let open = self.cluster().server(server).calls[bucket].is_open();
            (!open).then(|| self.call(server, &key, bucket))
        })
    }

    /// A call of any kind on this key.
    pub fn call(&mut self, server: usize, key: &[u8], bucket: usize) -> String {
        let value = self.value();
        let expected = self.value();
        let key = hex(key);
        match self.random.below(100) {
            0..=29 => format!("get {server} {key}"),
            30..=66 => format!("set {server} {key} {value}"),
            67..=84 => format!("setif {server} {key} {expected} {value}"),
            85..=91 => format!("del {server} {key}"),
            _ => format!("keys {server} {bucket}"),
        }
    }

    /// A call on any of the keys.
    pub fn any_call(&mut self, server: usize) -> String {
        let key = self.random.pick(&self.keys).clone();
        let bucket = self.random.below(8);
        self.call(server, &key, bucket)
    }

    /// Mostly one of few values, so that expected ones are met.
    fn value(&mut self) -> String {
        if self.random.chance(150) {
            hex(&self.some_bytes(1, 16))
        } else {
            self.random.pick(&self.values).clone()
        }
    }
}
