//! What the tests share: running scripts whole or line by line.

#![allow(dead_code)]

pub mod plain;

use reference::cluster::Cluster;
use reference::datagram::{PLEASEVOTE, REPLICAREAD, REPLICAWRITE};
use reference::quiet::Conditions;
use reference::script::Script;
use reference::scripts::Kind;

/// Kinds of scripts in which calls, losses and restarts meet.
pub const LIVELY: [Kind; 7] = [
    Kind::Ordinary,
    Kind::Rivals,
    Kind::Crowded,
    Kind::Hostile,
    Kind::Long,
    Kind::Blind,
    Kind::Settled,
];

/// What a whole script prints.
pub fn run(text: &[u8]) -> Vec<u8> {
    run_in_chunks(text, text.len().max(1))
}

pub fn run_in_chunks(text: &[u8], size: usize) -> Vec<u8> {
    let mut script = Script::new();
    let mut out = Vec::new();
    for chunk in text.chunks(size) {
        script.feed(chunk, &mut out);
    }
    script.finish(&mut out);
    out
}

/// What a whole script prints, as text without the last line feed.
pub fn print(text: &str) -> String {
    let out = String::from_utf8(run(text.as_bytes())).unwrap();
    out.strip_suffix('\n').unwrap().to_string()
}

/// A script run line by line.
#[derive(Clone)]
pub struct Bench {
    script: Script,
}

impl Bench {
    pub fn new(cluster: &str) -> Self {
        let mut bench = Bench {
            script: Script::new(),
        };
        assert_eq!(bench.line(cluster), "");
        bench
    }

    /// Runs a line and gives what it prints, without the last line feed.
    pub fn line(&mut self, line: &str) -> String {
        let mut out = Vec::new();
        self.script.line(line.as_bytes(), &mut out);
        String::from_utf8(out).unwrap().trim_end().to_string()
    }

    /// The number that the line is refused with, 0 if it is accepted.
    pub fn refusal(&mut self, line: &str) -> u8 {
        let out = self.line(line);
        match out.rsplit_once(" refused ") {
            Some((_, number)) => number.parse().unwrap(),
            None => 0,
        }
    }

    /// Runs lines that print nothing.
    pub fn quiet(&mut self, lines: &[&str]) {
        for line in lines {
            assert_eq!(self.line(line), "", "{line}");
        }
    }

    pub fn cluster(&self) -> &Cluster {
        self.script.cluster().unwrap()
    }

    pub fn under_way(&self) -> usize {
        self.cluster().messages().len()
    }

    /// What holds of Change 4's conditions for a call at this server.
    pub fn conditions(&self, server: usize) -> Conditions {
        Conditions::of(&self.script, server).unwrap()
    }

    /// The kinds of the messages under way, in order.
    pub fn kinds(&self) -> Vec<u8> {
        let messages = self.cluster().messages();
        let kind = |place| messages.header(messages.slot(place).unwrap()).kind;
        (0..messages.len()).map(kind).collect()
    }

    /// The last place with a message of this kind between these servers.
    pub fn place(&self, kind: u8, from: u8, to: u8) -> usize {
        let messages = self.cluster().messages();
        let found = (0..messages.len()).rev().find(|&place| {
            let header = messages.header(messages.slot(place).unwrap());
            (header.kind, header.from, header.to) == (kind, from, to)
        });
        found.expect("such a message is under way")
    }

    /// Delivers that message and gives what is printed.
    pub fn deliver(&mut self, kind: u8, from: u8, to: u8) -> String {
        let place = self.place(kind, from, to);
        self.line(&format!("deliver {place}"))
    }

    /// Delivers a request to `peer` and its acknowledgement, whose kind is one
    /// above; gives what that prints.
    pub fn exchange(&mut self, request: u8, leader: u8, peer: u8) -> String {
        assert_eq!(self.deliver(request, leader, peer), "");
        self.deliver(request + 1, peer, leader)
    }

    /// The rounds of READ on a bucket that `leader` has not recovered, each
    /// closed by `peer`; gives what is printed last.
    pub fn read_unrecovered(&mut self, leader: u8, peer: u8) -> String {
        assert_eq!(self.exchange(REPLICAREAD, leader, peer), "");
        assert_eq!(self.exchange(REPLICAWRITE, leader, peer), "");
        self.exchange(REPLICAREAD, leader, peer)
    }

    /// Makes `server` leader with the votes of the servers given.
    pub fn elect(&mut self, server: u8, voters: &[u8]) {
        assert_eq!(self.line(&format!("elect {server}")), "");
        for &voter in voters {
            assert_eq!(self.exchange(PLEASEVOTE, server, voter), "");
        }
    }

    /// Three servers; server 0 leads, and this call at it, which writes, has
    /// recovered the only bucket. Servers 0 and 1 have stored the write, and
    /// nothing is under way.
    pub fn recovered(call: &str) -> Self {
        let mut bench = Bench::new("cluster 3 1");
        bench.elect(0, &[1]);
        bench.quiet(&[call]);
        assert_eq!(bench.read_unrecovered(0, 1), "");
        assert_eq!(bench.exchange(REPLICAWRITE, 0, 1), "1 done 4");
        bench.lose_all();
        bench
    }

    /// Delivers what is under way and what that sends, in order; gives what is
    /// printed.
    pub fn deliver_all(&mut self) -> String {
        let mut out = String::new();
        while self.under_way() > 0 {
            out += &self.line("deliver 0");
        }
        out
    }

    /// Loses all that is under way.
    pub fn lose_all(&mut self) {
        while self.under_way() > 0 {
            self.quiet(&["lose 0"]);
        }
    }
}
