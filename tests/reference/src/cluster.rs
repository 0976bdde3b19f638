//! The cluster: servers, open calls, messages under way and the tally.
//! One accepted line is one step.

pub mod call;
pub mod messages;
mod restarts;
pub mod server;

use crate::datagram::{Header, Version, PLEASEVOTE, REPLICAREAD, REPLICAWRITE};
use crate::datagram::{ACKREAD, ACKVOTE, ACKWRITE, NACKREAD, NACKVOTE, NACKWRITE};
use crate::refusal::*;
use call::{Answers, Call, Outcome, Request, Round, Stage, Verdict};
use messages::Messages;
use server::{Replica, Role, Server};

pub use server::BUCKETS;

/// Most servers of a cluster.
pub const SERVERS: usize = 7;

/// Majority of `size` servers: half of them, rounded down, plus one.
pub fn majority(size: usize) -> u32 {
    size as u32 / 2 + 1
}

/// What a line after the cluster line asks for, with its numbers as written.
#[derive(Clone, Copy, PartialEq, Eq, Debug)]
pub enum Step {
    Elect(u32),
    Call(u32, Request),
    Deliver(u32),
    Copy(u32),
    Lose(u32),
    Timeout(u32, u32),
    Stop(u32),
    /// The place of a message, and how many stores are made before the stop.
    Cut(u32, u32),
    Start(u32),
}

/// Counts over the whole script.
#[derive(Clone, Copy, Default, PartialEq, Eq, Debug)]
pub struct Tally {
    pub sent: u32,
    pub copied: u32,
    pub delivered: u32,
    pub lost: u32,
    pub under_way: u32,
}

#[derive(Clone)]
pub struct Cluster {
    size: usize,
    buckets: usize,
    majority: u32,
    calls: u32,
    tally: Tally,
    messages: Messages,
    servers: [Server; SERVERS],
}

impl Cluster {
    /// A fresh cluster; 2 where the numbers are out of range.
    pub fn new(size: u32, buckets: u32) -> Result<Box<Self>, Refusal> {
        let (size, buckets) = (size as usize, buckets as usize);
        if !(1..=SERVERS).contains(&size) || !(1..=BUCKETS).contains(&buckets) {
            return Err(CLUSTER);
        }
        Ok(Box::new(Cluster {
            size,
            buckets,
            majority: majority(size),
            calls: 0,
            tally: Tally::default(),
            messages: Messages::new(),
            servers: std::array::from_fn(|_| Server::fresh()),
        }))
    }

    pub fn size(&self) -> usize {
        self.size
    }

    pub fn buckets(&self) -> usize {
        self.buckets
    }

    pub fn server(&self, server: usize) -> &Server {
        &self.servers[server]
    }

    pub fn messages(&self) -> &Messages {
        &self.messages
    }

    /// Calls accepted so far, which is the number of the last one.
    pub fn calls(&self) -> u32 {
        self.calls
    }

    pub fn tally(&self) -> Tally {
        Tally {
            under_way: self.messages.len() as u32,
            ..self.tally
        }
    }

    /// Refusals 3 and 4: names and lengths that fit no line of this cluster.
    #[inline]
    pub fn admit(&self, step: &Step) -> Result<(), Refusal> {
        let (size, buckets) = (self.size as u32, self.buckets as u32);
        let known = match *step {
            Step::Elect(server) | Step::Stop(server) | Step::Start(server) => server < size,
            Step::Timeout(server, bucket) => server < size && bucket < buckets,
            Step::Call(server, Request::Keys { bucket }) => server < size && bucket < buckets,
            Step::Call(server, _) => server < size,
            Step::Deliver(_) | Step::Copy(_) | Step::Lose(_) | Step::Cut(..) => true,
        };
        if !known {
            return Err(RANGE);
        }
        match step {
            Step::Call(_, request) if !request.lengths_fit() => Err(LENGTH),
            _ => Ok(()),
        }
    }

    /// Does what an admitted line asks for, or refuses it with 6 to 12 or 18 and
    /// changes nothing.
    #[inline]
    pub fn step(&mut self, step: &Step, answers: &mut impl Answers) -> Result<(), Refusal> {
        match step {
            Step::Deliver(place) => self.deliver(*place as usize, answers),
            Step::Call(server, request) => self.call(*server as usize, request, answers),
            Step::Elect(server) => self.elect(*server as usize, answers),
            Step::Copy(place) => self.copy(*place as usize, answers),
            Step::Lose(place) => self.lose(*place as usize),
            Step::Timeout(server, bucket) => {
                self.timeout(*server as usize, *bucket as usize, answers)
            }
            Step::Stop(server) => self.stop(*server as usize),
            Step::Cut(place, stores) => self.cut(*place as usize, *stores as usize),
            Step::Start(server) => self.start(*server as usize),
        }
    }

    fn elect(&mut self, s: usize, answers: &mut impl Answers) -> Result<(), Refusal> {
        let number = self.running(s)?.next_number().ok_or(LAST_ELECTION)?;
        if self.messages.room() < self.others() {
            return Err(NO_ROOM);
        }
        self.cease(s, answers);
        self.servers[s].number = number;
        self.stand(s);
        Ok(())
    }

    fn call(
        &mut self,
        s: usize,
        request: &Request,
        answers: &mut impl Answers,
    ) -> Result<(), Refusal> {
        let server = self.running(s)?;
        if server.role != Role::Leader {
            return Err(NOT_LEADER);
        }
        let b = request.bucket(self.buckets);
        if server.calls[b].is_open() {
            return Err(CALL_OPEN);
        }
        if self.messages.room() < self.others() {
            return Err(NO_ROOM);
        }
        self.calls += 1;
        let call = &mut self.servers[s].calls[b];
        call.number = self.calls;
        call.rounds = 0;
        call.request = *request;
        self.begin(s, b, answers);
        Ok(())
    }

    fn deliver(&mut self, place: usize, answers: &mut impl Answers) -> Result<(), Refusal> {
        let slot = self.messages.slot(place).ok_or(NO_MESSAGE)?;
        let header = *self.messages.header(slot);
        self.check_room(&header, self.messages.room() + 1)?;
        self.messages.remove(place);
        self.hand_over(slot, &header, answers);
        Ok(())
    }

    fn copy(&mut self, place: usize, answers: &mut impl Answers) -> Result<(), Refusal> {
        let slot = self.messages.slot(place).ok_or(NO_MESSAGE)?;
        let header = *self.messages.header(slot);
        self.check_room(&header, self.messages.room())?;
        self.tally.copied += 1;
        self.hand_over(slot, &header, answers);
        Ok(())
    }

    fn lose(&mut self, place: usize) -> Result<(), Refusal> {
        self.messages.slot(place).ok_or(NO_MESSAGE)?;
        self.messages.remove(place);
        self.tally.lost += 1;
        Ok(())
    }

    fn timeout(&mut self, s: usize, b: usize, answers: &mut impl Answers) -> Result<(), Refusal> {
        if !self.running(s)?.calls[b].is_open() {
            return Err(NO_ROUND);
        }
        self.cease(s, answers);
        Ok(())
    }

    /// A stopped server ends nothing; its calls stay open until a start forgets
    /// them.
    fn stop(&mut self, s: usize) -> Result<(), Refusal> {
        self.running(s)?;
        self.servers[s].stopped = true;
        Ok(())
    }

    #[inline]
    fn running(&self, s: usize) -> Result<&Server, Refusal> {
        let server = &self.servers[s];
        if server.stopped {
            Err(STOPPED)
        } else {
            Ok(server)
        }
    }

    /// Messages of one broadcast.
    #[inline]
    fn others(&self) -> usize {
        self.size - 1
    }

    /// Refusal 12 for a message to be handed over with `room` places free.
    #[inline]
    fn check_room(&self, header: &Header, room: usize) -> Result<(), Refusal> {
        // A step sends at most one broadcast, so the exact count is needed
        // only when places are few.
        if room < SERVERS - 1 && self.sends(header) > room {
            Err(NO_ROOM)
        } else {
            Ok(())
        }
    }

    /// Messages that handing over `header` sends.
    fn sends(&self, header: &Header) -> usize {
        let server = &self.servers[usize::from(header.to)];
        if server.stopped {
            return 0;
        }
        match header.kind {
            PLEASEVOTE | REPLICAWRITE | REPLICAREAD => 1,
            ACKWRITE | ACKREAD if self.closes(header) && self.goes_on(header) => self.others(),
            _ => 0,
        }
    }

    /// Whether an acknowledgement makes its round's majority.
    fn closes(&self, reply: &Header) -> bool {
        let call = &self.servers[usize::from(reply.to)].calls[usize::from(reply.bucket)];
        call.is_open()
            && call.round.awaits(reply)
            && call.round.acks.count_ones() + 1 >= self.majority
    }

    /// Whether the call makes another round once this one has closed.
    fn goes_on(&self, reply: &Header) -> bool {
        let server = &self.servers[usize::from(reply.to)];
        let b = usize::from(reply.bucket);
        let call = &server.calls[b];
        match call.stage {
            Stage::RecoveryRead | Stage::RecoveryWrite => true,
            Stage::Check => call.request.verdict(&server.replicas[b].table) == Verdict::Write,
            Stage::OwnWrite | Stage::Closed => false,
        }
    }

    /// Handles a message at its server; at a stopped one it is lost.
    #[inline]
    fn hand_over(&mut self, slot: usize, header: &Header, answers: &mut impl Answers) {
        if self.servers[usize::from(header.to)].stopped {
            self.tally.lost += 1;
            return;
        }
        self.tally.delivered += 1;
        match header.kind {
            REPLICAWRITE => self.replica_write(slot, header, answers),
            REPLICAREAD => self.replica_read(header, answers),
            ACKWRITE | ACKREAD => self.acknowledged(slot, header, answers),
            NACKWRITE | NACKREAD => self.refused(header, answers),
            PLEASEVOTE => self.please_vote(header, answers),
            ACKVOTE => {
                let majority = self.majority;
                self.servers[usize::from(header.to)].ack_vote(header.number, header.from, majority);
            }
            // Vote refusals are ignored.
            _ => {}
        }
    }

    fn please_vote(&mut self, header: &Header, answers: &mut impl Answers) {
        let s = usize::from(header.to);
        let voted = self.servers[s].please_vote(header.number, header.from);
        self.cease_if_superseded(s, answers);
        self.send(header.reply(if voted { ACKVOTE } else { NACKVOTE }));
    }

    fn replica_write(&mut self, slot: usize, header: &Header, answers: &mut impl Answers) {
        let s = usize::from(header.to);
        let table = self.messages.table(slot);
        let b = usize::from(header.bucket);
        let accepted = self.servers[s].replica_write(b, header.version, table, header.from);
        self.cease_if_superseded(s, answers);
        self.send(header.reply(if accepted { ACKWRITE } else { NACKWRITE }));
    }

    fn replica_read(&mut self, header: &Header, answers: &mut impl Answers) {
        let s = usize::from(header.to);
        if !self.servers[s].replica_read(header.number, header.from) {
            self.send(header.reply(NACKREAD));
            return;
        }
        self.cease_if_superseded(s, answers);
        let replica = &self.servers[s].replicas[usize::from(header.bucket)];
        let mut reply = header.reply(ACKREAD);
        reply.version = replica.version;
        self.messages.add_with(reply, &replica.table);
        self.tally.sent += 1;
    }

    /// Marks an acknowledgement; a majority of them closes the round.
    fn acknowledged(&mut self, slot: usize, header: &Header, answers: &mut impl Answers) {
        let (s, b) = (usize::from(header.to), usize::from(header.bucket));
        let call = &mut self.servers[s].calls[b];
        if !call.is_open() || !call.round.awaits(header) {
            return;
        }
        call.round.acks |= 1 << header.from;
        if call.stage == Stage::RecoveryRead && header.version > call.best.version {
            call.best = Replica {
                version: header.version,
                table: *self.messages.table(slot),
            };
        }
        if call.round.acks.count_ones() >= self.majority {
            self.go_on(s, b, answers);
        }
    }

    /// Marks a refusal; the round fails when too few servers are left.
    fn refused(&mut self, header: &Header, answers: &mut impl Answers) {
        let (s, b) = (usize::from(header.to), usize::from(header.bucket));
        let call = &mut self.servers[s].calls[b];
        if !call.is_open() || !call.round.awaits(header) {
            return;
        }
        call.round.refusals |= 1 << header.from;
        if self.size as u32 - call.round.refusals.count_ones() < self.majority {
            self.cease(s, answers);
        }
    }

    /// Becomes candidate under the present number and asks for votes, itself
    /// first.
    fn stand(&mut self, s: usize) {
        let majority = self.majority;
        let server = &mut self.servers[s];
        server.role = Role::Candidate;
        server.votes = 0;
        let number = server.number;
        if server.please_vote(number, s as u8) {
            server.ack_vote(number, s as u8, majority);
        }
        self.broadcast(Header {
            kind: PLEASEVOTE,
            from: s as u8,
            to: 0,
            bucket: 0,
            number,
            round: 0,
            version: Version::NONE,
        });
    }

    #[inline]
    fn cease_if_superseded(&mut self, s: usize, answers: &mut impl Answers) {
        if self.servers[s].is_superseded() {
            self.cease(s, answers);
        }
    }

    /// Ends leadership or candidacy; open calls end in bucket order.
    fn cease(&mut self, s: usize, answers: &mut impl Answers) {
        let server = &mut self.servers[s];
        server.role = Role::Idle;
        for call in &mut server.calls {
            if call.is_open() {
                let outcome = if call.stage == Stage::OwnWrite {
                    Outcome::Unknown
                } else {
                    Outcome::NotDone
                };
                call.stage = Stage::Closed;
                answers.answer(call.number, call.rounds, outcome);
            }
        }
    }

    /// Opens a call's first round. An unrecovered bucket is recovered first; on
    /// a recovered one a call that writes goes straight to its own write, and
    /// any other makes the checking round.
    fn begin(&mut self, s: usize, b: usize, answers: &mut impl Answers) {
        let server = &self.servers[s];
        let Replica { version, table } = &server.replicas[b];
        if version.number != server.number {
            self.open_read(s, b, Stage::RecoveryRead);
        } else if server.calls[b].request.verdict(table) == Verdict::Write {
            self.write_own(s, b);
        } else {
            self.open_read(s, b, Stage::Check);
        }
        if self.majority == 1 {
            self.go_on(s, b, answers);
        }
    }

    /// Goes on with a call whose round has closed. A server alone is a
    /// majority, so there every round closes at once.
    fn go_on(&mut self, s: usize, b: usize, answers: &mut impl Answers) {
        loop {
            match self.servers[s].calls[b].stage {
                Stage::RecoveryRead => self.write_recovered(s, b),
                Stage::RecoveryWrite => self.open_read(s, b, Stage::Check),
                Stage::Check => self.decide(s, b, answers),
                Stage::OwnWrite => self.end(s, b, Outcome::Done, answers),
                Stage::Closed => return,
            }
            if self.majority > 1 {
                return;
            }
        }
    }

    /// Writes back what the recovery read found, as the first version under
    /// this leader.
    fn write_recovered(&mut self, s: usize, b: usize) {
        let server = &mut self.servers[s];
        let Replica { table, .. } = server.calls[b].best;
        let version = Version {
            number: server.number,
            counter: 1,
        };
        server.replica_write(b, version, &table, s as u8);
        self.open_write(s, b, Stage::RecoveryWrite);
    }

    /// After the checking round: answers, or writes the call's effect.
    fn decide(&mut self, s: usize, b: usize, answers: &mut impl Answers) {
        let server = &mut self.servers[s];
        let table = &server.replicas[b].table;
        let call = &mut server.calls[b];
        let outcome = match call.request.verdict(table) {
            Verdict::Value => Outcome::Value(call.request.found(table)),
            Verdict::Keys => Outcome::Keys(table.keys()),
            Verdict::Mismatch => Outcome::Mismatch,
            Verdict::Full => Outcome::Full,
            Verdict::Write => return self.write_own(s, b),
        };
        call.stage = Stage::Closed;
        answers.answer(call.number, call.rounds, outcome);
    }

    /// Opens the call's own write, under the next version.
    fn write_own(&mut self, s: usize, b: usize) {
        let server = &mut self.servers[s];
        let Replica {
            mut version,
            mut table,
        } = server.replicas[b];
        version.counter += 1;
        server.calls[b].request.apply(&mut table);
        server.replica_write(b, version, &table, s as u8);
        self.open_write(s, b, Stage::OwnWrite);
    }

    fn end(&mut self, s: usize, b: usize, outcome: Outcome, answers: &mut impl Answers) {
        let call = &mut self.servers[s].calls[b];
        call.stage = Stage::Closed;
        answers.answer(call.number, call.rounds, outcome);
    }

    /// Opens a round of REPLICAREAD, handled by the leader itself first.
    fn open_read(&mut self, s: usize, b: usize, stage: Stage) {
        let server = &mut self.servers[s];
        server.replica_read(server.number, s as u8);
        if stage == Stage::RecoveryRead {
            server.calls[b].best = server.replicas[b];
        }
        let header = self.open_round(s, b, stage, REPLICAREAD);
        self.broadcast(header);
    }

    /// Opens a round of REPLICAWRITE for what the leader has just stored.
    fn open_write(&mut self, s: usize, b: usize, stage: Stage) {
        let mut header = self.open_round(s, b, stage, REPLICAWRITE);
        let replica = &self.servers[s].replicas[b];
        header.version = replica.version;
        for to in (0..self.size).filter(|&to| to != s) {
            header.to = to as u8;
            self.messages.add_with(header, &replica.table);
        }
        self.tally.sent += self.others() as u32;
    }

    /// Opens the next round with the leader's own mark. A leader's vote is its
    /// number, so it acknowledges its own reads and writes.
    fn open_round(&mut self, s: usize, b: usize, stage: Stage, kind: u8) -> Header {
        let server = &mut self.servers[s];
        debug_assert_eq!(server.vote, server.number);
        server.last_round += 1;
        let call: &mut Call = &mut server.calls[b];
        call.stage = stage;
        call.rounds += 1;
        call.round = Round {
            number: server.last_round,
            election: server.number,
            acks: 1 << s,
            refusals: 0,
        };
        Header {
            kind,
            from: s as u8,
            to: 0,
            bucket: b as u8,
            number: server.number,
            round: server.last_round,
            version: Version::NONE,
        }
    }

    /// Sends to all others in rising order.
    fn broadcast(&mut self, mut header: Header) {
        for to in (0..self.size).filter(|&to| to != usize::from(header.from)) {
            header.to = to as u8;
            self.messages.add(header);
        }
        self.tally.sent += self.others() as u32;
    }

    #[inline]
    fn send(&mut self, header: Header) {
        self.messages.add(header);
        self.tally.sent += 1;
    }
}
