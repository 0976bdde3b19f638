//! Scripts with rivals, losses and partitions, and scripts whose list of
//! messages is nearly full.

use super::maker::Maker;
use crate::cluster::messages::PLACES;
use crate::cluster::server::Role;

/// How the network and the operators behave for a while. Shares are out of
/// 1,000 lines; what is left over are deliveries.
pub struct Phase {
    lines: usize,
    /// Servers whose messages to each other get through, as a set of bits.
    connected: u8,
    in_order: bool,
    calls: usize,
    elections: usize,
    copies: usize,
    losses: usize,
    timeouts: usize,
    stops: usize,
    cuts: usize,
    /// Share of the lines, while a server is stopped, that bring one back.
    starts: usize,
}

impl Maker {
    pub fn ordinary(&mut self, lines: usize) {
        let size = self.random.within(1, 7);
        let buckets = self.random.within(1, 8);
        self.form(size, buckets);
        let mut phase = self.phase();
        for _ in 0..lines {
            if phase.lines == 0 {
                phase = self.phase();
            }
            phase.lines -= 1;
            let line = self.rough_line(&phase);
            self.add(line);
        }
    }

    /// A calm, a lossy or a divided phase.
    pub fn phase(&mut self) -> Phase {
        // A call in a larger cluster takes more deliveries.
        let size = self.script.cluster().map_or(1, |cluster| cluster.size());
        let random = &mut self.random;
        let mut phase = Phase {
            lines: random.within(20, 120),
            connected: !0,
            in_order: random.chance(500),
            calls: random.within(60, 400) / (size + 1),
            elections: random.within(0, 6),
            copies: random.within(0, 30),
            losses: random.within(0, 20),
            timeouts: random.within(0, 3),
            stops: random.within(0, 3),
            cuts: *random.pick(&[0, 10, 20, 60]),
            starts: *random.pick(&[0, 20, 60, 200]),
        };
        match random.below(4) {
            0 => phase.losses = random.within(50, 250),
            1 => phase.connected = random.byte(),
            2 => (phase.copies, phase.elections) = (100, random.within(20, 120)),
            _ => {}
        }
        phase
    }

    /// One line, mostly one that the state accepts.
    pub fn rough_line(&mut self, phase: &Phase) -> String {
        let restart = self.comes_back(phase.starts);
        if let Some(line) = restart.or_else(|| self.cut_of_two(4 * phase.cuts)) {
            return line;
        }
        let leaders = self.leaders();
        if leaders.is_empty() && self.random.chance(700) {
            return self.towards_leader();
        }
        let mut draw = self.random.below(1000);
        let shares = [
            phase.calls,
            phase.elections,
            phase.copies,
            phase.losses,
            phase.timeouts,
            phase.stops,
            phase.cuts,
        ];
        for (choice, share) in shares.into_iter().enumerate() {
            if draw < share {
                return self.rough_choice(choice, &leaders, phase);
            }
            draw -= share;
        }
        self.rough_delivery(&leaders, phase)
    }

    fn rough_choice(&mut self, choice: usize, leaders: &[usize], phase: &Phase) -> String {
        match choice {
            0 => self.rough_call(leaders),
            1 => self.election(),
            2 | 3 if self.under_way() == 0 => self.rough_delivery(leaders, phase),
            2 => format!("copy {}", self.place(phase)),
            3 => format!("lose {}", self.place(phase)),
            4 => self.timeout(),
            5 => self.stop(),
            _ => match self.cut() {
                Some(line) => line,
                None => self.rough_delivery(leaders, phase),
            },
        }
    }

    fn rough_delivery(&mut self, leaders: &[usize], phase: &Phase) -> String {
        if self.under_way() > 0 {
            return format!("deliver {}", self.place(phase));
        }
        if leaders.is_empty() {
            return self.towards_leader();
        }
        // With nothing under way a stuck call needs a timeout.
        if !self.open_rounds().is_empty() && self.random.chance(300) {
            return self.timeout();
        }
        self.rough_call(leaders)
    }

    /// A call at a leader if there is one, now and then at any server.
    fn rough_call(&mut self, leaders: &[usize]) -> String {
        if leaders.is_empty() || self.random.chance(20) {
            let server = self.random.below(self.cluster().size());
            return self.any_call(server);
        }
        let leader = *self.random.pick(leaders);
        match self.free_call(leader) {
            Some(line) => line,
            None if self.random.chance(50) => self.any_call(leader),
            None => format!("deliver {}", self.random.below(self.under_way().max(1))),
        }
    }

    pub fn election(&mut self) -> String {
        let size = self.cluster().size();
        let server = match self.likely_winner() {
            Some(server) if self.random.chance(500) => server,
            _ => self.random.below(size),
        };
        format!("elect {server}")
    }

    /// Stops a server, mostly only as long as a majority is left; often one that
    /// leads or stands, so that this is lost.
    pub fn stop(&mut self) -> String {
        if !self.can_spare_one() && self.random.chance(900) {
            return self.timeout();
        }
        let active = self.servers(|server| server.role != Role::Idle);
        let server = match !active.is_empty() && self.random.chance(400) {
            true => *self.random.pick(&active),
            false => self.random.below(self.cluster().size()),
        };
        format!("stop {server}")
    }

    pub fn timeout(&mut self) -> String {
        let rounds = self.open_rounds();
        let (server, bucket) = match rounds.is_empty() {
            true => (0, 0),
            false => *self.random.pick(&rounds),
        };
        format!("timeout {server} {bucket}")
    }

    /// A place of the list, if possible of a message that gets through.
    fn place(&mut self, phase: &Phase) -> usize {
        let count = self.under_way();
        if phase.in_order {
            let through = (0..count).find(|&place| self.gets_through(place, phase));
            return through.unwrap_or(0);
        }
        for _ in 0..8 {
            let place = self.random.below(count.max(1));
            if self.gets_through(place, phase) {
                return place;
            }
        }
        0
    }

    fn gets_through(&self, place: usize, phase: &Phase) -> bool {
        let messages = self.cluster().messages();
        messages.slot(place).is_some_and(|slot| {
            let header = messages.header(slot);
            phase.connected >> header.from & phase.connected >> header.to & 1 == 1
        })
    }

    /// Fills the list by calls and elections and keeps it nearly full.
    pub fn crowded(&mut self, lines: usize) {
        let size = self.random.within(6, 7);
        let buckets = self.random.within(5, 8);
        self.form(size, buckets);
        let mut fill = 20;
        for at in 0..lines {
            if at % 40 == 0 {
                let least = *self.random.pick(&[10, 50, 58]);
                fill = self.random.within(least, PLACES);
            }
            let line = self.crowded_line(fill);
            self.add(line);
        }
    }

    fn crowded_line(&mut self, fill: usize) -> String {
        if let Some(line) = self.comes_back(60) {
            return line;
        }
        let leaders = self.leaders();
        let count = self.under_way();
        let place = self.random.below(count.max(1));
        if leaders.is_empty() && self.random.chance(700) {
            return self.towards_leader();
        }
        match self.random.below(1000) {
            0..=2 => self.election(),
            3 => self.timeout(),
            4..=29 => format!("lose {place}"),
            30..=79 => format!("copy {place}"),
            80 if self.random.chance(500) => self.stop(),
            81..=88 => self.cut().unwrap_or_else(|| format!("deliver {place}")),
            _ if count < fill && self.random.chance(700) => self.filling_line(&leaders, place),
            _ => format!("deliver {place}"),
        }
    }

    /// A broadcast where one is possible, otherwise one more reply.
    fn filling_line(&mut self, leaders: &[usize], place: usize) -> String {
        if self.random.chance(30) {
            return self.rough_call(leaders);
        }
        let call = leaders.first().and_then(|&leader| self.free_call(leader));
        call.unwrap_or_else(|| format!("copy {place}"))
    }
}
