//! Scripts in which most calls complete: long ones, one for measuring speed,
//! and the two that reach a limit.

use super::maker::Maker;
use super::restarts::Request;
use crate::script::MOST_ACCEPTED;

/// Shares out of 100,000 lines; what is left over are calls and deliveries.
struct Calm {
    copies: usize,
    losses: usize,
    elections: usize,
    timeouts: usize,
    stops: usize,
    cuts: usize,
    /// Messages under way at which no further call is made.
    fill: usize,
}

/// A server that was cut, if it has not come back, and the line until which
/// nothing changes in this.
#[derive(Default)]
struct Pause {
    server: Option<usize>,
    until: usize,
}

impl Maker {
    pub fn long(&mut self, lines: usize) {
        let size = self.random.within(1, 7);
        let buckets = self.random.within(1, 8);
        self.form(size, buckets);
        let calm = Calm {
            copies: self.random.within(0, 3000),
            losses: self.random.within(0, 1000),
            elections: self.random.within(0, 200),
            timeouts: self.random.within(0, 100),
            stops: 5,
            cuts: self.random.within(0, 1200),
            fill: self.random.within(6, 40),
        };
        for _ in 0..lines {
            let line = match self.comes_back(40) {
                Some(line) => line,
                None => self.calm_line(&calm),
            };
            self.add(line);
        }
    }

    /// Two of the five servers stop for good on the way, others for some lines
    /// only; a majority always runs.
    pub fn speed(&mut self, lines: usize) {
        self.form(5, 8);
        // Without them, and with few cuts, it is the same mix of lines as ever,
        // so that times can be compared.
        self.leave_out_empty_values();
        let mut calm = Calm {
            copies: 1000,
            losses: 300,
            elections: 50,
            timeouts: 20,
            stops: 0,
            cuts: 0,
            fill: 15,
        };
        let mut stops = [lines * 7 / 10, lines * 9 / 10].into_iter().peekable();
        let mut pause = Pause::default();
        let mut accepted = 0;
        while accepted < lines {
            let line = if stops.next_if(|&at| at <= accepted).is_some() {
                calm.losses /= 4;
                self.stop_follower()
            } else if let Some(line) = self.pause_line(&mut pause, accepted) {
                line
            } else {
                self.calm_line(&calm)
            };
            accepted += usize::from(self.add_accepted(line));
        }
    }

    /// Now and then a cut at a server that does not lead, and its start soon
    /// after.
    fn pause_line(&mut self, pause: &mut Pause, accepted: usize) -> Option<String> {
        if accepted < pause.until {
            return None;
        }
        if let Some(server) = pause.server.take() {
            pause.until = accepted + self.random.within(1000, 3000);
            return Some(format!("start {server}"));
        }
        if !self.can_spare_one() {
            return None;
        }
        let leaders = self.leaders();
        let mut requests = self.requests();
        requests.retain(|request| !leaders.contains(&request.to));
        let Request { place, to, stores } = *requests.last()?;
        *pause = Pause {
            server: Some(to),
            until: accepted + self.random.within(5, 40),
        };
        let kept = match self.random.chance(600) {
            true => stores,
            false => self.random.below(stores + 1),
        };
        Some(format!("cut {place} {kept}"))
    }

    fn stop_follower(&mut self) -> String {
        let leaders = self.leaders();
        let running = self.servers(|_| true);
        let follower = running.iter().find(|server| !leaders.contains(server));
        format!("stop {}", follower.unwrap_or(&running[0]))
    }

    fn calm_line(&mut self, calm: &Calm) -> String {
        let count = self.under_way();
        let place = match self.random.chance(800) {
            true => 0,
            false => self.random.below(count.max(1)),
        };
        let mut draw = self.random.below(100_000);
        let shares = [
            calm.copies,
            calm.losses,
            calm.elections,
            calm.timeouts,
            calm.stops,
            calm.cuts,
        ];
        for (choice, share) in shares.into_iter().enumerate() {
            if draw < share {
                return self.calm_choice(choice, place);
            }
            draw -= share;
        }
        self.calm_work(calm.fill, place)
    }

    fn calm_choice(&mut self, choice: usize, place: usize) -> String {
        match choice {
            0 => format!("copy {place}"),
            1 => format!("lose {place}"),
            2 => format!("elect {}", self.running_server()),
            3 => self.timeout(),
            4 => format!("stop {}", self.random.below(self.cluster().size())),
            _ => self.cut().unwrap_or_else(|| format!("deliver {place}")),
        }
    }

    /// A call where one is free, otherwise a delivery.
    fn calm_work(&mut self, fill: usize, place: usize) -> String {
        let leader = self.leaders().last().copied();
        let count = self.under_way();
        let threshold = self.random.below(fill);
        if count <= threshold {
            if let Some(line) = leader.and_then(|leader| self.free_call(leader)) {
                return line;
            }
        }
        if count > 0 {
            return format!("deliver {place}");
        }
        match leader {
            Some(_) => self.timeout(),
            None => self.towards_leader(),
        }
    }

    /// A running server, if there is one.
    fn running_server(&mut self) -> usize {
        let running = self.servers(|_| true);
        match running.is_empty() {
            true => 0,
            false => *self.random.pick(&running),
        }
    }

    pub fn elections(&mut self, lines: usize) {
        let size = self.random.within(1, 3);
        self.form(size, 2);
        for _ in 0..lines {
            let count = self.under_way();
            let line = match self.random.below(100) {
                0..=1 => self.timeout(),
                2..=4 => self.any_call(0),
                5..=20 if count > 0 => format!("deliver {}", self.random.below(count)),
                21 => self.cut().unwrap_or_else(|| format!("elect {}", size - 1)),
                22..=26 if !self.stopped().is_empty() => self.start().unwrap_or_default(),
                _ if count > 50 || (count > 4 && self.random.chance(450)) => "lose 0".to_string(),
                _ if self.random.chance(900) => "elect 0".to_string(),
                _ => format!("elect {}", self.random.below(size)),
            };
            self.add(line);
        }
    }

    /// One server completes every call in its line, so 1,000,000 accepted
    /// lines are reached quickly.
    pub fn limit(&mut self, lines: usize) {
        let buckets = self.random.within(1, 8);
        self.form(1, buckets);
        self.add("elect 0");
        while self.script.accepted() < MOST_ACCEPTED {
            match self.random.below(1000) {
                0 => self.reboot(),
                1..=9 => self.add("elect 0"),
                _ => match self.free_call(0) {
                    Some(line) => self.add(line),
                    None => self.add("get 0 61"),
                },
            };
        }
        self.hostile_lines(lines);
    }

    /// The only server stops, comes back and leads again.
    fn reboot(&mut self) -> bool {
        ["stop 0", "start 0", "elect 0"]
            .into_iter()
            .all(|line| self.add(line))
    }
}
