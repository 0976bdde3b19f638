//! Scripts in which servers take turns in leading with some of the others,
//! while old requests, votes and writes stay under way and arrive late.

use super::maker::Maker;
use crate::cluster::messages::PLACES;
use crate::cluster::server::Role;
use crate::datagram::REPLICAWRITE;

/// One server at work for a while, in touch with some peers only.
struct Turn {
    server: usize,
    /// The peers as a set of bits.
    peers: u8,
    lines: usize,
}

impl Maker {
    pub fn rivals(&mut self, lines: usize) {
        let size = *self.random.pick(&[2, 3, 3, 3, 3, 4, 5, 5, 6, 7]);
        let buckets = self.random.within(1, 2);
        self.form(size, buckets);
        let mut turn = self.turn();
        for _ in 0..lines {
            if turn.lines == 0 {
                turn = self.turn();
            }
            turn.lines -= 1;
            let line = self.rival_line(&turn);
            self.add(line);
        }
    }

    fn turn(&mut self) -> Turn {
        let size = self.cluster().size();
        Turn {
            server: self.random.below(size),
            peers: self.random.byte() | self.random.byte(),
            lines: self.random.within(5, 10 * size),
        }
    }

    fn rival_line(&mut self, turn: &Turn) -> String {
        let restart = self.comes_back(60);
        if let Some(line) = restart.or_else(|| self.cut_of_two(40)) {
            return line;
        }
        let count = self.under_way();
        let place = self.random.below(count.max(1));
        match self.random.below(1000) {
            0..=79 if count > 0 => format!("deliver {place}"),
            80..=139 if count > 0 => format!("copy {place}"),
            140..=144 => self.timeout(),
            145 => self.stop(),
            146..=165 => {
                let server = self.random.below(self.cluster().size());
                self.any_call(server)
            }
            166..=365 if count > PLACES - 20 => format!("lose {place}"),
            366..=405 => match self.oldest_write() {
                Some(place) => format!("copy {place}"),
                None => self.turn_line(turn),
            },
            // Some of what arrives late is cut.
            406..=413 => self.cut().unwrap_or_else(|| self.timeout()),
            _ => self.turn_line(turn),
        }
    }

    fn oldest_write(&self) -> Option<usize> {
        let messages = self.cluster().messages();
        (0..messages.len()).find(|&place| {
            let slot = messages.slot(place).unwrap_or(0);
            messages.header(slot).kind == REPLICAWRITE
        })
    }

    /// The next step of the server whose turn it is.
    fn turn_line(&mut self, turn: &Turn) -> String {
        let places = self.turn_places(turn);
        let role = self.cluster().server(turn.server).role;
        if role != Role::Idle && !places.is_empty() {
            let place = *self.random.pick(&places);
            // What is copied stays under way and arrives again, later.
            let word = match self.random.chance(150) {
                true => "copy",
                false => "deliver",
            };
            return format!("{word} {place}");
        }
        if role == Role::Leader {
            if let Some(line) = self.free_call(turn.server) {
                return line;
            }
            return self.timeout();
        }
        format!("elect {}", turn.server)
    }

    /// Places of messages of the server's present number that it exchanges
    /// with its peers.
    fn turn_places(&self, turn: &Turn) -> Vec<usize> {
        let messages = self.cluster().messages();
        let number = self.cluster().server(turn.server).number;
        let belongs = |&place: &usize| {
            let slot = messages.slot(place).unwrap_or(0);
            let header = messages.header(slot);
            let peer = match (usize::from(header.from), usize::from(header.to)) {
                (from, to) if from == turn.server => to,
                (from, to) if to == turn.server => from,
                _ => return false,
            };
            header.number == number && turn.peers >> peer & 1 == 1
        };
        (0..messages.len()).filter(belongs).collect()
    }
}
