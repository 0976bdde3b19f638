//! Servers that stop within their stores and servers that come back, for
//! scripts of every kind.

use super::maker::Maker;
use crate::cluster::majority;
use crate::datagram::{PLEASEVOTE, REPLICAREAD, REPLICAWRITE};

/// A message that can be cut.
#[derive(Clone, Copy)]
pub struct Request {
    pub place: usize,
    pub to: usize,
    /// Stores that handling it makes.
    pub stores: usize,
}

impl Maker {
    /// A cut, mostly only as long as a majority is left; `None` where there is
    /// nothing to cut.
    pub fn cut(&mut self) -> Option<String> {
        if !self.can_spare_one() && self.random.chance(800) {
            return self.start();
        }
        let requests = self.requests();
        self.cut_of(&requests)
    }

    /// In `share` of 1,000 cases a cut of a write that makes two stores, if one is
    /// under way: few do, and only they can be stored by half.
    pub fn cut_of_two(&mut self, share: usize) -> Option<String> {
        let mut requests = self.requests();
        requests.retain(|request| request.stores == 2);
        match !requests.is_empty() && self.random.chance(share) {
            true => self.cut_of(&requests),
            false => None,
        }
    }

    /// A cut of one of these, often of one with the most stores, as two of them
    /// are rare.
    pub fn cut_of(&mut self, requests: &[Request]) -> Option<String> {
        let most = requests.iter().map(|request| request.stores).max()?;
        let mut requests = requests.to_vec();
        if self.random.chance(500) {
            requests.retain(|request| request.stores == most);
        }
        let Request { place, stores, .. } = *self.random.pick(&requests);
        let kept = match self.random.below(20) {
            0..=8 => stores,
            9..=13 => stores.min(1),
            14..=18 => self.random.below(stores + 1),
            // One more than are made.
            _ => stores + 1,
        };
        Some(format!("cut {place} {kept}"))
    }

    /// Requests under way to running servers.
    pub fn requests(&self) -> Vec<Request> {
        let (cluster, messages) = (self.cluster(), self.cluster().messages());
        let request = |place: usize| {
            let slot = messages.slot(place)?;
            let header = messages.header(slot);
            let to = usize::from(header.to);
            let server = cluster.server(to);
            let can_be_cut = matches!(header.kind, PLEASEVOTE | REPLICAWRITE | REPLICAREAD);
            (can_be_cut && !server.stopped).then(|| Request {
                place,
                to,
                stores: server.stores(header, messages.table(slot)).count(),
            })
        };
        (0..messages.len()).filter_map(request).collect()
    }

    /// A stopped server comes back, if there is one.
    pub fn start(&mut self) -> Option<String> {
        let stopped = self.stopped();
        let server = match stopped.is_empty() {
            true => return None,
            false => self.random.pick(&stopped),
        };
        Some(format!("start {server}"))
    }

    /// The same in `share` of 1,000 cases, more often where no majority runs, so
    /// that scripts live on.
    pub fn comes_back(&mut self, share: usize) -> Option<String> {
        let (stopped, size) = (self.stopped().len(), self.cluster().size());
        let few = ((size - stopped) as u32) < majority(size);
        let share = if few { share.max(20) * 5 } else { share };
        match stopped > 0 && self.random.chance(share) {
            true => self.start(),
            false => None,
        }
    }

    pub fn stopped(&self) -> Vec<usize> {
        let cluster = self.cluster();
        let stopped = |&s: &usize| cluster.server(s).stopped;
        (0..cluster.size()).filter(stopped).collect()
    }

    /// Whether a majority is left without one of the running servers.
    pub fn can_spare_one(&self) -> bool {
        let running = self.servers(|_| true).len() as u32;
        running > majority(self.cluster().size())
    }
}
