//! Servers that stop between two of their stores, and servers that come back
//! (RULES, Restarts).

use super::server::Server;
use super::Cluster;
use crate::datagram::{PLEASEVOTE, REPLICAREAD, REPLICAWRITE};
use crate::refusal::*;

impl Cluster {
    /// Hands a request to its server, which stops after so many of the stores
    /// that it makes. It replies nothing, and no call ends: it has stopped.
    pub(super) fn cut(&mut self, place: usize, count: usize) -> Result<(), Refusal> {
        let slot = self.messages.slot(place).ok_or(NO_MESSAGE)?;
        let request = *self.messages.header(slot);
        let server = &mut self.servers[usize::from(request.to)];
        let is_request = matches!(request.kind, PLEASEVOTE | REPLICAWRITE | REPLICAREAD);
        if !is_request || server.stopped {
            return Err(RESTART);
        }
        let stores = server.stores(&request, self.messages.table(slot));
        if count > stores.clone().count() {
            return Err(RESTART);
        }
        for store in stores.take(count) {
            server.store(store);
        }
        server.stopped = true;
        self.messages.remove(place);
        self.tally.lost += 1;
        Ok(())
    }

    /// Brings a stopped server back. Its open calls are forgotten, not ended:
    /// nobody can tell any more what became of them.
    pub(super) fn start(&mut self, s: usize) -> Result<(), Refusal> {
        let server = &mut self.servers[s];
        if !server.stopped {
            return Err(RESTART);
        }
        *server = Server {
            number: server.number,
            vote: server.vote,
            leader: server.leader,
            replicas: server.replicas,
            ..Server::fresh()
        };
        Ok(())
    }
}
