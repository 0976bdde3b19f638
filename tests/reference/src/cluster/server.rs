//! One server: what it stores, what it leads, and how it handles votes,
//! replica reads and replica writes (Algorithms 1, 2 and 3).

use crate::bucket::Table;
use crate::cluster::call::Call;
use crate::datagram::{Header, Version, PLEASEVOTE, REPLICAWRITE};

/// Most buckets of a cluster.
pub const BUCKETS: usize = 8;

/// The leader of a server that has not voted.
pub const NOBODY: u8 = u8::MAX;

#[derive(Clone, Copy, PartialEq, Eq, Debug)]
pub enum Role {
    Idle,
    Candidate,
    Leader,
}

/// A server's copy of a bucket.
#[derive(Clone, Copy, PartialEq, Eq, Debug)]
pub struct Replica {
    pub version: Version,
    pub table: Table,
}

impl Replica {
    pub const EMPTY: Self = Replica {
        version: Version::NONE,
        table: Table::EMPTY,
    };
}

/// A change of one stored part. A server may stop after any of them, so each
/// is whole in itself.
#[derive(Clone, Copy, PartialEq, Eq, Debug)]
pub enum Store<'a> {
    /// The vote with its leader.
    Vote { number: u16, leader: u8 },
    /// A bucket with its version.
    Bucket {
        bucket: usize,
        version: Version,
        table: &'a Table,
    },
}

/// Number, vote, leader and replicas are stored and outlast a restart; all the
/// rest is forgotten.
#[derive(Clone, PartialEq, Eq, Debug)]
pub struct Server {
    /// Highest election that this server stood in.
    pub number: u16,
    /// Highest election that it voted in, and whom it follows there.
    pub vote: u16,
    pub leader: u8,
    pub role: Role,
    /// Servers whose ACKVOTE counted for the present number.
    pub votes: u8,
    pub stopped: bool,
    pub last_round: u32,
    pub replicas: [Replica; BUCKETS],
    /// The open call of each bucket.
    pub calls: [Call; BUCKETS],
}

impl Server {
    pub fn fresh() -> Self {
        Server {
            number: 0,
            vote: 0,
            leader: NOBODY,
            role: Role::Idle,
            votes: 0,
            stopped: false,
            last_round: 0,
            replicas: [Replica::EMPTY; BUCKETS],
            calls: [Call::NONE; BUCKETS],
        }
    }

    /// Handles PLEASEVOTE; says whether to acknowledge.
    #[inline]
    pub fn please_vote(&mut self, number: u16, source: u8) -> bool {
        if number > self.vote {
            let leader = source;
            self.store(Store::Vote { number, leader });
            return true;
        }
        number == self.vote && self.leader == source
    }

    /// Handles ACKVOTE: it counts for a candidate's present number, once per
    /// server.
    #[inline]
    pub fn ack_vote(&mut self, number: u16, from: u8, majority: u32) {
        if self.role == Role::Candidate && number == self.number {
            self.votes |= 1 << from;
            if self.votes.count_ones() >= majority {
                self.role = Role::Leader;
            }
        }
    }

    /// Handles REPLICAREAD, up to the reply; says whether to acknowledge.
    #[inline]
    pub fn replica_read(&mut self, number: u16, source: u8) -> bool {
        self.follow(number, source)
    }

    /// Handles REPLICAWRITE; says whether to acknowledge. An older version
    /// is acknowledged and not stored.
    #[inline]
    pub fn replica_write(
        &mut self,
        bucket: usize,
        version: Version,
        table: &Table,
        source: u8,
    ) -> bool {
        if !self.follow(version.number, source) {
            return false;
        }
        if version > self.replicas[bucket].version {
            self.store(Store::Bucket {
                bucket,
                version,
                table,
            });
        }
        true
    }

    /// Follows `source` unless the own vote is higher.
    #[inline]
    fn follow(&mut self, number: u16, source: u8) -> bool {
        if number < self.vote {
            return false;
        }
        let leader = source;
        self.store(Store::Vote { number, leader });
        true
    }

    /// Changes one stored part.
    #[inline]
    pub fn store(&mut self, store: Store) {
        match store {
            Store::Vote { number, leader } => (self.vote, self.leader) = (number, leader),
            Store::Bucket {
                bucket,
                version,
                table,
            } => {
                let replica = &mut self.replicas[bucket];
                replica.version = version;
                replica.table = *table;
            }
        }
    }

    /// The stores that handling a request makes, in their order: the vote, then
    /// the bucket. What would not change is not stored.
    pub fn stores<'a>(
        &self,
        request: &Header,
        table: &'a Table,
    ) -> impl Iterator<Item = Store<'a>> + Clone {
        let bucket = self.bucket_store(request, table);
        [self.vote_store(request), bucket].into_iter().flatten()
    }

    /// A request to vote is granted anew only under a higher number; a leader is
    /// followed under the same one too, and may differ from whom the vote went to.
    fn vote_store<'a>(&self, request: &Header) -> Option<Store<'a>> {
        let (number, leader) = (request.number, request.from);
        let changes = match request.kind {
            PLEASEVOTE => number > self.vote,
            _ => number >= self.vote && (number, leader) != (self.vote, self.leader),
        };
        changes.then_some(Store::Vote { number, leader })
    }

    fn bucket_store<'a>(&self, request: &Header, table: &'a Table) -> Option<Store<'a>> {
        let bucket = usize::from(request.bucket);
        let version = request.version;
        let changes = request.kind == REPLICAWRITE
            && request.number >= self.vote
            && version > self.replicas[bucket].version;
        changes.then_some(Store::Bucket {
            bucket,
            version,
            table,
        })
    }

    /// The number of its next election, one above the larger of its number and
    /// its vote; there is none above 65,535.
    #[inline]
    pub fn next_number(&self) -> Option<u16> {
        self.number.max(self.vote).checked_add(1)
    }

    /// Whether it leads or stands under a number below its vote, which ends it.
    #[inline]
    pub fn is_superseded(&self) -> bool {
        self.vote > self.number && self.role != Role::Idle
    }
}
