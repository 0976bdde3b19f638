//! Scripts that come to rest: again and again, after rough lines, nothing is
//! under way any more and a server leads that nobody running has voted above,
//! where a majority of the servers runs. So most scripts end in a quiet state.

use super::maker::Maker;
use crate::cluster::majority;
use crate::quiet::Conditions;

impl Maker {
    pub fn settled(&mut self, lines: usize) {
        let size = self.random.within(1, 7);
        let buckets = self.random.within(1, 8);
        self.form(size, buckets);
        // It takes about 100 lines to come to rest and make some calls.
        for _ in 0..lines / 100 {
            self.rough_part();
            self.settle();
            self.undisturbed_calls();
        }
        self.rough_part();
        self.settle();
        self.stop_some();
    }

    fn rough_part(&mut self) {
        let phase = self.phase();
        for _ in 0..self.random.below(40) {
            let line = self.rough_line(&phase);
            self.add(line);
        }
    }

    fn settle(&mut self) {
        if let Some(line) = self.cut() {
            self.add(line);
        }
        self.empty_list(400);
        self.start_some();
        // Now and then a call stays open, its messages lost.
        while !self.open_rounds().is_empty() && self.random.chance(750) {
            let line = self.timeout();
            self.add(line);
        }
        if self.settled_leader().is_none() {
            if let Some(winner) = self.likely_winner() {
                self.add(format!("elect {winner}"));
                self.empty_list(0);
            }
        }
    }

    /// Brings servers back, at least until a majority runs.
    fn start_some(&mut self) {
        // Where no majority runs, one always comes back.
        while let Some(line) = self.comes_back(300) {
            if !self.add(line) {
                return;
            }
        }
    }

    /// Stops servers other than the leader, as long as a majority is left. Some
    /// of them vote higher before, and nobody hears of it.
    fn stop_some(&mut self) {
        let Some(leader) = self.settled_leader() else {
            return;
        };
        while self.random.chance(500) {
            let others = self.servers(|_| true).into_iter();
            let others: Vec<usize> = others.filter(|&server| server != leader).collect();
            if (others.len() as u32) < majority(self.cluster().size()) {
                return;
            }
            let server = *self.random.pick(&others);
            if self.random.chance(300) {
                self.add(format!("elect {server}"));
                self.empty_list(1000);
            }
            self.add(format!("stop {server}"));
        }
    }

    /// Some calls, each delivered to its end before the next.
    fn undisturbed_calls(&mut self) {
        for _ in 0..self.random.below(4) {
            let Some(leader) = self.settled_leader() else {
                return;
            };
            if let Some(line) = self.free_call(leader) {
                self.add(line);
                self.empty_list(0);
            }
        }
    }

    /// Delivers, or loses in `losses` of 1,000 cases, until nothing is under way.
    fn empty_list(&mut self, losses: usize) {
        while self.under_way() > 0 {
            let place = self.random.below(self.under_way());
            let lost = self.random.chance(losses);
            // Where a full list has no room for what a delivery sends, it is lost.
            if lost || !self.add(format!("deliver {place}")) {
                self.add(format!("lose {place}"));
            }
        }
    }

    /// A running leader whose number no running server's vote is above.
    fn settled_leader(&self) -> Option<usize> {
        let settled = |&leader: &usize| {
            Conditions::of(&self.script, leader)
                .is_some_and(|conditions| conditions.number_no_lower_than_a_vote)
        };
        self.leaders().into_iter().find(settled)
    }
}
