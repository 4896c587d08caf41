//! Planning: its answer, and every byte of the plan's memory after it.

use super::Trial;
use crate::cases::{Side, PLAN_SIZE};
use crate::oracle::Job;
use crate::report::Call;

/// So many steps of looking at records are cheap enough to plan several times.
const CHEAP: usize = 20_000;
/// So many are planned only once.
const DEAR: usize = 1_000_000_000;

fn cost(job: &Job, largest: usize) -> usize {
    (largest + 2) * (job.moves.len() + job.states) * job.goals
}

impl Trial<'_> {
    pub fn planning(&mut self) {
        for room in self.rooms() {
            self.plan_into(room);
        }
    }

    /// Lengths of buffers to plan into: exact, longer, shorter by one, shorter, none.
    fn rooms(&mut self) -> Vec<usize> {
        let most = PLAN_SIZE;
        let Ok(job) = &self.oracle.job else {
            let any = if self.random.once_in(10) { self.random.below(most + 1) } else { self.random.below(80) };
            return vec![0, any];
        };
        let need = self.oracle.plan.len();
        let longer = if self.random.once_in(10) { most } else { (need + self.random.between(1, 40)).min(most) };
        let short = vec![need - 1, self.random.below(need), 0];
        let largest = self.oracle.entries.iter().map(|entry| entry.number).max().unwrap_or(0);
        let enough = match self.side {
            _ if cost(job, largest) < CHEAP => vec![longer, need],
            Side::Begin if cost(job, largest) > DEAR => vec![],
            Side::End => vec![need],
            Side::Begin => vec![longer],
        };
        [short, enough].concat()
    }

    fn plan_into(&mut self, room: usize) {
        let before = self.random.word() as u32;
        self.call(Call::Plan { plan_len: room, before, side: self.side }, self.oracle.plan(room));
    }
}
