//! Planning with an index: its answer, and every byte of the plan, the index and the counters after it.

use super::Trial;
use crate::cases::{Side, COUNTERS_WORDS, INDEX_WORDS, PLAN_SIZE};
use crate::report::Call;

impl Trial<'_> {
    pub fn indexing(&mut self) {
        let oracle = self.oracle;
        let Ok(job) = &oracle.job else {
            let lengths = [(); 3].map(|()| self.random.below(80));
            return self.index_into(lengths);
        };
        let need = [oracle.plan.len(), job.states + job.moves.len(), job.counters()];
        let enough = if self.side == Side::End { need } else { self.longer(need) };
        self.index_into(enough);
        self.index_short(need);
    }

    /// Lengths that are enough, some of them more than enough.
    fn longer(&mut self, need: [usize; 3]) -> [usize; 3] {
        let most = [PLAN_SIZE, INDEX_WORDS, COUNTERS_WORDS];
        std::array::from_fn(|at| (need[at] + self.random.below(40)).min(most[at]))
    }

    /// One buffer or several are too short, by one or by any count.
    fn index_short(&mut self, need: [usize; 3]) {
        let mut lengths = self.longer(need);
        let (one, other) = (self.random.below(3), self.random.below(3));
        lengths[one] = need[one] - 1;
        if self.random.once_in(3) {
            lengths[other] = self.random.below(need[other]);
        }
        self.index_into(lengths);
    }

    fn index_into(&mut self, [plan_len, index_len, counters_len]: [usize; 3]) {
        let before = self.random.word() as u32;
        let due = self.oracle.plan_indexed(plan_len, index_len, counters_len);
        self.call(Call::Indexed { plan_len, before, index_len, counters_len, side: self.side }, due);
    }
}
