//! Advice on the true plan, on plans with odd entries and on buffers of every length, none of which it may write.

use super::figures::{figure, odd};
use super::Trial;
use crate::oracle::Job;
use crate::random::Random;
use crate::report::Call;

impl Trial<'_> {
    pub fn advising(&mut self) {
        let oracle = self.oracle;
        match &oracle.job {
            Ok(job) => {
                self.ask_true_plan(job);
                self.ask_odd_plan(job);
            }
            Err(_) => self.ask_any(),
        }
    }

    /// Asks for advice with these bytes as the plan, which touch the fence and can not be written.
    fn ask(&mut self, plan: &[u8], places: &[[u32; 2]]) {
        self.cases.lend(self.side, plan);
        for &[state, goal] in places {
            let due = self.oracle.advice(plan, state, goal);
            let asked_entry = self.asked_entry(plan, state, goal);
            self.call(Call::Advice { plan_len: plan.len(), state, goal, asked_entry, side: self.side }, due);
        }
    }

    /// The four bytes asked for, to be shown when something goes wrong.
    fn asked_entry(&self, plan: &[u8], state: u32, goal: u32) -> Option<[u8; 4]> {
        let job = self.oracle.job.as_ref().ok()?;
        let at = (state as usize).checked_mul(job.goals)?.checked_add(goal as usize)?.checked_mul(4)?;
        plan.get(at..at.checked_add(4)?)?.try_into().ok()
    }

    fn ask_true_plan(&mut self, job: &Job) {
        let oracle = self.oracle;
        let mut places = some_places(&mut self.random, job);
        let limits = [job.states, job.goals];
        places.extend((0..3).map(|_| limits.map(|limit| odd(&mut self.random, limit))));
        let extra = self.random.below(9);
        let longer = [&oracle.plan[..], &self.random.bytes(extra)].concat();
        self.ask(&longer, &places);
        let few = &places[places.len().saturating_sub(5)..];
        let cut = self.random.below(oracle.plan.len());
        self.ask(&oracle.plan[..oracle.plan.len() - 1], few);
        self.ask(&oracle.plan[..cut], few);
        self.ask(&[], few);
    }

    /// Random bytes everywhere except for entries made with care at the places that are asked.
    fn ask_odd_plan(&mut self, job: &Job) {
        let random = &mut self.random;
        let extra = random.below(9);
        let mut plan = random.bytes(4 * job.places() + extra);
        let places = some_places(random, job);
        for &[state, goal] in &places {
            let at = 4 * job.place(state as usize, goal as usize);
            let entry = odd_entry(random, job);
            plan[at..at + 4].copy_from_slice(&entry);
        }
        self.ask(&plan, &places);
        let limits = [job.states, job.goals];
        let odd_places: Vec<[u32; 2]> = (0..4).map(|_| limits.map(|limit| figure(&mut self.random, limit))).collect();
        self.ask(&plan, &odd_places);
    }

    /// On a job that is refused: any plan, any place.
    fn ask_any(&mut self) {
        let length = self.random.pick(&[0, 1, 47, 48, 200]);
        let plan = self.random.bytes(length);
        let places = [[0, 0], [512, 32].map(|limit| odd(&mut self.random, limit))];
        self.ask(&plan, &places);
    }
}

/// Every place of a small job, some places of a larger one.
fn some_places(random: &mut Random, job: &Job) -> Vec<[u32; 2]> {
    let places = job.places();
    let spot = |place: usize| [(place / job.goals) as u32, (place % job.goals) as u32];
    if places <= 12 {
        return (0..places).map(spot).collect();
    }
    [0, places - 1].into_iter().chain((0..10).map(|_| random.below(places))).map(spot).collect()
}

/// Four bytes that have, or nearly have, one of the four shapes of an entry.
fn odd_entry(random: &mut Random, job: &Job) -> [u8; 4] {
    let (actions, places) = (job.actions, job.places());
    let below = [random.below(actions), random.below(places)];
    let action = random.pick(&[0, actions - 1, actions, actions + 1, 16, 127, 128, 254, 255, below[0]]);
    let number = random.pick(&[0, 1, places - 1, places, places + 1, 255, 256, 65_535, below[1]]);
    let value = random.pick(&[0, 1, 2, 2, 1, 3, 4, 128, 255]);
    let (action, number) = match random.below(6) {
        0 => (255, 0),
        1 => (255, number),
        2 => (action, 0),
        3 => (below[0], number),
        _ => (action, number),
    };
    let bytes = (number as u16).to_le_bytes();
    if random.once_in(20) {
        [0; 4]
    } else {
        [value, action as u8, bytes[0], bytes[1]]
    }
}
