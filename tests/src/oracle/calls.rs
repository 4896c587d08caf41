//! What planning, starting, following and advice answer, as the figures that the calls return.

use super::read::{Job, Move};
use super::refusal::*;
use super::Oracle;

/// A figure below the limit, as an index.
fn index(figure: u32, limit: usize) -> Option<usize> {
    usize::try_from(figure).ok().filter(|&figure| figure < limit)
}

impl Job {
    fn spot(&self, state: u32, goal: u32) -> Result<(usize, usize), u32> {
        let spot = (index(state, self.states), index(goal, self.goals));
        if let (Some(state), Some(goal)) = spot {
            Ok((state, goal))
        } else {
            Err(PLACE)
        }
    }

    /// The place that is entered, and the number of the record that lists the move.
    fn follow(&self, place: [u32; 2], action: u32, outcome: u32) -> Result<[u32; 3], u32> {
        let (state, goal) = self.spot(place[0], place[1])?;
        let action = index(action, self.actions).ok_or(OUTCOME)?;
        let outcome = index(outcome, self.states).ok_or(OUTCOME)?;
        let made = Move { state, action, outcome };
        let record = self.moves.iter().position(|one| *one == made).ok_or(OUTCOME)?;
        Ok([outcome, self.goal_after(goal, outcome), record].map(|figure| figure as u32))
    }

    fn advice(&self, plan: &[u8], state: u32, goal: u32) -> Result<[u32; 3], u32> {
        if plan.len() < 4 * self.places() {
            return Err(ROOM);
        }
        let (state, goal) = self.spot(state, goal)?;
        let at = 4 * self.place(state, goal);
        let [value, action] = [plan[at], plan[at + 1]].map(usize::from);
        let number = usize::from(plan[at + 2]) + 256 * usize::from(plan[at + 3]);
        let chosen = action < self.actions && number >= 1 && number < self.places();
        let good = match (value, action, number) {
            (0 | 2, 255, 0) => true,
            (1 | 2, _, _) => chosen,
            _ => false,
        };
        good.then_some([value as u32, action as u32, number as u32]).ok_or(ENTRY)
    }
}

/// The figures of an answer in the order in which its struct has them, the refusal first; those that it has not are 0.
pub type Answer = [u32; 5];

/// The place moved to, with the record that was followed, 0 in starting.
fn moved(answer: Result<[u32; 3], Refused>) -> Answer {
    match answer {
        Ok([state, goal, record]) => [0, state, goal, record, 0],
        Err(Refused { number, record }) => [number, 0, 0, record, 0],
    }
}

impl Oracle {
    fn job(&self) -> Result<&Job, Refused> {
        self.job.as_ref().map_err(|&refused| refused)
    }

    /// What planning into a buffer of this length answers.
    pub fn plan(&self, room: usize) -> Answer {
        let refused = match self.refused() {
            Refused { number: 0, .. } if room < self.plan.len() => ROOM.into(),
            refused => refused,
        };
        [refused.number, refused.record, 0, 0, 0]
    }

    /// What planning with an index answers, with so many words of index and counters.
    pub fn plan_indexed(&self, room: usize, index: usize, counters: usize) -> Answer {
        let short = |job: &Job| index < job.states + job.moves.len() || counters < job.counters();
        match (self.plan(room), &self.job) {
            ([0, ..], Ok(job)) if short(job) => [MEMORY, 0, 0, 0, 0],
            (answer, _) => answer,
        }
    }

    pub fn start(&self) -> Answer {
        let start = |job: &Job| [job.first_state, job.goal_after(job.first_goal, job.first_state), 0];
        moved(self.job().map(|job| start(job).map(|figure| figure as u32)))
    }

    pub fn follow(&self, place: [u32; 2], action: u32, outcome: u32) -> Answer {
        moved(self.job().and_then(|job| Ok(job.follow(place, action, outcome)?)))
    }

    pub fn advice(&self, plan: &[u8], state: u32, goal: u32) -> Answer {
        match self.job().and_then(|job| Ok(job.advice(plan, state, goal)?)) {
            Ok([value, action, number]) => [0, value, action, number, 0],
            Err(Refused { number, record }) => [number, 0, 0, 0, record],
        }
    }
}
