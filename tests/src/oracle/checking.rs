//! What the check of a plan from elsewhere answers: each entry is judged by the true values and numbers, never by its neighbours.

use super::calls::Answer;
use super::plan::{Entry, LOSING, PENDING, WINNING};
use super::read::{Job, Move};
use super::refusal::{Refused, ROOM, WRONG};
use super::Oracle;

impl Oracle {
    /// The actions that may stand in the entry of a place, ascending; 255 alone where none is due.
    pub fn actions(&self, job: &Job, place: usize) -> Vec<u8> {
        let (state, goal) = (place / job.goals, place % job.goals);
        let Entry { value, number, .. } = self.entries[place];
        if value == LOSING || job.accepted(state, goal) {
            return vec![255];
        }
        let nearer = |record: &&Move| {
            let after = self.entries[job.place(record.outcome, job.goal_after(goal, record.outcome))];
            match (value, number) {
                (WINNING, _) => after.value == WINNING && after.number < number,
                (_, 1) => after.value == WINNING,
                _ => after.value == PENDING && after.number + 1 == number,
            }
        };
        let does = |action: &u8| {
            let own = job.moves_of(state).iter().filter(|record| record.action == usize::from(*action));
            let (all, near) = (own.clone().count(), own.filter(nearer).count());
            near > 0 && (value != WINNING || near == all)
        };
        (0..=254).filter(does).collect()
    }

    fn may_stand(&self, job: &Job, place: usize, bytes: &[u8]) -> bool {
        let Entry { value, number, .. } = self.entries[place];
        let said = usize::from(bytes[2]) + 256 * usize::from(bytes[3]);
        bytes[0] == value && said == number && self.actions(job, place).contains(&bytes[1])
    }

    /// What the check of this plan answers.
    pub fn check(&self, plan: &[u8]) -> Answer {
        let job = match &self.job {
            Err(Refused { number, record }) => return [*number, 0, 0, *record, 0],
            Ok(_) if plan.len() < self.plan.len() => return [ROOM, 0, 0, 0, 0],
            Ok(job) => job,
        };
        match (0..job.places()).find(|&place| !self.may_stand(job, place, &plan[4 * place..4 * place + 4])) {
            Some(place) => [WRONG, (place / job.goals) as u32, (place % job.goals) as u32, 0, 0],
            None => [0; 5],
        }
    }
}
