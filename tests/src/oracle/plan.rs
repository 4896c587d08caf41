//! Turns numbers into the entries of a plan, each action chosen by the rule's own words.

use super::read::Job;
use super::waves::{pending, winning};

pub const LOSING: u8 = 0;
pub const PENDING: u8 = 1;
pub const WINNING: u8 = 2;

#[derive(Clone, Copy, Debug, PartialEq, Eq)]
pub struct Entry {
    pub value: u8,
    pub action: u8,
    pub number: usize,
}

impl Entry {
    pub fn bytes(&self) -> [u8; 4] {
        let number = u16::try_from(self.number).expect("a number fits two bytes").to_le_bytes();
        [self.value, self.action, number[0], number[1]]
    }
}

/// The lowest action that the rule allows at a place of this value and number, 255 where none is due.
fn action_of(
    job: &Job,
    (state, goal): (usize, usize),
    (value, number): (u8, usize),
    known: &dyn Fn(usize) -> (u8, usize),
) -> u8 {
    if value == LOSING || job.accepted(state, goal) {
        return 255;
    }
    let after = |outcome: usize| known(job.place(outcome, job.goal_after(goal, outcome)));
    let allowed = |action: usize| {
        let open = job.outcomes(state, action).next().is_some();
        let mut outcomes = job.outcomes(state, action).map(after);
        open && if value == WINNING {
            outcomes.all(|(other, smaller)| other == WINNING && smaller < number)
        } else if number == 1 {
            outcomes.any(|(other, _)| other == WINNING)
        } else {
            outcomes.any(|(other, smaller)| other == PENDING && smaller + 1 == number)
        }
    };
    let lowest = (0..job.actions).find(|&action| allowed(action));
    lowest.expect("a winning or pending place has an action") as u8
}

pub fn entries(job: &Job) -> Vec<Entry> {
    let winning = winning(job);
    let pending = pending(job, &winning);
    let known = |place: usize| match (winning[place], pending[place]) {
        (Some(number), _) => (WINNING, number),
        (None, Some(number)) => (PENDING, number),
        (None, None) => (LOSING, 0),
    };
    let entry = |place: usize| {
        let (value, number) = known(place);
        let spot = (place / job.goals, place % job.goals);
        Entry { value, action: action_of(job, spot, (value, number), &known), number }
    };
    (0..job.places()).map(entry).collect()
}
