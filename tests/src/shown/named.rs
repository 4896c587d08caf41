//! A job in words as it is shown: the names of its places, the independent planner's entry of each, and the moves between them.

use super::phrases;
use crate::oracle::{Entry, Job, Oracle};
use crate::slips::writer::Clause;
use crate::words::{self, Kind, Reader};
use std::collections::{BTreeSet, VecDeque};

/// A state and a goal state.
pub type Place = (usize, usize);

/// An open action and the place that one of its outcomes leads to.
pub struct Move {
    pub action: usize,
    pub to: Place,
}

pub struct Named {
    pub job: Job,
    pub clauses: Vec<Clause>,
    states: Vec<String>,
    actions: Vec<String>,
    goals: Vec<String>,
    entries: Vec<Entry>,
}

impl Named {
    /// What a text without faults says.
    pub fn new(reader: &Reader) -> Named {
        let oracle = Oracle::new(&words::job(reader));
        let job = oracle.job.unwrap_or_else(|refused| panic!("the job of a text is refused: {}", refused.number));
        let [states, actions, facts, goals] = Kind::ALL.map(|kind| reader.names.all(kind));
        let clauses = reader.goal.clauses.clone();
        let goals = if clauses.is_empty() { goals } else { phrases::of_goal_states(&clauses, &facts) };
        Named { job, clauses, states, actions, goals, entries: oracle.entries }
    }

    pub fn start(&self) -> Place {
        (self.job.first_state, self.job.goal_after(self.job.first_goal, self.job.first_state))
    }

    /// The number of a place's entry in the plan.
    pub fn number(&self, (state, goal): Place) -> usize {
        self.job.place(state, goal)
    }

    pub fn entry(&self, place: Place) -> Entry {
        self.entries[self.number(place)]
    }

    pub fn met(&self, (state, goal): Place) -> bool {
        self.job.accepted(state, goal)
    }

    pub fn action(&self, action: usize) -> &str {
        &self.actions[action]
    }

    /// The names of a place's state and goal state.
    pub fn names(&self, (state, goal): Place) -> [&str; 2] {
        [&self.states[state], &self.goals[goal]]
    }

    /// What may happen at a place, in the order of the job's records.
    pub fn moves(&self, (state, goal): Place) -> impl Iterator<Item = Move> + '_ {
        let to = move |outcome: usize| (outcome, self.job.goal_after(goal, outcome));
        self.job.moves_of(state).iter().map(move |record| Move { action: record.action, to: to(record.outcome) })
    }

    /// Whether this action is the one that the plan has at a place.
    pub fn planned(&self, place: Place, action: usize) -> bool {
        usize::from(self.entry(place).action) == action
    }

    /// The places that a run can come to by moves of this kind, the nearest first, and of those as near in the order in which moves come to them.
    /// A run ends where the goal is met.
    pub fn reached(&self, kind: impl Fn(Place, usize) -> bool) -> Vec<Place> {
        let start = self.start();
        let (mut reached, mut known, mut next) = (Vec::new(), BTreeSet::from([start]), VecDeque::from([start]));
        while let Some(place) = next.pop_front() {
            reached.push(place);
            let moves = self.moves(place).filter(|one| !self.met(place) && kind(place, one.action));
            next.extend(moves.map(|one| one.to).filter(|to| known.insert(*to)));
        }
        reached
    }
}
