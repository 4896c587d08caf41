//! Good jobs of every shape: any counts, moves in several manners, goals in several manners.

use super::parts::{Form, Parts, Record, BUSY};
use crate::random::Random;

/// What a good job is to have; the moves are at most so many.
#[derive(Clone, Copy)]
pub struct Size {
    pub form: Form,
    pub states: usize,
    pub actions: usize,
    pub propositions: usize,
    pub goals: usize,
    pub moves: usize,
}

impl Size {
    /// Any size up to this one.
    pub fn upto(self, random: &mut Random) -> Size {
        Size {
            form: self.form,
            states: random.between(1, self.states),
            actions: random.between(1, self.actions),
            propositions: random.between(0, self.propositions),
            goals: random.between(1, self.goals),
            moves: random.between(0, self.moves),
        }
    }

    /// In either form; many states ask for the tall one.
    pub fn in_a_form(self, random: &mut Random) -> Size {
        let tall = self.states > Form::Old.most_states() || random.once_in(3);
        Size { form: if tall { Form::Tall } else { Form::Old }, ..self }
    }
}

fn labels(random: &mut Random, size: Size) -> Vec<u8> {
    let possible = 1 << size.propositions;
    let same = random.below(possible) as u8;
    let often_same = random.once_in(4);
    // No state is busy in half of the jobs, and in the others one in two, one in five or every one.
    let busy = random.pick(&[0, 0, 0, 5, 2, 1]);
    let label = |_| {
        let mark = if busy > 0 && random.once_in(busy) { BUSY } else { 0 };
        mark | if often_same && !random.once_in(4) { same } else { random.below(possible) as u8 }
    };
    (0..size.states).map(label).collect()
}

/// Sorts the records, drops doubles and leaves at most so many, taken from everywhere.
pub fn in_order(random: &mut Random, mut records: Vec<Record>, most: usize) -> Vec<Record> {
    records.sort_unstable();
    records.dedup();
    if records.len() > most {
        random.shuffle(&mut records);
        records.truncate(most);
        records.sort_unstable();
    }
    records
}

fn all_records(size: Size) -> Vec<Record> {
    let outcomes = |state: usize, action: usize| {
        (0..size.states).map(move |outcome| [state as u16, action as u16, outcome as u16])
    };
    let actions = |state: usize| (0..size.actions).flat_map(move |action| outcomes(state, action));
    (0..size.states).flat_map(actions).collect()
}

/// One record in the given manner: anywhere, to itself, to a neighbour, or only from the lower half of the states.
fn record(random: &mut Random, size: Size, manner: usize) -> Record {
    let state = if manner == 3 { random.below(size.states.div_ceil(2)) } else { random.below(size.states) };
    let outcome = match manner {
        1 if !random.once_in(4) => state,
        2 => (state + random.below(3) + size.states - 1) % size.states,
        _ => random.below(size.states),
    };
    [state as u16, random.below(size.actions) as u16, outcome as u16]
}

fn moves(random: &mut Random, size: Size) -> Vec<Record> {
    let records = match random.below(10) {
        0 if size.states <= 128 => all_records(size),
        // Every action has at most one outcome.
        1 | 2 => {
            let mut single: Vec<Record> = (0..size.moves).map(|_| record(random, size, 0)).collect();
            single.sort_unstable();
            single.dedup_by_key(|one| [one[0], one[1]]);
            single
        }
        // A few more than wanted, since doubles are dropped.
        manner => (0..size.moves + size.moves / 16).map(|_| record(random, size, manner % 5)).collect(),
    };
    in_order(random, records, size.moves)
}

/// The next goal state in the given manner: any, the same or the next one, never changing, the label deciding.
fn next(random: &mut Random, size: Size, manner: usize, goal: usize, label: usize) -> usize {
    match manner {
        0 => (goal + random.below(2)).min(size.goals - 1),
        1 => goal,
        2 => (goal + label) % size.goals,
        3 if goal + 1 == size.goals => goal,
        _ => random.below(size.goals),
    }
}

fn marks(random: &mut Random, size: Size) -> Vec<u8> {
    let last = size.goals - 1;
    match random.below(8) {
        0 => vec![0; size.goals],
        1 => vec![1; size.goals],
        2 => (0..size.goals).map(|goal| u8::from(goal == 0)).collect(),
        3 | 4 => (0..size.goals).map(|goal| u8::from(goal == last)).collect(),
        5 => (0..size.goals).map(|_| random.below(2) as u8).collect(),
        _ => (0..size.goals).map(|_| u8::from(random.once_in(5))).collect(),
    }
}

/// A good job with exactly these counts and at most so many moves.
pub fn job(random: &mut Random, size: Size) -> Parts {
    let first_state = random.below(size.states);
    let first_goal = if random.once_in(2) { 0 } else { random.below(size.goals) };
    let counts = [size.states, size.actions, size.propositions, size.goals, first_state, first_goal];
    let manner = random.below(8);
    let mut goal = Vec::new();
    for from in 0..size.goals {
        for label in 0..1 << size.propositions {
            goal.push(next(random, size, manner, from, label) as u8);
        }
    }
    goal.extend(marks(random, size));
    Parts {
        counts: size.form.counts(counts),
        labels: labels(random, size),
        moves: size.form.records(&moves(random, size)),
        goal,
    }
}
