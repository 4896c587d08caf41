//! Jobs with long ways to go: a ring of states in which each round leads one goal state further.

use super::parts::{Parts, Record, BUSY};
use super::valid::{in_order, Size};
use crate::random::Random;

/// What makes the way uncertain.
#[derive(Clone, Copy, PartialEq, Eq)]
pub enum Doubt {
    /// Nothing: every place is winning.
    None,
    /// The state before the first accepted place may hold its place for ever.
    AtTheEnd,
    /// Some other state may.
    Somewhere,
}

/// Where the way ends.
#[derive(Clone, Copy, PartialEq, Eq)]
pub enum End {
    /// With the last goal state: no state is busy.
    AnyState,
    /// In the ring's last state as well: the others are busy, and one place alone is accepted.
    OnePlace,
}

/// A ring with numbers up to states * (goals - 1), or to states * goals - 1 where it ends in one place, and exactly so many
/// moves where there are enough to choose from.
pub fn job(random: &mut Random, size: Size, doubt: Doubt, end: End) -> Parts {
    let mut ring: Vec<u16> = (0..size.states as u16).collect();
    let mut goals: Vec<u8> = (0..size.goals as u8).collect();
    random.shuffle(&mut ring);
    random.shuffle(&mut goals);
    let start = ring[random.below(2).min(size.states - 1)];
    let size = Size { propositions: size.propositions.max(1), ..size };
    let counts = [size.states, size.actions, size.propositions, size.goals, start.into(), goals[0].into()];
    Parts {
        counts: size.form.counts(counts),
        labels: labels(random, size, &ring, end),
        moves: size.form.records(&moves(random, size, (doubt, end), &ring)),
        goal: goal(size, &goals),
    }
}

/// Proposition 0 is true only in the ring's first state; the others are true anywhere. Of a ring that ends in one place every state
/// but the last is marked busy.
fn labels(random: &mut Random, size: Size, ring: &[u16], end: End) -> Vec<u8> {
    let (first, last) = (ring[0], ring[ring.len() - 1]);
    let mark = |state| if end == End::OnePlace && state != last { BUSY } else { 0 };
    let label = |state| (random.below(1 << size.propositions) as u8 & !1) | u8::from(state == first) | mark(state);
    (0..size.states as u16).map(label).collect()
}

/// Each reading of proposition 0 leads one goal state further, to the last one, which alone is final.
fn goal(size: Size, goals: &[u8]) -> Vec<u8> {
    let last = size.goals - 1;
    let mut table = vec![0; size.goals << size.propositions];
    let mut marks = vec![0; size.goals];
    for (index, &goal) in goals.iter().enumerate() {
        for label in 0..1 << size.propositions {
            let next = (index + (label & 1)).min(last);
            table[(usize::from(goal) << size.propositions) + label] = goals[next];
        }
        marks[usize::from(goal)] = u8::from(index == last);
    }
    [table, marks].concat()
}

fn moves(random: &mut Random, size: Size, (doubt, end): (Doubt, End), ring: &[u16]) -> Vec<Record> {
    let onward = random.below(size.actions) as u16;
    let at = |index: usize| ring[index % ring.len()];
    let mut records: Vec<Record> = (0..ring.len()).map(|index| [at(index), onward, at(index + 1)]).collect();
    match doubt {
        Doubt::None => {}
        Doubt::AtTheEnd => {
            let index = ring.len() - if end == End::OnePlace && ring.len() > 1 { 2 } else { 1 };
            records.push([at(index), onward, at(index)]);
        }
        Doubt::Somewhere => {
            let index = random.below(ring.len());
            records.push([at(index), onward, at(index)]);
        }
    }
    let mut others = no_help(size, ring, onward, doubt == Doubt::None);
    random.shuffle(&mut others);
    others.truncate(size.moves.saturating_sub(records.len()));
    records.extend(others);
    in_order(random, records, size.form.most_moves())
}

/// Records that change no number: back along the ring, and leaps of the onward action when every place is winning.
fn no_help(size: Size, ring: &[u16], onward: u16, leaps: bool) -> Vec<Record> {
    let mut records = Vec::new();
    for (from, &state) in ring.iter().enumerate() {
        for &back in &ring[1.min(from)..=from] {
            let others = (0..size.actions as u16).filter(|&action| from > 0 && action != onward);
            records.extend(others.map(|action| [state, action, back]));
        }
        if leaps {
            records.extend(ring.iter().skip(from + 2).map(|&leap| [state, onward, leap]));
        }
    }
    records
}
