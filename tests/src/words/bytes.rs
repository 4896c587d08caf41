//! The job of a text without faults in bytes, in the old form where it fits.

use super::names::Kind;
use super::reader::Reader;
use crate::make::{Form, Parts};

pub fn job(reader: &Reader) -> Vec<u8> {
    let [states, actions, facts, goal_states] = Kind::ALL.map(|kind| reader.names.count(kind));
    let fits = states <= Form::Old.most_states() && reader.moves.len() <= Form::Old.most_moves();
    let form = if fits { Form::Old } else { Form::Tall };
    let (goal_states, first, goal) = reader.goal.body(goal_states, facts);
    let records: Vec<_> = reader.moves.iter().map(|record| record.map(|figure| figure as u16)).collect();
    let counts = form.counts([states, actions, facts, goal_states, reader.start, first]);
    Parts { counts, labels: reader.labels.clone(), moves: form.records(&records), goal }.bytes()
}
