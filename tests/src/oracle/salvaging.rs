//! What salvaging leaves of a job, and what the program that salvages prints: by sets of pairs, over the whole table at once.

use super::read::{bodies, judged, Move};
use super::refusal::{Refused, FIELD, ORDER, ROOM};
use super::{Answer, TAKEN};
use std::collections::BTreeSet;

/// A job that can be salvaged.
pub struct Salvage {
    pub job: Vec<u8>,
    pub pairs: Vec<u8>,
    /// The pairs of state and action that are removed, and how many records go.
    pub removed: BTreeSet<(usize, usize)>,
    pub gone: usize,
}

/// The salvaged job and the list of pairs, or the refusal of the bytes with too large outcomes forgiven.
pub fn salvage(bytes: &[u8]) -> Result<Salvage, Refused> {
    let job = judged(bytes, true)?;
    let bad = |one: &&Move| one.outcome >= job.states;
    let removed: BTreeSet<(usize, usize)> = job.moves.iter().filter(bad).map(|one| (one.state, one.action)).collect();
    let [counts, labels, moves, goal] = bodies(bytes)?;
    let width = if job.tall { 5 } else { 3 };
    let stays = |(one, _): &(&Move, &[u8])| !removed.contains(&(one.state, one.action));
    let kept: Vec<&[u8]> = job.moves.iter().zip(moves.chunks(width)).filter(stays).map(|(_, bytes)| bytes).collect();
    let gone = job.moves.len() - kept.len();
    let kept = kept.concat();
    let mut salvaged = Vec::new();
    let mut end = 16;
    for body in [counts, labels, &kept, goal] {
        salvaged.extend([end % 256, end / 256, body.len() % 256, body.len() / 256].map(|figure| figure as u8));
        end += body.len();
    }
    let salvaged = [&salvaged, counts, labels, &kept, goal].concat();
    let pairs =
        removed.iter().flat_map(|&(state, action)| [state % 256, state / 256, action].map(|figure| figure as u8));
    Ok(Salvage { job: salvaged, pairs: pairs.collect(), removed, gone })
}

impl Salvage {
    /// What the call answers with outputs of these lengths.
    pub fn answer(&self, room: usize, pairs_room: usize) -> Answer {
        if room < self.job.len() || pairs_room < self.pairs.len() {
            return [ROOM, 0, 0, 0, 0];
        }
        [0, self.job.len() as u32, self.pairs.len() as u32, 0, 0]
    }
}

/// What the program writes to standard output, and what it says on standard error.
pub fn salvage_text(input: &[u8]) -> (Vec<u8>, String) {
    let salvage = match salvage(&input[..input.len().min(TAKEN)]) {
        Ok(salvage) => salvage,
        Err(Refused { number, record }) if number == FIELD || number == ORDER => {
            return (Vec::new(), format!("refused {number} {record}\n"));
        }
        Err(Refused { number, .. }) => return (Vec::new(), format!("refused {number}\n")),
    };
    let lines = salvage.removed.iter().map(|(state, action)| format!("removed: state {state}, action {action}\n"));
    let text = lines.collect::<String>() + &format!("records removed: {}\n", salvage.gone);
    (salvage.job, text)
}
