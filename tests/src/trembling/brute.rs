//! The third voice for tiny jobs with slips: values and numbers straight from their meaning, with nothing remembered.

use crate::oracle::{Entry, Job, LOSING, PENDING, WINNING};

/// Plays that branch no more often than this are unrolled.
const MOST_PLAYS: usize = 20_000;

type Spot = [usize; 3];

/// Whether all plays as long as the count of larger places can be tried one by one.
pub fn tiny(job: &Job, most: usize) -> bool {
    let width = |state: usize| (0..job.actions).map(|named| after(job, [state, 0, most], named).len()).sum::<usize>();
    let widest = (0..job.states).map(width).max().unwrap_or(0);
    let larger = (most + 1) * job.places();
    let plays = u32::try_from(larger).ok().and_then(|larger| widest.checked_pow(larger));
    larger <= 16 && plays.is_some_and(|plays| plays <= MOST_PLAYS)
}

/// What may come of naming an action: each record of the state is that action's, or a slip where one is left.
fn after(job: &Job, [state, goal, left]: Spot, named: usize) -> Vec<Spot> {
    let records = job.moves_of(state);
    if records.iter().all(|one| one.action != named) {
        return vec![];
    }
    let done = records.iter().filter(|one| one.action == named || left > 0);
    done.map(|one| [one.outcome, job.goal_after(goal, one.outcome), left - usize::from(one.action != named)]).collect()
}

/// Whether some way of choosing reaches acceptance within so many moves, whatever comes of each action named.
fn wins_within(job: &Job, spot: Spot, moves: usize) -> bool {
    let sure = |named: usize| {
        let after = after(job, spot, named);
        !after.is_empty() && after.into_iter().all(|next| wins_within(job, next, moves - 1))
    };
    job.accepted(spot[0], spot[1]) || moves > 0 && (0..job.actions).any(sure)
}

/// The least count of moves by which some choices and outcomes reach a winning place.
fn nearest(job: &Job, spot: Spot, most: usize) -> Option<usize> {
    let (mut seen, mut here) = (vec![spot], vec![spot]);
    for number in 0.. {
        if here.iter().any(|&spot| won(job, spot, most).is_some()) {
            return Some(number);
        }
        let next = here.iter().flat_map(|&spot| (0..job.actions).flat_map(move |named| after(job, spot, named)));
        here = next.filter(|next| !seen.contains(next)).collect();
        seen.extend(&here);
        if here.is_empty() {
            break;
        }
    }
    None
}

fn won(job: &Job, spot: Spot, most: usize) -> Option<usize> {
    (0..=(most + 1) * job.places()).find(|&moves| wins_within(job, spot, moves))
}

fn entry(job: &Job, spot: Spot, most: usize) -> Entry {
    let lowest = |does: &dyn Fn(usize) -> bool| (0..job.actions).find(|&named| does(named)).expect("an action") as u8;
    match (won(job, spot, most), nearest(job, spot, most)) {
        (Some(0), _) => Entry { value: WINNING, action: 255, number: 0 },
        (Some(number), _) => {
            let does = |named: usize| {
                let after = after(job, spot, named);
                !after.is_empty() && after.into_iter().all(|next| wins_within(job, next, number - 1))
            };
            Entry { value: WINNING, action: lowest(&does), number }
        }
        (None, Some(number)) => {
            let near = |next: Spot| nearest(job, next, most) == Some(number - 1);
            let does = |named: usize| after(job, spot, named).into_iter().any(near);
            Entry { value: PENDING, action: lowest(&does), number }
        }
        (None, None) => Entry { value: LOSING, action: 255, number: 0 },
    }
}

/// Each larger place's entry, slips 0 first.
pub fn entries(job: &Job, most: usize) -> Vec<Entry> {
    let places = (0..=most).flat_map(|left| (0..job.places()).map(move |place| (left, place)));
    places.map(|(left, place)| entry(job, [place / job.goals, place % job.goals, left], most)).collect()
}
