//! The third voice for tiny jobs: values and numbers straight from their meaning, with nothing remembered.

use crate::oracle::{Entry, Job, LOSING, PENDING, WINNING};

/// Plays that branch no more often than this are unrolled.
const MOST_PLAYS: usize = 5_000;

/// Whether all plays as long as the count of places can be tried one by one.
pub fn tiny(job: &Job) -> bool {
    let widest = (0..job.states).map(|state| job.moves_of(state).len()).max().unwrap_or(0);
    let plays = u32::try_from(job.places()).ok().and_then(|places| widest.checked_pow(places));
    plays.is_some_and(|plays| plays <= MOST_PLAYS) && job.places() <= 12
}

/// Whether some way of choosing reaches acceptance within so many moves against every outcome.
fn wins_within(job: &Job, state: usize, goal: usize, moves: usize) -> bool {
    if job.last[goal] && !job.busy[state] {
        return true;
    }
    let safe = |action: usize| {
        let mut outcomes = job.outcomes(state, action).peekable();
        outcomes.peek().is_some()
            && outcomes.all(|outcome| wins_within(job, outcome, job.goal_after(goal, outcome), moves - 1))
    };
    moves > 0 && (0..job.actions).any(safe)
}

/// The least such count of moves; a play longer than the count of places says nothing new.
fn winning_number(job: &Job, state: usize, goal: usize) -> Option<usize> {
    (0..=job.places()).find(|&moves| wins_within(job, state, goal, moves))
}

/// The least count of moves by which some choices and outcomes reach a winning place.
fn pending_number(job: &Job, place: usize, winning: &[Option<usize>]) -> Option<usize> {
    let mut seen = vec![false; job.places()];
    let mut here = vec![place];
    for number in 0..job.places() {
        if here.iter().any(|&place| winning[place].is_some()) {
            return Some(number);
        }
        let mut further = Vec::new();
        for place in here {
            let (state, goal) = (place / job.goals, place % job.goals);
            for one in job.moves_of(state) {
                let after = job.place(one.outcome, job.goal_after(goal, one.outcome));
                if !std::mem::replace(&mut seen[after], true) {
                    further.push(after);
                }
            }
        }
        here = further;
    }
    None
}

/// The open actions that keep the count of moves, ascending: with every outcome where the place is winning, with one
/// where it is pending.
fn keeping(job: &Job, (state, goal): (usize, usize), good: impl Fn(usize) -> bool, every: bool) -> Vec<u8> {
    let after = |outcome: usize| job.place(outcome, job.goal_after(goal, outcome));
    let mut sound: Vec<(usize, bool)> = Vec::new();
    for one in job.moves_of(state) {
        let fine = good(after(one.outcome));
        match sound.iter_mut().find(|(action, _)| *action == one.action) {
            Some((_, so_far)) if every => *so_far &= fine,
            Some((_, so_far)) => *so_far |= fine,
            None => sound.push((one.action, fine)),
        }
    }
    let mut actions: Vec<u8> = sound.iter().filter(|(_, fine)| *fine).map(|(action, _)| *action as u8).collect();
    actions.sort_unstable();
    actions
}

/// The value and number of a place, with every action that may stand in its entry.
fn entry(job: &Job, place: usize, winning: &[Option<usize>]) -> (u8, usize, Vec<u8>) {
    let spot = (place / job.goals, place % job.goals);
    let nearest = |place: usize| pending_number(job, place, winning);
    match (winning[place], nearest(place)) {
        (Some(0), _) => (WINNING, 0, vec![255]),
        (Some(number), _) => {
            let sooner = |after: usize| wins_within(job, after / job.goals, after % job.goals, number - 1);
            (WINNING, number, keeping(job, spot, sooner, true))
        }
        (None, Some(number)) => {
            let nearer = |after: usize| nearest(after) == Some(number - 1);
            (PENDING, number, keeping(job, spot, nearer, false))
        }
        (None, None) => (LOSING, 0, vec![255]),
    }
}

/// Each place's entry, with every action that may stand in it, the lowest first.
pub fn entries(job: &Job) -> Vec<(Entry, Vec<u8>)> {
    let number = |place: usize| winning_number(job, place / job.goals, place % job.goals);
    let winning: Vec<Option<usize>> = (0..job.places()).map(number).collect();
    let whole = |place: usize| {
        let (value, number, actions) = entry(job, place, &winning);
        let action = *actions.first().expect("a winning or pending place has an action");
        (Entry { value, action, number }, actions)
    };
    (0..job.places()).map(whole).collect()
}
