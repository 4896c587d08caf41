//! Backward in plain Rust: layers of places, each from the one before, with an index of the records that lead to each state and a counter for
//! each place and action.

use super::{Job, Record, Set, PLACES};

/// For each state the first record that leads to it, then for each record the next; the count of records stands for none.
fn build<R: Record>(job: &Job<R>, index: &mut [u16]) {
    let none = job.moves.len() as u16;
    index[..job.states].fill(none);
    for (at, one) in job.moves.iter().enumerate().rev() {
        index[job.states + at] = index[one.outcome()];
        index[one.outcome()] = at as u16;
    }
}

fn count<R: Record>(job: &Job<R>, counters: &mut [u16]) {
    counters.fill(0);
    for one in job.moves {
        for goal in 0..job.goals {
            counters[(one.state() * job.goals + goal) * job.actions + usize::from(one.action())] += 1;
        }
    }
}

/// Each place and action that may lead to this place.
fn each_before<R: Record>(job: &Job<R>, index: &[u16], place: usize, mut name: impl FnMut(usize, u8)) {
    let (state, goal) = (place / job.goals, place % job.goals);
    for before in 0..job.goals {
        if job.goal_after(before, state) != goal {
            continue;
        }
        let mut at = usize::from(index[state]);
        while at < job.moves.len() {
            let one = job.moves[at];
            name(one.state() * job.goals + before, one.action());
            at = usize::from(index[job.states + at]);
        }
    }
}

/// The places of a set in the order in which they joined.
struct Queue {
    places: [u16; PLACES],
    end: usize,
}

impl Queue {
    fn push(&mut self, place: usize) {
        self.places[self.end] = place as u16;
        self.end += 1;
    }
}

/// Layers until one adds nothing: the places of the queue that are not taken yet are taken, and others join with this value. A counter that
/// is 0 stays so: where one outcome is enough, all of them are.
fn layers<R: Record>(
    job: &Job<R>,
    plan: &mut [[u8; 4]],
    index: &[u16],
    counters: &mut [u16],
    set: &mut Set,
    queue: &mut Queue,
    value: u8,
) {
    let mut known = Set { words: [0; PLACES / 64], used: set.used };
    let (mut from, mut to) = (0, queue.end);
    for number in 1_u16.. {
        for &place in &queue.places[from..to] {
            known.add(place.into());
        }
        let [low, high] = number.to_le_bytes();
        for head in from..to {
            each_before(job, index, queue.places[head].into(), |before, action| {
                let counter = &mut counters[before * job.actions + usize::from(action)];
                *counter = counter.saturating_sub(1);
                if *counter != 0 || known.has(before) {
                    return;
                }
                if !set.has(before) {
                    set.add(before);
                    queue.push(before);
                } else if plan[before][1] <= action {
                    return;
                }
                plan[before] = [value, action, low, high];
            });
        }
        if queue.end == to {
            return;
        }
        (from, to) = (to, queue.end);
    }
}

pub fn plan<R: Record>(job: &Job<R>, plan: &mut [[u8; 4]], index: &mut [u16], counters: &mut [u16]) -> Result<(), u32> {
    let index = index.get_mut(..job.states + job.moves.len()).ok_or(17_u32)?;
    let counters = counters.get_mut(..job.places() * job.actions).ok_or(17_u32)?;
    build(job, index);
    count(job, counters);
    let mut set = Set { words: [0; PLACES / 64], used: job.places().div_ceil(64) };
    let mut queue = Queue { places: [0; PLACES], end: 0 };
    for (place, entry) in plan.iter_mut().enumerate() {
        let accepted = job.accepted(place);
        *entry = if accepted { [2, 255, 0, 0] } else { [0, 255, 0, 0] };
        if accepted {
            set.add(place);
            queue.push(place);
        }
    }
    layers(job, plan, index, counters, &mut set, &mut queue, 2);
    counters.fill(0);
    layers(job, plan, index, counters, &mut set, &mut queue, 1);
    Ok(())
}
