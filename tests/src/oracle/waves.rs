//! Finds numbers by waves that run backward from the accepted places, then from the winning ones.

use super::read::Job;

/// Looks a move up from its far end.
struct Backward<'a> {
    job: &'a Job,
    /// For each state the state and action of every record that leads to it.
    into: Vec<Vec<(usize, usize)>>,
    /// For a goal state and a label (as in the job's table) the goal states that this label turns into it.
    from: Vec<Vec<usize>>,
}

impl Backward<'_> {
    fn new(job: &Job) -> Backward<'_> {
        let mut into = vec![Vec::new(); job.states];
        for one in &job.moves {
            into[one.outcome].push((one.state, one.action));
        }
        let possible = job.labels_possible;
        let mut from = vec![Vec::new(); job.goals * possible];
        for goal in 0..job.goals {
            for label in 0..possible {
                from[job.next[goal * possible + label] * possible + label].push(goal);
            }
        }
        Backward { job, into, from }
    }

    /// Names every place and action that has the given place among its outcomes.
    fn each_before(&self, place: usize, mut name: impl FnMut(usize, usize)) {
        let (state, goal) = (place / self.job.goals, place % self.job.goals);
        let goals_before = &self.from[goal * self.job.labels_possible + self.job.labels[state]];
        for &(state_before, action) in &self.into[state] {
            for &goal_before in goals_before {
                name(self.job.place(state_before, goal_before), action);
            }
        }
    }
}

/// Runs waves backward from the first one, whose places have their numbers, and numbers each place that joins a wave. `joins` is asked
/// once for each outcome that a wave reaches, with the place and the action that lead to it.
fn spread(
    backward: &Backward,
    mut wave: Vec<usize>,
    numbers: &mut [Option<usize>],
    mut joins: impl FnMut(usize, usize) -> bool,
) {
    let mut number = 0;
    while !wave.is_empty() {
        number += 1;
        let mut reached = Vec::new();
        for &place in &wave {
            backward.each_before(place, |before, action| {
                if joins(before, action) && numbers[before].is_none() {
                    numbers[before] = Some(number);
                    reached.push(before);
                }
            });
        }
        wave = reached;
    }
}

/// The number of each winning place: an action wins once none of its outcomes is left unknown.
pub fn winning(job: &Job) -> Vec<Option<usize>> {
    let mut unknown = vec![0_usize; job.places() * 16];
    for one in &job.moves {
        for goal in 0..job.goals {
            unknown[job.place(one.state, goal) * 16 + one.action] += 1;
        }
    }
    let accepted = |place: &usize| job.accepted(place / job.goals, place % job.goals);
    let wave: Vec<usize> = (0..job.places()).filter(accepted).collect();
    let mut numbers = vec![None; job.places()];
    wave.iter().for_each(|&place| numbers[place] = Some(0));
    spread(&Backward::new(job), wave, &mut numbers, |before, action| {
        let left = &mut unknown[before * 16 + action];
        *left -= 1;
        *left == 0
    });
    numbers
}

/// The number of each pending place: its distance from the nearest winning one.
pub fn pending(job: &Job, winning: &[Option<usize>]) -> Vec<Option<usize>> {
    let wave: Vec<usize> = (0..job.places()).filter(|&place| winning[place].is_some()).collect();
    let mut numbers = vec![None; job.places()];
    spread(&Backward::new(job), wave, &mut numbers, |before, _| winning[before].is_none());
    numbers
}
