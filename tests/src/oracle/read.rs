//! Reads a job from bytes, or says which refusal of a job comes first.

use super::refusal::*;
use std::ops::Range;

#[derive(Clone, Copy, PartialEq, Eq, PartialOrd, Ord)]
pub struct Move {
    pub state: usize,
    pub action: usize,
    pub outcome: usize,
}

pub struct Job {
    /// Whether it came in the tall form.
    pub tall: bool,
    pub states: usize,
    pub actions: usize,
    pub labels_possible: usize,
    pub goals: usize,
    pub first_state: usize,
    pub first_goal: usize,
    /// Without the marks.
    pub labels: Vec<usize>,
    pub busy: Vec<bool>,
    pub moves: Vec<Move>,
    /// Next goal state: goal state times possible labels plus label.
    pub next: Vec<usize>,
    pub last: Vec<bool>,
    /// Where the records of each state lie in the moves.
    of_state: Vec<Range<usize>>,
}

impl Job {
    pub fn places(&self) -> usize {
        self.states * self.goals
    }

    pub fn place(&self, state: usize, goal: usize) -> usize {
        state * self.goals + goal
    }

    /// Where a play ends: the goal state is final, and the state is not busy.
    pub fn accepted(&self, state: usize, goal: usize) -> bool {
        self.last[goal] && !self.busy[state]
    }

    /// The goal state that follows when this outcome's label is read.
    pub fn goal_after(&self, goal: usize, outcome: usize) -> usize {
        self.next[goal * self.labels_possible + self.labels[outcome]]
    }

    pub fn moves_of(&self, state: usize) -> &[Move] {
        &self.moves[self.of_state[state].clone()]
    }

    /// The outcomes listed for a state and an action; none when the action is not open.
    pub fn outcomes(&self, state: usize, action: usize) -> impl Iterator<Item = usize> + '_ {
        let own = self.moves_of(state).iter();
        own.filter(move |record| record.action == action).map(|record| record.outcome)
    }
}

/// The four bodies, cut out by the table of contents.
pub fn bodies(job: &[u8]) -> Result<[&[u8]; 4], u32> {
    if job.len() < 16 {
        return Err(SHORT);
    }
    let figure = |at: usize| usize::from(job[at]) + 256 * usize::from(job[at + 1]);
    let mut bodies = [&job[..0]; 4];
    let mut end = 16;
    for (index, body) in bodies.iter_mut().enumerate() {
        let (offset, length) = (figure(4 * index), figure(4 * index + 2));
        if offset != end || length > job.len() - end {
            return Err(CONTENTS);
        }
        *body = &job[end..end + length];
        end += length;
    }
    if end != job.len() || ![6, 8].contains(&bodies[0].len()) {
        return Err(CONTENTS);
    }
    Ok(bodies)
}

/// The six counts; eight bytes are those of a tall job, whose states take two.
fn read_counts(body: &[u8]) -> Result<[usize; 6], u32> {
    let two = |low: u8, high: u8| usize::from(low) + 256 * usize::from(high);
    let (counts, most) = match *body {
        [s, a, p, q, first, goal] => ([s, a, p, q, first, goal].map(usize::from), 128),
        [s, s_high, a, p, q, first, first_high, goal] => {
            let [a, p, q, goal] = [a, p, q, goal].map(usize::from);
            ([two(s, s_high), a, p, q, two(first, first_high), goal], 512)
        }
        _ => return Err(CONTENTS),
    };
    let [states, actions, propositions, goals, first_state, first_goal] = counts;
    let good = (1..=most).contains(&states)
        && (1..=16).contains(&actions)
        && propositions <= 6
        && (1..=32).contains(&goals)
        && first_state < states
        && first_goal < goals;
    good.then_some(counts).ok_or(COUNTS)
}

/// Each state's label, and whether it is busy: 128 is then added to its label.
fn read_labels(body: &[u8], states: usize, possible: usize) -> Result<(Vec<usize>, Vec<bool>), u32> {
    let one = |&byte: &u8| if byte >= 128 { (usize::from(byte) - 128, true) } else { (byte.into(), false) };
    let (labels, busy): (Vec<usize>, Vec<bool>) = body.iter().map(one).unzip();
    let good = labels.len() == states && labels.iter().all(|&label| label < possible);
    good.then_some((labels, busy)).ok_or(LABELS)
}

/// Outcomes lie below a limit of their own: the count of states, or no limit where too large ones are forgiven.
fn read_moves(body: &[u8], tall: bool, [states, actions, outcomes]: [usize; 3]) -> Result<Vec<Move>, Refused> {
    let (width, most) = if tall { (5, 40_960) } else { (3, 12_288) };
    if !body.len().is_multiple_of(width) || body.len() > most {
        return Err(MOVES.into());
    }
    let record = |at: &[u8]| match *at {
        [state, state_high, action, outcome, outcome_high] => Move {
            state: u16::from_le_bytes([state, state_high]).into(),
            action: action.into(),
            outcome: u16::from_le_bytes([outcome, outcome_high]).into(),
        },
        _ => Move { state: at[0].into(), action: at[1].into(), outcome: at[2].into() },
    };
    let moves: Vec<Move> = body.chunks(width).map(record).collect();
    let inside = |one: &Move| one.state < states && one.action < actions && one.outcome < outcomes;
    for (record, one) in moves.iter().enumerate() {
        let number = if !inside(one) {
            FIELD
        } else if record > 0 && moves[record - 1] >= *one {
            ORDER
        } else {
            continue;
        };
        return Err(Refused { number, record: record as u32 });
    }
    Ok(moves)
}

/// The table of next goal states and the marks.
fn read_goal(body: &[u8], goals: usize, possible: usize) -> Result<(Vec<usize>, Vec<bool>), u32> {
    if body.len() != goals * possible + goals {
        return Err(GOAL);
    }
    let (table, marks) = body.split_at(goals * possible);
    let good = table.iter().all(|&next| usize::from(next) < goals) && marks.iter().all(|&mark| mark <= 1);
    let read = (table.iter().map(|&next| next.into()).collect(), marks.iter().map(|&mark| mark == 1).collect());
    good.then_some(read).ok_or(GOAL)
}

pub fn read(job: &[u8]) -> Result<Job, Refused> {
    judged(job, false)
}

/// Reads a job, with too large outcomes forgiven where it is asked for; its moves then name states that are not there.
pub fn judged(job: &[u8], forgive: bool) -> Result<Job, Refused> {
    let [counts, labels, moves, goal] = bodies(job)?;
    let tall = counts.len() == 8;
    let [states, actions, propositions, goals, first_state, first_goal] = read_counts(counts)?;
    let labels_possible = 1 << propositions;
    let (labels, busy) = read_labels(labels, states, labels_possible)?;
    let moves = read_moves(moves, tall, [states, actions, if forgive { usize::MAX } else { states }])?;
    let (next, last) = read_goal(goal, goals, labels_possible)?;
    let before = |state: usize| moves.partition_point(|record| record.state < state);
    let of_state = (0..states).map(|state| before(state)..before(state + 1)).collect();
    Ok(Job {
        tall,
        states,
        actions,
        labels_possible,
        goals,
        first_state,
        first_goal,
        labels,
        busy,
        moves,
        next,
        last,
        of_state,
    })
}
