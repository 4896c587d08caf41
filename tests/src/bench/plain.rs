//! Planning in plain Rust by either of the library's methods: rounds over a set of places, with each state's records looked at in turn, or
//! backward with an index.

mod backward;

const PLACES: usize = 16_384;

/// A set of places, one bit each, of which a job uses so many words.
#[derive(Clone, Copy)]
struct Set {
    words: [u64; PLACES / 64],
    used: usize,
}

impl Set {
    fn has(&self, place: usize) -> bool {
        self.words[place / 64] >> (place % 64) & 1 == 1
    }

    fn add(&mut self, place: usize) {
        self.words[place / 64] |= 1 << (place % 64);
    }

    fn size(&self) -> u32 {
        self.words[..self.used].iter().map(|word| word.count_ones()).sum()
    }
}

/// A record in one of the two forms.
trait Record: Copy {
    fn state(self) -> usize;
    fn action(self) -> u8;
    fn outcome(self) -> usize;
}

impl Record for [u8; 3] {
    fn state(self) -> usize {
        self[0].into()
    }

    fn action(self) -> u8 {
        self[1]
    }

    fn outcome(self) -> usize {
        self[2].into()
    }
}

impl Record for [u8; 5] {
    fn state(self) -> usize {
        u16::from_le_bytes([self[0], self[1]]).into()
    }

    fn action(self) -> u8 {
        self[2]
    }

    fn outcome(self) -> usize {
        u16::from_le_bytes([self[3], self[4]]).into()
    }
}

struct Job<'a, R> {
    states: usize,
    actions: usize,
    propositions: u8,
    goals: usize,
    labels: &'a [u8],
    moves: &'a [R],
    next: &'a [u8],
    marks: &'a [u8],
}

/// The mark of a busy state, in its label's byte.
const BUSY: u8 = 128;

impl<R> Job<'_, R> {
    fn goal_after(&self, goal: usize, outcome: usize) -> usize {
        let label = self.labels[outcome] & !BUSY;
        usize::from(self.next[(goal << self.propositions) + usize::from(label)])
    }

    fn accepted(&self, place: usize) -> bool {
        self.marks[place % self.goals] == 1 && self.labels[place / self.goals] & BUSY == 0
    }

    fn places(&self) -> usize {
        self.states * self.goals
    }

    fn place_after(&self, goal: usize, outcome: usize) -> usize {
        outcome * self.goals + self.goal_after(goal, outcome)
    }
}

fn check(good: bool, refusal: u32) -> Result<(), u32> {
    if good {
        Ok(())
    } else {
        Err(refusal)
    }
}

fn bodies(job: &[u8]) -> Result<[&[u8]; 4], u32> {
    check(job.len() >= 16, 1)?;
    let mut bodies = [&job[..0]; 4];
    let mut end = 16;
    for (body, entry) in bodies.iter_mut().zip(job.chunks_exact(4)) {
        let offset = usize::from(u16::from_le_bytes([entry[0], entry[1]]));
        let length = usize::from(u16::from_le_bytes([entry[2], entry[3]]));
        check(offset == end, 2)?;
        *body = job.get(offset..offset + length).ok_or(2_u32)?;
        end = offset + length;
    }
    check(end == job.len() && [6, 8].contains(&bodies[0].len()), 2)?;
    Ok(bodies)
}

/// The rest of a job, whose Counts are read, with the records as they come.
fn read<'a, R: Record>(
    [states, actions, propositions, goals, first_state, first_goal]: [usize; 6],
    most: [usize; 2],
    [_, labels, _, goal]: [&'a [u8]; 4],
    (moves, rest): (&'a [R], &[u8]),
) -> Result<Job<'a, R>, u32> {
    let in_range = (1..=most[0]).contains(&states) && (1..=16).contains(&actions) && propositions <= 6;
    check(in_range && (1..=32).contains(&goals) && first_state < states && first_goal < goals, 3)?;
    let small = |&label: &u8| (label & !BUSY) >> propositions == 0;
    check(labels.len() == states && labels.iter().all(small), 4)?;
    check(rest.is_empty() && moves.len() <= most[1], 5)?;
    let inside = |one: R| one.state() < states && usize::from(one.action()) < actions && one.outcome() < states;
    let key = |one: R| (one.state(), one.action(), one.outcome());
    let bad = (0..moves.len()).find(|&at| !inside(moves[at]) || at > 0 && key(moves[at - 1]) >= key(moves[at]));
    check(bad.is_none(), bad.map_or(0, |at| if inside(moves[at]) { 13 } else { 12 }))?;
    let table = goals << propositions;
    check(goal.len() == table + goals, 6)?;
    let (next, marks) = goal.split_at(table);
    check(next.iter().all(|&next| usize::from(next) < goals) && marks.iter().all(|&mark| mark <= 1), 6)?;
    Ok(Job { states, actions, propositions: propositions as u8, goals, labels, moves, next, marks })
}

/// The actions all of whose outcomes lie in the set.
fn sure<R: Record>(job: &Job<R>, records: &[R], goal: usize, set: &Set) -> u16 {
    let (mut open, mut bad) = (0_u16, 0_u16);
    for one in records {
        open |= 1 << one.action();
        bad |= u16::from(!set.has(job.place_after(goal, one.outcome()))) << one.action();
    }
    open & !bad
}

/// The actions with an outcome in the set.
fn possible<R: Record>(job: &Job<R>, records: &[R], goal: usize, set: &Set) -> u16 {
    records
        .iter()
        .fold(0, |actions, one| actions | u16::from(set.has(job.place_after(goal, one.outcome()))) << one.action())
}

/// Adds places to the set in rounds until its size stays, each with this value and the lowest action that does.
fn rounds<R: Record>(
    job: &Job<R>,
    plan: &mut [[u8; 4]],
    set: &mut Set,
    value: u8,
    good: impl Fn(&Job<R>, &[R], usize, &Set) -> u16,
) {
    let mut few = set.size();
    for number in 1_u16.. {
        let before = *set;
        for (records, state) in
            job.moves.chunk_by(|one, other| one.state() == other.state()).map(|list| (list, list[0].state()))
        {
            for goal in 0..job.goals {
                let place = state * job.goals + goal;
                if before.has(place) {
                    continue;
                }
                let actions = good(job, records, goal, &before);
                if actions != 0 {
                    set.add(place);
                    let [low, high] = number.to_le_bytes();
                    plan[place] = [value, actions.trailing_zeros() as u8, low, high];
                }
            }
        }
        let more = set.size();
        if more == few {
            return;
        }
        few = more;
    }
}

/// Which method, with the memory that it is lent.
pub enum Method<'a> {
    Rounds,
    Backward { index: &'a mut [u16], counters: &'a mut [u16] },
}

fn plan_read<R: Record>(job: Job<R>, plan: &mut [u8], method: Method) -> Result<(), u32> {
    let (plan, _) = plan.as_chunks_mut::<4>().0.split_at_mut_checked(job.places()).ok_or(7_u32)?;
    if let Method::Backward { index, counters } = method {
        return backward::plan(&job, plan, index, counters);
    }
    let mut set = Set { words: [0; PLACES / 64], used: job.places().div_ceil(64) };
    for (place, entry) in plan.iter_mut().enumerate() {
        let accepted = job.accepted(place);
        *entry = if accepted { [2, 255, 0, 0] } else { [0, 255, 0, 0] };
        if accepted {
            set.add(place);
        }
    }
    rounds(&job, plan, &mut set, 2, sure);
    rounds(&job, plan, &mut set, 1, possible);
    Ok(())
}

fn plan_bytes(job: &[u8], plan: &mut [u8], method: Method) -> Result<(), u32> {
    let bodies = bodies(job)?;
    match *bodies[0] {
        [s, a, p, q, first, goal] => {
            let counts = [s, a, p, q, first, goal].map(usize::from);
            plan_read(read(counts, [128, 4_096], bodies, bodies[2].as_chunks::<3>())?, plan, method)
        }
        [s, s_high, a, p, q, first, first_high, goal] => {
            let wide = |low, high| u16::from_le_bytes([low, high]);
            let counts = [wide(s, s_high), a.into(), p.into(), q.into(), wide(first, first_high), goal.into()];
            plan_read(read(counts.map(usize::from), [512, 8_192], bodies, bodies[2].as_chunks::<5>())?, plan, method)
        }
        _ => Err(2),
    }
}

/// Plans a job into the buffer and gives the refusal, 0 when there is none.
pub fn plan(job: &[u8], plan: &mut [u8], method: Method) -> u32 {
    plan_bytes(job, plan, method).err().unwrap_or(0)
}
