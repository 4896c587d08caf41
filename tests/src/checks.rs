//! Plans from elsewhere: ties broken in every way or at random, and plans with bytes changed, each judged place for place by the oracle.

use crate::cases::{self, Cases, Side, PLAN_SIZE};
use crate::make::Inputs;
use crate::oracle::{Job, Oracle, PENDING, WRONG};
use crate::random::Random;
use crate::report::{self, Call, Input};
use std::collections::BTreeSet;

/// Tiny jobs of which every tie and every change of one byte is tried, and inputs of any kind with plans by chance.
const TINY: usize = 150;
const MIXED: u64 = 25_000;
/// So many ways to break ties are all tried; where there are more, so many by chance.
const WAYS: usize = 600;
const BY_CHANCE: usize = 40;
/// So many steps of looking at records are cheap enough to plan often.
const CHEAP: usize = 100_000;
/// So many are checked on one side alone.
const DEAR: usize = 1_000_000_000;

#[derive(Default)]
struct Seen {
    answers: BTreeSet<u32>,
    /// Plans with ties broken in another way than the lowest, and places where a change of the action alone was right and wrong.
    other_ties: u64,
    other_action: [u64; 2],
    /// Entries that name no action at a pending place, and those that are wrong at the first place and at the last.
    none_at_pending: u64,
    ends: [u64; 2],
    checks: u64,
}

struct Desk<'a> {
    cases: Cases,
    inputs: &'a Inputs,
    /// The plans of the input under way, as they were lent.
    plans: Vec<Vec<u8>>,
    seen: Seen,
}

/// The actions that may stand at each place.
fn ties(oracle: &Oracle, job: &Job) -> Vec<Vec<u8>> {
    (0..job.places()).map(|place| oracle.actions(job, place)).collect()
}

/// The plan with the action that is picked for each place from those that may stand there.
fn broken(oracle: &Oracle, ties: &[Vec<u8>], mut pick: impl FnMut(&[u8]) -> u8) -> Vec<u8> {
    let mut plan = oracle.plan.clone();
    for (place, actions) in ties.iter().enumerate() {
        plan[4 * place + 1] = pick(actions);
    }
    plan
}

/// A change that a planner could make by mistake, or any: an action, a number, a value, an entry of another place, a byte.
fn change(random: &mut Random, job: &Job, plan: &mut [u8]) {
    let at = 4 * random.edge(job.places());
    match random.below(8) {
        0 => plan[at + 1] = random.below(job.actions + 1) as u8,
        1 => plan[at + 1] = 255,
        2 => plan[at + 2] = plan[at + 2].wrapping_add(random.pick(&[1, 255])),
        3 => plan[at + 3] ^= 1,
        4 => plan[at] = random.below(4) as u8,
        5 => {
            let from = 4 * random.below(job.places());
            plan.copy_within(from..from + 4, at);
        }
        6 => plan[at..at + 4].copy_from_slice(&[random.pick(&[0, 1, 2]), 255, 0, 0]),
        _ => plan[at + random.below(4)] = random.byte(),
    }
}

impl Desk<'_> {
    fn check(&mut self, oracle: &Oracle, side: Side, plan: &[u8]) {
        let due = oracle.check(plan);
        self.seen.note(oracle, plan, due);
        self.cases.lend(side, plan);
        self.cases.call(Call::Check { plan_len: plan.len(), side }, due);
        self.plans.push(plan.to_vec());
    }

    /// Every way to break ties, or many by chance: each must pass.
    fn all_ties(&mut self, oracle: &Oracle, job: &Job, side: Side, random: &mut Random) {
        let ties = ties(oracle, job);
        let ways = ties.iter().try_fold(1, |ways: usize, actions| ways.checked_mul(actions.len()));
        let plans: Vec<Vec<u8>> = match ways.filter(|&ways| ways <= WAYS) {
            Some(ways) => (0..ways).map(|way| numbered(oracle, &ties, way)).collect(),
            None => (0..BY_CHANCE).map(|_| broken(oracle, &ties, |actions| random.pick(actions))).collect(),
        };
        for plan in plans {
            assert_eq!(oracle.check(&plan), [0; 5], "a broken tie is wrong");
            self.check(oracle, side, &plan);
        }
    }

    /// Every other value of every byte.
    fn all_changes(&mut self, oracle: &Oracle, side: Side) {
        let mut plan = oracle.plan.clone();
        for at in 0..plan.len() {
            let true_byte = plan[at];
            for value in (0..=255).filter(|&value| value != true_byte) {
                plan[at] = value;
                self.check(oracle, side, &plan);
            }
            plan[at] = true_byte;
        }
    }

    /// Ties broken by chance, then a few changes; the plan exact, longer, or too short.
    fn by_chance(&mut self, oracle: &Oracle, job: &Job, side: Side, random: &mut Random) {
        let ties = ties(oracle, job);
        let mut plan = broken(oracle, &ties, |actions| random.pick(actions));
        for _ in 0..random.below(4) {
            change(random, job, &mut plan);
        }
        if random.once_in(4) {
            let more = random.below(PLAN_SIZE - plan.len() + 1).min(40);
            plan.extend(random.bytes(more));
        }
        if random.once_in(6) {
            plan.truncate(random.below(oracle.plan.len() + 1));
        }
        self.check(oracle, side, &plan);
    }

    /// Tries one input with the plans that suit its size.
    fn input(&mut self, input: &Input, every: bool) {
        let oracle = Oracle::new(&input.job);
        let random = &mut Random::new(!input.seed, input.number);
        self.cases.calls.clear();
        self.plans.clear();
        for side in [Side::End, Side::Begin] {
            self.cases.input(input.number, side, &input.job);
            let Ok(job) = &oracle.job else {
                let length = random.pick(&[0, 1, 48, 200]);
                let plan = random.bytes(length);
                self.check(&oracle, side, &plan);
                continue;
            };
            let largest = oracle.entries.iter().map(|entry| entry.number).max().unwrap_or(0);
            let cost = (largest + 2) * (job.moves.len() + job.states) * job.goals;
            if cost > DEAR && side == Side::Begin {
                continue;
            }
            let cheap = cost < CHEAP;
            self.check(&oracle, side, &oracle.plan);
            if every {
                self.all_ties(&oracle, job, side, random);
                if side == Side::End {
                    self.all_changes(&oracle, side);
                }
            }
            for _ in 0..if cheap { 6 } else { 1 } {
                self.by_chance(&oracle, job, side, random);
            }
        }
    }

    /// The input with this number, and whether every tie and every change of it is tried.
    fn get(&self, number: u64, tiny: &[u64]) -> (Input, bool) {
        match tiny.get(number as usize) {
            Some(&tiny) => (Input { number, ..self.inputs.get(tiny) }, true),
            None => (Input { number, ..self.inputs.get(number - tiny.len() as u64) }, false),
        }
    }
}

/// The plan of this number among all ways to break the ties.
fn numbered(oracle: &Oracle, ties: &[Vec<u8>], mut way: usize) -> Vec<u8> {
    broken(oracle, ties, |actions| {
        let action = actions[way % actions.len()];
        way /= actions.len();
        action
    })
}

impl Seen {
    fn note(&mut self, oracle: &Oracle, plan: &[u8], due: [u32; 5]) {
        self.checks += 1;
        self.answers.insert(due[0]);
        let Ok(job) = &oracle.job else { return };
        if due[0] == 0 {
            self.other_ties += u64::from(!plan.starts_with(&oracle.plan));
        }
        if due[0] != 0 && due[0] != WRONG {
            return;
        }
        let differing = plan.iter().zip(&oracle.plan).enumerate().filter(|(_, (said, own))| said != own);
        let differing: Vec<usize> = differing.map(|(at, _)| at).collect();
        if let [at] = differing[..] {
            if at % 4 == 1 {
                self.other_action[usize::from(due[0] == WRONG)] += 1;
                let pending = oracle.entries[at / 4].value == PENDING;
                self.none_at_pending += u64::from(pending && plan[at] == 255);
            }
        }
        if due[0] == WRONG {
            let place = due[1] as usize * job.goals + due[2] as usize;
            self.ends[0] += u64::from(place == 0);
            self.ends[1] += u64::from(place > 0 && place + 1 == job.places());
        }
    }

    fn covered(&self) -> bool {
        self.answers.iter().copied().eq([0, 1, 2, 3, 4, 5, 6, 7, 12, 13, WRONG])
            && [self.other_ties, self.none_at_pending]
                .iter()
                .chain(&self.other_action)
                .chain(&self.ends)
                .all(|&n| n > 0)
    }
}

/// Holds every check to the oracle; says whether everything has come up.
pub fn agree(seed: u64) -> bool {
    println!("seed {seed}");
    cases::fences_hold();
    let inputs = Inputs::new(seed);
    let good = |number: &u64| {
        let input = inputs.get(*number);
        input.kind == "tiny" && Oracle::new(&input.job).job.is_ok()
    };
    // The jobs given in full, One plate with busy states, and tiny ones.
    let small = ["job given in full", "One plate with busy states"];
    let given = (0..inputs.fixed()).filter(|&number| small.contains(&inputs.get(number).kind));
    let tiny: Vec<u64> = given.chain((inputs.fixed()..).filter(good).take(TINY)).collect();
    let mut desk = Desk { cases: Cases::new(), inputs: &inputs, plans: Vec::new(), seen: Seen::default() };
    let count = tiny.len() as u64 + inputs.fixed() + MIXED;
    for number in 0..count {
        let (input, every) = desk.get(number, &tiny);
        desk.input(&input, every);
        if desk.cases.broken {
            break;
        }
    }
    let seen = std::mem::take(&mut desk.seen);
    if let Some(wrong) = std::mem::replace(&mut desk.cases, Cases::none()).end() {
        let (input, every) = desk.get(wrong.number, &tiny);
        desk.input(&input, every);
        let call = desk.cases.calls.get(wrong.call).copied();
        let plan = desk.plans.get(wrong.call).map(|plan| report::hex(plan)).unwrap_or_default();
        report::stop(&input, call.as_ref(), &format!("plan {plan}\n{}", wrong.how));
    }
    println!("plans by answer: {:?}, of which {} pass with another action", seen.answers, seen.other_ties);
    println!("{count} jobs, {} plans agree", seen.checks);
    seen.covered()
}
