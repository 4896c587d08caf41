//! Slips of the arm: the plans for every count of slips byte by byte, and advice at their larger places, beside an independent planner.

mod brute;
mod planner;

use crate::cases::{self, Cases, Side, LAYERS_SIZE};
use crate::make::{self, Inputs};
use crate::oracle::{Answer, Entry, Job, Oracle, Refused, ENTRY, PENDING, PLACE, ROOM, SLIPS, WINNING};
use crate::random::Random;
use crate::report::{self, Call, Input};
use planner::Larger;
use std::collections::BTreeSet;

/// Inputs beyond the fixed ones.
const MIXED: u64 = 12_000;
/// So many steps of looking at records are cheap enough for every count of slips; beyond so many a job is left out.
const CHEAP: usize = 200_000;
const DEAR: usize = 400_000_000;
/// So many larger places are all asked for advice.
const ALL_PLACES: usize = 64;

#[derive(Default)]
struct Seen {
    /// Answers of planning and of advice, and the values with the slips left.
    plans: BTreeSet<u32>,
    advice: BTreeSet<u32>,
    values: BTreeSet<(u8, usize)>,
    /// Places where one slip more costs the win, where it costs moves, where it changes the action alone; and pending places whose action brings nearer by
    /// a slip alone.
    lost: u64,
    slower: u64,
    otherwise: u64,
    helped: u64,
    brute: u64,
    largest: usize,
    /// The most larger places of a set of plans.
    widest: usize,
    jobs: u64,
    calls: u64,
}

struct Desk {
    cases: Cases,
    seen: Seen,
}

/// One job on one side of the fences.
struct Trial<'a> {
    oracle: &'a Oracle,
    side: Side,
    random: Random,
    cases: &'a mut Cases,
    seen: &'a mut Seen,
}

/// What the numbers of slips are that planning may be asked for, beside 0 to 4.
const ODD_SLIPS: [u32; 7] = [5, 255, 256, 65_535, 65_536, 1 << 31, u32::MAX];

fn refused(Refused { number, record }: Refused, at: usize) -> Answer {
    let mut answer = [number, 0, 0, 0, 0];
    answer[at] = record;
    answer
}

/// What planning for so many slips answers.
fn planned(oracle: &Oracle, slips: u32, room: usize) -> Answer {
    match &oracle.job {
        Err(why) => refused(*why, 1),
        Ok(_) if slips > 3 => [SLIPS, 0, 0, 0, 0],
        Ok(job) if room < 4 * job.places() * (slips as usize + 1) => [ROOM, 0, 0, 0, 0],
        Ok(_) => [0; 5],
    }
}

/// What advice on these plans answers.
fn advised(oracle: &Oracle, slips: u32, plans: &[u8], [state, goal, left]: [u32; 3]) -> Answer {
    let job = match &oracle.job {
        Err(why) => return refused(*why, 4),
        Ok(_) if slips > 3 => return [SLIPS, 0, 0, 0, 0],
        Ok(job) => job,
    };
    let count = job.places() * (slips as usize + 1);
    if plans.len() < 4 * count {
        return [ROOM, 0, 0, 0, 0];
    }
    if state as usize >= job.states || goal as usize >= job.goals || left > slips {
        return [PLACE, 0, 0, 0, 0];
    }
    let at = 4 * ((left as usize * job.states + state as usize) * job.goals + goal as usize);
    let [value, action] = [plans[at], plans[at + 1]].map(usize::from);
    let number = usize::from(plans[at + 2]) + 256 * usize::from(plans[at + 3]);
    let blank = action == 255 && number == 0;
    let due = action < job.actions && (1..count).contains(&number);
    let good = value == 0 && blank || value == 2 && (blank || due) || value == 1 && due;
    if good {
        [0, value as u32, action as u32, number as u32, 0]
    } else {
        [ENTRY, 0, 0, 0, 0]
    }
}

/// The laws that the plans have to keep among themselves: the first is today's, and where one more slip leaves a place winning it is so without it, by no
/// larger number.
fn lawful(input: &Input, oracle: &Oracle, larger: &Larger, entries: &[Entry], seen: &mut Seen) {
    let places = larger.job.places();
    if entries[..places] != oracle.entries {
        report::stop(input, None, "the planner of larger places is wrong: its first plan is not today's");
    }
    for (x, more) in entries.iter().enumerate() {
        let [_, _, left] = larger.spot(x);
        seen.values.insert((more.value, left));
        seen.largest = seen.largest.max(more.number);
        let Some(fewer) = x.checked_sub(places).map(|less| entries[less]) else { continue };
        if more.value == WINNING && (fewer.value != WINNING || fewer.number > more.number) {
            report::stop(input, None, &format!("a slip fewer hurts: {fewer:?} and with one more {more:?}"));
        }
        seen.lost += u64::from(fewer.value == WINNING && more.value != WINNING);
        seen.slower += u64::from(more.value == WINNING && more.number > fewer.number);
        seen.otherwise +=
            u64::from((more.value, more.number) == (fewer.value, fewer.number) && more.action != fewer.action);
        seen.helped += u64::from(more.value == PENDING && !larger.nearer_itself(entries, x));
    }
}

impl Trial<'_> {
    fn plan(&mut self, slips: u32, plan_len: usize) {
        let due = planned(self.oracle, slips, plan_len);
        self.seen.plans.insert(due[0]);
        let before = self.random.word() as u32;
        self.call(Call::PlanSlips { slips, plan_len, before, side: self.side }, due);
    }

    fn call(&mut self, call: Call, due: Answer) {
        self.seen.calls += 1;
        self.cases.call(call, due);
    }

    /// Asks at these places with these bytes as the plans, which touch the fence and can not be written.
    fn ask(&mut self, slips: u32, plans: &[u8], places: &[[u32; 3]]) {
        self.cases.lend_layers(self.side, plans);
        for &place in places {
            let due = advised(self.oracle, slips, plans, place);
            self.seen.advice.insert(due[0]);
            self.call(Call::AdviceSlips { slips, plan_len: plans.len(), place, side: self.side }, due);
        }
    }

    /// A job that is refused, for any count of slips.
    fn bad(&mut self) {
        let (any, bytes) = (self.random.below(100), self.random.below(60));
        let plans = self.random.bytes(bytes);
        for slips in [0, 3, 4, self.random.pick(&ODD_SLIPS)] {
            self.plan(slips, any);
            self.ask(slips, &plans, &[[0, 0, 0], [u32::MAX, 1, 9]]);
        }
    }

    /// Too many slips, with room and without any.
    fn too_many(&mut self, job: &Job) {
        let slips = self.random.pick(&ODD_SLIPS);
        for (slips, room) in [(4, 20 * job.places()), (4, 0), (slips, 16 * job.places())] {
            self.plan(slips, room.min(LAYERS_SIZE));
        }
        let plans = self.random.bytes(20 * job.places().min(100));
        self.ask(4, &plans, &[[0, 0, 0], [0, 0, 4], [512, 32, 5]]);
        self.ask(slips, &plans, &[[0, 0, 0]]);
    }

    /// Planning into buffers exact or longer, and too short by one, by a whole plan, by any count and by all.
    fn plans(&mut self, larger: &Larger, dear: bool) {
        let (need, slips) = (4 * larger.count(), larger.most as u32);
        let one = need - 4 * larger.job.places();
        let any = self.random.below(need);
        for room in [need - 1, one, any, 0] {
            self.plan(slips, room);
        }
        let longer = (need + self.random.between(1, 300)).min(LAYERS_SIZE);
        match self.side {
            Side::End => self.plan(slips, need),
            Side::Begin if dear => {}
            Side::Begin => self.plan(slips, longer),
        }
    }

    /// Advice at every larger place or at some, at places that are none, on plans too short, and on entries made with care.
    fn advice(&mut self, larger: &Larger, plans: &[u8]) {
        let (job, slips) = (larger.job, larger.most as u32);
        let count = larger.count();
        let some: Vec<usize> = if count <= ALL_PLACES {
            (0..count).collect()
        } else {
            (0..24).map(|_| self.random.edge(count)).collect()
        };
        let spots: Vec<[u32; 3]> = some.iter().map(|&x| larger.spot(x).map(|figure| figure as u32)).collect();
        let extra = self.random.below(9);
        let longer = [plans, &self.random.bytes(extra)].concat();
        self.ask(slips, &longer, &spots);
        let [states, goals] = [job.states, job.goals].map(|limit| limit as u32);
        let none = [[states, 0, 0], [0, goals, 0], [0, 0, slips + 1], [states - 1, goals - 1, 4], [0, 0, u32::MAX]];
        let far = [u32::MAX, 1 << 31, 65_536].map(|figure| [figure, figure, figure]);
        self.ask(slips, plans, &[&none[..], &far[..], &spots[..1]].concat());
        for short in [plans.len() - 1, plans.len() - 4 * job.places()] {
            self.ask(slips, &plans[..short], &[spots[0], none[0], none[2]]);
        }
        let mut odd = plans.to_vec();
        for &x in &some {
            let entry = self.odd_entry(job, count);
            odd[4 * x..4 * x + 4].copy_from_slice(&entry);
        }
        self.ask(slips, &odd, &spots);
    }

    /// Four bytes that have, or nearly have, one of the four shapes, by the count of larger places.
    fn odd_entry(&mut self, job: &Job, count: usize) -> [u8; 4] {
        let random = &mut self.random;
        let action = random.pick(&[0, job.actions - 1, job.actions, 16, 254, 255]);
        let any = random.below(count);
        let number = random.pick(&[0, 1, job.places() - 1, job.places(), count - 1, count, count + 1, 65_535, any]);
        let value = random.pick(&[0, 1, 1, 2, 2, 3, 255]);
        let [low, high] = (number.min(65_535) as u16).to_le_bytes();
        [value, action as u8, low, high]
    }
}

impl Desk {
    /// Tries one input on both sides of the fences.
    fn input(&mut self, input: &Input) {
        let oracle = Oracle::new(&input.job);
        self.cases.calls.clear();
        for side in [Side::End, Side::Begin] {
            self.cases.input(input.number, side, &input.job);
            let random = Random::new(!input.seed, 2 * input.number + u64::from(side == Side::Begin));
            let Ok(job) = &oracle.job else {
                self.trial(&oracle, side, random).bad();
                continue;
            };
            self.good(input, &oracle, job, side, random);
        }
    }

    fn trial<'a>(&'a mut self, oracle: &'a Oracle, side: Side, random: Random) -> Trial<'a> {
        Trial { oracle, side, random, cases: &mut self.cases, seen: &mut self.seen }
    }

    /// A good job: every count of slips where that is cheap, else the one that the side and the input's number choose.
    fn good(&mut self, input: &Input, oracle: &Oracle, job: &Job, side: Side, mut random: Random) {
        self.trial(oracle, side, Random::new(input.seed, input.number)).too_many(job);
        let largest = oracle.entries.iter().map(|entry| entry.number).max().unwrap_or(0);
        let cost = |most: usize| (most + 1) * (most + 1) * (largest + 2) * (job.moves.len() + job.states) * job.goals;
        let one = if side == Side::End { 3 } else { (input.number % 3) as usize };
        let counts = if cost(3) < CHEAP { vec![0, 1, 2, 3] } else { vec![one] };
        for most in counts {
            let most = (0..=most).rev().find(|&most| cost(most) < DEAR);
            let Some(most) = most else { continue };
            let larger = Larger::new(job, most);
            let entries = larger.entries();
            if side == Side::End {
                self.seen.jobs += 1;
                self.seen.widest = self.seen.widest.max(entries.len());
                lawful(input, oracle, &larger, &entries, &mut self.seen);
                self.third_voice(input, &larger, &entries);
            }
            let plans: Vec<u8> = entries.iter().flat_map(Entry::bytes).collect();
            self.cases.due_layers(&plans);
            let seed = random.word();
            let mut trial = self.trial(oracle, side, Random::new(seed, 0));
            trial.plans(&larger, cost(most) >= CHEAP * 100);
            trial.advice(&larger, &plans);
        }
    }

    /// On tiny jobs the planner itself is compared with the meaning of its values and numbers.
    fn third_voice(&mut self, input: &Input, larger: &Larger, entries: &[Entry]) {
        if brute::tiny(larger.job, larger.most) {
            self.seen.brute += 1;
            let meant = brute::entries(larger.job, larger.most);
            if meant != entries {
                let wrong = format!("the planner of larger places is wrong: it says {entries:?}, meant is {meant:?}");
                report::stop(input, None, &wrong);
            }
        }
    }
}

impl Seen {
    fn covered(&self) -> bool {
        let values: BTreeSet<(u8, usize)> = (0..3).flat_map(|value| (0..4).map(move |left| (value, left))).collect();
        self.plans.iter().copied().eq([0, 1, 2, 3, 4, 5, 6, 7, 12, 13, SLIPS])
            && self.advice.iter().copied().eq([0, 1, 2, 3, 4, 5, 6, 7, 9, 10, 12, 13, SLIPS])
            && self.values == values
            && [self.lost, self.slower, self.otherwise, self.helped, self.brute].iter().all(|&n| n > 0)
            && self.largest > 2_000
            && self.widest == 65_536
    }
}

/// The jobs in which a slip costs the whole way, then those of a run.
fn get(inputs: &Inputs, number: u64, seed: u64) -> Input {
    let ways = [128, 512];
    match ways.get(number as usize) {
        Some(&states) => Input { seed, number, kind: "back to the first", job: make::back_to_the_first(states) },
        None => Input { number, ..inputs.get(number - ways.len() as u64) },
    }
}

/// Holds every plan and every advice to the planner's; says whether everything has come up.
pub fn agree(seed: u64) -> bool {
    println!("seed {seed}");
    cases::fences_hold();
    let inputs = Inputs::new(seed);
    let mut desk = Desk { cases: Cases::new(), seen: Seen::default() };
    let count = inputs.fixed() + MIXED;
    for number in 0..count {
        desk.input(&get(&inputs, number, seed));
        if desk.cases.broken {
            break;
        }
    }
    let seen = std::mem::take(&mut desk.seen);
    if let Some(wrong) = std::mem::replace(&mut desk.cases, Cases::none()).end() {
        let input = get(&inputs, wrong.number, seed);
        desk.input(&input);
        let call = desk.cases.calls.get(wrong.call).copied();
        report::stop(&input, call.as_ref(), &wrong.how);
    }
    println!("planning answers {:?}, advice {:?}; the largest number is {}", seen.plans, seen.advice, seen.largest);
    println!(
        "one slip more: {} places no longer winning, {} slower, {} with another action alone; {} helped by a slip alone",
        seen.lost, seen.slower, seen.otherwise, seen.helped
    );
    println!(
        "{count} jobs, {} sets of plans, {} of them by brute force, {} calls agree",
        seen.jobs, seen.brute, seen.calls
    );
    seen.covered()
}
