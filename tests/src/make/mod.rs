//! All inputs of a run, each made from the seed and its number alone.

mod chain;
mod damage;
pub mod known;
mod parts;
mod valid;
mod wild;

use crate::oracle::Oracle;
use crate::random::Random;
use crate::report::Input;
pub use chain::Doubt;
use chain::End;
pub use parts::{Form, Parts};
pub use valid::Size;

const TINY: Size = Size { form: Form::Old, states: 3, actions: 3, propositions: 2, goals: 3, moves: 7 };
const SMALL: Size = Size { form: Form::Old, states: 8, actions: 5, propositions: 3, goals: 6, moves: 24 };
const MIDDLING: Size = Size { form: Form::Old, states: 40, actions: 16, propositions: 6, goals: 12, moves: 500 };
const FULL: Size = Size { form: Form::Old, states: 128, actions: 16, propositions: 6, goals: 32, moves: 4_096 };
const TALL: Size = Size { form: Form::Tall, states: 512, actions: 16, propositions: 6, goals: 32, moves: 8_192 };

/// The longest job of a form, with places of every value and some way to go.
fn longest_of(seed: u64, full: Size, length: usize) -> Vec<u8> {
    let varied = |job: &Vec<u8>| {
        let entries = Oracle::new(job).entries;
        let far = entries.iter().any(|entry| entry.number > 4);
        far && (0..3).all(|value| entries.iter().any(|entry| entry.value == value))
    };
    let mut jobs = (0..).map(|number| valid::job(&mut Random::new(seed, number), full).bytes());
    jobs.find(|job| job.len() == length && varied(job)).expect("some number gives such a job")
}

/// The longest job of the old form.
pub fn longest(seed: u64) -> Vec<u8> {
    longest_of(seed, FULL, 14_518)
}

/// The longest job there is.
pub fn longest_tall(seed: u64) -> Vec<u8> {
    longest_of(seed, TALL, 43_576)
}

/// As long, with numbers as large as they can be: one place is accepted, and the last number is the count of places less one.
pub fn deepest(seed: u64, doubt: Doubt) -> Vec<u8> {
    chain::job(&mut Random::new(seed, 1), FULL, doubt, End::OnePlace).bytes()
}

/// The same in the tall form.
pub fn deepest_tall(seed: u64, doubt: Doubt) -> Vec<u8> {
    chain::job(&mut Random::new(seed, 1), TALL, doubt, End::OnePlace).bytes()
}

/// A good job of the old form, rewritten in the tall one.
pub fn in_the_tall_form(job: &[u8]) -> Vec<u8> {
    Parts::of(job).in_the_tall_form().bytes()
}

/// A ring of so many states with one record each and 32 goal states, which ends in one place.
pub fn ring(seed: u64, states: usize) -> Vec<u8> {
    let size = Size { form: Form::Tall, states, actions: 1, propositions: 1, goals: 32, moves: states };
    chain::job(&mut Random::new(seed, 4), size, Doubt::None, End::OnePlace).bytes()
}

pub fn middling(seed: u64) -> Vec<u8> {
    let size = Size { form: Form::Old, states: 32, actions: 8, propositions: 3, goals: 8, moves: 512 };
    chain::job(&mut Random::new(seed, 2), size, Doubt::Somewhere, End::AnyState).bytes()
}

/// A line of states to where the goal is met, all by action 0; from the last, action 1 leads back to the first. Each slip there costs the whole way.
pub fn back_to_the_first(states: usize) -> Vec<u8> {
    let form = if states > Form::Old.most_states() { Form::Tall } else { Form::Old };
    let (last, mut labels) = (states as u16 - 1, vec![0; states]);
    labels[states - 1] = 1;
    let mut moves: Vec<[u16; 3]> = (0..last).map(|state| [state, 0, state + 1]).collect();
    moves.push([last - 1, 1, 0]);
    let counts = form.counts([states, 2, 1, 2, 0, 0]);
    Parts { counts, labels, moves: form.records(&moves), goal: vec![0, 1, 1, 1, 0, 1] }.bytes()
}

/// A job whose listing has something to show: the largest plans, large numbers, high actions, or an input too long to be taken in whole.
pub fn listed(seed: u64, number: u64) -> Vec<u8> {
    let random = &mut Random::new(!seed, number);
    match number % 6 {
        0 => {
            let (full, moves) = (random.pick(&[FULL, TALL]), random.between(0, 2_000));
            valid::job(random, Size { moves, ..full }).bytes()
        }
        1 => {
            let (states, moves) = (random.between(33, 48), random.between(50, 200));
            let doubt = random.pick(&[Doubt::None, Doubt::AtTheEnd, Doubt::Somewhere]);
            let end = random.pick(&[End::AnyState, End::OnePlace]);
            let form = random.pick(&[Form::Old, Form::Tall]);
            chain::job(random, Size { form, states, actions: 16, propositions: 1, goals: 32, moves }, doubt, end)
                .bytes()
        }
        2 => chained(random),
        3 => {
            let parts = sound(random);
            wild::far(random, parts)
        }
        4 => spoilt(random, 1),
        _ => any_counts(random),
    }
}

/// A good job from whose table states were deleted by hand: the last ones, with their labels and their own records, while outcomes that named them are left;
/// or one in which some outcomes are changed to what is no state. The records stay in order.
pub fn torn(seed: u64, number: u64) -> Vec<u8> {
    let random = &mut Random::new(seed ^ 0x5a1f, number);
    let mut parts = if number % 500 == 0 { valid::job(random, random_full(number)) } else { sound(random) };
    let (form, states) = (parts.form(), parts.states());
    let mut records = parts.records();
    let left = if states > 1 && !random.once_in(3) {
        states - random.between(1, states.min(4) - 1)
    } else {
        states
    };
    parts.set_count(0, left);
    parts.set_count(4, parts.count(4) % left);
    parts.labels.truncate(left);
    records.retain(|record| usize::from(record[0]) < left);
    let largest = if form == Form::Old { 255 } else { 65_535 };
    for record in &mut records {
        if left == states && random.once_in(6) {
            record[2] = random.pick(&[left, left + 1, 255.max(left), largest]).min(largest) as u16;
        }
    }
    records.sort_unstable();
    records.dedup();
    parts.moves = form.records(&records);
    parts.bytes()
}

fn random_full(number: u64) -> Size {
    let full = if number % 1_000 == 0 { FULL } else { TALL };
    Size { propositions: 1, goals: 2, ..full }
}

/// As many pairs as a form has, each with one record, whose outcome is no state.
pub fn all_torn(tall: bool) -> Vec<u8> {
    let form = if tall { Form::Tall } else { Form::Old };
    let states = form.most_states() as u16;
    let records: Vec<parts::Record> =
        (0..states).flat_map(|state| (0..16).map(move |action| [state, action, states])).collect();
    let counts = form.counts([states.into(), 16, 0, 1, 0, 0]);
    Parts { counts, labels: vec![0; states.into()], moves: form.records(&records), goal: vec![0, 1] }.bytes()
}

/// A good job with the records of another one, which are put in order.
pub fn with_records(job: &[u8], records: Vec<[usize; 3]>) -> Vec<u8> {
    let mut parts = Parts::of(job);
    let mut records: Vec<parts::Record> =
        records.into_iter().map(|record| record.map(|figure| figure as u16)).collect();
    records.sort_unstable();
    parts.moves = parts.form().records(&records);
    parts.bytes()
}

/// How many records a job's form allows.
pub fn most_records(job: &[u8]) -> usize {
    Parts::of(job).form().most_moves()
}

/// Every other value of every byte of a job.
pub fn every_change(job: &[u8]) -> Vec<Vec<u8>> {
    changes_of(job)
}

pub struct Inputs {
    seed: u64,
    fixed: Vec<(&'static str, Vec<u8>)>,
}

impl Inputs {
    pub fn new(seed: u64) -> Inputs {
        let mut fixed = vec![
            ("job given in full", known::one_plate()),
            ("job given in full", known::bare(0)),
            ("job given in full", known::bare(1)),
            ("job given in full", known::early()),
            ("longest", longest(seed)),
            ("deepest", deepest(seed, Doubt::None)),
            ("deepest", deepest(seed, Doubt::AtTheEnd)),
            ("longest tall", longest_tall(seed)),
            ("deepest tall", deepest_tall(seed, Doubt::AtTheEnd)),
        ];
        fixed.extend((1..16).map(|states| ("One plate with busy states", known::busy_plate(states))));
        fixed.extend(known::edges().into_iter().map(|(job, _)| ("edge", job)));
        fixed.extend(changes().into_iter().map(|job| ("One plate, one byte changed", job)));
        fixed.extend(other_lengths().into_iter().map(|job| ("One plate, cut or longer", job)));
        let tall_plate = in_the_tall_form(&known::one_plate());
        fixed.extend(
            changes_of(&tall_plate).into_iter().map(|job| ("One plate in the tall form, one byte changed", job)),
        );
        Inputs { seed, fixed }
    }

    /// How many inputs are the same for every seed, or nearly so, and come first.
    pub fn fixed(&self) -> u64 {
        self.fixed.len() as u64
    }

    pub fn get(&self, number: u64) -> Input {
        let (kind, job) = match self.fixed.get(number as usize) {
            Some((kind, job)) => (*kind, job.clone()),
            None => mixed(&mut Random::new(self.seed, number)),
        };
        Input { seed: self.seed, number, kind, job }
    }
}

/// Every other value of every byte of One plate.
fn changes() -> Vec<Vec<u8>> {
    changes_of(&known::one_plate())
}

fn changes_of(plate: &[u8]) -> Vec<Vec<u8>> {
    let mut jobs = Vec::new();
    for at in 0..plate.len() {
        for value in (0..=255).filter(|&value| value != plate[at]) {
            let mut job = plate.to_vec();
            job[at] = value;
            jobs.push(job);
        }
    }
    jobs
}

/// Every beginning of One plate, every byte after it, and every byte left out or doubled.
fn other_lengths() -> Vec<Vec<u8>> {
    let plate = known::one_plate();
    let mut jobs: Vec<Vec<u8>> = (0..plate.len()).map(|length| plate[..length].to_vec()).collect();
    jobs.extend((0..=255).map(|byte| [&plate[..], &[byte]].concat()));
    jobs.extend((0..plate.len()).map(|at| [&plate[..at], &plate[at + 1..]].concat()));
    jobs.extend((0..plate.len()).map(|at| [&plate[..at], &plate[at..=at], &plate[at..]].concat()));
    jobs
}

/// A good job to start from when something is to be spoilt.
fn sound(random: &mut Random) -> Parts {
    let limit = match random.below(500) {
        0 => FULL,
        1..=5 => MIDDLING,
        6..=150 => TINY,
        151 => TALL,
        _ => SMALL,
    };
    let size = limit.upto(random).in_a_form(random);
    valid::job(random, size)
}

fn chained(random: &mut Random) -> Vec<u8> {
    let doubt = random.pick(&[Doubt::None, Doubt::AtTheEnd, Doubt::Somewhere]);
    let wide = random.once_in(60);
    let limit = Size {
        form: Form::Old,
        states: if wide { 40 } else { 9 },
        actions: 16,
        propositions: 6,
        goals: if wide { 16 } else { 32 },
        moves: if wide { 160 } else { 40 },
    };
    let size = limit.upto(random).in_a_form(random);
    let end = random.pick(&[End::AnyState, End::OnePlace]);
    chain::job(random, size, doubt, end).bytes()
}

/// Any counts at all, with moves that stay few.
fn any_counts(random: &mut Random) -> Vec<u8> {
    let full = random.pick(&[FULL, TALL]);
    let size = Size { moves: 60, ..full }.upto(random);
    valid::job(random, size).bytes()
}

fn large(random: &mut Random) -> Vec<u8> {
    let form = random.pick(&[Form::Old, Form::Tall]);
    let states = random.pick(&[16, 64, 127, form.most_states(), form.most_states()]);
    let goals = random.pick(&[1, 16, 31, 32, 32]);
    let moves = random.pick(&[0, 1_000, form.most_moves() - 1, form.most_moves(), form.most_moves()]);
    let size = Size { form, states, actions: random.pick(&[1, 7, 16]), propositions: random.below(7), goals, moves };
    valid::job(random, size).bytes()
}

fn spoilt(random: &mut Random, faults: usize) -> Vec<u8> {
    let mut parts = sound(random);
    let in_parts = random.between(usize::from(faults == 1), faults);
    (0..in_parts).for_each(|_| damage::spoil(random, &mut parts));
    let mut job = parts.bytes();
    (in_parts..faults).for_each(|_| damage::spoil_bytes(random, &mut job));
    job
}

/// A good job with up to three bytes changed anywhere.
fn changed(random: &mut Random) -> Vec<u8> {
    let mut job = if random.once_in(2) { known::one_plate() } else { sound(random).bytes() };
    for _ in 0..random.between(1, 3) {
        let at = random.below(job.len());
        job[at] = if random.once_in(2) { random.byte() } else { random.below(5) as u8 };
    }
    job
}

/// One input by chance, with its kind.
fn mixed(random: &mut Random) -> (&'static str, Vec<u8>) {
    let sized = |random: &mut Random, limit: Size| {
        let size = limit.upto(random).in_a_form(random);
        valid::job(random, size).bytes()
    };
    match random.below(1_000) {
        0..=259 => ("tiny", sized(random, TINY)),
        260..=509 => ("small", sized(random, SMALL)),
        510..=529 => ("middling", sized(random, MIDDLING)),
        530..=549 => ("any counts", any_counts(random)),
        550..=599 => ("long way", chained(random)),
        600 => ("large", large(random)),
        601..=760 => ("one fault in a body", spoilt(random, 1)),
        761..=800 => ("one fault in the contents", {
            let mut job = sound(random).bytes();
            damage::spoil_bytes(random, &mut job);
            job
        }),
        801..=880 => ("several faults", {
            let faults = random.between(2, 4);
            spoilt(random, faults)
        }),
        881..=940 => ("bytes changed", changed(random)),
        941..=980 => ("random bytes", wild::bytes(random)),
        _ => ("near or beyond 65,535", {
            let parts = sound(random);
            wild::far(random, parts)
        }),
    }
}
