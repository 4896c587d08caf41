//! Jobs with bad outcomes: each salvaged by the call and by the oracle, in all figures and all bytes of both outputs; and random completions of the removed
//! pairs, planned by the oracle, in which every place that was winning after salvage has to be winning with a number no larger.

use crate::cases::{self, Cases, Side, COUNTERS_WORDS, PLAN_SIZE};
use crate::make::{self, Inputs};
use crate::oracle::{self, salvage, Oracle, Refused, Salvage, WINNING};
use crate::random::Random;
use crate::report::{self, Call, Input};
use std::collections::BTreeSet;
use std::io::Write;
use std::process::{Command, Stdio};

/// Jobs made to be salvaged, and inputs of the ordinary run.
const TORN: u64 = 9_000;
const MIXED: u64 = 15_000;
/// So many completions of each small job that lost pairs.
const COMPLETIONS: usize = 3;
/// Jobs that the program is run on.
const RUNS: u64 = 150;
/// So many records are cheap enough to plan often.
const CHEAP: usize = 300;

#[derive(Default)]
struct Seen {
    answers: BTreeSet<u32>,
    /// Salvaged with pairs and without, in the old form and the tall one; records kept beside removed ones of their state; all removed.
    with_pairs: [u64; 2],
    without: [u64; 2],
    beside: u64,
    emptied: u64,
    /// Completions planned, winning places compared, and those whose number fell; places that became winning.
    completions: u64,
    compared: u64,
    fell: u64,
    gained: u64,
    calls: u64,
}

struct Desk<'a> {
    cases: Cases,
    inputs: &'a Inputs,
    every: Vec<Vec<u8>>,
    seen: Seen,
}

/// Any outcomes below S for each removed pair, or none.
fn completed(random: &mut Random, salvaged: &Salvage) -> Vec<u8> {
    let job = oracle::read(&salvaged.job).expect("a salvaged job is good");
    let mut records: Vec<[usize; 3]> = job.moves.iter().map(|one| [one.state, one.action, one.outcome]).collect();
    for &(state, action) in &salvaged.removed {
        let many = random.pick(&[0, 1, 1, 2, 3]);
        let outcomes: BTreeSet<usize> = (0..many).map(|_| random.below(job.states)).collect();
        records.extend(outcomes.into_iter().map(|outcome| [state, action, outcome]));
    }
    records.truncate(make::most_records(&salvaged.job));
    make::with_records(&salvaged.job, records)
}

impl Desk<'_> {
    fn call(&mut self, due: &Result<Salvage, Refused>, side: Side, before: u32, [room, pairs_room]: [usize; 2]) {
        let answer = match due {
            Ok(salvaged) => salvaged.answer(room, pairs_room),
            Err(Refused { number, record }) => [*number, 0, 0, *record, 0],
        };
        self.seen.answers.insert(answer[0]);
        self.seen.calls += 1;
        self.cases.call(Call::Salvage { room, before, pairs_room, side }, answer);
    }

    /// Holds every winning place after salvage to what it is in some completions.
    fn complete(&mut self, input: &Input, random: &mut Random, salvaged: &Salvage) {
        let after = Oracle::new(&salvaged.job);
        for _ in 0..COMPLETIONS {
            let whole = completed(random, salvaged);
            let full = Oracle::new(&whole);
            assert_eq!(full.refusal(), 0, "a completion is a good job");
            self.seen.completions += 1;
            for (place, (was, is)) in after.entries.iter().zip(&full.entries).enumerate() {
                if was.value == WINNING {
                    self.seen.compared += 1;
                    self.seen.fell += u64::from(is.number < was.number);
                    if is.value != WINNING || is.number > was.number {
                        let wrong =
                            format!("place {place} is {was:?} after salvage, {is:?} in {}", report::hex(&whole));
                        report::stop(input, None, &wrong);
                    }
                }
                self.seen.gained += u64::from(was.value != WINNING && is.value == WINNING);
            }
        }
    }

    fn note(&mut self, salvaged: &Salvage, input: &[u8]) {
        let tall = usize::from(input[2] == 8);
        if salvaged.removed.is_empty() {
            assert!(salvaged.job == input, "a good job changes");
            self.seen.without[tall] += 1;
            return;
        }
        let left = oracle::read(&salvaged.job).expect("a salvaged job is good");
        self.seen.with_pairs[tall] += 1;
        self.seen.beside +=
            u64::from(left.moves.iter().any(|one| salvaged.removed.iter().any(|&(s, _)| s == one.state)));
        self.seen.emptied += u64::from(left.moves.is_empty());
    }

    fn input(&mut self, input: &Input) {
        let due = salvage(&input.job);
        let random = &mut Random::new(!input.seed, input.number);
        self.cases.calls.clear();
        let [long, listed] = due.as_ref().map(|one| [one.job.len(), one.pairs.len()]).unwrap_or([40, 9]);
        if let Ok(salvaged) = &due {
            self.note(salvaged, &input.job);
            self.cases.due(&salvaged.job);
            self.cases.due_pairs(&salvaged.pairs);
        }
        for side in [Side::End, Side::Begin] {
            self.cases.input(input.number, side, &input.job);
            let any = [long + random.below(50), listed + random.below(50)];
            let rooms =
                [[long, listed], any, [long.saturating_sub(1), listed], [long, listed.saturating_sub(1)], [0, 0]];
            for [room, pairs_room] in rooms {
                let before = random.word() as u32;
                self.call(&due, side, before, [room.min(PLAN_SIZE), pairs_room.min(2 * COUNTERS_WORDS)]);
            }
        }
        let Ok(salvaged) = &due else { return };
        if salvaged.removed.is_empty() {
            return;
        }
        // What was salvaged stays the same.
        let again = salvage(&salvaged.job);
        assert!(again.as_ref().is_ok_and(|one| one.removed.is_empty() && one.job == salvaged.job), "salvaged twice");
        self.cases.due_pairs(&[]);
        self.cases.input(input.number, Side::Begin, &salvaged.job);
        self.call(&again, Side::Begin, random.word() as u32, [long, 0]);
        if long < 16 + 8 + 512 + 5 * CHEAP {
            self.complete(input, random, salvaged);
        }
    }

    /// Outputs of every length that could be too short, alone and together.
    fn every_room(&mut self, input: &Input) {
        let due = salvage(&input.job);
        let salvaged = due.as_ref().expect("a job to salvage");
        self.cases.due(&salvaged.job);
        self.cases.due_pairs(&salvaged.pairs);
        self.cases.calls.clear();
        for side in [Side::End, Side::Begin] {
            self.cases.input(input.number, side, &input.job);
            for room in 0..salvaged.job.len() + 3 {
                for pairs_room in 0..salvaged.pairs.len() + 3 {
                    self.call(&due, side, (97 * room + pairs_room) as u32, [room, pairs_room]);
                }
            }
        }
    }

    /// Every change of small torn jobs, then jobs made to be salvaged, then those of the ordinary run.
    fn get(&self, seed: u64, number: u64) -> Input {
        let every = self.every.len() as u64;
        match number {
            0..2 => Input { seed, number, kind: "as many pairs as there are", job: make::all_torn(number == 1) },
            _ if number < 2 + every => Input {
                seed,
                number,
                kind: "a torn plate, one byte changed",
                job: self.every[number as usize - 2].clone(),
            },
            _ if number < 2 + every + TORN => Input { seed, number, kind: "torn", job: make::torn(seed, number) },
            _ => Input { number, ..self.inputs.get(number - 2 - every - TORN) },
        }
    }
}

/// One plate after the state "broken" was deleted, in both forms; and with outcomes left that are far too large.
fn plates() -> Vec<Vec<u8>> {
    let plate = make::known::one_plate();
    let tall = make::in_the_tall_form(&plate);
    let records = |large: usize| {
        vec![[0, 0, 1], [0, 0, large], [1, 1, 1], [1, 1, 2], [1, 2, 0], [1, 2, large], [2, 0, 3], [2, 2, 0]]
    };
    vec![make::with_records(&plate, records(9)), make::with_records(&tall, records(300))]
}

impl Seen {
    fn covered(&self) -> bool {
        let counts = [self.beside, self.emptied, self.compared, self.fell, self.gained];
        self.answers.iter().copied().eq([0, 1, 2, 3, 4, 5, 6, 7, 12, 13])
            && counts.iter().chain(&self.with_pairs).chain(&self.without).all(|&count| count > 0)
    }
}

/// Holds every salvage to the oracle; says whether everything has come up.
pub fn agree(seed: u64) -> bool {
    println!("seed {seed}");
    cases::fences_hold();
    let inputs = Inputs::new(seed);
    let every = plates().iter().flat_map(|job| make::every_change(job)).collect();
    let mut desk = Desk { cases: Cases::new(), inputs: &inputs, every, seen: Seen::default() };
    let count = 2 + desk.every.len() as u64 + TORN + inputs.fixed() + MIXED;
    for (number, job) in (count..).zip(plates()) {
        desk.every_room(&Input { seed, number, kind: "a torn plate", job });
    }
    for number in 0..count {
        desk.input(&desk.get(seed, number));
        if desk.cases.broken {
            break;
        }
    }
    let seen = std::mem::take(&mut desk.seen);
    if let Some(wrong) = std::mem::replace(&mut desk.cases, Cases::none()).end() {
        let input = match wrong.number.checked_sub(count) {
            Some(plate) => {
                Input { seed, number: wrong.number, kind: "a torn plate", job: plates()[plate as usize].clone() }
            }
            None => desk.get(seed, wrong.number),
        };
        if wrong.number < count {
            desk.input(&input);
        }
        let call = desk.cases.calls.get(wrong.call).copied();
        report::stop(&input, call.as_ref(), &wrong.how);
    }
    println!(
        "salvaged with pairs {:?} and without {:?}, old and tall; answers {:?}",
        seen.with_pairs, seen.without, seen.answers
    );
    println!(
        "{} completions: {} winning places compared, {} with a smaller number",
        seen.completions, seen.compared, seen.fell
    );
    println!("{count} jobs, {} calls agree", seen.calls);
    seen.covered()
}

/// What the program writes and says of these bytes.
fn printed(words: &[String], job: &[u8]) -> (Vec<u8>, String) {
    let mut command = Command::new(&words[0]);
    command.args(&words[1..]).stdin(Stdio::piped()).stdout(Stdio::piped()).stderr(Stdio::piped());
    let mut process = command.spawn().expect("the program can be started");
    // A program that has taken in enough may end before all is written.
    let mut to = process.stdin.take().expect("a pipe");
    let _ = to.write_all(job);
    drop(to);
    let output = process.wait_with_output().expect("the program ends");
    (output.stdout, String::from_utf8_lossy(&output.stderr).into_owned())
}

/// Holds the program to the oracle; says whether everything that it can say has come up.
pub fn programs_agree(words: &[String], seed: u64) -> bool {
    let inputs = Inputs::new(seed);
    let torn = (0..RUNS).map(|number| Input { seed, number, kind: "torn", job: make::torn(seed, number) });
    let mixed = (0..RUNS).map(|number| inputs.get(inputs.fixed() + number));
    let edges = make::known::edges().into_iter().map(|(job, _)| Input { seed, number: 0, kind: "edge", job });
    let most = [false, true].map(|tall| Input {
        seed,
        number: 0,
        kind: "as many pairs as there are",
        job: make::all_torn(tall),
    });
    let long = Input { seed, number: 0, kind: "too long", job: vec![0; 2 * oracle::TAKEN] };
    let (mut seen, mut count) = (BTreeSet::new(), 0);
    for input in torn.chain(mixed).chain(edges).chain(most).chain([long]) {
        let due = oracle::salvage_text(&input.job);
        let found = printed(words, &input.job);
        if found != due {
            report::stop(&input, None, &format!("said {:?}, due {:?}, or the job differs", found.1, due.1));
        }
        let last = due.1.lines().last().unwrap_or("").to_string();
        let kind = if last.starts_with("refused") {
            last.split(' ').take(2).collect::<Vec<_>>().join(" ")
        } else {
            (due.1.lines().count() > 1).to_string()
        };
        seen.insert(kind);
        count += 1;
    }
    println!("salvage: {count} jobs agree, by the program");
    let refusals = [1, 2, 3, 4, 5, 6, 12, 13].map(|number| format!("refused {number}"));
    refusals.iter().all(|kind| seen.contains(kind)) && seen.contains("true") && seen.contains("false")
}
