//! Goals from slips: every body byte by byte beside an independent writer's, and that writer's beside the meaning of formulas.

pub mod meaning;
pub mod writer;

use crate::cases::{self, Cases, Side};
use crate::oracle::{CLAUSE, NO_CLAUSES, ROOM};
use crate::random::Random;
use crate::report::Call;
use std::collections::BTreeSet;
use writer::Clause;

/// Triples over three or more propositions, and slips that are mostly bad.
const TRIPLES: u64 = 20_000;
const ODD: u64 = 60_000;

struct Desk {
    seed: u64,
    cases: Cases,
    /// The slips that were tried, each with its P.
    tried: Vec<(Vec<u8>, u32)>,
    /// The answers and counts of clauses that have come up.
    seen: BTreeSet<(u32, usize)>,
}

impl Desk {
    /// Tries slips in buffers that are exact, longer, shorter by one, shorter and empty.
    fn slips(&mut self, slips: &[u8], propositions: u32) {
        let number = self.tried.len() as u64;
        let mut random = Random::new(self.seed, number);
        self.tried.push((slips.to_vec(), propositions));
        self.cases.calls.clear();
        let due = writer::read(slips, propositions).map(|clauses| writer::body(&clauses, propositions));
        self.cases.due(due.as_deref().unwrap_or_default());
        let rooms = match &due {
            Ok(body) => {
                vec![body.len(), body.len() + random.between(1, 40), body.len() - 1, random.below(body.len()), 0]
            }
            Err(_) => vec![0, random.below(2_000)],
        };
        for side in [Side::End, Side::Begin] {
            self.cases.input(number, side, slips);
            for &room in &rooms {
                let (refusal, length) = match &due {
                    Ok(body) if room < body.len() => (ROOM, 0),
                    Ok(body) => (0, body.len() as u32),
                    Err(refusal) => (*refusal, 0),
                };
                self.seen.insert((refusal, slips.len() / 3));
                let call = Call::Goal { room, before: random.word() as u32, propositions, side };
                self.cases.call(call, [refusal, length, 0, 0, 0]);
            }
        }
    }

    /// Random bytes that are near to clauses, and any P.
    fn odd(&mut self, random: &mut Random) {
        let propositions = random.pick(&[0, 1, 2, 3, 6, 7, 8, 64, 255, 256, 258, 65_538, 1 << 31, u32::MAX]);
        let length = random.pick(&[0, 1, 2, 3, 3, 4, 5, 6, 6, 7, 8, 9, 9, 10, 11, 12, 15, 255, 256, 259, 768]);
        let mut bytes: Vec<u8> = (0..length).map(|_| random.below(8) as u8).collect();
        for clause in bytes.chunks_mut(3).filter(|clause| clause.len() == 3) {
            clause[0] = random.pick(&[0, 1, 2, 3, 3, 2, 4, 255]);
            clause[1] = if random.once_in(8) { random.byte() } else { random.below(3) as u8 };
            clause[2] = if random.once_in(2) { clause[1] } else { random.below(3) as u8 };
        }
        self.slips(&bytes, propositions);
    }

    fn covered(&self) -> bool {
        let all = [(0, 1), (0, 2), (0, 3), (ROOM, 1), (ROOM, 2), (ROOM, 3), (CLAUSE, 1), (CLAUSE, 2), (CLAUSE, 3)];
        let none = [(NO_CLAUSES, 0), (NO_CLAUSES, 1), (NO_CLAUSES, 4)];
        all.iter().chain(&none).all(|found| self.seen.contains(found))
    }
}

/// Every clause over so many propositions.
pub fn clauses(propositions: u32) -> Vec<Clause> {
    let all = 0..propositions as u8;
    let pairs = all.clone().flat_map(|a| all.clone().map(move |b| (a, b)));
    (0..4)
        .flat_map(|kind| pairs.clone().filter(move |(a, b)| kind > 1 || a == b).map(move |(a, b)| [kind, a, b]))
        .collect()
}

/// Each of these slips with each clause after it.
fn longer(slips: &[Vec<Clause>], clauses: &[Clause]) -> Vec<Vec<Clause>> {
    slips.iter().flat_map(|first| clauses.iter().map(move |&c| [first.as_slice(), &[c]].concat())).collect()
}

/// All slips of up to so many clauses.
pub fn all_slips(clauses: &[Clause], most: usize) -> Vec<Vec<Clause>> {
    let mut last = vec![Vec::new()];
    let mut all = Vec::new();
    for _ in 0..most {
        last = longer(&last, clauses);
        all.extend(last.iter().cloned());
    }
    all
}

/// Ends the run unless the bodies of the independent writer mean what their clauses do.
fn writer_means() {
    for propositions in [1, 2] {
        let clauses = clauses(propositions);
        match meaning::agree(&all_slips(&clauses, 3), &clauses, propositions) {
            Ok(count) => println!("{count} traces of {propositions} propositions are taken as the clauses mean"),
            Err(how) => {
                println!("the writer is wrong: {how}");
                std::process::exit(1);
            }
        }
    }
}

/// Holds every call to the independent writer, and the writer to the meaning; says whether everything has come up.
pub fn agree(seed: u64) -> bool {
    println!("seed {seed}");
    cases::fences_hold();
    writer_means();
    let mut desk = Desk { seed, cases: Cases::new(), tried: Vec::new(), seen: BTreeSet::new() };
    for propositions in 1..=6 {
        let most = if propositions < 3 { 3 } else { 2 };
        for slips in all_slips(&clauses(propositions), most) {
            desk.slips(&slips.concat(), propositions);
        }
    }
    let mut random = Random::new(!seed, 0);
    for _ in 0..TRIPLES {
        let propositions = random.between(3, 6) as u32;
        let clauses = clauses(propositions);
        desk.slips(&[(); 3].map(|()| random.pick(&clauses)).concat(), propositions);
    }
    for _ in 0..ODD {
        desk.odd(&mut random);
    }
    let (covered, tried) = (desk.covered(), desk.tried);
    if let Some(wrong) = desk.cases.end() {
        let (slips, propositions) = &tried[wrong.number as usize];
        println!(
            "slips {slips:?} over {propositions} propositions, call {} of cabinet_goal: {}",
            wrong.call, wrong.how
        );
        println!("DISAGREEMENT");
        std::process::exit(1);
    }
    println!("{} slips agree", tried.len());
    covered
}
