//! Recorded runs judged: every answer beside an evaluator over trees, and the clauses of slips beside their automata.

mod make;
mod tree;

use crate::cases::{self, Cases, Side};
use crate::oracle::{DEEP, FORMULA, LETTER, TRACE};
use crate::random::Random;
use crate::report::Call;
use crate::slips::{all_slips, clauses, meaning, writer};
use std::collections::BTreeSet;
use std::io::Read;

/// Random formulas, damaged ones, and slips of three clauses.
const RANDOM: usize = 12_000;
const SPOILT: usize = 30_000;
const TRIPLES: usize = 400;

struct Desk {
    cases: Cases,
    /// The formulas and traces that were tried; where all short traces were, none is named.
    tried: Vec<(Vec<u8>, Vec<u8>)>,
    /// The answers that have come up, each with the first byte of its formula.
    seen: BTreeSet<((u32, u32), Option<u8>)>,
}

impl Desk {
    fn due(&mut self, formula: &[u8], trace: &[u8], due: (u32, u32)) {
        let number = self.tried.len() as u64;
        self.tried.push((formula.to_vec(), trace.to_vec()));
        self.seen.insert((due, formula.first().copied()));
        self.cases.calls.clear();
        for side in [Side::End, Side::Begin] {
            self.cases.input(number, side, formula);
            self.cases.lend(side, trace);
            self.cases.call(Call::Judge { trace_len: trace.len(), side }, [due.0, due.1, 0, 0, 0]);
        }
    }

    fn judge(&mut self, formula: &[u8], trace: &[u8]) {
        self.due(formula, trace, tree::answer(formula, trace));
    }

    /// The formula over all of these traces: every one of labels below a bound, up to a length.
    fn judge_all(&mut self, formula: &[u8], traces: &[Vec<u8>], labels: u32, longest: u32) {
        let answers: Vec<(u32, u32)> = traces.iter().map(|trace| tree::answer(formula, trace)).collect();
        self.seen.extend(answers.iter().map(|&answer| (answer, Some(formula[0]))));
        let due: Vec<u8> = answers.iter().map(|&(_, holds)| holds as u8).collect();
        self.cases.input(self.tried.len() as u64, Side::End, formula);
        self.cases.judge_all(Side::End, labels, longest, answers[0].0, &due);
        self.tried.push((formula.to_vec(), Vec::new()));
    }

    /// The slips' formula is judged as the body says that is written from them, which the call that writes it is held to.
    fn slips(&mut self, slips: &[writer::Clause], propositions: u32, random: &mut Random) {
        let body = writer::body(slips, propositions);
        self.cases.due(&body);
        self.cases.input(self.tried.len() as u64, Side::End, &slips.concat());
        let call = Call::Goal { room: body.len(), before: 0, propositions, side: Side::End };
        self.cases.call(call, [0, body.len() as u32, 0, 0, 0]);
        let labels = 1 << propositions;
        for length in [1, 2, 3, random.between(4, 63), 64] {
            let trace: Vec<u8> = (0..length).map(|_| random.below(labels) as u8).collect();
            let takes = meaning::takes(&body, 3usize.pow(slips.len() as u32), labels, &trace);
            let formula = make::slips(slips);
            assert_eq!(tree::answer(&formula, &trace), (0, u32::from(takes)), "the two voices differ on {slips:?}");
            self.due(&formula, &trace, (0, u32::from(takes)));
        }
    }

    fn covered(&self) -> bool {
        let roots = [0, 1, 16, 17, 18, 19, 20, 21, 22];
        let answers = [(0, 0), (0, 1), (TRACE, 0), (LETTER, 0)];
        roots.iter().all(|&root| answers.iter().all(|&answer| self.seen.contains(&(answer, Some(root)))))
            && [None, Some(0), Some(6), Some(15), Some(17), Some(23), Some(255)]
                .iter()
                .all(|&root| self.seen.contains(&((FORMULA, 0), root)))
            && [16, 17, 18, 19, 20, 21, 22].iter().all(|&root| self.seen.contains(&((DEEP, 0), Some(root))))
    }
}

fn trace(random: &mut Random, longest: usize) -> Vec<u8> {
    let few = random.once_in(2);
    (0..random.between(1, longest)).map(|_| random.below(if few { 4 } else { 64 }) as u8).collect()
}

/// A formula of 64 nodes with three nested walks that each go to the last of 64 labels, of this operator.
pub fn worst(walk: u8) -> (Vec<u8>, Vec<u8>) {
    let head = if walk == 19 { [vec![16], [19, 0].repeat(3)].concat() } else { vec![walk; 3] };
    let ands = (64 - head.len() - 1) / 2;
    let formula = [head, vec![17; ands], vec![if walk == 22 { 0 } else { 1 }; ands + 1]].concat();
    (formula, vec![1; 64])
}

fn fixed(desk: &mut Desk) {
    let traces = meaning::traces(4, 4);
    for formula in make::all(5, 2) {
        desk.judge_all(&formula, &traces, 4, 4);
    }
    for walk in [19, 21, 22] {
        let (formula, trace) = worst(walk);
        desk.judge(&formula, &trace);
    }
    for formula in [
        vec![],
        vec![0],
        vec![22; 64],
        [vec![16; 63], vec![3]].concat(),
        [vec![16; 64], vec![3]].concat(),
        vec![0; 3_000],
    ] {
        for length in [0, 1, 2, 63, 64, 65, 3_000] {
            for label in [0, 8, 63, 64, 128, 255] {
                desk.judge(&formula, &vec![label; length]);
            }
        }
    }
}

fn mixed(desk: &mut Desk, seed: u64) {
    let mut random = Random::new(seed, 12);
    for _ in 0..RANDOM {
        let nodes = if random.once_in(3) { random.between(50, 64) } else { random.between(1, 20) };
        let depth = random.pick(&[0, 1, 2, 2, 3]);
        let formula = make::some(&mut random, nodes, depth);
        let longest = if depth == 3 { 24 } else { 64 };
        let trace = trace(&mut random, longest);
        desk.judge(&formula, &trace);
    }
    for _ in 0..SPOILT {
        let nodes = random.between(1, 12);
        let depth = random.pick(&[0, 2, 3]);
        let mut formula = make::some(&mut random, nodes, depth);
        let mut trace = trace(&mut random, 6);
        for _ in 0..random.between(0, 2) {
            if !formula.is_empty() {
                make::spoil(&mut random, &mut formula);
            }
        }
        let at = random.below(trace.len());
        match random.below(8) {
            0 => trace.clear(),
            1 => trace.resize(random.pick(&[65, 66, 256, 5_000]), 0),
            2 => trace[at] = random.pick(&[64, 65, 128, 129, 255]),
            _ => {}
        }
        desk.judge(&formula, &trace);
    }
    for propositions in [1, 2] {
        for slips in all_slips(&clauses(propositions), 2) {
            desk.slips(&slips, propositions, &mut random);
        }
    }
    for _ in 0..TRIPLES {
        let propositions = random.between(1, 6) as u32;
        let clauses = clauses(propositions);
        desk.slips(&[(); 3].map(|()| random.pick(&clauses)), propositions, &mut random);
    }
}

/// Holds every call to the evaluator over trees; says whether everything has come up.
pub fn agree(seed: u64) -> bool {
    println!("seed {seed}");
    cases::fences_hold();
    let mut desk = Desk { cases: Cases::new(), tried: Vec::new(), seen: BTreeSet::new() };
    fixed(&mut desk);
    mixed(&mut desk, seed);
    let (covered, made, tried) = (desk.covered(), desk.cases.made(), desk.tried);
    if let Some(wrong) = desk.cases.end() {
        let (formula, trace) = &tried[wrong.number as usize];
        println!("formula {formula:?}, trace {trace:?}, call {} of cabinet_judge: {}", wrong.call, wrong.how);
        println!("DISAGREEMENT");
        std::process::exit(1);
    }
    println!("{made} judgements agree");
    covered
}

/// The numbers of a line, as far as judging can tell them apart, or none where it is no list of numbers.
fn numbers(line: &str) -> Option<Vec<u8>> {
    let number = |word: &str| word.bytes().all(|byte| byte.is_ascii_digit()).then(|| word.parse().unwrap_or(255));
    line.split([' ', '\t', '\r']).filter(|word| !word.is_empty()).map(number).collect()
}

/// The line that the program that judges a run has to print of its input.
pub fn told() -> String {
    let mut input = Vec::new();
    std::io::stdin().read_to_end(&mut input).expect("standard input can be read");
    let text = String::from_utf8_lossy(&input);
    let mut lines = text.splitn(3, '\n');
    let (first, second) = (lines.next().unwrap_or(""), lines.next().unwrap_or(""));
    if input.len() >= 262_144 {
        return "the input is too long".to_string();
    }
    if lines.next().is_some_and(|rest| !rest.is_empty()) {
        return "there are more than two lines".to_string();
    }
    let Some(formula) = numbers(first) else { return "the first line is no list of numbers".to_string() };
    let Some(trace) = numbers(second) else { return "the second line is no list of numbers".to_string() };
    match tree::answer(&formula, &trace) {
        (0, 1) => "holds".to_string(),
        (0, _) => "does not hold".to_string(),
        (refusal, _) => format!("refused {refusal}"),
    }
}
