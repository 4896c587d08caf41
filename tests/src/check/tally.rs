//! Counts what a run has tried, so that its end can say how much was covered.

use crate::oracle::{Answer, Oracle, Refused, FIELD, ORDER, WINNING};
use std::collections::{BTreeMap, BTreeSet};

#[derive(Default)]
pub struct Tally {
    inputs: u64,
    kinds: BTreeMap<&'static str, u64>,
    /// Refusals of jobs, 0 for the good ones.
    jobs: [u64; 14],
    /// Answers of all calls by refusal.
    answers: [u64; 18],
    /// Entries: losing, pending, winning but not accepted, accepted.
    entries: [u64; 4],
    /// Entries where the goal state is final and the state busy: losing, pending, winning.
    busy: [u64; 3],
    largest: usize,
    labels_possible: BTreeSet<usize>,
    goals: BTreeSet<usize>,
    pub brute: u64,
    /// Good jobs that came in the tall form, those of them that the old form has no room for, and old ones that were rewritten.
    tall: [u64; 2],
    pub rewritten: u64,
    /// The bad records that were named, with the number that named them.
    records: BTreeSet<(u32, u32)>,
    /// The records that were followed.
    followed: BTreeSet<u32>,
}

impl Tally {
    pub fn input(&mut self, kind: &'static str, oracle: &Oracle) {
        self.inputs += 1;
        *self.kinds.entry(kind).or_default() += 1;
        self.jobs[oracle.refusal() as usize] += 1;
        let Refused { number, record } = oracle.refused();
        if [FIELD, ORDER].contains(&number) {
            self.records.insert((number, record));
        }
        if let Ok(job) = &oracle.job {
            self.labels_possible.insert(job.labels_possible);
            self.goals.insert(job.goals);
            self.tall[0] += u64::from(job.tall);
            self.tall[1] += u64::from(job.states > 128);
            let held = |place: &usize| job.last[place % job.goals] && job.busy[place / job.goals];
            for place in (0..job.places()).filter(held) {
                self.busy[usize::from(oracle.entries[place].value)] += 1;
            }
        }
        for entry in &oracle.entries {
            let accepted = usize::from(entry.value == WINNING && entry.number == 0);
            self.entries[usize::from(entry.value) + accepted] += 1;
            self.largest = self.largest.max(entry.number);
        }
    }

    pub fn answer(&mut self, refusal: u32) {
        if let Some(count) = self.answers.get_mut(refusal as usize) {
            *count += 1;
        }
    }

    /// What following answered.
    pub fn followed(&mut self, [refusal, _, _, record, _]: Answer) {
        if refusal == 0 {
            self.followed.insert(record);
        }
    }

    /// Whether this number has named such a record.
    fn bad(&self, number: u32, such: impl Fn(u32) -> bool) -> bool {
        self.records.iter().any(|&(by, record)| by == number && such(record))
    }

    /// Whether every answer, every value, final and busy places of every value, the largest number that there can be, every count of
    /// propositions and goal states, and the first and the last record that can be followed have come up.
    pub fn covered(&self) -> bool {
        let answers = self.answers.iter().enumerate().filter(|(_, &count)| count > 0);
        let answers: Vec<usize> = answers.map(|(refusal, _)| refusal).collect();
        answers == [0, 1, 2, 3, 4, 5, 6, 7, 9, 10, 11, 12, 13, 17]
            && self.entries.iter().all(|&count| count > 0)
            && self.busy.iter().all(|&count| count > 0)
            && self.largest == 512 * 32 - 1
            && self.tall.iter().all(|&count| count > 0)
            && self.rewritten > 0
            && self.labels_possible.len() == 7
            && self.goals.len() == 32
            && self.brute > 0
            && [FIELD, ORDER].iter().all(|&number| self.bad(number, |record| record > 4_095))
            && self.bad(FIELD, |record| record == 0)
            && self.bad(ORDER, |record| record == 1)
            && [0, 4_095, 8_191].iter().all(|record| self.followed.contains(record))
    }

    pub fn print(&self) {
        println!("kinds of input:");
        for (kind, count) in &self.kinds {
            println!("  {kind}: {count}");
        }
        let list = |counts: &[u64]| {
            let each = counts.iter().enumerate().filter(|(_, &count)| count > 0);
            each.map(|(refusal, count)| format!("{refusal}: {count}")).collect::<Vec<_>>().join(", ")
        };
        println!("jobs by refusal (0 is good): {}", list(&self.jobs));
        println!("calls by answer (0 is good): {}", list(&self.answers));
        println!("calls in all: {}", self.answers.iter().sum::<u64>());
        let [losing, pending, winning, accepted] = self.entries;
        println!("entries: {losing} losing, {pending} pending, {winning} winning, {accepted} accepted");
        let [losing, pending, winning] = self.busy;
        println!("of final, busy places: {losing} losing, {pending} pending, {winning} winning");
        println!("largest number: {}", self.largest);
        let (propositions, goals) = (self.labels_possible.len(), self.goals.len());
        println!("good jobs had {propositions} of 7 counts of propositions, {goals} of 32 counts of goal states");
        let [tall, wide] = self.tall;
        println!(
            "good jobs in the tall form: {tall}, {wide} of them with more than 128 states; old ones rewritten: {}",
            self.rewritten
        );
        println!("bad records named: {}", self.records.len());
        println!("different records followed: {}", self.followed.len());
        println!("oracle compared with the meaning itself: {} jobs", self.brute);
        println!("{} inputs agree", self.inputs);
    }
}
