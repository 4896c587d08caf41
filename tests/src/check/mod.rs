//! Tries one input in all ways: every call, on memory that ends at a fence and on memory that begins after one.

mod advising;
mod figures;
mod indexing;
mod known;
mod moving;
mod planning;
mod tally;

use crate::brute;
use crate::cases::{Cases, Side};
use crate::make;
use crate::oracle::{Answer, Job, Oracle};
use crate::random::Random;
use crate::report::{self, Call, Input};
pub use known::known;
use tally::Tally;

/// Where the calls of a run go, and what has been counted so far.
pub struct Desk {
    pub cases: Cases,
    pub tally: Tally,
}

/// One input on one side of the fences.
struct Trial<'a> {
    side: Side,
    oracle: &'a Oracle,
    cases: &'a mut Cases,
    random: Random,
    tally: &'a mut Tally,
}

impl Trial<'_> {
    fn call(&mut self, call: Call, due: Answer) {
        self.tally.answer(due[0]);
        self.cases.call(call, due);
    }
}

impl Desk {
    pub fn new(cases: Cases) -> Desk {
        Desk { cases, tally: Tally::default() }
    }

    pub fn check(&mut self, input: &Input) {
        let oracle = Oracle::new(&input.job);
        self.tally.input(input.kind, &oracle);
        if let Ok(job) = &oracle.job {
            self.third_voice(input, job, &oracle);
            self.cases.due_index(&job.index(), job.counters());
        }
        self.cases.calls.clear();
        self.cases.due(&oracle.plan);
        for side in [Side::End, Side::Begin] {
            self.all_calls(input, &input.job, side, &oracle);
        }
        self.in_the_tall_form(input, &oracle);
    }

    /// Every call on these bytes, held to the oracle's answers.
    fn all_calls(&mut self, input: &Input, job: &[u8], side: Side, oracle: &Oracle) {
        self.cases.input(input.number, side, job);
        let mut trial = Trial {
            side,
            oracle,
            cases: &mut self.cases,
            random: Random::new(!input.seed, 2 * input.number + u64::from(side == Side::End)),
            tally: &mut self.tally,
        };
        trial.planning();
        trial.indexing();
        trial.moving();
        trial.advising();
    }

    /// A good job of the old form, rewritten in the tall one, has the same plan and gets the same answers.
    fn in_the_tall_form(&mut self, input: &Input, oracle: &Oracle) {
        let Ok(Job { tall: false, .. }) = oracle.job else { return };
        let job = make::in_the_tall_form(&input.job);
        let same = Oracle::new(&job);
        if same.refusal() != 0 || same.plan != oracle.plan || same.start() != oracle.start() {
            report::stop(input, None, "the oracle is wrong: it tells the two forms of a job apart");
        }
        self.tally.rewritten += 1;
        self.all_calls(input, &job, Side::Begin, oracle);
    }

    /// On tiny jobs the oracle itself is compared with the meaning of its values and numbers.
    fn third_voice(&mut self, input: &Input, job: &Job, oracle: &Oracle) {
        if brute::tiny(job) {
            self.tally.brute += 1;
            let meant = brute::entries(job);
            let said = oracle.entries.iter().enumerate().map(|(place, &entry)| (entry, oracle.actions(job, place)));
            if !said.eq(meant.iter().cloned()) {
                let wrong = format!("the oracle is wrong: it says {:?}, meant is {meant:?}", oracle.entries);
                report::stop(input, None, &wrong);
            }
        }
    }
}
