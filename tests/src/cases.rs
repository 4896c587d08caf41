//! The calls to make, with the answers that are due, written as lines for the caller: a C program, linked with the library, that makes them.

use crate::oracle::Answer;
use crate::report::Call;
use std::io::{BufRead, BufReader, BufWriter, Read, Write};
use std::process::{Child, ChildStdout, Command, Stdio};

/// As much memory for a plan as the caller has between its fences.
pub const PLAN_SIZE: usize = 17 * 4_096;

/// As many words of an index and of counters as the caller has between its fences.
pub const INDEX_WORDS: usize = 5 * 2_048;
pub const COUNTERS_WORDS: usize = 130 * 2_048;

/// As much memory for plans for slips of the arm.
pub const LAYERS_SIZE: usize = 65 * 4_096;

/// Which end of the lent memory touches a fence.
#[derive(Clone, Copy, PartialEq, Eq)]
pub enum Side {
    End,
    Begin,
}

impl std::fmt::Display for Side {
    fn fmt(&self, to: &mut std::fmt::Formatter) -> std::fmt::Result {
        to.write_str(if *self == Side::End { "buffers end at a fence" } else { "buffers begin after a fence" })
    }
}

/// What a line asks of the caller.
#[derive(Clone, Copy)]
enum What {
    Input,
    Due,
    Lend,
    Plan,
    Start,
    Follow,
    Advice,
    Time,
    Goal,
    DueIndex,
    Indexed,
    Check,
    TimeStart,
    TimeFollow,
    TimeCheck,
    DueLayers,
    LendLayers,
    PlanSlips,
    AdviceSlips,
    TimeSlips,
    Judge,
    JudgeAll,
    TimeJudge,
    DuePairs,
    Salvage,
}

/// What went wrong: the number of the input, which of its calls it was, and how.
pub struct Wrong {
    pub number: u64,
    pub call: usize,
    pub how: String,
}

struct Caller {
    process: Child,
    answers: BufReader<ChildStdout>,
}

pub struct Cases {
    caller: Option<Caller>,
    to: Box<dyn Write>,
    /// The calls of the input under way.
    pub calls: Vec<Call>,
    /// How many calls there were in all.
    made: u64,
    /// The caller has stopped reading.
    pub broken: bool,
}

/// The words of CABINET_CALLER, which start the caller.
fn command() -> Command {
    let words = std::env::var("CABINET_CALLER").expect("set CABINET_CALLER to the command that starts the caller");
    let mut words = words.split_whitespace();
    let mut command = Command::new(words.next().expect("CABINET_CALLER names a program"));
    command.args(words).stdin(Stdio::null());
    command
}

/// Ends the run unless each of the caller's fences stops a step over it.
pub fn fences_hold() {
    for fence in 0..15 {
        let ended = command().arg(fence.to_string()).output().expect("the caller can be started");
        if !String::from_utf8_lossy(&ended.stdout).contains("memory fence touched") {
            println!("fence {fence} of the caller does not hold: it ended with {}", ended.status);
            std::process::exit(1);
        }
    }
}

impl Cases {
    /// Starts the caller.
    pub fn new() -> Cases {
        let mut process =
            command().stdin(Stdio::piped()).stdout(Stdio::piped()).spawn().expect("the caller can be started");
        let to = BufWriter::with_capacity(1 << 16, process.stdin.take().expect("a pipe"));
        let answers = BufReader::new(process.stdout.take().expect("a pipe"));
        Cases { caller: Some(Caller { process, answers }), to: Box::new(to), calls: Vec::new(), made: 0, broken: false }
    }

    /// Makes no calls.
    pub fn none() -> Cases {
        Cases { caller: None, to: Box::new(std::io::sink()), calls: Vec::new(), made: 0, broken: false }
    }

    fn line(&mut self, what: What, side: Side, bytes: &[u8], figures: [u32; 4], due: Answer) {
        let head = [what as u32, u32::from(side == Side::Begin), bytes.len() as u32];
        let mut text = [0; 48];
        for (word, place) in head.iter().chain(&figures).chain(&due).zip(text.chunks_mut(4)) {
            place.copy_from_slice(&word.to_le_bytes());
        }
        self.broken |= self.to.write_all(&text).is_err() || self.to.write_all(bytes).is_err();
    }

    pub fn input(&mut self, number: u64, side: Side, job: &[u8]) {
        self.line(What::Input, side, job, [number as u32, (number >> 32) as u32, 0, 0], [0; 5]);
    }

    /// The plan that planning has to leave.
    pub fn due(&mut self, plan: &[u8]) {
        self.line(What::Due, Side::Begin, plan, [0; 4], [0; 5]);
    }

    /// The index that planning with one has to leave, and how many counters it has to clear.
    pub fn due_index(&mut self, index: &[u16], counters: usize) {
        let bytes: Vec<u8> = index.iter().flat_map(|word| word.to_le_bytes()).collect();
        self.line(What::DueIndex, Side::Begin, &bytes, [counters as u32, 0, 0, 0], [0; 5]);
    }

    /// The pairs that salvaging has to list.
    pub fn due_pairs(&mut self, pairs: &[u8]) {
        self.line(What::DuePairs, Side::Begin, pairs, [0; 4], [0; 5]);
    }

    /// The bytes that advice and the check get as their plan, and judging as its trace.
    pub fn lend(&mut self, side: Side, plan: &[u8]) {
        self.line(What::Lend, side, plan, [0; 4], [0; 5]);
    }

    /// The plans that planning for slips of the arm has to leave.
    pub fn due_layers(&mut self, plans: &[u8]) {
        self.line(What::DueLayers, Side::Begin, plans, [0; 4], [0; 5]);
    }

    /// The bytes that advice for slips of the arm gets as its plans.
    pub fn lend_layers(&mut self, side: Side, plans: &[u8]) {
        self.line(What::LendLayers, side, plans, [0; 4], [0; 5]);
    }

    pub fn call(&mut self, call: Call, due: Answer) {
        let (what, side, figures) = match call {
            Call::Plan { plan_len, before, side } => (What::Plan, side, [plan_len as u32, before, 0, 0]),
            Call::Indexed { plan_len, before, index_len, counters_len, side } => {
                (What::Indexed, side, [plan_len as u32, before, index_len as u32, counters_len as u32])
            }
            Call::Start { side } => (What::Start, side, [0; 4]),
            Call::Follow { state, goal, action, outcome, side } => (What::Follow, side, [state, goal, action, outcome]),
            Call::Advice { state, goal, side, .. } => (What::Advice, side, [state, goal, 0, 0]),
            Call::Goal { room, before, propositions, side } => {
                (What::Goal, side, [room as u32, before, propositions, 0])
            }
            Call::Check { side, .. } => (What::Check, side, [0; 4]),
            Call::PlanSlips { slips, plan_len, before, side } => {
                (What::PlanSlips, side, [plan_len as u32, before, slips, 0])
            }
            Call::AdviceSlips { slips, place: [state, goal, left], side, .. } => {
                (What::AdviceSlips, side, [slips, state, goal, left])
            }
            Call::Judge { side, .. } => (What::Judge, side, [0; 4]),
            Call::Salvage { room, before, pairs_room, side } => {
                (What::Salvage, side, [room as u32, before, pairs_room as u32, 0])
            }
        };
        self.line(what, side, &[], figures, due);
        self.calls.push(call);
        self.made += 1;
    }

    /// Judges the formula over every trace of labels below a bound, up to a length, in counting order: a byte for each is due.
    pub fn judge_all(&mut self, side: Side, labels: u32, longest: u32, refusal: u32, due: &[u8]) {
        self.line(What::JudgeAll, side, due, [labels, longest, 0, 0], [refusal, 0, 0, 0, 0]);
        self.made += due.len() as u64;
    }

    /// The seconds that so many judgements of the formula over the trace that was lent take.
    pub fn time_judge(&mut self, side: Side, times: u32) -> f64 {
        self.timed(What::TimeJudge, side, [times, 0, 0, 0])
    }

    /// The seconds that so many calls of planning take, by the second engine where it is asked for, or of writing a goal over so many propositions.
    pub fn time(&mut self, side: Side, times: u32, propositions: u32, indexed: bool) -> f64 {
        self.timed(What::Time, side, [times, propositions, u32::from(indexed), 0])
    }

    /// The seconds that so many calls of starting take.
    pub fn time_start(&mut self, side: Side, times: u32) -> f64 {
        self.timed(What::TimeStart, side, [times, 0, 0, 0])
    }

    /// The seconds that so many calls of following this state, action and outcome take.
    pub fn time_follow(&mut self, side: Side, times: u32, [state, action, outcome]: [u32; 3]) -> f64 {
        self.timed(What::TimeFollow, side, [times, state, action, outcome])
    }

    /// The seconds that so many checks of the plan that was lent take.
    pub fn time_check(&mut self, side: Side, times: u32) -> f64 {
        self.timed(What::TimeCheck, side, [times, 0, 0, 0])
    }

    /// The seconds that so many calls of planning for so many slips take.
    pub fn time_slips(&mut self, side: Side, times: u32, slips: u32) -> f64 {
        self.timed(What::TimeSlips, side, [times, slips, 0, 0])
    }

    /// How many calls there were in all.
    pub fn made(&self) -> u64 {
        self.made
    }

    fn timed(&mut self, what: What, side: Side, figures: [u32; 4]) -> f64 {
        self.line(what, side, &[], figures, [0; 5]);
        let mut text = String::new();
        let answers = &mut self.caller.as_mut().expect("a caller").answers;
        self.to.flush().and_then(|()| answers.read_line(&mut text)).expect("the caller answers");
        text.trim().parse::<f64>().expect("a time") * 1e-9
    }

    /// Waits until all calls are made, and says what went wrong.
    pub fn end(mut self) -> Option<Wrong> {
        let mut caller = self.caller.take()?;
        self.broken |= self.to.flush().is_err();
        self.to = Box::new(std::io::sink());
        let mut text = String::new();
        caller.answers.read_to_string(&mut text).expect("the caller says words");
        let status = caller.process.wait().expect("the caller ends");
        if status.success() && !self.broken && text == format!("{} calls made\n", self.made) {
            return None;
        }
        let mut words = text.trim().splitn(3, ' ');
        let number = words.next().and_then(|word| word.parse().ok());
        let call = words.next().and_then(|word| word.parse().ok());
        let (Some(number), Some(call), Some(how)) = (number, call, words.next()) else {
            println!("the caller ended with {status} and said: {text}");
            std::process::exit(1)
        };
        Some(Wrong { number, call, how: how.to_string() })
    }
}
