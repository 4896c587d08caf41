//! Ends the run with all that is known when an answer is wrong.

use crate::cases::Side;
use std::fmt::{Display, Formatter, Result, Write};

/// One input of the run.
#[derive(Clone)]
pub struct Input {
    pub seed: u64,
    pub number: u64,
    pub kind: &'static str,
    pub job: Vec<u8>,
}

/// A call with what it was given besides the job; lent memory touches a fence on the side named.
#[derive(Clone, Copy)]
pub enum Call {
    /// The bytes before it are chosen by a figure.
    Plan {
        plan_len: usize,
        before: u32,
        side: Side,
    },
    /// Planning with an index: lengths in bytes and in words; what all three buffers hold before is chosen by a figure.
    Indexed {
        plan_len: usize,
        before: u32,
        index_len: usize,
        counters_len: usize,
        side: Side,
    },
    Start {
        side: Side,
    },
    Follow {
        state: u32,
        goal: u32,
        action: u32,
        outcome: u32,
        side: Side,
    },
    Advice {
        plan_len: usize,
        state: u32,
        goal: u32,
        asked_entry: Option<[u8; 4]>,
        side: Side,
    },
    /// Slips stand in the job's place; the bytes before it are chosen by a figure.
    Goal {
        room: usize,
        before: u32,
        propositions: u32,
        side: Side,
    },
    Check {
        plan_len: usize,
        side: Side,
    },
    /// Planning for slips of the arm; the bytes before it are chosen by a figure.
    PlanSlips {
        slips: u32,
        plan_len: usize,
        before: u32,
        side: Side,
    },
    /// Advice there, at a state and a goal state with so many slips left.
    AdviceSlips {
        slips: u32,
        plan_len: usize,
        place: [u32; 3],
        side: Side,
    },
    /// A formula stands in the job's place, and a trace in the plan's.
    Judge {
        trace_len: usize,
        side: Side,
    },
    /// The bytes before it in both outputs are chosen by a figure.
    Salvage {
        room: usize,
        before: u32,
        pairs_room: usize,
        side: Side,
    },
}

impl Display for Call {
    fn fmt(&self, to: &mut Formatter) -> Result {
        match self {
            Call::Plan { plan_len, side, .. } => write!(to, "cabinet_plan, plan_len {plan_len}; {side}"),
            Call::Indexed { plan_len, index_len, counters_len, side, .. } => {
                write!(to, "cabinet_plan_indexed, plan_len {plan_len}, index_len {index_len}, ")?;
                write!(to, "counters_len {counters_len}; {side}")
            }
            Call::Start { side } => write!(to, "cabinet_start; {side}"),
            Call::Follow { state, goal, action, outcome, side } => {
                write!(to, "cabinet_follow, state {state}, goal {goal}, action {action}, outcome {outcome}; {side}")
            }
            Call::Advice { plan_len, state, goal, asked_entry, side } => {
                write!(to, "cabinet_advice, plan_len {plan_len}, state {state}, goal {goal}; ")?;
                write!(to, "bytes of that entry {asked_entry:?}; {side}")
            }
            Call::Goal { room, propositions, side, .. } => {
                write!(to, "cabinet_goal, propositions {propositions}, goal_len {room}; {side}")
            }
            Call::Check { plan_len, side } => write!(to, "cabinet_check, plan_len {plan_len}; {side}"),
            Call::PlanSlips { slips, plan_len, side, .. } => {
                write!(to, "cabinet_plan_slips, slips {slips}, plan_len {plan_len}; {side}")
            }
            Call::AdviceSlips { slips, plan_len, place: [state, goal, left], side } => {
                write!(to, "cabinet_advice_slips, slips {slips}, plan_len {plan_len}, state {state}, goal {goal}, ")?;
                write!(to, "left {left}; {side}")
            }
            Call::Judge { trace_len, side } => write!(to, "cabinet_judge, trace_len {trace_len}; {side}"),
            Call::Salvage { room, pairs_room, side, .. } => {
                write!(to, "cabinet_salvage, salvaged_len {room}, pairs_len {pairs_room}; {side}")
            }
        }
    }
}

pub fn hex(bytes: &[u8]) -> String {
    bytes.iter().fold(String::new(), |mut text, byte| {
        let _ = write!(text, "{byte:02X}");
        text
    })
}

/// Prints the input and the call, with what went wrong, and ends the run with status 1.
pub fn stop(input: &Input, call: Option<&Call>, wrong: &str) -> ! {
    println!("seed {}, input {} ({})", input.seed, input.number, input.kind);
    println!("job, {} bytes: {}", input.job.len(), hex(&input.job));
    if let Some(call) = call {
        println!("call: {call}");
    }
    println!("{wrong}");
    println!("DISAGREEMENT");
    std::process::exit(1)
}
