//! Times judging at the limits: 64 nodes under three nested walks over 64 labels.

use super::{median, table, REPEATS};
use crate::cases::{Cases, Side};
use crate::judging;
use crate::report::Call;

/// The seconds for one judgement.
fn time(cases: &mut Cases, formula: &[u8], trace: &[u8], holds: u32) -> f64 {
    const CALLS: u32 = 8;
    cases.input(0, Side::End, formula);
    cases.lend(Side::End, trace);
    cases.call(Call::Judge { trace_len: trace.len(), side: Side::End }, [0, holds, 0, 0, 0]);
    median((0..REPEATS).map(|_| cases.time_judge(Side::End, CALLS) / f64::from(CALLS)).collect())
}

pub fn print(cases: &mut Cases) {
    println!("Judging 64 nodes over 64 labels, where each of three nested walks goes to the last label: the most that there is to do.");
    println!();
    println!("| walks | time |");
    println!("|---|---:|");
    for (name, walk, holds) in [("always", 22, 1), ("eventually", 21, 0), ("until", 19, 1)] {
        let (formula, trace) = judging::worst(walk);
        println!("| {name} | {} |", table::unit(time(cases, &formula, &trace, holds)));
    }
    let (response, log) = ([22, 16, 17, 0, 16, 21, 1], [2; 64]);
    println!();
    println!("A response clause over 64 labels takes {}.", table::unit(time(cases, &response, &log, 1)));
}
