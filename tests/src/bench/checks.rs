//! Times the check of a plan beside planning, in turn.

use super::{median, table, SPAN};
use crate::cases::{Cases, Side};
use crate::oracle::Oracle;
use crate::report::Call;

/// The seconds for one call of planning and for one check of the plan, which passes.
fn times(cases: &mut Cases, job: &[u8], repeats: usize) -> [f64; 2] {
    let oracle = Oracle::new(job);
    cases.due(&oracle.plan);
    cases.input(0, Side::End, job);
    let mut taken = |check: bool, calls: u32| {
        if check {
            // Planning has written over the plan that was lent.
            cases.lend(Side::End, &oracle.plan);
            cases.call(Call::Check { plan_len: oracle.plan.len(), side: Side::End }, [0; 5]);
            cases.time_check(Side::End, calls)
        } else {
            cases.time(Side::End, calls, 0, false)
        }
    };
    let calls = [false, true].map(|check| {
        let mut calls = 1;
        while taken(check, calls) < SPAN {
            calls *= 2;
        }
        calls
    });
    let mut all = [Vec::new(), Vec::new()];
    for _ in 0..repeats {
        for check in [false, true] {
            let index = usize::from(check);
            all[index].push(taken(check, calls[index]) / f64::from(calls[index]));
        }
    }
    all.map(median)
}

pub fn print(cases: &mut Cases, jobs: &[(&str, Vec<u8>, usize)]) {
    println!("Time for one check of a plan that passes, beside planning; the check plans the job for itself.");
    println!();
    println!("| job | planning | check | check / planning |");
    println!("|---|---:|---:|---:|");
    for (name, job, repeats) in jobs {
        let [planning, check] = times(cases, job, *repeats);
        println!("| {name} | {} | {} | {:.3} |", table::unit(planning), table::unit(check), check / planning);
    }
}
