//! Times planning for slips of the arm, K from 0 to 3, beside planning, in turn.

use super::{median, table, SPAN};
use crate::cases::{Cases, Side};

/// The seconds for one call of planning, and for one for each count of slips.
fn times(cases: &mut Cases, job: &[u8], repeats: usize) -> [f64; 5] {
    cases.input(0, Side::End, job);
    let mut taken = |voice: u32, calls: u32| match voice {
        0 => cases.time(Side::End, calls, 0, false),
        _ => cases.time_slips(Side::End, calls, voice - 1),
    };
    let calls = [0, 1, 2, 3, 4].map(|voice| {
        let mut calls = 1;
        while taken(voice, calls) < SPAN {
            calls *= 2;
        }
        calls
    });
    let mut all = [(); 5].map(|()| Vec::new());
    for _ in 0..repeats {
        for voice in 0..5 {
            all[voice].push(taken(voice as u32, calls[voice]) / f64::from(calls[voice]));
        }
    }
    all.map(median)
}

pub fn print(cases: &mut Cases, jobs: &[(&str, Vec<u8>, usize)]) {
    println!("Time for one call of planning for slips of the arm, beside planning; K slips are K + 1 plans.");
    println!();
    println!("| job | planning | K = 0 | K = 1 | K = 2 | K = 3 | K = 0 / planning |");
    println!("|---|---:|---:|---:|---:|---:|---:|");
    for (name, job, repeats) in jobs {
        let times = times(cases, job, *repeats);
        println!("| {name} | {} | {:.3} |", times.map(table::unit).join(" | "), times[1] / times[0]);
    }
}
