//! Times the report of a bundle of 64 jobs beside 64 listings, each program with its start.

use super::{median, table, DEAR_REPEATS, SEED};
use crate::listings::printed;
use crate::make;
use crate::months::bundle;
use crate::oracle;
use std::time::{Duration, Instant};

const JOBS: usize = 64;

/// The seconds that a program takes on these bytes.
fn taken(program: &str, input: &[u8], due: &str) -> f64 {
    let start = Instant::now();
    let output = printed(&[program.to_string()], input, &[], Duration::ZERO);
    let seconds = start.elapsed().as_secs_f64();
    assert_eq!(output.stdout, due.as_bytes(), "{program} prints something else");
    seconds
}

pub fn print(report: &str, listing: &str) {
    println!("Time for the report of a bundle of {JOBS} jobs, beside {JOBS} listings, each with the program's start, the median of {DEAR_REPEATS}.");
    println!();
    println!("| {JOBS} jobs | bytes of the bundle | report | {JOBS} listings | listings / report |");
    println!("|---|---:|---:|---:|---:|");
    for (name, job) in [("longest", make::longest(SEED)), ("longest tall", make::longest_tall(SEED))] {
        let all = bundle(&vec![job.clone(); JOBS]);
        let (text, lines) = (oracle::report(&all), oracle::listing(&job));
        let mut times = [Vec::new(), Vec::new()];
        for _ in 0..DEAR_REPEATS {
            times[0].push(taken(report, &all, &text));
            times[1].push((0..JOBS).map(|_| taken(listing, &job, &lines)).sum());
        }
        let [report, listings] = times.map(median);
        print!("| {name} | {} | {} | {} ", all.len(), table::unit(report), table::unit(listings));
        println!("| {:.1} |", listings / report);
    }
}
