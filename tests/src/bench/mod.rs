//! Times the library's planning beside the same method in plain Rust and beside the oracle, in one run; and its other calls alone.

mod checks;
mod judges;
mod months;
mod plain;
mod slips;
mod table;

use crate::cases::{Cases, Side};
use crate::make::{self, known, Doubt};
use crate::oracle::Oracle;
use crate::report::Call;
use plain::Method;
use std::hint::black_box;
use std::time::Instant;

const SEED: u64 = 1;
/// Each time in the table is the median of so many, taken in turn.
const REPEATS: usize = 15;
/// Of the deepest tall jobs, where rounds take seconds, and of the rings of so many places so many.
const DEAR_REPEATS: usize = 3;
/// A time is taken over as many calls as fill this.
const SPAN: f64 = 0.005;

/// A planner under the clock, from job bytes to plan bytes: the seconds that so many calls take.
type Voice = fn(&mut Cases, &[u8], &mut [u8], u32) -> f64;

/// How many planners there are.
const COUNT: usize = 5;

/// One line of the table: times for one call, in seconds.
pub struct Line {
    name: &'static str,
    bytes: usize,
    places: usize,
    moves: usize,
    largest: usize,
    times: [f64; COUNT],
}

fn by_library(cases: &mut Cases, _: &[u8], _: &mut [u8], calls: u32) -> f64 {
    cases.time(Side::End, calls, 0, false)
}

fn by_second_engine(cases: &mut Cases, _: &[u8], _: &mut [u8], calls: u32) -> f64 {
    cases.time(Side::End, calls, 0, true)
}

fn by_plain(_: &mut Cases, job: &[u8], plan: &mut [u8], calls: u32) -> f64 {
    let start = Instant::now();
    for _ in 0..calls {
        assert_eq!(plain::plan(black_box(job), black_box(&mut *plan), Method::Rounds), 0);
    }
    start.elapsed().as_secs_f64()
}

fn by_plain_backward(_: &mut Cases, job: &[u8], plan: &mut [u8], calls: u32) -> f64 {
    let (mut index, mut counters) = (vec![0; 8_704], vec![0; 262_144]);
    let start = Instant::now();
    for _ in 0..calls {
        let method = Method::Backward { index: black_box(&mut index), counters: black_box(&mut counters) };
        assert_eq!(plain::plan(black_box(job), black_box(&mut *plan), method), 0);
    }
    start.elapsed().as_secs_f64()
}

fn by_oracle(_: &mut Cases, job: &[u8], plan: &mut [u8], calls: u32) -> f64 {
    let start = Instant::now();
    for _ in 0..calls {
        let oracle = Oracle::new(black_box(job));
        black_box(&mut *plan)[..oracle.plan.len()].copy_from_slice(&oracle.plan);
    }
    start.elapsed().as_secs_f64()
}

const VOICES: [Voice; COUNT] = [by_library, by_plain, by_second_engine, by_plain_backward, by_oracle];

/// How many calls fill the span.
fn calls(cases: &mut Cases, voice: Voice, job: &[u8], plan: &mut [u8]) -> u32 {
    let mut calls = 1;
    while voice(cases, job, plan, calls) < SPAN {
        calls *= 2;
    }
    calls
}

fn median(mut times: Vec<f64>) -> f64 {
    times.sort_by(f64::total_cmp);
    times[times.len() / 2]
}

fn measure(cases: &mut Cases, name: &'static str, job: &[u8], repeats: usize) -> Line {
    let oracle = Oracle::new(job);
    let mut plan = vec![0; 65_536];
    cases.due(&oracle.plan);
    cases.input(0, Side::End, job);
    cases.call(Call::Plan { plan_len: plan.len(), before: 0, side: Side::End }, [0; 5]);
    if let Ok(read) = &oracle.job {
        cases.due_index(&read.index(), read.counters());
        let (index_len, counters_len) = (read.index().len(), read.counters());
        let call = Call::Indexed { plan_len: plan.len(), before: 0, index_len, counters_len, side: Side::End };
        cases.call(call, [0; 5]);
    }
    for voice in [by_plain, by_plain_backward, by_oracle] as [Voice; 3] {
        plan.fill(0xAA);
        voice(cases, job, &mut plan, 1);
        assert!(plan.starts_with(&oracle.plan), "{name}: the planners differ");
    }
    let calls = VOICES.map(|voice| calls(cases, voice, job, &mut plan));
    let mut times = [(); COUNT].map(|()| Vec::new());
    for _ in 0..repeats {
        for (index, voice) in VOICES.into_iter().enumerate() {
            let taken = voice(cases, job, &mut plan, calls[index]);
            times[index].push(taken / f64::from(calls[index]));
        }
    }
    let read = oracle.job.as_ref().expect("a good job");
    let largest = oracle.entries.iter().map(|entry| entry.number).max().unwrap_or(0);
    let (places, moves) = (read.places(), read.moves.len());
    Line { name, bytes: job.len(), places, moves, largest, times: times.map(median) }
}

/// The programs are those of the report and of the listing, where they are given.
pub fn bench(date: &str, programs: &[String]) {
    let cases = &mut Cases::new();
    let jobs = [
        ("One plate", known::one_plate(), REPEATS),
        ("middling", make::middling(SEED), REPEATS),
        ("longest", make::longest(SEED), REPEATS),
        ("deepest, all winning", make::deepest(SEED, Doubt::None), REPEATS),
        ("deepest, all pending", make::deepest(SEED, Doubt::AtTheEnd), REPEATS),
        ("longest tall", make::longest_tall(SEED), REPEATS),
        ("deepest tall, all winning", make::deepest_tall(SEED, Doubt::None), DEAR_REPEATS),
        ("deepest tall, all pending", make::deepest_tall(SEED, Doubt::AtTheEnd), DEAR_REPEATS),
    ];
    let lines = jobs.each_ref().map(|(name, job, repeats)| measure(cases, name, job, *repeats));
    table::print(&lines, date, [REPEATS, DEAR_REPEATS]);
    println!();
    let rings = [2, 8, 32, 128, 512].map(|states| measure(cases, "ring", &make::ring(SEED, states), DEAR_REPEATS));
    table::growth(&rings);
    println!();
    checks::print(cases, &jobs);
    println!();
    // Rounds over larger places of the deepest jobs take minutes: those are left out.
    let short = jobs.each_ref().map(|(name, job, repeats)| (*name, job.clone(), *repeats));
    let short: Vec<_> = short.into_iter().filter(|(name, ..)| !name.starts_with("deepest")).collect();
    slips::print(cases, &short);
    println!();
    judges::print(cases);
    println!();
    if let [report, listing] = programs {
        months::print(report, listing);
        println!();
    }
    println!(
        "The longest Goal body from slips, three clauses over six propositions, is written in {}.",
        table::unit(longest_goal(cases))
    );
    println!();
    let [start, first, middle, last] = moving(cases, &make::longest(SEED)).map(table::unit);
    println!(
        "On the longest job starting takes {start}, which is reading it and no search; following takes {first} by its"
    );
    println!("first record, {middle} by the one in its middle and {last} by its last.");
}

/// The seconds for one call of starting, and of following the first record, the one in the middle and the last.
fn moving(cases: &mut Cases, job: &[u8]) -> [f64; 4] {
    const CALLS: u32 = 1_000;
    cases.input(0, Side::End, job);
    let moves = Oracle::new(job).job.expect("a good job").moves;
    let records = [0, moves.len() / 2, moves.len() - 1].map(|record| &moves[record]);
    let records = records.map(|one| [one.state, one.action, one.outcome].map(|field| field as u32));
    let mut times = [(); 4].map(|()| Vec::new());
    for _ in 0..REPEATS {
        times[0].push(cases.time_start(Side::End, CALLS));
        for (index, record) in records.into_iter().enumerate() {
            times[index + 1].push(cases.time_follow(Side::End, CALLS, record));
        }
    }
    times.map(|times| median(times) / f64::from(CALLS))
}

/// The seconds for one call that writes the longest Goal body.
fn longest_goal(cases: &mut Cases) -> f64 {
    const CALLS: u32 = 1_000;
    cases.input(0, Side::End, &[2, 0, 5, 3, 4, 1, 2, 3, 2]);
    median((0..REPEATS).map(|_| cases.time(Side::End, CALLS, 6, false) / f64::from(CALLS)).collect())
}
