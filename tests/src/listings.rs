//! Runs the listing program on many jobs, some with their bytes in pieces, and holds what it prints to the oracle's listing.

use crate::make::{self, Inputs};
use crate::oracle;
use crate::random::Random;
use crate::report::{self, Input};
use std::io::Write;
use std::process::{Command, Output, Stdio};
use std::time::{Duration, Instant};

/// Jobs of the ordinary run: the first ones and some of the mixed ones; and those made for the listing, beside the edges.
const GIVEN: u64 = 30;
const MIXED: u64 = 300;
const MADE: u64 = 300;
/// One in so many is handed over in pieces.
const IN_PIECES: u64 = 15;

/// What has to have come up in the texts: the lines of the largest plan, figures of several digits, every value and every refusal.
#[derive(Default)]
struct Seen {
    largest_plan: bool,
    number: usize,
    actions: std::collections::BTreeSet<usize>,
    words: std::collections::BTreeSet<String>,
    overlong: bool,
}

impl Seen {
    fn text(&mut self, text: &str) {
        self.largest_plan |= text.lines().count() == 16_385;
        for line in text.lines() {
            let words: Vec<&str> = line.split(' ').collect();
            match words[..] {
                ["refused", number] => self.words.insert(format!("refused {number}")),
                ["refused", number, record] => self.words.insert(format!("refused {number} {}", record.len() > 1)),
                ["start", _, _, value] => self.words.insert(format!("start {value}")),
                [_, _, value, action, number] => {
                    self.number = self.number.max(number.parse().unwrap_or(0));
                    self.actions.extend(action.parse::<usize>());
                    self.words.insert(format!("{value} {}", if action == "-" { "-" } else { "action" }))
                }
                _ => false,
            };
        }
    }

    /// Whether everything that a text can hold has come up.
    fn covered(&self) -> bool {
        let values = [
            "losing -",
            "pending action",
            "winning -",
            "winning action",
            "start losing",
            "start pending",
            "start winning",
        ];
        let refusals = (1..=6).map(|refusal| format!("refused {refusal}"));
        let records = [12, 13].map(|refusal| [true, false].map(|long| format!("refused {refusal} {long}"))).concat();
        let words = values.map(String::from).into_iter().chain(refusals).chain(records);
        let missing: Vec<String> = words.filter(|word| !self.words.contains(word)).collect();
        let actions: Vec<usize> = (0..16).filter(|action| !self.actions.contains(action)).collect();
        let all = missing.is_empty() && actions.is_empty() && self.largest_plan && self.number > 999 && self.overlong;
        if !all {
            println!("missing words {missing:?} and actions {actions:?}; largest number {}", self.number);
        }
        all
    }
}

/// What the program prints for these bytes, with a pause before each of the places where they are cut.
pub fn printed(words: &[String], job: &[u8], cuts: &[usize], pause: Duration) -> Output {
    let mut command = Command::new(&words[0]);
    command.args(&words[1..]).stdin(Stdio::piped()).stdout(Stdio::piped());
    let mut process = command.spawn().expect("the program can be started");
    let mut to = process.stdin.take().expect("a pipe");
    let mut at = 0;
    for &cut in cuts {
        // A program that has taken in enough may end before all is written.
        let _ = to.write_all(&job[at..cut]).and_then(|()| to.flush());
        std::thread::sleep(pause);
        at = cut;
    }
    let _ = to.write_all(&job[at..]);
    drop(to);
    process.wait_with_output().expect("the program ends")
}

/// Longer than the program needs to start, so that the pieces before and after it are read by themselves.
pub fn pause(words: &[String]) -> Duration {
    let start = Instant::now();
    printed(words, &[], &[], Duration::ZERO);
    4 * start.elapsed() + Duration::from_millis(2)
}

/// The pause, made longer until the pieces come apart: a program that reads only once must be found. A busy machine may start programs late.
fn pieces_come_apart(words: &[String], mut pause: Duration) -> Duration {
    let once = ["sh", "-c", "dd bs=65536 count=1 2>/dev/null | \"$@\"", "sh"];
    let once: Vec<String> = once.map(String::from).into_iter().chain(words.iter().cloned()).collect();
    let plate = make::known::one_plate();
    for _ in 0..6 {
        if printed(&once, &plate, &[7], pause).stdout != oracle::listing(&plate).as_bytes() {
            return pause;
        }
        pause *= 3;
    }
    println!("a listing that reads once is not found");
    std::process::exit(1);
}

/// Ends the run at the first text that differs; otherwise says whether everything has come up.
pub fn agree(words: &[String], seed: u64) -> bool {
    let inputs = Inputs::new(seed);
    let edges = make::known::edges().into_iter().map(|(job, _)| job);
    let edges = edges.enumerate().map(|(number, job)| Input { seed, number: number as u64, kind: "edge", job });
    let given = (0..GIVEN).map(|number| inputs.get(number));
    let made =
        (0..MADE).map(|number| Input { seed, number, kind: "made for the listing", job: make::listed(seed, number) });
    let mixed = (0..MIXED).map(|number| inputs.get(inputs.fixed() + number));
    let (mut seen, mut count, pause) = (Seen::default(), 0, pieces_come_apart(words, pause(words)));
    for input in given.chain(edges).chain(made).chain(mixed) {
        let random = &mut Random::new(!seed, input.number);
        let pieces = if count % IN_PIECES == 0 { random.between(1, 4) } else { 0 };
        let mut cuts: Vec<usize> = (0..pieces).map(|_| random.below(input.job.len() + 1)).collect();
        cuts.sort_unstable();
        let due = oracle::listing(&input.job);
        let output = printed(words, &input.job, &cuts, pause);
        if output.stdout != due.as_bytes() || !output.status.success() {
            let text = String::from_utf8_lossy(&output.stdout).into_owned();
            let line = due.lines().zip(text.lines().chain(std::iter::repeat(""))).find(|(due, line)| due != line);
            let wrong = format!("the listing differs; cut at {cuts:?}, {}; due and printed: {line:?}", output.status);
            report::stop(&input, None, &wrong);
        }
        seen.text(&due);
        seen.overlong |= input.job.len() > oracle::TAKEN;
        count += 1;
    }
    println!("listing: {count} jobs agree");
    seen.covered()
}
