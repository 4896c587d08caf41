//! Runs the report program on many bundles, good and damaged, some byte by byte, and holds what it prints to the oracle's report.

use crate::listings::{pause, printed};
use crate::make::{self, known, Inputs};
use crate::oracle::{self, TAKEN};
use crate::random::Random;
use crate::report::{self, Input};
use std::collections::BTreeSet;
use std::io::Write;
use std::os::fd::OwnedFd;
use std::os::unix::net::UnixDatagram;
use std::process::{Command, Output, Stdio};
use std::time::Duration;

/// How many seeded bundles there are; one in so many has 64 jobs, is handed over in single bytes unless it is large, or in pieces.
const BUNDLES: u64 = 120;
const FULL: u64 = 20;
const IN_BYTES: u64 = 6;
const IN_PIECES: u64 = 9;
/// An entry that is read past in many portions.
const FAR: usize = 200_000_000;

/// The bundle of these jobs: a count, an offset and a length for each, and the jobs.
pub fn bundle(jobs: &[Vec<u8>]) -> Vec<u8> {
    let mut contents = (jobs.len() as u16).to_le_bytes().to_vec();
    let mut at = 2 + 8 * jobs.len();
    for job in jobs {
        contents.extend([at, job.len()].map(|figure| (figure as u32).to_le_bytes()).concat());
        at += job.len();
    }
    contents.into_iter().chain(jobs.iter().flatten().copied()).collect()
}

/// An entry: most often a job, and now and then nothing, one that just has room, or one that is too long.
fn entry(random: &mut Random, inputs: &Inputs) -> Vec<u8> {
    let longer = |random: &mut Random, length: usize| {
        let mut job = make::longest_tall(random.word() % 3);
        job.resize(length, random.byte());
        job
    };
    match random.below(24) {
        0 => vec![],
        1 => longer(random, TAKEN),
        2 => longer(random, TAKEN + 1),
        3 => {
            let length = random.between(TAKEN + 2, 5 * TAKEN);
            longer(random, length)
        }
        4 => known::one_plate(),
        5 => known::bare(random.below(2) as u8),
        6 => known::early(),
        7..=9 => make::listed(random.word() % 1_000, random.word() % 6_000),
        _ => inputs.get(inputs.fixed() + random.word() % 50_000).job,
    }
}

/// What a bundle can be spoilt by, with its kind: every way in which the contents can be bad, and an end that comes early or late.
fn spoilt(random: &mut Random, jobs: &[Vec<u8>], kind: usize) -> (&'static str, Vec<u8>) {
    let mut bytes = bundle(jobs);
    let count = jobs.len();
    let contents = 2 + 8 * count;
    let at = 2 + 8 * random.below(count);
    let mut shift = |at: usize, by: i64| {
        let field = u32::from_le_bytes(bytes[at..at + 4].try_into().unwrap());
        let moved = (i64::from(field) + by).rem_euclid(1 << 32) as u32;
        bytes[at..at + 4].copy_from_slice(&moved.to_le_bytes());
    };
    let by = random.pick(&[-1, 1, 256, -256, 65_536, 1 << 31]);
    let name = match kind {
        0 => {
            bytes.truncate(random.below(2));
            "no count"
        }
        1 => {
            bytes[..2].fill(0);
            "no entry"
        }
        2 => {
            let many = random.pick(&[65, 66, 256, 257, 320, 65_535]);
            bytes[..2].copy_from_slice(&u16::to_le_bytes(many));
            bytes.resize(2 + 8 * usize::from(many), 0);
            "too many entries"
        }
        3 => {
            bytes.truncate(random.between(2, contents - 1));
            "contents cut off"
        }
        4 => {
            shift(at, by);
            "an offset moved"
        }
        5 => {
            shift(at + 4, by);
            "a length changed"
        }
        6 => {
            // Every offset after the first moves with it, so that only the first is wrong.
            (0..count).for_each(|entry| shift(2 + 8 * entry, by));
            "all offsets moved"
        }
        7 => {
            let last = 2 + 8 * (count - 1);
            shift(last + 4, 1);
            "an end one byte early"
        }
        8 => {
            bytes.push(random.byte());
            "an end one byte late"
        }
        9 => {
            bytes.extend(vec![random.byte(); random.between(1, 3 * TAKEN)]);
            "an end that comes late"
        }
        10 => {
            bytes.truncate(random.between(contents, bytes.len().max(contents + 1) - 1));
            "an end that comes early"
        }
        _ => {
            // The length is so large that the next offset would wrap, and the next entry is where it would then be.
            let mut jobs = jobs.to_vec();
            jobs.resize(2, known::one_plate());
            let begin = 2 + 8 * jobs.len() as u32;
            bytes = bundle(&jobs);
            bytes[6..10].copy_from_slice(&0u32.wrapping_sub(begin).to_le_bytes());
            bytes[10..14].copy_from_slice(&0u32.to_le_bytes());
            "a sum that would wrap"
        }
    };
    (name, bytes)
}

const KINDS: usize = 12;

/// What the program prints where each read gets one byte: a datagram is read by itself, and an empty one is an end.
fn byte_by_byte(words: &[String], bytes: &[u8]) -> Output {
    let (to, from) = UnixDatagram::pair().expect("a pair of sockets");
    let mut command = Command::new(&words[0]);
    command.args(&words[1..]).stdin(Stdio::from(OwnedFd::from(from))).stdout(Stdio::piped());
    let process = command.spawn().expect("the report program can be started");
    drop(command);
    // A program that has seen enough ends before all is written.
    let _ = bytes.iter().try_for_each(|byte| to.send(&[*byte]).map(drop));
    let _ = (0..6).try_for_each(|_| to.send(&[]).map(drop));
    process.wait_with_output().expect("the report program ends")
}

/// What the program prints of One plate before and after a far longer entry, of which the first bytes are One plate too.
fn with_far_entry(words: &[String]) -> Output {
    let plate = known::one_plate();
    let mut contents = bundle(&[plate.clone(), plate.clone(), plate.clone()]);
    contents.truncate(26);
    contents[14..18].copy_from_slice(&(FAR as u32).to_le_bytes());
    contents[18..22].copy_from_slice(&((26 + plate.len() + FAR) as u32).to_le_bytes());
    let mut command = Command::new(&words[0]);
    command.args(&words[1..]).stdin(Stdio::piped()).stdout(Stdio::piped());
    let mut process = command.spawn().expect("the report program can be started");
    let mut to = process.stdin.take().expect("a pipe");
    let mut far = vec![7; 1_000_000];
    far[..plate.len()].copy_from_slice(&plate);
    let _ = to.write_all(&[&contents[..], &plate].concat());
    let _ = (0..FAR / far.len()).try_for_each(|_| to.write_all(&far));
    let _ = to.write_all(&plate);
    drop(to);
    process.wait_with_output().expect("the report program ends")
}

/// What has to have come up: every line above 0, no winner, a largest number that is not the first job's, one that several jobs have, and
/// every kind of damage.
#[derive(Default)]
struct Seen {
    lines: BTreeSet<usize>,
    words: BTreeSet<&'static str>,
}

impl Seen {
    fn text(&mut self, text: &str) {
        let lines: Vec<&str> = text.lines().collect();
        if lines.len() != 14 {
            return;
        }
        self.lines.extend((0..13).filter(|line| lines[*line] != "0"));
        match lines[13].split_once(' ') {
            None => self.words.insert("none wins"),
            Some((_, "0")) => self.words.insert("first"),
            Some(_) => self.words.insert("later"),
        };
    }

    fn covered(&self, damage: &BTreeSet<&'static str>) -> bool {
        let words = ["none wins", "first", "later", "64 jobs", "long in the middle", "long at the end", "tie", "empty"];
        let missing: Vec<_> = words.into_iter().filter(|word| !self.words.contains(word)).collect();
        let lines: Vec<usize> = (0..13).filter(|line| !self.lines.contains(line)).collect();
        let all = missing.is_empty() && lines.is_empty() && damage.len() == KINDS;
        if !all {
            println!("missing {missing:?}, lines {lines:?}, damage {damage:?}");
        }
        all
    }
}

/// Ends the run where the program has printed something else.
fn held(input: &Input, output: &Output, due: &str, how: &str) {
    if output.stdout != due.as_bytes() || !output.status.success() {
        let text = String::from_utf8_lossy(&output.stdout).into_owned();
        report::stop(
            input,
            None,
            &format!("the report differs, {how}, {}; due {due:?}, printed {text:?}", output.status),
        );
    }
}

/// The lines that do not depend on the order of the jobs.
fn without_job(text: &str) -> String {
    let lines: Vec<&str> = text.trim_end().split('\n').collect();
    let (last, others) = lines.split_last().expect("a line");
    others.concat() + last.split(' ').next().unwrap_or("")
}

fn shuffled(random: &mut Random, jobs: &[Vec<u8>]) -> Vec<Vec<u8>> {
    let mut jobs = jobs.to_vec();
    (1..jobs.len()).for_each(|at| jobs.swap(at, random.below(at + 1)));
    jobs
}

/// What is known of a run so far.
struct Run<'a> {
    words: &'a [String],
    pause: Duration,
    seen: Seen,
    damage: BTreeSet<&'static str>,
    count: usize,
}

impl Run<'_> {
    /// Notes what comes up in these jobs and their report.
    fn note(&mut self, jobs: &[Vec<u8>], due: &str) {
        let long = |job: &Vec<u8>| job.len() > TAKEN;
        let (last, others) = jobs.split_last().expect("a job");
        let words = [
            ("64 jobs", jobs.len() == 64),
            ("long at the end", long(last)),
            ("long in the middle", others.iter().any(long) && !long(last)),
            ("empty", jobs.iter().any(Vec::is_empty)),
        ];
        self.seen.words.extend(words.into_iter().filter(|(_, so)| *so).map(|(word, _)| word));
        let back: Vec<Vec<u8>> = jobs.iter().rev().cloned().collect();
        let back = oracle::report(&bundle(&back));
        let job = |text: &str| text.lines().last().and_then(|line| line.split_once(' ')?.1.parse::<usize>().ok());
        if let (Some(first), Some(last)) = (job(due), job(&back)) {
            if first != jobs.len() - 1 - last {
                self.seen.words.insert("tie");
            }
        }
        self.seen.text(due);
    }

    /// The program on these bytes, whole or cut; and byte by byte where they are few.
    fn hold(&mut self, input: &Input, cuts: &[usize], few: usize) -> String {
        let due = oracle::report(&input.job);
        held(input, &printed(self.words, &input.job, cuts, self.pause), &due, "whole or in pieces");
        self.count += 1;
        if input.job.len() < few {
            held(input, &byte_by_byte(self.words, &input.job), &due, "byte by byte");
            self.count += 1;
        }
        due
    }

    /// A bundle, the same with its jobs shuffled, and one damaged in some way.
    fn bundle(&mut self, seed: u64, number: u64, inputs: &Inputs) {
        let random = &mut Random::new(seed ^ 13, number);
        let jobs = if number % FULL == 0 { 64 } else { random.between(1, 6) };
        let jobs: Vec<Vec<u8>> = (0..jobs).map(|_| entry(random, inputs)).collect();
        let whole = Input { seed, number, kind: "bundle", job: bundle(&jobs) };
        let mut cuts: Vec<usize> = (0..4).map(|_| random.below(whole.job.len() + 1)).collect();
        cuts.sort_unstable();
        let cuts = if number % IN_PIECES == 1 { &cuts[..] } else { &[] };
        let due = self.hold(&whole, cuts, if number % IN_BYTES == 0 { 20_000 } else { 400 });
        self.note(&jobs, &due);
        let other = Input { kind: "shuffled bundle", job: bundle(&shuffled(random, &jobs)), ..whole.clone() };
        let other = self.hold(&other, &[], 0);
        assert_eq!(without_job(&due), without_job(&other), "the oracle's report depends on the order");
        let (kind, job) = spoilt(random, &jobs, number as usize % KINDS);
        let due = self.hold(&Input { kind, job, ..whole }, &[], 2_000);
        if due == "refused 23\n" {
            self.damage.insert(kind);
        }
    }
}

/// Ends the run at the first report that differs; otherwise says whether everything has come up.
pub fn agree(words: &[String], seed: u64) -> bool {
    let inputs = Inputs::new(seed);
    let mut run = Run { words, pause: pause(words), seen: Seen::default(), damage: BTreeSet::new(), count: 1 };
    (0..BUNDLES).for_each(|number| run.bundle(seed, number, &inputs));
    let far = Input { seed, number: 0, kind: "a far longer entry", job: vec![] };
    held(&far, &with_far_entry(words), "0\n2\n0\n0\n1\n0\n0\n0\n0\n0\n0\n0\n4\n-\n", "far");
    println!("report: {} bundles agree", run.count);
    run.seen.covered(&run.damage)
}
