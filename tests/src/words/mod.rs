//! A reader of jobs in words, written from the page of the form alone, and a program's answers held to it on many texts.

mod bytes;
mod faults;
mod goal;
pub mod make;
mod names;
mod reader;
mod tally;
mod text;

use crate::oracle;
pub use bytes::job;
pub use faults::{told, Fault};
pub use names::{Kind, FORM, LONGEST_NAME};
pub use reader::Reader;
use std::io::{Read, Write};
use std::process::{Command, Output, Stdio};
use tally::Tally;

/// A longer text is not read.
const LONGEST: usize = 262_144;

/// What a text says, or its faults.
pub fn understood(text: &[u8]) -> Result<Reader<'_>, Vec<Fault>> {
    if text.len() > LONGEST {
        return Err(vec![Fault::whole("the text is longer than 262144 bytes")]);
    }
    let reader = Reader::new(&text::lines(text));
    if reader.faults.is_empty() {
        Ok(reader)
    } else {
        Err(reader.faults)
    }
}

/// The job of a text, or its faults.
fn read(text: &[u8]) -> Result<Vec<u8>, Vec<Fault>> {
    understood(text).map(|reader| job(&reader))
}

/// What goes to standard output of a text that was read, and to standard error.
fn turned(read: &Result<Vec<u8>, Vec<Fault>>) -> (&[u8], String) {
    match read {
        Ok(job) => (job, String::new()),
        Err(faults) => (&[], told(faults)),
    }
}

/// What the program writes and tells of a text.
fn printed(words: &[String], text: &[u8]) -> Output {
    let mut command = Command::new(&words[0]);
    command.args(&words[1..]).stdin(Stdio::piped()).stdout(Stdio::piped()).stderr(Stdio::piped());
    let mut process = command.spawn().expect("the program can be started");
    let mut to = process.stdin.take().expect("a pipe");
    std::thread::scope(|scope| {
        // A program that has taken in enough may tell of it, and end, before all is written.
        scope.spawn(move || drop(to.write_all(text)));
        process.wait_with_output().expect("the program ends")
    })
}

/// Ends the run where the program and the reader differ, with the first lines that do.
fn stop(number: u64, kind: &str, text: &[u8], due: &str, found: &Output) -> ! {
    let told = String::from_utf8_lossy(&found.stderr);
    let differ = |index: usize| due.lines().nth(index) != told.lines().nth(index);
    let first = (0..due.lines().count() + told.lines().count()).find(|&index| differ(index)).unwrap_or_default();
    let (due, said) = (due.lines().nth(first), told.lines().nth(first));
    let shown = if text.len() < 4_000 { String::from_utf8_lossy(text).into_owned() } else { String::new() };
    // All at once, since others may find a difference too.
    println!(
        "text {number}, {kind}, of {} bytes; the program ends with {} and writes {} bytes of a job\n\
         due:  {due:?}\ntold: {said:?}\n{shown}\nDISAGREEMENT",
        text.len(),
        found.status,
        found.stdout.len()
    );
    std::process::exit(1);
}

/// Holds the program to the reader on one text.
fn hold(words: &[String], seed: u64, number: u64, tally: &mut Tally) {
    let (kind, text) = make::text(seed, number);
    let due = read(&text);
    let (job, told) = turned(&due);
    let found = printed(words, &text);
    let ends = found.status.code().is_some_and(|code| code == 0 || code == 1 && job.is_empty());
    if found.stdout != job || found.stderr != told.as_bytes() || !ends {
        stop(number, kind, &text, &told, &found);
    }
    tally.texts += 1;
    match &due {
        Ok(job) => {
            assert!(oracle::read(job).is_ok(), "the job of text {number} keeps the rules");
            tally.job(job);
        }
        Err(faults) => tally.faults(faults, &told),
    }
}

/// Holds the program to the reader on every text, several at a time; says whether every kind of fault and every shape of a job has come up.
fn agree(words: &[String], seed: u64) -> bool {
    let many = std::thread::available_parallelism().map_or(1, |many| many.get());
    let part = |first: usize| {
        let mut tally = Tally::default();
        (first as u64..make::count()).step_by(many).for_each(|number| hold(words, seed, number, &mut tally));
        tally
    };
    let tally = std::thread::scope(|scope| {
        let parts: Vec<_> = (0..many).map(|first| scope.spawn(move || part(first))).collect();
        let tallies = parts.into_iter().map(|part| part.join().expect("no text stops the reader"));
        tallies.fold(Tally::default(), Tally::join)
    });
    let Some(kinds) = tally.covered() else { return false };
    println!(
        "words: {} texts, of which {} good, are turned or told as the independent reader has them; \
         every one of {kinds} kinds of fault came up",
        tally.texts, tally.good
    );
    true
}

/// Turns the text on standard input; ends with 1 where it has faults.
fn turn() -> ! {
    let mut text = Vec::new();
    std::io::stdin().read_to_end(&mut text).expect("standard input can be read");
    let due = read(&text);
    let (job, told) = turned(&due);
    std::io::stdout().write_all(job).expect("standard output can be written");
    eprint!("{told}");
    std::process::exit(i32::from(due.is_err()));
}

/// The commands on jobs in words.
pub fn command(words: &[String], seed: u64) -> Option<()> {
    let figure = |index: usize| words.get(index).and_then(|word| word.parse::<u64>().ok());
    match words.first()?.as_str() {
        "turn" => turn(),
        "text" => {
            let (_, text) = make::text(figure(2).unwrap_or(seed), figure(1)?);
            std::io::stdout().write_all(&text).expect("standard output can be written");
        }
        "words" => {
            let program = &words[if figure(1).is_some() { 2 } else { 1 }..];
            if !agree(program.first().map(|_| program)?, figure(1).unwrap_or(seed)) {
                println!("but not every kind of fault and every shape of a job has come up");
                std::process::exit(1);
            }
        }
        _ => return None,
    }
    Some(())
}
