//! Runs the library against an independent planner on many inputs, or times it beside others.

mod bench;
mod brute;
mod cases;
mod check;
mod checks;
mod judging;
mod listings;
mod make;
mod months;
mod oracle;
mod random;
mod report;
mod salvages;
mod shown;
mod slips;
mod trembling;
mod words;

use cases::Cases;
use check::Desk;
use make::Inputs;
use std::io::{Read, Write};
use std::time::Instant;

const SEED: u64 = 20_251_115;
/// Inputs of the ordinary run, beyond the fixed ones.
const MIXED: u64 = 220_000;

const USE: &str = "\
cabinet-tests run [SEED]           the ordinary run
cabinet-tests soak N [SEED]        N inputs, the fixed ones first
cabinet-tests again SEED NUMBER    one input of a run once more
cabinet-tests bench [DATE [REPORT LISTING]]
                                   times beside other planners (or the date in BENCH_DATE), and of these two programs
cabinet-tests list                 the oracle's listing of the job on standard input
cabinet-tests slips [SEED]         goals from slips, every body byte by byte and by what it means
cabinet-tests check JOB PLAN       the line that the oracle prints of these files
cabinet-tests checks [SEED]        plans from elsewhere, every tie and many changes, judged place for place
cabinet-tests trembling [SEED]     slips of the arm: every larger place, every count of slips, short and long buffers
cabinet-tests judges [SEED]        recorded runs, all short ones and many more, beside an evaluator over trees
cabinet-tests judge                the line that the oracle prints of the two lines on standard input
cabinet-tests salvages [SEED]      jobs with bad outcomes, both outputs byte by byte, and completions of what was removed
cabinet-tests salvage              the job that the oracle salvages from standard input, and on standard error what it says
cabinet-tests mended WORDS         the program that salvages, started by these words, beside the oracle
cabinet-tests listings WORDS       the listing program, started by these words, beside the oracle's listing
cabinet-tests report               the oracle's report of the bundle on standard input
cabinet-tests reports WORDS        the report program, started by these words, beside the oracle's report
cabinet-tests turn                 the job of the text in words on standard input, or on standard error its faults
cabinet-tests words [SEED] WORDS   the program that turns such texts, started by these words, beside the oracle's reader
cabinet-tests text NUMBER [SEED]   one text of that run
cabinet-tests show [--dot] FILE    the job in words in this file as the oracle tells it, or draws it
cabinet-tests shown [SEED] WORDS   the program that shows such jobs, started by these words, beside the oracle";

/// Tries the inputs with these numbers, prints the counts and says whether everything has come up.
fn tried(inputs: &Inputs, seed: u64, numbers: std::ops::Range<u64>) -> bool {
    println!("seed {seed}");
    check::known();
    cases::fences_hold();
    let start = Instant::now();
    let mut desk = Desk::new(Cases::new());
    for number in numbers.clone() {
        desk.check(&inputs.get(number));
        if desk.cases.broken {
            break;
        }
    }
    if let Some(wrong) = desk.cases.end() {
        let (input, mut again) = (inputs.get(wrong.number), Desk::new(Cases::none()));
        again.check(&input);
        report::stop(&input, again.cases.calls.get(wrong.call), &wrong.how);
    }
    let seconds = start.elapsed().as_secs_f64();
    let count = numbers.end - numbers.start;
    println!("{seconds:.1} seconds, {:.0} inputs a second", count as f64 / seconds);
    desk.tally.print();
    desk.tally.covered()
}

/// What is printed of standard input.
fn told(text: fn(&[u8]) -> String) {
    let mut input = Vec::new();
    std::io::stdin().read_to_end(&mut input).expect("standard input can be read");
    print!("{}", text(&input));
}

fn command(words: &[String]) -> Option<()> {
    let figure = |index: usize| words.get(index).map(|word| word.parse::<u64>().ok());
    let seed_at = |index: usize| figure(index).unwrap_or(Some(SEED));
    match words.first()?.as_str() {
        "run" => {
            let seed = seed_at(1)?;
            let inputs = Inputs::new(seed);
            if !tried(&inputs, seed, 0..inputs.fixed() + MIXED) {
                println!("but not every answer, value and count has come up");
                std::process::exit(1);
            }
        }
        "soak" => {
            let (count, seed) = (figure(1)??, seed_at(2)?);
            tried(&Inputs::new(seed), seed, 0..count);
        }
        "again" => {
            let (seed, number) = (figure(1)??, figure(2)??);
            tried(&Inputs::new(seed), seed, number..number + 1);
        }
        "bench" => {
            let given = words.get(1).cloned().or_else(|| std::env::var("BENCH_DATE").ok());
            bench::bench(&given.unwrap_or_else(|| "not given".to_string()), words.get(2..).unwrap_or_default());
        }
        "slips" => {
            if !slips::agree(seed_at(1)?) {
                println!("but not every answer and every count of clauses has come up");
                std::process::exit(1);
            }
        }
        "checks" => {
            if !checks::agree(seed_at(1)?) {
                println!("but not every answer and every kind of change has come up");
                std::process::exit(1);
            }
        }
        "trembling" => {
            if !trembling::agree(seed_at(1)?) {
                println!("but not every answer, value and count of slips has come up");
                std::process::exit(1);
            }
        }
        "judges" => {
            if !judging::agree(seed_at(1)?) {
                println!("but not every answer has come up with every kind of formula");
                std::process::exit(1);
            }
        }
        "judge" => println!("{}", judging::told()),
        "salvages" => {
            if !salvages::agree(seed_at(1)?) {
                println!("but not every answer and every kind of job has come up");
                std::process::exit(1);
            }
        }
        "salvage" => {
            let mut input = Vec::new();
            std::io::stdin().read_to_end(&mut input).expect("standard input can be read");
            let (job, text) = oracle::salvage_text(&input);
            std::io::stdout().write_all(&job).expect("standard output can be written");
            eprint!("{text}");
        }
        "mended" if words.len() > 1 => {
            if !salvages::programs_agree(&words[1..], SEED) {
                println!("but not everything that the program can say has come up");
                std::process::exit(1);
            }
        }
        "list" => told(oracle::listing),
        "report" => told(oracle::report),
        "check" => {
            let file = |index: usize| Some(std::fs::read(words.get(index)?).expect("the file can be read"));
            print!("{}", oracle::checked(&file(1)?, &file(2)?));
        }
        "listings" if words.len() > 1 => {
            if !listings::agree(&words[1..], SEED) {
                println!("but not everything that a listing can say has come up");
                std::process::exit(1);
            }
        }
        "reports" if words.len() > 1 => {
            if !months::agree(&words[1..], SEED) {
                println!("but not everything that a report can say has come up");
                std::process::exit(1);
            }
        }
        _ => return words::command(words, SEED).or_else(|| shown::command(words, SEED)),
    }
    Some(())
}

fn main() {
    let words: Vec<String> = std::env::args().skip(1).collect();
    if command(&words).is_none() {
        eprintln!("{USE}");
        std::process::exit(2);
    }
}
