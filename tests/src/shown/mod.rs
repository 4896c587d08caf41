//! Jobs in words as they are told and drawn, written from the page on what is shown alone, and a program held to it on many texts.

mod graph;
mod make;
mod named;
mod phrases;
mod tally;
mod told;

use crate::words;
use named::Named;
use std::ops::Range;
use std::path::Path;
use std::process::{Command, Output};
use tally::Tally;

/// Texts of the reader's own run that are looked at for faults.
const FAULTY: Range<u64> = 200..300;

/// What has to go to standard output and to standard error.
struct Due {
    kind: &'static str,
    out: String,
    err: String,
}

/// What the program prints of a file.
fn printed(program: &[String], dot: bool, file: &Path) -> Output {
    let mut command = Command::new(&program[0]);
    command.args(&program[1..]).args(dot.then_some("--dot")).arg(file);
    command.output().expect("the program can be started")
}

/// Ends the run where the program shows a text otherwise, with the first lines that differ; the text is left in its file.
fn stop(dot: bool, file: &Path, due: &Due, found: &Output) -> ! {
    let [out, err] = [&found.stdout, &found.stderr].map(|bytes| String::from_utf8_lossy(bytes));
    let (due_lines, lines) = (due.out.lines().chain(due.err.lines()), out.lines().chain(err.lines()));
    let (due_lines, lines): (Vec<_>, Vec<_>) = (due_lines.collect(), lines.collect());
    let first = (0..due_lines.len()).find(|&index| due_lines.get(index) != lines.get(index)).unwrap_or(due_lines.len());
    // All at once, since others may find a difference too.
    println!(
        "{}, {}, in {}; the program ends with {}\nline {}, due:   {:?}\nline {}, found: {:?}\nDISAGREEMENT",
        if dot { "drawn" } else { "told" },
        due.kind,
        file.display(),
        found.status,
        first + 1,
        due_lines.get(first),
        first + 1,
        lines.get(first)
    );
    std::process::exit(1);
}

/// Holds the program to what is due of a text, told and drawn.
fn hold(program: &[String], file: &Path, text: &[u8], due: [Due; 2]) {
    std::fs::write(file, text).expect("a file can be written");
    for (dot, due) in [false, true].into_iter().zip(due) {
        let found = printed(program, dot, file);
        let ends = found.status.success() || !due.err.is_empty() && found.status.code() == Some(1);
        if found.stdout != due.out.as_bytes() || found.stderr != due.err.as_bytes() || !ends {
            stop(dot, file, &due, &found);
        }
    }
}

/// Holds the program to the job of one text.
fn hold_job(program: &[String], file: &Path, seed: u64, number: u64) -> Tally {
    let (kind, text) = make::text(seed, number);
    let Ok(reader) = words::understood(&text) else { panic!("text {number}, {kind}, has faults") };
    let named = Named::new(&reader);
    let due = [told::text(&named), graph::text(&named)].map(|out| Due { kind, out, err: String::new() });
    hold(program, file, &text, due);
    Tally::of(&named)
}

/// Of a text with faults these are told, and nothing of a plan; says whether it is such a text.
fn hold_faults(program: &[String], file: &Path, seed: u64, number: u64) -> bool {
    let (kind, text) = words::make::text(seed, number);
    let Err(faults) = words::understood(&text) else { return false };
    let due = [(); 2].map(|()| Due { kind, out: String::new(), err: words::told(&faults) });
    hold(program, file, &text, due);
    true
}

/// Does one thing with each of these numbers, several at a time, and gathers what comes of it; each thread has a file of its own.
fn shared<T: Send>(folder: &Path, numbers: Range<u64>, one: impl Fn(&Path, u64) -> T + Sync) -> Vec<T> {
    let many = std::thread::available_parallelism().map_or(1, |many| many.get());
    let part = |first: usize| -> Vec<T> {
        let file = folder.join(format!("{first}.words"));
        numbers.clone().skip(first).step_by(many).map(|number| one(&file, number)).collect()
    };
    std::thread::scope(|scope| {
        let parts: Vec<_> = (0..many).map(|first| scope.spawn(move || part(first))).collect();
        parts.into_iter().flat_map(|part| part.join().expect("no text stops the independent planner")).collect()
    })
}

/// Holds the program to every text; says whether everything that can be shown has come up.
fn agree(program: &[String], seed: u64) -> bool {
    let folder = std::env::temp_dir().join(format!("cabinet-shown-{}", std::process::id()));
    std::fs::create_dir_all(&folder).expect("a folder can be made");
    let tallies = shared(&folder, 0..make::count(), |file, number| hold_job(program, file, seed, number));
    let tally = tallies.into_iter().fold(Tally::default(), Tally::join);
    println!("show: {} jobs in words are told and drawn as the independent planner has them", tally.jobs);
    let covered = tally.covered();
    let faulty = shared(&folder, FAULTY, |file, number| hold_faults(program, file, seed, number));
    let faulty = faulty.into_iter().filter(|&is_faulty| is_faulty).count();
    println!("show: of {faulty} texts with faults these are told, and nothing of a plan");
    std::fs::remove_dir_all(&folder).expect("the folder can be deleted");
    covered && faulty > 0
}

/// Shows the job in words of a file.
fn show(file: &str, shown: fn(&Named) -> String) {
    let text = std::fs::read(file).expect("the file can be read");
    match words::understood(&text) {
        Ok(reader) => print!("{}", shown(&Named::new(&reader))),
        Err(faults) => {
            eprint!("{}", words::told(&faults));
            std::process::exit(1);
        }
    }
}

/// The commands on jobs in words that are shown.
pub fn command(words: &[String], seed: u64) -> Option<()> {
    let figure = words.get(1).and_then(|word| word.parse::<u64>().ok());
    match words.first()?.as_str() {
        "show" if words.len() == 3 && words[1] == "--dot" => show(&words[2], graph::text),
        "show" if words.len() == 2 => show(&words[1], told::text),
        "shown" => {
            let program = &words[if figure.is_some() { 2 } else { 1 }..];
            if !agree(program.first().map(|_| program)?, figure.unwrap_or(seed)) {
                println!("but not everything that can be shown has come up");
                std::process::exit(1);
            }
        }
        _ => return None,
    }
    Some(())
}
