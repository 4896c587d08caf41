//! The times as a Markdown table, with the machine and the date.

use super::Line;

/// The machine's kind as the kernel names it.
fn machine() -> String {
    let info = std::fs::read_to_string("/proc/cpuinfo").unwrap_or_default();
    let model = info.lines().find(|line| line.starts_with("model name"));
    let name = model.and_then(|line| line.split_once(':')).map(|(_, name)| name.trim().to_string());
    name.unwrap_or_else(|| "unknown machine".to_string())
}

/// A time in the unit that suits it.
pub fn unit(seconds: f64) -> String {
    match seconds {
        ..1e-6 => format!("{:.0} ns", seconds * 1e9),
        ..1e-3 => format!("{:.2} µs", seconds * 1e6),
        ..1.0 => format!("{:.2} ms", seconds * 1e3),
        _ => format!("{seconds:.2} s"),
    }
}

pub fn print(lines: &[Line], date: &str, [repeats, dear]: [usize; 2]) {
    println!("Machine: {}. Date: {date}.", machine());
    println!();
    println!("Time for one call of planning, the median of {repeats} repeats, {dear} for the deepest tall jobs, with the planners in turn:");
    println!("rounds are `cabinet_plan`, backward is `cabinet_plan_indexed`, each beside the same method in plain Rust, and the oracle of the tests.");
    println!("Buffers are not cleared between runs. The plans of all were compared and are the same.");
    println!();
    println!("| job | bytes | places | moves | largest number | rounds | plain rounds | backward | plain backward | oracle |");
    println!("|---|---:|---:|---:|---:|---:|---:|---:|---:|---:|");
    for line in lines {
        print!("| {} | {} | {} | {} | {} ", line.name, line.bytes, line.places, line.moves, line.largest);
        println!("| {} |", line.times.map(unit).join(" | "));
    }
    println!();
    println!("| job | rounds / plain | backward / plain | rounds / backward | backward / oracle |");
    println!("|---|---:|---:|---:|---:|");
    for line in lines {
        let [rounds, plain, backward, plain_backward, oracle] = line.times;
        print!("| {} | {:.3} | {:.3} ", line.name, rounds / plain, backward / plain_backward);
        println!("| {:.1} | {:.3} |", rounds / backward, backward / oracle);
    }
}

/// How the times grow with the places of a ring in which the number of each place is one more than the next one's.
pub fn growth(lines: &[Line]) {
    println!("Growth: rings of states with 32 goal states, a record for each state, in which every place has a number of its own.");
    println!();
    println!("| places | largest number | rounds | backward | backward, a place | rounds / backward |");
    println!("|---:|---:|---:|---:|---:|---:|");
    for line in lines {
        let [rounds, _, backward, ..] = line.times;
        print!("| {} | {} | {} | {} ", line.places, line.largest, unit(rounds), unit(backward));
        println!("| {} | {:.1} |", unit(backward / line.places as f64), rounds / backward);
    }
}
