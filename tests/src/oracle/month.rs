//! The text of the report program for a bundle.

use super::{Oracle, FIELD, ORDER, PENDING, TAKEN, WINNING};

/// The numbers that refuse a job, in the order of their lines.
const REFUSALS: [u32; 8] = [1, 2, 3, 4, 5, 6, FIELD, ORDER];

/// What the report says of one job.
enum Class {
    Refused(u32),
    Starts { value: u8, number: usize },
}

fn class(job: &[u8]) -> Class {
    if job.len() > TAKEN {
        return Class::Refused(2);
    }
    let oracle = Oracle::new(job);
    match &oracle.job {
        Err(refused) => Class::Refused(refused.number),
        Ok(read) => {
            let [_, state, goal, ..] = oracle.start();
            let entry = oracle.entries[read.place(state as usize, goal as usize)];
            Class::Starts { value: entry.value, number: entry.number }
        }
    }
}

/// The jobs of a bundle, or nothing where its contents are bad or it ends early or late.
fn jobs(bundle: &[u8]) -> Option<Vec<&[u8]>> {
    let (count, rest) = bundle.split_first_chunk::<2>()?;
    let count = usize::from(u16::from_le_bytes(*count));
    if !(1..=64).contains(&count) {
        return None;
    }
    let table = rest.get(..8 * count)?;
    let mut end = 2 + 8 * count as u64;
    let mut jobs = Vec::new();
    for entry in table.chunks(8) {
        let [offset, length] = [0, 4].map(|at| u64::from(u32::from_le_bytes(entry[at..at + 4].try_into().unwrap())));
        if offset != end {
            return None;
        }
        jobs.push(end as usize..(end + length) as usize);
        end += length;
    }
    (end == bundle.len() as u64).then(|| jobs.into_iter().map(|range| &bundle[range]).collect())
}

pub fn report(bundle: &[u8]) -> String {
    let Some(jobs) = jobs(bundle) else {
        return "refused 23\n".to_string();
    };
    let classes: Vec<Class> = jobs.into_iter().map(class).collect();
    let numbers = |wanted: u8| {
        let number = move |class: &Class| match class {
            Class::Starts { value, number } if *value == wanted => Some(*number),
            _ => None,
        };
        classes.iter().map(number).collect::<Vec<Option<usize>>>()
    };
    let values = [WINNING, PENDING, super::LOSING].map(|value| numbers(value).iter().flatten().count());
    let refused =
        |wanted: u32| classes.iter().filter(|class| matches!(class, Class::Refused(n) if *n == wanted)).count();
    let sums = [WINNING, PENDING].map(|value| numbers(value).iter().flatten().sum::<usize>());
    let mut lines: Vec<usize> = values.to_vec();
    lines.extend(REFUSALS.map(refused));
    lines.extend(sums);
    let winning = numbers(WINNING);
    let last = match winning.iter().flatten().max() {
        None => "-".to_string(),
        Some(largest) => format!("{largest} {}", winning.iter().position(|number| *number == Some(*largest)).unwrap()),
    };
    lines.into_iter().map(|line| format!("{line}\n")).collect::<String>() + &last + "\n"
}
