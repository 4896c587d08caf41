//! Faults for good jobs, at least one manner for every way in which a body can be wrong.

use super::parts::{Form, Parts, BUSY};
use crate::random::Random;

/// Puts one count or first number out of range, sometimes with bodies that fit it.
fn counts(random: &mut Random, parts: &mut Parts) {
    let (states, goals, most) = (parts.states(), parts.goals(), parts.form().most_states());
    let field = random.below(6);
    let value = match field {
        0 if parts.form() == Form::Old => random.pick(&[0, 129, 130, 255]),
        0 => random.pick(&[0, 513, 514, 768, 32_768, 65_535]),
        1 => random.pick(&[0, 17, 18, 128, 255]),
        2 => random.pick(&[7, 8, 9, 64, 255]),
        3 => random.pick(&[0, 33, 34, 255]),
        4 => random.pick(&[states, states + 1, most, 255.max(states), 65_535]),
        _ => random.pick(&[goals, goals + 1, 32, 255]),
    };
    parts.set_count(field, value);
    if random.once_in(2) && parts.states() <= 1_024 {
        parts.fit();
    }
}

/// Makes a body longer or shorter by a few bytes, or empty.
fn length(random: &mut Random, body: &mut Vec<u8>) {
    let length = match random.below(5) {
        0 => 0,
        1 => body.len() + 1,
        2 => body.len().saturating_sub(1),
        3 => body.len() + random.between(1, 9),
        _ => body.len().saturating_sub(random.between(1, 9)),
    };
    let filling = random.pick(&[0, 1, 255]);
    body.resize(length, filling);
}

fn labels(random: &mut Random, parts: &mut Parts) {
    if parts.labels.is_empty() || random.once_in(3) {
        return length(random, &mut parts.labels);
    }
    let possible = 1_u8 << parts.count(2).min(7);
    let index = random.edge(parts.labels.len());
    let mark = random.pick(&[0, BUSY, parts.labels[index] & BUSY]);
    let too_large = [possible, possible | 1, possible | parts.labels[index], 64, 127];
    parts.labels[index] = mark | random.pick(&too_large);
}

fn moves(random: &mut Random, parts: &mut Parts) {
    let width = parts.form().width();
    let records = parts.moves.len() / width;
    if records == 0 || random.once_in(5) {
        let (extra, length) = (random.between(1, 7), parts.moves.len());
        let lengths = [length + extra, length.saturating_sub(extra), (parts.form().most_moves() + 1) * width];
        return parts.moves.resize(random.pick(&lengths), 0);
    }
    let (record, other) = (random.edge(records), random.below(records));
    let (at, from) = (width * record, width * other);
    let (states, actions) = (parts.states(), parts.count(1));
    let too_large = [states, parts.form().most_states(), 255.max(states), 65_535];
    match random.below(7) {
        0 => parts.set_field(record, 0, random.pick(&too_large)),
        1 => parts.set_field(record, 1, random.pick(&[actions, 16, 255])),
        2 => parts.set_field(record, 2, random.pick(&too_large)),
        3 => parts.moves.copy_within(from..from + width, at),
        4 => (0..width).for_each(|byte| parts.moves.swap(at + byte, from + byte)),
        5 => {
            let again = parts.moves[at..at + width].to_vec();
            parts.moves.splice(at..at, again);
        }
        _ => {
            let byte = at + random.below(width);
            parts.moves[byte] = parts.moves[byte].wrapping_sub(1);
        }
    }
}

fn goal(random: &mut Random, parts: &mut Parts) {
    let marks = parts.goals().min(parts.goal.len());
    let table = parts.goal.len() - marks;
    if table == 0 || marks == 0 || random.once_in(3) {
        return length(random, &mut parts.goal);
    }
    let goals = parts.goals() as u8;
    if random.once_in(2) {
        let index = random.edge(table);
        parts.goal[index] = random.pick(&[goals, goals.saturating_add(1), 32, 128, 255]);
    } else {
        let index = table + random.edge(marks);
        parts.goal[index] = random.pick(&[2, 3, 128, 254, 255]);
    }
}

/// Moves a few bytes over the border of two neighbouring bodies, so that the contents still fit.
fn border(random: &mut Random, parts: &mut Parts) {
    let count = random.between(1, 4);
    let index = random.below(3);
    let mut bodies = parts.bodies();
    let (before, after) = bodies.split_at_mut(index + 1);
    let (before, after) = (&mut before[index], &mut after[0]);
    if random.once_in(2) {
        let count = count.min(after.len());
        before.extend(after.drain(..count));
    } else {
        let tail = before.split_off(before.len().saturating_sub(count));
        after.splice(..0, tail);
    }
}

/// Gives Counts the length of the other form, and leaves the other bodies as they are or lets them fit.
fn other_form(random: &mut Random, parts: &mut Parts) {
    let length = 14 - parts.counts.len();
    parts.counts.resize(length, 0);
    if random.once_in(2) && parts.states() <= 1_024 {
        parts.fit();
    }
}

/// Spoils one body, or the border of two; Counts keep their length unless a border, a length or the form moves.
pub fn spoil(random: &mut Random, parts: &mut Parts) {
    if ![6, 8].contains(&parts.counts.len()) {
        return length(random, &mut parts.counts);
    }
    match random.below(17) {
        0..=2 => counts(random, parts),
        3..=5 => labels(random, parts),
        6..=9 => moves(random, parts),
        10..=12 => goal(random, parts),
        13 => length(random, &mut parts.counts),
        14 => other_form(random, parts),
        _ => border(random, parts),
    }
}

/// Spoils a job that is already put together: its length or its contents.
pub fn spoil_bytes(random: &mut Random, job: &mut Vec<u8>) {
    match random.below(8) {
        0 => job.truncate(random.below(17)),
        1 => job.truncate(random.below(job.len() + 1)),
        2 => job.extend(random.bytes(3)),
        3 => job.push(random.byte()),
        4 if job.len() >= 16 => {
            let (entry, other) = (4 * random.below(4), 4 * random.below(4));
            (0..4).for_each(|byte| job.swap(entry + byte, other + byte));
        }
        5 if job.len() >= 16 => {
            // One figure of the contents grows and another shrinks.
            let (figure, other) = (2 * random.below(8), 2 * random.below(8));
            job[figure] = job[figure].wrapping_add(1);
            job[other] = job[other].wrapping_sub(1);
        }
        _ => {
            let front = job.len().min(16);
            if front > 0 {
                job[random.below(front)] = random.byte();
            }
        }
    }
}
