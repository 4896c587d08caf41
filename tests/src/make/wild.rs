//! Inputs that were never good jobs: random bytes, and layouts that reach to 65,535 and beyond.

use super::parts::{contents, Parts};
use crate::random::Random;

/// Random bytes: plain, low, or with contents that fit.
pub fn bytes(random: &mut Random) -> Vec<u8> {
    let length = random.below(120);
    let mut job = random.bytes(length);
    let manner = random.below(4);
    if manner > 0 {
        let limit = random.pick(&[2, 3, 4, 8]);
        job.iter_mut().for_each(|byte| *byte %= limit);
    }
    let counts = random.pick(&[6, 8]);
    if manner > 1 && length >= 16 + counts {
        let labels = random.below(length - 15 - counts);
        let moves = random.below(length - 15 - counts - labels);
        job[..16].copy_from_slice(&contents([counts, labels, moves, length - 16 - counts - labels - moves]));
    }
    job
}

/// A good job with one body stretched until the job ends near 65,535, or well beyond it.
fn stretched(random: &mut Random, mut parts: Parts) -> Vec<u8> {
    let length = parts.bytes().len();
    let aim = random.pick(&[16_385, 49_152, 49_153, 60_000, 65_532, 65_533, 65_534, 65_535, 65_536, 65_537, 69_999]);
    let more = aim.max(length) - length;
    let body = random.below(4);
    let filling = random.pick(&[0, 0, 1, 255]);
    let body = &mut parts.bodies()[body];
    body.resize(body.len() + more, filling);
    parts.bytes()
}

/// A good job whose contents run over 65,535 and come back to its true end when cut to two bytes.
fn wrapped(random: &mut Random, parts: Parts) -> Vec<u8> {
    let mut job = parts.bytes();
    let counts = parts.counts.len();
    let bodies = job.len() - 16 - counts;
    let any = [random.below(65_536), random.below(65_536)];
    let labels = random.pick(&[parts.labels.len(), 65_535, 65_514, any[0]]);
    let moves = random.pick(&[parts.moves.len(), 65_535, 12_288, 40_960, any[1]]);
    let goal = (bodies + 2 * 65_536 - labels - moves) % 65_536;
    job[..16].copy_from_slice(&contents([counts, labels, moves, goal]));
    job
}

/// A good job followed by 65,536 bytes, so that a length cut to two bytes would look right.
fn longer_by_65536(random: &mut Random, parts: Parts) -> Vec<u8> {
    let mut job = parts.bytes();
    let filling = random.pick(&[0, 1, 255]);
    job.resize(job.len() + 65_536, filling);
    job
}

pub fn far(random: &mut Random, parts: Parts) -> Vec<u8> {
    match random.below(4) {
        0 => stretched(random, parts),
        1 => longer_by_65536(random, parts),
        _ => wrapped(random, parts),
    }
}
