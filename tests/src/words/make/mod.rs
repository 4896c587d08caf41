//! Texts made from a seed and a number: those at the limits first, then good and damaged ones.

mod damage;
mod edges;
pub mod good;
pub mod layout;
pub mod names;

use crate::random::Random;
use edges::EDGES;
use good::{Draft, MIDDLING, SMALL, TALL};
use layout::Layout;

/// Texts beside those at the limits.
const MIXED: u64 = 4_000;
/// One in so many is larger than others.
const LARGER: usize = 40;

pub fn count() -> u64 {
    EDGES.len() as u64 + MIXED
}

/// A text and what it is.
pub fn text(seed: u64, number: u64) -> (&'static str, Vec<u8>) {
    let random = &mut Random::new(seed, number);
    if let Some((kind, make)) = EDGES.get(number as usize) {
        return (kind, make(random));
    }
    let size = if random.once_in(LARGER) { random.pick(&[MIDDLING, TALL]) } else { SMALL };
    let mut draft = Draft::good(random, size);
    let layout = random.pick(&[Layout::Narrow, Layout::Plain, Layout::Wild, Layout::Wild]);
    let (kind, damages) = match random.below(20) {
        0..6 => ("good", 0),
        6..8 => ("with bytes changed", 0),
        8..14 => ("damaged once", 1),
        14..18 => ("damaged", random.between(2, 6)),
        _ => ("damaged often", random.between(7, 30)),
    };
    (0..damages).for_each(|_| damage::draft(random, &mut draft));
    let mut text = layout::text(random, &draft.lines, layout);
    if kind == "with bytes changed" {
        damage::bytes(random, &mut text);
    }
    (kind, text)
}
