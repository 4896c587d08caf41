//! Figures to hand to a call: mostly below a limit, sometimes at it, beyond it, or far beyond it.

use crate::random::Random;

/// A figure that is often below the limit.
pub fn figure(random: &mut Random, limit: usize) -> u32 {
    let below = random.below(limit) as u32;
    if random.once_in(2) {
        below
    } else {
        odd(random, limit)
    }
}

/// A figure at the edge of the range or beyond it, or one that looks right when it is cut to one or two bytes.
pub fn odd(random: &mut Random, limit: usize) -> u32 {
    let (below, limit) = (random.below(limit) as u32, limit as u32);
    let figures = [
        0,
        limit - 1,
        limit,
        limit + 1,
        127,
        128,
        255,
        256,
        256 + below,
        65_535,
        65_536,
        65_536 + below,
        (1 << 24) + below,
        1 << 31,
        (1 << 31) + below,
        u32::MAX,
        u32::MAX - below,
        random.word() as u32,
    ];
    random.pick(&figures)
}
