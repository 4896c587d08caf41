//! Formulas in bytes: all small ones, random ones of a size, those of slips, and damaged ones.

use super::tree::{ONE, TWO};
use crate::random::Random;
use crate::slips::writer::Clause;

/// Every formula of up to so many nodes over so many propositions.
pub fn all(most: usize, propositions: u8) -> Vec<Vec<u8>> {
    let mut by_nodes: Vec<Vec<Vec<u8>>> = vec![Vec::new(), (0..propositions).map(|p| vec![p]).collect()];
    for nodes in 2..=most {
        let mut found = Vec::new();
        for root in ONE {
            found.extend(by_nodes[nodes - 1].iter().map(|f| [&[root], f.as_slice()].concat()));
        }
        for root in TWO {
            for left in 1..nodes - 1 {
                for f in &by_nodes[left] {
                    let others = by_nodes[nodes - 1 - left].iter();
                    found.extend(others.map(|g| [&[root], f.as_slice(), g].concat()));
                }
            }
        }
        by_nodes.push(found);
    }
    by_nodes.concat()
}

/// A formula of so many nodes with at most so many of until, eventually and always on a path.
pub fn some(random: &mut Random, nodes: usize, depth: usize) -> Vec<u8> {
    if nodes == 1 {
        return vec![random.below(6) as u8];
    }
    let deeper = |root: u8| usize::from(root == 19 || root > 20);
    if nodes > 2 && random.once_in(2) {
        let root = if depth > 0 { random.pick(&TWO) } else { 17 };
        let left = random.between(1, nodes - 2);
        let f = some(random, left, depth - deeper(root));
        return [&[root], f.as_slice(), &some(random, nodes - 1 - left, depth - deeper(root))].concat();
    }
    let root = if depth > 0 { random.pick(&ONE) } else { random.pick(&ONE[..3]) };
    [&[root], some(random, nodes - 1, depth - deeper(root)).as_slice()].concat()
}

/// The bytes of a clause's formula.
fn clause([kind, a, b]: &Clause) -> Vec<u8> {
    match kind {
        0 => vec![21, *a],
        1 => vec![22, 16, *a],
        2 => vec![22, 16, 17, *a, 16, 21, *b],
        _ => vec![16, 17, 16, 19, 16, *b, *a, 16, 22, 16, *b],
    }
}

/// The bytes of the formula of slips: their clauses joined by and.
pub fn slips(clauses: &[Clause]) -> Vec<u8> {
    let (last, first) = clauses.split_last().expect("a clause");
    let joined: Vec<u8> = first.iter().flat_map(|c| [vec![17], clause(c)].concat()).collect();
    [joined, clause(last)].concat()
}

/// Spoils a formula in one of the ways that there are.
pub fn spoil(random: &mut Random, formula: &mut Vec<u8>) {
    let at = random.below(formula.len());
    let (any, atom) = (random.byte(), random.between(6, 15) as u8);
    match random.below(9) {
        0 => formula.truncate(at),
        1 => formula.push(random.pick(&[0, 5, 16, 17, 22, any])),
        2 => formula[at] = any,
        3 => formula[at] = atom,
        4 => formula[at] = random.pick(&[23, 24, 128, 255]),
        5 => formula.insert(at, random.pick(&[16, 17, 19, 21, 22])),
        6 => drop(formula.remove(at)),
        7 => {
            let longer = random.pick(&[65, 65, 66, 100, 4_096]);
            let shorter = formula.len().min(longer);
            formula.splice(0..0, vec![16; longer - shorter]);
        }
        _ => drop(formula.splice(0..0, [21, 22, 19, 0, 21])),
    }
}
