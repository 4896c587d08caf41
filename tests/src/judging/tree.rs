//! Formulas as trees, and what it is for one to hold at a moment: document 004's sentences, one for each operator.

use crate::oracle::{DEEP, FORMULA, LETTER, TRACE};

pub enum Tree {
    Atom(u8),
    Not(Box<Tree>),
    And(Box<Tree>, Box<Tree>),
    Next(Box<Tree>),
    Until(Box<Tree>, Box<Tree>),
    WeakNext(Box<Tree>),
    Eventually(Box<Tree>),
    Always(Box<Tree>),
}

use Tree::{Always, And, Atom, Eventually, Next, Not, Until, WeakNext};

/// The operators with one part and those with two, as bytes.
pub const ONE: [u8; 5] = [16, 18, 20, 21, 22];
pub const TWO: [u8; 2] = [17, 19];

/// The tree that bytes say, if they say one: read from the back, each operator taking its parts from those that are done.
fn read(bytes: &[u8]) -> Option<Tree> {
    let mut done: Vec<Box<Tree>> = Vec::new();
    for &byte in bytes.iter().rev() {
        let tree = match byte {
            0..=5 => Atom(byte),
            16 => Not(done.pop()?),
            17 => And(done.pop()?, done.pop()?),
            18 => Next(done.pop()?),
            19 => Until(done.pop()?, done.pop()?),
            20 => WeakNext(done.pop()?),
            21 => Eventually(done.pop()?),
            22 => Always(done.pop()?),
            _ => return None,
        };
        done.push(Box::new(tree));
    }
    let tree = done.pop()?;
    done.is_empty().then_some(*tree)
}

/// The most operators among until, eventually and always on one path.
fn depth(tree: &Tree) -> usize {
    match tree {
        Atom(_) => 0,
        Not(f) | Next(f) | WeakNext(f) => depth(f),
        And(f, g) => depth(f).max(depth(g)),
        Until(f, g) => 1 + depth(f).max(depth(g)),
        Eventually(f) | Always(f) => 1 + depth(f),
    }
}

/// At which moments of a trace of so many labels something holds.
type Moments = Vec<bool>;

fn not(f: Moments) -> Moments {
    f.iter().map(|held| !held).collect()
}

/// Next: it is not the last moment, and the part holds at the one after it.
fn next(f: &Moments) -> Moments {
    (0..f.len()).map(|i| i + 1 < f.len() && f[i + 1]).collect()
}

/// Until: the second part holds at some moment from here on, and the first at all moments from here on before that one.
fn until(f: &Moments, g: &Moments) -> Moments {
    (0..f.len()).map(|i| (i..f.len()).any(|j| g[j] && f[i..j].iter().all(|&held| held))).collect()
}

/// Weak next is not next not; eventually is true until; always is not eventually not.
fn moments(tree: &Tree, trace: &[u8]) -> Moments {
    let all = || vec![true; trace.len()];
    match tree {
        Atom(p) => trace.iter().map(|label| label >> p & 1 == 1).collect(),
        Not(f) => not(moments(f, trace)),
        And(f, g) => moments(f, trace).iter().zip(moments(g, trace)).map(|(&f, g)| f && g).collect(),
        Next(f) => next(&moments(f, trace)),
        Until(f, g) => until(&moments(f, trace), &moments(g, trace)),
        WeakNext(f) => not(next(&not(moments(f, trace)))),
        Eventually(f) => until(&all(), &moments(f, trace)),
        Always(f) => not(until(&all(), &not(moments(f, trace)))),
    }
}

/// What judging has to answer: the refusal, and 1 where the formula holds at the first label.
pub fn answer(formula: &[u8], trace: &[u8]) -> (u32, u32) {
    if trace.is_empty() || trace.len() > 64 {
        return (TRACE, 0);
    }
    let Some(tree) = read(formula).filter(|_| formula.len() <= 64) else { return (FORMULA, 0) };
    if depth(&tree) > 3 {
        return (DEEP, 0);
    }
    if trace.iter().any(|&label| label > 63) {
        return (LETTER, 0);
    }
    (0, u32::from(moments(&tree, trace)[0]))
}
