//! What clauses mean: formulas over finite traces, each operator by its own sentence, and the automaton of a body beside them.

use super::writer::{self, Clause};

enum Formula {
    Atom(u8),
    Not(Box<Formula>),
    And(Box<Formula>, Box<Formula>),
    Until(Box<Formula>, Box<Formula>),
}

use Formula::{And, Atom, Not, Until};

fn not(f: Formula) -> Formula {
    Not(Box::new(f))
}

fn and(f: Formula, g: Formula) -> Formula {
    And(Box::new(f), Box::new(g))
}

fn until(f: Formula, g: Formula) -> Formula {
    Until(Box::new(f), Box::new(g))
}

/// True of everything: not both an atom and its denial.
fn yes() -> Formula {
    not(and(Atom(0), not(Atom(0))))
}

fn eventually(f: Formula) -> Formula {
    until(yes(), f)
}

fn always(f: Formula) -> Formula {
    not(eventually(not(f)))
}

fn or(f: Formula, g: Formula) -> Formula {
    not(and(not(f), not(g)))
}

fn formula([kind, a, b]: Clause) -> Formula {
    match kind {
        0 => eventually(Atom(a)),
        1 => always(not(Atom(a))),
        2 => always(or(not(Atom(a)), eventually(Atom(b)))),
        _ => or(until(not(Atom(b)), Atom(a)), always(not(Atom(b)))),
    }
}

/// Whether the formula holds at moment i of the trace.
fn holds(trace: &[u8], f: &Formula, i: usize) -> bool {
    match f {
        Atom(p) => trace[i] >> p & 1 == 1,
        Not(f) => !holds(trace, f, i),
        And(f, g) => holds(trace, f, i) && holds(trace, g, i),
        Until(f, g) => (i..trace.len()).any(|j| holds(trace, g, j) && (i..j).all(|k| holds(trace, f, k))),
    }
}

/// Whether the automaton of a body takes the trace, from goal state 0.
pub fn takes(body: &[u8], states: usize, labels: usize, trace: &[u8]) -> bool {
    let end = trace.iter().fold(0, |state, &label| body[state * labels + usize::from(label)].into());
    body[states * labels + end] == 1
}

/// Every nonempty trace of labels below a bound, up to a length, in counting order.
pub fn traces(labels: u8, longest: usize) -> Vec<Vec<u8>> {
    let mut all: Vec<Vec<u8>> = (0..labels).map(|label| vec![label]).collect();
    let mut from = 0;
    for _ in 1..longest {
        let to = all.len();
        for index in from..to {
            for label in 0..labels {
                all.push([all[index].as_slice(), &[label]].concat());
            }
        }
        from = to;
    }
    all
}

/// The first slips and trace on which a body and the meaning of its clauses differ, over all traces up to length 6; else how many were tried.
pub fn agree(all: &[Vec<Clause>], clauses: &[Clause], propositions: u32) -> Result<usize, String> {
    let labels = 1 << propositions;
    let traces = traces(labels as u8, 6);
    let meant: Vec<Vec<bool>> =
        clauses.iter().map(|&c| traces.iter().map(|trace| holds(trace, &formula(c), 0)).collect()).collect();
    for slips in all {
        let body = writer::body(slips, propositions);
        let rows: Vec<&Vec<bool>> =
            slips.iter().map(|c| &meant[clauses.iter().position(|d| c == d).expect("a clause")]).collect();
        for (index, trace) in traces.iter().enumerate() {
            if takes(&body, 3usize.pow(slips.len() as u32), labels, trace) != rows.iter().all(|row| row[index]) {
                return Err(format!("slips {slips:?} over {propositions} propositions, trace {trace:?}"));
            }
        }
    }
    Ok(all.len() * traces.len())
}
