//! What the clauses of a goal have seen, in words.

use crate::slips::writer::Clause;

/// What a clause has seen, by its digit; kinds have two or three, and no run comes to another.
fn phrase([kind, a, b]: Clause, digit: usize, facts: &[String]) -> String {
    let [a, b] = [a, b].map(|fact| &facts[usize::from(fact)]);
    match (kind, digit) {
        (0, 0) => format!("not yet {a}"),
        (0, 1) => format!("{a} seen"),
        (1, 0) => format!("never {a} so far"),
        (1, 1) => format!("broken by {a}"),
        (2, 0) => format!("no {b} owed"),
        (2, 1) => format!("{b} owed"),
        (3, 0) => format!("before {a}"),
        (3, 1) => format!("{a} seen"),
        (3, 2) => format!("{b} came too soon"),
        _ => "nowhere".to_string(),
    }
}

/// A goal state's digits, the first clause's first.
pub fn digits(goal: usize, clauses: usize) -> Vec<usize> {
    (0..clauses).rev().map(|place| goal / 3_usize.pow(place as u32) % 3).collect()
}

/// Every goal state of clauses by what each clause has seen.
pub fn of_goal_states(clauses: &[Clause], facts: &[String]) -> Vec<String> {
    let of = |goal: usize| {
        let each = clauses.iter().zip(digits(goal, clauses.len()));
        each.map(|(&clause, digit)| phrase(clause, digit, facts)).collect::<Vec<_>>().join(", ")
    };
    (0..3_usize.pow(clauses.len() as u32)).map(of).collect()
}
