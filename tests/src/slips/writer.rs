//! The independent writer of Goal bodies: goal states as digits in a row, every row written out.

use crate::oracle::{CLAUSE, NO_CLAUSES};

/// A clause as its three bytes.
pub type Clause = [u8; 3];

/// The clauses of slips, or the first number that says no.
pub fn read(slips: &[u8], propositions: u32) -> Result<Vec<Clause>, u32> {
    let (clauses, left) = slips.as_chunks::<3>();
    if !left.is_empty() || clauses.is_empty() || clauses.len() > 3 {
        return Err(NO_CLAUSES);
    }
    let known = |&p: &u8| u32::from(p) < propositions;
    let bad = |[kind, a, b]: &Clause| *kind > 3 || !known(a) || !known(b) || (*kind < 2 && a != b);
    if propositions > 6 || clauses.iter().any(bad) {
        return Err(CLAUSE);
    }
    Ok(clauses.to_vec())
}

/// Where a clause goes from a digit, by whether a and b are true.
fn digit_after([kind, ..]: &Clause, digit: u8, a: bool, b: bool) -> u8 {
    match (kind, digit, a, b) {
        (0 | 1, 0, true, _) => 1,
        (2, 0, true, false) => 1,
        (2, 1, _, true) => 0,
        (3, 0, true, _) => 1,
        (3, 0, false, true) => 2,
        _ => digit,
    }
}

fn is_final([kind, ..]: &Clause, digit: u8) -> bool {
    match kind {
        0 => digit == 1,
        1 | 2 => digit == 0,
        _ => digit != 2,
    }
}

/// Every row of so many digits in counting order, the first digit leading.
fn rows_of_digits(count: usize) -> Vec<Vec<u8>> {
    let mut rows = vec![Vec::new()];
    for _ in 0..count {
        rows = rows.iter().flat_map(|row| (0..3).map(move |digit| [row.as_slice(), &[digit]].concat())).collect();
    }
    rows
}

/// The Goal body of clauses over so many propositions.
pub fn body(clauses: &[Clause], propositions: u32) -> Vec<u8> {
    let rows = rows_of_digits(clauses.len());
    let number = |digits: &[u8]| rows.iter().position(|row| row == digits).expect("a row") as u8;
    let mut bytes = Vec::new();
    for digits in &rows {
        for label in 0..1u32 << propositions {
            let has = |p: u8| label >> p & 1 == 1;
            let after = |(clause, &digit): (&Clause, &u8)| digit_after(clause, digit, has(clause[1]), has(clause[2]));
            bytes.push(number(&clauses.iter().zip(digits).map(after).collect::<Vec<u8>>()));
        }
    }
    for digits in &rows {
        bytes.push(u8::from(clauses.iter().zip(digits).all(|(clause, &digit)| is_final(clause, digit))));
    }
    bytes
}
