//! Names of many kinds: words, numbered ones, names of two letters that are all near each other, names of any letters, and long ones.

use crate::random::Random;
use crate::words::names::FORM;
use std::collections::BTreeSet;

/// Names that stand in our papers, and some that are nearly words of the form.
const WORDS: [&str; 32] = [
    "drawer",
    "stage",
    "exposed",
    "broken",
    "lift",
    "expose",
    "return",
    "shown",
    "home",
    "lit",
    "waiting",
    "seen",
    "met",
    "state",
    "action",
    "Start",
    "starts",
    "fact",
    "goals",
    "goal_states",
    "final2",
    "firs",
    "IS",
    "i",
    "s",
    "nots",
    "Busy",
    "when-ever",
    "then_",
    "-",
    "_",
    "7",
];
const LETTERS: &[u8] = b"abcdefghijklmnopqrstuvwxyzABCDEFGHIJKLMNOPQRSTUVWXYZ0123456789-_";

/// How the names of a list are made.
#[derive(Clone, Copy)]
pub enum Style {
    Words,
    Numbered,
    TwoLetters,
    AnyLetters,
    Long,
}

pub const STYLES: [Style; 5] = [Style::Words, Style::Numbered, Style::TwoLetters, Style::AnyLetters, Style::Long];

fn name(random: &mut Random, style: Style, number: usize) -> Vec<u8> {
    let letters = |random: &mut Random, from: &[u8], length: usize| (0..length).map(|_| random.pick(from)).collect();
    match style {
        Style::Words => random.pick(&WORDS).as_bytes().to_vec(),
        Style::Numbered => format!("s{number}").into_bytes(),
        Style::TwoLetters => {
            let length = random.between(1, 5);
            letters(random, b"ab", length)
        }
        Style::AnyLetters => {
            let length = random.between(1, 12);
            letters(random, LETTERS, length)
        }
        Style::Long => {
            let mut name = vec![b'n'; random.between(58, 62)];
            name.extend::<Vec<u8>>(letters(random, b"nm", 2));
            name
        }
    }
}

/// So many different names; a style that has run out of them gives numbered ones.
pub fn names(random: &mut Random, style: Style, count: usize) -> Vec<Vec<u8>> {
    let mut names: Vec<Vec<u8>> = Vec::new();
    let (mut taken, mut turns) = (BTreeSet::new(), 0);
    while names.len() < count {
        let style = if turns > 8 * count { Style::Numbered } else { style };
        let name = name(random, style, turns);
        if !FORM.iter().any(|form| form.as_bytes() == name) && taken.insert(name.clone()) {
            names.push(name);
        }
        turns += 1;
    }
    names
}
