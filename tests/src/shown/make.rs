//! Texts to be shown: games in which hope and loss lie close together, long names, long ways, and any good texts.

use crate::random::Random;
use crate::words::make::good::{any, joined, line, some, Draft, Size, MIDDLING, SMALL, TALL};
use crate::words::make::layout::{self, Layout};
use crate::words::make::names::{Style, STYLES};
use crate::words::{FORM, LONGEST_NAME};

/// Texts beside those at the limits.
const MIXED: u64 = 1_440;
/// Each game at the limits is made so often.
const TIMES: usize = 8;

type Edge = (&'static str, fn(&mut Random) -> Draft);

/// Names that are made longer.
const SHORT: [Style; 1] = [Style::TwoLetters];
const LONG: Size = Size { states: 12, actions: 5, facts: 3, goals: 6, moves: 0 };
const EDGES: [Edge; 6] = [
    ("long names and clauses", |random| lengthened(by_clauses(random, LONG, &SHORT, 3))),
    ("long names and a table", |random| lengthened(by_table(random, LONG, &SHORT))),
    ("many reasons", |random| lengthened(doubted(by_clauses(random, Size { actions: 16, ..LONG }, &SHORT, 3)))),
    ("long names and many facts", |random| lengthened(by_table(random, Size { facts: 6, goals: 32, ..LONG }, &SHORT))),
    ("many states", |random| by_clauses(random, Size { states: 300, actions: 3, ..LONG }, &STYLES, 2)),
    ("many goal states", |random| by_table(random, Size { states: 60, goals: 32, ..LONG }, &STYLES)),
];
const RINGS: [Edge; 4] = [
    ("the longest way", |random| ring(random, [512, 32], false)),
    ("a long way", |random| ring(random, [100, 3], false)),
    ("a long doubtful way", |random| ring(random, [130, 9], true)),
    ("a doubtful way", |random| ring(random, [20, 12], true)),
];

pub fn count() -> u64 {
    (RINGS.len() + TIMES * EDGES.len()) as u64 + MIXED
}

/// Makes every name as long as a name may be; no two become one, since none begins with this letter.
fn lengthened(mut draft: Draft) -> Draft {
    let form = |word: &[u8]| FORM.iter().any(|form| form.as_bytes() == word);
    for word in draft.lines.iter_mut().flatten() {
        if !matches!(word.as_slice(), b":" | b"|" | b"," | b"->") && !form(word) {
            word.splice(0..0, vec![b'n'; LONGEST_NAME - word.len()]);
        }
    }
    draft
}

/// Names, facts and moves, of which many lead on to the next state.
fn game(random: &mut Random, size: Size, styles: &[Style]) -> Draft {
    let mut draft = Draft::new(random, size, styles);
    let (states, actions, open) = (draft.states.clone(), draft.actions.clone(), random.between(1, 4));
    for (number, state) in states.iter().enumerate() {
        let mut facts = if random.once_in(2) { some(random, &draft.facts, 2) } else { Vec::new() };
        facts.extend(random.once_in(6).then(|| b"busy".to_vec()));
        if !facts.is_empty() {
            draft.add(&[std::slice::from_ref(state), &line("is"), &joined(&facts, ",")]);
        }
        for action in &actions {
            let mut outcomes = some(random, &states, 3);
            outcomes.extend(random.once_in(3).then(|| states[(number + 1) % states.len()].clone()));
            if random.below(4) < open {
                draft.add(&[&[state.clone(), action.clone()], &line("->"), &joined(&outcomes, "|")]);
            }
        }
    }
    draft
}

/// Makes nothing sure: whatever is tried, the state may stay as it is.
fn doubted(mut draft: Draft) -> Draft {
    for state in draft.states.clone() {
        for action in draft.actions.clone() {
            draft.add(&[&[state.clone(), action], &line("->"), std::slice::from_ref(&state)]);
        }
    }
    draft
}

/// A goal of so many clauses, often with one that asks for something to happen.
fn by_clauses(random: &mut Random, size: Size, styles: &[Style], count: usize) -> Draft {
    let mut draft = game(random, size, styles);
    if random.once_in(4) {
        draft.add_clause(random);
    } else {
        draft.add(&[&line("eventually"), &[any(random, &draft.facts)]]);
    }
    (1..count).for_each(|_| draft.add_clause(random));
    draft
}

/// Adds a goal that goes on from goal state to goal state up to the last, and may go astray.
fn add_table(random: &mut Random, draft: &mut Draft, astray: bool) {
    let goals = draft.goals.clone();
    draft.add(&[&line("goal-states :"), &goals]);
    draft.add(&[&line("first :"), &goals[..1]]);
    draft.add(&[&line("final :"), &goals[goals.len() - 1..]]);
    for pair in goals.windows(2) {
        if astray && random.once_in(4) {
            draft.add_row(random);
        }
        let fact = any(random, &draft.facts);
        draft.add(&[&pair[..1], &line(":"), &[fact], &line("->"), &pair[1..]]);
    }
}

fn by_table(random: &mut Random, size: Size, styles: &[Style]) -> Draft {
    let mut draft = game(random, size, styles);
    add_table(random, &mut draft, true);
    draft
}

/// A ring of states, each time around which the goal goes on; with doubt every move but the first may lead back.
fn ring(random: &mut Random, [states, goals]: [usize; 2], doubt: bool) -> Draft {
    let size = Size { states, actions: 1, facts: 1, goals, moves: 0 };
    let mut draft = Draft::new(random, size, &[Style::Numbered]);
    let (names, action) = (draft.states.clone(), draft.actions[0].clone());
    draft.add(&[&names[..1], &line("is"), &draft.facts.clone()]);
    for (number, name) in names.iter().enumerate() {
        let back = names[number.saturating_sub(usize::from(number > 1))].clone();
        let mut outcomes = vec![names[(number + 1) % names.len()].clone()];
        outcomes.extend((doubt && number > 0).then_some(back));
        draft.add(&[&[name.clone(), action.clone()], &line("->"), &joined(&outcomes, "|")]);
    }
    add_table(random, &mut draft, false);
    draft
}

fn mixed(random: &mut Random) -> (&'static str, Draft) {
    let size = Size {
        states: random.between(2, 8),
        actions: random.between(1, 5),
        facts: random.between(1, 4),
        goals: random.between(2, 6),
        moves: 0,
    };
    let most = random.pick(&[SMALL, SMALL, SMALL, MIDDLING, TALL]);
    let count = random.between(1, 3);
    match random.below(12) {
        0 => ("good", Draft::good(random, most)),
        1..6 => ("by clauses", by_clauses(random, size, &STYLES, count)),
        6 => ("doubtful, by clauses", doubted(by_clauses(random, size, &STYLES, count))),
        7 => ("doubtful, by a table", doubted(by_table(random, size, &STYLES))),
        _ => ("by a table", by_table(random, size, &STYLES)),
    }
}

/// A text and what it is.
pub fn text(seed: u64, number: u64) -> (&'static str, Vec<u8>) {
    let random = &mut Random::new(seed, number);
    let mut edges = RINGS.iter().chain(EDGES.iter().cycle().take(TIMES * EDGES.len()));
    let (kind, mut draft) = match edges.nth(number as usize) {
        Some((kind, make)) => (*kind, make(random)),
        None => mixed(random),
    };
    if random.once_in(2) {
        random.shuffle(&mut draft.lines);
    }
    let layout = random.pick(&[Layout::Narrow, Layout::Plain, Layout::Wild]);
    (kind, layout::text(random, &draft.lines, layout))
}
