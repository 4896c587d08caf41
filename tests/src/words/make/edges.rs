//! Texts at the limits: the longest, the most of everything and one more, and faults that just have room.

use super::damage;
use super::good::{line, Draft, Size, Words};
use super::layout::{self, Layout};
use super::names::{Style, STYLES};
use crate::random::Random;
use crate::words::{faults::ROOM, LONGEST};

type Edge = (&'static str, fn(&mut Random) -> Vec<u8>);

const FULL: Size = Size { states: 512, actions: 16, facts: 6, goals: 32, moves: 8_192 };
const OLD: Size = Size { states: 128, actions: 16, facts: 6, goals: 32, moves: 4_096 };

/// A text of exactly this size: so many different moves, and a table.
fn full(random: &mut Random, size: Size) -> Draft {
    let mut draft = Draft::new(random, size, &[Style::Numbered]);
    draft.add_facts(random);
    let (states, actions) = (size.states, size.actions);
    for number in 0..size.moves {
        // A prime that does not divide the count of triples, so that no move comes twice.
        let spread = number * 7_919 % (states * actions * states);
        let [state, action, outcome] = [spread % states, spread / states % actions, spread / states / actions];
        let head = [draft.states[state].clone(), draft.actions[action].clone()];
        let outcome = draft.states[outcome].clone();
        draft.add(&[&head, &line("->"), &[outcome]]);
    }
    draft.add_table(random);
    draft
}

fn narrow(random: &mut Random, draft: &Draft) -> Vec<u8> {
    layout::text(random, &draft.lines, Layout::Narrow)
}

fn full_text(random: &mut Random, size: Size) -> Vec<u8> {
    let draft = full(random, size);
    narrow(random, &draft)
}

/// A text lengthened by a remark.
fn padded(mut text: Vec<u8>, length: usize) -> Vec<u8> {
    text.extend(b"\n#");
    text.resize(length, b'x');
    text
}

fn small(random: &mut Random, damages: usize) -> Vec<u8> {
    let mut draft = Draft::good(random, super::good::SMALL);
    (0..damages).for_each(|_| damage::draft(random, &mut draft));
    narrow(random, &draft)
}

/// More states than there may be, and names of the last ones in moves.
fn states(random: &mut Random, count: usize, style: Style) -> Vec<u8> {
    let mut draft = Draft::new(random, Size { states: count, moves: 0, ..OLD }, &[style]);
    let (last, action) = (draft.states[count - 1].clone(), draft.actions[0].clone());
    draft.add(&[&[last.clone(), action], &line("->"), &[last]]);
    draft.add_table(random);
    narrow(random, &draft)
}

/// Words alone, of which so many bytes are told; then a few more, and the faults of the whole text.
fn told(bytes: usize, more: usize) -> Vec<u8> {
    let (mut text, mut left, mut number) = (Vec::new(), bytes, 1);
    while left > 0 {
        let beside = format!("line {number}: expected more after ''\n").len();
        let next = format!("line {}: expected more after ''\n", number + 1).len();
        let letters = match left {
            150.. => 20,
            _ if left > beside + 50 => (left - beside - next) / 2,
            _ => left - beside,
        };
        text.extend(vec![b'w'; letters]);
        text.push(b'\n');
        left -= beside + letters;
        number += 1;
    }
    text.extend(b"x\n".repeat(more));
    text
}

/// Thousands of odd lines.
fn many_odd(random: &mut Random, count: usize) -> Vec<u8> {
    let mut draft = Draft::good(random, super::good::MIDDLING);
    (0..count).for_each(|_| damage::add_odd_line(random, &mut draft));
    layout::text(random, &draft.lines, Layout::Wild)
}

/// As many long names as there may be, and moves between names that are near to them.
fn near_long_names(random: &mut Random) -> Vec<u8> {
    let mut draft = Draft::new(random, Size { states: 512, moves: 0, ..OLD }, &STYLES[3..]);
    for _ in 0..400 {
        damage::add_odd_line(random, &mut draft);
    }
    narrow(random, &draft)
}

/// A move too many, but its outcome has no name.
fn one_unknown(random: &mut Random) -> Vec<u8> {
    let mut draft = full(random, FULL);
    let head: Words = vec![draft.states[0].clone(), draft.actions[0].clone()];
    draft.add(&[&head, &line("-> nowhere")]);
    narrow(random, &draft)
}

/// The most moves, some of them said again, and one more after words that are wrong.
fn moves_again(random: &mut Random, more: bool) -> Vec<u8> {
    let mut draft = full(random, FULL);
    let again: Vec<Words> = draft.lines.iter().filter(|words| words[2] == b"->").take(700).cloned().collect();
    draft.lines.extend(again);
    if more {
        let mut words = draft.lines.iter().find(|words| words[2] == b"->").cloned().unwrap_or_default();
        let states = draft.states.clone();
        words.extend(states.iter().flat_map(|state| [b"or".to_vec(), state.clone()]));
        draft.lines.push(words);
    }
    narrow(random, &draft)
}

/// A small text with lines after it.
fn stem(lines: String) -> Vec<u8> {
    let head = "states: a\nactions: go\nfacts: f\nstart: a\ngoal-states: q r\nfirst: q\nfinal: r\n";
    [head.as_bytes(), lines.as_bytes()].concat()
}

/// From every one of so many states, by each of 16 actions, to every one; names have one letter as long as there are such.
fn every_move(states: usize) -> Vec<u8> {
    let letters = "abcdefghijklmnopqrstuvwxyzABCDEFGHIJKLMNOPQRSTUVWXYZ0123456789-_";
    let names: Vec<String> = letters.chars().map(String::from).chain(["zz".to_string()]).take(states).collect();
    let mut text = format!("states: {}\nactions: {}\nstart: a\n", names.join(" "), names[..16].join(" "));
    text += "goal-states: q\nfirst: q\nfinal: q\n";
    for state in &names {
        for action in &names[..16] {
            text += &format!("{state} {action} -> {}\n", names.join("|"));
        }
    }
    text.into_bytes()
}

pub const EDGES: &[Edge] = &[
    ("empty", |_| vec![]),
    ("a line feed", |_| b"\n".to_vec()),
    ("a remark", |_| b"# only a remark".to_vec()),
    ("all the moves there may be", |random| full_text(random, FULL)),
    ("one move more", |random| full_text(random, Size { moves: 8_193, ..FULL })),
    ("many moves more", |random| full_text(random, Size { moves: 9_000, ..FULL })),
    ("one move more, unknown", one_unknown),
    ("all moves, some twice", |random| moves_again(random, false)),
    ("all moves, and more after wrong words", |random| moves_again(random, true)),
    ("4,096 moves", |random| full_text(random, OLD)),
    ("4,097 moves", |random| full_text(random, Size { moves: 4_097, ..OLD })),
    ("4,096 moves, 129 states", |random| full_text(random, Size { states: 129, ..OLD })),
    ("128 states", |random| full_text(random, Size { moves: 50, ..OLD })),
    ("129 states", |random| full_text(random, Size { moves: 50, states: 129, ..OLD })),
    ("one of everything", |random| full_text(random, Size { states: 1, actions: 1, facts: 0, goals: 1, moves: 1 })),
    ("512 states", |random| states(random, 512, Style::Numbered)),
    ("513 states", |random| states(random, 513, Style::Numbered)),
    ("700 states", |random| states(random, 700, Style::AnyLetters)),
    ("17 actions", |random| full_text(random, Size { actions: 17, moves: 60, ..OLD })),
    ("7 facts", |random| full_text(random, Size { facts: 7, moves: 9, ..OLD })),
    ("33 goal states", |random| full_text(random, Size { goals: 33, moves: 9, ..OLD })),
    ("as long as may be", |random| padded(small(random, 0), LONGEST)),
    ("one byte longer", |random| padded(small(random, 0), LONGEST + 1)),
    ("faulty and as long as may be", |random| padded(small(random, 9), LONGEST)),
    ("faulty and one byte longer", |random| padded(small(random, 9), LONGEST + 1)),
    ("much longer", |random| padded(small(random, 0), 3 * LONGEST)),
    ("a long word", |_| vec![b'w'; LONGEST]),
    ("two long words", |_| [vec![b'w'; 100_000], b" is ".to_vec(), vec![0xe4; 100_000]].concat()),
    ("line feeds", |_| vec![b'\n'; LONGEST]),
    ("a fault of the last line", |_| [vec![b'\n'; LONGEST - 3], b"x y".to_vec()].concat()),
    ("65,536 moves", |_| every_move(64)),
    ("67,600 moves", |_| every_move(65)),
    ("thousands of rows", |_| stem("q: f, not f -> r\n".repeat(14_000) + "q: -> r\nr: not f -> q")),
    ("a long row", |_| stem(format!("q: {}not f -> r\n", "f, ".repeat(80_000)))),
    ("a long move", |_| stem(format!("a go -> {}a\n", "a|".repeat(120_000)))),
    ("many facts of a state", |_| stem(format!("a is {}f", "busy,".repeat(50_000)))),
    ("thousands of clauses", |_| b"never f\n".repeat(32_700)),
    ("words alone", |_| b"x\n".repeat(LONGEST / 2)),
    ("one name given often", |_| [b"states: ".to_vec(), b"a ".repeat(LONGEST / 2 - 4)].concat()),
    ("commas", |_| [b"a is".to_vec(), b",".repeat(LONGEST - 4)].concat()),
    ("faults that just have room", |_| told(ROOM, 0)),
    ("one byte less", |_| told(ROOM - 1, 0)),
    ("one byte more", |_| told(ROOM + 1, 0)),
    ("the last one that has room", |_| told(ROOM, 7)),
    ("none that has room", |_| told(ROOM + 1, 7)),
    ("700 odd lines", |random| many_odd(random, 700)),
    ("3,000 odd lines", |random| many_odd(random, 3_000)),
    ("long names and near ones", near_long_names),
];
