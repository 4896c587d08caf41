//! Damage to a draft and to a text: words and lines left out, doubled, exchanged and misspelt, lines of odd words, and bytes of any kind.

use super::good::{any, joined, line, some, Draft, Words};
use crate::random::Random;
use crate::words::names::FORM;

/// The keys that list names.
const LISTS: [&str; 4] = ["states", "actions", "facts", "goal-states"];

/// A word with one letter or two deleted, put in, changed or exchanged.
fn misspelt(random: &mut Random, word: &[u8]) -> Vec<u8> {
    let mut word = word.to_vec();
    for _ in 0..random.pick(&[1, 1, 1, 2]) {
        let at = random.below(word.len().max(1));
        match random.below(5) {
            0 if word.len() > 1 => drop(word.remove(at)),
            1 => word.insert(at, random.pick(b"abnmsx-_+.")),
            2 => word[at] = random.pick(b"abnmsx-_+\x7f\xe4"),
            3 => word.push(random.pick(b"abnmsx")),
            _ if at > 0 => word.swap(at - 1, at),
            _ => word.push(b's'),
        }
    }
    word
}

/// A word that no list has, or one that a list should not have.
fn odd_word(random: &mut Random) -> Vec<u8> {
    match random.below(7) {
        0 => random.pick(&[":", "|", ",", "->", "not", "is", ":", "|", ",", "->"]).as_bytes().to_vec(),
        1 | 2 => random.pick(&FORM).as_bytes().to_vec(),
        3 => vec![b'n'; random.between(63, 67)],
        4 => vec![random.pick(b"nz+"); random.pick(&[64, 65, 200])],
        5 => line("x+y a->b a.b 'q' --> -> zz").swap_remove(random.below(7)),
        _ => random.pick(&["\u{e4}", "\u{1}", "q\u{0}", "zzz", "\u{7f}~!", "a-", "0"]).as_bytes().to_vec(),
    }
}

/// Any word that the text knows, now and then misspelt, or an odd one.
fn word(random: &mut Random, draft: &Draft) -> Vec<u8> {
    let lists = [&draft.states, &draft.actions, &draft.facts, &draft.goals];
    let list = random.pick(&lists);
    match random.below(8) {
        0..5 if !list.is_empty() => any(random, list),
        5 if !list.is_empty() => {
            let word = any(random, list);
            misspelt(random, &word)
        }
        6 => random.pick(&[":", "|", ",", "->", "not", "then", "busy"]).as_bytes().to_vec(),
        _ => odd_word(random),
    }
}

/// A line that begins like one of the form and goes on with any words.
fn odd_line(random: &mut Random, draft: &Draft) -> Words {
    let [one, two] = [(); 2].map(|()| word(random, draft));
    let fact = if draft.facts.is_empty() { word(random, draft) } else { any(random, &draft.facts) };
    let (state, goal) = (any(random, &draft.states), any(random, &draft.goals));
    let head = match random.below(20) {
        0 => line("start :"),
        1 => line("first :"),
        2 => line("final :"),
        3 => line("goal :"),
        4 => vec![random.pick(&LISTS).into(), b":".to_vec()],
        5 => {
            let key = random.pick(&FORM[..8]);
            vec![misspelt(random, key.as_bytes()), b":".to_vec()]
        }
        6 => vec![one, b":".to_vec()],
        7..10 => vec![goal, b":".to_vec()],
        10 => vec![one, b"is".to_vec()],
        11 => vec![state, b"is".to_vec()],
        12 => vec![one, two, b"->".to_vec()],
        13 => vec![state, any(random, &draft.actions), b"->".to_vec()],
        14 => vec![random.pick(&["eventually", "never"]).into()],
        15 => vec![b"whenever".to_vec(), fact, b"then".to_vec()],
        16 => vec![random.pick(&["whenever", "always"]).into(), one],
        17 => vec![fact, b"before".to_vec()],
        18 => vec![state],
        _ => vec![one],
    };
    let after: Words = (0..random.below(5)).map(|_| word(random, draft)).collect();
    [head, after].concat()
}

/// Where some line has words, one of these lines.
fn full_line<'a>(random: &mut Random, lines: &'a mut [Words]) -> Option<&'a mut Words> {
    let mut full: Vec<&mut Words> = lines.iter_mut().filter(|words| !words.is_empty()).collect();
    let at = random.below(full.len().max(1));
    (at < full.len()).then(|| full.swap_remove(at))
}

/// Changes one word of a line, or its place in it.
fn word_damaged(random: &mut Random, draft: &mut Draft) {
    let other = word(random, draft);
    let Some(words) = full_line(random, &mut draft.lines) else { return };
    let (at, to) = (random.below(words.len()), random.below(words.len()));
    match random.below(10) {
        0 => drop(words.remove(at)),
        1 => words.insert(at, words[at].clone()),
        2 => words.swap(at, to),
        3 if at > 0 => words.swap(at - 1, at),
        4 => words[at] = other,
        5 => words.insert(at, other),
        6 => words.push(other),
        7 => words.truncate(at + 1),
        _ => words[at] = misspelt(random, &words[at].clone()),
    }
}

/// Leaves out a mark of a line.
fn mark_dropped(random: &mut Random, draft: &mut Draft) {
    let Some(words) = full_line(random, &mut draft.lines) else { return };
    if let Some(at) = words.iter().position(|word| matches!(word.as_slice(), b":" | b"|" | b"," | b"->")) {
        words.remove(at);
    }
}

/// Changes whole lines.
fn line_damaged(random: &mut Random, draft: &mut Draft) {
    let odd = odd_line(random, draft);
    let lines = &mut draft.lines;
    let (at, to) = (random.below(lines.len().max(1)), random.below(lines.len().max(1)));
    match random.below(8) {
        _ if lines.is_empty() => lines.push(odd),
        0 => drop(lines.remove(at)),
        1 => lines.insert(to, lines[at].clone()),
        2 => lines.swap(at, to),
        3 => {
            let joined = [lines[at].clone(), lines[to].clone()].concat();
            lines[at] = joined;
        }
        _ => lines.insert(to, odd),
    }
}

/// Too many names, names twice, a second start, a fourth clause, both kinds of goal, or a kind of line left out.
fn rule_broken(random: &mut Random, draft: &mut Draft) {
    let list = random.below(3);
    match random.below(7) {
        0 => {
            let count = [16, 6, 32][list];
            let names: Words = (0..random.between(count, count + 2)).map(|name| format!("z{name}").into()).collect();
            draft.add(&[&[LISTS[list + 1].into()], &line(":"), &names]);
        }
        1 => {
            let mut names: Words = (0..random.between(1, 3)).map(|_| word(random, draft)).collect();
            names.push(vec![random.pick(b"nN7"); random.pick(&[64, 65])]);
            draft.add(&[&[random.pick(&LISTS).into()], &line(":"), &names]);
        }
        2 => draft.add(&[&line(["start :", "first :", "final :"][list]), &[any(random, &draft.states)]]),
        3 => {
            let gone = random.pick(&["states", "actions", "facts", "start", "goal-states", "first", "final"]);
            draft.lines.retain(|words| words.first().is_none_or(|word| word != gone.as_bytes()));
        }
        4 => draft.add_table(random),
        _ if !draft.facts.is_empty() => (0..random.between(1, 4)).for_each(|_| draft.add_clause(random)),
        _ => draft.lines.retain(|words| words.contains(&b":".to_vec())),
    }
}

/// Takes a comma or a bar to a place where none is due.
fn marks_misplaced(random: &mut Random, draft: &mut Draft) {
    let facts = if draft.facts.is_empty() { line("f") } else { some(random, &draft.facts, 3) };
    let mut words = joined(&facts, random.pick(&[",", "|", "not", "and"]));
    let at = random.below(words.len() + 1);
    words.insert(at, random.pick(&[",", "not", "busy", "->", "|"]).into());
    let (state, goal) = ([any(random, &draft.states)], [any(random, &draft.goals)]);
    match random.below(3) {
        0 => draft.add(&[&state, &line("is"), &words]),
        1 => draft.add(&[&goal, &line(":"), &words, &line("->"), &goal]),
        _ => draft.add(&[&goal, &line(":"), &words]),
    }
}

pub fn add_odd_line(random: &mut Random, draft: &mut Draft) {
    draft.lines.push(odd_line(random, draft));
}

pub fn draft(random: &mut Random, draft: &mut Draft) {
    match random.below(10) {
        0..4 => word_damaged(random, draft),
        4 => mark_dropped(random, draft),
        5..7 => line_damaged(random, draft),
        7 => rule_broken(random, draft),
        8 => marks_misplaced(random, draft),
        _ => add_odd_line(random, draft),
    }
}

/// Cuts a text at any byte, or changes, puts in or leaves out some bytes.
pub fn bytes(random: &mut Random, text: &mut Vec<u8>) {
    if random.once_in(3) {
        text.truncate(random.below(text.len() + 1));
    }
    for _ in 0..random.between(1, 6) {
        let at = random.below(text.len().max(1));
        let byte = if random.once_in(2) { random.byte() } else { random.pick(b":|,->#\n \t\r_ab") };
        match random.below(4) {
            _ if text.is_empty() => text.push(byte),
            0 => drop(text.remove(at)),
            1 => text[at] = byte,
            2 if at > 0 => text.swap(at - 1, at),
            _ => text.insert(at, byte),
        }
    }
}
