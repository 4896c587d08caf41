//! Drafts of good texts: lines of words, not yet laid out.

use super::names::{names, Style, STYLES};
use crate::random::Random;

pub type Words = Vec<Vec<u8>>;

/// How many there are at most of each, and of lines that say moves.
#[derive(Clone, Copy)]
pub struct Size {
    pub states: usize,
    pub actions: usize,
    pub facts: usize,
    pub goals: usize,
    pub moves: usize,
}

pub const SMALL: Size = Size { states: 6, actions: 4, facts: 3, goals: 5, moves: 9 };
pub const TALL: Size = Size { states: 512, actions: 16, facts: 6, goals: 32, moves: 200 };
pub const MIDDLING: Size = Size { states: 60, actions: 16, facts: 6, goals: 32, moves: 120 };

/// The lines of a text, and the names that it lists.
#[derive(Clone)]
pub struct Draft {
    pub lines: Vec<Words>,
    pub states: Words,
    pub actions: Words,
    pub facts: Words,
    pub goals: Words,
}

/// A line of words that are given with blanks between them.
pub fn line(text: &str) -> Words {
    text.split(' ').map(|word| word.as_bytes().to_vec()).collect()
}

/// Words with a mark between them.
pub fn joined(words: &[Vec<u8>], mark: &str) -> Words {
    words.iter().flat_map(|word| [mark.as_bytes().to_vec(), word.clone()]).skip(1).collect()
}

pub fn any(random: &mut Random, words: &Words) -> Vec<u8> {
    words[random.below(words.len())].clone()
}

/// Some words, perhaps one of them twice.
pub fn some(random: &mut Random, words: &Words, most: usize) -> Words {
    (0..random.between(1, most)).map(|_| any(random, words)).collect()
}

/// Names after a key, in one line or in several.
fn listed(random: &mut Random, key: &str, names: &Words) -> Vec<Words> {
    let most = if random.once_in(3) { random.between(1, names.len().max(1)) } else { names.len().max(1) };
    names.chunks(most).map(|part| [line(&format!("{key} :")), part.to_vec()].concat()).collect()
}

impl Draft {
    fn of_names(random: &mut Random, size: Size, styles: &[Style]) -> Draft {
        let mut some = |count: usize| {
            let style = random.pick(styles);
            names(random, style, count)
        };
        let [states, actions] = [size.states, size.actions].map(&mut some);
        let [facts, goals] = [size.facts, size.goals].map(&mut some);
        Draft { lines: Vec::new(), states, actions, facts, goals }
    }

    pub fn add(&mut self, words: &[&[Vec<u8>]]) {
        self.lines.push(words.concat());
    }

    /// What is true of some states.
    pub fn add_facts(&mut self, random: &mut Random) {
        let mut facts = self.facts.clone();
        facts.push(b"busy".to_vec());
        for _ in 0..random.below(self.states.len().min(40) + 2) {
            let (state, facts) = (any(random, &self.states), some(random, &facts, 3));
            self.add(&[&[state], &line("is"), &joined(&facts, ",")]);
        }
    }

    /// Moves, of which a line may say one twice.
    fn add_moves(&mut self, random: &mut Random, count: usize) {
        for _ in 0..count {
            let head = [any(random, &self.states), any(random, &self.actions)];
            let outcomes = some(random, &self.states, 4);
            self.add(&[&head, &line("->"), &joined(&outcomes, "|")]);
        }
    }

    pub fn add_clause(&mut self, random: &mut Random) {
        let (a, b) = (any(random, &self.facts), any(random, &self.facts));
        match random.below(4) {
            0 => self.add(&[&line("eventually"), &[a]]),
            1 => self.add(&[&line("never"), &[a]]),
            2 => self.add(&[&line("whenever"), &[a], &line("then"), &[b]]),
            _ => self.add(&[&[a], &line("before"), &[b]]),
        }
    }

    /// A row, which may ask for no fact, or for one that is not true.
    pub fn add_row(&mut self, random: &mut Random) {
        let mut facts = Words::new();
        for _ in 0..random.below(self.facts.len().min(3) + 1) {
            facts.extend(line(if random.once_in(3) { ", not" } else { "," }));
            facts.push(any(random, &self.facts));
        }
        let ends = [any(random, &self.goals), any(random, &self.goals)];
        self.add(&[&ends[..1], &line(":"), facts.get(1..).unwrap_or_default(), &line("->"), &ends[1..]]);
    }

    pub fn add_table(&mut self, random: &mut Random) {
        let goals = self.goals.clone();
        self.lines.extend(listed(random, "goal-states", &goals));
        self.add(&[&line("first :"), &[any(random, &goals)]]);
        for _ in 0..random.pick(&[1, 1, 2]) {
            let finals = some(random, &goals, 3);
            self.add(&[&line("final :"), &finals]);
        }
        for _ in 0..random.below(2 * goals.len() + 2) {
            self.add_row(random);
        }
    }

    fn add_goal(&mut self, random: &mut Random) {
        if random.once_in(4) {
            self.add(&[&line("goal :")]);
        }
        if self.facts.is_empty() || random.once_in(2) {
            return self.add_table(random);
        }
        for _ in 0..random.between(1, 3) {
            self.add_clause(random);
        }
    }

    /// The lines that list names and give the start, before all others.
    pub fn new(random: &mut Random, size: Size, styles: &[Style]) -> Draft {
        let mut draft = Draft::of_names(random, size, styles);
        let lists = [("states", &draft.states), ("actions", &draft.actions), ("facts", &draft.facts)];
        draft.lines = lists.map(|(key, names)| listed(random, key, names)).concat();
        let start = any(random, &draft.states);
        draft.add(&[&line("start :"), &[start]]);
        draft
    }

    /// A good text of at most this size, its lines in any order.
    pub fn good(random: &mut Random, most: Size) -> Draft {
        let size = Size {
            states: random.between(1, most.states),
            actions: random.between(1, most.actions),
            facts: random.between(0, most.facts),
            goals: random.between(1, most.goals),
            moves: random.between(0, most.moves),
        };
        let mut draft = Draft::new(random, size, &STYLES);
        draft.add_facts(random);
        draft.add_moves(random, size.moves);
        draft.add_goal(random);
        if random.once_in(2) {
            random.shuffle(&mut draft.lines);
        }
        draft
    }
}
