//! Reads a text line by line: what it says, and the faults of each line and of the whole.

use super::faults::Fault;
use super::goal::Goal;
use super::names::{nearest_key, Kind, Names};
use super::text::{Line, Word};
use std::collections::BTreeSet;

const MOST_MOVES: usize = 8_192;
/// What stands in a label beside facts.
pub const BUSY: u8 = 128;

/// What the lines read so far have said.
pub struct Reader<'a> {
    pub names: Names<'a>,
    pub faults: Vec<Fault>,
    line: usize,
    /// Whether a start is given, and which it is where its name is known.
    start_given: bool,
    pub start: usize,
    pub labels: Vec<u8>,
    pub moves: BTreeSet<[usize; 3]>,
    pub goal: Goal,
}

impl<'a> Reader<'a> {
    pub fn new(lines: &[Line<'a>]) -> Reader<'a> {
        let (names, faults) = Names::listed(lines);
        let labels = vec![0; names.count(Kind::State)];
        let mut reader = Reader {
            names,
            faults,
            line: 0,
            start_given: false,
            start: 0,
            labels,
            moves: BTreeSet::new(),
            goal: Goal::default(),
        };
        for line in lines {
            reader.line = line.number;
            reader.line(&line.words);
        }
        // The faults of lists were found before all others.
        reader.faults.sort_by_key(|fault| fault.line);
        reader.whole();
        reader
    }

    /// Tells a fault of this line, at a word.
    pub fn at(&mut self, of: &'static str, form: &str, word: Word) {
        self.faults.push(Fault::at(self.line, of, form.to_string(), word));
    }

    /// Tells a fault of this line.
    pub fn miss(&mut self, of: &'static str, form: &str) {
        self.at(of, form, b"");
    }

    fn unknown(&mut self, of: &'static str, noun: &str, word: Word, near: Option<Word>) {
        let fault = Fault::at(self.line, of, format!("no {noun} is named 'x'"), word);
        self.faults.push(Fault { near: near.map(<[u8]>::to_vec), ..fault });
    }

    /// The number of a name, or it is told that there is none.
    pub fn named(&mut self, of: &'static str, kind: Kind, word: Word) -> Option<usize> {
        let number = self.names.number(kind, word);
        if number.is_none() {
            self.unknown(of, kind.noun(), word, self.names.near(kind, word));
        }
        number
    }

    /// Tells of the first of the words that are left where the line has to end.
    pub fn end(&mut self, of: &'static str, left: &[Word]) {
        if let Some(word) = left.first() {
            self.at(of, "expected the line's end, found 'x'", word);
        }
    }

    fn line(&mut self, words: &[Word]) {
        match words {
            [] => {}
            [word] => self.at("a word alone", "expected more after 'x'", word),
            [key, b":", after @ ..] => self.after_a_colon(key, after),
            [state, b"is", after @ ..] => self.facts_of(state, after),
            [state, action, b"->", after @ ..] => self.moves_of(state, action, after),
            [b"eventually", fact, after @ ..] => self.one_fact("eventually", 0, fact, after),
            [b"never", fact, after @ ..] => self.one_fact("never", 1, fact, after),
            [b"whenever", after @ ..] => self.whenever(after),
            [fact, b"before", after @ ..] => self.before(fact, after),
            [first, ..] if self.names.number(Kind::State, first).is_none() => {
                self.at("another line", "no line of the form begins with 'x' in this way", first);
            }
            [_, _] => self.miss("another line", "expected '->' and outcomes at the line's end"),
            [_, _, third, ..] => self.at("another line", "expected '->' after the action, found 'x'", third),
        }
    }

    fn after_a_colon(&mut self, key: Word, after: &[Word]) {
        match key {
            b"states" | b"actions" | b"facts" | b"goal-states" => {}
            b"start" => self.starts(after),
            b"first" => self.first(after),
            b"final" => self.finals(after),
            b"goal" => self.end("goal:", after),
            _ => match self.names.number(Kind::GoalState, key) {
                Some(from) => self.row(from, after),
                None => self.no_goal_state(key),
            },
        }
    }

    /// Where no goal state is near, the word may be meant as a key.
    fn no_goal_state(&mut self, word: Word) {
        let goal_state = self.names.near(Kind::GoalState, word);
        match nearest_key(word) {
            key @ Some(_) if goal_state.is_none() => self.unknown("a word and a colon", "key", word, key),
            _ => self.unknown("a word and a colon", "goal state", word, goal_state),
        }
    }

    fn starts(&mut self, after: &[Word]) {
        let [state, left @ ..] = after else { return self.miss("start:", "expected a state after 'start:'") };
        if self.start_given {
            return self.miss("start:", "the start is given twice");
        }
        self.start_given = true;
        if let Some(number) = self.named("start:", Kind::State, state) {
            self.start = number;
            self.end("start:", left);
        }
    }

    /// Facts stand at every other word, whatever they are; commas between them.
    fn facts_of(&mut self, state: Word, after: &[Word]) {
        let state = self.named("is", Kind::State, state);
        for pair in after.chunks(2) {
            let bit = if pair[0] == b"busy" {
                Some(BUSY)
            } else {
                self.named("is", Kind::Fact, pair[0]).map(|number| 1 << number)
            };
            if let (Some(state), Some(bit)) = (state, bit) {
                self.labels[state] |= bit;
            }
            if pair.get(1).is_some_and(|mark| mark != b",") {
                self.at("is", "expected a comma between facts, found 'x'", pair[1]);
            }
        }
        if after.len().is_multiple_of(2) {
            self.miss("is", "expected a fact at the line's end");
        }
    }

    /// Outcomes stand at every other word, whatever they are; bars between them.
    fn moves_of(&mut self, state: Word, action: Word, after: &[Word]) {
        let state = self.named("a move", Kind::State, state);
        let action = self.named("a move, its action", Kind::Action, action);
        for pair in after.chunks(2) {
            let outcome = self.named("a move, an outcome", Kind::State, pair[0]);
            if let (Some(state), Some(action), Some(outcome)) = (state, action, outcome) {
                self.moves.insert([state, action, outcome]);
            }
            if pair.get(1).is_some_and(|mark| mark != b"|") {
                self.at("a move", "expected '|' between outcomes, found 'x'", pair[1]);
            }
        }
        if after.len().is_multiple_of(2) {
            self.miss("a move", "expected a state at the line's end");
        }
    }

    fn whole(&mut self) {
        let listed = |kind: Kind| self.names.count(kind) > 0;
        let goal = &self.goal;
        let (table, clauses) = (listed(Kind::GoalState) || goal.first_given || goal.final_given, goal.asked > 0);
        let faults = [
            (!listed(Kind::State), "no states are listed; expected a line 'states: ...'"),
            (!listed(Kind::Action), "no actions are listed; expected a line 'actions: ...'"),
            (!self.start_given, "no start is given; expected a line 'start: ...'"),
            (self.moves.len() > MOST_MOVES, "there are more than 8192 moves"),
            (table && clauses, "a goal is made of clauses or of goal states, and not of both"),
            (table && !goal.first_given, "no first goal state is given; expected a line 'first: ...'"),
            (table && !goal.final_given, "no final goal state is given; expected a line 'final: ...'"),
            (!table && !clauses, "no goal is given; expected clauses, or a line 'goal-states: ...'"),
        ];
        self.faults.extend(faults.iter().filter(|(is, _)| *is).map(|(_, form)| Fault::whole(form)));
    }
}
