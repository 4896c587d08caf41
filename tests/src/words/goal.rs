//! The goal of a text: clauses, or a table of goal states.

use super::names::Kind;
use super::reader::Reader;
use super::text::Word;
use crate::slips::writer::{self, Clause};
use std::collections::BTreeSet;

const MOST_CLAUSES: usize = 3;

/// From a goal state to another where some facts are true and others are not.
pub struct Row {
    from: usize,
    facts: Vec<(usize, bool)>,
    to: usize,
}

#[derive(Default)]
pub struct Goal {
    /// How many lines are clauses by their shape, and those whose facts are known.
    pub asked: usize,
    pub clauses: Vec<Clause>,
    pub first_given: bool,
    first: usize,
    pub final_given: bool,
    finals: BTreeSet<usize>,
    rows: Vec<Row>,
}

impl Goal {
    /// Where a goal state leads under a label: by the first row that fits, or it stays.
    fn after(&self, from: usize, label: usize) -> usize {
        let fits =
            |row: &&Row| row.from == from && row.facts.iter().all(|&(fact, due)| (label >> fact & 1 == 1) == due);
        self.rows.iter().find(fits).map_or(from, |row| row.to)
    }

    /// How many goal states there are, the first one, and the Goal body.
    pub fn body(&self, goal_states: usize, facts: usize) -> (usize, usize, Vec<u8>) {
        if goal_states == 0 {
            return (3_usize.pow(self.clauses.len() as u32), 0, writer::body(&self.clauses, facts as u32));
        }
        let next = (0..goal_states).flat_map(|from| (0..1 << facts).map(move |label| self.after(from, label) as u8));
        let marks = (0..goal_states).map(|goal| u8::from(self.finals.contains(&goal)));
        (goal_states, self.first, next.chain(marks).collect())
    }
}

impl Reader<'_> {
    /// A line with the shape of a clause, of which other faults are told.
    fn clause(&mut self, kind: u8, facts: [Option<usize>; 2]) {
        if self.goal.asked >= MOST_CLAUSES {
            self.miss("a clause", "a goal has three clauses at most");
        }
        self.goal.asked += 1;
        if let [Some(a), Some(b)] = facts {
            self.goal.clauses.push([kind, a as u8, b as u8]);
        }
    }

    pub fn one_fact(&mut self, of: &'static str, kind: u8, fact: Word, left: &[Word]) {
        self.end(of, left);
        let fact = self.named(of, Kind::Fact, fact);
        self.clause(kind, [fact, fact]);
    }

    pub fn whenever(&mut self, after: &[Word]) {
        match after {
            [a, b"then", b, left @ ..] => {
                self.end("whenever", left);
                let a = self.named("whenever", Kind::Fact, a);
                let b = self.named("then", Kind::Fact, b);
                self.clause(2, [a, b]);
            }
            [_, b"then"] => self.miss("whenever", "expected a fact after 'then'"),
            _ => self.miss("whenever", "expected 'then' and a fact after 'whenever' and a fact"),
        }
    }

    pub fn before(&mut self, a: Word, after: &[Word]) {
        let [b, left @ ..] = after else { return self.miss("before", "expected a fact after 'before'") };
        self.end("before", left);
        let a = self.named("the fact before", Kind::Fact, a);
        let b = self.named("before", Kind::Fact, b);
        self.clause(3, [a, b]);
    }

    pub fn first(&mut self, after: &[Word]) {
        let [goal, left @ ..] = after else { return self.miss("first:", "expected a goal state after 'first:'") };
        if self.goal.first_given {
            return self.miss("first:", "the first goal state is given twice");
        }
        self.goal.first_given = true;
        if let Some(number) = self.named("first:", Kind::GoalState, goal) {
            self.goal.first = number;
            self.end("first:", left);
        }
    }

    pub fn finals(&mut self, after: &[Word]) {
        self.goal.final_given |= !after.is_empty();
        for word in after {
            let number = self.named("final:", Kind::GoalState, word);
            self.goal.finals.extend(number);
        }
    }

    /// The facts of a row, each with whether it has to be true.
    fn row_facts(&mut self, words: &[Word], arrow: bool) -> Vec<(usize, bool)> {
        let (mut facts, mut due, mut not) = (Vec::new(), true, false);
        for &word in words {
            match (due, word) {
                (true, b"not") if !not => not = true,
                (true, _) => {
                    facts.extend(self.named("a row", Kind::Fact, word).map(|fact| (fact, !not)));
                    (due, not) = (false, false);
                }
                (false, b",") => due = true,
                (false, _) => self.at("a row", "expected a comma or '->', found 'x'", word),
            }
        }
        if due && arrow && !words.is_empty() {
            self.miss("a row", "expected a fact before '->'");
        }
        facts
    }

    pub fn row(&mut self, from: usize, after: &[Word]) {
        let arrow = after.iter().position(|word| word == b"->");
        let facts = self.row_facts(&after[..arrow.unwrap_or(after.len())], arrow.is_some());
        let Some(arrow) = arrow else { return self.miss("a row", "expected '->' and a goal state") };
        match &after[arrow + 1..] {
            [] => self.miss("a row", "expected a goal state after '->'"),
            [to, left @ ..] => {
                if let Some(to) = self.named("a row", Kind::GoalState, to) {
                    self.end("a row", left);
                    self.goal.rows.push(Row { from, facts, to });
                }
            }
        }
    }
}
