//! What has come up: every kind of fault that the form has, and jobs of every shape.

use super::faults::{Fault, LETTERS, WHOLE};
use super::names::Kind;
use crate::make::{Form, Parts};
use std::collections::{BTreeMap, BTreeSet};

const ASKED: &str = "; did you mean 'y'?";
const END: &str = "expected the line's end, found 'x'";
const NO_STATE: &str = "no state is named 'x'";
const NO_ACTION: &str = "no action is named 'x'";
const NO_FACT: &str = "no fact is named 'x'";
const NO_GOAL_STATE: &str = "no goal state is named 'x'";

/// What is told of words after a key that lists names, beside one too many.
const OF_LISTS: [&str; 4] = [
    "'x' is no name: a name has letters, digits, - and _",
    "the name 'x' has more than 64 letters",
    "'x' is a word of the form, and no name",
    "the name 'x' is given twice",
];

/// What is told of other lines; a name that is not known, with a near one and without.
const OF_LINES: [(&str, &[&str]); 18] = [
    ("a word alone", &["expected more after 'x'"]),
    ("start:", &["expected a state after 'start:'", "the start is given twice", NO_STATE, END]),
    ("first:", &["expected a goal state after 'first:'", "the first goal state is given twice", NO_GOAL_STATE, END]),
    ("final:", &[NO_GOAL_STATE]),
    ("goal:", &[END]),
    ("a word and a colon", &[NO_GOAL_STATE]),
    (
        "a row",
        &[
            NO_FACT,
            "expected a comma or '->', found 'x'",
            "expected a fact before '->'",
            "expected '->' and a goal state",
            "expected a goal state after '->'",
            NO_GOAL_STATE,
            END,
        ],
    ),
    ("is", &[NO_STATE, NO_FACT, "expected a comma between facts, found 'x'", "expected a fact at the line's end"]),
    ("a move", &[NO_STATE, "expected '|' between outcomes, found 'x'", "expected a state at the line's end"]),
    ("a move, its action", &[NO_ACTION]),
    ("a move, an outcome", &[NO_STATE]),
    ("eventually", &[END, NO_FACT]),
    ("never", &[END, NO_FACT]),
    (
        "whenever",
        &["expected 'then' and a fact after 'whenever' and a fact", "expected a fact after 'then'", END, NO_FACT],
    ),
    ("then", &[NO_FACT]),
    ("before", &["expected a fact after 'before'", END, NO_FACT]),
    ("the fact before", &[NO_FACT]),
    (
        "another line",
        &[
            "no line of the form begins with 'x' in this way",
            "expected '->' and outcomes at the line's end",
            "expected '->' after the action, found 'x'",
        ],
    ),
];

const OF_THE_WHOLE: [&str; 10] = [
    "no states are listed; expected a line 'states: ...'",
    "no actions are listed; expected a line 'actions: ...'",
    "no start is given; expected a line 'start: ...'",
    "there are more than 8192 moves",
    "a goal is made of clauses or of goal states, and not of both",
    "no first goal state is given; expected a line 'first: ...'",
    "no final goal state is given; expected a line 'final: ...'",
    "no goal is given; expected clauses, or a line 'goal-states: ...'",
    "the text is longer than 262144 bytes",
    MORE,
];
const MORE: &str = "and 'x' more";

/// Figures of Counts that have to come up: S, A, P and Q; and counts of moves.
const COUNTS: [&[usize]; 4] = [&[1, 2, 128, 129, 512], &[1, 16], &[0, 1, 2, 6], &[1, 2, 3, 9, 27, 32]];
const MOVES: [usize; 5] = [0, 1, 4_096, 4_097, 8_192];

/// Every kind of fault, as `Fault::kind` names it.
fn kinds() -> BTreeSet<String> {
    let of = |of: &str, form: &str| format!("{of}: {form}");
    let lists = Kind::ALL.into_iter().flat_map(|kind| {
        let full = format!("of {} {}s, 'x' is one too many", kind.most(), kind.noun());
        OF_LISTS.map(String::from).into_iter().chain([full]).map(move |form| of(kind.list(), &form))
    });
    let lines = OF_LINES.iter().flat_map(|(line, forms)| forms.iter().map(move |form| of(line, form)));
    let asked = lines.clone().filter(|kind| kind.ends_with("is named 'x'")).map(|kind| kind + ASKED);
    let alone = [
        of("a word and a colon", &format!("no key is named 'x'{ASKED}")),
        of("a clause", "a goal has three clauses at most"),
    ];
    let whole = OF_THE_WHOLE.iter().map(|form| of(WHOLE, form));
    lists.chain(lines).chain(asked).chain(alone).chain(whole).collect()
}

/// How often each kind of fault has come up, and the shapes of jobs and of words that are told.
#[derive(Default)]
pub struct Tally {
    faults: BTreeMap<String, u64>,
    shapes: BTreeSet<String>,
    pub texts: u64,
    pub good: u64,
}

impl Tally {
    pub fn job(&mut self, job: &[u8]) {
        let parts = Parts::of(job);
        self.good += 1;
        self.shapes.insert(if parts.form() == Form::Old { "old".to_string() } else { "tall".to_string() });
        self.shapes.extend((0..4).map(|field| format!("count {field} is {}", parts.count(field))));
        self.shapes.insert(format!("{} moves", parts.records().len()));
        self.shapes.insert(format!("busy {}", parts.labels.iter().any(|label| *label >= 128)));
    }

    pub fn faults(&mut self, faults: &[Fault], told: &str) {
        let more = told.lines().last().is_some_and(|line| line.starts_with("and ")).then(|| Fault::whole(MORE).kind());
        if faults.iter().any(|fault| fault.word.len() > LETTERS) {
            self.shapes.insert("a long word".to_string());
        }
        if faults.iter().any(|fault| !fault.word.iter().all(u8::is_ascii_graphic)) {
            self.shapes.insert("a byte that is no letter".to_string());
        }
        for kind in faults.iter().map(Fault::kind).chain(more) {
            *self.faults.entry(kind).or_default() += 1;
        }
    }

    /// What has come up here and there.
    pub fn join(mut self, other: Tally) -> Tally {
        other.faults.into_iter().for_each(|(kind, count)| *self.faults.entry(kind).or_default() += count);
        self.shapes.extend(other.shapes);
        Tally { texts: self.texts + other.texts, good: self.good + other.good, ..self }
    }

    /// How many kinds of fault have come up, where each has, no other, and every shape.
    pub fn covered(&self) -> Option<usize> {
        let counts = COUNTS.iter().enumerate();
        let figures =
            counts.flat_map(|(field, all)| all.iter().map(move |figure| format!("count {field} is {figure}")));
        let moves = MOVES.map(|count| format!("{count} moves"));
        let others = ["old", "tall", "busy true", "busy false", "a long word", "a byte that is no letter"];
        let shapes: BTreeSet<String> = figures.chain(moves).chain(others.map(String::from)).collect();
        let (all, met) = (kinds(), self.faults.keys().cloned().collect::<BTreeSet<_>>());
        all.difference(&met).for_each(|kind| println!("has not come up: {kind}"));
        met.difference(&all).for_each(|kind| println!("is no kind of the form: {kind}"));
        shapes.difference(&self.shapes).for_each(|shape| println!("has not come up: {shape}"));
        (all == met && shapes.is_subset(&self.shapes)).then_some(all.len())
    }
}
