//! What has come up in the jobs that were told and drawn.

use super::named::{Named, Place};
use super::{graph, phrases, told};
use crate::oracle::{LOSING, PENDING, WINNING};
use std::collections::BTreeSet;

/// What has to have come up beside values, phrases and numbers.
const OTHERS: [&str; 20] = [
    "told, pending, one move",
    "told, winning, one move",
    "told, pending, more moves",
    "told, winning, more moves",
    "lost, nothing open",
    "lost, something open",
    "spoilt by one that is not safe",
    "spoilt by the last that is not safe",
    "spoilt by one that is lost",
    "spoilt by the last that is lost",
    "spoilt by one that is lost, before one that is not safe",
    "spoilt by one that is lost, after one that is not safe",
    "a pending place of 16 actions",
    "a place that is told in 6000 bytes",
    "drawn, 5 digits",
    "a tall job",
    "a table",
    "1 clauses",
    "2 clauses",
    "3 clauses",
];

#[derive(Default)]
pub struct Tally {
    pub jobs: usize,
    seen: BTreeSet<String>,
}

/// The value of a place, or that the goal is met there.
fn worth(named: &Named, place: Place) -> &'static str {
    match named.entry(place).value {
        _ if named.met(place) => "met",
        LOSING => "losing",
        PENDING => "pending",
        _ => "winning",
    }
}

/// Everything that has to have come up.
fn due() -> BTreeSet<String> {
    let worths = ["met", "losing", "pending", "winning"];
    let values = ["a start", "told", "drawn"].map(|how| worths.map(|worth| format!("{how}, {worth}"))).concat();
    let busy =
        ["told", "drawn"].map(|how| worths[1..].iter().map(move |worth| format!("{how}, {worth}, busy and final")));
    let phrases = [(0, 0), (0, 1), (1, 0), (1, 1), (2, 0), (2, 1), (3, 0), (3, 1), (3, 2)];
    let phrases = ["told", "drawn"].map(|how| phrases.map(|(kind, digit)| format!("{how}, clause {kind} at {digit}")));
    let figures = [("pending", 4), ("winning", 5)];
    let figures =
        figures.iter().flat_map(|(worth, most)| (1..=*most).map(move |n| format!("told, {worth}, {n} digits")));
    let all = values.into_iter().chain(busy.into_iter().flatten()).chain(phrases.concat()).chain(figures);
    all.chain(OTHERS.map(String::from)).collect()
}

impl Tally {
    fn see(&mut self, what: impl Into<String>) {
        self.seen.insert(what.into());
    }

    /// What a place is worth, and what its goal state says.
    fn place(&mut self, named: &Named, place: Place, how: &str) {
        let (state, goal) = place;
        self.see(format!("{how}, {}", worth(named, place)));
        if named.job.last[goal] && named.job.busy[state] {
            self.see(format!("{how}, {}, busy and final", worth(named, place)));
        }
        for ([kind, ..], digit) in named.clauses.iter().zip(phrases::digits(goal, named.clauses.len())) {
            self.see(format!("{how}, clause {kind} at {digit}"));
        }
    }

    /// The outcome that is told as spoiling an action, and those that could have been told instead.
    fn spoiler(&mut self, named: &Named, place: Place, action: usize) {
        let outcomes = named.moves(place).filter(|one| one.action == action).map(|one| named.entry(one.to).value);
        let not_safe: Vec<u8> = outcomes.filter(|&value| value != WINNING).collect();
        let lost = not_safe.iter().filter(|&&value| value == LOSING).count();
        let (one, kind) = (if lost == 0 { not_safe.len() } else { lost }, if lost == 0 { "not safe" } else { "lost" });
        self.see(format!("spoilt by {} that is {kind}", if one == 1 { "one" } else { "the last" }));
        if lost > 0 && lost < not_safe.len() {
            let side = if not_safe.last() == Some(&LOSING) { "after" } else { "before" };
            self.see(format!("spoilt by one that is lost, {side} one that is not safe"));
        }
    }

    fn told(&mut self, named: &Named, place: Place) {
        let (entry, worth) = (named.entry(place), worth(named, place));
        self.see(format!("told, {worth}, {} digits", entry.number.to_string().len()));
        self.see(format!("told, {worth}, {}", if entry.number == 1 { "one move" } else { "more moves" }));
        let open = told::open(named, place);
        if entry.value == LOSING {
            self.see(if open.is_empty() { "lost, nothing open" } else { "lost, something open" });
        }
        if entry.value == PENDING {
            open.iter().for_each(|&action| self.spoiler(named, place, action));
            self.see(format!("a pending place of {} actions", open.len()));
        }
        self.see(format!("a place that is told in {} bytes", told::place(named, place).len() / 1_000 * 1_000));
    }

    /// What comes up in one job.
    pub fn of(named: &Named) -> Tally {
        let mut tally = Tally { jobs: 1, seen: BTreeSet::new() };
        tally.see(format!("a start, {}", worth(named, named.start())));
        tally.see(if named.job.tall { "a tall job" } else { "an old job" });
        tally.see(if named.clauses.is_empty() {
            "a table".to_string()
        } else {
            format!("{} clauses", named.clauses.len())
        });
        for place in told::places(named) {
            tally.place(named, place, "told");
            tally.told(named, place);
        }
        for place in graph::places(named) {
            tally.place(named, place, "drawn");
            tally.see(format!("drawn, {} digits", named.number(place).to_string().len()));
        }
        tally
    }

    pub fn join(mut self, other: Tally) -> Tally {
        self.jobs += other.jobs;
        self.seen.extend(other.seen);
        self
    }

    /// Whether everything that is due has come up; what has not is printed.
    pub fn covered(&self) -> bool {
        let missing: Vec<String> = due().difference(&self.seen).cloned().collect();
        missing.iter().for_each(|what| println!("has not come up: {what}"));
        missing.is_empty()
    }
}
