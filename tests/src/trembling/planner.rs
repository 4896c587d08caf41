//! An independent planner of places with slips left: waves backward over the moves of the larger game, each action chosen by the rule's own words.

use crate::oracle::{Entry, Job, LOSING, PENDING, WINNING};

/// The larger places of a job: slips 0 first, then states, then goal states.
pub struct Larger<'a> {
    pub job: &'a Job,
    pub most: usize,
    /// For each state the state and action of every record that leads to it, and the actions that are open there.
    into: Vec<Vec<(usize, usize)>>,
    open: Vec<Vec<usize>>,
}

impl Larger<'_> {
    pub fn new(job: &Job, most: usize) -> Larger<'_> {
        let (mut into, mut open) = (vec![Vec::new(); job.states], vec![Vec::new(); job.states]);
        for one in &job.moves {
            into[one.outcome].push((one.state, one.action));
            if open[one.state].last() != Some(&one.action) {
                open[one.state].push(one.action);
            }
        }
        Larger { job, most, into, open }
    }

    pub fn count(&self) -> usize {
        (self.most + 1) * self.job.places()
    }

    /// State, goal state and slips left of a larger place.
    pub fn spot(&self, x: usize) -> [usize; 3] {
        let place = x % self.job.places();
        [place / self.job.goals, place % self.job.goals, x / self.job.places()]
    }

    fn number(&self, state: usize, goal: usize, left: usize) -> usize {
        left * self.job.places() + self.job.place(state, goal)
    }

    fn accepted(&self, x: usize) -> bool {
        let [state, goal, _] = self.spot(x);
        self.job.accepted(state, goal)
    }

    /// Where naming an action may lead: none unless it is open.
    pub fn leads(&self, x: usize, named: usize) -> Vec<usize> {
        let [state, goal, left] = self.spot(x);
        if !self.open[state].contains(&named) {
            return Vec::new();
        }
        let after = |outcome: usize, left: usize| self.number(outcome, self.job.goal_after(goal, outcome), left);
        let own = self.job.outcomes(state, named).map(|outcome| after(outcome, left));
        let others = self.open[state].iter().filter(|&&done| done != named && left > 0);
        let slips = others.flat_map(|&done| self.job.outcomes(state, done)).map(|outcome| after(outcome, left - 1));
        own.chain(slips).collect()
    }

    /// Whether the action named at a pending place brings nearer by an outcome of its own.
    pub fn nearer_itself(&self, entries: &[Entry], x: usize) -> bool {
        let ([state, goal, left], Entry { action, number, .. }) = (self.spot(x), entries[x]);
        let mut own = self.job.outcomes(state, usize::from(action));
        own.any(|outcome| {
            let after = entries[self.number(outcome, self.job.goal_after(goal, outcome), left)];
            after.value == WINNING && number == 1 || after.value == PENDING && after.number + 1 == number
        })
    }

    /// Names each larger place and action that may lead to this one, once for each record.
    fn each_before(&self, x: usize, mut name: impl FnMut(usize, usize)) {
        let [outcome, reached, left] = self.spot(x);
        let before = (0..self.job.goals).filter(|&goal| self.job.goal_after(goal, outcome) == reached);
        for goal in before {
            for &(state, done) in &self.into[outcome] {
                name(self.number(state, goal, left), done);
                if left < self.most {
                    let named = self.open[state].iter().filter(|&&named| named != done);
                    named.for_each(|&named| name(self.number(state, goal, left + 1), named));
                }
            }
        }
    }

    /// Waves from the first one; a place joins when `joins` says so, and has the wave's number.
    fn spread(&self, first: Vec<usize>, mut joins: impl FnMut(usize, usize) -> bool) -> Vec<Option<usize>> {
        let mut numbers = vec![None; self.count()];
        first.iter().for_each(|&x| numbers[x] = Some(0));
        let (mut wave, mut number) = (first, 0);
        while !wave.is_empty() {
            number += 1;
            let mut reached = Vec::new();
            for &x in &wave {
                self.each_before(x, |before, named| {
                    if joins(before, named) && numbers[before].is_none() {
                        numbers[before] = Some(number);
                        reached.push(before);
                    }
                });
            }
            wave = reached;
        }
        numbers
    }

    fn winning(&self) -> Vec<Option<usize>> {
        let mut unknown: Vec<usize> = Vec::with_capacity(self.count() * 16);
        for x in 0..self.count() {
            unknown.extend((0..16).map(|named| self.leads(x, named).len()));
        }
        let first = (0..self.count()).filter(|&x| self.accepted(x)).collect();
        self.spread(first, |before, named| {
            let left = &mut unknown[before * 16 + named];
            *left -= 1;
            *left == 0
        })
    }

    /// Each larger place's entry.
    pub fn entries(&self) -> Vec<Entry> {
        let winning = self.winning();
        let first = (0..self.count()).filter(|&x| winning[x].is_some()).collect();
        let pending = self.spread(first, |before, _| winning[before].is_none());
        let known = |x: usize| match (winning[x], pending[x]) {
            (Some(number), _) => (WINNING, number),
            (None, Some(number)) => (PENDING, number),
            (None, None) => (LOSING, 0),
        };
        let does = |x: usize, named: usize| {
            let ((value, number), leads) = (known(x), self.leads(x, named));
            let near = |&after: &usize| match (value, number, known(after)) {
                (WINNING, _, (other, smaller)) => other == WINNING && smaller < number,
                (_, 1, (other, _)) => other == WINNING,
                (_, _, (other, smaller)) => other == PENDING && smaller + 1 == number,
            };
            !leads.is_empty() && if value == WINNING { leads.iter().all(near) } else { leads.iter().any(near) }
        };
        let entry = |x: usize| {
            let (value, number) = known(x);
            let none = value == LOSING || self.accepted(x);
            let lowest = (0..self.job.actions).find(|&named| !none && does(x, named));
            assert!(none || lowest.is_some(), "a winning or pending place has an action");
            Entry { value, action: lowest.unwrap_or(255) as u8, number }
        };
        (0..self.count()).map(entry).collect()
    }
}
