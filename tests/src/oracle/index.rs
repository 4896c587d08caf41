//! The index that planning with one leaves, and how many counters it uses.

use super::read::Job;

impl Job {
    /// For each state the first record that leads to it, then for each record the next that leads where it does; the count of records
    /// stands for none.
    pub fn index(&self) -> Vec<u16> {
        let mut into = vec![Vec::new(); self.states];
        for (at, one) in self.moves.iter().enumerate() {
            into[one.outcome].push(at as u16);
        }
        let none = self.moves.len() as u16;
        let mut index = vec![none; self.states + self.moves.len()];
        for (state, records) in into.iter().enumerate() {
            index[state] = records.first().copied().unwrap_or(none);
            records.windows(2).for_each(|pair| index[self.states + usize::from(pair[0])] = pair[1]);
        }
        index
    }

    /// A counter for each place and action.
    pub fn counters(&self) -> usize {
        self.places() * self.actions
    }
}
