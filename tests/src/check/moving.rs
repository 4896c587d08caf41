//! Starting, and following along plays and with figures of every kind.

use super::figures::{figure, odd};
use super::Trial;
use crate::oracle::Answer;
use crate::report::Call;

impl Trial<'_> {
    pub fn moving(&mut self) {
        let due = self.oracle.start();
        let [_, state, goal, ..] = due;
        self.call(Call::Start { side: self.side }, due);
        self.play([state, goal]);
        self.play_from_anywhere();
        self.follow_ends();
        for _ in 0..8 {
            self.follow_odd();
        }
    }

    fn follow(&mut self, [state, goal]: [u32; 2], action: u32, outcome: u32) -> Answer {
        let due = self.oracle.follow([state, goal], action, outcome);
        self.call(Call::Follow { state, goal, action, outcome, side: self.side }, due);
        self.tally.followed(due);
        due
    }

    /// Follows listed moves by chance, past acceptance too, until nothing is open or it is enough.
    fn play(&mut self, mut place: [u32; 2]) {
        let oracle = self.oracle;
        let Ok(job) = &oracle.job else { return };
        for _ in 0..8 {
            let open = job.moves_of(place[0] as usize);
            if open.is_empty() {
                return;
            }
            let one = self.random.pick(open);
            let [_, state, goal, ..] = self.follow(place, one.action as u32, one.outcome as u32);
            place = [state, goal];
        }
    }

    /// Plays from a place that need not be one of any play from the start.
    fn play_from_anywhere(&mut self) {
        if let Ok(job) = &self.oracle.job {
            let place = [self.random.below(job.states) as u32, self.random.below(job.goals) as u32];
            self.play(place);
        }
    }

    /// The first record and the last, from any goal state.
    fn follow_ends(&mut self) {
        let oracle = self.oracle;
        let Ok(job) = &oracle.job else { return };
        for one in job.moves.first().into_iter().chain(job.moves.last()) {
            let goal = self.random.below(job.goals);
            self.follow([one.state as u32, goal as u32], one.action as u32, one.outcome as u32);
        }
    }

    /// Figures that may be out of range, in ones, twos or all; on a job that is refused, any.
    fn follow_odd(&mut self) {
        let (states, actions, goals) = match &self.oracle.job {
            Ok(job) => (job.states, job.actions, job.goals),
            Err(_) => (512, 16, 32),
        };
        let random = &mut self.random;
        let wild = random.once_in(4);
        let mut choose = |limit| if wild { odd(random, limit) } else { figure(random, limit) };
        let (place, action, outcome) = ([choose(states), choose(goals)], choose(actions), choose(states));
        self.follow(place, action, outcome);
        self.follow_spoilt_record();
    }

    /// A listed move with exactly one figure made odd.
    fn follow_spoilt_record(&mut self) {
        let Ok(job) = &self.oracle.job else { return };
        if job.moves.is_empty() {
            return;
        }
        let random = &mut self.random;
        let one = random.pick(&job.moves);
        let goal = random.below(job.goals);
        let mut figures = [one.state, goal, one.action, one.outcome].map(|figure| figure as u32);
        let field = random.below(4);
        figures[field] = odd(random, [job.states, job.goals, job.actions, job.states][field]);
        self.follow([figures[0], figures[1]], figures[2], figures[3]);
    }
}
