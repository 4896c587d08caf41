//! The independent planner: what each call has to answer, worked out backward from the accepted places.

mod calls;
mod checking;
mod index;
mod listing;
mod month;
mod plan;
mod read;
mod refusal;
mod salvaging;
mod waves;

pub use calls::Answer;
pub use listing::{checked, listing, TAKEN};
pub use month::report;
pub use plan::{entries, Entry, LOSING, PENDING, WINNING};
pub use read::{read, Job};
pub use refusal::*;
pub use salvaging::{salvage, salvage_text, Salvage};

/// Everything that the calls answer on one string of job bytes.
pub struct Oracle {
    pub job: Result<Job, Refused>,
    pub entries: Vec<Entry>,
    pub plan: Vec<u8>,
}

impl Oracle {
    pub fn new(bytes: &[u8]) -> Oracle {
        let job = read(bytes);
        let entries = job.as_ref().map(entries).unwrap_or_default();
        let plan = entries.iter().flat_map(Entry::bytes).collect();
        Oracle { job, entries, plan }
    }

    /// The refusal of the job itself with its record, both 0 when it is good.
    pub fn refused(&self) -> Refused {
        self.job.as_ref().err().copied().unwrap_or(Refused::from(0))
    }

    /// The number of that refusal.
    pub fn refusal(&self) -> u32 {
        self.refused().number
    }
}
