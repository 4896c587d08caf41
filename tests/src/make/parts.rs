//! A job in its four bodies, in the old form or the tall one, to be put together with contents that fit them.

/// What is added to the label of a busy state.
pub const BUSY: u8 = 128;

/// State, action and outcome.
pub type Record = [u16; 3];

/// How Counts and records are written: the old form, or the tall one, in which states take two bytes.
#[derive(Clone, Copy, PartialEq, Eq)]
pub enum Form {
    Old,
    Tall,
}

impl Form {
    pub fn most_states(self) -> usize {
        if self == Form::Old {
            128
        } else {
            512
        }
    }

    pub fn most_moves(self) -> usize {
        if self == Form::Old {
            4_096
        } else {
            8_192
        }
    }

    /// How many bytes each field of Counts takes: S, A, P, Q, the first state, the first goal state.
    fn count_widths(self) -> [usize; 6] {
        if self == Form::Old {
            [1; 6]
        } else {
            [2, 1, 1, 1, 2, 1]
        }
    }

    /// How many bytes each field of a record takes.
    fn record_widths(self) -> [usize; 3] {
        if self == Form::Old {
            [1; 3]
        } else {
            [2, 1, 2]
        }
    }

    /// How long a record is.
    pub fn width(self) -> usize {
        self.record_widths().iter().sum()
    }

    pub fn counts(self, counts: [usize; 6]) -> Vec<u8> {
        written(&counts, &self.count_widths())
    }

    pub fn records(self, records: &[Record]) -> Vec<u8> {
        records.iter().flat_map(|record| written(&record.map(usize::from), &self.record_widths())).collect()
    }
}

/// Figures one after the other, low byte first, each in so many bytes and cut to them.
fn written(figures: &[usize], widths: &[usize]) -> Vec<u8> {
    let one = |(figure, &width): (&usize, &usize)| figure.to_le_bytes()[..width].to_vec();
    figures.iter().zip(widths).flat_map(one).collect()
}

/// Where a field begins, with the bytes before it.
fn begins(widths: &[usize], field: usize) -> usize {
    widths[..field].iter().sum()
}

#[derive(Clone, Default)]
pub struct Parts {
    pub counts: Vec<u8>,
    pub labels: Vec<u8>,
    pub moves: Vec<u8>,
    pub goal: Vec<u8>,
}

/// Contents for bodies of these lengths; a figure too large for two bytes is cut to them.
pub fn contents(lengths: [usize; 4]) -> Vec<u8> {
    let mut end = 16;
    let mut contents = Vec::with_capacity(16);
    for length in lengths {
        contents.extend((end as u16).to_le_bytes());
        contents.extend((length as u16).to_le_bytes());
        end += length;
    }
    contents
}

impl Parts {
    /// The form that the length of Counts tells.
    pub fn form(&self) -> Form {
        if self.counts.len() == 8 {
            Form::Tall
        } else {
            Form::Old
        }
    }

    /// A field of Counts.
    pub fn count(&self, field: usize) -> usize {
        let widths = self.form().count_widths();
        let at = begins(&widths, field);
        let high = if widths[field] == 2 { 256 * usize::from(self.counts[at + 1]) } else { 0 };
        usize::from(self.counts[at]) + high
    }

    pub fn set_count(&mut self, field: usize, value: usize) {
        let widths = self.form().count_widths();
        let at = begins(&widths, field);
        self.counts[at..at + widths[field]].copy_from_slice(&value.to_le_bytes()[..widths[field]]);
    }

    /// Writes a field of a record.
    pub fn set_field(&mut self, record: usize, field: usize, value: usize) {
        let widths = self.form().record_widths();
        let at = record * self.form().width() + begins(&widths, field);
        self.moves[at..at + widths[field]].copy_from_slice(&value.to_le_bytes()[..widths[field]]);
    }

    /// All records, field by field.
    pub fn records(&self) -> Vec<Record> {
        let two = |low: u8, high: u8| u16::from_le_bytes([low, high]);
        let one = |bytes: &[u8]| match *bytes {
            [s, s_high, a, t, t_high] => [two(s, s_high), a.into(), two(t, t_high)],
            _ => [bytes[0], bytes[1], bytes[2]].map(u16::from),
        };
        self.moves.chunks(self.form().width()).map(one).collect()
    }

    pub fn states(&self) -> usize {
        self.count(0)
    }

    pub fn goals(&self) -> usize {
        self.count(3)
    }

    pub fn bodies(&mut self) -> [&mut Vec<u8>; 4] {
        [&mut self.counts, &mut self.labels, &mut self.moves, &mut self.goal]
    }

    /// Gives Labels and Goal the lengths that Counts asks for.
    pub fn fit(&mut self) {
        let possible = 1 << self.count(2).min(8);
        self.labels.resize(self.states(), 0);
        self.goal.resize(self.goals() * possible + self.goals(), 0);
    }

    pub fn bytes(&self) -> Vec<u8> {
        let bodies = [&self.counts, &self.labels, &self.moves, &self.goal];
        let mut job = contents(bodies.map(Vec::len));
        bodies.iter().for_each(|body| job.extend_from_slice(body));
        job
    }

    /// A good job of the old form in the tall one, field by field.
    pub fn in_the_tall_form(&self) -> Parts {
        let wide = |record: &[u8]| [record[0], record[1], record[2]].map(u16::from);
        let records: Vec<Record> = self.moves.chunks(3).map(wide).collect();
        Parts {
            counts: Form::Tall.counts([0, 1, 2, 3, 4, 5].map(|field| self.count(field))),
            moves: Form::Tall.records(&records),
            ..self.clone()
        }
    }

    /// The four bodies of a job whose contents are good.
    pub fn of(job: &[u8]) -> Parts {
        let figure = |at: usize| usize::from(job[at]) + 256 * usize::from(job[at + 1]);
        let body = |index: usize| job[figure(4 * index)..][..figure(4 * index + 2)].to_vec();
        Parts { counts: body(0), labels: body(1), moves: body(2), goal: body(3) }
    }
}
