//! The jobs that the rules give in full, and the edges that they name, with the refusal due to each.

use super::parts::{Form, Parts, Record, BUSY};
use crate::oracle::{Refused, FIELD, MOVES, ORDER};

/// One plate: drawer, stage, just exposed, broken.
pub fn one_plate() -> Vec<u8> {
    vec![
        0x10, 0x00, 0x06, 0x00, 0x16, 0x00, 0x04, 0x00, 0x1A, 0x00, 0x12, 0x00, 0x2C, 0x00, 0x0F,
        0x00, // contents
        0x04, 0x03, 0x02, 0x03, 0x00, 0x00, // counts
        0x02, 0x00, 0x01, 0x00, // labels
        0x00, 0x00, 0x01, 0x00, 0x00, 0x03, 0x01, 0x01, 0x01, // moves
        0x01, 0x01, 0x02, 0x01, 0x02, 0x00, 0x02, 0x02, 0x00, // more moves
        0x00, 0x01, 0x00, 0x01, 0x01, 0x01, 0x02, 0x02, 0x02, 0x02, 0x02, 0x02, 0x00, 0x00, 0x01, // goal
    ]
}

pub const ONE_PLATE_TEXT: &str = "\
start 0 0 pending
0 0 pending 0 2
0 1 pending 0 1
0 2 winning - 0
1 0 pending 1 1
1 1 winning 2 1
1 2 winning - 0
2 0 pending 2 3
2 1 winning 2 1
2 2 winning - 0
3 0 losing - 0
3 1 losing - 0
3 2 winning - 0
";

/// One plate with these states busy, bit i for state i.
pub fn busy_plate(states: u8) -> Vec<u8> {
    let mut job = one_plate();
    for (index, label) in job[22..26].iter_mut().enumerate() {
        if states >> index & 1 == 1 {
            *label += BUSY;
        }
    }
    job
}

/// One plate with the drawer busy.
pub const BUSY_DRAWER_TEXT: &str = "\
start 0 0 pending
0 0 pending 0 2
0 1 pending 0 1
0 2 winning 0 1
1 0 pending 1 1
1 1 winning 2 2
1 2 winning - 0
2 0 pending 2 3
2 1 winning 2 2
2 2 winning - 0
3 0 losing - 0
3 1 losing - 0
3 2 winning - 0
";

pub fn bare(mark: u8) -> Vec<u8> {
    Parts { counts: vec![1, 1, 0, 1, 0, 0], labels: vec![0], moves: vec![], goal: vec![0, mark] }.bytes()
}

pub fn early() -> Vec<u8> {
    Parts { counts: vec![1, 1, 0, 2, 0, 0], labels: vec![0], moves: vec![], goal: vec![1, 1, 1, 0] }.bytes()
}

/// A job without a final mark, whose tables are zero and fit these counts.
fn blank(states: u8, actions: u8, propositions: u8, goals: u8) -> Parts {
    in_form(Form::Old, [states, actions, propositions, goals].map(usize::from))
}

fn in_form(form: Form, [states, actions, propositions, goals]: [usize; 4]) -> Parts {
    let mut parts = Parts { counts: form.counts([states, actions, propositions, goals, 0, 0]), ..Parts::default() };
    parts.fit();
    parts
}

/// The same in the tall form.
fn tall(states: usize, actions: usize, propositions: usize, goals: usize) -> Parts {
    in_form(Form::Tall, [states, actions, propositions, goals])
}

/// So many different records in order, for 128 states and 16 actions.
fn many_moves(count: usize) -> Vec<u8> {
    let record = |index: usize| [(index / 2_048) as u8, (index / 128 % 16) as u8, (index % 128) as u8];
    (0..count).flat_map(record).collect()
}

/// So many different records in order, for 512 states and 16 actions.
fn many_tall_moves(count: usize) -> Vec<Record> {
    let record = |index: usize| [(index / 8_192) as u16, (index / 512 % 16) as u16, (index % 512) as u16];
    (0..count).map(record).collect()
}

/// The edges of the tall form, each with the number that is due.
fn tall_numbered() -> Vec<(Vec<u8>, u32)> {
    let with = |counts: &[u8]| {
        let mut parts = tall(2, 1, 0, 1);
        parts.counts = counts.to_vec();
        parts.bytes()
    };
    let moves = |records: &[Record]| Parts { moves: Form::Tall.records(records), ..tall(512, 16, 0, 1) }.bytes();
    let label = |label: u8| Parts { labels: vec![label], ..tall(1, 1, 6, 1) }.bytes();
    let first = |state: usize| {
        let mut parts = tall(300, 1, 0, 1);
        parts.set_count(4, state);
        parts.bytes()
    };
    vec![
        (with(&[2, 0, 1, 0, 1, 0, 0]), 2),
        (with(&[2, 0, 1, 0, 1, 0, 0, 0, 0]), 2),
        (with(&[2, 0, 1, 0, 1, 0, 0, 0]), 0),
        (with(&[2, 1, 1, 0, 1, 0, 0, 0]), 4),
        (with(&[2, 2, 1, 0, 1, 0, 0, 0]), 3),
        (with(&[0, 0, 1, 0, 1, 0, 0, 0]), 3),
        (tall(1, 1, 0, 1).bytes(), 0),
        (tall(128, 1, 0, 1).bytes(), 0),
        (tall(129, 1, 0, 1).bytes(), 0),
        (tall(256, 1, 0, 1).bytes(), 0),
        (tall(512, 16, 6, 32).bytes(), 0),
        (tall(513, 1, 0, 1).bytes(), 3),
        (tall(1, 17, 0, 1).bytes(), 3),
        (tall(1, 1, 7, 1).bytes(), 3),
        (tall(1, 1, 0, 33).bytes(), 3),
        (first(256), 0),
        (first(299), 0),
        (first(300), 3),
        (label(BUSY | 63), 0),
        (label(64), 4),
        (moves(&many_tall_moves(8_192)), 0),
        (moves(&many_tall_moves(8_193)), 5),
        (moves(&[[0, 0, 255], [0, 0, 256]]), 0),
        (moves(&[[255, 0, 1], [256, 0, 0]]), 0),
        (moves(&[[511, 15, 511]]), 0),
        (Parts { moves: vec![0; 3], ..tall(2, 1, 0, 1) }.bytes(), 5),
        (Parts { moves: vec![0; 5], ..blank(2, 1, 0, 1) }.bytes(), 5),
    ]
}

/// The edges that the rules name and others, each with the number that is due, 0 for a good job.
fn numbered() -> Vec<(Vec<u8>, u32)> {
    let moves = |moves: Vec<u8>| Parts { moves, ..blank(128, 16, 0, 1) }.bytes();
    let label = |label: u8| Parts { labels: vec![label, 0], ..blank(2, 1, 3, 1) }.bytes();
    let wide_offset = Parts { labels: vec![0; 65_535 - 25], ..blank(1, 1, 0, 1) };
    vec![
        (vec![], 1),
        (one_plate()[..15].to_vec(), 1),
        (vec![0; 15], 1),
        (vec![0; 16], 2),
        (blank(128, 1, 0, 1).bytes(), 0),
        (blank(129, 1, 0, 1).bytes(), 3),
        (blank(1, 16, 0, 1).bytes(), 0),
        (blank(1, 17, 0, 1).bytes(), 3),
        (blank(1, 1, 6, 1).bytes(), 0),
        (blank(1, 1, 7, 1).bytes(), 3),
        (blank(1, 1, 0, 32).bytes(), 0),
        (blank(1, 1, 0, 33).bytes(), 3),
        (blank(128, 16, 6, 32).bytes(), 0),
        (label(7), 0),
        (label(8), 4),
        (label(BUSY | 7), 0),
        (label(BUSY | 8), 4),
        (label(64), 4),
        (label(127), 4),
        (label(BUSY), 0),
        (label(192), 4),
        (label(255), 4),
        (Parts { labels: vec![191], ..blank(1, 1, 6, 1) }.bytes(), 0),
        (Parts { labels: vec![192], ..blank(1, 1, 6, 1) }.bytes(), 4),
        (Parts { labels: vec![BUSY], ..blank(1, 1, 0, 1) }.bytes(), 0),
        (Parts { labels: vec![BUSY | 1], ..blank(1, 1, 0, 1) }.bytes(), 4),
        (moves(many_moves(2)), 0),
        (moves(many_moves(4_096)), 0),
        (moves(many_moves(4_097)), 5),
        (wide_offset.bytes(), 4),
    ]
}

/// Records of which one is the first bad one, with the number and the record that are due.
fn bad_records() -> Vec<(Vec<u8>, u32, u32)> {
    let job = |moves: Vec<u8>| Parts { moves, ..blank(128, 16, 0, 1) }.bytes();
    let spoilt = |at: usize, record: [u8; 3]| {
        let mut moves = many_moves(4_096);
        moves[3 * at..3 * at + 3].copy_from_slice(&record);
        moves
    };
    let no_goal = Parts { moves: vec![0, 0, 1, 0, 0, 0], goal: vec![9], ..blank(2, 1, 0, 1) };
    vec![
        (job(vec![1, 1, 1, 1, 1, 1]), ORDER, 1),
        (job(vec![128, 0, 0]), FIELD, 0),
        (job(vec![0, 16, 0]), FIELD, 0),
        (job(vec![0, 0, 128]), FIELD, 0),
        (job(vec![0, 0, 0, 0, 16, 0, 0, 0, 0]), FIELD, 1),
        (job(vec![0, 0, 1, 0, 0, 0, 0, 16, 0]), ORDER, 1),
        (job(vec![0, 1, 0, 0, 0, 128]), FIELD, 1),
        (job(spoilt(4_095, [1, 15, 128])), FIELD, 4_095),
        (job(spoilt(4_095, [1, 15, 126])), ORDER, 4_095),
        (job(spoilt(2_000, [0, 0, 0])), ORDER, 2_000),
        (no_goal.bytes(), ORDER, 1),
        (job([spoilt(7, [255, 255, 255]), vec![0; 3]].concat()), MOVES, 0),
        (job(vec![255; 4]), MOVES, 0),
    ]
}

/// The same in the tall form.
fn bad_tall_records() -> Vec<(Vec<u8>, u32, u32)> {
    let job = |records: &[Record]| Parts { moves: Form::Tall.records(records), ..tall(300, 16, 0, 1) }.bytes();
    let last = |record: Record| {
        let mut records = many_tall_moves(8_192);
        records[8_191] = record;
        Parts { moves: Form::Tall.records(&records), ..tall(512, 16, 0, 1) }.bytes()
    };
    vec![
        (job(&[[300, 0, 0]]), FIELD, 0),
        (job(&[[0, 16, 0]]), FIELD, 0),
        (job(&[[0, 0, 300]]), FIELD, 0),
        (job(&[[0, 0, 256], [0, 0, 255]]), ORDER, 1),
        (job(&[[256, 0, 0], [255, 0, 1]]), ORDER, 1),
        (job(&[[1, 1, 299], [1, 1, 299]]), ORDER, 1),
        (job(&[[0, 0, 0], [0, 1, 43], [0, 1, 299]]), 0, 0),
        (last([0, 15, 512]), FIELD, 8_191),
        (last([0, 15, 510]), ORDER, 8_191),
    ]
}

/// Every edge of both forms with the refusal that is due.
pub fn edges() -> Vec<(Vec<u8>, Refused)> {
    let numbered = numbered().into_iter().chain(tall_numbered()).map(|(job, number)| (job, Refused::from(number)));
    let recorded = bad_records()
        .into_iter()
        .chain(bad_tall_records())
        .map(|(job, number, record)| (job, Refused { number, record }));
    numbered.chain(recorded).collect()
}
