//! The text of the listing program for a job.

use super::{Entry, Job, Oracle, Refused, FIELD, LOSING, ORDER, PENDING, WRONG};

/// As many bytes as the listing program takes in.
pub const TAKEN: usize = 49_152;

fn word(value: u8) -> &'static str {
    match value {
        LOSING => "losing",
        PENDING => "pending",
        _ => "winning",
    }
}

fn action_word(action: u8) -> String {
    if action == 255 {
        "-".to_string()
    } else {
        action.to_string()
    }
}

fn line(job: &Job, place: usize, entry: &Entry) -> String {
    let action = action_word(entry.action);
    let (state, goal) = (place / job.goals, place % job.goals);
    format!("{state} {goal} {} {action} {}\n", word(entry.value), entry.number)
}

fn refusal(Refused { number, record }: Refused) -> String {
    if [FIELD, ORDER].contains(&number) {
        format!("refused {number} {record}\n")
    } else {
        format!("refused {number}\n")
    }
}

/// The line that the program that checks a plan prints.
pub fn checked(input: &[u8], plan: &[u8]) -> String {
    let oracle = Oracle::new(&input[..input.len().min(TAKEN)]);
    let [number, state, goal, record, _] = oracle.check(plan);
    let (Ok(job), WRONG) = (&oracle.job, number) else {
        return if number == 0 { "right\n".to_string() } else { refusal(Refused { number, record }) };
    };
    let place = job.place(state as usize, goal as usize);
    let bytes = &plan[4 * place..4 * place + 4];
    let value = if bytes[0] < 3 { word(bytes[0]).to_string() } else { bytes[0].to_string() };
    let (action, number) = (action_word(bytes[1]), u16::from_le_bytes([bytes[2], bytes[3]]));
    let Entry { value: own_value, action: own_action, number: own_number } = oracle.entries[place];
    let right = format!("{} {} {own_number}", word(own_value), action_word(own_action));
    format!("wrong {state} {goal} says {value} {action} {number} right {right}\n")
}

pub fn listing(input: &[u8]) -> String {
    let oracle = Oracle::new(&input[..input.len().min(TAKEN)]);
    let job = match &oracle.job {
        Ok(job) => job,
        Err(refused) => return refusal(*refused),
    };
    let [_, state, goal, ..] = oracle.start();
    let value = oracle.entries[job.place(state as usize, goal as usize)].value;
    let mut text = format!("start {state} {goal} {}\n", word(value));
    for (place, entry) in oracle.entries.iter().enumerate() {
        text += &line(job, place, entry);
    }
    text
}
