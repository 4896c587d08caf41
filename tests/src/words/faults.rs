//! A fault of a text, how it is told, and how many are told.

use super::text::Word;

/// Of a longer word the first letters are told.
pub const LETTERS: usize = 64;
/// A fault is told where those before it take no more bytes.
pub const ROOM: usize = 65_024;
/// What a fault of the whole text is of.
pub const WHOLE: &str = "the text";

/// A fault: its line, or 0 where it is of the whole text; of what it is; what is told, with 'x' in place of the word; and the name that is near.
pub struct Fault {
    pub line: usize,
    pub of: &'static str,
    pub form: String,
    pub word: Vec<u8>,
    pub near: Option<Vec<u8>>,
}

/// A word between quotes.
fn quoted(word: Word) -> String {
    let letters = word.iter().take(LETTERS).map(|byte| if (33..=126).contains(byte) { char::from(*byte) } else { '?' });
    let more = if word.len() > LETTERS { ".." } else { "" };
    format!("'{}{more}'", letters.collect::<String>())
}

impl Fault {
    /// A fault of a line, at a word.
    pub fn at(line: usize, of: &'static str, form: String, word: Word) -> Fault {
        Fault { line, of, form, word: word.to_vec(), near: None }
    }

    /// A fault of the whole text.
    pub fn whole(form: &str) -> Fault {
        Fault::at(0, WHOLE, form.to_string(), b"")
    }

    /// What comes up with many words, told once.
    pub fn kind(&self) -> String {
        let asked = if self.near.is_some() { "; did you mean 'y'?" } else { "" };
        format!("{}: {}{asked}", self.of, self.form)
    }

    fn told(&self) -> String {
        let line = if self.line > 0 { format!("line {}: ", self.line) } else { String::new() };
        let asked = self.near.as_ref().map(|name| format!("; did you mean {}?", quoted(name))).unwrap_or_default();
        format!("{line}{}{asked}\n", self.form.replace("'x'", &quoted(&self.word)))
    }
}

/// The lines that are told: as many as have room, and how many more there are.
pub fn told(faults: &[Fault]) -> String {
    let mut told = String::new();
    for (index, fault) in faults.iter().enumerate() {
        if told.len() > ROOM {
            return format!("{told}and {} more\n", faults.len() - index);
        }
        told += &fault.told();
    }
    told
}
