//! The names that a text lists, and the name that is nearest to a word.

use super::faults::Fault;
use super::text::{Line, Word};

/// Words of the form, which are no names.
pub const FORM: [&str; 16] = [
    "states",
    "actions",
    "facts",
    "goal-states",
    "start",
    "goal",
    "first",
    "final",
    "is",
    "busy",
    "eventually",
    "never",
    "whenever",
    "then",
    "before",
    "not",
];
/// What may stand before a colon beside a goal state.
const KEYS: [&str; 8] = ["states", "actions", "facts", "goal-states", "start", "first", "final", "goal"];
pub const LONGEST_NAME: usize = 64;

/// What a name is a name of.
#[derive(Clone, Copy, PartialEq, Eq)]
pub enum Kind {
    State,
    Action,
    Fact,
    GoalState,
}

impl Kind {
    pub const ALL: [Kind; 4] = [Kind::State, Kind::Action, Kind::Fact, Kind::GoalState];

    pub fn noun(self) -> &'static str {
        ["state", "action", "fact", "goal state"][self as usize]
    }

    /// The line that lists names of this kind.
    pub fn list(self) -> &'static str {
        ["states:", "actions:", "facts:", "goal-states:"][self as usize]
    }

    pub fn most(self) -> usize {
        [512, 16, 6, 32][self as usize]
    }

    fn of_key(key: Word) -> Option<Kind> {
        Kind::ALL.into_iter().find(|kind| kind.list().strip_suffix(':').is_some_and(|list| list.as_bytes() == key))
    }
}

/// How many letters two words leave beside the longest front and then the longest end that are alike, where they are near.
fn apart(word: Word, name: Word) -> Option<usize> {
    let front = word.iter().zip(name).take_while(|(one, other)| one == other).count();
    let (word, name) = (&word[front..], &name[front..]);
    let end = word.iter().rev().zip(name.iter().rev()).take_while(|(one, other)| one == other).count();
    let (word, name) = (word.len() - end, name.len() - end);
    (front + end > 0 && word <= 2 && name <= 2).then_some(word + name)
}

/// The first of the nearest names.
fn nearest<'a>(word: Word, names: impl Iterator<Item = Word<'a>>) -> Option<Word<'a>> {
    let near = names.filter_map(|name| apart(word, name).map(|left| (left, name)));
    near.min_by_key(|(left, _)| *left).map(|(_, name)| name)
}

pub fn nearest_key(word: Word) -> Option<Word<'static>> {
    nearest(word, KEYS.iter().map(|key| key.as_bytes()))
}

/// The names of each kind as they are numbered.
#[derive(Default)]
pub struct Names<'a>([Vec<Word<'a>>; 4]);

impl<'a> Names<'a> {
    pub fn count(&self, kind: Kind) -> usize {
        self.0[kind as usize].len()
    }

    pub fn all(&self, kind: Kind) -> Vec<String> {
        self.0[kind as usize].iter().map(|name| String::from_utf8_lossy(name).into_owned()).collect()
    }

    pub fn number(&self, kind: Kind, word: Word) -> Option<usize> {
        self.0[kind as usize].iter().position(|&name| name == word)
    }

    pub fn near(&self, kind: Kind, word: Word) -> Option<Word<'a>> {
        nearest(word, self.0[kind as usize].iter().copied())
    }

    /// Why a word after a key is not taken as a name.
    fn refused(&self, kind: Kind, word: Word) -> Option<String> {
        let plain = |byte: &u8| byte.is_ascii_alphanumeric() || matches!(byte, b'-' | b'_');
        if !word.iter().all(plain) {
            Some("'x' is no name: a name has letters, digits, - and _".to_string())
        } else if word.len() > LONGEST_NAME {
            Some("the name 'x' has more than 64 letters".to_string())
        } else if FORM.iter().any(|form| form.as_bytes() == word) {
            Some("'x' is a word of the form, and no name".to_string())
        } else if self.count(kind) == kind.most() {
            Some(format!("of {} {}s, 'x' is one too many", kind.most(), kind.noun()))
        } else {
            self.number(kind, word).map(|_| "the name 'x' is given twice".to_string())
        }
    }

    /// All names that are listed anywhere, and the faults of their lists.
    pub fn listed(lines: &[Line<'a>]) -> (Names<'a>, Vec<Fault>) {
        let (mut names, mut faults) = (Names::default(), Vec::new());
        for Line { number, words } in lines {
            let [key, b":", after @ ..] = words.as_slice() else { continue };
            let Some(kind) = Kind::of_key(key) else { continue };
            for word in after {
                let refused = names.refused(kind, word);
                faults.extend(refused.map(|form| Fault::at(*number, kind.list(), form, word)));
                // A word that is refused is listed all the same, so that one mistake is told once.
                if names.count(kind) < kind.most() {
                    names.0[kind as usize].push(word);
                }
            }
        }
        (names, faults)
    }
}
