//! Lays out lines of words as a text: blanks, remarks, empty lines and line ends of every kind.

use super::good::Words;
use crate::random::Random;

/// How a text is laid out: with one blank where one is needed, with blanks around every mark, or in any way.
#[derive(Clone, Copy, PartialEq, Eq)]
pub enum Layout {
    Narrow,
    Plain,
    Wild,
}

fn is_mark(word: &[u8]) -> bool {
    matches!(word, b":" | b"|" | b",")
}

fn blanks(random: &mut Random, least: usize) -> Vec<u8> {
    let count = if random.once_in(4) { random.between(least, 4) } else { least };
    (0..count).map(|_| random.pick(b"    \t\t\r")).collect()
}

/// Bytes of any kind after the mark of a remark.
fn remark(random: &mut Random) -> Vec<u8> {
    let length = random.below(30);
    let mut bytes = random.bytes(length);
    bytes.iter_mut().filter(|byte| **byte == b'\n').for_each(|byte| *byte = b'#');
    [b"#".to_vec(), bytes].concat()
}

fn put_line(random: &mut Random, text: &mut Vec<u8>, words: &Words, layout: Layout) {
    let mut after_mark = true;
    for word in words {
        let needed = usize::from(!after_mark && (layout == Layout::Plain || !is_mark(word)));
        text.extend(if layout == Layout::Wild { blanks(random, needed) } else { vec![b' '; needed] });
        text.extend(word);
        after_mark = is_mark(word) && layout != Layout::Plain;
    }
    if layout == Layout::Wild {
        text.extend(blanks(random, 0));
        if random.once_in(6) {
            text.extend(remark(random));
        }
    }
}

/// The text of these lines; the last line feed may be missing.
pub fn text(random: &mut Random, lines: &[Words], layout: Layout) -> Vec<u8> {
    let (mut text, returns) = (Vec::new(), random.once_in(8));
    for words in lines {
        if layout == Layout::Wild && random.once_in(6) {
            text.extend(if random.once_in(2) { remark(random) } else { blanks(random, 0) });
            text.push(b'\n');
        }
        put_line(random, &mut text, words, layout);
        text.extend(if returns { b"\r\n".as_slice() } else { b"\n" });
    }
    if random.once_in(5) {
        text.pop();
    }
    text
}
