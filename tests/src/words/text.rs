//! A text in lines, and each line in words.

pub type Word<'a> = &'a [u8];

/// The words of a line, which is numbered from 1.
pub struct Line<'a> {
    pub number: usize,
    pub words: Vec<Word<'a>>,
}

fn is_blank(byte: u8) -> bool {
    matches!(byte, b' ' | b'\t' | b'\r')
}

fn is_mark(byte: u8) -> bool {
    matches!(byte, b':' | b'|' | b',')
}

/// The words before a remark; a mark is a word by itself.
fn words(line: &[u8]) -> Vec<Word<'_>> {
    let said = line.split(|&byte| byte == b'#').next().unwrap_or_default();
    let pieces = said.split(|&byte| is_blank(byte));
    pieces.flat_map(|piece| piece.chunk_by(|&one, &next| !is_mark(one) && !is_mark(next))).collect()
}

pub fn lines(text: &[u8]) -> Vec<Line<'_>> {
    let lines = text.split(|&byte| byte == b'\n').enumerate();
    lines.map(|(index, line)| Line { number: index + 1, words: words(line) }).collect()
}
