//! A refusal: its number, its place ("Refusal numbers") and its line (document 02, W-202).

use std::fmt;

#[derive(Clone, Copy, Debug, PartialEq, Eq, PartialOrd, Ord)]
pub struct Fault {
    pub number: u8,
    pub place: usize,
    /// 0 where the place is not in a text.
    pub line: usize,
}

impl Fault {
    /// A fault without a line: its place is not in a text ("All others carry line 0."), or is still to be put there by
    /// `in_text`.
    pub fn new(number: u8, place: usize) -> Fault {
        Fault { number, place, line: 0 }
    }

    /// The same fault, placed in this text.
    pub fn in_text(self, text: &[u8]) -> Fault {
        Fault { line: line_of(text, self.place), ..self }
    }
}

/// "1 plus the number of LF bytes before the place". Reading 19 of document 02: the byte at the place does not count, nor
/// does CR, but LFs in comments do. Reading 20: a place at the text's length has all LFs before it. Any place is taken, so
/// that a wrong one of the linked library is shown as a difference.
pub fn line_of(text: &[u8], place: usize) -> usize {
    1 + text.iter().take(place).filter(|&&byte| byte == b'\n').count()
}

impl fmt::Display for Fault {
    /// The wording of the printed roll: "The program prints `refused 5 at 8 line 1`". Reading 22 of document 02: every
    /// refusal in one shape, `line 0` too.
    fn fmt(&self, f: &mut fmt::Formatter<'_>) -> fmt::Result {
        write!(f, "refused {} at {} line {}", self.number, self.place, self.line)
    }
}
