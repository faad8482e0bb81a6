//! Why a text, some bytes or a question was refused.

use std::error::Error;
use std::fmt;

use crate::linked::Compiled;

/// What each refusal means, from number 1 on. `tegzhumbi_refusal_text` of the C header says the
/// same; a test below compares them.
const SENTENCES: [&str; 12] = [
    "the text is longer than 65,535 bytes",
    "a byte that belongs nowhere, a bad or long name, or parentheses that do not match",
    "not a statement or block of a known form",
    "declared again: a name in its family, a permission in its class, or a block",
    "name not declared before its use, or of the wrong sort",
    "more than the maximum: of things of this sort, of rows, of levels of blocks, or of bytes of a full name",
    "the expression needs more than five values on the stack",
    "the sets of this attribute mention it, directly or through others",
    "this role transition clashes with an earlier one",
    "the lent memory is shorter than the table",
    "not a sound table",
    "a number that the table does not declare",
];

fn sentence(number: u32) -> &'static str {
    SENTENCES[number as usize - 1]
}

/// The kinds of faults for which [`compile`](crate::compile) refuses a text, in the words of the C
/// header's constants.
///
/// More may come with new statements of the language, so a `match` needs a last arm for the rest.
#[derive(Clone, Copy, Debug, PartialEq, Eq, PartialOrd, Ord, Hash)]
#[non_exhaustive]
pub enum RefusalKind {
    /// The text is longer than 65,535 bytes.
    TextTooLong = 1,
    /// A byte that belongs nowhere, a bad or long name, or parentheses that do not match.
    WrongByte = 2,
    /// Not a statement or block of a known form.
    NoForm = 3,
    /// A name declared again in its family, a permission in its class, or a block.
    DeclaredAgain = 4,
    /// A name that is not declared before its use, or is of the wrong sort.
    NameUndeclared = 5,
    /// More than the maximum: of things of a sort, of rows, of levels of blocks, or of bytes of a
    /// full name.
    MaximumPassed = 6,
    /// An expression that needs more than five values on the stack.
    StackTooSmall = 7,
    /// An attribute whose sets mention it, directly or through others.
    Cycle = 8,
    /// A role transition that clashes with an earlier one.
    Clash = 9,
    /// The text is good, and the lent memory is shorter than its table.
    MemoryTooShort = 10,
}

impl RefusalKind {
    fn of(number: u32) -> RefusalKind {
        match number {
            1 => RefusalKind::TextTooLong,
            2 => RefusalKind::WrongByte,
            3 => RefusalKind::NoForm,
            4 => RefusalKind::DeclaredAgain,
            5 => RefusalKind::NameUndeclared,
            6 => RefusalKind::MaximumPassed,
            7 => RefusalKind::StackTooSmall,
            8 => RefusalKind::Cycle,
            9 => RefusalKind::Clash,
            10 => RefusalKind::MemoryTooShort,
            other => unreachable!("compile refuses with 1 to 10, not with {other}"),
        }
    }

    /// The number that the documents give it, 1 to 10.
    pub fn number(self) -> u32 {
        self as u32
    }
}

impl fmt::Display for RefusalKind {
    fn fmt(&self, f: &mut fmt::Formatter<'_>) -> fmt::Result {
        f.write_str(sentence(self.number()))
    }
}

/// A text was refused: the first fault that it has, and where.
///
/// Shown, it is a line for whoever wrote the text:
///
/// ```
/// use tegzhumbi::{RefusalKind, TableBuf};
///
/// let refusal = TableBuf::compile(b"(role clerk)\n(roletype clerk desk)").unwrap_err();
/// assert_eq!(
///     refusal.to_string(),
///     "line 2: name not declared before its use, or of the wrong sort"
/// );
/// assert_eq!(refusal.kind(), RefusalKind::NameUndeclared);
/// assert_eq!((refusal.number(), refusal.place(), refusal.line()), (5, 13, Some(2)));
/// ```
#[derive(Clone, Copy, Debug, PartialEq, Eq, Hash)]
pub struct Refusal {
    kind: RefusalKind,
    place: u32,
    /// 0 where the place is not in the text.
    line: u32,
}

impl Refusal {
    pub(crate) fn of(compiled: Compiled) -> Refusal {
        Refusal {
            kind: RefusalKind::of(compiled.number),
            place: compiled.place,
            line: compiled.line,
        }
    }

    /// What is wrong.
    pub fn kind(&self) -> RefusalKind {
        self.kind
    }

    /// The number that the documents give the kind, 1 to 10.
    pub fn number(&self) -> u32 {
        self.kind.number()
    }

    /// Where, as the offset of a byte in the text. From [`RefusalKind::NoForm`] on it is the
    /// `(` of the statement or block at fault. Before that it is the first byte that is too many,
    /// belongs nowhere or begins a bad name, or the text's length if something is not closed.
    ///
    /// For [`RefusalKind::MemoryTooShort`] it is the length of memory that the table needs.
    pub fn place(&self) -> usize {
        self.place as usize
    }

    /// The line of the place, counted from 1; none for [`RefusalKind::MemoryTooShort`], whose place
    /// is a length.
    pub fn line(&self) -> Option<usize> {
        (self.line > 0).then_some(self.line as usize)
    }
}

impl fmt::Display for Refusal {
    fn fmt(&self, f: &mut fmt::Formatter<'_>) -> fmt::Result {
        match self.line() {
            Some(line) => write!(f, "line {line}: {}", self.kind),
            None => write!(f, "{}, which takes {} bytes", self.kind, self.place),
        }
    }
}

impl Error for Refusal {}

/// Bytes are refused, since they are not a sound table.
#[derive(Clone, Copy, Debug, PartialEq, Eq)]
pub struct Unsound;

impl Unsound {
    /// The number that the documents give this refusal.
    pub const NUMBER: u32 = 11;
}

impl fmt::Display for Unsound {
    fn fmt(&self, f: &mut fmt::Formatter<'_>) -> fmt::Result {
        f.write_str(sentence(Unsound::NUMBER))
    }
}

impl Error for Unsound {}

/// A question is refused, since it has a number that the table does not declare.
#[derive(Clone, Copy, Debug, PartialEq, Eq)]
pub struct Undeclared;

impl Undeclared {
    /// The number that the documents give this refusal.
    pub const NUMBER: u32 = 12;
}

impl fmt::Display for Undeclared {
    fn fmt(&self, f: &mut fmt::Formatter<'_>) -> fmt::Result {
        f.write_str(sentence(Undeclared::NUMBER))
    }
}

impl Error for Undeclared {}

#[cfg(test)]
mod tests {
    use super::*;

    #[test]
    fn kinds_go_by_their_numbers() {
        for number in 1..=10 {
            assert_eq!(RefusalKind::of(number).number(), number);
        }
    }

    /// The header's function has the sentences in the order of their numbers, each as one literal,
    /// which may be cut into several over the lines.
    #[test]
    fn the_c_header_says_the_same_sentences() {
        let path = concat!(env!("CARGO_MANIFEST_DIR"), "/../../include/tegzhumbi.h");
        let header = std::fs::read_to_string(path).expect("the header can be read");
        let words: Vec<&str> = header.split_whitespace().collect();
        let header = words.join(" ").replace("\" \"", "");
        let (_, mut rest) = header
            .split_once("tegzhumbi_refusal_text")
            .expect("the header has the function");
        for sentence in SENTENCES {
            let literal = format!("\"{sentence}\"");
            let found = rest.split_once(&literal);
            (_, rest) = found.unwrap_or_else(|| panic!("missing, or out of order: {literal}"));
        }
    }
}
