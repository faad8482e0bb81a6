//! Reading the text: what each byte is, the scan for faults 1 and 2, and the tree of parts.

use crate::fault::Fault;
use crate::limits;

/// The classes named in "Reading the text".
#[derive(Clone, Copy, Debug, PartialEq, Eq)]
pub enum ByteClass {
    Blank,
    LineFeed,
    CommentStart,
    Open,
    Close,
    Letter,
    DigitOrDash,
    Dot,
    Wrong,
}

/// "blank (space, tab, CR), comment start `;`, open, close, letter or `_`, digit or `-`, LF's own class, or wrong".
/// Letters are ASCII (reading 9). Reading 27 of document 02: the dot has a class of its own.
pub fn class_of(byte: u8) -> ByteClass {
    match byte {
        b' ' | b'\t' | b'\r' => ByteClass::Blank,
        b'\n' => ByteClass::LineFeed,
        b';' => ByteClass::CommentStart,
        b'(' => ByteClass::Open,
        b')' => ByteClass::Close,
        b'a'..=b'z' | b'A'..=b'Z' | b'_' => ByteClass::Letter,
        b'0'..=b'9' | b'-' => ByteClass::DigitOrDash,
        b'.' => ByteClass::Dot,
        _ => ByteClass::Wrong,
    }
}

#[derive(Clone, Debug, PartialEq, Eq)]
pub enum Token {
    Open(usize),
    Close,
    Name(Vec<u8>),
}

/// Faults 1 and 2, or the tokens of a clean text. Both are placed in the text (reading 21 of document 02: 1 too).
pub fn scan(text: &[u8]) -> Result<Vec<Token>, Fault> {
    tokens(text).map_err(|fault| fault.in_text(text))
}

fn tokens(text: &[u8]) -> Result<Vec<Token>, Fault> {
    // Reading 1: the length is judged before any byte.
    if text.len() > limits::TEXT {
        return Err(Fault::new(1, limits::TEXT));
    }
    let mut tokens = Vec::new();
    let mut level = 0;
    let mut at = 0;
    while at < text.len() {
        let wrong_here = Err(Fault::new(2, at));
        match class_of(text[at]) {
            ByteClass::Blank | ByteClass::LineFeed => at += 1,
            ByteClass::CommentStart => at = end_of_comment(text, at),
            // Reading 6: level 33 is the 33rd parenthesis itself.
            ByteClass::Open if level == limits::LEVELS => return wrong_here,
            ByteClass::Open => {
                level += 1;
                tokens.push(Token::Open(at));
                at += 1;
            }
            ByteClass::Close if level == 0 => return wrong_here,
            ByteClass::Close => {
                level -= 1;
                tokens.push(Token::Close);
                at += 1;
            }
            // Readings 2, 4 and 5: a bad name, a long name and a name outside parentheses are at their first byte. Reading 29
            // of document 02: a leading dot is the first byte.
            ByteClass::Letter | ByteClass::DigitOrDash | ByteClass::Dot => {
                let end = end_of_run(text, at);
                if level == 0 || !is_good_run(&text[at..end]) {
                    return wrong_here;
                }
                tokens.push(Token::Name(text[at..end].to_vec()));
                at = end;
            }
            ByteClass::Wrong => return wrong_here,
        }
    }
    if level > 0 { Err(Fault::new(2, text.len())) } else { Ok(tokens) }
}

/// Reading 8: LF alone ends a comment, or the end of the text.
fn end_of_comment(text: &[u8], start: usize) -> usize {
    let mut at = start;
    while at < text.len() && class_of(text[at]) != ByteClass::LineFeed {
        at += 1;
    }
    at
}

/// Reading 2: a name is the longest run of letters, `_`, digits and `-`; reading 27 of document 02: and of dots.
fn end_of_run(text: &[u8], start: usize) -> usize {
    let mut at = start;
    while at < text.len() && matches!(class_of(text[at]), ByteClass::Letter | ByteClass::DigitOrDash | ByteClass::Dot) {
        at += 1;
    }
    at
}

/// A part of a clean text: a name, or a group in parentheses with the place of its opening one.
#[derive(Clone, Debug, PartialEq, Eq)]
pub enum Part {
    Name(Vec<u8>),
    Group(Group),
}

#[derive(Clone, Debug, PartialEq, Eq)]
pub struct Group {
    pub place: usize,
    pub parts: Vec<Part>,
}

/// "The text is a row of parenthesised statements": the groups at the outermost level, in order.
pub fn tree(tokens: &[Token]) -> Vec<Group> {
    let mut rest = tokens.iter();
    let mut statements = Vec::new();
    while let Some(token) = rest.next() {
        match token {
            Token::Open(place) => statements.push(group(*place, &mut rest)),
            _ => unreachable!("a clean text has only groups at its outermost level"),
        }
    }
    statements
}

fn group(place: usize, rest: &mut std::slice::Iter<'_, Token>) -> Group {
    let mut parts = Vec::new();
    loop {
        match rest.next() {
            Some(Token::Name(name)) => parts.push(Part::Name(name.clone())),
            Some(Token::Open(inner)) => parts.push(Part::Group(group(*inner, rest))),
            Some(Token::Close) => return Group { place, parts },
            None => unreachable!("a clean text closes every group"),
        }
    }
}

/// A name as written in a text. Document 02, W-203: "A dot may stand between name parts or in front; any other dot, or more
/// than 64 bytes not counting a leading dot, is fault 2". Reading 33 of document 02: it may have any number of parts.
pub fn is_good_run(run: &[u8]) -> bool {
    is_good_name(run.strip_prefix(b".").unwrap_or(run))
}

/// A name without a leading dot: 1 to 64 bytes, good parts, one dot between two of them.
pub fn is_good_name(name: &[u8]) -> bool {
    name.len() <= limits::NAME && parts_of(name).all(is_good_part)
}

/// "A name starts with a letter or `_`, goes on with letters, digits, `_`, `-`": so does each of its parts.
fn is_good_part(part: &[u8]) -> bool {
    !part.is_empty()
        && class_of(part[0]) == ByteClass::Letter
        && part.iter().all(|&b| matches!(class_of(b), ByteClass::Letter | ByteClass::DigitOrDash))
}

/// What stands before, between and behind the dots.
pub fn parts_of(name: &[u8]) -> impl Iterator<Item = &[u8]> {
    name.split(|&byte| byte == b'.')
}

pub fn has_dot(name: &[u8]) -> bool {
    name.contains(&b'.')
}

/// Document 02, W-203: "A name with a reserved part counts as reserved."
pub fn is_reserved(name: &[u8]) -> bool {
    parts_of(name).any(is_reserved_word)
}

/// "Reserved, never names of things"; reading 13 for the words with a digit.
fn is_reserved_word(word: &[u8]) -> bool {
    const WORDS: [&[u8]; 10] =
        [b"all", b"and", b"or", b"xor", b"not", b"eq", b"neq", b"dom", b"domby", b"incomp"];
    WORDS.contains(&word) || matches!(word, [b'u' | b'r' | b't', b'1'..=b'3'] | [b'l' | b'h', b'1' | b'2'])
}
