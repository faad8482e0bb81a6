//! Writes statements with varied gaps between their tokens.

use crate::pieces::{pieces, PieceKind};
use crate::random::Random;

/// How freely the gaps vary.
#[derive(Clone, Copy, Debug, PartialEq, Eq)]
pub enum Gaps {
    /// A blank only where two words would join.
    Least,
    /// Blanks, lines and comments of every kind.
    Varied,
}

pub fn lay_out(random: &mut Random, statements: &[String], gaps: Gaps) -> Vec<u8> {
    let mut text = Vec::new();
    let mut after_word = false;
    for statement in statements {
        for piece in pieces(statement.as_bytes()) {
            if piece.kind == PieceKind::Gap {
                continue;
            }
            let is_word = piece.kind == PieceKind::Word;
            text.extend(gap(random, gaps, after_word && is_word));
            text.extend(&piece.bytes);
            after_word = is_word;
        }
    }
    text
}

/// A gap; where two words meet it may not be empty, but a comment alone is enough (reading 8).
fn gap(random: &mut Random, gaps: Gaps, needed: bool) -> Vec<u8> {
    if gaps == Gaps::Varied {
        match random.below(40) {
            0 => return b"\n".to_vec(),
            1 => return b"\r\n\t".to_vec(),
            2 => return b"\t".to_vec(),
            3 => return b"  ".to_vec(),
            4 => return comment(random),
            _ => {}
        }
    }
    if needed {
        b" ".to_vec()
    } else {
        Vec::new()
    }
}

/// "inside a comment any byte is allowed"; LF alone ends it.
fn comment(random: &mut Random) -> Vec<u8> {
    let mut bytes = b";".to_vec();
    for _ in 0..random.below(4) {
        let byte = random.byte();
        if byte != b'\n' {
            bytes.push(byte);
        }
    }
    bytes.push(b'\n');
    bytes
}
