//! Cuts any text, also a damaged one, into tokens or statements that join to the same text again.

use crate::lexer::{class_of, ByteClass};

#[derive(Clone, Copy, Debug, PartialEq, Eq)]
pub enum PieceKind {
    Open,
    Close,
    Word,
    /// Blanks and comments.
    Gap,
}

#[derive(Clone, Debug, PartialEq, Eq)]
pub struct Piece {
    pub kind: PieceKind,
    pub bytes: Vec<u8>,
}

pub fn pieces(text: &[u8]) -> Vec<Piece> {
    let mut list = Vec::new();
    let mut at = 0;
    while at < text.len() {
        let (kind, end) = match class_of(text[at]) {
            ByteClass::Open => (PieceKind::Open, at + 1),
            ByteClass::Close => (PieceKind::Close, at + 1),
            ByteClass::Blank | ByteClass::LineFeed | ByteClass::CommentStart => (PieceKind::Gap, end_of_gap(text, at)),
            _ => (PieceKind::Word, end_of_word(text, at)),
        };
        list.push(Piece { kind, bytes: text[at..end].to_vec() });
        at = end;
    }
    list
}

fn end_of_gap(text: &[u8], start: usize) -> usize {
    let mut at = start;
    let mut in_comment = false;
    while at < text.len() {
        match class_of(text[at]) {
            ByteClass::LineFeed => in_comment = false,
            ByteClass::CommentStart => in_comment = true,
            ByteClass::Blank => {}
            _ if in_comment => {}
            _ => break,
        }
        at += 1;
    }
    at
}

fn end_of_word(text: &[u8], start: usize) -> usize {
    let is_word = |b| matches!(class_of(b), ByteClass::Letter | ByteClass::DigitOrDash | ByteClass::Dot | ByteClass::Wrong);
    start + text[start..].iter().take_while(|&&b| is_word(b)).count()
}

pub fn join(list: &[Piece]) -> Vec<u8> {
    list.iter().flat_map(|piece| piece.bytes.clone()).collect()
}

/// Cuts behind every parenthesis that closes an outermost group.
pub fn statements(text: &[u8]) -> Vec<Vec<u8>> {
    let mut list = Vec::new();
    let mut current = Vec::new();
    let mut level: i64 = 0;
    for piece in pieces(text) {
        current.extend(&piece.bytes);
        match piece.kind {
            PieceKind::Open => level += 1,
            PieceKind::Close => level -= 1,
            _ => {}
        }
        if piece.kind == PieceKind::Close && level <= 0 {
            level = 0;
            list.push(std::mem::take(&mut current));
        }
    }
    if !current.is_empty() {
        list.push(current);
    }
    list
}

/// A group that stands where a statement may stand: at the outermost level or within blocks. By the places of its pieces.
#[derive(Clone, Copy, Debug, PartialEq, Eq)]
pub struct Span {
    pub open: usize,
    pub close: usize,
    /// The place of a block's name; nothing for a statement.
    pub block: Option<usize>,
}

/// All such groups in order of their opening parentheses; those that are never closed are left out.
pub fn spans(list: &[Piece]) -> Vec<Span> {
    let mut found: Vec<Span> = Vec::new();
    // For each open group whether it is a block, and where it stands among those found if it may be a statement.
    let mut open: Vec<(bool, Option<usize>)> = Vec::new();
    for (place, piece) in list.iter().enumerate() {
        match piece.kind {
            PieceKind::Open => {
                let among_statements = open.iter().all(|(is_block, _)| *is_block);
                let block = block_name(list, place);
                let at = among_statements.then_some(found.len());
                found.extend(at.map(|_| Span { open: place, close: 0, block }));
                open.push((block.is_some(), at));
            }
            PieceKind::Close => {
                if let Some((_, Some(at))) = open.pop() {
                    found[at].close = place;
                }
            }
            _ => {}
        }
    }
    found.retain(|span| span.close > 0);
    found
}

/// The place of the name in the group opened here, if it is a block's.
fn block_name(list: &[Piece], open: usize) -> Option<usize> {
    let mut behind = (open + 1..list.len()).filter(|&at| list[at].kind != PieceKind::Gap);
    let keyword = behind.next()?;
    let name = behind.next()?;
    (list[keyword].bytes == b"block" && list[name].kind == PieceKind::Word).then_some(name)
}

#[cfg(test)]
mod tests {
    use super::*;

    #[test]
    fn pieces_and_statements_join_to_the_text() {
        let text = b"(role a);x ) (\n (b!c(1)) ) (";
        assert_eq!(join(&pieces(text)), text);
        assert_eq!(statements(text).concat(), text);
        assert_eq!(statements(b"(role a) (b (c))").len(), 2);
    }

    #[test]
    fn spans_within_blocks_but_not_within_statements() {
        let list = pieces(b"(block b(role a)(block c)(class d(p)))) (block (role a))(x (block e))(block f(");
        let texts: Vec<Vec<u8>> = spans(&list).iter().map(|span| join(&list[span.open..=span.close])).collect();
        let expected: [&[u8]; 6] = [
            b"(block b(role a)(block c)(class d(p)))", b"(role a)", b"(block c)", b"(class d(p))", b"(block (role a))",
            b"(x (block e))",
        ];
        assert_eq!(texts, expected);
        let names: Vec<Option<&[u8]>> = spans(&list).iter().map(|span| span.block.map(|at| &list[at].bytes[..])).collect();
        assert_eq!(names, [Some(&b"b"[..]), None, Some(b"c"), None, None, None]);
    }
}
