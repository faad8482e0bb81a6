//! Damaged texts: bytes flipped, dropped, repeated; tokens swapped; statements repeated; dots and blocks put in, taken out and
//! moved; sides of constrain and validatetrans mixed up.

use crate::pieces::{join, pieces, spans, statements, Piece, PieceKind, Span};
use crate::random::Random;

/// Bytes at which a scan can go wrong.
const SHARP_BYTES: &[u8] = b"(); \n\t\r!.\"-0_a\x00\x0b\x0c\x7f\x80\xff";
/// Words that fit one place and not another.
const SHARP_WORDS: &[&str] = &[
    "all", "and", "or", "xor", "not", "eq", "neq", "dom", "domby", "incomp", "u1", "u2", "u3", "r1", "r2", "r3", "t1", "t2",
    "t3", "l1", "h2", "nope", "role", "user", "class", "constrain", "validatetrans", "userrole", "roletype", "u", "r0", "x",
    "block", ".a0", "a0.b0", "x.all", ".u1", ".u3", "b0.process",
];

pub fn damage(random: &mut Random, text: &[u8]) -> Vec<u8> {
    // Document 02, W-203: blocks and dots are damaged where there are some, and now and then put where there are none.
    let has_blocks = text.windows(6).any(|bytes| bytes == b"(block");
    if random.chance(if has_blocks { 50 } else { 8 }) {
        return if random.chance(50) { damage_dots(random, text) } else { damage_blocks(random, text) };
    }
    // Document 02, W-205: the same for validatetrans.
    let has_relabels = text.windows(14).any(|bytes| bytes == b"(validatetrans");
    if random.chance(if has_relabels { 30 } else { 4 }) {
        return damage_sides(random, text);
    }
    match random.below(10) {
        0..=1 => damage_bytes(random, text),
        2..=5 => damage_tokens(random, text),
        _ => damage_statements(random, text),
    }
}

const SIDES: [&str; 9] = ["u1", "u2", "u3", "r1", "r2", "r3", "t1", "t2", "t3"];

/// One side for another, or a constrain made a validatetrans and the other way round: the keyword alone, or with its head.
pub fn damage_sides(random: &mut Random, text: &[u8]) -> Vec<u8> {
    let mut list = pieces(text);
    let words: Vec<usize> = (0..list.len()).filter(|&i| list[i].kind == PieceKind::Word).collect();
    let is_side = |i: &&usize| SIDES.iter().any(|side| side.as_bytes() == list[**i].bytes);
    let is_keyword = |i: &&usize| [b"constrain".as_slice(), b"validatetrans"].contains(&list[**i].bytes.as_slice());
    let sides: Vec<usize> = words.iter().filter(is_side).copied().collect();
    let keywords: Vec<usize> = words.iter().filter(is_keyword).copied().collect();
    if !sides.is_empty() && (keywords.is_empty() || random.chance(70)) {
        let place = *random.pick(&sides);
        // In most cases a side of the same family, so that it may still be of the form.
        let family = list[place].bytes[0] as char;
        let side = if random.chance(75) { format!("{family}{}", random.between(1, 3)) } else { random.pick(&SIDES).to_string() };
        list[place].bytes = side.into_bytes();
    } else if !keywords.is_empty() {
        let place = *random.pick(&keywords);
        let was_constrain = list[place].bytes == b"constrain";
        let class = words.iter().copied().find(|&word| word > place);
        let other: &[u8] = if was_constrain { b"validatetrans" } else { b"constrain" };
        match (random.below(4), class) {
            // `(validatetrans c E)` to `(constrain (c (x)) E)`.
            (0, Some(class)) if !was_constrain => {
                list[place].bytes = other.to_vec();
                list[class].bytes = [b"(", list[class].bytes.as_slice(), b" (x))"].concat();
            }
            (1, Some(class)) => list[class].bytes = [b"(", list[class].bytes.as_slice(), b")"].concat(),
            (2, Some(class)) => list[class].bytes = list[*random.pick(&words)].bytes.clone(),
            _ => list[place].bytes = other.to_vec(),
        }
    } else {
        return [text, b"(validatetrans c (eq u3 u))"].concat();
    }
    join(&list)
}

pub fn damage_bytes(random: &mut Random, text: &[u8]) -> Vec<u8> {
    let mut bytes = text.to_vec();
    if bytes.is_empty() {
        return vec![random.byte()];
    }
    let at = random.below(bytes.len());
    let end = (at + random.between(1, 4)).min(bytes.len());
    match random.below(7) {
        0 => bytes[at] ^= 1 << random.below(8),
        1 => bytes[at] = random.byte(),
        2 => bytes[at] = *random.pick(SHARP_BYTES),
        3 => bytes.insert(at, *random.pick(SHARP_BYTES)),
        4 => drop(bytes.drain(at..end)),
        5 => {
            let part = bytes[at..end].to_vec();
            bytes.splice(at..at, part);
        }
        _ => bytes.truncate(at),
    }
    bytes
}

pub fn damage_tokens(random: &mut Random, text: &[u8]) -> Vec<u8> {
    let mut list = pieces(text);
    let tokens: Vec<usize> = (0..list.len()).filter(|&i| list[i].kind != PieceKind::Gap).collect();
    let words: Vec<usize> = (0..list.len()).filter(|&i| list[i].kind == PieceKind::Word).collect();
    if words.is_empty() {
        return b"()".to_vec();
    }
    let at = *random.pick(&tokens);
    let word = *random.pick(&words);
    let other = *random.pick(&words);
    match random.below(8) {
        0 => list.swap(at, *random.pick(&tokens)),
        1 | 2 => list.swap(word, other),
        3 => drop(list.remove(at)),
        4 => {
            let repeated = list[word].clone();
            list.insert(word, Piece { kind: PieceKind::Gap, bytes: b" ".to_vec() });
            list.insert(word, repeated);
        }
        5 => list[word].bytes = random.pick(SHARP_WORDS).as_bytes().to_vec(),
        6 => list[word].bytes = [b"(".to_vec(), list[word].bytes.clone(), b")".to_vec()].concat(),
        _ => list[word].bytes = list[other].bytes.clone(),
    }
    join(&list)
}

pub fn damage_statements(random: &mut Random, text: &[u8]) -> Vec<u8> {
    let mut list = statements(text);
    if list.is_empty() {
        return b"()".to_vec();
    }
    let at = random.below(list.len());
    let other = random.below(list.len());
    match random.below(4) {
        0 => list.insert(other, list[at].clone()),
        1 => drop(list.remove(at)),
        2 => list.swap(at, other),
        _ => list.push(list[at].clone()),
    }
    list.concat()
}

/// A word with a dot or a part more or less, or with parts of its own in another order.
pub fn damage_dots(random: &mut Random, text: &[u8]) -> Vec<u8> {
    let mut list = pieces(text);
    let words: Vec<usize> = (0..list.len()).filter(|&i| list[i].kind == PieceKind::Word).collect();
    if words.is_empty() {
        return b"(.)".to_vec();
    }
    // In most cases a word that has a dot, if there is one: it stands for something.
    let dotted: Vec<usize> = words.iter().copied().filter(|&i| list[i].bytes.contains(&b'.')).collect();
    let from = if !dotted.is_empty() && random.chance(70) { &dotted } else { &words };
    let place = *random.pick(from);
    let other = list[*random.pick(&words)].bytes.clone();
    list[place].bytes = with_other_dots(random, &list[place].bytes, &other);
    join(&list)
}

fn with_other_dots(random: &mut Random, word: &[u8], other: &[u8]) -> Vec<u8> {
    let mut parts: Vec<&[u8]> = word.split(|&byte| byte == b'.').collect();
    let sharp = random.pick(SHARP_WORDS).as_bytes();
    let at = random.below(parts.len());
    match random.below(10) {
        0 => parts.insert(0, b""),
        1 => parts.push(b""),
        2 => parts.insert(at, b""),
        3 => parts.insert(at, other),
        4 => parts.push(sharp),
        5 => parts.insert(0, sharp),
        6 => parts.reverse(),
        7 => parts[at] = other,
        // Without its first part, or without its last: what it was found by is further in or out.
        8 if parts.len() > 1 => drop(parts.remove(0)),
        _ if parts.len() > 1 => drop(parts.pop()),
        _ => parts.insert(0, b""),
    }
    parts.join(&b'.')
}

/// Blocks around statements, blocks opened again, without their parentheses, under another name or keyword; statements moved
/// into blocks and out of them.
pub fn damage_blocks(random: &mut Random, text: &[u8]) -> Vec<u8> {
    let list = pieces(text);
    let found = spans(&list);
    let blocks: Vec<Span> = found.iter().copied().filter(|span| span.block.is_some()).collect();
    if found.is_empty() || random.chance(12) {
        return nested(random, text);
    }
    let span = *random.pick(&found);
    let other = *random.pick(&found);
    match random.below(if blocks.is_empty() { 3 } else { 8 }) {
        0 | 1 => join(&wrapped(random, &list, span)),
        2 => {
            let keep = random.chance(30);
            join(&moved(random, &list, span, other, keep))
        }
        _ => {
            let (one, other) = (*random.pick(&blocks), *random.pick(&blocks));
            join(&damaged_block(random, &list, one, other))
        }
    }
}

/// The whole text within one to nine blocks.
fn nested(random: &mut Random, text: &[u8]) -> Vec<u8> {
    let depth = random.between(1, 9);
    let name = "b".repeat(random.between(1, 9));
    [format!("(block {name}").repeat(depth).into_bytes(), text.to_vec(), vec![b')'; depth]].concat()
}

fn piece(kind: PieceKind, bytes: &[u8]) -> Piece {
    Piece { kind, bytes: bytes.to_vec() }
}

/// A block around one group. Its name is one that other blocks have too, or almost as long as a name can be.
fn wrapped(random: &mut Random, list: &[Piece], span: Span) -> Vec<Piece> {
    let long = "n".repeat(random.between(56, 64));
    let name = *random.pick(&["a0", "b0", "c1", "b", "block", "all", &long]);
    let header = piece(PieceKind::Word, format!("(block {name}").as_bytes());
    let close = piece(PieceKind::Close, b")");
    [&list[..span.open], &[header], &list[span.open..=span.close], &[close], &list[span.close + 1..]].concat()
}

/// A group put before or behind another one. Where it stood it is kept if that is asked, or if it goes into itself.
fn moved(random: &mut Random, list: &[Piece], span: Span, other: Span, keep: bool) -> Vec<Piece> {
    let group = list[span.open..=span.close].to_vec();
    let to = if random.chance(50) { other.open } else { other.close + 1 };
    let keep = keep || (span.open < to && to <= span.close);
    let mut moved: Vec<Piece> = Vec::new();
    for place in 0..=list.len() {
        if place == to {
            moved.extend(group.clone());
        }
        let taken = !keep && (span.open..=span.close).contains(&place);
        moved.extend(list.get(place).filter(|_| !taken).cloned());
    }
    moved
}

/// One block damaged; some ways take something from another.
fn damaged_block(random: &mut Random, list: &[Piece], one: Span, other: Span) -> Vec<Piece> {
    let (name, other_name) = (one.block.expect("a block"), other.block.expect("a block"));
    let word = piece(PieceKind::Word, random.pick(&[" x ", " .x ", " block "]).as_bytes());
    let mut list = list.to_vec();
    match random.below(7) {
        // Opened twice; under one full name where both stand in the same block.
        0 => return moved(random, &list, one, other, true),
        // The header and the closing parenthesis go, what is in it stays.
        1 => {
            list.remove(one.close);
            drop(list.drain(one.open..=name));
        }
        2 => list[name].bytes = list[other_name].bytes.clone(),
        3 => list[name].bytes = random.pick(&["a.b", ".b", "all", "u1", "b.not", "(b)", "role"]).as_bytes().to_vec(),
        4 => {
            let keyword = random.pick(&["optional", ".block", "block.b", "Block", "blockinherit", "role"]);
            let place = (one.open..name).find(|&at| list[at].kind == PieceKind::Word).expect("a keyword");
            list[place].bytes = keyword.as_bytes().to_vec();
        }
        // A word among what is in it, or behind its name.
        5 => list.insert(*random.pick(&[name + 1, one.close]), word),
        // It ends at once, and what was in it stands behind it.
        _ => {
            let close = list.remove(one.close);
            list.insert(name + 1, close);
        }
    }
    list
}
