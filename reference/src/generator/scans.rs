//! Texts for the scan: every byte value in every situation, both sides of the levels and of the name length, dots in every
//! place of a name, and random soups of tokens.

use crate::generator::damage::{damage_bytes, damage_dots};
use crate::random::Random;

/// Each of the 256 byte values at top level, inside parentheses, inside a name, as first byte of a name, and in a comment.
pub fn every_byte() -> Vec<Vec<u8>> {
    let around: [(&[u8], &[u8]); 7] = [
        (b"", b""),
        (b"(a)", b"(b)"),
        (b"(a ", b" b)"),
        (b"(a", b"b)"),
        (b"(", b"a)"),
        (b"(a;", b"\n)"),
        (b"(a);", b""),
    ];
    let mut list = Vec::new();
    for (before, after) in around {
        for byte in 0..=255u8 {
            list.push([before, &[byte], after].concat());
        }
    }
    list
}

/// Around 32 levels: what follows the 31st to 33rd parenthesis.
pub fn levels() -> Vec<Vec<u8>> {
    let mut list = Vec::new();
    for levels in 31..=33 {
        let open = "(".repeat(levels);
        let close = ")".repeat(levels);
        for middle in ["", "a", "!", "1", ")", ") (", "((", ";(\n", ")a(", "))(("] {
            list.push(format!("{open}{middle}").into_bytes());
            list.push(format!("{open}{middle}{close}").into_bytes());
        }
        list.push(format!("{open}{close}{open}{close}").into_bytes());
        list.push(format!("{open}{close})").into_bytes());
    }
    list
}

/// Around 64 bytes of a name: what follows it, and where it stands.
pub fn long_names() -> Vec<Vec<u8>> {
    let mut list = Vec::new();
    for length in [1, 2, 63, 64, 65, 66, 128, 300] {
        let name = format!("n{}", "-9_Z".repeat(75))[..length].to_string();
        for after in ["", ")", " )", "!", "!)", "(", "()", ";", ";\n)", "\n)", " 1)", ".b)", ")!"] {
            list.push(format!("({name}{after}").into_bytes());
        }
        list.push(name.clone().into_bytes());
        list.push(format!("(a){name}").into_bytes());
        list.push(format!("(1{name})").into_bytes());
        list.push(format!("(-{name}!)").into_bytes());
        list.push(format!("(!{name})").into_bytes());
        list.push(format!(";{name}").into_bytes());
        list.push(format!("({name} {name})").into_bytes());
    }
    list
}

/// Document 02, W-203: every row of up to four of these pieces that has a dot; and names around 64 bytes with dots.
pub fn dots() -> Vec<Vec<u8>> {
    const PIECES: [&str; 5] = [".", "a", "1", "-", "!"];
    let mut rows: Vec<String> = vec![String::new()];
    let mut list = Vec::new();
    for _ in 0..4 {
        rows = rows.iter().flat_map(|row| PIECES.iter().map(move |piece| format!("{row}{piece}"))).collect();
        let dotted = rows.iter().filter(|row| row.contains('.'));
        list.extend(dotted.map(|row| format!("(x {row})").into_bytes()));
    }
    for length in 63..=66 {
        for front in [".", "a.", ".a.", "..", "1.", "a.1.", ".a.b.c.d.e.f.g.h.i.j."] {
            // The length does not count a leading dot.
            let counted = front.strip_prefix('.').unwrap_or(front).len();
            let name = format!("{front}{}", "n".repeat(length - counted));
            for after in ["", ")", "!", ".)", ".b)", " .b)", ";.\n)"] {
                list.push(format!("({name}{after}").into_bytes());
            }
        }
    }
    list
}

/// The two texts at the maximum length. The longer one also has other faults, which do not count.
pub fn long_texts() -> Vec<Vec<u8>> {
    let mut longest = Vec::new();
    while longest.len() + 12 <= 65_535 {
        longest.extend(b"(role a1);\n ");
    }
    longest.resize(65_535, b' ');
    let mut too_long = longest.clone();
    too_long[7] = b'!';
    too_long.push(b')');
    vec![longest, too_long]
}

/// A row of random tokens. `wrong` allows those that are a fault of their own.
pub fn soup(random: &mut Random, tokens: usize, wrong: bool) -> Vec<u8> {
    const GOOD: &[&str] = &[
        "(", "(", ")", "(", ")", ")", " ", "\n", "a", "b1", "_", "role ", "all", "u1 ", "x-y", "\t", "\r", ".c", "a.b", "block ",
    ];
    const MORE: &[&str] = &[
        ";", ";x\n", ";(\n", ";)\r", "1", "-", "!", ".", "..", "a.", ".1", ".-", "\0", "\x0b", "\x7f", "\u{e9}", "9a", "\"",
    ];
    let mut text = Vec::new();
    let mut level = 0;
    for _ in 0..tokens {
        let token = if wrong && random.chance(4) { random.pick(MORE) } else { random.pick(GOOD) };
        // Without wrong tokens the groups stay balanced and names inside them, so that many texts are clean.
        let token = match (wrong, level, *token) {
            (false, 0, ")") => "(",
            (false, 0, t) if t.as_bytes()[0].is_ascii_alphabetic() || t == "_" || t == ".c" => ";!\n",
            (_, _, t) => t,
        };
        match token {
            "(" => level += 1,
            ")" => level -= 1,
            _ => {}
        }
        text.extend(token.as_bytes());
    }
    if !wrong || random.chance(60) {
        text.extend(vec![b')'; level.max(0) as usize]);
    }
    text
}

/// Bytes without any plan.
pub fn noise(random: &mut Random) -> Vec<u8> {
    let length = random.below(12);
    (0..length).map(|_| random.byte()).collect()
}

/// A text that differs from the one given in a few places, or has nothing to do with it: near the end of a name, the
/// 33rd level, and now and then the greatest length.
pub fn variant(random: &mut Random, text: &[u8]) -> Vec<u8> {
    match random.below(400) {
        0 => stretched(random, text),
        1..=20 => text.to_vec(),
        21..=80 => {
            let tokens = random.between(1, 40);
            let wrong = random.chance(60);
            soup(random, tokens, wrong)
        }
        81..=110 => noise(random),
        111..=160 => {
            let count = random.between(60, 67);
            with_run(random, text, &vec![b'n'; count])
        }
        161..=210 => {
            let count = random.between(28, 34);
            let opened = with_run(random, text, &vec![b'('; count]);
            let closing = count - random.below(3);
            with_run(random, &opened, &vec![b')'; closing])
        }
        211..=250 => {
            let run = dotted_run(random);
            with_run(random, text, &run)
        }
        251..=280 => damage_dots(random, text),
        _ => {
            let mut bytes = text.to_vec();
            for _ in 0..random.between(1, 3) {
                bytes = damage_bytes(random, &bytes);
            }
            bytes
        }
    }
}

/// The text again and again, to a length near the greatest.
fn stretched(random: &mut Random, text: &[u8]) -> Vec<u8> {
    let length = random.between(65_533, 65_537);
    let mut longer: Vec<u8> = text.iter().copied().cycle().take(length).collect();
    longer.resize(length, b' ');
    longer
}

/// The text with a run of bytes put in somewhere.
fn with_run(random: &mut Random, text: &[u8], run: &[u8]) -> Vec<u8> {
    let at = random.below(text.len() + 1);
    [&text[..at], run, &text[at..]].concat()
}

/// Parts and dots in a row, with a blank on one side or none. Mostly a good name, short or around 64 bytes.
fn dotted_run(random: &mut Random) -> Vec<u8> {
    let mut run = if random.chance(50) { b" ".to_vec() } else { Vec::new() };
    let bytes = if random.chance(70) { random.between(1, 12) } else { random.between(60, 68) };
    while run.len() < bytes {
        run.extend(random.pick(&[".a", ".b1", "c", "n-_", ".x", "Z.y"]).bytes());
        if random.chance(2) {
            run.extend(random.pick(&[".", "1", "..", ".-", "!"]).bytes());
        }
    }
    run
}
