//! How often each answer occurs in a generated corpus.

use crate::corpus::{answer, write, Layer};
use crate::sound::decode;
use std::collections::BTreeMap;

/// The answer without its places and counts.
fn key(line: &str) -> String {
    let words: Vec<&str> = line.split(' ').collect();
    match words[0] {
        "refused" if words.len() > 5 => format!("refused {:>2} on {}", words[1], which_line(words[5])),
        "refused" | "denied" => format!("{} {:>2}", words[0], words[1]),
        "not" => line.to_string(),
        "chains" | "section" => tried(&words),
        first => first.to_string(),
    }
}

/// Whether a refusal of a text, `refused 5 at 8 line 1`, has a line (document 02, W-202) and LFs before its place.
fn which_line(line: &str) -> &str {
    match line {
        "0" => "no line",
        "1" => "line 1",
        _ => "a later line",
    }
}

/// A try by the sort that it found, and whether it compared none, one or more.
fn tried(words: &[&str]) -> String {
    let result = if words[1] == "found" { words[1..3].join(" ") } else { words[1].to_string() };
    let compared = match words[words.len() - 1] {
        "0" => "none",
        "1" => "one",
        _ => "more",
    };
    format!("{} {result}, {compared} compared", words[0])
}

pub fn statistics(layer: Layer, seed: u64) -> Vec<String> {
    let corpus = write(layer, seed);
    let lines = answer(layer, &corpus).expect("a corpus of its own");
    let mut counts: BTreeMap<String, usize> = BTreeMap::new();
    for line in &lines {
        *counts.entry(key(line)).or_default() += 1;
    }
    let mut report = vec![format!("{} bytes, {} answers", corpus.len(), lines.len())];
    report.extend(counts.iter().map(|(key, count)| format!("{count:>6}  {key}")));
    if layer == Layer::Sound {
        report.extend(reasons(&corpus));
    }
    report
}

/// For tables: why they are not sound.
fn reasons(corpus: &[u8]) -> Vec<String> {
    let mut counts: BTreeMap<&str, usize> = BTreeMap::new();
    let mut rest = corpus;
    while !rest.is_empty() {
        let length = u32::from_le_bytes([rest[0], rest[1], rest[2], rest[3]]) as usize;
        if let Err(reason) = decode(&rest[4..4 + length]) {
            *counts.entry(reason).or_default() += 1;
        }
        rest = &rest[4 + length..];
    }
    counts.iter().map(|(reason, count)| format!("{count:>6}  unsound: {reason}")).collect()
}
