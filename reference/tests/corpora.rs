//! The corpora: the same seed gives the same bytes, and every answer occurs.

use reference::corpus::{adler32, answer, compile_line, fill, scan_line, write, Layer};

const LAYERS: [Layer; 5] = [Layer::Scan, Layer::Compile, Layer::Sound, Layer::Questions, Layer::Tries];

fn count(lines: &[String], start: &str) -> usize {
    lines.iter().filter(|line| line.starts_with(start)).count()
}

#[test]
fn the_same_seed_gives_the_same_bytes() {
    for layer in LAYERS {
        assert_eq!(write(layer, 5), write(layer, 5));
        assert_ne!(write(layer, 5), write(layer, 6));
    }
}

#[test]
fn every_refusal_and_denial_occurs() {
    let compile = answer(Layer::Compile, &write(Layer::Compile, 2)).unwrap();
    assert!(count(&compile, "refused 1 at 65535") >= 1);
    for number in 2..=10 {
        assert!(count(&compile, &format!("refused {number} at")) >= 10, "{number}");
    }
    assert!(count(&compile, "accepted") > 300);
    let scan = answer(Layer::Scan, &write(Layer::Scan, 2)).unwrap();
    assert!(count(&scan, "refused 1 at 65535") >= 1 && count(&scan, "refused 2") > 1_000 && count(&scan, "clean") > 1_000);
    let sound = answer(Layer::Sound, &write(Layer::Sound, 2)).unwrap();
    assert!(count(&sound, "sound") > 100 && count(&sound, "unsound") > 500);
    let questions = answer(Layer::Questions, &write(Layer::Questions, 2)).unwrap();
    for number in 1..=6 {
        assert!(count(&questions, &format!("denied {number}")) >= 40, "{number}");
    }
    for start in ["granted", "refused 11", "refused 12", "valid", "not valid"] {
        assert!(count(&questions, start) >= 10, "{start}");
    }
    let tries = answer(Layer::Tries, &write(Layer::Tries, 2)).unwrap();
    for sort in 0..=7 {
        assert!(count(&tries, &format!("chains found {sort} ")) >= 50, "{sort}");
    }
    assert!(count(&tries, "chains missing compared 0") > 1_000 && count(&tries, "chains missing compared 1") > 500);
}

/// Document 02, W-205: the numbers of the relabelling as the corpus has them, on tables of both editions.
#[test]
fn relabellings_in_the_corpus() {
    let corpus = write(Layer::Questions, 2);
    let number = |at: usize, width: usize| (0..width).rev().fold(0u64, |sum, byte| sum << 8 | corpus[at + byte] as u64);
    let (mut at, mut relabellings, mut lines) = (0, [0; 3], 0);
    while at < corpus.len() {
        let table = at + 4;
        at = table + number(at, 4) as usize;
        let edition = if at > table { corpus[table] as usize % 3 } else { 0 };
        let count = number(at, 4);
        at += 4;
        for _ in 0..count {
            let kind = number(at, 8);
            relabellings[edition] += (kind == 5) as usize;
            at += 8 * if kind == 5 { 11 } else { 9 };
            lines += 2;
        }
    }
    assert_eq!(lines, answer(Layer::Questions, &corpus).unwrap().len());
    assert!(relabellings[1] > 200 && relabellings[2] > 500, "{relabellings:?}");
}

/// Document 02, W-202: the last 1,200 texts of the compile corpus are random, and LFs stand in many of their gaps.
#[test]
fn random_texts_are_often_refused_on_a_later_line() {
    let compile = answer(Layer::Compile, &write(Layer::Compile, 2)).unwrap();
    let random = &compile[compile.len() - 1_200..];
    let of_number = |number: u8| random.iter().filter(move |line| line.starts_with(&format!("refused {number} at")));
    let later = |number: u8| of_number(number).filter(|line| line_in(line) > 1).count();
    assert!((2..=9).all(|number| later(number) >= 3));
    assert!((2..=9).map(later).sum::<usize>() >= 150);
    assert!(of_number(10).count() >= 50 && of_number(10).all(|line| line_in(line) == 0));
}

/// The line in `refused 5 at 8 line 1`.
fn line_in(answer: &str) -> usize {
    answer.split(' ').nth(5).expect("a refusal has a line").parse().unwrap()
}

#[test]
fn a_cut_corpus_is_an_error() {
    for layer in LAYERS {
        let corpus = write(layer, 1);
        assert!(answer(layer, &corpus[..corpus.len() - 1]).is_err());
        assert_eq!(answer(layer, &[]), Ok(vec![]));
    }
}

#[test]
fn the_line_of_a_scan() {
    assert_eq!(scan_line(b"\n"), "clean");
    assert_eq!(scan_line(b"(role a)!"), "refused 2 at 8 line 1");
    assert_eq!(scan_line(b"(role a)\n!"), "refused 2 at 9 line 2");
}

#[test]
fn the_checksum() {
    // The two published values of Adler-32 for these strings.
    assert_eq!(adler32(b""), 1);
    assert_eq!(adler32(b"Wikipedia"), 0x11E6_0398);
    assert_eq!(fill(300)[..4], [3, 10, 17, 24]);
    assert_eq!(fill(300)[256..258], [3, 10]);
    assert_eq!(compile_line(0, b"()"), "refused 3 at 0 line 1 1");
    assert_eq!(compile_line(0, b"\n()"), "refused 3 at 1 line 2 1");
    assert_eq!(compile_line(2, b""), format!("refused 10 at 84 line 0 {}", adler32(&[3, 10])));
}
