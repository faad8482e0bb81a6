//! The comparison with the other program linked as a library, and the shrinker for what it finds.

use crate::corpus::{policy_text, question_line, scan_line};
use crate::fault::Fault;
use crate::generator::damage::damage;
use crate::generator::policies::Shape;
use crate::generator::questions::{ask, Question};
use crate::generator::scans;
use crate::generator::tables::{damaged, in_edition_1, with_bytes_behind};
use crate::lexer::scan;
use crate::pieces::{join, pieces, spans, statements, PieceKind};
use crate::random::Random;
use crate::sound::{decode, is_sound};
use crate::table::{compile, table_of, Outcome};
use std::fmt;
use std::time::{Duration, Instant};

/// What the other program offers, layer by layer. A layer that is not there is not compared.
#[derive(Clone, Copy, Default)]
pub struct Library {
    /// Fault 1 or 2 of a text.
    pub scan: Option<fn(&[u8]) -> Option<Fault>>,
    pub compile: Option<fn(&[u8], &mut [u8]) -> Outcome>,
    pub is_sound: Option<fn(&[u8]) -> bool>,
    /// The answer as the line of the questions corpus.
    pub answer: Option<fn(&[u8], &Question) -> String>,
}

/// The linked library, if the program was built with it.
#[cfg(not(feature = "linked"))]
pub fn linked() -> Option<Library> {
    None
}

#[cfg(feature = "linked")]
pub fn linked() -> Option<Library> {
    Some(crate::linked::library())
}

/// How many cases of each layer were compared.
#[derive(Clone, Copy, Debug, Default, PartialEq, Eq)]
pub struct Tally {
    pub scans: usize,
    pub compiles: usize,
    pub tables: usize,
    pub questions: usize,
}

impl fmt::Display for Tally {
    fn fmt(&self, f: &mut fmt::Formatter<'_>) -> fmt::Result {
        let Tally { scans, compiles, tables, questions } = self;
        write!(f, "{scans} texts scanned, {compiles} compiled, {tables} tables judged, {questions} questions asked")
    }
}

/// The first case on which the two programs differ, and what they say of it.
#[derive(Clone, Debug, PartialEq, Eq)]
pub struct Difference {
    pub case: Case,
    pub here: String,
    pub there: String,
}

#[derive(Clone, Debug, PartialEq, Eq)]
pub enum Case {
    /// A text, shrunk.
    Scan(Vec<u8>),
    Compile(Vec<u8>),
    Sound(Vec<u8>),
    /// The text of the table, shrunk, and the question.
    Question(Vec<u8>, Question),
    /// The same for the text's table in edition 1.
    Older(Vec<u8>, Question),
    /// A damaged table, and the question.
    Damaged(Vec<u8>, Question),
}

impl fmt::Display for Difference {
    fn fmt(&self, f: &mut fmt::Formatter<'_>) -> fmt::Result {
        match &self.case {
            Case::Scan(text) => write!(f, "the scan differs on {}", shown(text))?,
            Case::Compile(text) => write!(f, "compiling differs on {}", shown(text))?,
            Case::Sound(table) => write!(f, "soundness differs on the table {table:?}")?,
            Case::Question(text, question) => write!(f, "the answer to {question:?} differs on {}", shown(text))?,
            Case::Older(text, question) => {
                write!(f, "the answer to {question:?} differs on edition 1 of the table of {}", shown(text))?;
            }
            Case::Damaged(table, question) => write!(f, "the answer to {question:?} differs on the table {table:?}")?,
        }
        write!(f, "\n this program: {}\n the library:  {}", self.here, self.there)
    }
}

/// A text with its wrong bytes escaped.
fn shown(text: &[u8]) -> String {
    format!("\"{}\" ({} bytes)", text.escape_ascii(), text.len())
}

/// Scans for each policy that is made: they are cheap, and most of them differ in a few bytes from the policy or from its
/// first statements.
const SCANS_PER_POLICY: usize = 200;
const QUESTIONS_PER_POLICY: usize = 20;

/// Compares until the time is over or a difference is found; says how much was compared.
pub fn compare(library: &Library, seconds: u64, seed: u64) -> (Tally, Option<Difference>) {
    let end = Instant::now() + Duration::from_secs(seconds);
    let mut random = Random::new(seed);
    let mut tally = Tally::default();
    while Instant::now() < end {
        let text = some_policy(&mut random);
        let difference = compare_scans(library, &text, &mut random, &mut tally)
            .or_else(|| compare_policy(library, text, &mut random, &mut tally));
        if difference.is_some() {
            return (tally, difference);
        }
    }
    (tally, None)
}

fn some_policy(random: &mut Random) -> Vec<u8> {
    let steps = random.between(0, 60);
    let shape = Shape {
        cycles: random.chance(10),
        clashes: random.chance(10),
        deep: random.chance(10),
        crowded: random.chance(5),
        small: random.chance(50),
        objects: random.chance(20),
        blocks: random.chance(40),
        relabels: random.chance(50),
        steps: if random.chance(60) { steps / 6 } else { steps },
    };
    policy_text(random, shape)
}

fn compare_scans(library: &Library, text: &[u8], random: &mut Random, tally: &mut Tally) -> Option<Difference> {
    let theirs = library.scan?;
    let differs = |text: &[u8]| scan(text).err() != theirs(text);
    let few = statements(text).into_iter().take(random.between(1, 8)).collect::<Vec<_>>().concat();
    let text = if random.chance(90) { &few } else { text };
    for _ in 0..SCANS_PER_POLICY {
        let case = scans::variant(random, text);
        tally.scans += 1;
        if differs(&case) {
            let small = shrink(&case, &differs);
            let there = theirs(&small).map_or("clean".to_string(), |fault| fault.to_string());
            return Some(Difference { here: scan_line(&small), there, case: Case::Scan(small) });
        }
    }
    None
}

/// The layers behind the scan: the policy, damaged or not, compiled; its table, damaged, judged and asked; its table asked. Some
/// tables are put in edition 1 before.
fn compare_policy(library: &Library, mut text: Vec<u8>, random: &mut Random, tally: &mut Tally) -> Option<Difference> {
    for _ in 0..random.below(3) {
        text = damage(random, &text);
    }
    compare_compile(library, &text, random, tally)
        .or_else(|| compare_sound(library, &text, random, tally))
        .or_else(|| compare_damaged(library, &text, random, tally))
        .or_else(|| compare_answers(library, &text, random, tally))
}

fn compare_compile(library: &Library, text: &[u8], random: &mut Random, tally: &mut Tally) -> Option<Difference> {
    let theirs = library.compile?;
    let spare = random.below(3);
    let differs = |text: &[u8]| compiled(compile, text, spare) != compiled(theirs, text, spare);
    tally.compiles += 1;
    if !differs(text) {
        return None;
    }
    let small = shrink(text, &differs);
    let said = |outcome: (Outcome, Vec<u8>)| format!("{:?}, leaving {:?}", outcome.0, outcome.1);
    let (here, there) = (said(compiled(compile, &small, spare)), said(compiled(theirs, &small, spare)));
    Some(Difference { case: Case::Compile(small), here, there })
}

/// The answer and the memory afterwards. Lent is one byte less than needed, just enough, or one more, as `spare` is 0, 1 or 2.
fn compiled(compile: fn(&[u8], &mut [u8]) -> Outcome, text: &[u8], spare: usize) -> (Outcome, Vec<u8>) {
    let needed = table_of(text).map_or(64, |table| table.len());
    let mut memory = vec![0xA5; needed + spare - 1];
    let outcome = compile(text, &mut memory);
    (outcome, memory)
}

fn compare_sound(library: &Library, text: &[u8], random: &mut Random, tally: &mut Tally) -> Option<Difference> {
    let theirs = library.is_sound?;
    let whole = written(text, random.chance(OLDER))?;
    let table = damaged(random, &whole);
    tally.tables += 1;
    if theirs(&table) == is_sound(&table) {
        return None;
    }
    let there = if theirs(&table) { "sound" } else { "unsound" }.to_string();
    let here = decode(&table).err().map_or("sound".to_string(), |reason| format!("unsound: {reason}"));
    Some(Difference { case: Case::Sound(table), here, there })
}

/// A question in numbers of the table before the damage: 11, unless what came of it is still sound.
fn compare_damaged(library: &Library, text: &[u8], random: &mut Random, tally: &mut Tally) -> Option<Difference> {
    let theirs = library.answer?;
    let whole = written(text, random.chance(OLDER))?;
    let table = damaged(random, &whole);
    let question = ask(random, &decode(&whole).expect("a written table is sound"));
    tally.questions += 1;
    let here = question_line(&table, &question).expect("a known kind");
    let there = theirs(&table, &question);
    (here != there).then(|| Difference { case: Case::Damaged(table, question), here, there })
}

fn compare_answers(library: &Library, text: &[u8], random: &mut Random, tally: &mut Tally) -> Option<Difference> {
    let theirs = library.answer?;
    let ours = |table: &[u8], question: &Question| question_line(table, question).expect("a known kind");
    let older = random.chance(OLDER);
    let table = with_bytes_behind(random, &written(text, older)?);
    let decoded = decode(&table).expect("a written table is sound");
    for _ in 0..QUESTIONS_PER_POLICY {
        let question = ask(random, &decoded);
        tally.questions += 1;
        if theirs(&table, &question) != ours(&table, &question) {
            let differs = |table: &[u8]| theirs(table, &question) != ours(table, &question);
            let small = shrink(text, &|smaller| written(smaller, older).is_some_and(|table| differs(&table)));
            let table = written(&small, older).expect("the text of a table");
            let (here, there) = (ours(&table, &question), theirs(&table, &question));
            let case = if older { Case::Older(small, question) } else { Case::Question(small, question) };
            return Some(Difference { case, here, there });
        }
    }
    None
}

/// How many of a hundred tables are put in edition 1.
const OLDER: usize = 20;

/// The table of a text in the newest edition or in edition 1, or nothing where the text is refused.
fn written(text: &[u8], older: bool) -> Option<Vec<u8>> {
    let table = table_of(text).ok()?;
    Some(if older { in_edition_1(&table) } else { table })
}

/// A smaller text that still differs: statements are taken away, then blocks around others, then groups and tokens, then
/// bytes, until nothing more can be.
pub fn shrink(text: &[u8], differs: &dyn Fn(&[u8]) -> bool) -> Vec<u8> {
    let mut best = text.to_vec();
    loop {
        let before = best.len();
        best = without_parts(statements(&best), differs).concat();
        best = without_blocks(&best, differs);
        best = without_groups(&best, differs);
        let tokens = pieces(&best).into_iter().map(|piece| piece.bytes).collect();
        best = without_parts(tokens, differs).concat();
        best = without_parts(best.iter().map(|&byte| vec![byte]).collect(), differs).concat();
        if best.len() == before {
            return best;
        }
    }
}

/// Takes away runs of parts, long runs first, as long as the rest differs.
fn without_parts(mut parts: Vec<Vec<u8>>, differs: &dyn Fn(&[u8]) -> bool) -> Vec<Vec<u8>> {
    let mut run = parts.len();
    while run > 0 {
        let mut at = 0;
        while at < parts.len() {
            let end = (at + run).min(parts.len());
            let rest = [&parts[..at], &parts[end..]].concat();
            if differs(&rest.concat()) {
                parts = rest;
            } else {
                at = end;
            }
        }
        run /= 2;
    }
    parts
}

/// Takes away the header of a block and its closing parenthesis; what is in it stays.
fn without_blocks(text: &[u8], differs: &dyn Fn(&[u8]) -> bool) -> Vec<u8> {
    let mut list = pieces(text);
    let mut tried = 0;
    while let Some((span, name)) = spans(&list).into_iter().filter_map(|span| Some((span, span.block?))).nth(tried) {
        let rest = [&list[..span.open], &list[name + 1..span.close], &list[span.close + 1..]].concat();
        if differs(&join(&rest)) {
            list = rest;
        } else {
            tried += 1;
        }
    }
    join(&list)
}

/// Takes away whole groups, or only the two parentheses around what they hold.
fn without_groups(text: &[u8], differs: &dyn Fn(&[u8]) -> bool) -> Vec<u8> {
    let mut list = pieces(text);
    let mut at = 0;
    while at < list.len() {
        if let Some(close) = closing(&list.iter().map(|piece| piece.kind).collect::<Vec<_>>(), at) {
            let without = [&list[..at], &list[close + 1..]].concat();
            let unwrapped = [&list[..at], &list[at + 1..close], &list[close + 1..]].concat();
            if differs(&join(&without)) {
                list = without;
                continue;
            }
            if differs(&join(&unwrapped)) {
                list = unwrapped;
                continue;
            }
        }
        at += 1;
    }
    join(&list)
}

/// The piece that closes the group opened at `at`.
fn closing(kinds: &[PieceKind], at: usize) -> Option<usize> {
    let mut level = 0;
    for (place, kind) in kinds.iter().enumerate().skip(at) {
        match kind {
            PieceKind::Open => level += 1,
            PieceKind::Close => level -= 1,
            _ => {}
        }
        if level <= 0 {
            return (place > at).then_some(place);
        }
    }
    None
}

#[cfg(test)]
mod tests {
    use super::*;
    use crate::corpus::adler32;

    /// This program itself as the other one.
    fn itself() -> Library {
        Library {
            scan: Some(|text| scan(text).err()),
            compile: Some(compile),
            is_sound: Some(is_sound),
            answer: Some(|table, question| question_line(table, question).unwrap()),
        }
    }

    #[test]
    fn shrinks_to_what_matters() {
        let text = b"(user u) ; c\n(role a)(roleattribute x)(roleattributeset x (or (a b c) (not a)))(type t)(class c (p))";
        let small = shrink(text, &|text| text.windows(3).any(|w| w == b"not"));
        assert_eq!(small, b"not");
        let small = shrink(text, &|text| scan(text).is_ok() && text.windows(3).any(|w| w == b"not"));
        assert_eq!(small, b"(not)");
        let small = shrink(text, &|text| table_of(text).is_err_and(|fault| fault.number == 5));
        assert!(small.len() <= "(roleallow x y)".len() + 10, "{}", String::from_utf8_lossy(&small));
        assert_eq!(shrink(b"", &|_| true), b"");
    }

    #[test]
    fn shrinks_out_of_blocks_that_do_not_matter() {
        let text = b"(block b (user u)(block c (role a)(block d(roleallow a .b.c.a))))(role b)";
        let small = shrink(text, &|text| table_of(text).is_ok_and(|table| decode(&table).unwrap().counts.roles() > 1));
        assert!(!small.contains(&b'.') && statements(&small).len() == 2, "{}", shown(&small));
        let small = shrink(text, &|text| table_of(text).is_ok() && text.windows(3).any(|w| w == b"(bl"));
        assert_eq!(small, b"(block b)");
    }

    #[test]
    fn shrinks_bytes_that_are_no_text() {
        let noise: Vec<u8> = (0..=255).collect();
        let small = shrink(&noise, &|text| adler32(text) != 1 && text.contains(&200));
        assert_eq!(small, vec![200]);
    }

    #[test]
    fn finds_no_difference_to_itself() {
        let (tally, difference) = compare(&itself(), 1, 7);
        assert!(tally.scans > 1_000 && tally.compiles > 10 && tally.tables > 5 && tally.questions > 100, "{tally}");
        assert_eq!(difference, None);
    }

    #[test]
    fn compares_only_what_is_there() {
        let (tally, difference) = compare(&Library { scan: itself().scan, ..Library::default() }, 1, 7);
        assert!(tally.scans > 1_000);
        assert_eq!((tally.compiles, tally.tables, tally.questions, difference), (0, 0, 0, None));
    }

    #[test]
    fn finds_and_shrinks_a_slip_of_the_scan() {
        // Takes a name of 65 bytes.
        fn slipped(text: &[u8]) -> Option<Fault> {
            let long = [b"n".repeat(65), b"n".repeat(64)];
            let same = text.windows(65).position(|w| w == long[0]);
            let text = same.map_or(text.to_vec(), |at| [&text[..at], &long[1], &text[at + 65..]].concat());
            scan(&text).err()
        }
        let (_, difference) = compare(&Library { scan: Some(slipped), ..itself() }, 60, 7);
        let text = [b"(".as_slice(), &b"n".repeat(65)].concat();
        let (here, there) = ("refused 2 at 1 line 1".to_string(), "refused 2 at 65 line 1".to_string());
        assert_eq!(difference, Some(Difference { case: Case::Scan(text), here, there }));
    }

    #[test]
    fn finds_and_shrinks_a_slip_of_the_compiler() {
        // Forgets the last byte of every table of more than two roles.
        fn slipped(text: &[u8], lent: &mut [u8]) -> Outcome {
            let before = lent.to_vec();
            let outcome = compile(text, lent);
            if let Outcome::Accepted(length) = outcome {
                if decode(lent).unwrap().counts.roles() > 2 {
                    lent[length - 1] = before[length - 1];
                }
            }
            outcome
        }
        let (_, difference) = compare(&Library { compile: Some(slipped), ..itself() }, 60, 7);
        let Some(Case::Compile(text)) = difference.map(|d| d.case) else { panic!("a text differs") };
        assert_eq!(statements(&text).len(), 3, "{}", String::from_utf8_lossy(&text));
    }

    #[test]
    fn finds_and_shrinks_a_slip_of_the_line() {
        // Counts CR as well.
        fn slipped(text: &[u8], lent: &mut [u8]) -> Outcome {
            match compile(text, lent) {
                Outcome::Refused(fault) if fault.line > 0 => {
                    let returns = text[..fault.place].iter().filter(|&&byte| byte == b'\r').count();
                    Outcome::Refused(Fault { line: fault.line + returns, ..fault })
                }
                outcome => outcome,
            }
        }
        let (_, difference) = compare(&Library { compile: Some(slipped), ..itself() }, 60, 7);
        let Some(Case::Compile(text)) = difference.map(|d| d.case) else { panic!("a text differs") };
        assert!(text.len() == 2 && text.contains(&b'\r'), "{}", shown(&text));
    }

    #[test]
    fn finds_a_line_where_there_is_none() {
        // Gives line 1 to refusal 10.
        fn slipped(text: &[u8], lent: &mut [u8]) -> Outcome {
            match compile(text, lent) {
                Outcome::Refused(fault) => Outcome::Refused(Fault { line: fault.line.max(1), ..fault }),
                outcome => outcome,
            }
        }
        let (_, difference) = compare(&Library { compile: Some(slipped), ..itself() }, 60, 7);
        assert_eq!(difference.map(|d| d.case), Some(Case::Compile(vec![])));
    }

    #[test]
    fn finds_a_table_wrongly_taken_for_sound() {
        let (_, difference) = compare(&Library { is_sound: Some(|_| true), ..itself() }, 60, 7);
        let difference = difference.expect("a table is not sound");
        assert!(matches!(difference.case, Case::Sound(_)) && difference.here.starts_with("unsound: "), "{difference}");
    }

    #[test]
    fn finds_a_damaged_table_that_is_answered() {
        // Says of a number that it is not declared where the table is not sound.
        fn slipped(table: &[u8], question: &Question) -> String {
            question_line(table, question).unwrap().replace("refused 11", "refused 12")
        }
        let (_, difference) = compare(&Library { answer: Some(slipped), ..itself() }, 60, 7);
        let difference = difference.expect("a table is not sound");
        assert!(matches!(difference.case, Case::Damaged(..)) && difference.here == "refused 11", "{difference}");
    }

    #[test]
    fn finds_and_shrinks_a_slip_of_the_answers() {
        // Counts one constraint too many.
        fn slipped(table: &[u8], question: &Question) -> String {
            let line = question_line(table, question).unwrap();
            if question[0] == 1 { line.replace("consulted 1", "consulted 2") } else { line }
        }
        let (_, difference) = compare(&Library { answer: Some(slipped), ..itself() }, 60, 7);
        let Some(Case::Question(text, question) | Case::Older(text, question)) = difference.map(|d| d.case) else {
            panic!("an answer differs")
        };
        assert_eq!(question[0], 1);
        assert!(statements(&text).len() <= 12, "{}", String::from_utf8_lossy(&text));
    }

    /// Document 02, W-205: slips of the question of relabelling.
    #[test]
    fn finds_slips_of_the_relabelling() {
        let slips: [fn(&[u8], &Question) -> String; 4] = [
            // Denial 5 as 2.
            |table, question| question_line(table, question).unwrap().replace("denied 5", "denied 2"),
            // The place among those of the class.
            |table, question| {
                let line = question_line(table, question).unwrap();
                let words: Vec<&str> = line.split(' ').collect();
                match words.as_slice() {
                    ["denied", "6", _, _, _, consulted] => {
                        format!("denied 6 constraint {} consulted {consulted}", consulted.parse::<usize>().unwrap() - 1)
                    }
                    _ => line,
                }
            },
            // Side 3 read from the old context.
            |table, question| {
                let mut other = *question;
                if question[0] == 5 && question_line(table, question).unwrap().contains("consulted 1") {
                    other.copy_within(2..5, 8);
                }
                question_line(table, &other).unwrap()
            },
            // Edition 1 refused.
            |table, question| {
                let refused = question[0] == 5 && table[0] == 1;
                if refused { "refused 11".to_string() } else { question_line(table, question).unwrap() }
            },
        ];
        for (number, slipped) in slips.into_iter().enumerate() {
            let (_, difference) = compare(&Library { answer: Some(slipped), ..itself() }, 60, 7);
            let Some(Case::Question(_, question) | Case::Older(_, question) | Case::Damaged(_, question)) =
                difference.map(|d| d.case)
            else {
                panic!("an answer differs: slip {number}")
            };
            assert_eq!(question[0], 5, "slip {number}");
        }
    }
}
