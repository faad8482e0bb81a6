//! Corpora for the other program, and the lines expected for them.
//!
//! All numbers are little endian. Each layer has its own form of a case:
//! * scan: u32 length, text.
//! * compile: u32 length of the lent memory, u32 length of the text, text. Byte i of the memory holds (i*7+3) mod 256.
//! * sound: u32 length, table.
//! * questions: u32 length, table, u32 count, and for each question nine u64: its kind and eight arguments. Kind 5, the question
//!   of relabelling (document 02, W-205), has eleven: 5, the class, then user, role and type of the old context, of the new one
//!   and of the process. Its answer has the words of a change: `denied 6 constraint N consulted M`, where N is the number of the
//!   validatetrans that fails. Each question has two lines of the same content: the other program asks it of the bytes, and of
//!   a table that it tested once.
//! * tries: u32 length, section 1 of the table of an accepted text, u32 count, and for each try (document 02, W-204) u32 number
//!   of the family (0 users, 1 roles, 2 types, 3 classes, 4 + c the permissions of class c), u32 length, name. The name may
//!   be any bytes. Each try has two lines of the same content: `chains found SORT NUMBER compared COUNT` or `chains missing
//!   compared COUNT` for a lookup that follows the entries of the family and length alone, and `section` with the same words
//!   for one that walks all entries of the section. Both are the same try, so they must find and count the same.
//!
//! What is expected for a refused text, at scan and compile, is worded as on the printed roll: `refused 5 at 8 line 1`
//! (document 02, W-202). At compile the checksum of the memory follows.

use crate::generator::asked::{self, in_blocks, objects, Asked};
use crate::generator::cases::cases;
use crate::generator::damage::{damage, damage_bytes, damage_dots, damage_sides};
use crate::generator::layout::{lay_out, Gaps};
use crate::generator::policies::{policy, Shape};
use crate::generator::questions::{ask, of, undeclared, written_length, Question};
use crate::generator::tries::{self, Share, TryCase};
use crate::generator::{maxima, relabels, scans, tables};
use crate::lexer::scan;
use crate::lookup::{try_at, Among, NameEntry};
use crate::questions::{
    change, entry, name_of, new_role, relabel, valid_context, Change, ChangeAnswer, Context, PartAnswer, Relabel, RoleAnswer,
    ValidAnswer,
};
use crate::random::Random;
use crate::sound::{decode, is_sound, section_names};
use crate::table::{compile, table_of, Outcome};

#[derive(Clone, Copy, Debug, PartialEq, Eq)]
pub enum Layer {
    Scan,
    Compile,
    Sound,
    Questions,
    Tries,
}

impl Layer {
    pub fn of(name: &str) -> Option<Layer> {
        match name {
            "scan" => Some(Layer::Scan),
            "compile" => Some(Layer::Compile),
            "sound" => Some(Layer::Sound),
            "questions" => Some(Layer::Questions),
            "tries" => Some(Layer::Tries),
            _ => None,
        }
    }
}

/// The most memory that a compile case lends.
pub const MOST_LENT: usize = 262_144;

pub fn write(layer: Layer, seed: u64) -> Vec<u8> {
    let mut random = Random::new(seed);
    let mut corpus = Vec::new();
    match layer {
        Layer::Scan => {
            for text in scan_texts(&mut random) {
                put_bytes(&mut corpus, &text);
            }
        }
        Layer::Compile => {
            for (lent, text) in compile_cases(&mut random) {
                put_length(&mut corpus, lent);
                put_bytes(&mut corpus, &text);
            }
        }
        Layer::Sound => {
            for table in sound_tables(&mut random) {
                put_bytes(&mut corpus, &table);
            }
        }
        Layer::Questions => {
            for (table, questions) in question_cases(&mut random) {
                put_bytes(&mut corpus, &table);
                put_length(&mut corpus, questions.len());
                for question in &questions {
                    for number in &question[..written_length(question[0])] {
                        corpus.extend(number.to_le_bytes());
                    }
                }
            }
        }
        Layer::Tries => {
            for case in try_cases(&mut random) {
                put_bytes(&mut corpus, &case.section);
                put_length(&mut corpus, case.tries.len());
                for (family, name) in &case.tries {
                    corpus.extend(family.to_le_bytes());
                    put_bytes(&mut corpus, name);
                }
            }
        }
    }
    corpus
}

fn put_length(corpus: &mut Vec<u8>, length: usize) {
    corpus.extend((length as u32).to_le_bytes());
}

fn put_bytes(corpus: &mut Vec<u8>, bytes: &[u8]) {
    put_length(corpus, bytes.len());
    corpus.extend(bytes);
}

/// A random policy as text, with plain or varied gaps.
pub fn policy_text(random: &mut Random, shape: Shape) -> Vec<u8> {
    let statements = policy(random, shape);
    let gaps = if random.chance(40) { Gaps::Varied } else { Gaps::Least };
    lay_out(random, &statements, gaps)
}

fn scan_texts(random: &mut Random) -> Vec<Vec<u8>> {
    let mut list: Vec<Vec<u8>> = cases().into_iter().map(|case| case.text).collect();
    list.extend(scans::every_byte());
    list.extend(scans::levels());
    list.extend(scans::long_names());
    list.extend(scans::dots());
    list.extend(scans::long_texts());
    for round in 0..2_400 {
        let tokens = random.between(1, 40);
        list.push(scans::soup(random, tokens, round % 3 > 0));
    }
    for _ in 0..400 {
        list.push(scans::noise(random));
    }
    for round in 0..360 {
        let steps = random.between(0, 20);
        let text = policy_text(random, Shape { blocks: round % 2 == 0, ..Shape::small(steps) });
        list.push(match round % 3 {
            0 => text,
            1 => damage_bytes(random, &text),
            _ => damage_dots(random, &text),
        });
    }
    list
}

/// Memory for a text: at, just below or above what its table needs; for a refused text any small length.
fn lend(random: &mut Random, text: &[u8]) -> usize {
    match table_of(text) {
        Err(_) => random.below(200),
        Ok(table) => match random.below(12) {
            0 => table.len() - 1,
            1 => random.below(table.len()),
            2..=5 => table.len(),
            6 => table.len() + 1,
            _ => table.len() + random.below(60),
        },
    }
}

/// The shapes that make some fault likely, and good ones.
fn some_shape(random: &mut Random, round: usize) -> Shape {
    let shape = Shape { blocks: random.chance(40), relabels: random.chance(50), ..Shape::small(random.between(3, 20)) };
    match round % 10 {
        0 => Shape { cycles: true, ..shape },
        1 | 2 => Shape { clashes: true, ..shape },
        3 => Shape { deep: true, ..shape },
        4 => Shape { crowded: true, ..shape },
        5 => Shape { small: false, ..shape },
        _ => shape,
    }
}

fn compile_cases(random: &mut Random) -> Vec<(usize, Vec<u8>)> {
    let mut list = listed_compile_cases();
    list.extend(compile_cases_at_maxima(random));
    for _ in 0..2 {
        for case in cases() {
            let text = in_a_setting(random, &case.text);
            list.push((lend(random, &text), text));
        }
    }
    for round in 0..400 {
        let shape = some_shape(random, round);
        let text = policy_text(random, shape);
        list.push((lend(random, &text), text));
    }
    for round in 0..600 {
        let shape = some_shape(random, round);
        let mut text = policy_text(random, shape);
        for _ in 0..random.between(1, 2) {
            text = damage(random, &text);
        }
        list.push((lend(random, &text), text));
    }
    // Document 02, W-205: sides of constrain and validatetrans mixed up.
    for round in 0..200 {
        let shape = Shape { relabels: true, blocks: round % 3 == 0, ..Shape::small(random.between(6, 24)) };
        let text = policy_text(random, shape);
        let text = damage_sides(random, &text);
        list.push((lend(random, &text), text));
    }
    list
}

/// Every listed case: a refused one with some memory, an accepted one with just enough, one byte less, and some more.
fn listed_compile_cases() -> Vec<(usize, Vec<u8>)> {
    let mut list = Vec::new();
    for case in cases() {
        match table_of(&case.text) {
            Err(_) => list.push((96, case.text)),
            Ok(table) => {
                for lent in [table.len(), table.len() - 1, table.len() + 9, 0] {
                    list.push((lent, case.text.clone()));
                }
            }
        }
    }
    list
}

/// A case with unrelated statements and varied gaps around it, so that places and numbers move.
fn in_a_setting(random: &mut Random, text: &[u8]) -> Vec<u8> {
    let before: &[&str] = &["", "\n", "(type zz1)", "(user zz2)\n", "(class zz3(a b))", ";)!\n", "(typeattribute zz4) "];
    let after: &[&str] = &["", " ", "\n; end", "(type zz5)", "(class zz6 (zz7 all))", "(user zz8)(user zz8)", ")"];
    let around = [random.pick(before).as_bytes(), text, random.pick(after).as_bytes()].concat();
    // Document 02, W-203: within a block all is judged as before, but for leading dots, levels and lengths.
    if random.chance(25) { [b"(block zz9\n", around.as_slice(), b"\n)"].concat() } else { around }
}

fn compile_cases_at_maxima(random: &mut Random) -> Vec<(usize, Vec<u8>)> {
    let mut list = Vec::new();
    for bound in maxima::bounds() {
        // One pair of the longest texts is enough.
        if bound.name != "text of a comment" {
            list.push((lend(random, &bound.at), bound.at));
            list.push((lend(random, &bound.past), bound.past));
        }
    }
    for (_, text, _) in maxima::orders() {
        list.push((lend(random, &text), text));
    }
    list.extend(maxima::most_blocks().into_iter().map(|(_, text, _)| (96, text)));
    for lent in [65_536, MOST_LENT] {
        list.push((lent, maxima::longest_full_names()));
    }
    list.push((65_536, maxima::everything()));
    list.push((65_536, maxima::wide()));
    list.push((MOST_LENT, maxima::wide()));
    list.extend(maxima::permission_rows().into_iter().map(|(_, text, _)| (65_536, text)));
    list.extend(maxima::most_lines().into_iter().map(|(_, text, _)| (96, text)));
    list
}

fn base_tables() -> Vec<Vec<u8>> {
    tables::BASES.iter().map(|text| table_of(text.as_bytes()).expect("a base is accepted")).collect()
}

fn sound_tables(random: &mut Random) -> Vec<Vec<u8>> {
    let bases = base_tables();
    let older: Vec<Vec<u8>> = bases.iter().map(|base| tables::in_edition_1(base)).collect();
    let empty = table_of(b"").expect("P1");
    let mut list = vec![Vec::new(), vec![0; 68], vec![0; 84], tables::in_edition_1(&empty), empty];
    list.extend(bases.clone());
    list.extend(older.clone());
    for (_, way) in tables::ways() {
        for base in &bases {
            list.extend((0..2).filter_map(|_| tables::apply(way, base, random)));
        }
        let base: &Vec<u8> = random.pick(&older);
        list.extend(tables::apply(way, base, random));
    }
    for (_, at, past) in tables::bounds() {
        list.extend([at, past]);
    }
    list.extend(tables::odd_and_sound().into_iter().map(|(_, table)| table));
    for round in 0..300 {
        list.push(tables::flip(random, &bases[round % bases.len()]));
    }
    for round in 0..60 {
        let steps = random.between(3, 24);
        let shape = Shape { blocks: round % 2 == 0, relabels: round % 3 > 0, ..Shape::small(steps) };
        let table = table_of(&policy_text(random, shape)).expect("a good policy");
        list.push(tables::with_bytes_behind(random, &table));
        list.push(tables::flip(random, &table));
        // Document 02, W-205: some without sections 9 and 10.
        if round % 3 == 0 {
            let older = tables::in_edition_1(&table);
            list.push(tables::flip(random, &older));
            list.push(tables::damaged(random, &older));
            list.push(older);
        }
        list.push(table);
    }
    list.extend(relabels::tables().into_iter().map(|listed| listed.bytes));
    let everything = table_of(&maxima::everything()).expect("a policy at every maximum");
    list.push(tables::in_edition_1(&everything));
    list.push(everything);
    list
}

fn question_cases(random: &mut Random) -> Vec<(Vec<u8>, Vec<Question>)> {
    let bases = base_tables();
    let mut list = Vec::new();
    let mut good: Vec<(Vec<u8>, usize)> = bases.iter().map(|base| (base.clone(), 60)).collect();
    for round in 0..50 {
        let steps = random.between(20, 60);
        let shape = Shape { small: round % 2 == 0, blocks: round % 3 == 0, relabels: round % 5 < 2, ..Shape::good(steps) };
        let table = table_of(&policy_text(random, shape)).expect("a good policy");
        good.push((table, 50));
    }
    good.push((table_of(&maxima::everything()).expect("a policy at every maximum"), 300));
    good.push((table_of(b"").expect("P1"), 10));
    good.extend(tables::odd_and_sound().into_iter().take(4).map(|(_, table)| (table, 20)));
    for (table, count) in good {
        let decoded = decode(&table).expect("sound");
        let questions = (0..count).map(|_| ask(random, &decoded)).collect();
        let behind = random.chance(50);
        list.push((if behind { tables::with_bytes_behind(random, &table) } else { table }, questions));
    }
    for (place, (_, way)) in tables::ways().into_iter().enumerate() {
        if let Some(table) = tables::apply(way, &bases[place % 3], random) {
            list.push((table, unsound_questions(random, place)));
        }
    }
    list.extend(in_blocks().into_iter().map(listed_questions));
    list.extend(object_cases(random));
    list.extend(relabel_cases(random));
    list
}

/// Document 02, W-205: the listed questions, and random ones on random policies with validatetrans, each on the table of the
/// text, and some on that table in edition 1.
fn relabel_cases(random: &mut Random) -> Vec<(Vec<u8>, Vec<Question>)> {
    let mut list: Vec<(Vec<u8>, Vec<Question>)> = asked::relabels().into_iter().map(listed_questions).collect();
    let listed = list.len();
    for round in 0..16 {
        let steps = random.between(20, 60);
        let shape = Shape {
            relabels: true,
            objects: round % 5 == 0,
            small: round % 2 == 0,
            blocks: round % 3 == 0,
            ..Shape::good(steps)
        };
        let table = table_of(&policy_text(random, shape)).expect("a good policy");
        let decoded = decode(&table).expect("sound");
        let questions = (0..50).map(|_| ask(random, &decoded)).collect();
        list.push((table, questions));
    }
    let older = |(table, questions): &(Vec<u8>, Vec<Question>)| (tables::in_edition_1(table), questions.clone());
    let asked_again = list[..listed].iter().chain(list[listed..].iter().step_by(2));
    let in_edition_1: Vec<(Vec<u8>, Vec<Question>)> = asked_again.map(older).collect();
    list.extend(in_edition_1);
    list
}

fn listed_questions(asked: Asked) -> (Vec<u8>, Vec<Question>) {
    (table_of(asked.text.as_bytes()).expect("an accepted text"), asked.questions)
}

/// Document 02, W-201: the listed questions on `object_r`, and random ones on random policies that have it, some of them as
/// the name of a block or within one.
fn object_cases(random: &mut Random) -> Vec<(Vec<u8>, Vec<Question>)> {
    let mut list: Vec<(Vec<u8>, Vec<Question>)> = objects().into_iter().map(listed_questions).collect();
    for round in 0..16 {
        let steps = random.between(15, 40);
        let shape = Shape { objects: true, small: round % 2 == 0, blocks: round % 4 > 1, ..Shape::good(steps) };
        let table = table_of(&policy_text(random, shape)).expect("a good policy");
        let decoded = decode(&table).expect("sound");
        let questions = (0..40).map(|_| ask(random, &decoded)).collect();
        list.push((table, questions));
    }
    list
}

/// Questions on a table that is not sound: 11 comes before 12.
fn unsound_questions(random: &mut Random, place: usize) -> Vec<Question> {
    let far = undeclared(random, 3);
    vec![of([place as u64 % 6]), of([(place as u64 + 1) % 6, far, far, 0, 0, far, 0, far])]
}

/// Document 02, W-204: listed texts, texts at the maxima, and random policies that are accepted.
pub fn try_cases(random: &mut Random) -> Vec<TryCase> {
    let mut list = tries::listed(random);
    for round in 0..60 {
        let steps = random.between(10, 60);
        let shape = Shape {
            small: round % 3 == 0,
            objects: round % 5 == 0,
            crowded: round % 15 == 1,
            blocks: round % 4 == 0,
            relabels: round % 6 == 0,
            ..Shape::good(steps)
        };
        let text = policy_text(random, shape);
        list.extend(tries::case(random, &text, &[], Share::SOME));
    }
    list
}

/// Reads a corpus piece by piece.
struct Reader<'a> {
    rest: &'a [u8],
}

impl<'a> Reader<'a> {
    fn take(&mut self, length: usize) -> Result<&'a [u8], String> {
        if self.rest.len() < length {
            return Err(format!("the corpus ends within a case: {length} bytes asked, {} left", self.rest.len()));
        }
        let (taken, rest) = self.rest.split_at(length);
        self.rest = rest;
        Ok(taken)
    }

    fn length(&mut self) -> Result<usize, String> {
        let bytes = self.take(4)?;
        Ok(u32::from_le_bytes(bytes.try_into().unwrap()) as usize)
    }

    fn bytes(&mut self) -> Result<&'a [u8], String> {
        let length = self.length()?;
        self.take(length)
    }

    fn number(&mut self) -> Result<u64, String> {
        let bytes = self.take(8)?;
        Ok(u64::from_le_bytes(bytes.try_into().unwrap()))
    }
}

/// The expected lines of a corpus.
pub fn answer(layer: Layer, corpus: &[u8]) -> Result<Vec<String>, String> {
    let mut reader = Reader { rest: corpus };
    let mut lines = Vec::new();
    while !reader.rest.is_empty() {
        match layer {
            Layer::Scan => lines.push(scan_line(reader.bytes()?)),
            Layer::Compile => {
                let lent = reader.length()?;
                if lent > MOST_LENT {
                    return Err(format!("a case lends {lent} bytes"));
                }
                lines.push(compile_line(lent, reader.bytes()?));
            }
            Layer::Sound => lines.push(sound_line(reader.bytes()?)),
            Layer::Questions => {
                let table = reader.bytes()?;
                for _ in 0..reader.length()? {
                    let mut question: Question = of([reader.number()?]);
                    for place in 1..written_length(question[0]) {
                        question[place] = reader.number()?;
                    }
                    let line = question_line(table, &question)?;
                    lines.extend([line.clone(), line]);
                }
            }
            Layer::Tries => {
                let (names, _) = section_names(reader.bytes()?)?;
                for _ in 0..reader.length()? {
                    let family = reader.length()? as u32;
                    lines.extend(try_lines(&names, family, reader.bytes()?));
                }
            }
        }
    }
    Ok(lines)
}

pub fn scan_line(text: &[u8]) -> String {
    match scan(text) {
        Ok(_) => "clean".to_string(),
        Err(fault) => fault.to_string(),
    }
}

/// What the lent memory holds beforehand.
pub fn fill(lent: usize) -> Vec<u8> {
    (0..lent).map(|i| ((i * 7 + 3) % 256) as u8).collect()
}

pub fn compile_line(lent: usize, text: &[u8]) -> String {
    let mut memory = fill(lent);
    let outcome = compile(text, &mut memory);
    let checksum = adler32(&memory);
    match outcome {
        Outcome::Accepted(length) => format!("accepted {length} {checksum}"),
        Outcome::Refused(fault) => format!("{fault} {checksum}"),
    }
}

/// Adler-32: two sums modulo 65,521, the second of the first.
pub fn adler32(bytes: &[u8]) -> u32 {
    let (mut a, mut b) = (1u32, 0u32);
    for &byte in bytes {
        a = (a + byte as u32) % 65_521;
        b = (b + a) % 65_521;
    }
    b << 16 | a
}

pub fn sound_line(table: &[u8]) -> String {
    if is_sound(table) { "sound" } else { "unsound" }.to_string()
}

pub fn question_line(table: &[u8], question: &Question) -> Result<String, String> {
    let [kind, a, b, c, d, e, f, g, h, i, j] = *question;
    match kind {
        0 => Ok(valid_line(valid_context(table, &Context { user: a, role: b, kind: c }))),
        1 => {
            let source = Context { user: a, role: b, kind: c };
            let target = Context { user: d, role: e, kind: f };
            Ok(change_line(change(table, &Change { source, target, class: g, permission: h })))
        }
        2 => Ok(role_line(new_role(table, a, b, c))),
        3 => Ok(part_line(name_of(table, a, b))),
        4 => Ok(part_line(entry(table, a, b))),
        5 => {
            let old = Context { user: b, role: c, kind: d };
            let new = Context { user: e, role: f, kind: g };
            let process = Context { user: h, role: i, kind: j };
            Ok(change_line(relabel(table, &Relabel { class: a, old, new, process })))
        }
        _ => Err(format!("no question of kind {kind}")),
    }
}

/// Reading 61 of document 02: one try, whichever way its entries are reached.
pub fn try_lines(names: &[NameEntry], family: u32, name: &[u8]) -> [String; 2] {
    let tried = try_at(names, Among::of(family), name);
    let said = match tried.found {
        Some((sort, number)) => format!("found {sort} {number} compared {}", tried.compared),
        None => format!("missing compared {}", tried.compared),
    };
    [format!("chains {said}"), format!("section {said}")]
}

fn valid_line(answer: ValidAnswer) -> String {
    match answer {
        ValidAnswer::Valid => "valid".to_string(),
        ValidAnswer::NotValid => "not valid".to_string(),
        ValidAnswer::Refused(number) => format!("refused {number}"),
    }
}

fn change_line(answer: ChangeAnswer) -> String {
    match answer {
        ChangeAnswer::Granted { consulted } => format!("granted consulted {consulted}"),
        ChangeAnswer::Denied { number, constraint, consulted } => {
            format!("denied {number} constraint {constraint} consulted {consulted}")
        }
        ChangeAnswer::Refused(number) => format!("refused {number}"),
    }
}

fn role_line(answer: RoleAnswer) -> String {
    match answer {
        RoleAnswer::Role(role) => format!("role {role}"),
        RoleAnswer::Refused(number) => format!("refused {number}"),
    }
}

fn part_line(answer: PartAnswer) -> String {
    match answer {
        PartAnswer::Part { start, length } => format!("part {start} {length}"),
        PartAnswer::Refused(number) => format!("refused {number}"),
    }
}
