//! The library of the other program, as the crates `comparison` (the scan) and `tegzhumbi_c` (all else) export it. Its numbers are turned
//! into this program's answers here; numbers that mean none of them stay as they are, so that they differ from every answer.

use crate::compare::Library;
use crate::fault::Fault;
use crate::generator::questions::Question;
use crate::table::Outcome;

/// A fault by its number and place; both are 0 where there is none. It has no line, so the line is counted here from the place.
#[repr(C)]
struct Numbers {
    number: u64,
    place: u64,
}

/// Number 0, the table's length and line 0; or a refusal's number, place and line.
#[repr(C)]
struct Compiled {
    number: u32,
    place: u32,
    line: u32,
}

#[repr(C)]
struct Answer {
    outcome: u32,
    number: u32,
    constraint: u32,
    consulted: u32,
}

/// Number 0 and a part of the table; or a refusal's number.
#[repr(C)]
struct Part {
    number: u32,
    start: u32,
    length: u32,
}

/// How many numbers the summary of a table has, which the library makes when it tests a table.
const SUMMARY_NUMBERS: usize = 43;

#[link(name = "comparison", kind = "static")]
extern "C" {
    fn tegzhumbi_scan(text: *const u8, length: usize) -> Numbers;
}

#[link(name = "tegzhumbi_c", kind = "static")]
extern "C" {
    fn tegzhumbi_compile(text: *const u8, text_length: usize, table: *mut u8, table_length: usize) -> Compiled;
    fn tegzhumbi_sound(table: *const u8, length: usize) -> u32;
    fn tegzhumbi_valid(table: *const u8, length: usize, user: u64, role: u64, kind: u64) -> Answer;
    fn tegzhumbi_change(
        table: *const u8, length: usize, source_user: u64, source_role: u64, source_type: u64, target_user: u64, target_role: u64,
        target_type: u64, class: u64, permission: u64,
    ) -> Answer;
    fn tegzhumbi_relabel(
        table: *const u8, length: usize, class: u64, old_user: u64, old_role: u64, old_type: u64, new_user: u64, new_role: u64,
        new_type: u64, process_user: u64, process_role: u64, process_type: u64,
    ) -> Answer;
    fn tegzhumbi_new_role(table: *const u8, length: usize, role: u64, kind: u64, class: u64) -> Answer;
    fn tegzhumbi_name(table: *const u8, length: usize, sort: u64, number: u64) -> Part;
    fn tegzhumbi_entry(table: *const u8, length: usize, body: u64, place: u64) -> Part;
    fn tegzhumbi_summarize(table: *const u8, length: usize, summary: &mut [u32; SUMMARY_NUMBERS]) -> u32;
    fn tegzhumbi_sound_valid(
        table: *const u8, length: usize, summary: &[u32; SUMMARY_NUMBERS], user: u64, role: u64, kind: u64,
    ) -> Answer;
    fn tegzhumbi_sound_change(
        table: *const u8, length: usize, summary: &[u32; SUMMARY_NUMBERS], source_user: u64, source_role: u64, source_type: u64,
        target_user: u64, target_role: u64, target_type: u64, class: u64, permission: u64,
    ) -> Answer;
    fn tegzhumbi_sound_relabel(
        table: *const u8, length: usize, summary: &[u32; SUMMARY_NUMBERS], class: u64, old_user: u64, old_role: u64, old_type: u64,
        new_user: u64, new_role: u64, new_type: u64, process_user: u64, process_role: u64, process_type: u64,
    ) -> Answer;
    fn tegzhumbi_sound_new_role(
        table: *const u8, length: usize, summary: &[u32; SUMMARY_NUMBERS], role: u64, kind: u64, class: u64,
    ) -> Answer;
    fn tegzhumbi_sound_name(table: *const u8, length: usize, sort: u64, number: u64) -> Part;
    fn tegzhumbi_sound_entry(table: *const u8, length: usize, body: u64, place: u64) -> Part;
}

// Each function reads, and `tegzhumbi_compile` writes, within the pointer and length of one slice, keeps nothing, and accepts all bytes
// and numbers.

fn scan(text: &[u8]) -> Option<Fault> {
    let found = unsafe { tegzhumbi_scan(text.as_ptr(), text.len()) };
    (found.number > 0).then(|| Fault::new(found.number as u8, found.place as usize).in_text(text))
}

fn compile(text: &[u8], lent: &mut [u8]) -> Outcome {
    let compiled = unsafe { tegzhumbi_compile(text.as_ptr(), text.len(), lent.as_mut_ptr(), lent.len()) };
    match [compiled.number, compiled.place, compiled.line] {
        [0, length, 0] => Outcome::Accepted(length as usize),
        // An acceptance with a line becomes a refusal 0, which is no answer of this program.
        [number, place, line] => {
            Outcome::Refused(Fault { number: number as u8, place: place as usize, line: line as usize })
        }
    }
}

fn is_sound(table: &[u8]) -> bool {
    match unsafe { tegzhumbi_sound(table.as_ptr(), table.len()) } {
        0 => false,
        1 => true,
        other => panic!("tegzhumbi_sound says {other}"),
    }
}

/// The answer in both ways in which the library is asked: of any bytes, and of a table that was tested once. Two answers that
/// differ become one line that no question has.
fn answer(table: &[u8], question: &Question) -> String {
    let (of_bytes, of_tested) = (answer_of_bytes(table, question), answer_of_tested(table, question));
    if of_bytes == of_tested {
        return of_bytes;
    }
    format!("{of_bytes}, but of the table tested once: {of_tested}")
}

/// The answer with the table's summary. Bytes that are no sound table have none; they are asked nevertheless, with the numbers
/// that stood there before, since such a question ends too, and its answer means nothing.
fn answer_of_tested(table: &[u8], question: &Question) -> String {
    let mut summary = [7; SUMMARY_NUMBERS];
    let sound = unsafe { tegzhumbi_summarize(table.as_ptr(), table.len(), &mut summary) };
    let line = answer_by_summary(table, &summary, question);
    match sound {
        0 if summary != [7; SUMMARY_NUMBERS] => "the summary of no sound table".to_string(),
        0 => "refused 11".to_string(),
        _ => line,
    }
}

fn answer_by_summary(table: &[u8], summary: &[u32; SUMMARY_NUMBERS], question: &Question) -> String {
    let [kind, a, b, c, d, e, f, g, h, i, j] = *question;
    let (bytes, length) = (table.as_ptr(), table.len());
    unsafe {
        match kind {
            0 => valid_line(tegzhumbi_sound_valid(bytes, length, summary, a, b, c)),
            1 => change_line(tegzhumbi_sound_change(bytes, length, summary, a, b, c, d, e, f, g, h)),
            2 => role_line(tegzhumbi_sound_new_role(bytes, length, summary, a, b, c)),
            3 => part_line(tegzhumbi_sound_name(bytes, length, a, b)),
            4 => part_line(tegzhumbi_sound_entry(bytes, length, a, b)),
            5 => change_line(tegzhumbi_sound_relabel(bytes, length, summary, a, b, c, d, e, f, g, h, i, j)),
            _ => panic!("no question of kind {kind}"),
        }
    }
}

fn answer_of_bytes(table: &[u8], question: &Question) -> String {
    let [kind, a, b, c, d, e, f, g, h, i, j] = *question;
    let (bytes, length) = (table.as_ptr(), table.len());
    unsafe {
        match kind {
            0 => valid_line(tegzhumbi_valid(bytes, length, a, b, c)),
            1 => change_line(tegzhumbi_change(bytes, length, a, b, c, d, e, f, g, h)),
            2 => role_line(tegzhumbi_new_role(bytes, length, a, b, c)),
            3 => part_line(tegzhumbi_name(bytes, length, a, b)),
            4 => part_line(tegzhumbi_entry(bytes, length, a, b)),
            5 => change_line(tegzhumbi_relabel(bytes, length, a, b, c, d, e, f, g, h, i, j)),
            _ => panic!("no question of kind {kind}"),
        }
    }
}

fn numbers(answer: Answer) -> [u32; 4] {
    [answer.outcome, answer.number, answer.constraint, answer.consulted]
}

fn valid_line(answer: Answer) -> String {
    match numbers(answer) {
        [0, 0, 0, 0] => "valid".to_string(),
        [1, 0, 0, 0] => "not valid".to_string(),
        [2, number, 0, 0] => format!("refused {number}"),
        other => format!("{other:?}"),
    }
}

fn change_line(answer: Answer) -> String {
    match numbers(answer) {
        [0, 0, 0, consulted] => format!("granted consulted {consulted}"),
        [1, number, constraint, consulted] => format!("denied {number} constraint {constraint} consulted {consulted}"),
        [2, number, 0, 0] => format!("refused {number}"),
        other => format!("{other:?}"),
    }
}

fn role_line(answer: Answer) -> String {
    match numbers(answer) {
        [0, role, 0, 0] => format!("role {role}"),
        [2, number, 0, 0] => format!("refused {number}"),
        other => format!("{other:?}"),
    }
}

fn part_line(part: Part) -> String {
    match [part.number, part.start, part.length] {
        [0, start, length] => format!("part {start} {length}"),
        [number, 0, 0] => format!("refused {number}"),
        other => format!("{other:?}"),
    }
}

pub fn library() -> Library {
    Library { scan: Some(scan), compile: Some(compile), is_sound: Some(is_sound), answer: Some(answer) }
}
