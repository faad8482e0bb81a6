//! Document 02, W-205, by hand: the statement, edition 2 with its two sections, and the question of relabelling (readings 5 to 8
//! and 63 to 76). Reading 75 is in `demands`.

mod common;

use common::{contents, context, meant, question, refused, table};
use reference::corpus::question_line;
use reference::generator::asked::relabels;
use reference::generator::cases::cases;
use reference::generator::relabels::{longer, small_older_table, small_table, tables};
use reference::generator::tables::{in_edition_1, largest};
use reference::limits;
use reference::questions::{change, entry, relabel, valid_context, ChangeAnswer, PartAnswer, Relabel, ValidAnswer};
use reference::roll::roll;
use reference::sound::{decode, is_sound};
use reference::table::{table_of, Row, ValidationRecord};

const SMALL: &str = "(class c (p))(user u)(validatetrans c (eq u3 u))";

/// Three users, each in one role of one type: (0,0,0), (1,1,1), (2,2,2) are valid.
const THREE: &str = "(user u)(user v)(user w)(role a)(role b)(role c)(type r)(type s)(type t)(userrole u a)(userrole v b)\
                     (userrole w c)(roletype a r)(roletype b s)(roletype c t)(class file (read))(class d (p))";
const OLD: [u64; 3] = [0, 0, 0];
const NEW: [u64; 3] = [1, 1, 1];
const PROCESS: [u64; 3] = [2, 2, 2];
const BAD: [u64; 3] = [0, 1, 0];

fn of([user, role, kind]: [u64; 3]) -> reference::questions::Context<u64> {
    context(user, role, kind)
}

fn ask(table: &[u8], class: u64, old: [u64; 3], new: [u64; 3], process: [u64; 3]) -> ChangeAnswer {
    relabel(table, &Relabel { class, old: of(old), new: of(new), process: of(process) })
}

fn denied(number: u8, constraint: usize, consulted: usize) -> ChangeAnswer {
    ChangeAnswer::Denied { number, constraint, consulted }
}

fn granted(consulted: usize) -> ChangeAnswer {
    ChangeAnswer::Granted { consulted }
}

fn four(table: &[u8], at: usize) -> u32 {
    u32::from_le_bytes(table[at..at + 4].try_into().unwrap())
}

/// A question or text of its own for each reading; 66 is at the maxima too (`generator/maxima`).
#[test]
fn every_reading_has_a_listed_case() {
    let mut rules: Vec<String> = cases().into_iter().map(|case| case.rule).collect();
    rules.extend(tables().iter().map(|listed| listed.rule.to_string()));
    rules.extend(relabels().iter().map(|asked| asked.rule.to_string()));
    rules.extend(longer().iter().map(|listed| listed.rule.to_string()));
    for reading in 63..=76 {
        let named = |rule: &str| rule.split(|c: char| !c.is_ascii_digit()).any(|word| word == reading.to_string());
        let listed = rules.iter().filter(|rule| rule.starts_with("W-205, reading") && named(rule)).count();
        assert!(listed >= 1, "reading {reading}");
    }
}

#[test]
fn reading_63_the_form() {
    assert_eq!(contents("(class c(p))(validatetrans c(eq u1 u2))").validations.len(), 1);
    for form in ["(c) (eq u1 u2)", "(c (p)) (eq u1 u2)", "c (eq u1 u2) (eq u1 u2)", "c", "c p (eq u1 u2)", "c eq", ""] {
        assert_eq!(refused(&format!("(class c (p))\n(validatetrans {form})")), (3, 14, 2), "{form}");
    }
    assert_eq!(refused("(class c (p))(mlsvalidatetrans c (eq u1 u2))"), (3, 13, 1));
}

#[test]
fn reading_64_side_3_only_beside_a_name_and_only_here() {
    let before = "(class c (p))(user u)(role a)(type t)\n";
    for e in ["(eq u1 u3)", "(eq u3 u3)", "(eq u3 u1)", "(dom r3 a)", "(dom r1 r3)", "(eq t3 t2)", "(not (eq r3 r3))"] {
        assert_eq!(refused(&format!("{before}(validatetrans c {e})")), (3, before.len(), 2), "{e}");
    }
    assert_eq!(refused(&format!("{before}(validatetrans c (eq u3 r))")), (5, before.len(), 2));
    for e in ["(eq u3 u)", "(neq r3 a)", "(eq t3 t)", "(and (eq u3 u) (or (eq r3 a) (not (neq t3 t))))"] {
        assert_eq!(contents(&format!("{before}(validatetrans c {e})")).validations.len(), 1, "{e}");
        assert_eq!(refused(&format!("{before}(constrain (c (p)) {e})")), (3, before.len(), 2), "{e}");
    }
    assert_eq!(refused("(class c (p))(user u)(constrain (c (p)) (eq u3 u))"), (3, 21, 1));
}

#[test]
fn reading_65_the_class() {
    assert_eq!(refused("(class c (p))\n(validatetrans d (eq u1 u2))"), (5, 14, 2));
    assert_eq!(refused("(role c)(validatetrans c (eq u1 u2))"), (5, 8, 1));
    assert_eq!(refused("(block b(class c(p)))(validatetrans c (eq u1 u2))"), (5, 21, 1));
    // In a block the innermost class of that name is meant.
    let inner = "(class c(p))(block b(class c(p))(validatetrans c(eq u1 u2))(validatetrans .c(eq u1 u2)))\
                 (validatetrans b.c(eq t1 t2))";
    let classes: Vec<u16> = contents(inner).validations.iter().map(|record| record.class).collect();
    assert_eq!(classes, [1, 0, 1]);
    // Names in E likewise: the attribute of the block, and the user outside.
    let rows = contents("(class c(p))(user u)(block b(userattribute u)(validatetrans c(eq u3 u))(validatetrans c(eq u3 .u)))");
    let kinds: Vec<u8> = rows.validation_rows.iter().map(|row| row.kind).collect();
    assert_eq!(kinds, [5, 4]);
}

#[test]
fn reading_66_maxima_apart_from_constrain() {
    let constrains = format!("(class c(p)){}", "(constrain(c(p))(eq u1 u2))".repeat(128));
    let full = format!("{constrains}{}", "(validatetrans c(eq u1 u2))".repeat(64));
    assert_eq!(contents(&full).validations.len(), 64);
    assert_eq!(refused(&format!("{full}\n(validatetrans c(eq u1 u2))")), (6, full.len() + 1, 2));
    assert_eq!(refused(&format!("{full}(constrain(c(p))(eq u1 u2))")), (6, full.len(), 1));
    // 64 of 16 rows are 1,024 rows.
    let nots = |rows: usize| format!("(validatetrans c{}(eq u1 u2){})", "(not".repeat(rows - 1), ")".repeat(rows - 1));
    let before = format!("(class c(p)){}", nots(16).repeat(63));
    assert_eq!(contents(&format!("{before}{}", nots(16))).validation_rows.len(), limits::VALIDATETRANS_ROWS);
    assert_eq!(refused(&format!("{before}{}", nots(17))), (6, before.len(), 1));
    let need = |count: usize| format!("{}(eq u1 u2){}", "(or(eq u1 u2)".repeat(count - 1), ")".repeat(count - 1));
    assert_eq!(contents(&format!("(class c(p))(validatetrans c{})", need(5))).validations[0].row_count, 9);
    assert_eq!(refused(&format!("(class c(p))(validatetrans c{})", need(6))), (7, 12, 1));
    assert_eq!(refused(&format!("{full}(validatetrans c{})", need(6))), (6, full.len(), 1));
    assert_eq!(refused(&format!("{full}(validatetrans d{})", need(6))), (5, full.len(), 1));
}

#[test]
fn readings_5_to_7_sizes() {
    let p2 = "(user u)(role a)(role b)(type t)(userrole u a)(roletype a t)";
    assert_eq!((table("").len(), in_edition_1(&table("")).len()), (84, 68));
    assert_eq!((table(p2).len(), in_edition_1(&table(p2)).len()), (280, 264));
    let offsets: Vec<u32> = (0..8).map(|body| four(&in_edition_1(&table(p2)), 4 + body * 8)).collect();
    assert_eq!(offsets, [68, 88, 104, 232, 264, 264, 264, 264]);
    assert!(roll(p2.as_bytes()).starts_with(b"accepted 280 bytes\n"));
}

/// Reading 8: 186,068 bytes; names 2,016 x 68, the sets and records at their maxima, head 84.
#[test]
fn reading_8_the_largest_table() {
    let names = 128 + 128 + 512 + 3 * 64 + 32 + 32 * 32;
    let sets = 128 * 16 + 128 * 64 + 128 * 16 + 64 * 16 + 64 * 16 + 64 * 64;
    let first_eight = names * 68 + sets + 128 * 82 + 128 * 10 + 2_048 * 6;
    assert_eq!(first_eight + 68, 179_652);
    assert_eq!(first_eight + limits::VALIDATETRANS * 4 + limits::VALIDATETRANS_ROWS * 6 + 84, 186_068);
    let table = largest();
    assert_eq!((table.len(), in_edition_1(&table).len()), (186_068, 179_652));
    assert!(is_sound(&table) && is_sound(&in_edition_1(&table)));
    let last = Relabel { class: 31, old: of([127, 127, 511]), new: of([0, 127, 0]), process: of([127, 0, 511]) };
    assert_eq!(relabel(&table, &last), granted(0));
    assert_eq!(entry(&table, 10, 1_023), PartAnswer::Part { start: 186_062, length: 6 });
}

#[test]
fn reading_67_bytes() {
    let table = table(SMALL);
    assert_eq!(table.len(), 125);
    assert_eq!(table[..4], [2, 0, 10, 0]);
    assert_eq!((four(&table, 4 + 8 * 8), four(&table, 8 + 8 * 8)), (115, 4));
    assert_eq!((four(&table, 4 + 8 * 9), four(&table, 8 + 8 * 9)), (119, 6));
    assert_eq!(table[115..119], [0, 0, 1, 0]);
    assert_eq!(table[119..], [4, 6, 0, 0, 0, 0]);
    assert_eq!(table, small_table());
}

/// A table of edition 1 is one of edition 2 without sections 9 and 10: their pairs go, and all offsets fall by 16.
#[test]
fn reading_70_edition_1_made_of_edition_2() {
    let text = "(user u)(role a)(type t)(class c (p))(userrole u a)(roleattribute x)(constrain (c (p)) (eq u1 u))";
    let newest = table(text);
    let mut older = vec![1, 0, 8, 0];
    for body in 0..8 {
        older.extend((four(&newest, 4 + 8 * body) - 16).to_le_bytes());
        older.extend(&newest[8 + 8 * body..12 + 8 * body]);
    }
    older.extend(&newest[84..]);
    assert_eq!(in_edition_1(&newest), older);
    assert!(is_sound(&older));
    assert_eq!(decode(&older).unwrap().contents, decode(&newest).unwrap().contents);
    assert_eq!(in_edition_1(&table("(class c (p))(user u)")), small_older_table());
}

#[test]
fn reading_67_rows_of_several() {
    let all = contents(
        "(user u)(role a)(roleattribute x)(roleattribute y)(type s)(type t)(class c(p))(class d(q))\
         (validatetrans d(or(neq r3 y)(not(eq t3 t))))(constrain(c(p))(eq u1 u2))(validatetrans c(incomp r1 r2))\
         (validatetrans d(and(eq u3 u)(neq t2 s)))",
    );
    let row = |kind, component, operator, number| Row { kind, component, operator, zero: 0, number };
    let expected = [
        row(5, 7, 1, 1),
        row(4, 8, 0, 1),
        row(0, 0, 0, 0),
        row(2, 0, 0, 0),
        row(3, 2, 4, 0),
        row(4, 6, 0, 0),
        row(4, 5, 1, 0),
        row(1, 0, 0, 0),
    ];
    assert_eq!(all.validation_rows, expected);
    let record = |class, row_count| ValidationRecord { class, row_count };
    assert_eq!(all.validations, [record(1, 4), record(0, 1), record(1, 3)]);
    assert_eq!((all.constraints.len(), all.rows.len()), (1, 1));
}

/// Reading 68: bytes 2-3 must fit the edition.
#[test]
fn reading_68_editions() {
    let newest = table(SMALL);
    let older = in_edition_1(&newest);
    assert!(is_sound(&newest) && is_sound(&older));
    assert_eq!((older.len(), &older[..4]), (125 - 16 - 10, &[1, 0, 8, 0][..]));
    for (edition, count) in [(1, 10), (2, 8), (1, 9), (0, 8), (0, 10), (3, 10), (3, 11), (4, 12), (5, 13), (255, 10)] {
        for base in [&newest, &older] {
            let mut changed = base.clone();
            (changed[0], changed[2]) = (edition, count);
            assert!(!is_sound(&changed), "{edition} {count}");
        }
    }
    // The head of the other edition alone does not make its table.
    let mut changed = older.clone();
    (changed[0], changed[2]) = (2, 10);
    assert!(!is_sound(&changed));
    let mut high = newest.clone();
    high[1] = 1;
    assert!(!is_sound(&high));
    high = newest.clone();
    high[3] = 1;
    assert!(!is_sound(&high));
}

/// Reading 69: components 6 to 8 in section 10, kinds 4 and 5, and never in section 7.
#[test]
fn reading_69_soundness_of_sections_9_and_10() {
    let base = table("(user u)(role a)(type t)(class c(p))(constrain(c(p))(eq u1 u))(validatetrans c(eq u3 u))");
    let rows = four(&base, 4 + 8 * 6) as usize;
    let validations = four(&base, 4 + 8 * 8) as usize;
    let validation_rows = four(&base, 4 + 8 * 9) as usize;
    let with = |at: usize, byte: u8| {
        let mut changed = base.clone();
        changed[at] = byte;
        is_sound(&changed)
    };
    for component in 0..=8 {
        assert!(with(validation_rows + 1, component), "{component} in section 10");
        assert_eq!(with(rows + 1, component), component < 6, "{component} in section 7");
    }
    assert!(!with(validation_rows + 1, 9) && !with(validation_rows + 1, 255));
    assert!(!with(validation_rows + 2, 2) && with(validation_rows + 2, 1));
    assert!(!with(validation_rows + 3, 1) && !with(validation_rows + 4, 1));
    assert!(!with(validation_rows, 5) && !with(validation_rows, 3) && !with(validation_rows, 0));
    assert!(!with(validations, 1) && !with(validations + 1, 1));
    assert!(!with(validations + 2, 0) && !with(validations + 2, 2) && !with(validations + 3, 1));
    let pair = table("(class c(p))(validatetrans c(eq r1 r2))");
    let at = four(&pair, 4 + 8 * 9) as usize;
    for component in 0..=9 {
        let mut changed = pair.clone();
        changed[at + 1] = component;
        assert_eq!(is_sound(&changed), [0, 2, 4].contains(&component), "{component}");
    }
}

#[test]
fn reading_70_edition_1_is_read() {
    let text = format!("{THREE}(validatetrans file(neq u3 w))(constrain(file(read))(eq u1 u))");
    let older = in_edition_1(&table(&text));
    assert_eq!(change(&older, &question(OLD, NEW, 0, 0)), granted(1));
    assert_eq!(change(&older, &question(NEW, OLD, 0, 0)), denied(4, 0, 1));
    assert_eq!(valid_context(&older, &of(OLD)), ValidAnswer::Valid);
    assert_eq!(decode(&older).unwrap().contents.validations, []);
}

#[test]
fn reading_71_entries() {
    let newest = table("(class c(p))(user u)(validatetrans c(eq u3 u))(validatetrans c(not(eq u1 u2)))");
    let part = |start, length| PartAnswer::Part { start, length };
    let (nine, ten) = (four(&newest, 68) as usize, four(&newest, 76) as usize);
    assert_eq!(entry(&newest, 9, 0), part(nine, 4));
    assert_eq!(entry(&newest, 9, 1), part(nine + 4, 4));
    assert_eq!(entry(&newest, 10, 2), part(ten + 12, 6));
    for (body, place) in [(9, 2), (10, 3), (11, 0), (12, 0), (0, 0), (1, 0), (9, u64::MAX), (u64::MAX, 0)] {
        assert_eq!(entry(&newest, body, place), PartAnswer::Refused(12), "{body} {place}");
    }
    let older = in_edition_1(&newest);
    assert_eq!(entry(&older, 2, 0), part(68 + 15, 16));
    for body in [9, 10, 11] {
        assert_eq!(entry(&older, body, 0), PartAnswer::Refused(12));
    }
    assert_eq!(entry(&newest[..20], 9, 0), PartAnswer::Refused(11));
}

#[test]
fn reading_72_refusals_and_denials() {
    let text = format!("{THREE}(class process (transition))(validatetrans file(neq u1 u))");
    let table = table(&text);
    assert_eq!(ask(&table, 0, BAD, BAD, BAD), denied(1, 0, 0));
    assert_eq!(ask(&table, 0, OLD, BAD, BAD), denied(2, 0, 0));
    assert_eq!(ask(&table, 0, OLD, NEW, BAD), denied(5, 0, 0));
    assert_eq!(ask(&table, 0, BAD, NEW, BAD), denied(1, 0, 0));
    assert_eq!(ask(&table, 0, OLD, NEW, PROCESS), denied(6, 0, 1));
    // No role allow is asked, whatever the class.
    assert_eq!(ask(&table, 2, OLD, NEW, PROCESS), granted(0));
    for far in [3, 256, 65_536, 1 << 32, u64::MAX] {
        assert_eq!(ask(&table, far, BAD, BAD, BAD), ChangeAnswer::Refused(12));
        for place in 0..9 {
            let mut numbers = [0, 1, 0, 0, 1, 0, 0, 1, 0];
            numbers[place] = far;
            let [u1, r1, t1, u2, r2, t2, u3, r3, t3] = numbers;
            let answer = ask(&table, 0, [u1, r1, t1], [u2, r2, t2], [u3, r3, t3]);
            assert_eq!(answer, ChangeAnswer::Refused(12), "{numbers:?}");
        }
    }
    assert_eq!(ask(&table[..60], u64::MAX, BAD, BAD, BAD), ChangeAnswer::Refused(11));
}

#[test]
fn reading_73_numbers_and_consulted() {
    let text = format!(
        "{THREE}(validatetrans d(neq u3 w))(validatetrans file(eq u1 u))(constrain(file(read))(neq u1 u2))\
         (validatetrans file(eq u3 w))(validatetrans d(eq u1 u2))(validatetrans file(neq t1 t2))"
    );
    let table = table(&text);
    assert_eq!(ask(&table, 0, OLD, NEW, PROCESS), granted(3));
    assert_eq!(ask(&table, 0, NEW, OLD, PROCESS), denied(6, 1, 1));
    assert_eq!(ask(&table, 0, OLD, NEW, NEW), denied(6, 2, 2));
    assert_eq!(ask(&table, 0, OLD, OLD, PROCESS), denied(6, 4, 3));
    assert_eq!(ask(&table, 1, OLD, OLD, PROCESS), denied(6, 0, 1));
    assert_eq!(ask(&table, 1, OLD, NEW, NEW), denied(6, 3, 2));
    assert_eq!(ask(&table, 1, OLD, OLD, OLD), granted(2));
    let older = in_edition_1(&table);
    assert_eq!(ask(&older, 0, NEW, OLD, PROCESS), granted(0));
    assert_eq!(ask(&older, 0, NEW, OLD, BAD), denied(5, 0, 0));
}

#[test]
fn reading_74_sides() {
    let each = [
        ("(eq u1 u)", true), ("(eq u2 v)", true), ("(eq u3 w)", true), ("(eq u3 u)", false), ("(eq u3 v)", false),
        ("(eq r1 a)", true), ("(eq r2 b)", true), ("(eq r3 c)", true), ("(neq r3 c)", false), ("(eq t1 r)", true),
        ("(eq t2 s)", true), ("(eq t3 t)", true), ("(eq t3 r)", false), ("(dom r1 r2)", false), ("(incomp r1 r2)", true),
        ("(eq u3 x)", true), ("(neq u1 x)", true), ("(eq r3 y)", true), ("(eq t3 z)", false), ("(eq t1 z)", true),
    ];
    for (expression, holds) in each {
        let text = format!(
            "{THREE}(userattribute x)(userattributeset x(w))(roleattribute y)(roleattributeset y(not(a b)))\
             (typeattribute z)(typeattributeset z(r s))(validatetrans file {expression})"
        );
        let expected = if holds { granted(1) } else { denied(6, 0, 1) };
        assert_eq!(ask(&table(&text), 0, OLD, NEW, PROCESS), expected, "{expression}");
    }
    let object = table("(user u)(role object_r)(role a)(type t)(class c(p))");
    let (o, a) = ([0, 0, 0], [0, 1, 0]);
    assert_eq!(ask(&object, 0, o, o, o), granted(0));
    assert_eq!(ask(&object, 0, a, o, o), denied(1, 0, 0));
    assert_eq!(ask(&object, 0, o, a, o), denied(2, 0, 0));
    assert_eq!(ask(&object, 0, o, o, a), denied(5, 0, 0));
}

/// The listed questions: what the statements say, where the question is in numbers that they declare, and what some are by hand.
#[test]
fn listed_questions_as_the_statements_answer() {
    let mut asked_of_both = 0;
    for asked in relabels() {
        let (table, meaning) = (table(&asked.text), meant(asked.text.as_bytes()));
        for asked in asked.questions.iter().filter(|question| question[0] == 5) {
            let [_, class, b, c, d, e, f, g, h, i, j] = *asked;
            let (old, new, process) = (of([b, c, d]), of([e, f, g]), of([h, i, j]));
            let answer = relabel(&table, &Relabel { class, old, new, process });
            if answer == ChangeAnswer::Refused(12) {
                continue;
            }
            let [old, new, process] = [old, new, process].map(|c| context(c.user as usize, c.role as usize, c.kind as usize));
            assert_eq!(meaning.relabel(&Relabel { class: class as usize, old, new, process }), answer, "{asked:?}");
            asked_of_both += 1;
        }
    }
    assert!(asked_of_both > 100, "{asked_of_both}");
    let lines = |number: usize| {
        let asked = &relabels()[number];
        let table = table(&asked.text);
        asked.questions.iter().map(|question| question_line(&table, question).unwrap()).collect::<Vec<String>>()
    };
    let expected = [
        "granted consulted 0",
        "denied 1 constraint 0 consulted 0",
        "denied 2 constraint 0 consulted 0",
        "denied 5 constraint 0 consulted 0",
        "refused 12",
        "refused 12",
    ];
    assert_eq!(lines(0), expected);
    let expected = [
        "granted consulted 2",
        "denied 6 constraint 1 consulted 1",
        "denied 6 constraint 2 consulted 2",
        "denied 6 constraint 0 consulted 1",
        "denied 4 constraint 0 consulted 1",
    ];
    assert_eq!(lines(1), expected);
    assert_eq!(lines(2), ["granted consulted 1", "denied 5 constraint 0 consulted 0"]);
    // Section 9 stands at 99 + 16, section 10 behind its two records.
    assert_eq!(lines(3), ["part 119 4", "refused 12", "part 123 6", "part 135 6", "refused 12", "refused 12"]);
}

/// Reading 76: which denials a question can have.
#[test]
fn reading_76_denials_of_each_question() {
    for asked in relabels() {
        let table = table_of(asked.text.as_bytes()).unwrap();
        for question in &asked.questions {
            let line = question_line(&table, question).unwrap();
            let of_other = if question[0] == 5 { ["denied 3", "denied 4"] } else { ["denied 5", "denied 6"] };
            assert!(!of_other.iter().any(|start| line.starts_with(start)), "{line}");
        }
    }
}
