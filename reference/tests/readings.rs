//! Every listed case, and table bytes worked out by hand.

mod common;

use common::{contents, set, table};
use reference::fault::Fault;
use reference::generator::cases::cases;
use reference::generator::maxima;
use reference::lexer::{class_of, scan, ByteClass};
use reference::table::{table_of, Row};

#[test]
fn every_listed_case() {
    for case in cases() {
        let text = String::from_utf8_lossy(&case.text).into_owned();
        assert_eq!(table_of(&case.text).err(), case.fault, "{}: {text}", case.rule);
    }
}

#[test]
fn listed_cases_cover_faults_2_to_9() {
    for number in 2..=9 {
        assert!(cases().iter().any(|case| case.fault.is_some_and(|fault| fault.number == number)), "{number}");
    }
}

#[test]
fn both_sides_of_each_maximum() {
    for bound in maxima::bounds() {
        assert_eq!(table_of(&bound.at).err(), None, "{} at the maximum", bound.name);
        assert_eq!(table_of(&bound.past).err(), Some(bound.fault), "{} past the maximum", bound.name);
    }
}

#[test]
fn order_of_faults_at_the_maxima() {
    for (label, text, fault) in maxima::orders() {
        assert_eq!(table_of(&text).err(), Some(fault), "{label}");
    }
    for (label, text, fault) in maxima::permission_rows() {
        assert_eq!(table_of(&text).err(), fault, "{label}");
    }
}

#[test]
fn the_most_lines() {
    for (label, text, fault) in maxima::most_lines() {
        assert_eq!(table_of(&text).err(), Some(fault), "{label}");
    }
}

#[test]
fn every_maximum_at_once() {
    let text = maxima::everything();
    assert!(text.len() <= 65_535);
    let all = reference::sound::decode(&table_of(&text).expect("accepted")).unwrap();
    assert_eq!(all.counts.sorts, [128, 128, 512, 64, 64, 64, 32]);
    assert_eq!(all.counts.permissions, vec![32; 32]);
    let contents = all.contents;
    assert_eq!((contents.transitions.len(), contents.constraints.len(), contents.rows.len()), (128, 128, 2_048));
    assert_eq!((contents.validations.len(), contents.validation_rows.len()), (64, 1_024));
    // x0 holds every x after it: users 0 to 62 and 127.
    assert_eq!(contents.userattributes[0], (0..63).chain([127]).collect());
    assert_eq!(contents.typeattributes[63], set(&[500, 511]));
    assert_eq!(contents.roles_of_user[127], (0..66).chain([127]).filter(|&n| n != 63).collect());
}

fn in_line_1(number: u8, place: usize) -> Fault {
    Fault { number, place, line: 1 }
}

#[test]
fn long_texts_whatever_else_is_wrong() {
    for byte in [b'!', b'(', b')', b'a', 0, 255] {
        assert_eq!(scan(&vec![byte; 65_536]).err(), Some(in_line_1(1, 65_535)));
        assert_eq!(scan(&vec![byte; 100_000]).err(), Some(in_line_1(1, 65_535)));
    }
    assert_eq!(scan(&vec![b'!'; 65_535]).err(), Some(in_line_1(2, 0)));
}

#[test]
fn byte_classes_by_count() {
    let count = |class| (0..=255u8).filter(|&byte| class_of(byte) == class).count();
    let single = [ByteClass::LineFeed, ByteClass::CommentStart, ByteClass::Open, ByteClass::Close, ByteClass::Dot];
    assert!(single.into_iter().all(|class| count(class) == 1));
    assert_eq!((count(ByteClass::Blank), count(ByteClass::Letter), count(ByteClass::DigitOrDash)), (3, 53, 11));
    assert_eq!(count(ByteClass::Wrong), 256 - 5 - 3 - 53 - 11);
}

#[test]
fn bytes_of_a_class_and_a_constraint() {
    let table = table("(class c (p q r))(constrain (c (r p r)) (eq u1 u2))");
    assert_eq!(table.len(), 120);
    assert_eq!(table[84..104], *b"\x06\x00\x00\x01c\x07\x00\x00\x01p\x07\x01\x00\x01q\x07\x02\x00\x01r");
    assert_eq!(table[104..114], [0, 0, 5, 0, 0, 0, 0, 0, 1, 0]);
    assert_eq!(table[114..], [3, 0, 0, 0, 0, 0]);
    // Empty bodies have the running offset.
    let number = |at: usize| u32::from_le_bytes(table[at..at + 4].try_into().unwrap());
    let offsets: Vec<u32> = (0..10).map(|body| number(4 + body * 8)).collect();
    assert_eq!(offsets, [84, 104, 104, 104, 104, 104, 114, 120, 120, 120]);
}

#[test]
fn bytes_of_a_transition() {
    let table = table("(role a)(role b)(type t)(type s)(class c (p))(class d (q))(roletransition b s d b)");
    // Names 8 x 5 bytes, roles 2 x 64 and 2 x 16.
    let start = 84 + 40 + 128 + 32;
    let mut expected = vec![0; 82];
    (expected[0], expected[16], expected[80], expected[81]) = (2, 2, 1, 1);
    assert_eq!(table[start..], expected);
    // Class 1 has permission 0 as number 32.
    assert_eq!(table[119..124], *b"\x07\x20\x00\x01q");
}

#[test]
fn rows_in_order() {
    let head = "(user v)(user u)(role r)(typeattribute z)(typeattribute y)(type t)(class c (p))";
    let all = contents(&format!(
        "{head}(constrain (c (p)) (or (and (eq u2 u) (neq r1 r2)) (not (eq t2 y))))(constrain (c (p)) (domby r1 r2))"
    ));
    let row = |kind, component, operator, number| Row { kind, component, operator, zero: 0, number };
    let expected = [
        row(4, 1, 0, 1),
        row(3, 2, 1, 0),
        row(1, 0, 0, 0),
        row(5, 5, 0, 1),
        row(0, 0, 0, 0),
        row(2, 0, 0, 0),
        row(3, 2, 3, 0),
    ];
    assert_eq!(all.rows, expected);
    let places: Vec<(u16, u16)> = all.constraints.iter().map(|c| (c.first_row, c.row_count)).collect();
    assert_eq!(places, [(0, 6), (6, 1)]);
}

#[test]
fn attribute_bodies_in_the_order_of_the_families() {
    let table = table("(typeattribute z)(type t)(typeattributeset z (t))(userattribute x)(user u)(userattributeset x (u))");
    let start = 84 + 20 + 16;
    assert_eq!(table.len(), start + 16 + 64);
    assert_eq!((table[start], table[start + 16]), (1, 1));
}

#[test]
fn no_self_bit_unless_said() {
    let all = contents("(role a)(role b)(roleallow a b)(roleallow b b)");
    assert_eq!(all.becomes, [set(&[1]), set(&[1])]);
}
