//! Document 02, W-202: the line of every refusal, by hand (readings 19 to 26).

mod common;

use common::{refused, table};
use reference::corpus::policy_text;
use reference::fault::{line_of, Fault};
use reference::generator::cases::cases;
use reference::generator::damage::damage;
use reference::generator::policies::Shape;
use reference::lexer::scan;
use reference::random::Random;
use reference::roll::roll;
use reference::table::{compile, table_of, Outcome};

#[test]
fn reading_19_lf_alone_below_the_place() {
    assert_eq!(refused("\n(role a)\n(role a)"), (4, 10, 3));
    assert_eq!(refused("(role a)(role a)\n\n"), (4, 8, 1));
    assert_eq!(refused("(role a)(\nrole\na)"), (4, 8, 1));
    assert_eq!(refused("!\n"), (2, 0, 1));
    assert_eq!(refused("\n!"), (2, 1, 2));
    assert_eq!(line_of(b"\n\n", 0), 1);
    assert_eq!(line_of(b"\n\n", 1), 2);
    assert_eq!(line_of(b"\n\n", 2), 3);
}

#[test]
fn reading_19_comments_and_cr() {
    assert_eq!(refused(";\n()"), (3, 2, 2));
    assert_eq!(refused(";(\n\n;)\n()"), (3, 7, 4));
    assert_eq!(refused("(role;)\na)(role a)"), (4, 10, 2));
    assert_eq!(refused("\r\n!"), (2, 2, 2));
    assert_eq!(refused("\r\r!"), (2, 2, 1));
    assert_eq!(refused("\n\r!"), (2, 2, 2));
    assert_eq!(refused(";\n;x\n\r\r(role a)\n;\r\r\n()"), (3, 20, 5));
    // Bytes that end a line elsewhere: VT, FF, and NEL and LS in UTF-8.
    assert_eq!(refused(";\x0b\x0c\u{85}\u{2028}\n()"), (3, 9, 2));
}

/// Every cause of 2 has its own place.
#[test]
fn fault_2_has_the_line_of_its_place() {
    assert_eq!(refused("(role\na!\n)"), (2, 7, 2));
    assert_eq!(refused("(role\n1a\n)"), (2, 6, 2));
    assert_eq!(refused(&format!("(role\n{}\n)", "n".repeat(65))), (2, 6, 2));
    assert_eq!(refused("(role a)\nrole\n"), (2, 9, 2));
    assert_eq!(refused("(role a)\n\n)\n"), (2, 10, 3));
    assert_eq!(refused(&format!("{}\n(\n", "(\n".repeat(32))), (2, 65, 34));
    // 2 comes before a 4 on an earlier line.
    assert_eq!(refused("(role a)\n(role a)\n!"), (2, 18, 3));
}

#[test]
fn reading_20_unclosed_has_all_lfs_before_it() {
    assert_eq!(refused("("), (2, 1, 1));
    assert_eq!(refused("(\n"), (2, 2, 2));
    assert_eq!(refused("(\n\n\n"), (2, 4, 4));
    assert_eq!(refused("(role\na"), (2, 7, 2));
    assert_eq!(refused("(role\n;)\n"), (2, 9, 3));
    assert_eq!(refused("(role;)"), (2, 7, 1));
}

#[test]
fn reading_21_a_long_text() {
    let fault = |text: Vec<u8>| scan(&text).expect_err("too long");
    let on_line = |line| Fault { number: 1, place: 65_535, line };
    assert_eq!(fault(vec![b'\n'; 65_536]), on_line(65_536));
    assert_eq!(fault(vec![b'\n'; 70_000]), on_line(65_536));
    assert_eq!(fault(vec![b' '; 65_536]), on_line(1));
    // The byte at the place, which is the last, does not count.
    assert_eq!(fault([vec![b' '; 65_535], vec![b'\n']].concat()), on_line(1));
    assert_eq!(fault([vec![b' '; 65_534], vec![b'\n'; 2]].concat()), on_line(2));
    assert_eq!(fault([vec![b'!'; 65_535], vec![b'\n'; 9]].concat()), on_line(1));
    // Only fault 1 reaches line 65,536.
    assert_eq!(refused(&format!("({}", "\n".repeat(65_534))), (2, 65_535, 65_535));
    assert_eq!(refused(&format!("{}!", "\n".repeat(65_534))), (2, 65_534, 65_535));
}

#[test]
fn reading_22_fault_10_is_not_placed_in_a_text() {
    assert_eq!(compile(b"\n\n", &mut []), Outcome::Refused(Fault { number: 10, place: 84, line: 0 }));
    let length = table("\n(role a)\n").len();
    let short = &mut vec![0; length - 1];
    assert_eq!(compile(b"\n(role a)\n", short), Outcome::Refused(Fault { number: 10, place: length, line: 0 }));
    // Not even where the length needed would be a place of the text.
    let long = "\n".repeat(100);
    assert_eq!(compile(long.as_bytes(), &mut []), Outcome::Refused(Fault { number: 10, place: 84, line: 0 }));
}

#[test]
fn faults_3_to_7_have_the_line_of_the_statement() {
    assert_eq!(refused("\n(\n)"), (3, 1, 2));
    assert_eq!(refused("(role a)\n()\n(role a)"), (3, 9, 2));
    assert_eq!(refused("(role a)\n(role b)\n\n(role\na)"), (4, 19, 4));
    assert_eq!(refused("(role a)\n(\nroletype\na\nt)"), (5, 9, 2));
    assert_eq!(refused("(class c(p))\n \n(constrain\n(c(p))\n(eq u1\nu))"), (5, 15, 3));
    let many: String = (0..129).map(|n| format!("(role a{n})\n")).collect();
    assert_eq!(refused(&many), (6, many.len() - "(role a128)\n".len(), 129));
    let six = format!("{}(eq u1 u2){}", "(or\n(eq u1 u2)".repeat(5), ")".repeat(5));
    assert_eq!(refused(&format!("(class c(p))\n(constrain(c(p)){six})")), (7, 13, 2));
}

#[test]
fn reading_24_faults_8_and_9() {
    assert_eq!(refused("\n(roleattribute x)\n(roleattributeset x\n(x))\n"), (8, 1, 2));
    // x only leads to the cycle, on which y is.
    let declared = "(roleattribute x)\n(roleattribute y)\n";
    assert_eq!(refused(&format!("{declared}(roleattributeset x(y))\n(roleattributeset y(y))")), (8, 18, 2));
    let before = "(role a)(role b)(type t)(class c(p))\n(roletransition a t c a)\n";
    assert_eq!(refused(&format!("{before}\n(roletransition\na t c b)")), (9, before.len() + 1, 4));
    assert_eq!(refused(&format!("{before}\n(roletransition a t c b)\n(roletransition a t c b)")), (9, before.len() + 1, 4));
}

#[test]
fn the_printed_line() {
    assert_eq!(roll(b"(role a)(roletype a t)"), b"refused 5 at 8 line 1\n");
    assert_eq!(roll(b"(role a)\n\n(roletype a t)"), b"refused 5 at 10 line 3\n");
    assert_eq!(roll(b"(\n"), b"refused 2 at 2 line 2\n");
    assert_eq!(roll(&[b'\n'; 65_536]), b"refused 1 at 65535 line 65536\n");
    assert_eq!(Fault::new(10, 70_000).to_string(), "refused 10 at 70000 line 0");
}

#[test]
fn listed_cases_have_faults_2_to_9_on_later_lines() {
    for number in 2..=9 {
        assert!(cases().iter().any(|case| case.fault.is_some_and(|f| f.number == number && f.line > 1)), "{number}");
    }
}

/// Three bytes before a text move the place by three, and only LFs among them move the line; the number stays.
#[test]
fn what_stands_before_a_text_moves_place_and_line() {
    for case in cases() {
        let Some(fault) = case.fault else { continue };
        for (before, lines) in [("   ", 0), ("\r\t\r", 0), ("\n\n\n", 3), ("\n;\n", 2), (";;\n", 1), (";\r\n", 1)] {
            let moved = table_of(&[before.as_bytes(), &case.text].concat()).expect_err(&case.rule);
            assert_eq!(moved, Fault { place: fault.place + 3, line: fault.line + lines, ..fault }, "{}", case.rule);
        }
    }
}

/// The line counted in another way, as the parts into which LFs cut what stands before the place; and 10 without one.
#[test]
fn random_texts() {
    let mut random = Random::new(11);
    let mut later = 0;
    for _ in 0..1_000 {
        let steps = random.between(0, 30);
        let text = policy_text(&mut random, Shape::small(steps));
        let text = damage(&mut random, &text);
        match compile(&text, &mut []) {
            Outcome::Refused(Fault { number: 10, line, .. }) => assert_eq!(line, 0),
            Outcome::Refused(fault) => {
                assert_eq!(fault.line, text[..fault.place].split(|&byte| byte == b'\n').count());
                later += (fault.line > 1) as usize;
            }
            Outcome::Accepted(length) => panic!("{length} bytes in no memory"),
        }
    }
    assert!(later >= 150, "{later}");
}
