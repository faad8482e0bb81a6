//! A text for each refusal, with its place and its line, and the words in which it is shown.

use std::error::Error;

use tegzhumbi::{RefusalKind, TableBuf, Undeclared, Unsound, MAX_TABLE_BYTES};

/// A text of three lines whose last is at fault at the place given, counted in that line.
fn check(last_line: &str, kind: RefusalKind, place: usize, sentence: &str) {
    let before = "(class c (p)) (role a) (role b) (type t)\n; comments count as lines\n";
    let text = format!("{before}{last_line}");
    let refusal = TableBuf::compile(text.as_bytes()).expect_err(&text);
    assert_eq!(refusal.kind(), kind, "{text}");
    assert_eq!(refusal.place(), before.len() + place, "{text}");
    assert_eq!(refusal.line(), Some(3), "{text}");
    assert_eq!(refusal.to_string(), format!("line 3: {sentence}"));
}

#[test]
fn refusals_of_a_text() {
    check(
        "(role a!b)",
        RefusalKind::WrongByte,
        7,
        "a byte that belongs nowhere, a bad or long name, or parentheses that do not match",
    );
    check(
        " (rule a)",
        RefusalKind::NoForm,
        1,
        "not a statement or block of a known form",
    );
    check(
        "(type a)(role a)",
        RefusalKind::DeclaredAgain,
        8,
        "declared again: a name in its family, a permission in its class, or a block",
    );
    check(
        "(roletype a b)",
        RefusalKind::NameUndeclared,
        0,
        "name not declared before its use, or of the wrong sort",
    );
    check(
        "(constrain (c (p)) (or (eq t1 t) (or (eq t1 t) (or (eq t1 t) (or (eq t1 t) \
         (or (eq t1 t) (eq t1 t)))))))",
        RefusalKind::StackTooSmall,
        0,
        "the expression needs more than five values on the stack",
    );
    check(
        "(typeattribute x) (typeattribute y) (typeattributeset x (y)) (typeattributeset y (x))",
        RefusalKind::Cycle,
        0,
        "the sets of this attribute mention it, directly or through others",
    );
    check(
        "(roletransition a t c a) (roletransition a t c b)",
        RefusalKind::Clash,
        25,
        "this role transition clashes with an earlier one",
    );
}

#[test]
fn more_than_the_maximum() {
    let blocks = "(block b".repeat(9) + &")".repeat(9);
    check(
        &blocks,
        RefusalKind::MaximumPassed,
        64,
        "more than the maximum: of things of this sort, of rows, of levels of blocks, \
         or of bytes of a full name",
    );
}

#[test]
fn a_text_that_is_too_long() {
    let mut text = vec![b'\n'; 65_535];
    assert!(TableBuf::compile(&text).is_ok());
    text.push(b'\n');
    let refusal = TableBuf::compile(&text).unwrap_err();
    assert_eq!(refusal.kind(), RefusalKind::TextTooLong);
    assert_eq!((refusal.place(), refusal.line()), (65_535, Some(65_536)));
    assert_eq!(
        refusal.to_string(),
        "line 65536: the text is longer than 65,535 bytes"
    );
}

#[test]
fn memory_that_is_too_short_stays_as_it_was() {
    let mut memory = [7; 100];
    let refusal = tegzhumbi::compile(b"(user ash) (user birch)", &mut memory).unwrap_err();
    assert_eq!(refusal.kind(), RefusalKind::MemoryTooShort);
    // A header of 84 bytes, and for each user 4 bytes with its name, and 16 for its roles.
    assert_eq!(
        (refusal.place(), refusal.line()),
        (84 + (4 + 3 + 16) + (4 + 5 + 16), None)
    );
    assert_eq!(
        refusal.to_string(),
        "the lent memory is shorter than the table, which takes 132 bytes"
    );
    assert_eq!(memory, [7; 100]);
}

#[test]
fn refusals_are_errors() {
    let refusal = TableBuf::compile(b"(").unwrap_err();
    let unsound_bytes = TableBuf::from_bytes(Vec::new()).unwrap_err();
    let errors: [&dyn Error; 4] = [&refusal, &Unsound, &unsound_bytes, &Undeclared];
    let shown = errors.map(|error| error.to_string());
    assert_eq!(shown[1..3], ["not a sound table", "not a sound table"]);
    assert_eq!(shown[3], "a number that the table does not declare");
    assert_eq!(format!("{unsound_bytes:?}"), "UnsoundBytes { bytes: 0 }");
}

/// As many users, roles, types, transitions and constraints as there may be.
#[test]
fn a_large_table_fits_the_most_memory() {
    let mut text: String = (0..128)
        .map(|n| format!("(user user{n})(role role{n})\n"))
        .collect();
    text.extend((0..512).map(|n| format!("(type type{n})\n")));
    text.push_str("(class c(p))\n");
    text.extend((0..128).map(|n| format!("(roletransition role{n} type0 c role0)\n")));
    text.push_str(&"(constrain(c(p))(eq u1 u2))\n".repeat(128));
    let mut memory = vec![0; MAX_TABLE_BYTES];
    let table = tegzhumbi::compile(text.as_bytes(), &mut memory).unwrap();
    assert!(table.bytes().len() > 30_000);
    assert_eq!(table.types().len(), 512);
}
