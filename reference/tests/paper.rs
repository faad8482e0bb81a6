//! "Checked by hand", "Both sides", "Slips we have seen" and the printed roll.

mod common;

use common::{contents, question, refused, set, table};
use reference::parser::Statement;
use reference::policy::{need_of, read};
use reference::questions::{change, ChangeAnswer};
use reference::roll::roll;

const ROLL: &str = "(user u)(role a)(role b)(type t)(userrole u a)(roletype a t)";

fn denied(number: u8) -> ChangeAnswer {
    ChangeAnswer::Denied { number, constraint: 0, consulted: 0 }
}

#[test]
fn p1_empty_text() {
    let table = table("");
    assert_eq!(table.len(), 84);
    let mut expected = vec![2, 0, 10, 0];
    for _ in 0..10 {
        expected.extend([84, 0, 0, 0, 0, 0, 0, 0]);
    }
    assert_eq!(table, expected);
}

#[test]
fn p2_the_roll() {
    let table = table(ROLL);
    assert_eq!(table.len(), 280);
    let number = |at: usize| u32::from_le_bytes(table[at..at + 4].try_into().unwrap());
    // Document 02, reading 6.
    let offsets: Vec<u32> = (0..10).map(|body| number(4 + body * 8)).collect();
    assert_eq!(offsets, [84, 104, 120, 248, 280, 280, 280, 280, 280, 280]);
    let lengths: Vec<u32> = (0..10).map(|body| number(8 + body * 8)).collect();
    assert_eq!(lengths, [20, 16, 128, 32, 0, 0, 0, 0, 0, 0]);
    assert_eq!(table[84..104], *b"\x00\x00\x00\x01u\x01\x00\x00\x01a\x01\x01\x00\x01b\x02\x00\x00\x01t");
    // The user has role 0, role 0 has type 0, and nothing else is set.
    let ones: Vec<usize> = (104..280).filter(|&at| table[at] != 0).collect();
    assert_eq!(ones, [104, 120]);
    assert_eq!((table[104], table[120]), (1, 1));
}

#[test]
fn p3_to_p7_refusals() {
    assert_eq!(refused("(role a)(role a)"), (4, 8, 1));
    assert_eq!(refused("(role a)(roletype a t)"), (5, 8, 1));
    assert_eq!(refused("("), (2, 1, 1));
    assert_eq!(refused("()"), (3, 0, 1));
    assert_eq!(refused("(roleattribute x)(roleattributeset x (x))"), (8, 0, 1));
}

#[test]
fn p8_and_p9_sets() {
    let of = |s: &str| {
        let text = format!("(role a)(role b)(role c)(roleattribute x)(roleattributeset x {s})");
        contents(&text).roleattributes[0].clone()
    };
    assert_eq!(of("(not (a b))"), set(&[2]));
    assert_eq!(of("(xor (a b) (b c))"), set(&[0, 2]));
    assert_eq!(of("(and (a b) (b c))"), set(&[1]));
    assert_eq!(of("(or a c)"), set(&[0, 2]));
    assert_eq!(of("(all)"), set(&[0, 1, 2]));
    assert_eq!(of("(not (all))"), set(&[]));
    assert_eq!(of("((not a) a)"), set(&[0, 1, 2]));
}

fn need(expression: &str) -> usize {
    let text = format!("(class c (p))(constrain (c (p)) {expression})");
    let groups = reference::lexer::tree(&reference::lexer::scan(text.as_bytes()).unwrap());
    match reference::parser::form(&groups[1]) {
        Some(Statement::Constrain(constrain)) => need_of(&constrain.expression),
        _ => panic!("{text}"),
    }
}

#[test]
fn p10_stack_need() {
    let right = |n: usize| format!("{}(eq u1 u2){}", "(and (eq u1 u2) ".repeat(n - 1), ")".repeat(n - 1));
    let left = |n: usize| format!("{}(eq u1 u2){}", "(and ".repeat(n - 1), " (eq u1 u2))".repeat(n - 1));
    assert_eq!((need(&right(5)), need(&right(6)), need(&left(6))), (5, 6, 2));
    assert_eq!(need(&left(5)), 2);
    let policy = |e: String| format!("(class c (p))(constrain (c (p)) {e})");
    assert!(read(policy(right(5)).as_bytes()).is_ok());
    assert_eq!(refused(&policy(right(6))), (7, 13, 1));
    assert!(read(policy(left(6)).as_bytes()).is_ok());
}

#[test]
fn p11_denial_2_whatever_is_declared_in_addition() {
    for class in ["(class c (p))", "(class process (transition))", "(class process (dyntransition))"] {
        let table = table(&format!("{ROLL}{class}"));
        assert_eq!(change(&table, &question([0, 0, 0], [0, 1, 0], 0, 0)), denied(2));
        assert_eq!(change(&table, &question([0, 1, 0], [0, 0, 0], 0, 0)), denied(1));
    }
}

#[test]
fn p12_role_64_is_bit_0_of_byte_8() {
    let roles: String = (0..65).map(|n| format!("(role a{n})")).collect();
    let table = table(&format!("(user u){roles}(userrole u a64)"));
    let body = u32::from_le_bytes(table[12..16].try_into().unwrap()) as usize;
    let mut expected = [0; 16];
    expected[8] = 1;
    assert_eq!(table[body..body + 16], expected);
}

#[test]
fn the_printed_roll() {
    let printed = "accepted 280 bytes\nuser u roles 1\nrole a types 1\nrole b types 0\n";
    assert_eq!(roll(ROLL.as_bytes()), printed.as_bytes());
    assert_eq!(roll(b""), b"accepted 84 bytes\n");
    assert_eq!(roll(b"(role a)(roletype a t)"), b"refused 5 at 8 line 1\n");
    assert_eq!(roll(&[b' '; 70_000]), b"refused 1 at 65535 line 1\n");
    // Users first, then roles, whatever the order in the text.
    let mixed = b"(role z)(user b)(role a)(user c)(userattribute x)(userattributeset x (all))(userrole x a)(userrole c z)";
    let expected = "user b roles 1\nuser c roles 2\nrole z types 0\nrole a types 0\n";
    assert!(String::from_utf8(roll(mixed)).unwrap().ends_with(expected));
    // A table that does not fit into the memory of the program.
    let needed = reference::table::table_of(&reference::generator::maxima::wide()).unwrap().len();
    assert!(needed > 65_536);
    let expected = format!("refused 10 at {needed} line 0\n");
    assert_eq!(roll(&reference::generator::maxima::wide()), expected.as_bytes());
}

#[test]
fn slip_attribute_filled_as_its_line_is_read() {
    let all = contents("(user u)(role a)(roleattribute x)(userrole u x)(roleattributeset x (a))(role b)(roleattributeset x (b))");
    assert_eq!(all.roles_of_user[0], set(&[0, 1]));
    let nested = contents(
        "(user u)(role a)(roleattribute x)(roleattribute y)(userrole u x)\
         (roleattributeset x (not y))(roleattributeset y (a))(role b)",
    );
    assert_eq!(nested.roles_of_user[0], set(&[1]));
}

#[test]
fn slip_not_within_the_roles_declared_so_far() {
    let late = contents("(role a)(roleattribute x)(roleattributeset x (not a))(role b)(role c)");
    assert_eq!(late.roleattributes[0], set(&[1, 2]));
    let all = contents("(roleattribute x)(roleattributeset x (all))(role a)");
    assert_eq!(all.roleattributes[0], set(&[0]));
}

#[test]
fn slip_role_64_shares_a_bit_with_role_0() {
    let roles: String = (0..66).map(|n| format!("(role a{n})")).collect();
    let all = contents(&format!("(user u){roles}(userrole u a64)(userrole u a65)"));
    assert_eq!(all.roles_of_user[0], set(&[64, 65]));
}

#[test]
fn slip_oldest_operand_dropped() {
    let e = format!("{}(eq u1 u2){}", "(or (eq r1 r2) ".repeat(5), ")".repeat(5));
    assert_eq!(refused(&format!("(class c (p))(constrain (c (p)) {e})")), (7, 13, 1));
}

#[test]
fn slip_role_allow_asked_too_often() {
    let policy = "(user u)(role a)(role b)(type t)(userrole u a)(userrole u b)(roletype a t)(roletype b t)\
                  (class process (transition fork dyntransition))(class file (transition))";
    let granted = ChangeAnswer::Granted { consulted: 0 };
    let table = table(policy);
    let ask = |from, to, class, permission| change(&table, &question([0, from, 0], [0, to, 0], class, permission));
    assert_eq!(ask(0, 1, 0, 0), denied(3));
    assert_eq!(ask(0, 1, 0, 2), denied(3));
    assert_eq!(ask(0, 1, 0, 1), granted, "another permission of process");
    assert_eq!(ask(0, 0, 0, 0), granted, "the role stays the same");
    assert_eq!(ask(0, 1, 1, 0), granted, "a class other than process");
    let allowed = common::table(&format!("{policy}(roleallow a b)"));
    assert_eq!(change(&allowed, &question([0, 0, 0], [0, 1, 0], 0, 0)), granted);
    assert_eq!(change(&allowed, &question([0, 1, 0], [0, 0, 0], 0, 0)), denied(3), "not the other way");
}
