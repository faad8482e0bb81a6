//! Document 02, W-203, by hand: readings 27 to 56, each refusal with its number, place and line, and what names in blocks stand
//! for. Then random policies in blocks, compared with the same policies without.

mod common;

use common::{contents, context, question, refused, set, table};
use reference::corpus::policy_text;
use reference::fault::Fault;
use reference::generator::cases::cases;
use reference::generator::damage::{damage, damage_blocks, damage_dots};
use reference::generator::layout::{lay_out, Gaps};
use reference::generator::maxima;
use reference::generator::policies::{policy_twice, Shape};
use reference::lexer::{class_of, is_good_name, is_good_run, is_reserved, scan, ByteClass};
use reference::lookup::{full_name, tried_names};
use reference::meaning::Numbers;
use reference::parser::{item, Item, Name};
use reference::pieces::{pieces, PieceKind};
use reference::questions::{change, name_of, new_role, valid_context, ChangeAnswer, PartAnswer, RoleAnswer, ValidAnswer};
use reference::random::Random;
use reference::roll::roll;
use reference::sound::{decode, is_sound};
use reference::table::{assemble, bodies, table_of, Contents, NameEntry};

/// The names of a sort, by number.
fn names(text: &str, sort: u8) -> Vec<String> {
    let entries = contents(text).names;
    entries.into_iter().filter(|e| e.sort == sort).map(|e| String::from_utf8(e.name).unwrap()).collect()
}

/// The roles that each role may become, by number.
fn becomes(text: &str) -> Vec<Numbers> {
    contents(text).becomes
}

fn n(count: usize) -> String {
    "n".repeat(count)
}

/// Something within blocks `a`, each within the one before.
fn within(depth: usize, inside: &str) -> String {
    format!("{}{inside}{}", "(block a".repeat(depth), ")".repeat(depth))
}

#[test]
fn every_reading_has_a_listed_case() {
    for reading in 27..=56 {
        let named = |rule: &str| rule.split(|c: char| !c.is_ascii_digit()).any(|word| word == reading.to_string());
        let listed = cases().into_iter().filter(|case| case.rule.starts_with("W-203, reading") && named(&case.rule)).count();
        assert!(listed >= 1, "reading {reading}");
    }
}

#[test]
fn reading_27_the_dot_is_part_of_the_run() {
    assert_eq!(class_of(b'.'), ByteClass::Dot);
    assert_eq!(refused("(role a.b)"), (3, 0, 1));
    assert_eq!(refused("(roleallow a-.b1._ a)"), (5, 0, 1));
    assert_eq!(refused("(role a:.b)"), (2, 7, 1));
}

#[test]
fn reading_28_good_and_bad_runs() {
    for good in ["a", ".a", "a.b", ".a.b", "_._", "a-.b1", "a.b.c.d.e.f.g.h.i.j"] {
        assert!(is_good_run(good.as_bytes()), "{good}");
    }
    for bad in ["a..b", "a.", ".", "..a", ".1", "a.1b", "a.-b", "1.a", "-.a", "..", ".a.", ".a..b", "a.b.1"] {
        assert!(!is_good_run(bad.as_bytes()), "{bad}");
        assert_eq!(refused(&format!("(role {bad})")), (2, 6, 1), "{bad}");
        assert_eq!(refused(&format!("(role\n{bad})")), (2, 6, 2), "{bad}");
    }
}

#[test]
fn reading_29_a_leading_dot_is_the_first_byte() {
    assert_eq!(refused("(roleallow .a. b)"), (2, 11, 1));
    assert_eq!(refused("(roleallow a\n.9)"), (2, 13, 2));
}

#[test]
fn reading_30_sixty_four_bytes_without_the_leading_dot() {
    assert_eq!(refused(&format!("(roleallow .{} a)", n(64))), (5, 0, 1));
    assert_eq!(refused(&format!("(roleallow .{} a)", n(65))), (2, 11, 1));
    assert_eq!(refused(&format!("(roleallow {}.{} a)", n(31), n(32))), (5, 0, 1));
    assert_eq!(refused(&format!("(roleallow {}.{} a)", n(32), n(32))), (2, 11, 1));
    assert_eq!(refused(&format!("(roleallow .{}.{} a)", n(32), n(32))), (2, 11, 1));
    assert_eq!(becomes(&format!("(role {0})(roleallow .{0} {0})", n(64))), [set(&[0])]);
}

#[test]
fn reading_31_the_lowest_place() {
    assert_eq!(refused("(role a.!)"), (2, 6, 1));
    assert_eq!(refused("(role a!.b)"), (2, 7, 1));
    assert_eq!(refused("(role a."), (2, 6, 1));
    assert_eq!(refused("(role a.b"), (2, 9, 1));
    assert_eq!(refused(&format!("(role a.{}!)", n(63))), (2, 6, 1));
    assert_eq!(refused(&format!("(role a.{}!)", n(62))), (2, 70, 1));
}

#[test]
fn reading_32_blanks_and_comments_part_names() {
    assert_eq!(becomes("(role a)(role b)(roleallow a .b)"), [set(&[1]), set(&[])]);
    assert_eq!(refused("(role a .b)"), (3, 0, 1));
    assert_eq!(refused("(role a. b)"), (2, 6, 1));
    assert_eq!(refused("(role a.;\n)"), (2, 6, 1));
    assert_eq!(refused("(role a;.\n.)"), (2, 10, 2));
}

#[test]
fn reading_33_ten_parts_are_5_in_a_use() {
    assert_eq!(refused("(roleallow a.b.c.d.e.f.g.h.i.j a)"), (5, 0, 1));
    assert_eq!(refused(&format!("(roleallow {} a)", vec!["a"; 32].join("."))), (5, 0, 1));
    assert_eq!(refused(&format!("(roleallow {} a)", vec!["a"; 33].join("."))), (2, 11, 1));
    assert_eq!(refused(&within(8, "(role r)\n(roleallow r.r r)")), (5, 73, 2));
}

#[test]
fn reading_34_levels_and_names_outside() {
    assert_eq!(refused("a.b"), (2, 0, 1));
    assert_eq!(refused("(block b)\n.a"), (2, 10, 2));
    let set_of = |levels: usize| {
        let head = "(roleattribute x)(role y)(roleattributeset x";
        (within(8, &format!("{head}{}y{})", "(".repeat(levels), ")".repeat(levels))), 64 + head.len())
    };
    assert_eq!(contents(&set_of(23).0).roleattributes, [set(&[0])]);
    let (text, start) = set_of(24);
    assert_eq!(refused(&text), (2, start + 23, 1));
    // 32 blocks within each other are no fault 2; the ninth is 6.
    assert_eq!(refused(&within(32, "")), (6, 64, 1));
    assert_eq!(refused(&within(33, "")), (2, 256, 1));
}

#[test]
fn reading_35_the_header_whole_before_anything_in_it() {
    assert_eq!(refused("(block b(role a)(role a) x)"), (3, 0, 1));
    assert_eq!(refused("(block b x)"), (3, 0, 1));
    assert_eq!(refused("(block)"), (3, 0, 1));
    assert_eq!(refused("(block (role a))"), (3, 0, 1));
    assert_eq!(refused("(block b c (role a))"), (3, 0, 1));
    assert_eq!(refused("(role a)\n(block b\n()\nx)"), (3, 9, 2));
    // A block within it is tried only in its turn.
    assert_eq!(refused("(block b(role a)(role a)(block c x))"), (4, 16, 1));
}

#[test]
fn reading_36_parts_in_parentheses_or_nothing() {
    assert_eq!(table("(block b)"), table(""));
    assert_eq!(refused("(block b ())"), (3, 9, 1));
    assert_eq!(refused("(block b\n(role a)\n(block c\n(role)))"), (3, 27, 4));
    let groups = reference::lexer::tree(&scan(b"(block b()(role a b)(x))").unwrap());
    let Some(Item::Block(block)) = item(&groups[0]) else { panic!("a block") };
    assert_eq!((block.name, block.inside.len()), (b"b".to_vec(), 3));
}

#[test]
fn reading_37_dots_in_declared_block_and_permission_names() {
    let declarations = [
        "(role .a)", "(role a.b)", "(user .a)", "(type a.b)", "(userattribute .a)", "(roleattribute a.b)", "(typeattribute a.b)",
        "(block .b)", "(block b.c)", "(block b.c(role a))", "(class c (.p))", "(class c (p q.r))", "(class .c (p))", "(class c.d (p))",
    ];
    for declaration in declarations {
        assert_eq!(refused(declaration), (3, 0, 1), "{declaration}");
        assert_eq!(refused(&format!("(block k\n{declaration})")), (3, 9, 2), "{declaration}");
    }
    assert_eq!(refused("(class c (p))(constrain (c (.p)) (eq u1 u2))"), (3, 13, 1));
    assert_eq!(refused("(block b(class c (p)))(constrain (b.c (b.p)) (eq u1 u2))"), (3, 22, 1));
    let uses = contents("(block b(class c (p))(role a)(roleattribute x))(roleattributeset b.x (.b.a))(constrain (.b.c (p)) (eq r1 b.x))");
    assert_eq!((uses.roleattributes, uses.constraints.len()), (vec![set(&[0])], 1));
}

#[test]
fn reading_38_a_reserved_part_is_reserved() {
    for reserved in ["all", "b.all", "all.b", ".t2", "b.not", "eq.b", "a.u1.b", ".a.l1"] {
        assert!(is_reserved(reserved.as_bytes()), "{reserved}");
    }
    for free in ["alls.u0", ".a", "b.t4.all-", "All.Not"] {
        assert!(!is_reserved(free.as_bytes()), "{free}");
    }
    assert_eq!(refused("(block all)"), (3, 0, 1));
    assert_eq!(refused("(userrole b.all r)"), (3, 0, 1));
    assert_eq!(refused("(class c (p))(constrain (c (p)) (eq u1 x.u2))"), (3, 13, 1));
    assert_eq!(refused("(class c (p))(constrain (c (p)) (eq t1 .t2))"), (3, 13, 1));
    assert_eq!(refused("(role x)(roleattribute y)\n(roleattributeset y (b.not x))"), (3, 26, 2));
}

#[test]
fn reading_39_keywords_operators_and_sides_only_undotted() {
    assert_eq!(refused("(.role a)"), (3, 0, 1));
    assert_eq!(refused("(role.x a)"), (3, 0, 1));
    assert_eq!(refused("(.block b)"), (3, 0, 1));
    for set in ["(.all)", "(.and a a)", "(.not a)", "(a.or a a)"] {
        assert_eq!(refused(&format!("(role a)(roleattribute x)(roleattributeset x {set})")), (3, 25, 1), "{set}");
    }
    for expression in ["(eq .u1 u2)", "(eq u1 .u2)", "(.eq u1 u2)", "(eq .u1 u)", "(.not (eq u1 u2))", "(b.and (eq u1 u2) (eq u1 u2))"] {
        assert_eq!(refused(&format!("(class c (p))(user u)(constrain (c (p)) {expression})")), (3, 21, 1), "{expression}");
    }
}

#[test]
fn reading_40_keywords_stay_free() {
    assert_eq!(names("(block block(role block))", 1), ["block.block"]);
    for unknown in ["(in b (role a))", "(blockinherit b)", "(blockabstract b)", "(optional o (role a))"] {
        assert_eq!(refused(&format!("(block b\n{unknown})")), (3, 9, 2), "{unknown}");
    }
}

#[test]
fn reading_41_blocks_are_a_family_of_their_own() {
    assert_eq!(names("(role b)(block b(role b)(block b(role b)))(type b)", 1), ["b", "b.b", "b.b.b"]);
    assert_eq!(names("(block a(block b(role c)))(block b(role c))", 1), ["a.b.c", "b.c"]);
    assert_eq!(refused("(block b)(block b)"), (4, 9, 1));
    assert_eq!(refused("(block b)\n(block b(role a a))"), (4, 10, 2));
    assert_eq!(refused("(block a(block b)\n(block c)\n\n(block b))"), (4, 29, 4));
    assert_eq!(refused("(block a(role b)(role b))"), (4, 16, 1));
    assert_eq!(refused("(block a(block b)(block b x))"), (3, 17, 1));
}

#[test]
fn reading_42_and_43_the_full_names_that_are_tried() {
    let blocks: Vec<Name> = vec![b"p".to_vec(), b"q".to_vec()];
    let tried = |written: &[u8]| tried_names(&blocks, &written.to_vec());
    assert_eq!(tried(b"n"), [b"p.q.n".to_vec(), b"p.n".to_vec(), b"n".to_vec()]);
    assert_eq!(tried(b"c.n"), [b"p.q.c.n".to_vec(), b"p.c.n".to_vec(), b"c.n".to_vec()]);
    assert_eq!(tried(b".c.n"), [b"c.n".to_vec()]);
    assert_eq!(tried_names(&[], &b"n".to_vec()), [b"n".to_vec()]);
    assert_eq!(tried_names(&[], &b".n".to_vec()), [b"n".to_vec()]);
    assert_eq!(full_name(&blocks, &b"n".to_vec()), b"p.q.n");
}

#[test]
fn reading_42_from_the_innermost_block_outward() {
    // Roles n, p.n, p.q.n.
    assert_eq!(becomes("(role n)(block p(role n)(block q(role n)(roleallow n n)))"), [set(&[]), set(&[]), set(&[2])]);
    assert_eq!(becomes("(role n)(block p(role n)(block q(roleallow n n)))"), [set(&[]), set(&[1])]);
    assert_eq!(becomes("(role n)(block p(block q(role m)(roleallow m n)))"), [set(&[]), set(&[0])]);
    // The outer c.a is found although b.c exists.
    assert_eq!(becomes("(block c(role a))(block b(block c)(roleallow c.a c.a))"), [set(&[0])]);
    // Roles b.x and b.b.a: `b.x` is tried as b.b.x first, `b.a` found as b.b.a.
    assert_eq!(becomes("(block b(role x)(block b(role a))(roleallow b.x b.a))"), [set(&[1]), set(&[])]);
    // Declared before use: an inner name behind the use does not count.
    assert_eq!(becomes("(role n)(block p(roleallow n n)(role n))"), [set(&[0]), set(&[])]);
    assert_eq!(refused("(block p(role n))(roleallow n n)"), (5, 17, 1));
    assert_eq!(refused("(block p(role n))(block q\n(roleallow n n))"), (5, 26, 2));
    assert_eq!(refused("(block b(block c)(roleallow c.a c.a))(block c(role a))"), (5, 17, 1));
}

#[test]
fn reading_43_a_leading_dot_is_one_try() {
    assert_eq!(becomes("(role n)(block p(role n)(roleallow .n n))"), [set(&[1]), set(&[])]);
    assert_eq!(becomes("(block p(role n)(block p(role n)(roleallow .p.n p.n)))"), [set(&[1]), set(&[])]);
    assert_eq!(refused("(block p(role n)(roleallow n .n))"), (5, 16, 1));
    assert_eq!(refused("(block p(block q(role n)(roleallow n .q.n)))"), (5, 24, 1));
    assert_eq!(becomes("(role n)(role m)(roleallow .n m)"), [set(&[1]), set(&[])]);
}

#[test]
fn reading_44_the_first_hit_of_the_family_decides() {
    let hidden = "(type t)(class c (p))(role a)(roleattribute b)(block k(role b)(roleattribute a)(roletransition b t c a))";
    assert_eq!(refused(hidden), (5, 79, 1));
    assert_eq!(refused("(roleattribute x)(block k(role x)(roleattributeset x (all)))"), (5, 33, 1));
    // Hits of other families, and blocks, are none.
    assert_eq!(becomes("(role a)(block k(type a)(user a)(class a(a))(block a)(roleallow a a))"), [set(&[0])]);
    // Where either sort will do, an inner attribute hides an outer role.
    let attribute = "(role a)(role b)(block k(roleattribute a)(roleattributeset a(b))(roleallow a .a))";
    assert_eq!(becomes(attribute), [set(&[]), set(&[0])]);
}

#[test]
fn reading_45_a_long_try_just_misses() {
    let block = "b".repeat(60);
    assert_eq!(becomes(&format!("(role {0})(block {block}(block c(roleallow {0} {0})))", n(64))), [set(&[0])]);
    assert_eq!(refused(&format!("(block {block}\n(roleallow {0} {0}))", n(64))), (5, 68, 2));
}

#[test]
fn reading_46_permissions_of_the_class_found() {
    let two = "(class c(p))(block b(class c(q))";
    assert_eq!(refused(&format!("{two}(constrain(c(p))(eq u1 u2)))")), (5, 32, 1));
    assert_eq!(contents(&format!("{two}(constrain(c(q))(eq u1 u2)))")).constraints[0].class, 1);
    assert_eq!(contents(&format!("{two}(constrain(.c(p))(eq u1 u2)))")).constraints[0].class, 0);
    assert_eq!(contents("(class c(p))(block b(constrain(c(p))(eq u1 u2)))").constraints[0].class, 0);
}

#[test]
fn reading_47_full_names_too_long() {
    let b = "b".repeat(60);
    assert_eq!(names(&format!("(block {b}(role abc))"), 1), [format!("{b}.abc")]);
    assert_eq!(refused(&format!("(block {b}(role abcd))")), (6, 67, 1));
    assert_eq!(refused(&format!("(block {b}(block yyyyy))")), (6, 67, 1));
    assert_eq!(refused(&format!("(block {b}\n(block yyyyy\n()))")), (6, 68, 2));
    assert_eq!(refused(&format!("(block {b}(block yyy\n(role a)))")), (6, 78, 2));
    assert_eq!(names(&format!("(block {b}(class abc({})))", n(64)), 7), [n(64)]);
}

#[test]
fn reading_48_eight_levels() {
    assert_eq!(names(&within(8, "(role i)"), 1), ["a.a.a.a.a.a.a.a.i"]);
    assert_eq!(refused(&within(9, "")), (6, 64, 1));
    assert_eq!(refused(&within(8, "\n(block a(role)))(x")), (6, 65, 2));
    assert_eq!(refused(&within(8, "(block a x)")), (3, 64, 1));
    assert_eq!(refused(&within(7, "(block a)(block a)")), (4, 65, 1));
    assert_eq!(table(&within(7, "(block a)(block b)(block c)")), table(""));
}

#[test]
fn reading_49_order_within_a_declaration() {
    let b = "b".repeat(60);
    assert_eq!(refused(&format!("(block {b}(class abcd(p p)))")), (4, 67, 1));
    assert_eq!(refused(&format!("(block {b}(class abcd(p q)))")), (6, 67, 1));
    let roles: String = (0..128).map(|n| format!("(role a{n})\n")).collect();
    assert_eq!(refused(&format!("{roles}(block {b}(role abcd))")), (6, roles.len() + 67, 129));
}

#[test]
fn reading_50_counted_over_all_blocks() {
    let roles = |count: usize| (0..count).map(|n| format!("(role a{n})")).collect::<String>();
    assert_eq!(names(&format!("{}(block b(role a0))", roles(127)), 1).len(), 128);
    assert_eq!(refused(&format!("{}(block b\n(role a0))", roles(128))), (6, roles(128).len() + 9, 2));
    let all = contents("(roleattribute x)(block b(role a)(roleattributeset x (all)))(role c)(block d(role a))");
    assert_eq!(all.roleattributes, [set(&[0, 1, 2])]);
    let not = contents("(roleattribute x)(block b(role a)(roleattributeset x (not a)))(role c)(block d(role a))");
    assert_eq!(not.roleattributes, [set(&[1, 2])]);
}

#[test]
fn reading_51_places_of_8_and_9() {
    assert_eq!(refused("(block b\n(roleattribute x)(roleattributeset x (.b.x)))"), (8, 9, 2));
    let head = "(role a)(type t)(class c(p))(block b(role a)(roletransition .a t c a)";
    assert_eq!(refused(&format!("{head}\n(roletransition .a t c .a))")), (9, head.len() + 1, 2));
    table("(role a)(type t)(class c(p))(block b(roletransition a t c a)(role a)(roletransition a t c a))");
}

#[test]
fn reading_52_full_names_and_numbers() {
    let text = "(block b(role a)(block c(role d)(class e(p b))))(role a)(roleattribute x)";
    assert_eq!(names(text, 1), ["b.a", "b.c.d", "a"]);
    assert_eq!((names(text, 6), names(text, 7)), (vec!["b.c.e".to_string()], vec!["p".to_string(), "b".to_string()]));
    let bytes = table(text);
    assert_eq!(bytes[84..100], *b"\x01\x00\x00\x03b.a\x01\x01\x00\x05b.c.d");
    let PartAnswer::Part { start, length } = name_of(&bytes, 1, 1) else { panic!("declared") };
    assert_eq!(&bytes[start..start + length], b"b.c.d");
    assert!(roll(b"(block b(user u)(role a)(userrole u a))").ends_with(b"user b.u roles 1\nrole b.a types 0\n"));
}

/// A table that holds one type, or one permission, of this name.
fn sound_with(sort: u8, name: &str) -> bool {
    let entry = |sort, name: &str| NameEntry { sort, number: 0, name: name.as_bytes().to_vec() };
    let names = match sort {
        7 => vec![entry(6, "c"), entry(7, name)],
        _ => vec![entry(6, "c"), entry(7, "p"), entry(sort, name)],
    };
    is_sound(&assemble(&bodies(&Contents { names, ..Contents::default() })))
}

#[test]
fn reading_53_sound_names() {
    let long = format!("a.{}", n(62));
    for good in ["a", "b.a", "c.p", "a.b.c.d.e.f.g.h.i", &long] {
        assert!(sound_with(2, good), "{good}");
    }
    let longer = format!("a.{}", n(63));
    for bad in [".a", "a.", "a..b", "a.1", ".", "b.all", "t1.b", "a.b.c.d.e.f.g.h.i.j", &longer] {
        assert!(!sound_with(2, bad), "{bad}");
        assert!(!sound_with(7, bad), "{bad}");
    }
    assert!(is_good_name(b"a.b") && !is_good_name(b".a"));
    assert!(sound_with(7, "q") && !sound_with(7, "b.q") && !sound_with(7, "c.p"));
}

#[test]
fn reading_54_only_the_full_names_are_treated_apart() {
    let table = table(
        "(user u)(role a)(role b)(type t)(userrole u a)(userrole u b)(roletype a t)(roletype b t)\
         (block k(class process(transition))(role object_r))(class process(transition))(role object_r)",
    );
    let asked = |class| change(&table, &question([0, 0, 0], [0, 1, 0], class, 0));
    assert_eq!(asked(0), ChangeAnswer::Granted { consulted: 0 });
    assert_eq!(asked(1), ChangeAnswer::Denied { number: 3, constraint: 0, consulted: 0 });
    assert_eq!(valid_context(&table, &context(0, 2, 0)), ValidAnswer::NotValid);
    assert_eq!(valid_context(&table, &context(0, 3, 0)), ValidAnswer::Valid);
}

/// The class and the number in the row of the last constrain.
fn last_constrain(text: &str) -> (u16, u16) {
    let all = contents(text);
    let last = all.constraints.last().expect("a constrain");
    (last.class, all.rows[last.first_row as usize].number)
}

#[test]
fn reading_55_the_whole_text_level_behind_the_last_block() {
    let shorter = "(role a)(class c(p))(block b(role a)(class c(p))(constrain(c(p))(eq r1 a)))";
    assert_eq!(last_constrain(shorter), (1, 1));
    assert_eq!(last_constrain(&format!("{shorter}(constrain(c(p))(eq r1 a))")), (0, 0));
    assert_eq!(last_constrain(&format!("{shorter}(constrain(b.c(p))(eq r1 .b.a))")), (1, 1));
    // A text that ends inside a comment: the comment has to end first.
    assert_eq!(table(&format!("{shorter};x(constrain(c(p))(eq r1 a))")), table(shorter));
    assert_eq!(last_constrain(&format!("{shorter};x\n(constrain(c(p))(eq r1 a))")), (0, 0));
}

#[test]
fn reading_56_what_was_a_wrong_byte_at_the_dot() {
    assert_eq!(refused("(role a.b)"), (3, 0, 1));
    assert_eq!(refused("(role a)(roleallow a.a a)"), (5, 8, 1));
    assert_eq!(refused("(role a)(role a)(role b.)"), (2, 22, 1));
}

/// New roles by full names: roles a, b.a; types t, b.t; classes c, b.c.
#[test]
fn new_roles_by_full_names() {
    let table = table(
        "(role a)(type t)(class c(p))(block b(role a)(type t)(class c(p))(roletransition a .t c .a)(roletransition .a t .c a))",
    );
    assert_eq!(new_role(&table, 1, 0, 1), RoleAnswer::Role(0));
    assert_eq!(new_role(&table, 0, 1, 0), RoleAnswer::Role(1));
    for (role, kind, class) in [(0, 0, 0), (0, 0, 1), (0, 1, 1), (1, 0, 0), (1, 1, 0), (1, 1, 1)] {
        assert_eq!(new_role(&table, role, kind, class), RoleAnswer::Role(role as usize));
    }
}

#[test]
fn the_most_blocks_and_the_longest_full_names() {
    for (label, text, fault) in maxima::most_blocks() {
        assert_eq!(text.len(), 65_529, "{label}");
        assert_eq!(table_of(&text).err(), fault, "{label}");
    }
    let text = maxima::longest_full_names();
    let table = table_of(&text).expect("accepted");
    let read = decode(&table).unwrap();
    assert!(text.len() < 13_000 && table.len() > 65_536, "{} {}", text.len(), table.len());
    assert_eq!(read.counts.sorts, [128, 128, 512, 64, 64, 64, 32]);
    assert!(read.contents.names.iter().all(|entry| entry.sort == 7 || entry.name.len() == 64));
    assert_eq!(read.contents.types_of_role[127], set(&[511]));
}

/// What a listed text without dots and blocks gives, it gives in a block too: the same refusal further on, or the same table
/// under other names.
#[test]
fn listed_cases_in_a_block() {
    let mut kept = [0; 10];
    for case in cases() {
        let list = pieces(&case.text);
        let mut words = list.iter().filter(|piece| piece.kind == PieceKind::Word);
        let fits = words.all(|piece| piece.bytes != b"block" && !piece.bytes.contains(&b'.') && piece.bytes.len() <= 61);
        // A refusal 2 may go or become another one, and level 32 becomes 33.
        let number = case.fault.map_or(0, |fault| fault.number);
        if !fits || number == 2 || case.text.starts_with(b"((((((((((") || case.rule.contains("levels") {
            continue;
        }
        kept[number as usize] += 1;
        let inside = table_of(&[b"(block zz ", case.text.as_slice(), b"\n)"].concat());
        match case.fault {
            Some(fault) => assert_eq!(inside, Err(Fault { place: fault.place + 10, ..fault }), "{}", case.rule),
            None => {
                let mut read = decode(&table_of(&case.text).unwrap()).unwrap().contents;
                read.names.iter_mut().filter(|e| e.sort != 7).for_each(|e| e.name = [b"zz.", e.name.as_slice()].concat());
                assert_eq!(inside, Ok(assemble(&bodies(&read))), "{}", case.rule);
            }
        }
    }
    assert!(kept[0] > 80 && kept[3] > 100 && [4, 5, 6, 7, 8, 9].iter().all(|&number| kept[number] >= 3), "{kept:?}");
}

/// Whether the last part of one name is all of another of its sort. Dots are written as `-` here.
fn hides(inner: &NameEntry, other: &NameEntry) -> bool {
    inner.sort == other.sort && inner.name.ends_with(&[b"-", other.name.as_slice()].concat())
}

/// A random policy in blocks gives the table of the same policy without blocks, but for the dots of its names. The names
/// meant were chosen before they were written, so this holds the lookup to something other than itself.
#[test]
fn random_policies_in_blocks_and_without() {
    let mut random = Random::new(31);
    let (mut dotted, mut deepest, mut leading, mut shadowed) = (0, 0, 0, 0);
    for round in 0..500 {
        let steps = random.between(5, 80);
        let shape = Shape { small: round % 2 == 0, objects: round % 7 == 0, relabels: round % 3 == 0, ..Shape::good(steps) };
        let (inside, flat) = policy_twice(&mut random, shape);
        let inside = lay_out(&mut random, &inside, Gaps::Least);
        let flat = lay_out(&mut random, &flat, Gaps::Least);
        let said = String::from_utf8_lossy(&inside).into_owned();
        let mut read = decode(&table_of(&inside).unwrap_or_else(|fault| panic!("{fault}: {said}"))).unwrap().contents;
        leading += said.matches(" .").count();
        for entry in &mut read.names {
            let parts = entry.name.split(|&byte| byte == b'.').count();
            dotted += (parts > 1) as usize;
            deepest = deepest.max(parts);
            entry.name.iter_mut().filter(|byte| **byte == b'.').for_each(|byte| *byte = b'-');
        }
        let outer = decode(&table_of(&flat).unwrap_or_else(|fault| panic!("{fault}: {said}"))).unwrap().contents;
        assert_eq!(read, outer, "{said}");
        shadowed += outer.names.iter().filter(|inner| outer.names.iter().any(|other| hides(inner, other))).count();
    }
    assert!(dotted > 2_000 && deepest >= 8 && leading > 2_000 && shadowed > 300, "{dotted} {deepest} {leading} {shadowed}");
}

/// Damage of dots and blocks reaches every refusal but 1.
#[test]
fn damaged_policies_in_blocks() {
    let mut random = Random::new(22);
    let (mut refusals, mut accepted) = ([0; 10], 0);
    for round in 0..1_500 {
        let steps = random.between(3, 30);
        let shape = Shape {
            blocks: true,
            cycles: round % 10 == 1,
            clashes: round % 10 == 2,
            deep: round % 10 == 3,
            crowded: round % 10 == 4,
            ..Shape::small(steps)
        };
        let text = policy_text(&mut random, shape);
        let text = match round % 3 {
            0 => damage_dots(&mut random, &text),
            1 => damage_blocks(&mut random, &text),
            _ => damage(&mut random, &text),
        };
        match table_of(&text) {
            Ok(_) => accepted += 1,
            Err(fault) => refusals[fault.number as usize] += 1,
        }
    }
    assert!(accepted > 100 && refusals[2..].iter().all(|&count| count > 10), "{accepted} {refusals:?}");
}

/// The sample roll of three branches: every name in full, and an inner name before an outer one.
#[test]
fn the_sample_branches() {
    let text = include_str!("../../examples/branches.cil");
    assert_eq!(names(text, 0), ["north.alder", "north.birch", "harbour.cedar", "harbour.dogwood", "harbour.night.elm", "south.fir"]);
    assert_eq!(names(text, 1), ["clerk", "registrar", "north.cashier", "harbour.clerk", "south.registrar"]);
    let roles = contents(text).roles_of_user;
    assert_eq!(roles[2], set(&[3]), "cedar is a clerk of the harbour");
    assert_eq!(roles[3], set(&[0]), "dogwood is a clerk of the office");
}
