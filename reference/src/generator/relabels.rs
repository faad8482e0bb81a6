//! Document 02, W-205, by hand: texts with validatetrans in the form of `cases`, with the line of each refusal (readings 63 to
//! 67), tables of both editions (67 to 70), and policies with one statement more (75). The questions are in `asked`.

use crate::generator::cases::ListedOnLine;

/// Short texts of every kind. Of W-205 these alone become theorems as well, each of which takes long to check.
pub const FEW: &[ListedOnLine] = &[
    (0, 0, "(class c(p))(validatetrans c(eq u1 u2))", "W-205, reading 63: the form"),
    (3, 1, "(class c(p))@(validatetrans (c) (eq u1 u2))", "W-205, reading 63: C is a name"),
    (3, 2, "(class c(p))\n@(validatetrans (c (p)) (eq u1 u2))", "W-205, reading 63: no permissions"),
    (3, 1, "@(validatetrans c (eq u1 u2) (eq u1 u2))", "W-205, reading 63: one E"),
    (3, 1, "@(mlsvalidatetrans c (eq u1 u2))", "W-205, reading 63: left out"),
    (3, 1, "@(validatetrans c (eq u1 u3))", "W-205, reading 64: no pair with side 3"),
    (3, 1, "@(validatetrans c (eq u3 u3))", "W-205, reading 64: no pair with side 3"),
    (3, 1, "@(validatetrans c (dom r3 a))", "W-205, reading 64: eq and neq alone"),
    (3, 1, "(class c (p))(user u)@(constrain (c (p)) (eq u3 u))", "W-205, reading 64: in constrain it stays 3"),
    (0, 0, "(roleattribute x)(class c(p))(validatetrans c(neq r3 x))", "W-205, reading 64: r3 and an attribute"),
    (5, 2, "(user u)\n@(validatetrans c (eq u3 u))(class c(p))", "W-205, reading 65: a class declared before"),
    (5, 1, "(role u)(class c(p))@(validatetrans c (or (eq u1 u2) (eq u3 u)))", "W-205, reading 65: a name of the family"),
    (0, 0, "(block b(class c(p))(type t)(validatetrans c(eq t3 t)))", "W-205, reading 65: found as any use"),
    (0, 0, "(class c (p))(user u)(validatetrans c (eq u3 u))", "W-205, reading 67: 125 bytes"),
    (
        0,
        0,
        "(class c(p))(class d(q))(validatetrans d(not(eq u1 u2)))(constrain(c(p))(eq u1 u2))(validatetrans c(eq t1 t2))",
        "W-205, reading 67: sections 9 and 10 beside 6 and 7",
    ),
];

/// 3: `(validatetrans C E)`, "E as in constrain, x also u3, r3 or t3; no pair with side 3".
pub const FORM: &[ListedOnLine] = &[
    (3, 1, "@(validatetrans)", "W-205, reading 63"),
    (3, 1, "(class c(p))@(validatetrans c)", "W-205, reading 63: no E"),
    (3, 1, "(class c(p))@(validatetrans (eq u1 u2))", "W-205, reading 63: no C"),
    (3, 1, "(class c(p))@(validatetrans (eq u1 u2) c)", "W-205, reading 63: C first"),
    (3, 1, "(class c(p))@(validatetrans c p (eq u1 u2))", "W-205, reading 63: no permission"),
    (3, 1, "(class c(p))@(validatetrans c (p) (eq u1 u2))", "W-205, reading 63: no permissions"),
    (3, 1, "(class c(p))@(validatetrans c ())", "W-205, reading 63: an empty E"),
    (3, 1, "(class c(p))@(validatetrans c eq)", "W-205, reading 63: E in parentheses"),
    (3, 1, "(class c(p))@(validatetrans c eq u1 u2)", "W-205, reading 63: E in parentheses"),
    (3, 1, "(class c(p))@(validatetrans c ((eq u1 u2)))", "W-205, reading 63: E as in constrain"),
    (3, 1, "(class c(p))@(validatetrans all (eq u1 u2))", "W-205, reading 63: a reserved word for C"),
    (3, 1, "(class c(p))@(validatetrans u3 (eq u1 u2))", "W-205, reading 63: a reserved word for C"),
    (3, 1, "(class c(p))@(validatetrans c.t3 (eq u1 u2))", "W-205, reading 63: a reserved part in C"),
    (3, 1, "(class c(p))@(Validatetrans c (eq u1 u2))", "W-205, reading 63: an unknown keyword"),
    (3, 1, "(class c(p))@(.validatetrans c (eq u1 u2))", "W-205, reading 63: a dotted keyword is none"),
    (3, 3, "(class c(p))\n;\n@(mlsvalidatetrans\n c (eq u1 u2))", "W-205, reading 63: left out"),
    (0, 0, "(class validatetrans(validatetrans))(validatetrans validatetrans(eq u1 u2))", "W-205, reading 63: keywords are free"),
    (3, 1, "(class c(p))@(validatetrans c (eq u3 u1))", "W-205, reading 64"),
    (3, 1, "(class c(p))@(validatetrans c (eq u3 u2))", "W-205, reading 64"),
    (3, 1, "(class c(p))@(validatetrans c (eq u2 u3))", "W-205, reading 64"),
    (3, 1, "(class c(p))@(validatetrans c (neq t1 t3))", "W-205, reading 64"),
    (3, 1, "(class c(p))@(validatetrans c (eq t3 t3))", "W-205, reading 64"),
    (3, 1, "(class c(p))@(validatetrans c (eq r1 r3))", "W-205, reading 64"),
    (3, 1, "(class c(p))@(validatetrans c (dom r1 r3))", "W-205, reading 64"),
    (3, 1, "(class c(p))@(validatetrans c (domby r3 r1))", "W-205, reading 64"),
    (3, 1, "(class c(p))@(validatetrans c (incomp r3 r2))", "W-205, reading 64"),
    (3, 1, "(role a)(class c(p))@(validatetrans c (incomp r3 a))", "W-205, reading 64: eq and neq alone"),
    (3, 1, "(role a)(class c(p))@(validatetrans c (domby r1 a))", "W-205, reading 64: as in constrain"),
    (3, 1, "(class c(p))@(validatetrans c (dom t1 t2))", "W-205, reading 64: as in constrain"),
    (3, 1, "(class c(p))@(validatetrans c (eq u2 u1))", "W-205, reading 64: as in constrain"),
    (3, 1, "(class c(p))@(validatetrans c (eq u1 r2))", "W-205, reading 64: as in constrain"),
    (3, 1, "(class c(p))@(validatetrans c (eq u3 r3))", "W-205, reading 64"),
    (3, 1, "(class c(p))@(validatetrans c (eq u3 all))", "W-205, reading 64: a reserved word for a name"),
    (3, 1, "(user a)(class c(p))@(validatetrans c (not (eq a u3)))", "W-205, reading 64: the side first"),
    (3, 1, "(user a)(class c(p))@(validatetrans c (eq u3))", "W-205, reading 64"),
    (3, 1, "(user a)(class c(p))@(validatetrans c (eq u3 a a))", "W-205, reading 64"),
    (3, 1, "(user a)(class c(p))@(validatetrans c (eq u3 (a)))", "W-205, reading 64"),
    (3, 1, "(user a)(class c(p))@(validatetrans c (eq u4 a))", "W-205, reading 64: no side 4"),
    (3, 1, "(user a)(class c(p))@(validatetrans c (eq l1 a))", "W-205, reading 64: no levels"),
    (3, 1, "(user u)(class c(p))@(validatetrans c (eq .u3 u))", "W-205, reading 64: sides are undotted"),
    (3, 1, "(class c(p))@(validatetrans c (xor (eq u1 u2) (eq u1 u2)))", "W-205, reading 64: as in constrain"),
    (3, 1, "(class c(p))@(validatetrans c (and (eq u1 u2)))", "W-205, reading 64: as in constrain"),
    (3, 1, "(class c(p))@(validatetrans c (or (eq u1 u2) (eq u1 u2) (eq u1 u2)))", "W-205, reading 64: as in constrain"),
    (3, 1, "(class c(p))@(validatetrans c (not (eq u1 u2) (eq u1 u2)))", "W-205, reading 64: as in constrain"),
    (
        3,
        2,
        "(class c (p))(role a)\n@(constrain (c (p)) (and (eq u1 u2) (neq r3 a)))",
        "W-205, reading 64: in constrain it stays 3",
    ),
    (3, 1, "(class c (p))(type t)@(constrain (c (p)) (eq t3 t))", "W-205, reading 64: in constrain it stays 3"),
    (3, 1, "(class c (p))@(constrain (c (p)) (eq u1 u3))", "W-205, reading 64: in constrain it stays 3"),
    (3, 1, "@(validatetrans nope (eq u3 u1))", "W-205, reading 64: 3 before any name is looked up"),
    (3, 1, "@(user u3)", "W-205, reading 64: sides stay reserved"),
    (0, 0, "(user u)(class c(p))(validatetrans c(eq u3 u))(validatetrans c(neq u3 u))", "W-205, reading 64: u3 and a name"),
    (0, 0, "(userattribute x)(class c(p))(validatetrans c(eq u3 x))", "W-205, reading 64: u3 and an attribute"),
    (0, 0, "(role a)(role b)(class c(p))(validatetrans c(eq r3 b))", "W-205, reading 64: r3 and a thing"),
    (0, 0, "(type s)(type t)(class c(p))(validatetrans c(eq t3 t))", "W-205, reading 64: t3 and a thing"),
    (0, 0, "(type s)(typeattribute t)(class c(p))(validatetrans c(neq t3 t))", "W-205, reading 64: t3 and an attribute"),
    (
        0,
        0,
        "(user u)(role r)(type t)(class c(p))\
         (validatetrans c(and(or(eq u1 u)(eq u2 u))(and(or(eq r1 r)(eq r2 r))(or(eq t1 t)(eq t2 t)))))",
        "W-205, reading 64: sides 1 and 2 with names",
    ),
    (
        0,
        0,
        "(class c(p))(validatetrans c(and(dom r1 r2)(and(domby r1 r2)(and(incomp r1 r2)(and(neq u1 u2)(eq t1 t2))))))",
        "W-205, readings 64 and 74: every pair",
    ),
];

/// 4 to 7, and what is accepted: classes and names as for constrain.
pub const NAMES: &[ListedOnLine] = &[
    (
        0,
        0,
        "(class file(read))(block unconfined(type process))(validatetrans file (eq t1 unconfined.process))",
        "W-205, reading 65: the example of source document 001",
    ),
    (0, 0, "(class c(p))(class process(transition))(validatetrans process(eq u1 u2))", "W-205, reading 65: any declared class"),
    (
        0,
        0,
        "(block b(class c(p)))(validatetrans b.c(eq u1 u2))(block d(validatetrans .b.c(eq t1 t2)))",
        "W-205, reading 65: C dotted",
    ),
    (0, 0, "(user u)(block b(user u)(class c(p))(validatetrans c(eq u3 u)))", "W-205, reading 65: within a block"),
    (0, 0, "(user u)(class c(p))(block b(block c(validatetrans c(neq u3 u))))", "W-205, reading 65: outward"),
    (0, 0, "(class c(p))(block b(role c)(validatetrans c(eq r1 r2)))", "W-205, reading 65: a hit of another family is none"),
    (
        0,
        0,
        "(class c(p))(user u)(block b(class c(q))(userattribute u)(validatetrans c(eq u3 u))(validatetrans .c(eq u3 .u)))",
        "W-205, reading 65: the innermost name decides",
    ),
    (5, 1, "@(validatetrans c (eq u1 u2))", "W-205, reading 65: unknown class"),
    (5, 1, "(class c(p))@(validatetrans c.p (eq u1 u2))", "W-205, reading 65: unknown class"),
    (5, 1, "(role c)(type c)(user c)@(validatetrans c (eq u1 u2))", "W-205, reading 65: a class, of its own family"),
    (5, 1, "(block b(class c(p))@(validatetrans .c (eq u1 u2)))", "W-205, reading 65: the whole-text level alone"),
    (5, 2, "(block b(class c(p)))\n@(validatetrans c (eq u1 u2))", "W-205, reading 65: not into blocks"),
    (5, 1, "(class c(p))@(validatetrans c (eq u3 u))", "W-205, reading 65: unknown name"),
    (5, 1, "(class c(p))@(validatetrans c (eq u3 u))(user u)", "W-205, reading 65: a name declared before"),
    (5, 1, "(user a)(class c(p))@(validatetrans c (eq r3 a))", "W-205, reading 65: a name of the wrong family"),
    (5, 1, "(user a)(role a)(class c(p))@(validatetrans c (eq t3 a))", "W-205, reading 65: a name of the wrong family"),
    (5, 1, "(class c(p))@(validatetrans c (and (eq u1 u2) (not (neq t1 nope))))", "W-205, reading 65: unknown name in E"),
    (5, 2, "(user u)(block b\n@(validatetrans c (eq u3 u)))(class c(p))", "W-205, reading 65: unknown class in a block"),
    (0, 0, "(role u)(class c(p))(validatetrans c(eq r3 u))", "W-205, reading 65: a name of its family"),
    (4, 1, "(class c(p))(validatetrans c(eq u1 u2))@(class c(q))", "W-205, reading 65: a use declares nothing"),
    (5, 1, "(class c(p))@(validatetrans d (eq u1 u2))(validatetrans c c)", "W-205, reading 65: an earlier 5 before a later 3"),
    (
        8,
        2,
        "(class c(p))\n@(roleattribute x)(validatetrans c(eq r3 x))(roleattributeset x(x))",
        "W-205, reading 65: 8 comes after all statements",
    ),
    (
        7,
        1,
        "(class c(p))@(validatetrans c (and(eq u1 u2)(and(eq u1 u2)(and(eq u1 u2)(and(eq u1 u2)(and(eq u1 u2)(eq u1 u2)))))))",
        "W-205, reading 66: 7 as for constrain",
    ),
    (
        5,
        1,
        "(class c(p))@(validatetrans c (and(eq u1 u2)(and(eq u1 u2)(and(eq u1 u2)(and(eq u1 u2)(and(eq u1 u2)(eq u3 u)))))))",
        "W-205, reading 66: 5 before 7",
    ),
    (
        0,
        0,
        "(class c(p))(validatetrans c(and(and(and(and(and(eq u1 u2)(eq u1 u2))(eq u1 u2))(eq u1 u2))(eq u1 u2))(eq u1 u2)))",
        "W-205, reading 66: to the left it needs 2",
    ),
    (
        0,
        0,
        "(user u)(class c(p))(validatetrans c(and(eq u3 u)(or(eq u1 u2)(not(and(neq u2 u)(or(eq r1 r2)(eq t1 t2)))))))",
        "W-205, readings 66 and 67: a need of 5",
    ),
];

/// A table and whether it is sound.
pub struct ListedTable {
    pub rule: &'static str,
    pub sound: bool,
    pub bytes: Vec<u8>,
}

/// Reading 67's table, written out: `(class c (p))(user u)(validatetrans c (eq u3 u))`.
pub fn small_table() -> Vec<u8> {
    let head = [2, 0, 10, 0];
    let pairs: [(u8, u8); 10] =
        [(84, 15), (99, 16), (115, 0), (115, 0), (115, 0), (115, 0), (115, 0), (115, 0), (115, 4), (119, 6)];
    let bodies: [&[u8]; 4] =
        [b"\x06\0\0\x01c\x07\0\0\x01p\0\0\0\x01u", &[0; 16], &[0, 0, 1, 0], &[4, 6, 0, 0, 0, 0]];
    [&head, with_pairs(&pairs).as_slice(), &bodies.concat()].concat()
}

/// The table of `(class c (p))(user u)` in edition 1.
pub fn small_older_table() -> Vec<u8> {
    let pairs: [(u8, u8); 8] = [(68, 15), (83, 16), (99, 0), (99, 0), (99, 0), (99, 0), (99, 0), (99, 0)];
    [&[1, 0, 8, 0], with_pairs(&pairs).as_slice(), b"\x06\0\0\x01c\x07\0\0\x01p\0\0\0\x01u", &[0; 16]].concat()
}

/// Offsets and lengths below 256, in four bytes each.
fn with_pairs(pairs: &[(u8, u8)]) -> Vec<u8> {
    pairs.iter().flat_map(|(offset, length)| [*offset, 0, 0, 0, *length, 0, 0, 0]).collect()
}

/// The bytes with others from a place on.
fn with(table: &[u8], at: usize, bytes: &[u8]) -> Vec<u8> {
    [&table[..at], bytes, &table[at + bytes.len()..]].concat()
}

/// Tables of both editions. In the small table section 9 is at 115 and section 10 at 119.
pub fn tables() -> Vec<ListedTable> {
    let new = small_table();
    let old = small_older_table();
    let changed = |at: usize, bytes: &[u8]| with(&new, at, bytes);
    // Two rows instead of one: the length of section 10 is at 80, the row count at 117.
    let rows = |count: u8, rows: &[[u8; 6]]| {
        let bytes: Vec<u8> = rows.concat();
        let table = with(&with(&new[..119], 80, &[bytes.len() as u8]), 117, &[count]);
        [table, bytes].concat()
    };
    let pair = [3, 0, 0, 0, 0, 0];
    let named = [4, 6, 0, 0, 0, 0];
    let not = [0; 6];
    let and = [1, 0, 0, 0, 0, 0];
    let list: Vec<(bool, Vec<u8>, &'static str)> = vec![
        (true, new.clone(), "W-205, reading 67: 125 bytes"),
        (true, old.clone(), "W-205, reading 70: edition 1 stays sound"),
        (true, [new.as_slice(), &[255; 9]].concat(), "W-205, reading 68: bytes behind edition 2"),
        (true, [old.as_slice(), &[255; 30]].concat(), "W-205, reading 68: bytes behind edition 1"),
        (false, changed(0, &[1]), "W-205, reading 68: edition 1 with 10 sections"),
        (false, changed(2, &[8]), "W-205, reading 68: edition 2 with 8 sections"),
        (false, with(&old, 0, &[2]), "W-205, reading 68: edition 2 with 8 sections"),
        (false, with(&old, 2, &[10]), "W-205, reading 68: edition 1 with 10 sections"),
        (false, [with(&old, 0, &[2, 0, 10]), vec![0; 40]].concat(), "W-205, reading 68: the head of edition 2 alone"),
        (false, with(&new, 0, &[1, 0, 8]), "W-205, reading 68: the head of edition 1 alone"),
        (false, changed(0, &[0]), "W-205, reading 68: edition 0"),
        (false, changed(0, &[3]), "W-205, reading 68: an edition not known"),
        (false, changed(0, &[3, 0, 11]), "W-205, reading 68: an edition not known"),
        (false, changed(1, &[1]), "W-205, reading 68: an edition not known"),
        (false, changed(2, &[9]), "W-205, reading 68: 9 sections"),
        (false, changed(2, &[11]), "W-205, reading 68: 11 sections"),
        (false, changed(3, &[1]), "W-205, reading 68: 266 sections"),
        (false, new[..83].to_vec(), "W-205, reading 68: cut within the head"),
        (false, new[..124].to_vec(), "W-205, reading 68: cut within section 10"),
        (false, old[..98].to_vec(), "W-205, reading 68: edition 1 cut at its end"),
        (true, changed(120, &[0]), "W-205, reading 69: component 0 in section 10"),
        (true, changed(120, &[1]), "W-205, reading 69: component 1 in section 10"),
        (false, changed(120, &[2]), "W-205, reading 69: a role that is not declared"),
        (false, changed(120, &[7]), "W-205, reading 69: a role that is not declared, on side 3"),
        (false, changed(120, &[8]), "W-205, reading 69: a type that is not declared, on side 3"),
        (false, changed(120, &[9]), "W-205, reading 69: no component 9"),
        (false, changed(119, &[5]), "W-205, reading 69: an attribute that is not declared, on side 3"),
        (true, changed(121, &[1]), "W-205, reading 69: neq"),
        (false, changed(121, &[2]), "W-205, reading 69: dom with a name"),
        (false, changed(122, &[1]), "W-205, reading 69: the fourth byte"),
        (false, changed(123, &[1]), "W-205, reading 69: a user that is not declared"),
        (false, changed(119, &[3]), "W-205, reading 69: a pair with side 3"),
        (true, rows(1, &[pair]), "W-205, reading 69: a pair"),
        (true, rows(1, &[[3, 2, 4, 0, 0, 0]]), "W-205, reading 69: incomp of roles"),
        (false, rows(1, &[[3, 0, 2, 0, 0, 0]]), "W-205, reading 69: dom of users"),
        (false, rows(1, &[[3, 1, 0, 0, 0, 0]]), "W-205, reading 69: a pair from side 2"),
        (false, rows(1, &[[3, 7, 0, 0, 0, 0]]), "W-205, reading 69: a pair with side 3"),
        (false, rows(1, &[[3, 8, 0, 0, 0, 0]]), "W-205, reading 69: a pair with side 3"),
        (true, rows(2, &[named, not]), "W-205, reading 69: two rows"),
        (false, rows(1, &[named, not]), "W-205, reading 69: a row left"),
        (false, rows(3, &[named, not]), "W-205, reading 69: a row missing"),
        (false, rows(0, &[]), "W-205, reading 69: at least one row"),
        (false, rows(0, &[named]), "W-205, reading 69: at least one row"),
        (false, rows(2, &[named, pair]), "W-205, reading 69: two on the stack at the end"),
        (false, rows(1, &[not]), "W-205, reading 69: none on the stack"),
        (false, rows(3, &[named, and, pair]), "W-205, reading 69: none on the stack in between"),
        (true, rows(9, &[pair, pair, pair, pair, named, and, and, and, and]), "W-205, reading 69: five on the stack"),
        (
            false,
            rows(11, &[pair, pair, pair, pair, pair, named, and, and, and, and, and]),
            "W-205, reading 69: six on the stack",
        ),
        (false, rows(2, &[named, [0, 6, 0, 0, 0, 0]]), "W-205, reading 69: an operator with a component"),
        (false, rows(2, &[named, [6, 0, 0, 0, 0, 0]]), "W-205, reading 69: no kind 6"),
        (false, changed(115, &[1]), "W-205, reading 69: a class that is not declared"),
        (false, changed(116, &[1]), "W-205, reading 69: a class that is not declared"),
        (false, changed(118, &[1]), "W-205, reading 69: the row count in two bytes"),
        (false, section_7_row(6), "W-205, reading 69: component 6 in section 7"),
        (false, section_7_row(7), "W-205, reading 69: component 7 in section 7"),
        (false, section_7_row(8), "W-205, reading 69: component 8 in section 7"),
        (true, section_7_row(1), "W-205, reading 70: edition 1 with a constraint"),
    ];
    list.into_iter().map(|(sound, bytes, rule)| ListedTable { rule, sound, bytes }).collect()
}

/// The table of `(class c (p))(user u)(constrain (c (p)) (eq u2 u))` in edition 1, with that component in its row.
fn section_7_row(component: u8) -> Vec<u8> {
    let old = small_older_table();
    let pairs: [(u8, u8); 8] = [(68, 15), (83, 16), (99, 0), (99, 0), (99, 0), (99, 10), (109, 6), (115, 0)];
    let behind: [&[u8]; 2] = [&[0, 0, 1, 0, 0, 0, 0, 0, 1, 0], &[4, component, 0, 0, 0, 0]];
    [&old[..4], with_pairs(&pairs).as_slice(), &old[68..], &behind.concat()].concat()
}

/// Reading 75: a policy, and one statement that is added at its end.
pub struct Longer {
    pub rule: &'static str,
    pub text: String,
    pub added: &'static str,
    /// Whether some change, and some relabelling, is denied only by the added statement.
    pub denies_change: bool,
    pub denies_relabelling: bool,
}

/// All four combinations of question and added statement. In numbers each policy has two users, roles, types and classes.
pub fn longer() -> Vec<Longer> {
    let base = "(user u)(user v)(role a)(role b)(type s)(type t)(userrole u a)(userrole v b)(roletype a s)(roletype b t)\
                (class c(p))(class d(p))";
    let both = format!("{base}(constrain(c(p))(eq u1 u2))(validatetrans c(eq u3 v))");
    let in_blocks = format!("{base}(block b(class c(p))(validatetrans .c(neq u1 v)))");
    let one = |rule, text: &str, added, denies_change, denies_relabelling| Longer {
        rule,
        text: text.to_string(),
        added,
        denies_change,
        denies_relabelling,
    };
    vec![
        one("W-205, reading 75: a constrain and changes", base, "(constrain(c(p))(eq u1 u))", true, false),
        one("W-205, reading 75: a constrain and relabellings", &both, "(constrain(c(p))(neq r1 a))", true, false),
        one("W-205, reading 75: a validatetrans and relabellings", base, "(validatetrans c(eq u3 u))", false, true),
        one("W-205, reading 75: a validatetrans and changes", &both, "(validatetrans c(neq t1 s))", false, true),
        one("W-205, reading 75: what is always true", &both, "(validatetrans d(or(eq u3 u)(neq u3 u)))", false, false),
        one("W-205, reading 75: what is never true", &both, "(validatetrans d(and(eq u3 u)(neq u3 u)))", false, true),
        one("W-205, reading 75: behind blocks, at whole-text level", &in_blocks, "(validatetrans c(eq t3 t))", false, true),
    ]
}
