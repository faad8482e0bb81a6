//! Texts listed by hand, one for each cause that document 01 or a reading names. The place of a fault is marked with `@`,
//! which is taken out of the text; an accepted text has none and the number 0. The line is counted from the place, but for
//! the texts about lines (document 02, W-202), blocks (W-203) and validatetrans (W-205): theirs is said beside them.

use crate::fault::Fault;
use crate::generator::{blocks, relabels};

pub struct Case {
    pub text: Vec<u8>,
    pub fault: Option<Fault>,
    pub rule: String,
}

/// Every listed case.
pub fn cases() -> Vec<Case> {
    let mut list = cases_for_theorems();
    let listed = [blocks::SCAN, blocks::FORM, blocks::NAMES, relabels::FORM, relabels::NAMES];
    for (number, line, marked, rule) in listed.into_iter().flatten() {
        list.push(case_on_line(*number, *line, marked, rule));
    }
    for (number, line, marked, rule) in blocks::built() {
        list.push(case_on_line(number, line, &marked, rule));
    }
    list
}

/// The listed cases that may become theorems as well: those without blocks, dots and validatetrans, and a few with them.
pub fn cases_for_theorems() -> Vec<Case> {
    let mut list: Vec<Case> = Vec::new();
    let tables = [PAPER, SCAN, FORM, SETS, EXPRESSIONS, FREE_WORDS, NAMES, CYCLES, CLASHES, TABLES];
    for (number, marked, rule) in tables.into_iter().flatten() {
        list.push(case(*number, marked, rule));
    }
    for (number, marked, rule) in built() {
        list.push(case(number, &marked, rule));
    }
    for (number, line, marked, rule) in [LINES, blocks::FEW, relabels::FEW].into_iter().flatten() {
        list.push(case_on_line(*number, *line, marked, rule));
    }
    for (number, line, marked, rule) in built_of_lines() {
        list.push(case_on_line(number, line, &marked, rule));
    }
    list
}

fn case(number: u8, marked: &str, rule: &str) -> Case {
    let place = marked.find('@');
    let text = marked.replacen('@', "", 1).into_bytes();
    assert_eq!(number == 0, place.is_none(), "{marked}");
    let fault = place.map(|place| Fault::new(number, place).in_text(&text));
    Case { text, fault, rule: rule.to_string() }
}

/// A case whose line is counted by hand.
fn case_on_line(number: u8, line: usize, marked: &str, rule: &str) -> Case {
    assert_eq!(number == 0, line == 0, "{marked}");
    let case = case(number, marked, rule);
    Case { fault: case.fault.map(|fault| Fault { line, ..fault }), ..case }
}

type Listed = (u8, &'static str, &'static str);
/// The line comes after the number; it is 0 for an accepted text.
pub type ListedOnLine = (u8, usize, &'static str, &'static str);
pub type BuiltOnLine = (u8, usize, String, &'static str);

/// P1 to P11 of "Checked by hand", and the examples of the running text.
const PAPER: &[Listed] = &[
    (0, "", "P1 empty text"),
    (0, "(user u)(role a)(role b)(type t)(userrole u a)(roletype a t)", "P2 the printed roll"),
    (4, "(role a)@(role a)", "P3"),
    (5, "(role a)@(roletype a t)", "P4"),
    (2, "(@", "P5"),
    (3, "@()", "P6"),
    (8, "@(roleattribute x)(roleattributeset x (x))", "P7"),
    (0, "(role a)(role b)(role c)(roleattribute x)(roleattributeset x (not (a b)))", "P8 not"),
    (0, "(role a)(role b)(role c)(roleattribute x)(roleattributeset x (xor (a b) (b c)))", "P9 xor"),
    (0, "(user u)(role a)(role b)(type t)(userrole u a)(roletype a t)(class c (p))", "P11 the roll with a class"),
    (0, "(role role)", "Statement keywords are not reserved"),
    (0, "(role a)(type t)(roletype a t)", "the keyword is roletype"),
    (3, "(role a)(type t)@(role a t)", "the keyword is roletype"),
];

/// Readings 2 to 10.
const SCAN: &[Listed] = &[
    (2, "(role @1a)", "reading 2: a bad name"),
    (2, "(role @-)", "reading 2: a bad name"),
    (2, "(role @-a)", "reading 2: a bad name"),
    (2, "(role @1a!)", "reading 2: a bad name before a wrong byte"),
    (2, "(@1role a)", "reading 2: a bad name as keyword"),
    (2, "(role a@!b)", "reading 3: a wrong byte right after a good name"),
    (2, "(role @!a)", "reading 3: a wrong byte before a name"),
    (2, "@role", "reading 5: a name outside parentheses"),
    (2, "(role a)@role a", "reading 5: a name outside parentheses"),
    (2, "(role a)@all", "reading 5: a reserved name outside parentheses"),
    (2, "(role a)@1a", "reading 5: a bad name outside parentheses"),
    (2, "@-", "reading 5: a bad name outside parentheses"),
    (2, "(role a)(role a)@!", "reading 7: fault 2 before 4"),
    (2, "()@)", "reading 7: fault 2 before 3"),
    (2, "(role a)(roletype a t)(@", "reading 7: fault 2 before 5"),
    (2, "@)", "close without open"),
    (2, "(role a)@)", "close without open"),
    (2, "(role a@", "unclosed at end"),
    (2, "((role a)@", "unclosed at end"),
    (2, "(role a;)@", "reading 8: closed only in a comment"),
    (0, "(role a);)!1(", "reading 8: a comment to the end of the text"),
    (0, "(role a;x)!\n)", "reading 8: a comment touching a name"),
    (0, "(role;\na)", "reading 8: a comment parts tokens"),
    (3, "@(role a;b\nc)", "reading 8: a comment parts tokens"),
    (2, "(role a;\r)@", "reading 8: LF alone ends a comment"),
    (2, "(role @\"a\")", "reading 9: a quote is wrong"),
    (2, "(role a@\0)", "reading 9: NUL is wrong"),
    (2, "(role@\x0ba)", "reading 9: VT is wrong"),
    (2, "(role@\x0ca)", "reading 9: FF is wrong"),
    (2, "(role @\u{e9})", "reading 9: bytes from 128 on are wrong"),
    (2, "(role a)@!", "a wrong byte"),
    (2, "@#", "a wrong byte"),
    (2, "(role@/a)", "a wrong byte"),
    (2, "(role a@])", "a wrong byte"),
    (2, "@{role a}", "a wrong byte"),
    (2, "(role a@:b)", "a wrong byte"),
    (2, "(role a@+)", "a wrong byte"),
    (2, "(role a@~)", "a wrong byte"),
    (2, "(role @`)", "a wrong byte"),
    (0, "(role All)(role U1)", "reading 9: case matters"),
    (0, "( role\ta\r)\n", "blanks"),
    (0, "(class c(p))(class d(p q))", "reading 10: no blank is needed beside a parenthesis"),
    (0, "   ", "reading 10: blanks alone"),
    (0, ";", "reading 10: a comment alone"),
    (0, " ; x\n\t;\n", "reading 10: blanks and comments alone"),
    (0, "(type _)(type a-)(type __-1)", "A name starts with a letter or _"),
];

/// Readings 11, 12, 17, 19 and 20.
const FORM: &[Listed] = &[
    (3, "@(class c (p p all))", "reading 11: form before 4"),
    (3, "@(roletransition nope nope nope r1)", "reading 11: form before 5"),
    (3, "(role a)(class c (p))@(constrain (c (nope)) (eq a u1))", "reading 11: form before 5"),
    (4, "(role a)@(role a)()", "reading 11: an earlier 4 beats a later 3"),
    (5, "@(roletype a t)()", "reading 11: an earlier 5 beats a later 3"),
    (3, "(role a)(roleattribute x)@(roleattributeset x (or a (and a (not a a))))", "reading 12: the statement's own place"),
    (3, "(class c (p))@(constrain (c (p)) (not (and (eq u1 u2) (eq u2 u1))))", "reading 12: the statement's own place"),
    (3, "(role a)(roleattribute x)@(roleattributeset x a)", "reading 17: S is parenthesised"),
    (3, "(roleattribute x)@(roleattributeset x ())", "reading 17: () as S"),
    (3, "(role a)(roleattribute x)@(roleattributeset x (a ()))", "reading 17: () within S"),
    (3, "(role a)(roleattribute x)@(roleattributeset x (a) (a))", "one S only"),
    (3, "(roleattribute x)@(roleattributeset x)", "S is missing"),
    (3, "(role a)@(roleattributeset (x) (a))", "A is a name"),
    (3, "@(roleattributeset all (a))", "a reserved word for A"),
    (3, "(class c (p))@(constrain (c p) (eq u1 u2))", "reading 19"),
    (3, "(class c (p))@(constrain (c ()) (eq u1 u2))", "reading 19"),
    (3, "(class c (p q))@(constrain (c (p) (q)) (eq u1 u2))", "reading 19"),
    (3, "(class c (p))@(constrain c (p) (eq u1 u2))", "reading 19"),
    (3, "(class c (p))@(constrain ((c) (p)) (eq u1 u2))", "reading 19"),
    (3, "(class c (p))@(constrain (c ((p))) (eq u1 u2))", "reading 19"),
    (3, "(class c (p))@(constrain (c) (eq u1 u2))", "reading 19"),
    (3, "(class c (p))@(constrain () (eq u1 u2))", "reading 19"),
    (3, "@(class c)", "reading 19"),
    (3, "@(class c ())", "reading 19"),
    (3, "@(class c p)", "reading 19"),
    (3, "@(class c (p) (q))", "reading 19"),
    (3, "@(class c ((p)))", "reading 19"),
    (3, "@(class (c) (p))", "reading 19"),
    (3, "@(class)", "reading 19"),
    (3, "@(role a t)", "reading 20"),
    (3, "@(role)", "reading 20"),
    (3, "@(role (a))", "reading 20"),
    (3, "@(role ())", "reading 20"),
    (3, "@((role a))", "reading 20: a statement that starts with a parenthesis"),
    (3, "@(() role a)", "reading 20: a statement that starts with a parenthesis"),
    (3, "@(typealias a)", "reading 20: left out"),
    (3, "@(classmap c (p))", "reading 20: left out"),
    (3, "@(classpermission c)", "reading 20: left out"),
    (3, "@(rolebounds a a)", "reading 20: left out"),
    (3, "@(sensitivity s)", "reading 20: left out"),
    (3, "(class c (p))@(mlsconstrain (c (p)) (eq u1 u2))", "reading 20: left out"),
    (3, "(type t)(class c (p))@(allow t t (c (p)))", "reading 20: left out"),
    (3, "@(foo a)", "reading 20: unknown keyword"),
    (3, "@(Role a)", "reading 20: unknown keyword"),
    (3, "@(all)", "reading 20: unknown keyword"),
    (3, "(user a)(role a)@(userrole a)", "reading 20"),
    (3, "(user a)(role a)@(userrole a a a)", "reading 20"),
    (3, "(user a)(role a)@(userrole (a) a)", "reading 20"),
    (3, "(role a)@(roletype a (all))", "reading 20"),
    (3, "(role a)@(roleallow a)", "reading 20"),
    (3, "(role a)(type t)(class c (p))@(roletransition a t c)", "reading 20"),
    (3, "(role a)(type t)(class c (p))@(roletransition a t c a a)", "reading 20"),
    (3, "(role a)(type t)(class c (p))@(roletransition (a) t c a)", "reading 20"),
];

/// Readings 16 and 17.
const SETS: &[Listed] = &[
    (3, "(role a)(roleattribute x)@(roleattributeset x (all a))", "reading 16"),
    (3, "(role a)(roleattribute x)@(roleattributeset x (a all))", "reading 16"),
    (3, "(role a)(role b)(roleattribute x)@(roleattributeset x (a and b))", "reading 16"),
    (3, "(role a)(roleattribute x)@(roleattributeset x (not all))", "reading 16"),
    (3, "(role a)(role b)(roleattribute x)@(roleattributeset x (not a b))", "reading 16"),
    (3, "(role a)(roleattribute x)@(roleattributeset x (and a))", "reading 16"),
    (3, "(role a)(roleattribute x)@(roleattributeset x (and a a a))", "reading 16"),
    (3, "(role a)(roleattribute x)@(roleattributeset x (or a))", "reading 16"),
    (3, "(role a)(roleattribute x)@(roleattributeset x (xor a a a))", "reading 16"),
    (3, "(roleattribute x)@(roleattributeset x (not))", "reading 16"),
    (3, "(roleattribute x)@(roleattributeset x (and))", "reading 16"),
    (3, "(role a)(roleattribute x)@(roleattributeset x (eq a a))", "reading 16: eq is no operator of S"),
    (3, "(role a)(roleattribute x)@(roleattributeset x (a r1))", "reading 16: a reserved word as operand"),
    (3, "(role a)(roleattribute x)@(roleattributeset x (not (a or a)))", "reading 16: within S"),
    (3, "(roleattribute x)@(roleattributeset x ((all) all))", "reading 16"),
    (0, "(type a)(type b)(typeattribute x)(typeattributeset x (all))", "(all)"),
    (0, "(user a)(userattribute x)(userattributeset x (not (all)))", "reading 16: (not (all))"),
    (0, "(role a)(roleattribute x)(roleattributeset x ((all)))", "reading 16: ((all))"),
    (0, "(role a)(roleattribute x)(roleattributeset x ((all) a))", "reading 16: ((all) a)"),
    (0, "(user a)(user b)(userattribute x)(userattributeset x (a b))", "one or more operands (their union)"),
    (0, "(user a)(user b)(userattribute x)(userattributeset x (a (b) ((a))))", "an operand is again such an S"),
    (0, "(user a)(user b)(userattribute x)(userattributeset x (and a (not b)))", "reading 17: bare names"),
    (0, "(user a)(user b)(userattribute x)(userattributeset x (or a b))", "reading 17: bare names"),
    (0, "(user a)(user b)(userattribute x)(userattributeset x (xor a (all)))", "reading 17: bare names"),
    (0, "(type a)(typeattribute x)(typeattributeset x (not a))(type b)", "not is taken within the whole text"),
    (0, "(typeattribute x)(typeattributeset x (all))(type a)(type b)", "(all) is every type of the whole text"),
    (0, "(user a)(userattribute x)(userattribute y)(userattributeset x (y))(userattributeset y (a))", "final sets"),
    (0, "(user a)(user b)(userattribute x)(userattributeset x (a))(userattributeset x (b))", "several statements add up"),
    (0, "(user a)(userattribute x)", "an attribute without any set stands for nothing"),
    (0, "(role a)(roleattribute x)(type t)(roletype x t)(roleattributeset x (a))", "an attribute used before its set"),
];

/// Readings 14, 15 and 18.
const EXPRESSIONS: &[Listed] = &[
    (3, "(class c (p))@(constrain (c (p)) (eq u1 r2))", "reading 14"),
    (3, "(class c (p))@(constrain (c (p)) (eq u1 t1))", "reading 14"),
    (3, "(class c (p))@(constrain (c (p)) (eq u1 u1))", "reading 14"),
    (3, "(class c (p))@(constrain (c (p)) (eq u1 all))", "reading 14"),
    (3, "(class c (p))@(constrain (c (p)) (eq u1 u3))", "reading 14"),
    (3, "(class c (p))@(constrain (c (p)) (neq t2 h1))", "reading 14"),
    (3, "@(userrole u1 a)", "reading 14"),
    (3, "@(userrole u r2)", "reading 14"),
    (3, "@(roletype not t)", "reading 14"),
    (3, "@(roleallow a incomp)", "reading 14"),
    (3, "@(roletransition r t eq r)", "reading 14"),
    (3, "(class c (p))@(constrain (c (all)) (eq u1 u2))", "reading 14"),
    (3, "(class c (p))@(constrain (u1 (p)) (eq u1 u2))", "reading 14"),
    (3, "@(class c (p t1))", "reading 14: a permission's included"),
    (3, "@(class xor (p))", "reading 14"),
    (3, "(class c (p))@(constrain (c (p)) (eq u2 u1))", "reading 15"),
    (3, "(class c (p))@(constrain (c (p)) (dom r2 r1))", "reading 15"),
    (3, "(class c (p))@(constrain (c (p)) (neq t2 t1))", "reading 15"),
    (3, "(class c (p))@(constrain (c (p)) (dom u1 u2))", "reading 15"),
    (3, "(class c (p))@(constrain (c (p)) (domby t1 t2))", "reading 15"),
    (3, "(class c (p))@(constrain (c (p)) (incomp u1 u2))", "reading 15"),
    (3, "(role a)(class c (p))@(constrain (c (p)) (dom r1 a))", "reading 15"),
    (3, "(role a)(class c (p))@(constrain (c (p)) (domby r2 a))", "reading 15"),
    (3, "(role a)(class c (p))@(constrain (c (p)) (incomp r1 a))", "reading 15"),
    (3, "(user a)(class c (p))@(constrain (c (p)) (eq u3 a))", "reading 15"),
    (3, "(user a)(class c (p))@(constrain (c (p)) (eq a u1))", "reading 15"),
    (3, "(user a)(class c (p))@(constrain (c (p)) (eq a a))", "reading 15"),
    (3, "(class c (p))@(constrain (c (p)) (and (eq u1 u2)))", "reading 18"),
    (3, "(class c (p))@(constrain (c (p)) (and (eq u1 u2) (eq u1 u2) (eq u1 u2)))", "reading 18"),
    (3, "(class c (p))@(constrain (c (p)) (or (eq u1 u2)))", "reading 18"),
    (3, "(class c (p))@(constrain (c (p)) (not (eq u1 u2) (eq u1 u2)))", "reading 18"),
    (3, "(class c (p))@(constrain (c (p)) (not))", "reading 18"),
    (3, "(class c (p))@(constrain (c (p)) (not a))", "reading 18: each parenthesised"),
    (3, "(class c (p))@(constrain (c (p)) (and a b))", "reading 18: each parenthesised"),
    (3, "(class c (p))@(constrain (c (p)) (or u1 u2))", "reading 18: each parenthesised"),
    (3, "(class c (p))@(constrain (c (p)) (xor (eq u1 u2) (eq r1 r2)))", "reading 18"),
    (3, "(class c (p))@(constrain (c (p)) (all))", "reading 18"),
    (3, "(class c (p))@(constrain (c (p)) ((eq u1 u2)))", "reading 18"),
    (3, "(class c (p))@(constrain (c (p)) (eq u1 u2) (eq u1 u2))", "reading 18: one E only"),
    (3, "(class c (p))@(constrain (c (p)))", "E is missing"),
    (3, "(class c (p))@(constrain (c (p)) ())", "E is empty"),
    (3, "(class c (p))@(constrain (c (p)) eq)", "E is parenthesised"),
    (3, "(class c (p))@(constrain (c (p)) (eq u1))", "a comparison has two sides"),
    (3, "(class c (p))@(constrain (c (p)) (eq u1 u2 u2))", "a comparison has two sides"),
    (3, "(class c (p))@(constrain (c (p)) (eq u1 (u2)))", "a comparison has two sides"),
    (3, "(class c (p))@(constrain (c (p)) (foo u1 u2))", "no such operator"),
    (3, "(class c (p))@(constrain (c (p)) (u1 eq u2))", "the operator comes first"),
];

/// Readings 13 and 20: words that are free as names.
const FREE_WORDS: &[Listed] = &[
    (0, "(user u)(user r)(user t)(user l)(user h)", "reading 13: u r t l h alone are names"),
    (0, "(type u0)(type u4)(type u10)(type l3)(type h3)", "reading 13: names"),
    (0, "(type l0)(type h0)(type r4)(type t0)(type r12)", "reading 13: names"),
    (0, "(class class (class role))", "reading 20: keywords are free, as a permission too"),
    (0, "(user user)(userattribute userattribute)(userattributeset userattribute (user))", "reading 20: in S too"),
    (0, "(user userrole)(role roletype)(userrole userrole roletype)", "reading 20: keywords are free"),
    (0, "(class constrain (user))(constrain (constrain (user)) (eq u1 u2))", "reading 20: keywords are free"),
    (0, "(type ALL)(type And)(type NOT)(type nots)(type eq1)", "reading 9: case matters"),
];

/// Readings 21 to 24: faults 4 to 7.
const NAMES: &[Listed] = &[
    (4, "(user a)@(user a)", "name declared again in its family"),
    (4, "(type a)@(type a)", "name declared again in its family"),
    (4, "(role a)@(roleattribute a)", "reading 21: a thing and an attribute clash"),
    (4, "(userattribute a)@(user a)", "reading 21: a thing and an attribute clash"),
    (4, "(type a)@(typeattribute a)", "reading 21: a thing and an attribute clash"),
    (4, "(roleattribute a)@(roleattribute a)", "name declared again in its family"),
    (4, "(class c (p))@(class c (q))", "name declared again in its family"),
    (4, "@(class c (p p))", "permission twice in a class"),
    (4, "@(class c (p q p))", "permission twice in a class"),
    (0, "(class c (c))", "reading 21: a class and its permission do not clash"),
    (0, "(class c (p))(class p (c p))", "reading 21: a class and a permission do not clash"),
    (0, "(user a)(role a)(type a)(class a (a))", "equal names in different families are different things"),
    (5, "@(roletype a t)(role a)(type t)", "declared earlier in the text than its use"),
    (5, "(role a)@(roletype a t)(type t)", "declared earlier in the text than its use"),
    (5, "@(userrole u a)", "name not declared before"),
    (5, "(user a)@(userrole a a)", "name not declared before: other family"),
    (5, "(user b)(role a)@(userrole a b)", "name of the wrong family"),
    (5, "(user a)(type a)@(roleallow a a)", "name of the wrong family"),
    (5, "@(userattributeset x (x))", "name not declared before"),
    (5, "(roleattribute x)@(roleattributeset x (a))", "name not declared before"),
    (5, "(user a)(roleattribute x)@(roleattributeset x (a))", "name of the wrong family"),
    (5, "(roleattribute x)@(roleattributeset x (and (all) (not a)))", "name not declared before, within S"),
    (5, "(role a)@(roleattributeset a (a))", "reading 22: A is a plain thing"),
    (5, "(userattribute x)(role a)@(roleattributeset x (a))", "reading 22: A of another family"),
    (
        5,
        "(role a)(roleattribute x)(type t)(class c (p))@(roletransition a t c x)",
        "reading 22: the new role is an attribute",
    ),
    (5, "(role a)(type t)(class c (p))@(roletransition a t c b)", "name not declared before: new role"),
    (5, "(role a)(type t)@(roletransition a t c a)", "name not declared before: class"),
    (5, "(role a)(class c (p))@(roletransition a t c a)", "name not declared before: type"),
    (5, "(type t)(role b)(class c (p))@(roletransition a t c b)", "name not declared before: role"),
    (5, "(class c (p))@(constrain (c (q)) (eq u1 u2))", "reading 22: P is not a permission of C"),
    (5, "(class c (p))(class d (q))@(constrain (c (q)) (eq u1 u2))", "reading 22: P of another class"),
    (5, "(class c (p))@(constrain (c (p p q)) (eq u1 u2))", "reading 22: one P of several"),
    (5, "@(constrain (c (p)) (eq u1 u2))", "name not declared before: class"),
    (5, "(class c (p))@(constrain (c (p)) (eq u1 a))", "name not declared before, in E"),
    (5, "(role a)(class c (p))@(constrain (c (p)) (eq u1 a))", "name of the wrong family, in E"),
    (5, "(user a)(class c (p))@(constrain (c (p)) (or (eq u1 a) (not (eq r1 a))))", "name of the wrong family, in E"),
    (5, "@(constrain (c (p)) (eq u1 u2))(class c (p))", "declared earlier in the text than its use"),
];

/// Reading 25: fault 8.
const CYCLES: &[Listed] = &[
    (8, "@(roleattribute x)(roleattributeset x (and x (not x)))", "reading 25: mention is by text"),
    (8, "@(userattribute x)(userattributeset x (not x))", "fault 8 of users"),
    (
        8,
        "@(typeattribute x)(type t)(typeattributeset x (t))(typeattributeset x (t (x)))",
        "fault 8 of types, second statement",
    ),
    (
        8,
        "@(typeattribute x)(typeattribute y)(typeattributeset y (x))(typeattributeset x (y))",
        "through others, lowest number",
    ),
    (
        8,
        "(roleattribute x)@(roleattribute y)(roleattributeset x (y))(roleattributeset y (y))",
        "reading 25: x only leads to a cycle",
    ),
    (
        8,
        "(roleattribute x)(roleattributeset x (x))@(userattribute y)(userattributeset y (y))",
        "reading 25: users before roles",
    ),
    (
        8,
        "(typeattribute x)(typeattributeset x (x))@(roleattribute y)(roleattributeset y (y))",
        "reading 25: roles before types",
    ),
    (
        8,
        "(typeattribute x)(typeattributeset x (x))@(userattribute y)(userattributeset y (y))",
        "reading 25: users before types",
    ),
    (
        8,
        "@(userattribute a)(userattribute b)(userattribute c)(userattributeset b (c))(userattributeset c (a))\
         (userattributeset a (b))",
        "through others, lowest number",
    ),
    (4, "(roleattribute x)(roleattributeset x (x))@(role x)", "reading 26: 8 only after every statement passed"),
    (3, "(roleattribute x)(roleattributeset x (x))@()", "reading 26: 8 only after every statement passed"),
    (5, "(roleattribute x)(roleattributeset x (x))@(roleallow a x)", "reading 26: 8 only after every statement passed"),
    (0, "(userattribute x)(userattribute y)(userattributeset x (y y))(userattributeset x (y))", "no cycle"),
];

/// Reading 26: fault 9.
const CLASHES: &[Listed] = &[
    (9, "(role a)(role b)(type t)(class c (p))(roletransition a t c a)@(roletransition a t c b)", "fault 9"),
    (
        9,
        "(role a)(role b)(type t)(class c(p))(roletransition a t c a)\
         (roletransition a t c a)@(roletransition a t c b)(roletransition a t c b)",
        "reading 26: the first later statement that clashes",
    ),
    (
        9,
        "(role a)(role b)(roleattribute x)(type t)(class c(p))(roletransition x t c a)@(roletransition a t c b)\
         (roleattributeset x(all))",
        "reading 26: by final sets",
    ),
    (
        9,
        "(role a)(role b)(type t)(typeattribute y)(typeattributeset y(t))(class c(p))\
         (roletransition a y c a)@(roletransition a t c b)",
        "reading 26: by final sets",
    ),
    (
        9,
        "(role a)(role b)(type t)(type s)(class c(p))(roletransition a t c a)\
         (roletransition a s c b)@(roletransition a t c b)",
        "reading 26: with any earlier one",
    ),
    (
        8,
        "(role a)(role b)(type t)(class c(p))(roletransition a t c a)(roletransition a t c b)@(userattribute x)\
         (userattributeset x(x))",
        "8 before 9",
    ),
    (
        5,
        "(role a)(role b)(type t)(class c(p))(roletransition a t c a)(roletransition a t c b)@(roletype a s)",
        "5 before 9",
    ),
    (0, "(role a)(role b)(type t)(class c(p))(roletransition a t c a)(roletransition b t c b)", "other roles"),
    (0, "(role a)(role b)(type t)(type s)(class c(p))(roletransition a t c a)(roletransition a s c b)", "other types"),
    (
        0,
        "(role a)(role b)(type t)(class c(p))(class d(p))(roletransition a t c a)(roletransition a t d b)",
        "other classes",
    ),
    (
        0,
        "(role a)(role b)(roleattribute x)(type t)(class c(p))(roletransition x t c a)(roletransition x t c b)",
        "reading 26: an empty set never clashes",
    ),
    (0, "(role a)(type t)(class c(p))(roletransition a t c a)(roletransition a t c a)", "the same new role"),
];

/// Accepted policies of each statement kind with small tables.
const TABLES: &[Listed] = &[
    (0, "(user a)", "body 1 and 2"),
    (0, "(role a)", "body 1, 3 and 4"),
    (0, "(type a)", "body 1"),
    (0, "(userattribute a)", "body 8"),
    (0, "(roleattribute a)", "body 8"),
    (0, "(typeattribute a)", "body 8"),
    (0, "(typeattribute z)(roleattribute y)(userattribute x)", "body 8 in the order of the families"),
    (0, "(class c (p q r))(class d (p))", "permissions directly after their class"),
    (0, "(user abc)(class long-name (permission_1))(type t)", "names in text order"),
    (0, "(user u)(user v)(role a)(userrole v a)", "body 2"),
    (0, "(user u)(user v)(userattribute x)(userattributeset x (u v))(role a)(userrole x a)", "body 2 through an attribute"),
    (0, "(role a)(type t)(type s)(roletype a s)", "body 3"),
    (0, "(role a)(role b)(roleallow a b)", "body 4"),
    (0, "(role a)(roleallow a a)", "reading 29: a self bit only where said"),
    (0, "(role a)(roleattribute x)(roleattributeset x (all))(roleallow x a)", "body 4 through an attribute"),
    (0, "(role a)(type t)(class c (p))(roletransition a t c a)", "body 5"),
    (
        0,
        "(roleattribute x)(role a)(typeattribute y)(class c(p))(class d(p))(roletransition x y d a)",
        "body 5 with empty sets",
    ),
    (0, "(class c (p q r))(constrain (c (r p r)) (eq u1 u2))", "body 6: the mask, repeats of P"),
    (0, "(class c (p))(class d (p q))(constrain (d (q)) (neq t1 t2))", "body 6: the class"),
    (0, "(class c (p))(constrain (c (p)) (not (eq u1 u2)))(constrain (c (p)) (eq t1 t2))", "body 6: first row"),
    (0, "(class c (p))(constrain (c (p)) (eq r1 r2))", "kind 3"),
    (0, "(class c (p))(constrain (c (p)) (dom r1 r2))", "reading 28: dom is stored"),
    (0, "(class c (p))(constrain (c (p)) (domby r1 r2))", "reading 28: domby is stored"),
    (0, "(class c (p))(constrain (c (p)) (incomp r1 r2))", "reading 28: incomp is stored"),
    (0, "(user a)(user b)(class c (p))(constrain (c (p)) (eq u1 b))", "kind 4, u1"),
    (0, "(user a)(user b)(class c (p))(constrain (c (p)) (neq u2 b))", "kind 4, u2"),
    (0, "(role a)(role b)(class c (p))(constrain (c (p)) (eq r1 b))", "kind 4, r1"),
    (0, "(role a)(role b)(class c (p))(constrain (c (p)) (eq r2 b))", "kind 4, r2"),
    (0, "(type a)(type b)(class c (p))(constrain (c (p)) (neq t1 b))", "kind 4, t1"),
    (0, "(type a)(type b)(class c (p))(constrain (c (p)) (eq t2 b))", "kind 4, t2"),
    (
        0,
        "(user a)(userattribute x)(userattribute y)(class c (p))(constrain (c (p)) (eq u1 y))",
        "kind 5, reading 28: own number",
    ),
    (0, "(roleattribute x)(roleattribute y)(class c (p))(constrain (c (p)) (neq r2 y))", "kind 5"),
    (0, "(typeattribute x)(typeattribute y)(class c (p))(constrain (c (p)) (eq t1 y))", "kind 5"),
    (
        0,
        "(class c (p))(constrain (c (p)) (and (eq u1 u2) (or (neq r1 r2) (not (eq t1 t2)))))",
        "rows: operands before operators",
    ),
    (0, "(class c (p))(constrain (c (p)) (or (and (eq u1 u2) (neq t1 t2)) (dom r1 r2)))", "rows: left first"),
    (0, "(class process (transition dyntransition))", "reading 38"),
];

/// Document 02, W-202: readings 19, 20, 22 and 24.
const LINES: &[ListedOnLine] = &[
    (4, 3, "\n(role a)\n@(role a)", "W-202, reading 19"),
    (4, 2, "(role a)\n@(role a)", "W-202, reading 19: LF directly before the place"),
    (4, 1, "(role a)@(\nrole\na\n)", "W-202, reading 19: LFs within the statement"),
    (4, 1, "(role a)@(role a)\n", "W-202, reading 19: LF directly behind the statement"),
    (4, 2, "(role a)\n(role b)@(role a)(role c)\n()", "W-202, reading 19: several statements on a line"),
    (3, 2, ";x\n@()", "W-202, reading 19: LF of a comment"),
    (3, 3, ";(\n;)\n@()", "W-202, reading 19: LFs of comments"),
    (3, 4, ";\n\n\n@()", "W-202, reading 19: LFs behind a comment"),
    (3, 3, "(role;a)\na)\n@(role)", "W-202, reading 19: LF of a comment within an earlier statement"),
    (4, 1, "(role a)@(role;\n\na)", "W-202, reading 19: LF of a comment within the statement"),
    (2, 2, ";!\n@!;\n", "W-202, reading 19: LF of a comment before a wrong byte"),
    (3, 3, "\r\n\r\n@()", "W-202, reading 19: CR LF"),
    (5, 3, "(role a)\r\n(type t)\r\n@(roletype a\r\ns)\r\n", "W-202, reading 19: CR LF"),
    (3, 1, "\r\r@()", "W-202, reading 19: CR does not count"),
    (3, 2, "\n\r@()", "W-202, reading 19: CR does not count"),
    (3, 2, ";\r!\r\n@()", "W-202, reading 19: CR in a comment does not count"),
    (3, 2, ";\x0b\x0c\n@()", "W-202, reading 19: VT and FF do not count"),
    (3, 2, ";\u{85}\u{2028}\n@()", "W-202, reading 19: no other end of a line counts"),
    (2, 2, "\n@!", "W-202, reading 19: LF directly before a wrong byte"),
    (2, 1, "@!\n", "W-202, reading 19: LF directly behind a wrong byte"),
    (2, 3, "\n(role a\n@!)", "W-202, reading 19: a wrong byte within a statement"),
    (2, 2, "(role\n@1a)", "W-202, reading 19: a bad name"),
    (2, 1, "(role @1a\n)\n", "W-202, reading 19: LF directly behind a bad name"),
    (2, 2, "(role a)\n@role\n(", "W-202, reading 19: a name outside parentheses"),
    (2, 3, "(role a)\n\n@)\n", "W-202, reading 19: close without open"),
    (2, 3, "(role a)\n(role a)\n@!", "W-202: 2 on a later line before 4"),
    (2, 2, "(\n@", "W-202, reading 20"),
    (2, 4, "(\n\n\n@", "W-202, reading 20: LFs at the end"),
    (2, 3, "\n((role a)\n@", "W-202, reading 20: LF at the end"),
    (2, 3, "(role a\n;)\n@", "W-202, reading 20: a comment at the end"),
    (2, 2, "(role a;)\r\n@", "W-202, reading 20: CR LF at the end"),
    (2, 1, "(role a;\r@", "W-202, reading 20: CR at the end"),
    (2, 2, "(role\na@", "W-202, reading 20: no LF at the end"),
    (0, 0, "\n(user a)\n", "W-202, reading 22: 10 has line 0"),
    (0, 0, "\r\n;x\n\n", "W-202, reading 22: 10 has line 0"),
    (0, 0, "(class\nc\n(p))\n(constrain\n(c(p))\n(eq\nu1\nu2))\n", "W-202, reading 22: 10 has line 0"),
    (3, 3, "(role a)\n(role b)\n@(\n)", "W-202: 3 on a later line"),
    (3, 2, "(role a)\n@(role a\nb)\n()\n(role a)", "W-202: 3 before later faults"),
    (4, 4, "(user a)\n(role a)\n\n@(role\na)", "W-202: 4 on a later line"),
    (4, 2, "\n@(class c\n(p\np))", "W-202: 4 on a later line"),
    (5, 2, "\n@(roletype a t)\n(role a)\n(type t)", "W-202: 5 on a later line"),
    (5, 3, "(role a)\n(class c(p))\n@(constrain\n(c(p))\n(eq r1\nb))\n(role b)", "W-202: 5 on a later line"),
    (8, 3, "\n(role a)\n@(roleattribute x)\n(roleattributeset x\n(x))\n", "W-202, reading 24: 8 on a later line"),
    (8, 1, "@(typeattribute x)\n\n(typeattributeset x(x))\n", "W-202, reading 24: the line of the declaration"),
    (
        8,
        2,
        "(roleattribute x)\n@(roleattribute y)\n(roleattributeset x(y))\n(roleattributeset y(y))",
        "W-202, reading 24: the line of the declaration",
    ),
    (
        8,
        3,
        "(roleattribute x)\n(roleattributeset x(x))\n@(userattribute y)\n(userattributeset y(y))",
        "W-202, reading 24: users before roles",
    ),
    (
        9,
        6,
        "(role a)\n(role b)\n(type t)\n(class c(p))\n(roletransition a t c a)\n@(roletransition\na t c b)\n",
        "W-202, reading 24: the line of the later transition",
    ),
    (
        9,
        4,
        "(role a)(role b)(type t)(class c(p))\n(roletransition a t c a)\n(roletransition a t c a)\n\
         @(roletransition a t c b)\n(roletransition a t c b)",
        "W-202, reading 24: the first later transition that clashes",
    ),
];

/// Cases that need repetition.
fn built() -> Vec<(u8, String, &'static str)> {
    let n = |count: usize| "n".repeat(count);
    let open = |count: usize| "(".repeat(count);
    let close = |count: usize| ")".repeat(count);
    let mut list = vec![
        (2, format!("(role @{})", n(65)), "a name of 65 bytes"),
        (0, format!("(type {})", n(64)), "a name of 64 bytes"),
        (2, format!("(role @{}!)", n(65)), "reading 4: long name and then a wrong byte"),
        (2, format!("(role {}@!)", n(64)), "reading 4: 64 and then a wrong byte"),
        (2, format!("(role @{}", n(65)), "reading 4: a long name that the text ends inside"),
        (2, format!("(role {}@", n(64)), "unclosed at end behind a name of 64 bytes"),
        (2, format!("@{}", n(65)), "reading 5: a long name outside parentheses"),
        (2, format!("(role @9{})", n(70)), "reading 2: bad and long"),
        (2, format!("{}@({}", open(32), close(33)), "reading 6: level 33"),
        (2, format!("{}@", open(32)), "reading 6: 32 open and the text ends"),
        (3, format!("@{}{}", open(32), close(32)), "32 levels"),
        (2, format!("{}{}@)", open(32), close(32)), "close without open"),
        (0, right_chain("and", 5), "P10 five to the right need 5"),
        (7, marked(&right_chain("and", 6)), "P10 six to the right need 6"),
        (0, left_chain("and", 6), "P10 six to the left need 2"),
        (7, marked(&right_chain("or", 6)), "stack need of or"),
        (7, marked(&right_chain("and", 6).replacen("(and(eq t1 t2)", "(or(not(eq t1 t2))", 1)), "stack need of not"),
        (0, left_chain("or", 5), "stack need of or"),
        (5, marked(&right_chain("and", 6).replacen("(eq t1 t2)", "(eq t1 nope)", 1)), "reading 23: 5 before 7"),
        (5, marked(&right_chain("or", 6).replacen("(constrain(c(p))", "(constrain(c(q))", 1)), "reading 23: 5 before 7"),
        (6, format!("@(class c({}))", letters(33)), "33 permissions"),
        (0, format!("(class c({}))", letters(32)), "32 permissions"),
        (4, format!("@(class c({} A))", letters(32)), "reading 23: 33 permissions with a repeat"),
        (3, format!("@(class c({} all))", letters(33)), "reading 11: 33 permissions and a reserved word"),
    ];
    let words = "all and or xor not eq neq dom domby incomp u1 u2 u3 r1 r2 r3 t1 t2 t3 l1 l2 h1 h2";
    for word in words.split(' ') {
        list.push((3, format!("(type a)@(type {word})"), "reading 13 and 14: a reserved word in a name's place"));
    }
    list
}

/// Cases about lines that need repetition.
fn built_of_lines() -> Vec<BuiltOnLine> {
    let classes: String = (0..32).map(|n| format!("(class a{n}(p))\n")).collect();
    let chain = marked(&right_chain("and", 6)).replace("@", "\n\n@").replace("(and", "\n(and");
    vec![
        (2, 2, format!("(role\n@{}\n)", "n".repeat(65)), "W-202, reading 19: a name of 65 bytes"),
        (2, 3, format!("\n{}\n@({}", "(".repeat(32), ")".repeat(33)), "W-202, reading 19: level 33"),
        (2, 33, format!("{}@", "(\n".repeat(32)), "W-202, reading 20: 32 open, each on a line"),
        (6, 3, format!("\n\n@(class c({}))", letters(33).replace(' ', "\n")), "W-202: 6 on a later line"),
        (6, 33, format!("{classes}@(class b\n(p))\n"), "W-202: 6 on a later line"),
        (7, 3, chain, "W-202: 7 on a later line"),
    ]
}

fn letters(count: usize) -> String {
    let all: Vec<String> = ('A'..='Z').chain('a'..='z').map(String::from).collect();
    all[..count].join(" ")
}

fn right_chain(operator: &str, count: usize) -> String {
    let open = format!("({operator}(eq t1 t2)").repeat(count - 1);
    format!("(class c(p))(constrain(c(p)){open}(eq t1 t2){})", ")".repeat(count - 1))
}

fn left_chain(operator: &str, count: usize) -> String {
    let open = format!("({operator}").repeat(count - 1);
    format!("(class c(p))(constrain(c(p)){open}(eq t1 t2){})", "(eq t1 t2))".repeat(count - 1))
}

/// Marks the constrain statement as the place of the fault.
fn marked(text: &str) -> String {
    text.replacen("(constrain", "@(constrain", 1)
}
