//! Small policies listed by hand, each with a few questions: every denial with its constraint and the number consulted,
//! grants, refusals, new roles and parts.

use crate::generator::questions::{self, Question};

pub struct Asked {
    pub text: String,
    pub rule: &'static str,
    pub questions: Vec<Question>,
}

pub fn asked() -> Vec<Asked> {
    let mut list = valid_contexts();
    list.extend(role_changes());
    list.extend(consulted());
    list.extend(operators());
    list.extend(final_sets());
    list.extend(new_roles());
    list.extend(parts());
    list.extend(undeclared());
    list.extend(objects());
    list.extend(apart_in_blocks());
    list.extend(few_relabels());
    list
}

fn of(rule: &'static str, text: &str, questions: &[Question]) -> Asked {
    Asked { text: text.to_string(), rule, questions: questions.to_vec() }
}

fn valid(user: u64, role: u64, kind: u64) -> Question {
    questions::of([0, user, role, kind])
}

/// From one context to another, in class 0 if nothing else is said.
fn change(source: [u64; 3], target: [u64; 3], permission: u64) -> Question {
    change_in(source, target, 0, permission)
}

fn change_in(source: [u64; 3], target: [u64; 3], class: u64, permission: u64) -> Question {
    let [u1, r1, t1] = source;
    let [u2, r2, t2] = target;
    questions::of([1, u1, r1, t1, u2, r2, t2, class, permission])
}

fn new_role(role: u64, kind: u64, class: u64) -> Question {
    questions::of([2, role, kind, class])
}

fn name(sort: u64, number: u64) -> Question {
    questions::of([3, sort, number])
}

fn entry(body: u64, place: u64) -> Question {
    questions::of([4, body, place])
}

/// From the old context to the new one, by the process.
fn relabel(class: u64, old: [u64; 3], new: [u64; 3], process: [u64; 3]) -> Question {
    let ([u1, r1, t1], [u2, r2, t2], [u3, r3, t3]) = (old, new, process);
    questions::of([5, class, u1, r1, t1, u2, r2, t2, u3, r3, t3])
}

/// One user in the roles a and b, either with the type t.
const TWO_ROLES: &str = "(user u)(role a)(role b)(type t)(userrole u a)(userrole u b)(roletype a t)(roletype b t)";
const A: [u64; 3] = [0, 0, 0];
const B: [u64; 3] = [0, 1, 0];

fn valid_contexts() -> Vec<Asked> {
    let roll = "(user u)(role a)(role b)(type t)(userrole u a)(roletype a t)(class c(p))";
    let across = "(user u)(user v)(role a)(role b)(type s)(type t)(userrole u b)(userrole v a)(roletype a s)(roletype b t)\
                  (class c(p))";
    vec![
        of("P11", roll, &[change(A, B, 0), change(B, A, 0), change(A, A, 0), valid(0, 0, 0), valid(0, 1, 0)]),
        of(
            "the user's role, the role's type; denial 1 before 2",
            across,
            &[
                valid(0, 1, 1),
                valid(0, 0, 0),
                valid(1, 0, 1),
                valid(0, 1, 0),
                change([0, 0, 0], [1, 1, 0], 0),
                change([0, 1, 1], [1, 1, 0], 0),
                change([0, 1, 1], [1, 0, 0], 0),
                change([1, 0, 0], [1, 0, 1], 0),
            ],
        ),
        of(
            "a role of number 8 is bit 0 of byte 1",
            "(role a)(role b)(role c)(role d)(role e)(role f)(role g)(role h)(role i)(user u)(userrole u i)(type t)\
             (roletype i t)",
            &[valid(0, 8, 0), valid(0, 0, 0)],
        ),
    ]
}

/// Denial 3.
fn role_changes() -> Vec<Asked> {
    let with = |rest: &str| format!("{TWO_ROLES}{rest}");
    vec![
        of(
            "denial 3: not where the role stays the same, not for another permission",
            &with("(class process(transition dyntransition fork))"),
            &[change(A, B, 0), change(B, A, 1), change(A, A, 0), change(B, B, 1), change(A, B, 2)],
        ),
        of("roleallow", &with("(class process(fork transition))(roleallow a b)"), &[change(A, B, 1), change(B, A, 1)]),
        of(
            "roleallow through an attribute",
            &with("(class process(transition))(roleattribute x)(roleallow x x)(roleattributeset x(not a))"),
            &[change(A, B, 0), change(B, A, 0), change(B, B, 0)],
        ),
        of(
            "no role allow on another class, or for a name that only begins alike",
            &with("(class file(transition))(class Process(transition))(class process(p transitions dyntransition-))"),
            &[
                change_in(A, B, 0, 0),
                change_in(A, B, 1, 0),
                change_in(A, B, 2, 0),
                change_in(A, B, 2, 1),
                change_in(B, A, 2, 2),
            ],
        ),
        of(
            "denial 3 before 4",
            &with("(class process(transition))(constrain(process(transition))(neq u1 u2))"),
            &[change(A, B, 0), change(A, A, 0)],
        ),
    ]
}

/// Denial 4, its constraint and the number consulted.
fn consulted() -> Vec<Asked> {
    let with = |rest: &str| format!("{TWO_ROLES}(class c(p q))(class d(p)){rest}");
    vec![
        of(
            "consulted: those that name class and permission, up to the first that fails",
            &with(
                "(constrain(d(p))(neq u1 u2))(constrain(c(p))(eq u1 u2))(constrain(c(q))(neq u1 u2))\
                 (constrain(c(p q))(eq r1 r2))(constrain(c(p))(neq t1 t2))",
            ),
            &[change(A, B, 0), change(A, A, 0), change(A, A, 1), change_in(A, B, 1, 0)],
        ),
        of("none names the permission", &with("(constrain(c(p))(neq u1 u2))"), &[change(A, A, 1), change_in(A, A, 1, 0)]),
        of(
            "granted: all of them",
            &with("(constrain(c(p))(eq u1 u2))(constrain(c(q p q))(eq t1 t2))(constrain(c(p))(eq u2 u))"),
            &[change(A, B, 0), change(A, B, 1)],
        ),
        of(
            "the first of several that fail",
            &with("(constrain(c(q))(eq r1 r2))(constrain(c(p))(eq t1 t2))(constrain(c(p q))(incomp r1 r2))"),
            &[change(A, A, 0), change(A, A, 1), change(A, B, 1)],
        ),
        of(
            "the highest permission of a class",
            &format!("{TWO_ROLES}(class c(a b c d e f g h i))(constrain(c(i))(neq u1 u2))(constrain(c(a))(eq u1 u2))"),
            &[change(A, A, 8), change(A, A, 0), change(A, A, 7)],
        ),
    ]
}

/// Context (u, a, s) and context (v, b, t); and one constrain for each permission, in order.
fn constrained(before: &str, expressions: &[&str]) -> String {
    let letter = |n: usize| char::from(b'a' + n as u8);
    let names: Vec<String> = (0..expressions.len()).map(|n| letter(n).to_string()).collect();
    let mut text = format!(
        "(user u)(user v)(role a)(role b)(type s)(type t){before}(userrole u a)(userrole v b)(roletype a s)(roletype b t)\
         (class c({}))",
        names.join(" ")
    );
    for (n, expression) in expressions.iter().enumerate() {
        text.push_str(&format!("(constrain(c({})){expression})", letter(n)));
    }
    text
}

/// Each operator on each pair of sides and on names, and the operators between expressions. A permission is asked for each.
fn operators() -> Vec<Asked> {
    let from = [0, 0, 0];
    let to = [1, 1, 1];
    let each = |count: u64, pairs: &[([u64; 3], [u64; 3])]| -> Vec<Question> {
        (0..count).flat_map(|n| pairs.iter().map(move |(source, target)| change(*source, *target, n))).collect()
    };
    let users_and_types = ["(eq u1 u2)", "(neq u1 u2)", "(eq t1 t2)", "(neq t1 t2)"];
    let roles = ["(eq r1 r2)", "(neq r1 r2)", "(dom r1 r2)", "(domby r1 r2)", "(incomp r1 r2)"];
    let things = ["(eq u1 u)", "(neq u2 u)", "(neq r1 a)", "(eq r2 a)", "(eq t1 t)", "(neq t2 s)"];
    let attributes = ["(neq u1 x)", "(eq u2 x)", "(neq r1 y)", "(eq r2 y)", "(eq t2 z)", "(neq t1 z)"];
    let sets = "(userattribute x)(userattributeset x(u))(roleattribute w)(roleattribute y)(roleattributeset y(b))\
                (typeattribute z)(typeattributeset z(all))";
    let and_or_not = [
        "(and(neq u1 u2)(neq r1 r2))",
        "(and(neq u1 u2)(eq r1 r2))",
        "(and(eq u1 u2)(neq r1 r2))",
        "(or(eq u1 u2)(neq r1 r2))",
        "(or(neq u1 u2)(eq r1 r2))",
        "(or(eq u1 u2)(eq r1 r2))",
        "(not(eq u1 u2))",
        "(not(not(eq u1 u2)))",
    ];
    let stack = [
        "(not(and(or(eq u1 u2)(neq t1 t2))(not(or(eq u1 u2)(eq t1 t2)))))",
        "(or(eq u1 u2)(or(eq r1 r2)(and(neq t1 t2)(or(eq u1 v)(eq u1 u)))))",
        "(and(eq u1 u2)(and(eq u1 u)(and(eq u2 v)(and(eq r1 a)(eq r2 b)))))",
        "(and(and(and(and(and(eq u1 u)(eq u2 v))(eq r1 a))(eq r2 b))(eq t1 s))(neq t2 t))",
    ];
    let both = [(from, to), (from, from)];
    let turned = [(from, to), (to, from)];
    vec![
        of("users and types on both sides", &constrained("", &users_and_types), &each(4, &both)),
        of("roles on both sides: dom and domby read as eq, incomp as neq", &constrained("", &roles), &each(5, &both)),
        of("a side and a thing", &constrained("", &things), &each(6, &turned)),
        of("a side and an attribute", &constrained(sets, &attributes), &each(6, &turned)),
        of("and, or, not", &constrained("", &and_or_not), &each(8, &both[..1])),
        of("up to five on the stack", &constrained("", &stack), &each(4, &both[..1])),
    ]
}

/// An attribute stands for its final set, whatever line uses it.
fn final_sets() -> Vec<Asked> {
    vec![
        of(
            "an attribute filled after its use",
            "(user u)(role a)(role b)(type t)(roleattribute x)(roleattribute y)(userrole u x)(roletype x t)\
             (roleattributeset x(y))(class c(p))(constrain(c(p))(eq r1 x))(roleattributeset y(b))",
            &[change([0, 1, 0], [0, 1, 0], 0), change([0, 0, 0], [0, 1, 0], 0)],
        ),
        of(
            "not within the whole text",
            "(user u)(role a)(type t)(roleattribute x)(roleattributeset x(not a))(userrole u x)(role b)(roletype b t)\
             (class c(p))(constrain(c(p))(neq r2 x))",
            &[change([0, 1, 0], [0, 1, 0], 0), valid(0, 0, 0)],
        ),
        of(
            "several statements add up",
            "(user u)(type s)(type t)(role a)(userrole u a)(typeattribute z)(typeattributeset z(s))(roletype a z)\
             (typeattributeset z(t))(class c(p))(constrain(c(p))(and(eq t1 z)(eq t2 z)))",
            &[change([0, 0, 0], [0, 0, 1], 0)],
        ),
        of(
            "an attribute without any set",
            "(user u)(role a)(type t)(userrole u a)(roletype a t)(userattribute x)(class c(p))(constrain(c(p))(eq u1 x))",
            &[change(A, A, 0)],
        ),
    ]
}

fn new_roles() -> Vec<Asked> {
    let plain = "(role a)(role b)(role c)(type s)(type t)(class d(p))(class e(p))(roletransition a t d b)\
                 (roletransition a s e c)(roletransition b t d c)";
    let sets = "(role a)(role b)(type s)(type t)(roleattribute x)(typeattribute y)(class c(p))(roletransition x y c b)\
                (roleattributeset x(all))(typeattributeset y(not s))";
    let matching = [new_role(0, 1, 0), new_role(0, 0, 1), new_role(1, 1, 0)];
    let others = [new_role(0, 0, 0), new_role(0, 1, 1), new_role(2, 1, 0)];
    let undeclared = [new_role(3, 0, 0), new_role(0, 2, 0), new_role(0, 0, 2)];
    vec![
        of("new role, or the role given", plain, &[matching, others, undeclared].concat()),
        of("new role through attributes", sets, &[new_role(0, 1, 0), new_role(1, 1, 0), new_role(0, 0, 0)]),
    ]
}

fn parts() -> Vec<Asked> {
    let names = "(user ab)(role a)(class long(p q))(type t)(userattribute x1)(roleattribute x)(typeattribute x)(class d(r))\
                 (user c)";
    let named = [(0, 0), (0, 1), (1, 0), (2, 0), (3, 0), (4, 0), (5, 0), (6, 1), (7, 1), (7, 32)];
    let unnamed = [(0, 2), (6, 2), (7, 2), (7, 33), (8, 0), (256, 0), (0, u64::MAX)];
    let entries = "(user u)(user v)(role a)(role b)(type t)(class c(p))(typeattribute z)(roleattribute y)(userattribute x)\
                   (userattribute w)(roletransition a t c b)(roletransition b t c b)(constrain(c(p))(not(eq u1 u2)))\
                   (constrain(c(p))(eq t1 t2))";
    let there = [(2, 1), (3, 0), (3, 1), (4, 1), (5, 1), (6, 1), (7, 2), (8, 1), (8, 2), (8, 3)];
    let missing = [
        (2, 2), (4, 2), (5, 2), (6, 2), (7, 3), (8, 4), (0, 0), (1, 0), (9, 0), (10, 0), (11, 0), (u64::MAX, 0), (8, u64::MAX),
    ];
    let ask = |question: fn(u64, u64) -> Question, pairs: &[(u64, u64)]| -> Vec<Question> {
        pairs.iter().map(|(a, b)| question(*a, *b)).collect()
    };
    vec![
        of("name of", names, &[ask(name, &named), ask(name, &unnamed)].concat()),
        of("entry of", entries, &[ask(entry, &there), ask(entry, &missing)].concat()),
    ]
}

/// Reading 35: every number is tried for 12 before any denial.
fn undeclared() -> Vec<Asked> {
    let text = "(user u)(role a)(type t)(class c(p))(class d(p q))";
    let off = [[1, 0, 0], [0, 1, 0], [0, 0, 1]];
    let mut questions: Vec<Question> = off.iter().map(|source| change(*source, A, 0)).collect();
    questions.extend(off.iter().map(|target| change(A, *target, 0)));
    questions.extend([change_in(A, A, 2, 0), change(A, A, 1), change_in(A, A, 1, 2), change_in(A, A, 1, 1)]);
    questions.extend([valid(0, 0, 1), valid(1, 0, 0), valid(0, 256, 0), valid(u64::MAX, 0, 0)]);
    questions.extend([change(A, A, 1 << 32), new_role(1 << 16, 0, 0)]);
    vec![of("12 before any denial", text, &questions)]
}

/// Document 02, W-203: questions on policies in blocks. Reading 54 of document 02: only the full names `process` and `object_r` are
/// treated apart; reading 55: a constrain behind the last block stands at whole-text level.
pub fn in_blocks() -> Vec<Asked> {
    let mut list = apart_in_blocks();
    list.extend(names_in_blocks());
    list
}

/// Those of W-203 that become theorems as well.
fn apart_in_blocks() -> Vec<Asked> {
    let apart = "(user u)(type t)(role a)(block b(role object_r)(class process(transition)))(role object_r)\
                 (class process(transition))(userrole u a)(roletype a t)";
    let inner = [0, 1, 0];
    let object = [0, 2, 0];
    vec![of(
        "only the full names process and object_r are treated apart",
        apart,
        &[
            valid(0, 1, 0),
            valid(0, 2, 0),
            change_in(A, inner, 0, 0),
            change_in(A, object, 0, 0),
            change_in(A, object, 1, 0),
            change_in(object, object, 1, 0),
            name(1, 1),
        ],
    )]
}

/// Those that go into the corpus alone.
fn names_in_blocks() -> Vec<Asked> {
    let process = format!(
        "{TWO_ROLES}(block b(class process(transition)))(block process(class c(transition))(block process(class process(p))))\
         (block c(block d(class e(transition dyntransition))))(class process(transition))"
    );
    let object = "(user u)(type t)(block b(role object_r))(block object_r(role a)(role object_r))(role object_r)(class c(p))";
    let inner = "(user u)(role a)(type t)(block b(role a)(userrole u a)(roletype a t)(class c(p))\
                 (constrain(c(p))(eq r1 a))(constrain(c(p))(neq r2 .a)))(constrain(b.c(p))(eq r1 a))";
    let behind = format!(
        "{TWO_ROLES}(class c(p))(block k(role a)(class c(p))(constrain(c(p))(eq r1 .a)))\
         (constrain(c(p))(eq r1 a))(constrain(k.c(p))(neq r2 b))"
    );
    let all = "(user u)(type t)(block b(role a)(roleattribute x)(roleattributeset x(not a))(userrole u x)(roletype x t))\
               (role a)(block c(role a))(class c(p))";
    let transitions = "(role a)(type t)(class c(p))(block b(role a)(type t)(class c(p))(roletransition a .t c .a)\
                       (roletransition .a t .c a))(roletransition a t b.c b.a)";
    let transitions_asked: Vec<Question> =
        (0..2).flat_map(|role| (0..2).flat_map(move |kind| (0..2).map(move |class| new_role(role, kind, class)))).collect();
    let c = [0, 2, 0];
    vec![
        of(
            "only the full name process asks a role allow",
            &process,
            &[
                change_in(A, B, 0, 0),
                change_in(A, B, 1, 0),
                change_in(A, B, 2, 0),
                change_in(A, B, 3, 1),
                change_in(A, B, 4, 0),
                name(6, 0),
                name(6, 2),
                name(7, 96),
            ],
        ),
        of(
            "only the full name object_r is always valid",
            object,
            &[valid(0, 0, 0), valid(0, 1, 0), valid(0, 2, 0), valid(0, 3, 0), change([0, 3, 0], A, 0), name(1, 1), name(1, 2)],
        ),
        of(
            "the innermost name decides, in E too",
            inner,
            &[valid(0, 0, 0), valid(0, 1, 0), change(B, B, 0), change(A, B, 0), name(1, 1), name(6, 0), name(7, 0)],
        ),
        of(
            "a constrain behind the last block stands at whole-text level",
            &behind,
            &[change_in(A, B, 0, 0), change_in(B, A, 0, 0), change_in(A, B, 1, 0), change_in(B, A, 1, 0), change_in(A, A, 1, 0)],
        ),
        of("(all) and not over all blocks", all, &[valid(0, 0, 0), valid(0, 1, 0), valid(0, 2, 0), change(B, c, 0)]),
        of("new roles by full names", transitions, &transitions_asked),
    ]
}

/// Document 02, W-201: "a context whose role is named `object_r` is valid with any declared user and any declared type.
/// Denials 1 and 2 and demand 3 follow this. Elsewhere `object_r` is a role like any other."
pub fn objects() -> Vec<Asked> {
    let lease = "(user u)(role a)(role object_r)(role b)(type t)(userrole u a)(roletype a t)(class process(transition fork))\
                 (class file(read write))(constrain(file(write))(neq r2 object_r))";
    let allowed = "(user u)(role a)(role object_r)(type t)(userrole u a)(roletype a t)(roleallow a object_r)(class process(dyntransition))\
                   (constrain(process(dyntransition))(not(eq r1 object_r)))";
    let alone = "(user u)(user v)(role object_r)(type s)(type t)(class c(p))";
    let others = "(user object_r)(roleattribute object_r)(role Object_r)(role object_r-)(type object_r)\
                  (class object_r(object_r))(roleattributeset object_r(all))";
    let object = [0, 1, 0];
    let b = [0, 2, 0];
    vec![
        of(
            "object_r is valid and needs a role allow as others do; constraints apply",
            lease,
            &[
                valid(0, 1, 0),
                valid(0, 2, 0),
                change_in(object, A, 1, 0),
                change_in(A, object, 1, 0),
                change_in(object, object, 1, 0),
                change_in(b, object, 1, 0),
                change_in(object, b, 1, 0),
                change_in(A, object, 0, 0),
                change_in(object, A, 0, 0),
                change_in(A, object, 0, 1),
                change_in(object, object, 0, 0),
                change_in(A, object, 1, 1),
            ],
        ),
        of(
            "object_r where its role allow is said, one way only",
            allowed,
            &[change_in(A, object, 0, 0), change_in(object, A, 0, 0), change_in(object, object, 0, 0), change_in(A, A, 0, 0)],
        ),
        of(
            "object_r by its name, whatever its number; 12 before",
            alone,
            &[valid(0, 0, 0), valid(1, 0, 1), valid(2, 0, 0), valid(0, 0, 2), change([0, 0, 1], [1, 0, 0], 0)],
        ),
        of(
            "no role is named object_r, but all else is",
            others,
            &[valid(0, 0, 0), valid(0, 1, 0), change([0, 0, 0], [0, 1, 0], 0)],
        ),
    ]
}

/// Document 02, W-205: readings 71 to 74 and 76.
pub fn relabels() -> Vec<Asked> {
    let mut list = few_relabels();
    list.extend(more_relabels());
    list
}

/// One role and one type for each of two users; the third role is nobody's. In it `OLD` and `NEW` are valid, `BAD` is not.
const CLERKS: &str = "(user u)(user v)(role a)(role b)(role n)(type s)(type t)(userrole u a)(userrole v b)(roletype a s)\
                      (roletype b t)(class file(read))(class d(p))";
const OLD: [u64; 3] = [0, 0, 0];
const NEW: [u64; 3] = [1, 1, 1];
const BAD: [u64; 3] = [0, 2, 0];

/// Those of W-205 that become theorems as well.
fn few_relabels() -> Vec<Asked> {
    let order = "(user u)(role a)(role b)(type t)(userrole u a)(roletype a t)(class process(transition))";
    let numbers = format!(
        "{CLERKS}(validatetrans d(eq u3 v))(validatetrans file(eq u1 u))(constrain(file(read))(neq u1 u))\
         (validatetrans file(neq t3 s))"
    );
    let object = "(user u)(role object_r)(role a)(type t)(class file(read))(validatetrans file(eq r3 object_r))";
    let entries = "(class c(p))(user u)(validatetrans c(eq u3 u))(validatetrans c(not(eq u1 u2)))";
    vec![
        of(
            "W-205, readings 72 and 76: denials 1, 2, 5 in this order, 12 before, and no role allow",
            order,
            &[
                relabel(0, A, A, A),
                relabel(0, B, B, B),
                relabel(0, A, B, B),
                relabel(0, A, A, B),
                relabel(0, B, B, [0, 0, 1]),
                relabel(1, A, A, A),
            ],
        ),
        of(
            "W-205, readings 73 and 74: the number among all validatetrans, consulted those of the class, each side",
            &numbers,
            &[
                relabel(0, OLD, NEW, NEW),
                relabel(0, NEW, OLD, NEW),
                relabel(0, OLD, NEW, OLD),
                relabel(1, OLD, NEW, OLD),
                change_in(OLD, OLD, 0, 0),
            ],
        ),
        of("W-205, reading 74: object_r is valid on each side", object, &[relabel(0, A, A, A), relabel(0, A, A, B)]),
        of(
            "W-205, reading 71: entries of bodies 9 and 10",
            entries,
            &[entry(9, 1), entry(9, 2), entry(10, 0), entry(10, 2), entry(10, 3), entry(11, 0)],
        ),
    ]
}

/// Those that go into the corpus alone.
fn more_relabels() -> Vec<Asked> {
    let far = [2, 3, 255, 256, 65_536, 1 << 32, u64::MAX];
    let mut undeclared: Vec<Question> = far.iter().map(|class| relabel(*class, BAD, BAD, BAD)).collect();
    for place in 0..9 {
        for number in [3, 256, 1 << 32] {
            let mut numbers = [0, 2, 0, 0, 2, 0, 0, 2, 0];
            numbers[place] = number;
            let [u1, r1, t1, u2, r2, t2, u3, r3, t3] = numbers;
            undeclared.push(relabel(0, [u1, r1, t1], [u2, r2, t2], [u3, r3, t3]));
        }
    }
    let consulted = format!(
        "{CLERKS}(validatetrans d(neq u3 v))(validatetrans file(eq u1 u))(validatetrans file(neq t1 t2))\
         (validatetrans file(eq u3 v))(validatetrans d(eq u1 u2))(constrain(file(read))(eq u1 v))"
    );
    let process = format!("{TWO_ROLES}(class process(transition dyntransition))(validatetrans process(neq r3 b))");
    let object = "(user u)(user v)(role object_r)(role a)(type t)(class file(read))(class d(p))\
                  (validatetrans file(or(eq r1 object_r)(neq r3 object_r)))(validatetrans d(neq r2 object_r))";
    let blocks = "(user u)(role a)(type t)(block b(user u)(role object_r)(role a)(userrole u a)(roletype a t)(class c(p))\
                  (validatetrans c(eq u3 u)))(class c(p))(userrole u a)(roletype a t)(validatetrans c(neq u3 b.u))\
                  (block c(validatetrans c(eq r1 .b.a)))";
    let attributes = "(user u)(user v)(role a)(role b)(type s)(type t)(userrole u a)(userrole v b)(roletype a s)(roletype b t)\
                      (userattribute x)(class c(p))(validatetrans c(eq u3 x))(class d(p))(roleattribute y)\
                      (validatetrans d(neq r3 y))(typeattribute z)(userattributeset x(not u))(roleattributeset y(b))\
                      (typeattributeset z(s))(class e(p))(validatetrans e(eq t3 z))";
    let inner = [1, 2, 0];
    let outer = [0, 0, 0];
    let by_each = |class: u64| [OLD, NEW].map(|process| relabel(class, OLD, NEW, process));
    let every: Vec<Question> = (0..3).flat_map(by_each).collect();
    let mut list = vec![
        of(
            "W-205, reading 72: denials 1, 2, 5 in this order",
            CLERKS,
            &[
                relabel(0, OLD, NEW, NEW),
                relabel(0, BAD, BAD, BAD),
                relabel(0, OLD, BAD, BAD),
                relabel(0, OLD, NEW, BAD),
                relabel(0, BAD, NEW, BAD),
                relabel(0, BAD, BAD, NEW),
                relabel(0, OLD, BAD, NEW),
                relabel(0, [0, 0, 1], NEW, NEW),
                relabel(1, OLD, OLD, [1, 0, 0]),
            ],
        ),
        of("W-205, reading 72: 12 before any denial", CLERKS, &undeclared),
        of(
            "W-205, reading 73: the place among all validatetrans, consulted those of the class",
            &consulted,
            &[
                relabel(0, OLD, NEW, NEW),
                relabel(0, NEW, OLD, NEW),
                relabel(0, OLD, OLD, NEW),
                relabel(0, OLD, NEW, OLD),
                relabel(1, OLD, OLD, NEW),
                relabel(1, OLD, NEW, OLD),
                relabel(1, OLD, OLD, OLD),
                change_in(OLD, OLD, 0, 0),
            ],
        ),
        of(
            "W-205, readings 72 and 76: no role allow is asked, whatever the class",
            &process,
            &[relabel(0, A, B, A), relabel(0, A, B, B), change(A, B, 0), change(A, B, 1), relabel(0, B, A, A)],
        ),
        of(
            "W-205, reading 74: object_r on each side, where rules apply to it as to any role",
            object,
            &[
                relabel(0, A, A, A),
                relabel(0, A, A, B),
                relabel(0, A, B, A),
                relabel(0, B, A, A),
                relabel(1, A, A, A),
                relabel(0, A, [1, 0, 0], [1, 0, 0]),
                relabel(0, A, [2, 0, 0], A),
            ],
        ),
        of(
            "W-205, readings 65 and 74: names within blocks",
            blocks,
            &[
                relabel(0, inner, inner, inner),
                relabel(0, inner, outer, outer),
                relabel(1, inner, outer, outer),
                relabel(1, inner, outer, inner),
                relabel(1, outer, outer, outer),
                relabel(0, [0, 1, 0], outer, outer),
            ],
        ),
        of("W-205, reading 74: final sets on side 3", attributes, &every),
    ];
    list.push(each_side());
    list
}

/// Every component and operator, each in a class of its own; asked with three different contexts in two orders, and with the
/// same one on all sides.
fn each_side() -> Asked {
    let mut text = "(user u)(user v)(user w)(role a)(role b)(role c)(type r)(type s)(type t)(userrole u a)(userrole v b)\
                    (userrole w c)(roletype a r)(roletype b s)(roletype c t)(roleattribute x)(roleattributeset x(c))"
        .to_string();
    let each = [
        "(eq u1 u)", "(eq u2 v)", "(eq u3 w)", "(eq r1 a)", "(eq r2 b)", "(eq r3 c)", "(eq t1 r)", "(eq t2 s)", "(eq t3 t)",
        "(neq u3 u)", "(neq r3 b)", "(eq r3 x)", "(neq r1 x)", "(eq r2 x)", "(neq t3 r)", "(neq u1 u2)", "(eq r1 r2)",
        "(neq r1 r2)", "(incomp r1 r2)", "(dom r1 r2)", "(domby r1 r2)", "(neq t1 t2)", "(eq t1 t2)",
    ];
    let (first, second, third) = ([0, 0, 0], [1, 1, 1], [2, 2, 2]);
    let mut questions = Vec::new();
    for (number, expression) in each.iter().enumerate() {
        text.push_str(&format!("(class c{number}(p))(validatetrans c{number} {expression})"));
        let class = number as u64;
        questions.extend([
            relabel(class, first, second, third),
            relabel(class, third, first, second),
            relabel(class, third, third, third),
        ]);
    }
    of("W-205, reading 74: each component and operator on its side", &text, &questions)
}
