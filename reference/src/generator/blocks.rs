//! Listed texts of document 02, W-203, in the form of `cases`: at least one for each of its readings 27 to 56, with the line of
//! each refusal.

use crate::generator::cases::{BuiltOnLine, ListedOnLine};

/// Short texts of every kind. Of W-203 these alone become theorems as well, each of which takes long to check.
pub const FEW: &[ListedOnLine] = &[
    (3, 1, "@(role a.b)", "W-203, readings 27 and 56: a dotted run is one name; once 2 at 7"),
    (2, 1, "(role @a..b)", "W-203, reading 28: at the name's first byte"),
    (2, 1, "(role @a.1b)", "W-203, reading 28: not at the part"),
    (2, 1, "(roleallow @.a. b)", "W-203, reading 29: the leading dot is the first byte"),
    (2, 1, "(role a@!.b)", "W-203, reading 31: lowest place"),
    (3, 1, "@(role a .b)", "W-203, reading 32: two good names"),
    (5, 1, "@(roleallow a.b.c.d.e.f.g.h.i.j a)", "W-203, reading 33: a use of ten parts finds nothing"),
    (3, 1, "@(block b(role a)(role a) x)", "W-203, reading 35: the header before anything in it"),
    (3, 2, "(block b\n@())", "W-203, reading 36: the statement's own parenthesis"),
    (3, 1, "@(class c (.p))", "W-203, reading 37: a dot in a permission"),
    (3, 1, "@(userrole b.all r)", "W-203, reading 38: a reserved part"),
    (3, 1, "@(.role a)", "W-203, reading 39: keywords only undotted"),
    (0, 0, "(block block(type block))", "W-203, reading 40: keywords stay free, block too"),
    (4, 2, "(block b)\n@(block b)", "W-203, reading 41: opened twice"),
    (0, 0, "(block c(user a))(block b(block c)(role a)(userrole c.a a))", "W-203, reading 42: outward although b.c exists"),
    (5, 1, "(block p(role n)@(roleallow .n n))", "W-203, reading 43: the whole-text level alone"),
    (
        5,
        2,
        "(roleattribute x)(block k(role x)\n@(roleattributeset x(all)))",
        "W-203, reading 44: the first hit of the family decides, of the wrong sort too",
    ),
    (
        5,
        1,
        "(class c(p))(block b(class c(q))@(constrain(c(p))(eq u1 u2)))",
        "W-203, reading 46: a permission of the class found",
    ),
    (
        8,
        2,
        "(block b\n@(roleattribute x)(roleattributeset x(.b.x)))",
        "W-203, reading 51: the declaration's own parenthesis",
    ),
];

/// Readings 27 to 34: fault 2.
pub const SCAN: &[ListedOnLine] = &[
    (5, 1, "@(roleallow a-.b1._ a)", "W-203, reading 27: letters, _, digits, - and dots are one run"),
    (3, 1, "(role a)@(roleallow a.a)", "W-203, reading 27: one name, not two"),
    (2, 1, "(role a@:.b)", "W-203, reading 27: a wrong byte is still no part of a name"),
    (0, 0, ";.\n(role a);..", "W-203, reading 27: dots in comments"),
    (2, 1, "(role @a.)", "W-203, reading 28: a dot at the end"),
    (2, 1, "(role @.)", "W-203, reading 28: a dot alone"),
    (2, 1, "(role @..)", "W-203, reading 28: dots alone"),
    (2, 1, "(role @..a)", "W-203, reading 28: two dots in front"),
    (2, 1, "(role @.1)", "W-203, reading 28: a digit behind the leading dot"),
    (2, 1, "(role @.-a)", "W-203, reading 28: a - behind the leading dot"),
    (2, 1, "(role @a.-b)", "W-203, reading 28: not at the part"),
    (2, 1, "(role @1.a)", "W-203, reading 28: a bad first part"),
    (2, 1, "(role @-.a)", "W-203, reading 28: a bad first part"),
    (2, 1, "(role @.a.b.)", "W-203, reading 28: a dot at the end"),
    (2, 1, "(role @a.b..c)", "W-203, reading 28: two dots between parts"),
    (2, 1, "(role @a.b.9)", "W-203, reading 28: a bad last part"),
    (2, 1, "(@role. a)", "W-203, reading 28: a bad name as keyword"),
    (2, 1, "(block @b..c(role a))", "W-203, reading 28: a bad name as a block's"),
    (2, 1, "(class c (p @.q.))", "W-203, reading 29: the leading dot is the first byte"),
    (2, 1, "(roleallow a @.9)", "W-203, reading 29: the leading dot is the first byte"),
    (2, 1, "(role @a.!)", "W-203, reading 31: lowest place, the dot is bad"),
    (2, 1, "(role @.!a)", "W-203, reading 31: lowest place, the dot is bad"),
    (2, 1, "(role a.b@!)", "W-203, reading 31: a wrong byte right after a good dotted name"),
    (2, 1, "(role @a.", "W-203, reading 31: a bad name that the text ends inside"),
    (2, 1, "(role a.b@", "W-203, reading 31: unclosed behind a good name"),
    (2, 1, "(role .a@", "W-203, reading 31: unclosed behind a good name"),
    (2, 1, "(block b(role a)(role a))(role @a.)", "W-203, reading 31: fault 2 before 4, also in blocks"),
    (0, 0, "(role a)(role b)(roleallow a .b)", "W-203, reading 32: two good names"),
    (2, 1, "(role @a. b)", "W-203, reading 32: the name is bad"),
    (2, 1, "(role @a.;\n)", "W-203, reading 32: the name is bad before a comment"),
    (2, 2, "(role a;.!\n@.)", "W-203, reading 32: a comment parts tokens"),
    (0, 0, "(role a)(role b)(roleallow a;\n.b)", "W-203, reading 32: a comment parts tokens"),
    (5, 1, "(role a)@(roleallow a .a.b.c.d.e.f.g.h.i.j.k)", "W-203, reading 33: eleven parts behind a leading dot"),
    (5, 1, "(block a(block b@(roleallow c.d.e.f.g.h.i.j a)))", "W-203, reading 33: ten parts with those of the blocks"),
    (5, 1, "@(roleallow a.b.c.d.e.f.g.h.i a)", "W-203, reading 33: nine parts that nothing has"),
    (2, 1, "@a.b", "W-203, reading 34: outside parentheses"),
    (2, 1, "@.a", "W-203, reading 34: outside parentheses"),
    (2, 2, "(block b)\n@.a(role a)", "W-203, reading 34: outside parentheses"),
    (2, 1, "(block b)@b.", "W-203, reading 34: a bad name outside parentheses"),
    (2, 3, "(block b\n(role a)\n@", "W-203, reading 34: an unclosed block"),
    (2, 1, "(block b(role a))@)", "W-203, reading 34: close without open"),
];

/// Readings 35 to 40: fault 3.
pub const FORM: &[ListedOnLine] = &[
    (3, 1, "@(block b x)", "W-203, reading 35: a name behind the block's"),
    (3, 1, "@(block)", "W-203, reading 35: no name"),
    (3, 1, "@(block (role a))", "W-203, reading 35: no name"),
    (3, 1, "@(block ())", "W-203, reading 35: no name"),
    (3, 1, "@(block b c (role a))", "W-203, reading 35: a second name"),
    (3, 1, "@(block b()x())", "W-203, reading 35: before the 3 of what is in it"),
    (3, 1, "@(block b(roleallow a a)x)", "W-203, reading 35: before the 5 of what is in it"),
    (3, 1, "@(block b(role a)\n(block c(role a)(role a))\nx)", "W-203, reading 35: the last part counts too"),
    (4, 1, "(block b(role a)@(role a)(block c x))", "W-203, reading 35: a later header does not count"),
    (0, 0, "(block b)", "W-203, reading 36: nothing in it"),
    (0, 0, "(block\nb;)\n)", "W-203, reading 36: nothing in it"),
    (3, 1, "(block b @())", "W-203, reading 36: () is a part in parentheses"),
    (3, 1, "(block b(role a)(block c @(role)))", "W-203, reading 36: the statement's own parenthesis"),
    (3, 1, "(block b(block c)@(block d x))", "W-203, reading 36: the inner block's own parenthesis"),
    (3, 1, "(block b@((role a)))", "W-203, reading 36: the statement's own parenthesis"),
    (3, 3, "(block b\n(role a)\n@(block\nc\nx)\n)", "W-203, reading 36: the line of the inner block"),
    (3, 1, "@(role .a)", "W-203, reading 37: a declared name"),
    (3, 1, "@(user a.b)", "W-203, reading 37: a declared name"),
    (3, 1, "@(typeattribute x.y)", "W-203, reading 37: a declared name"),
    (3, 1, "(block b@(roleattribute b.x))", "W-203, reading 37: a declared name, even of its own block"),
    (3, 1, "@(block .b)", "W-203, reading 37: a block's name"),
    (3, 1, "(block a)@(block a.b)", "W-203, reading 37: a block's name"),
    (3, 1, "@(class c.d (p))", "W-203, reading 37: a declared class"),
    (3, 1, "@(class .c (p p))", "W-203, reading 37: form before 4"),
    (3, 1, "@(class c (p p.q))", "W-203, reading 37: a permission"),
    (3, 1, "(class c(p))@(constrain (c (.p)) (eq u1 u2))", "W-203, reading 37: a permission in a constrain"),
    (3, 1, "(block b(class c(p)))@(constrain (b.c (b.p)) (eq u1 u2))", "W-203, reading 37: a permission in a constrain"),
    (0, 0, "(block b(class c(p)))(constrain(b.c(p))(eq u1 u2))", "W-203, reading 37: a dot in C is good"),
    (0, 0, "(block b(roleattribute x)(role a))(roleattributeset b.x(.b.a))", "W-203, reading 37: dots in A and S are good"),
    (0, 0, "(block b(user u))(class c(p))(constrain(.c(p))(eq u1 b.u))", "W-203, reading 37: dots in E are good"),
    (
        0,
        0,
        "(block b(role a)(type t)(class c(p)))(roletransition b.a b.t .b.c .b.a)",
        "W-203, reading 37: dots in a transition are good",
    ),
    (3, 1, "@(block all)", "W-203, reading 38: a reserved word as a block's name"),
    (3, 1, "@(block u1(role a))", "W-203, reading 38: a reserved word as a block's name"),
    (3, 1, "@(userrole u .r.and)", "W-203, reading 38: a reserved part"),
    (3, 1, "@(roleallow eq.b a)", "W-203, reading 38: a reserved part"),
    (3, 1, "@(roleallow .all a)", "W-203, reading 38: a reserved word behind a leading dot"),
    (3, 1, "@(roletype a b.t3.c)", "W-203, reading 38: a reserved part"),
    (3, 1, "(class c(p))@(constrain (c (p)) (eq u1 x.u2))", "W-203, reading 38: a reserved part in E"),
    (3, 1, "(class c(p))@(constrain (c (p)) (eq t1 .t2))", "W-203, reading 38: a reserved part in E"),
    (3, 1, "(class c(p))@(constrain (c (p)) (eq u1 .u2))", "W-203, reading 38: not the other side"),
    (3, 1, "(class c(p))@(constrain (h1.c (p)) (eq u1 u2))", "W-203, reading 38: a reserved part in C"),
    (3, 1, "(roleattribute x)(role y)@(roleattributeset x (b.not y))", "W-203, reading 38: in S, never 5"),
    (3, 1, "(roleattribute x)@(roleattributeset x (.x.all))", "W-203, reading 38: in S"),
    (3, 1, "@(roleattributeset or.x (all))", "W-203, reading 38: for A"),
    (3, 1, "@(roletransition a t c b.incomp)", "W-203, reading 38: a reserved part"),
    (0, 0, "(block b(role alls)(role u0)(roleallow b.alls .b.u0))", "W-203, reading 38: parts that are not reserved"),
    (3, 1, "@(role.x a)", "W-203, reading 39: an unknown statement"),
    (3, 1, "@(.block b)", "W-203, reading 39: an unknown statement"),
    (3, 1, "@(block.a b)", "W-203, reading 39: an unknown statement"),
    (3, 1, "(block role)@(role.role a)", "W-203, reading 39: an unknown statement"),
    (3, 1, "(roleattribute x)@(roleattributeset x (.all))", "W-203, reading 39: no operator"),
    (3, 1, "(roleattribute x)(role a)@(roleattributeset x (.and a a))", "W-203, reading 39: no operator"),
    (3, 1, "(roleattribute x)(role a)@(roleattributeset x (not.a a))", "W-203, reading 39: no operator"),
    (3, 1, "(class c(p))@(constrain (c (p)) (eq .u1 u2))", "W-203, reading 39: no side"),
    (3, 1, "(user u)(class c(p))@(constrain (c (p)) (eq .u1 u))", "W-203, reading 39: no side"),
    (3, 1, "(class c(p))@(constrain (c (p)) (.eq u1 u2))", "W-203, reading 39: no operator"),
    (3, 1, "(class c(p))@(constrain (c (p)) (.not (eq u1 u2)))", "W-203, reading 39: no operator"),
    (0, 0, "(block block(role block)(roleallow block .block.block))", "W-203, reading 40: keywords stay free, block too"),
    (0, 0, "(role block)(roleallow block .block)", "W-203, reading 40: keywords stay free, block too"),
    (0, 0, "(block role(type type)(class constrain(block)))", "W-203, reading 40: keywords stay free"),
    (3, 1, "(block b)@(in b (role a))", "W-203, reading 40: unknown"),
    (3, 1, "(block b)@(blockinherit b)", "W-203, reading 40: unknown"),
    (3, 1, "(block b@(blockabstract b))", "W-203, reading 40: unknown"),
    (3, 1, "@(optional o (role a))", "W-203, reading 40: unknown"),
    (3, 1, "@(Block b)", "W-203, reading 40: unknown"),
    (3, 1, "@(blocks b)", "W-203, reading 40: unknown"),
];

/// Readings 41 to 56: faults 4 to 9, and what is accepted.
pub const NAMES: &[ListedOnLine] = &[
    (0, 0, "(role b)(block b)(type b)(class b(b))", "W-203, reading 41: blocks are a family of their own"),
    (0, 0, "(block b(user b)(role b)(type b)(class b(b))(block b))", "W-203, reading 41: blocks are a family of their own"),
    (0, 0, "(block a(block a))", "W-203, reading 41: other full names"),
    (0, 0, "(block a(block b))(block b)", "W-203, reading 41: other full names"),
    (4, 1, "(block b)@(block b)", "W-203, reading 41: opened twice"),
    (4, 1, "(block b(role a))@(block b(role c))", "W-203, reading 41: opened twice"),
    (4, 1, "(block b)@(block b(role a a)())", "W-203, reading 41: before what is in it"),
    (4, 1, "(block a(block b)(block c)@(block b))", "W-203, reading 41: opened twice within a block"),
    (4, 3, "(block a\n(block b)\n@(block\nb))", "W-203, reading 41: the line of the second"),
    (3, 1, "(block a(block b)@(block b x))", "W-203, reading 41: 3 of a header before its 4"),
    (4, 1, "(block a(role b)@(role b))", "W-203, reading 41: declared again within a block"),
    (4, 1, "(block a(role b)@(roleattribute b))", "W-203, reading 41: a thing and an attribute clash within a block"),
    (4, 1, "(block a(class c(p))@(class c(q)))", "W-203, reading 41: declared again within a block"),
    (4, 2, "(role a)(block b(role a)\n@(role\na))", "W-203, reading 41: declared again within a block"),
    (0, 0, "(role n)(block p(role n)(block q(role n)(roleallow n n)))", "W-203, reading 42: the innermost first"),
    (0, 0, "(role n)(block p(role n)(block q(roleallow n n)))", "W-203, reading 42: then outward"),
    (0, 0, "(role n)(block p(block q(roleallow n n)))", "W-203, reading 42: outward to the whole text"),
    (0, 0, "(block p(role n)(block q(role m)(roleallow n p.n)(roleallow q.m p.q.m)))", "W-203, reading 42: a dotted use too"),
    (0, 0, "(block c(role a))(block b(block c)(roleallow c.a c.a))", "W-203, reading 42: outward although b.c exists"),
    (
        0,
        0,
        "(block b(block b(role a)(roleallow b.a b.b.a)(roleallow a .b.b.a)))",
        "W-203, reading 42: blocks of one name within each other",
    ),
    (
        0,
        0,
        "(block b(role x)(block b(role a))(roleallow b.x b.a))",
        "W-203, reading 42: b.x is tried as b.b.x, then as b.x",
    ),
    (5, 1, "@(roleallow c.a c.a)(block c(role a))", "W-203, reading 42: declared before use, in blocks too"),
    (5, 1, "(block b(block c)@(roleallow c.a c.a))(block c(role a))", "W-203, reading 42: declared before use"),
    (0, 0, "(role n)(block p(roleallow n n)(role n))", "W-203, reading 42: an inner name declared behind the use"),
    (5, 1, "(block p(role n))@(roleallow n n)", "W-203, reading 42: never inward"),
    (5, 1, "(block p(block q(role n))@(roleallow q.n n))", "W-203, reading 42: never inward"),
    (5, 1, "(block p(role n))(block q@(roleallow n n))", "W-203, reading 42: never into another block"),
    (5, 1, "(block p(block q(role n))(block s@(roleallow n n)))", "W-203, reading 42: never into another block"),
    (0, 0, "(block p(role n))(block q(roleallow p.n .p.n))", "W-203, reading 42: by its full name from another block"),
    (5, 1, "(block b(role a))(block c(role a))@(roleallow b.a d.a)", "W-203, reading 42: no such block"),
    (5, 2, "(block b(role a)\n@(roleallow a\nb))", "W-203, reading 42: a block is no role"),
    (0, 0, "(role n)(block p(role n)(roleallow .n n))", "W-203, reading 43: one try"),
    (0, 0, "(block p(role n)(roleallow .p.n n))", "W-203, reading 43: the rest as full name"),
    (5, 1, "(block p(block q(role n)@(roleallow n .q.n)))", "W-203, reading 43: the whole-text level alone"),
    (5, 1, "(block p(role n))@(roleallow .n .p.n)", "W-203, reading 43: the whole-text level alone"),
    (0, 0, "(role n)(roleallow .n n)", "W-203, reading 43: at whole-text level either way"),
    (0, 0, "(class c(p))(block b(class c(p))(constrain(.c(p))(eq u1 u2)))", "W-203, reading 43: a leading dot in C"),
    (
        5,
        1,
        "(type t)(class c (p))(role a)(roleattribute b)(block k(role b)(roleattribute a)@(roletransition b t c a))",
        "W-203, reading 44: the new role's first hit is an attribute",
    ),
    (
        0,
        0,
        "(type t)(class c(p))(role a)(roleattribute b)(block k(role b)(roleattribute a)(roletransition b t c .a))",
        "W-203, reading 44: the whole-text level has a role",
    ),
    (
        5,
        1,
        "(roleattribute x)(role a)(block k(role x)@(roleattributeset x(a)))",
        "W-203, reading 44: A's first hit is a thing",
    ),
    (0, 0, "(roleattribute x)(role a)(block k(role x)(roleattributeset .x(x a)))", "W-203, reading 44: operands of either sort"),
    (0, 0, "(role a)(block k(type a)(user a)(roleallow a a))", "W-203, reading 44: a hit of another family is no hit"),
    (0, 0, "(role a)(block k(block a)(roleallow a a))", "W-203, reading 44: a block is no hit"),
    (0, 0, "(class c(p))(block c(role c)(constrain(c(p))(eq r1 c)))", "W-203, reading 44: each name in its own family"),
    (0, 0, "(class c(p))(block b(constrain(c(p))(eq u1 u2)))", "W-203, reading 46: the class is found outward"),
    (
        0,
        0,
        "(class c(p))(block b(class c(q))(constrain(.c(p))(eq u1 u2))(constrain(c(q))(eq u1 u2)))",
        "W-203, reading 46: of the class found",
    ),
    (0, 0, "(class c(b p))(block b(class b(b))(constrain(c(b p))(eq u1 u2)))", "W-203, reading 46: never by blocks"),
    (
        8,
        1,
        "(role a)(block b(block c(role a)@(roleattribute x))(roleattributeset c.x(c.a .b.c.x)))",
        "W-203, reading 51: the declaration's own parenthesis",
    ),
    (
        8,
        3,
        "(block b(roleattribute x)\n(block c\n@(roleattribute x)(roleattributeset x(x))\n(roleattributeset .b.x(x))))",
        "W-203, reading 51: b.x only leads to the cycle of b.c.x",
    ),
    (0, 0, "(userattribute x)(block b(userattribute x)(userattributeset x(.x)))", "W-203, reading 51: no cycle, two attributes"),
    (
        9,
        1,
        "(role a)(type t)(class c(p))(block b(role a)(roletransition .a t c a)@(roletransition .a t c .a))",
        "W-203, reading 51: the statement's own parenthesis; new roles by full name",
    ),
    (
        9,
        3,
        "(role a)(type t)(class c(p))(block b(roletransition a t c a)\n(role a)\n@(roletransition .a t .c a))",
        "W-203, reading 51: one class, written otherwise",
    ),
    (
        0,
        0,
        "(role a)(type t)(class c(p))(block b(roletransition a t c a)(role a)(roletransition a t c a))",
        "W-203, reading 51: roles a and b.a do not clash",
    ),
    (
        0,
        0,
        "(role a)(type t)(class c(p))(block b(role b)(roletransition a t c a)(class c(p))(roletransition a t c b))",
        "W-203, reading 51: classes c and b.c do not clash",
    ),
    (0, 0, "(role b)(block a(role b))(block c(role b))", "W-203, reading 50: the same part names are different things"),
    (0, 0, "(roleattribute x)(block b(role a)(roleattributeset x(all)))(role c)", "W-203, reading 50: (all) is the whole text"),
    (
        0,
        0,
        "(block b(type t)(typeattribute x)(typeattributeset x(not t)))(block c(type t))(type t)",
        "W-203, reading 50: not within the whole text",
    ),
    (0, 0, "(block b(role a))", "W-203, reading 52: section 1 holds b.a"),
    (0, 0, "(block b(type a)(block c(type d))(type e))(type a)", "W-203, reading 52: numbers by text order through all blocks"),
    (
        0,
        0,
        "(user u)(block b(role a)(type t)(userrole u a)(roletype a t))(roletype b.a .b.t)",
        "W-203, reading 52: sets through full names",
    ),
    (0, 0, "(block b(class c(p q))(class d(p)))(class c(b))", "W-203, reading 52: permissions take no block's name"),
    (0, 0, "(block b(class process(transition)))", "W-203, reading 54: b.process is plain"),
    (0, 0, "(block b(role object_r))(block object_r(role a))", "W-203, reading 54: b.object_r is plain"),
    (
        0,
        0,
        "(role a)(class c(p))(block b(role a)(class c(p)))(constrain(c(p))(eq r1 a))",
        "W-203, reading 55: a constrain behind the last block stands at whole-text level",
    ),
    (
        5,
        2,
        "(block b(role a)(class c(p)))\n@(constrain(c(p))(eq r1 a))",
        "W-203, reading 55: a constrain behind the last block stands at whole-text level",
    ),
    (
        0,
        0,
        "(role a)(class c(p))(block b(role a)(class c(p)));x\n(constrain(c(p))(eq r1 b.a))",
        "W-203, reading 55: behind a comment",
    ),
    (3, 1, "(role a)@(role b.c)()", "W-203, reading 56: once a wrong byte at the dot"),
    (5, 1, "(role a)@(roleallow a.a a)", "W-203, reading 56: once a wrong byte at the dot"),
];

/// Cases that need repetition.
pub fn built() -> Vec<BuiltOnLine> {
    let b = "b".repeat(60);
    [long_names(), levels(), long_tries(&b), full_names(&b), nested(&b), counted(&b)].concat()
}

/// Reading 45. `b` has 60 bytes.
fn long_tries(b: &str) -> Vec<BuiltOnLine> {
    let n = |count: usize| "n".repeat(count);
    vec![
        (0, 0, format!("(role {0})(block {b}(block c(roleallow {0} {0})))", n(64)), "W-203, reading 45: long tries miss"),
        (0, 0, format!("(role {0})(block bbbb(roleallow {0} .{0}))", n(60)), "W-203, reading 45: a try of 65 bytes misses"),
        (0, 0, format!("(block b(role {0})(roleallow {0} b.{0}))", n(62)), "W-203, reading 45: 64 bytes hit, 66 miss"),
        (5, 1, format!("(block {b}@(roleallow {0} {0}))", n(64)), "W-203, reading 45: never 6 for a use"),
        (5, 2, format!("(block {b}\n@(roleallow {b}.abc {b}.abc))"), "W-203, reading 45: never 6 for a use"),
    ]
}

/// Readings 30, 31 and 33.
fn long_names() -> Vec<BuiltOnLine> {
    let n = |count: usize| "n".repeat(count);
    let parts = |count: usize| vec!["a"; count].join(".");
    vec![
        (5, 1, format!("@(roleallow .{} a)", n(64)), "W-203, reading 30: a leading dot and 64 bytes"),
        (2, 1, format!("(roleallow @.{} a)", n(65)), "W-203, reading 30: a leading dot and 65 bytes"),
        (5, 1, format!("@(roleallow {}.{} a)", n(31), n(32)), "W-203, reading 30: 64 bytes with the dot between"),
        (5, 1, format!("@(roleallow .{}.{} a)", n(31), n(32)), "W-203, reading 30: 64 bytes behind a leading dot"),
        (2, 1, format!("(roleallow @{}.{} a)", n(32), n(32)), "W-203, reading 30: 65 bytes with the dot between"),
        (2, 1, format!("(roleallow @.{}.{} a)", n(32), n(32)), "W-203, reading 30: 65 bytes behind a leading dot"),
        (0, 0, format!("(role {0})(roleallow .{0} {0})", n(64)), "W-203, reading 30: a part alone has no smaller limit"),
        (2, 1, format!("(roleallow @a.{}! a)", n(63)), "W-203, reading 31: a long name before a wrong byte"),
        (2, 1, format!("(roleallow a.{}@! a)", n(62)), "W-203, reading 31: 64 bytes before a wrong byte"),
        (2, 1, format!("(role @.{}", n(65)), "W-203, reading 31: a long name that the text ends inside"),
        (2, 1, format!("(role .{}@", n(64)), "W-203, reading 31: unclosed behind 64 bytes"),
        (5, 1, format!("@(roleallow {} a)", parts(32)), "W-203, reading 33: 32 parts in 63 bytes"),
        (2, 1, format!("(roleallow @{} a)", parts(33)), "W-203, reading 33: 33 parts are 65 bytes"),
    ]
}

/// Something within blocks `a`, each within the one before.
fn within(depth: usize, inside: &str) -> String {
    format!("{}{inside}{}", "(block a".repeat(depth), ")".repeat(depth))
}

/// Reading 34: the blocks' parentheses count among the 32 levels.
fn levels() -> Vec<BuiltOnLine> {
    let set = |levels: usize, mark: &str| {
        format!("(roleattribute x)(role y)(roleattributeset x{}{mark}{}y{})", "(".repeat(23), "(".repeat(levels - 23), ")".repeat(levels))
    };
    vec![
        (0, 0, within(8, &set(23, "")), "W-203, reading 34: 23 levels below a statement in 8 blocks"),
        (2, 1, within(8, &set(24, "@")), "W-203, reading 34: level 33 counts the blocks"),
        (2, 1, format!("{}@(block a{}", "(block a".repeat(32), ")".repeat(33)), "W-203, reading 34: fault 2 before 6"),
        (6, 1, format!("{}@(block a{}", "(block a".repeat(8), ")".repeat(9)), "W-203, reading 34: 9 levels are no fault 2"),
    ]
}

/// Readings 47, 49 and 53: full names of 64 and 65 bytes. `b` has 60 bytes.
fn full_names(b: &str) -> Vec<BuiltOnLine> {
    let n = |count: usize| "n".repeat(count);
    vec![
        (0, 0, format!("(block {b}(role abc))"), "W-203, readings 47 and 53: 64 bytes"),
        (6, 1, format!("(block {b}@(role abcd))"), "W-203, reading 47: 65 bytes"),
        (6, 1, format!("(block {b}@(block yyyyy))"), "W-203, reading 47: the block's own parenthesis, empty or not"),
        (6, 1, format!("(block {b}@(block yyyy()))"), "W-203, reading 47: before what is in it"),
        (0, 0, format!("(block {b}(block yyy))"), "W-203, reading 47: a block of 64 bytes"),
        (6, 2, format!("(block {b}(block yyy\n@(role a)))"), "W-203, reading 47: nothing fits into it"),
        (6, 1, format!("(block {b}(block yyy@(block a)))"), "W-203, reading 47: nothing fits into it"),
        (0, 0, format!("(block {}(class c(p)))", n(62)), "W-203, readings 47 and 53: a class of 64 bytes"),
        (6, 1, format!("(block {}@(class cc(p)))", n(62)), "W-203, reading 47: a class of 65 bytes"),
        (0, 0, format!("(block {}(class c({})))", n(62), n(64)), "W-203, reading 47: a permission takes no block's name"),
        (6, 1, format!("(block {b}@(user abcd))"), "W-203, reading 47: a user of 65 bytes"),
        (6, 1, format!("(block {b}@(type abcd))"), "W-203, reading 47: a type of 65 bytes"),
        (6, 1, format!("(block {b}@(userattribute abcd))"), "W-203, reading 47: an attribute of 65 bytes"),
        (0, 0, format!("(block {b}(typeattribute abc))"), "W-203, reading 47: an attribute of 64 bytes"),
        (3, 1, format!("(block {b}@(role abcd efg))"), "W-203, reading 47: 3 before 6"),
        (4, 1, format!("(block {b}@(class abcd(p p)))"), "W-203, reading 49: 4 before 6"),
        (6, 1, format!("(block {b}@(class abcd(p q)))"), "W-203, reading 49: 6 at the class"),
    ]
}

/// Readings 48 and 53: eight levels of blocks, and nine.
fn nested(b: &str) -> Vec<BuiltOnLine> {
    vec![
        (0, 0, within(8, ""), "W-203, reading 48: eight levels"),
        (0, 0, within(8, "(type t)"), "W-203, readings 48 and 53: nine parts"),
        (6, 1, within(8, "@(block a)"), "W-203, reading 48: a ninth level"),
        (6, 9, format!("{}@(block\na){}", "(block a\n".repeat(8), ")".repeat(8)), "W-203, reading 48: the line of the ninth"),
        (6, 1, within(8, "@(block a(role a a))"), "W-203, reading 48: the header before anything in it"),
        (3, 1, within(8, "@(block a x)"), "W-203, reading 48: 3 before 6"),
        (3, 1, within(8, "@(block all)"), "W-203, reading 48: 3 before 6"),
        (3, 1, format!("(block {b}@(block yyyyy y))"), "W-203, reading 48: 3 before 6"),
        (0, 0, within(7, "(block a)(block b)(block c)"), "W-203, reading 48: levels, not blocks"),
        (4, 1, within(7, "(block a)@(block a)"), "W-203, reading 48: 4 of a header"),
        (0, 0, format!("{}(block b)", within(8, "")), "W-203, reading 48: the level ends with its block"),
        (0, 0, within(8, "(type a)(typeattribute x)(typeattributeset x(a.a))"), "W-203, reading 42: a.a within eight blocks a"),
    ]
}

/// Readings 49 and 50: the maxima over all blocks together.
fn counted(b: &str) -> Vec<BuiltOnLine> {
    let many = |word: &str, count: usize| (0..count).map(|n| format!("({word} a{n})")).collect::<String>();
    let classes = |count: usize| (0..count).map(|n| format!("(class a{n}(p))")).collect::<String>();
    let blocks = (0..300).map(|n| format!("(block b{n})")).collect();
    vec![
        (6, 1, format!("{}(block {b}@(role abcd))", many("role", 128)), "W-203, reading 49: a long name at the 129th role"),
        (6, 1, format!("{}(block b@(role a0))", many("role", 128)), "W-203, reading 50: a 129th role"),
        (0, 0, format!("{}(block b(role a0))", many("role", 127)), "W-203, reading 50: 128 roles"),
        (4, 1, format!("{}(block b)@(role a0)", many("role", 128)), "W-203, reading 50: 4 before 6"),
        (6, 1, format!("(block b{})@(userattribute a0)", many("userattribute", 64)), "W-203, reading 50: a 65th attribute"),
        (6, 2, format!("(block b{})(block c\n@(class a0(p)))", classes(32)), "W-203, reading 50: a 33rd class"),
        (0, 0, blocks, "W-203, reading 9: blocks have no maximum"),
    ]
}
