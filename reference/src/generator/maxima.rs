//! Both sides of each maximum, with the answer worked out by hand from documents 01 and 02.

use crate::fault::Fault;

/// A policy exactly at a maximum, which is accepted, and one past it with its fault.
pub struct Bound {
    pub name: &'static str,
    pub at: Vec<u8>,
    pub past: Vec<u8>,
    pub fault: Fault,
}

/// A bound where the last statement passes the maximum: fault 6 at that statement.
fn counted(name: &'static str, before: &str, count: usize, statement: &dyn Fn(usize) -> String) -> Bound {
    let mut at = before.to_string();
    for n in 0..count {
        at.push_str(&statement(n));
    }
    let past = format!("{at}{}", statement(count));
    let fault = Fault::new(6, at.len());
    Bound { name, at: at.into_bytes(), past: past.into_bytes(), fault }
}

pub fn bounds() -> Vec<Bound> {
    let mut list = vec![
        counted("users", "", 128, &|n| format!("(user a{n})")),
        counted("roles", "", 128, &|n| format!("(role a{n})")),
        counted("types", "", 512, &|n| format!("(type a{n})")),
        counted("userattributes", "", 64, &|n| format!("(userattribute a{n})")),
        counted("roleattributes", "", 64, &|n| format!("(roleattribute a{n})")),
        counted("typeattributes", "", 64, &|n| format!("(typeattribute a{n})")),
        counted("classes", "", 32, &|n| format!("(class a{n}(p))")),
        counted("transitions", "(role a)(type t)(class c(p))", 128, &|_| "(roletransition a t c a)".to_string()),
        counted("constraints", "(class c(p))", 128, &|_| "(constrain(c(p))(eq u1 u2))".to_string()),
        permissions(),
        rows(),
        rows_of_many_constraints(),
        set_levels(),
        expression_levels(),
    ];
    list.extend(names());
    list.extend(texts());
    list.extend(stacks());
    list.extend(blocks());
    list.extend(validations());
    list.into_iter().map(|bound| Bound { fault: bound.fault.in_text(&bound.past), ..bound }).collect()
}

fn permissions() -> Bound {
    let class = |count| format!("(class c({}))", (0..count).map(|n| format!("p{n}")).collect::<Vec<_>>().join(" "));
    Bound {
        name: "permissions",
        at: class(32).into_bytes(),
        past: class(33).into_bytes(),
        fault: Fault::new(6, 0),
    }
}

/// A constrain of `rows` rows: nots around one comparison.
fn nots(rows: usize) -> String {
    let wrapped = format!("{}(eq u1 u2){}", "(not".repeat(rows - 1), ")".repeat(rows - 1));
    format!("(constrain(c(p)){wrapped})")
}

/// 68 constraints of 30 rows are 2,040 rows; one of 8 fills up, one of 9 passes.
fn rows() -> Bound {
    let before = format!("(class c(p)){}", nots(30).repeat(68));
    Bound {
        name: "rows",
        at: format!("{before}{}", nots(8)).into_bytes(),
        past: format!("{before}{}", nots(9)).into_bytes(),
        fault: Fault::new(6, before.len()),
    }
}

/// 128 constraints of 16 rows: both maxima at once. In the longer one the last has 17 rows.
fn rows_of_many_constraints() -> Bound {
    let before = format!("(class c(p)){}", nots(16).repeat(127));
    Bound {
        name: "rows and constraints",
        at: format!("{before}{}", nots(16)).into_bytes(),
        past: format!("{before}{}", nots(17)).into_bytes(),
        fault: Fault::new(6, before.len()),
    }
}

/// The statement is level 1, so S has 31 levels at most. The 33rd parenthesis is the fault.
fn set_levels() -> Bound {
    let before = "(role a)(roleattribute x)";
    let head = "(roleattributeset x ";
    let text = |levels| format!("{before}{head}{}a{})", "(".repeat(levels), ")".repeat(levels));
    Bound {
        name: "levels of a set",
        at: text(31).into_bytes(),
        past: text(32).into_bytes(),
        fault: Fault::new(2, before.len() + head.len() + 31),
    }
}

/// 30 nots and the comparison are levels 2 to 32.
fn expression_levels() -> Bound {
    let before = "(class c(p))";
    let past = format!("{before}{}", nots(32));
    let place = past.find("(eq").expect("the innermost comparison is level 33");
    Bound {
        name: "levels of a constraint",
        at: format!("{before}{}", nots(31)).into_bytes(),
        past: past.into_bytes(),
        fault: Fault::new(2, place),
    }
}

fn names() -> Vec<Bound> {
    let text = |before: &str, length, after: &str| format!("{before}{}{after}", "n".repeat(length)).into_bytes();
    let around = [("name", "(role ", ")"), ("permission", "(class c(p ", "))"), ("name before a comment", "(type ", ";\n)")];
    let bound = |(name, before, after): (&'static str, &str, &str)| Bound {
        name,
        at: text(before, 64, after),
        past: text(before, 65, after),
        fault: Fault::new(2, before.len()),
    };
    around.into_iter().map(bound).collect()
}

/// "Text 65,535 bytes", and reading 1: longer is 1 at 65,535 whatever else is wrong in it.
fn texts() -> Vec<Bound> {
    let padded = |before: &[u8], fill: u8, length: usize| {
        let mut text = before.to_vec();
        text.resize(length, fill);
        text
    };
    let bound = |name, before: &[u8], fill| Bound {
        name,
        at: padded(before, fill, 65_535),
        past: padded(before, fill, 65_536),
        fault: Fault::new(1, 65_535),
    };
    vec![bound("text of blanks", b"(role a)", b' '), bound("text of a comment", b"(role a);", b'(')]
}

/// P10: joined to the right five need 5 and six need 6; a chain to the left needs 2 however long.
fn stacks() -> Vec<Bound> {
    let before = "(class c(p))";
    let comparison = "(neq r1 r2)";
    let right = |count: usize| {
        let open = format!("(and{comparison}").repeat(count - 1);
        format!("{before}(constrain(c(p)){open}{comparison}{})", ")".repeat(count - 1)).into_bytes()
    };
    // The right operand of the outermost operator is itself a chain to the right under a not.
    let mixed = |count: usize| {
        let open = format!("(or{comparison}").repeat(count - 2);
        let inner = format!("(not{open}{comparison}{})", ")".repeat(count - 2));
        format!("{before}(constrain(c(p))(and(or{comparison}{comparison}){inner}))").into_bytes()
    };
    let fault = Fault::new(7, before.len());
    vec![
        Bound { name: "stack to the right", at: right(5), past: right(6), fault },
        Bound { name: "stack under not", at: mixed(5), past: mixed(6), fault },
    ]
}

/// Document 02, W-203: "blocks nest to 8", a full name has "at most 64 bytes", a name as written "64 bytes not counting a leading
/// dot"; reading 34 of document 02: the blocks' parentheses count among the 32 levels.
fn blocks() -> Vec<Bound> {
    let n = |count: usize| "n".repeat(count);
    let nested = |count: usize| format!("{}(type t){}", "(block b".repeat(count), ")".repeat(count)).into_bytes();
    let block = |length: usize| format!("(block b(block {}))", n(length)).into_bytes();
    let used = |length: usize| format!("(role {})(roleallow .{} .{})", n(64), n(64), n(length)).into_bytes();
    let levels = |count: usize| {
        format!("(block b(userattribute x)(userattributeset x{}all{}))", "(".repeat(count), ")".repeat(count)).into_bytes()
    };
    let mut list = vec![
        Bound { name: "blocks nested", at: nested(8), past: nested(9), fault: Fault::new(6, 64) },
        Bound { name: "name behind a leading dot", at: used(64), past: used(65), fault: Fault::new(2, 148) },
        Bound { name: "levels within a block", at: levels(30), past: levels(31), fault: Fault::new(2, 74) },
        Bound { name: "full name of a block", at: block(62), past: block(63), fault: Fault::new(6, 8) },
    ];
    let declared = [
        ("full name of a role", "role", ""),
        ("full name of a user", "user", ""),
        ("full name of a type", "type", ""),
        ("full name of an attribute", "roleattribute", ""),
        ("full name of a class", "class", "(p)"),
    ];
    for (name, word, end) in declared {
        let text = |length: usize| format!("(block b(block c({word} {}{end})))", n(length)).into_bytes();
        list.push(Bound { name, at: text(60), past: text(61), fault: Fault::new(6, 16) });
    }
    list
}

/// A validatetrans of `rows` rows.
fn validating_nots(rows: usize) -> String {
    format!("(validatetrans c{}(eq u1 u2){})", "(not".repeat(rows - 1), ")".repeat(rows - 1))
}

/// Document 02, W-205: "At most 64 such statements and 1,024 rows", counted apart from the constrains (reading 66 of document
/// 02); stack need as for a constrain.
fn validations() -> Vec<Bound> {
    let before = format!("(class c(p)){}", nots(2));
    let rows = format!("{before}{}", validating_nots(30).repeat(34));
    let both = format!("{before}{}", validating_nots(16).repeat(63));
    let right = |count: usize| {
        let open = "(and(neq r1 r2)".repeat(count - 1);
        format!("{before}(validatetrans c{open}(neq r1 r2){})", ")".repeat(count - 1)).into_bytes()
    };
    let bound = |name, before: &str, at: usize, past: usize| Bound {
        name,
        at: format!("{before}{}", validating_nots(at)).into_bytes(),
        past: format!("{before}{}", validating_nots(past)).into_bytes(),
        fault: Fault::new(6, before.len()),
    };
    // Those of one kind at their maximum leave room for the other.
    let constrains = format!("(class c(p)){}", nots(16).repeat(128));
    let full = format!("(class c(p)){}", validating_nots(16).repeat(64));
    vec![
        counted("validatetrans", &before, 64, &|_| "(validatetrans c(eq u1 u2))".to_string()),
        bound("validatetrans rows", &rows, 4, 5),
        bound("validatetrans and their rows", &both, 16, 17),
        counted("validatetrans behind all constrains", &constrains, 64, &|_| "(validatetrans c(eq u1 u2))".to_string()),
        counted("constraints behind all validatetrans", &full, 128, &|_| "(constrain(c(p))(eq u1 u2))".to_string()),
        Bound { name: "stack of a validatetrans", at: right(5), past: right(6), fault: Fault::new(7, before.len()) },
    ]
}

/// Reading 23: the order 4, 5, 6, 7 within a statement, at the maxima.
pub fn orders() -> Vec<(&'static str, Vec<u8>, Fault)> {
    let find = |name: &str| bounds().into_iter().find(|b| b.name == name).expect("a bound of that name");
    let longer = |name: &str, last: &str| {
        let at = find(name).at;
        let place = at.len();
        ([at, last.as_bytes().to_vec()].concat(), place)
    };
    let six = format!("{}(eq u1 u2){}", "(or(eq u1 u2)".repeat(5), ")".repeat(5));
    let many = (0..32).map(|n| format!("p{n}")).collect::<Vec<_>>().join(" ");
    let cases: Vec<(&'static str, u8, &str, String)> = vec![
        ("a role declared again at 128", 4, "roles", "(role a0)".to_string()),
        ("an attribute with a role's name at 128", 4, "roles", "(roleattribute a127)".to_string()),
        ("a class declared again at 32", 4, "classes", "(class a31(p))".to_string()),
        ("33 permissions with a repeat", 4, "classes", format!("(class b({many} p0))")),
        ("33 permissions in class 33", 6, "classes", format!("(class b({many} q))")),
        ("a 129th constraint with an unknown name", 5, "constraints", "(constrain(c(p))(eq u1 nope))".to_string()),
        ("a 129th constraint with need 6", 6, "constraints", format!("(constrain(c(p)){six})")),
        ("rows past 2,048 with need 6", 6, "rows", format!("(constrain(c(p)){six})")),
        ("rows past 2,048 with an unknown permission", 5, "rows", "(constrain(c(q))(eq u1 u2))".to_string()),
        ("a 129th transition with an unknown role", 5, "transitions", "(roletransition a t c b)".to_string()),
        ("a 65th validatetrans with an unknown name", 5, "validatetrans", "(validatetrans c(eq u3 nope))".to_string()),
        ("a 65th validatetrans with need 6", 6, "validatetrans", format!("(validatetrans c{six})")),
        ("a 65th validatetrans of a wrong form", 3, "validatetrans", "(validatetrans c(eq u3 u1))".to_string()),
        ("a 65th validatetrans with an unknown class", 5, "validatetrans", "(validatetrans d(eq u1 u2))".to_string()),
        ("rows past 1,024 with need 6", 6, "validatetrans rows", format!("(validatetrans c{six})")),
        ("rows past 1,024 with an unknown name", 5, "validatetrans rows", "(validatetrans c(eq t3 nope))".to_string()),
        ("a 129th role of a wrong form", 3, "roles", "(role a0 a0)".to_string()),
    ];
    let finish = |(label, number, bound, last): (&'static str, u8, &str, String)| {
        let (text, place) = longer(bound, &last);
        let fault = Fault::new(number, place).in_text(&text);
        (label, text, fault)
    };
    cases.into_iter().map(finish).collect()
}

/// Rows of permissions around the 32nd, of names that start alike: "permission twice in a class" comes before 6, wherever in the
/// row the two stand. With what each text is refused, if it is.
pub fn permission_rows() -> Vec<(&'static str, Vec<u8>, Option<Fault>)> {
    let differ = |count: usize| (0..count).map(|n| format!("abcdefgh{n}")).collect::<Vec<_>>();
    let repeat = |count: usize, first: usize, again: usize| {
        let mut names = differ(count);
        names[again] = names[first].clone();
        names
    };
    let longer = |count: usize| (1..=count).map(|length| "a".repeat(length)).collect::<Vec<_>>();
    let cases: Vec<(&'static str, Vec<String>, Option<u8>)> = vec![
        ("32 names that start alike", differ(32), None),
        ("33 names that start alike", differ(33), Some(6)),
        ("40 names that start alike", differ(40), Some(6)),
        ("the last of 32 is the first", repeat(32, 0, 31), Some(4)),
        ("the last of 33 is the one before it", repeat(33, 31, 32), Some(4)),
        ("the 36th of 40 is the third", repeat(40, 2, 35), Some(4)),
        ("the 39th of 40 is the 35th", repeat(40, 34, 38), Some(4)),
        ("32 names that each start the next", longer(32), None),
        ("40 names that each start the next", longer(40), Some(6)),
    ];
    let finish = |(label, names, number): (&'static str, Vec<String>, Option<u8>)| {
        let text = format!("(user u)(class c({}))", names.join(" ")).into_bytes();
        let fault = number.map(|number| Fault::new(number, 8).in_text(&text));
        (label, text, fault)
    };
    cases.into_iter().map(finish).collect()
}

/// The most lines that a text can have (document 02, W-202). Reading 21: fault 1 counts the LFs of the first 65,535 bytes, and
/// only it reaches line 65,536. It alone can also have an LF at its place, which does not count (reading 19).
pub fn most_lines() -> Vec<(&'static str, Vec<u8>, Fault)> {
    let lfs = vec![b'\n'; 65_536];
    let unclosed = [b"(", &lfs[..65_534]].concat();
    vec![
        ("65,536 LFs", lfs, Fault { number: 1, place: 65_535, line: 65_536 }),
        ("unclosed before 65,534 LFs", unclosed, Fault { number: 2, place: 65_535, line: 65_535 }),
    ]
}

/// Document 02, W-203: full names may be longer than the text that gives them. Here is every thing, attribute and class that
/// can be, each of 64 bytes; the table passes 65,536 bytes, and the text has less than 13,000.
pub fn longest_full_names() -> Vec<u8> {
    let mut text = format!("(block {}", "b".repeat(59));
    for n in 0..512 {
        text.push_str(&format!("(type x{n:03})"));
        if n < 128 {
            text.push_str(&format!("(user x{n:03})(role x{n:03})"));
        }
        if n < 64 {
            text.push_str(&format!("(userattribute y{n:03})(roleattribute y{n:03})(typeattribute y{n:03})"));
        }
        if n < 32 {
            text.push_str(&format!("(class x{n:03}(p))"));
        }
    }
    text.push_str("(userrole x000 x127)(typeattributeset y063(x511))(roletype x127 y063))");
    text.into_bytes()
}

/// Reading 9 of document 02: up to 7,281 blocks in a text, all of nine bytes. In the second text the last one is opened again.
pub fn most_blocks() -> Vec<(&'static str, Vec<u8>, Option<Fault>)> {
    let all = blocks_within(&mut 7_281, 3);
    let again = format!("{}(block a)", blocks_within(&mut 7_280, 8));
    let fault = Fault::new(4, 65_520).in_text(again.as_bytes());
    vec![("7,281 blocks", all.into_bytes(), None), ("7,280 blocks and one again", again.into_bytes(), Some(fault))]
}

/// Blocks of one letter, in each of them as many again, to this depth and until none is left.
fn blocks_within(left: &mut usize, depth: usize) -> String {
    let mut text = String::new();
    for letter in ('a'..='z').chain('A'..='Z').chain(['_']) {
        if *left == 0 || depth == 0 {
            break;
        }
        *left -= 1;
        text.push_str(&format!("(block {letter}{})", blocks_within(left, depth - 1)));
    }
    text
}

/// Every count at its maximum in one policy.
pub fn everything() -> Vec<u8> {
    let mut text = String::new();
    for n in 0..512 {
        if n < 128 {
            text.push_str(&format!("(user u-{n})(role r-{n})"));
        }
        if n < 64 {
            text.push_str(&format!("(userattribute x{n})(roleattribute y{n})(typeattribute z{n})"));
        }
        text.push_str(&format!("(type t-{n})"));
    }
    for n in 0..32 {
        let permissions: Vec<String> = (0..32).map(|p| format!("p{p}")).collect();
        text.push_str(&format!("(class c{n}({}))", permissions.join(" ")));
    }
    for n in 0..63 {
        // Each attribute holds the next one, which is filled further down.
        let next = n + 1;
        text.push_str(&format!("(userattributeset x{n}(x{next} u-{n}))(roleattributeset y{n}(y{next} r-{n}))"));
        text.push_str(&format!("(typeattributeset z{n}(z{next} t-{n}))"));
    }
    text.push_str("(userattributeset x63(u-127))(roleattributeset y63(r-64 r-127))");
    text.push_str("(typeattributeset z63(and(not t-0)(t-500 t-511)))");
    for n in 0..128 {
        text.push_str(&format!("(roletransition r-{n} t-{n} c{} r-{})", n % 32, 127 - n));
        text.push_str(&constrain_of_sixteen_rows(n));
    }
    for n in 0..64 {
        let nots = ("(not".repeat(13), ")".repeat(13));
        text.push_str(&format!("(validatetrans c{}{}(or(eq u3 x{n})(neq r3 r-{n})){})", n % 32, nots.0, nots.1));
    }
    text.push_str("(userrole x0 y0)(roletype y0 z0)(roletype r-64 t-511)(roleallow y60 y0)(userrole u-127 r-65)");
    text.into_bytes()
}

/// Seven operators, one not and eight comparisons.
fn constrain_of_sixteen_rows(n: usize) -> String {
    let (class, permission, attribute) = (n % 32, n % 31, n % 64);
    let pair = format!("(or(neq r1 r-{n})(eq t2 z{attribute}))");
    let left = format!("(and{pair}(and(eq u1 x{attribute})(dom r1 r2)))");
    let right = format!("(or(not(eq u1 u2))(or(neq t1 t-{n})(or(incomp r1 r2)(eq r2 y{attribute}))))");
    format!("(constrain(c{class}(p{permission} p{}))(or{left}{right}))", permission + 1)
}

/// A policy within every maximum whose table passes 65,536 bytes (reading 27: the length needed may).
pub fn wide() -> Vec<u8> {
    let mut text = String::from("(class c(p))");
    for n in 0..512 {
        text.push_str(&format!("(type {:n>64})", format!("-{n}")));
        if n < 128 {
            text.push_str(&format!("(role a{n})"));
        }
        if n < 64 {
            text.push_str(&format!("(typeattribute z{n})"));
        }
    }
    let first = format!("{:n>64}", "-0");
    for n in 0..128 {
        text.push_str(&format!("(roletransition a{n} z0 c a0)"));
        text.push_str(&nots(16));
    }
    text.push_str(&format!("(typeattributeset z0({first}))"));
    text.into_bytes()
}
