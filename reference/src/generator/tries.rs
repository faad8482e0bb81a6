//! Tries at names (document 02, W-204) over section 1 of accepted texts: hits, misses and near misses, in the name's own
//! family and in others, also with numbers and names that no text has.

use crate::generator::maxima;
use crate::limits;
use crate::lookup::{NameEntry, CLASS, PERMISSION};
use crate::random::Random;
use crate::sound::{decode, section_names};
use crate::table::table_of;

/// The number of a family (`lookup::Among::of`) and a name, which may be any bytes.
pub type Asked = (u32, Vec<u8>);

/// Section 1 of an accepted text and what is tried over it.
pub struct TryCase {
    pub section: Vec<u8>,
    pub tries: Vec<Asked>,
}

/// How many of a hundred tries are kept: at a declared name in its family, in other families, and of the near misses.
#[derive(Clone, Copy)]
pub struct Share {
    own: usize,
    others: usize,
    near: usize,
}

impl Share {
    pub const ALL: Share = Share { own: 100, others: 100, near: 100 };
    pub const SOME: Share = Share { own: 100, others: 12, near: 30 };
    pub const FEW: Share = Share { own: 100, others: 2, near: 4 };
    pub const FEWEST: Share = Share { own: 25, others: 2, near: 4 };
}

/// Section 1 of a text, or nothing where it is refused.
pub fn section_of(text: &[u8]) -> Option<Vec<u8>> {
    let table = table_of(text).ok()?;
    let offsets = decode(&table).expect("a written table is sound").offsets;
    Some(table[offsets[0]..offsets[1]].to_vec())
}

/// A text's section with tries over it, those of `first` before all others; nothing where the text is refused.
pub fn case(random: &mut Random, text: &[u8], first: &[Asked], share: Share) -> Option<TryCase> {
    let section = section_of(text)?;
    let (names, counts) = section_names(&section).expect("a section that was written");
    let mut tries = first.to_vec();
    for entry in &names {
        tries.extend(tries_near(random, entry, counts.classes() as u32, share));
    }
    for family in families(counts.classes() as u32) {
        tries.extend(absent(random, &names, family));
    }
    Some(TryCase { section, tries })
}

/// The texts listed by hand, and those at the maxima.
pub fn listed(random: &mut Random) -> Vec<TryCase> {
    let mut list = Vec::new();
    for (text, first) in LISTED {
        let first: Vec<Asked> = first.iter().map(|(family, name)| (*family, name.as_bytes().to_vec())).collect();
        list.push(case(random, text.as_bytes(), &first, Share::ALL));
    }
    for text in [alike_to_the_ninth_byte(), lengths(), longest()] {
        list.push(case(random, text.as_bytes(), &[], Share::ALL));
    }
    list.push(case(random, &maxima::everything(), &[], Share::FEW));
    list.push(case(random, level().as_bytes(), &[], Share::FEWEST));
    list.push(case(random, &maxima::wide(), &[], Share::FEWEST));
    list.into_iter().map(|case| case.expect("a listed text is accepted")).collect()
}

/// Texts, each with some tries that are asked whatever else is.
const LISTED: &[(&str, &[(u32, &str)])] = &[
    ("", &[(0, "a"), (3, "a"), (4, "a"), (40, "a")]),
    // Reading 57 of document 02: 2, 3, 1 and no hit, 0.
    (
        "(role a)(role bb)(role c)(roleattribute d)(user c)",
        &[(1, "c"), (1, "d"), (1, "zz"), (1, "zzz"), (0, "c"), (2, "c"), (3, "c")],
    ),
    // Permissions of the same name in several classes (reading 59 of document 02).
    ("(class c(p q rr))(class d(rr q p))(class e(p))", &[(4, "p"), (5, "p"), (6, "p"), (7, "p"), (5, "rr"), (6, "rr")]),
    ("(type x)(class x(x))(role x)(class y(x y))(user x)", &[(0, "x"), (1, "x"), (2, "x"), (3, "x"), (4, "x"), (5, "x")]),
    // Attributes before, between and behind the things of their family, the families mixed.
    (
        "(typeattribute z)(type a)(userattribute a)(typeattribute b)(role z)(type c)(user b)(roleattribute c)(type d)(role b)",
        &[(2, "c"), (2, "d"), (2, "e"), (1, "b"), (0, "z")],
    ),
    // The same bytes in another order.
    ("(type abc)(type acb)(type bac)(type bca)(type cab)(type cba)", &[(2, "aab"), (2, "abb"), (2, "cba")]),
    // Each name starts the next one.
    ("(role a)(role ab)(role abc)(roleattribute abcd)(role abcde)(class a(ab a abc))", &[(1, "abcd"), (4, "ab")]),
    ("(role role)(roleattribute user)(class class(class user role))(user user)(type Type)(type type)", &[(2, "tYPE")]),
    ("(user u)(role a)(role b)(type t)(userrole u a)(roletype a t)", &[]),
    // Document 02, W-203: entries are full names, and a try is at a full name.
    (
        "(role a)(block b(role c)(block d(role c)(roleattribute e)(class c(c d))))(role b-c)(block c(role a)(class c(p)))",
        &[(1, "b.c"), (1, "b-c"), (1, "b.d.e"), (1, "b.d.f"), (1, "b.d"), (1, "c"), (1, ".a"), (1, "c.a"), (3, "b.d.c"), (4, "c")],
    ),
    // A full name of nine parts, and one of 64 bytes.
    (
        "(block a(block a(block a(block a(block a(block a(block a(block a(type a))))))))\
         (type nnnnnnnnnnnnnnnnnnnnnnnnnnnnnnnnnnnnnnnnnnnnnnnnnnnnnnnnnnnnnn))",
        &[(2, "a.a.a.a.a.a.a.a.a"), (2, "a.a.a.a.a.a.a.a"), (2, "a.a.a.a.a.a.a.a.b"), (2, "a-a.a.a.a.a.a.a.a")],
    ),
];

/// Names that differ only in their ninth byte or later, of every sort.
fn alike_to_the_ninth_byte() -> String {
    let ends = ["", "1", "2", "-", "11", "12", "ijklmno", "ijklmnop", "ijklmnoq", "ijklmnopq", "ijklmnopr", "ijklmnopqrst-7"];
    let names: Vec<String> = ends.iter().map(|end| format!("abcdefgh{end}")).collect();
    let mut text = format!("(class {}({}))(class {}({}))", names[1], names.join(" "), names[2], names[3]);
    for (place, name) in names.iter().enumerate() {
        let sort = if place % 3 == 2 { "attribute" } else { "" };
        text.push_str(&format!("(role{sort} {name})"));
    }
    text.push_str(&format!("(type {})(user {})(userattribute {})", names[1], names[7], names[8]));
    text
}

/// For each length four names that differ in their first, middle or last byte.
fn lengths() -> String {
    let mut text = String::new();
    for length in [3, 7, 8, 9, 15, 16, 17, 24, 25, 63, 64] {
        for (place, at) in [(0, 0), (1, length / 2), (2, length - 1)] {
            let mut name = vec![b'n'; length];
            name[at] = b'k';
            let word = if place == 1 { "typeattribute" } else { "type" };
            text.push_str(&format!("({word} {})", String::from_utf8(name).expect("letters")));
        }
        text.push_str(&format!("(type {})", "n".repeat(length)));
    }
    text
}

/// The longest names of every sort.
fn longest() -> String {
    let name = |end: &str| format!("{end:n>64}");
    let (a, b, c, short) = (name("a"), name("b"), name("-c"), "n".repeat(63));
    let things = format!("(user {a})(userattribute {b})(role {c})(roleattribute {a})(role {short})");
    format!("(class {a}({a} {b} {short})){things}(class {b}({c} {b}))")
}

/// "Users 128, roles 128, types 512, attributes 64 per family, classes 32, permissions 32 per class": all names of a family
/// have one length, so that a try compares as many as there can be.
fn level() -> String {
    let mut text = String::new();
    for n in 0..limits::TYPES {
        text.push_str(&format!("(type t{n:03})"));
        if n < limits::USERS {
            text.push_str(&format!("(user u{n:03})(role r{n:03})"));
        }
        if n % 8 == 5 {
            let n = n / 8;
            text.push_str(&format!("(userattribute x{n:03})(typeattribute x{n:03})(roleattribute x{n:03})"));
        }
        if n % 16 == 9 {
            let permissions: Vec<String> = (0..limits::PERMISSIONS).map(|place| format!("p{place:02}")).collect();
            text.push_str(&format!("(class c{:02}({}))", n / 16, permissions.join(" ")));
        }
    }
    text
}

/// The families asked: the four, each declared class, one class that is not declared, and numbers beyond the last class.
fn families(classes: u32) -> Vec<u32> {
    let mut list: Vec<u32> = (0..=4 + classes).collect();
    list.extend([34, 35, 36, 39, 40]);
    list
}

fn own_family(entry: &NameEntry) -> u32 {
    match entry.sort {
        CLASS => 3,
        PERMISSION => 4 + entry.number as u32 / limits::PERMISSIONS as u32,
        sort => sort as u32 % 3,
    }
}

/// Tries at a declared name and at names near to it.
fn tries_near(random: &mut Random, entry: &NameEntry, classes: u32, share: Share) -> Vec<Asked> {
    let own = own_family(entry);
    let mut list = Vec::new();
    if random.chance(share.own) {
        list.push((own, entry.name.clone()));
    }
    // The class before and the one behind among them, the last one and one that is not declared.
    for other in [0, 1, 2, 3, 4, own.max(4) - 1, own + 1, 3 + classes, 4 + classes, 40] {
        if other != own && other <= 40 && random.chance(share.others) {
            list.push((other, entry.name.clone()));
        }
    }
    for name in near_names(random, &entry.name) {
        if random.chance(share.near) {
            list.push((own, name));
        }
    }
    list
}

/// A name cut by its last byte, prolonged by a byte, and with its first, middle, last, eighth or ninth byte changed; a dotted
/// one also without its first part, and with another byte for its first dot.
fn near_names(random: &mut Random, name: &[u8]) -> Vec<Vec<u8>> {
    let mut list = vec![name[..name.len() - 1].to_vec(), [name, &[name_byte(random)]].concat()];
    if let Some(dot) = name.iter().position(|&byte| byte == b'.') {
        list.push(name[dot + 1..].to_vec());
        list.push([&name[..dot], b"-", &name[dot + 1..]].concat());
    }
    let mut places = vec![0, name.len() / 2, name.len() - 1, 7, 8];
    places.sort();
    places.dedup();
    for place in places.into_iter().filter(|place| *place < name.len()) {
        let mut changed = name.to_vec();
        changed[place] = if random.chance(50) { name_byte(random) } else { changed[place] ^ 1 << random.below(8) };
        list.push(changed);
    }
    list
}

fn name_byte(random: &mut Random) -> u8 {
    *random.pick(b"abcdefghnpqrtuxyzA_-0123456789.")
}

/// Names that most likely are not there: the empty one, one of a length that occurs in the family, of good bytes and of any,
/// one of a length that does not occur, one longer than any name.
fn absent(random: &mut Random, names: &[NameEntry], family: u32) -> Vec<Asked> {
    let known: Vec<usize> = names.iter().filter(|e| own_family(e) == family).map(|e| e.name.len()).collect();
    let free: Vec<usize> = (1..=limits::NAME).filter(|length| !known.contains(length)).collect();
    let occurs = if known.is_empty() { 1 } else { *random.pick(&known) };
    let good = |random: &mut Random, length: usize| (0..length).map(|_| name_byte(random)).collect::<Vec<u8>>();
    let lengths = [0, occurs, *random.pick(&free), random.between(limits::NAME + 1, 70)];
    let mut list: Vec<Asked> = lengths.into_iter().map(|length| (family, good(random, length))).collect();
    list.push((family, (0..occurs).map(|_| random.byte()).collect()));
    list
}
