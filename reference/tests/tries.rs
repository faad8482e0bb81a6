//! Document 02, W-204: what each try finds and how many entries it compared. Counts by hand (readings 57 to 62), then the
//! corpus of tries as a whole.

mod common;

use common::table;
use reference::corpus::{answer, try_cases, try_lines, write, Layer};
use reference::generator::cases::cases;
use reference::generator::tries::section_of;
use reference::lookup::{tried_names, try_at, Among, NameEntry, Try};
use reference::policy::read;
use reference::random::Random;
use reference::sound::{decode, section_names};
use std::collections::BTreeMap;

const USERS: u32 = 0;
const ROLES: u32 = 1;
const TYPES: u32 = 2;
const CLASSES: u32 = 3;
/// The permissions of class 0; of class c with c added.
const PERMISSIONS: u32 = 4;

fn found(sort: u8, number: u16, compared: usize) -> Try {
    Try { found: Some((sort, number)), compared }
}

fn missing(compared: usize) -> Try {
    Try { found: None, compared }
}

/// The try over section 1 of the text's table; that of the policy itself, by which faults 4 and 5 are found, is the same.
fn tried(text: &str, family: u32, name: &str) -> Try {
    let entries = decode(&table(text)).unwrap().contents.names;
    let tried = try_at(&entries, Among::of(family), name.as_bytes());
    let policy = read(text.as_bytes()).unwrap();
    assert_eq!(policy.try_name(Among::of(family), &name.as_bytes().to_vec()), tried);
    tried
}

/// Roles `a`, `bb`, `c`, roleattribute `d`, user `c`: try `c` 2, `d` 3, `zz` 1 and no hit, `zzz` 0.
const READING_57: &str = "(role a)(role bb)(role c)(roleattribute d)(user c)";

#[test]
fn reading_57_family_and_length() {
    assert_eq!(tried(READING_57, ROLES, "c"), found(1, 2, 2));
    assert_eq!(tried(READING_57, ROLES, "d"), found(4, 0, 3));
    assert_eq!(tried(READING_57, ROLES, "zz"), missing(1));
    assert_eq!(tried(READING_57, ROLES, "zzz"), missing(0));
    assert_eq!(tried(READING_57, ROLES, "a"), found(1, 0, 1));
    assert_eq!(tried(READING_57, ROLES, "bb"), found(1, 1, 1));
    assert_eq!(tried(READING_57, ROLES, "e"), missing(3));
    assert_eq!(tried(READING_57, USERS, "c"), found(0, 0, 1));
    assert_eq!(tried(READING_57, USERS, "a"), missing(1));
    assert_eq!(tried(READING_57, TYPES, "c"), missing(0));
    assert_eq!(tried(READING_57, CLASSES, "c"), missing(0));
    assert_eq!(tried(READING_57, PERMISSIONS, "c"), missing(0));
}

#[test]
fn reading_57_things_and_attributes_together() {
    let mixed = "(typeattribute z)(type a)(userattribute a)(typeattribute b)(role z)(type c)(user b)(roleattribute c)(role b)";
    assert_eq!(tried(mixed, TYPES, "z"), found(5, 0, 1));
    assert_eq!(tried(mixed, TYPES, "a"), found(2, 0, 2));
    assert_eq!(tried(mixed, TYPES, "b"), found(5, 1, 3));
    assert_eq!(tried(mixed, TYPES, "c"), found(2, 1, 4));
    assert_eq!(tried(mixed, TYPES, "d"), missing(4));
    assert_eq!(tried(mixed, USERS, "a"), found(3, 0, 1));
    assert_eq!(tried(mixed, USERS, "b"), found(0, 0, 2));
    assert_eq!(tried(mixed, USERS, "c"), missing(2));
    assert_eq!(tried(mixed, ROLES, "c"), found(4, 0, 2));
    assert_eq!(tried(mixed, ROLES, "b"), found(1, 1, 3));
}

/// Reading 58: no entry is longer than 64 bytes. None is empty either.
#[test]
fn reading_58_lengths_that_no_entry_has() {
    let long = "n".repeat(64);
    let text = format!("(role {long})(role a)");
    assert_eq!(tried(&text, ROLES, &long), found(1, 0, 1));
    assert_eq!(tried(&text, ROLES, &"n".repeat(65)), missing(0));
    assert_eq!(tried(&text, ROLES, &"n".repeat(70)), missing(0));
    assert_eq!(tried(&text, ROLES, ""), missing(0));
}

/// Reading 58 with document 02, W-203: each of the tries of one use has its own count.
#[test]
fn reading_58_each_try_of_a_use() {
    let text = "(role a)(block b(role c)(block d(role e)))(role xyz)";
    let blocks = [b"b".to_vec(), b"d".to_vec()];
    let counts = |written: &str| -> Vec<Try> {
        let full = tried_names(&blocks, &written.as_bytes().to_vec());
        full.iter().map(|name| tried(text, ROLES, std::str::from_utf8(name).unwrap())).collect()
    };
    // Roles a, b.c, b.d.e, xyz.
    assert_eq!(counts("c"), [missing(1), found(1, 1, 1), missing(1)]);
    assert_eq!(counts("xyz"), [missing(0), missing(1), found(1, 3, 2)]);
    assert_eq!(counts("b.c"), [missing(0), missing(1), found(1, 1, 1)]);
    assert_eq!(counts(".a"), [found(1, 0, 1)]);
    // Reading 62: the length is that without a leading dot.
    assert_eq!(counts(".b.d.e"), [found(1, 2, 1)]);
    assert_eq!(counts(&"n".repeat(64)), [missing(0), missing(0), missing(0)]);
}

#[test]
fn reading_59_permissions_of_one_class() {
    let classes = "(class c(p q rr))(role p)(class d(rr q p))(class e(p))";
    assert_eq!(tried(classes, PERMISSIONS, "p"), found(7, 0, 1));
    assert_eq!(tried(classes, PERMISSIONS, "q"), found(7, 1, 2));
    assert_eq!(tried(classes, PERMISSIONS, "rr"), found(7, 2, 1));
    assert_eq!(tried(classes, PERMISSIONS + 1, "rr"), found(7, 32, 1));
    assert_eq!(tried(classes, PERMISSIONS + 1, "q"), found(7, 33, 1));
    assert_eq!(tried(classes, PERMISSIONS + 1, "p"), found(7, 34, 2));
    assert_eq!(tried(classes, PERMISSIONS + 1, "x"), missing(2));
    assert_eq!(tried(classes, PERMISSIONS + 2, "p"), found(7, 64, 1));
    assert_eq!(tried(classes, PERMISSIONS + 2, "q"), missing(1));
    assert_eq!(tried(classes, PERMISSIONS + 2, "rr"), missing(0));
    // A class that is not declared, and numbers beyond the last that can be.
    for family in [PERMISSIONS + 3, PERMISSIONS + 31, PERMISSIONS + 32, 40] {
        assert_eq!(tried(classes, family, "p"), missing(0));
    }
    assert_eq!(tried(classes, CLASSES, "d"), found(6, 1, 2));
    assert_eq!(tried(classes, CLASSES, "p"), missing(3));
    assert_eq!(tried(classes, ROLES, "p"), found(1, 0, 1));
}

/// Reading 60: declarations try as well, over the entries so far.
#[test]
fn reading_60_entries_so_far() {
    let steps = [
        ("(role a)", ROLES, "a", 0),
        ("(role bb)", ROLES, "bb", 0),
        ("(role c)", ROLES, "c", 1),
        ("(roleattribute d)", ROLES, "d", 2),
        ("(user c)", USERS, "c", 0),
        ("(userattribute d)", USERS, "d", 1),
        ("(class c(p q))", CLASSES, "c", 0),
        ("(class d(p))", CLASSES, "d", 1),
        ("(role e)", ROLES, "e", 3),
    ];
    let mut text = String::new();
    for (statement, family, name, compared) in steps {
        assert_eq!(tried(&text, family, name), missing(compared), "{text} {statement}");
        text.push_str(statement);
        // Declared again, the same try has a hit: fault 4.
        assert!(tried(&text, family, name).found.is_some());
        let again = format!("{text}{statement}");
        assert_eq!(common::refused(&again), (4, text.len(), 1));
    }
}

/// Reading 60 within a class: each permission is tried among those before it, also past the 32nd, since 4 comes before 6.
#[test]
fn reading_60_permissions_so_far() {
    assert_eq!(common::refused("(class c(p q q))"), (4, 0, 1));
    assert_eq!(common::refused("(class c(p qq r qq))"), (4, 0, 1));
    let many = |count: usize| (0..count).map(|n| format!("p{n}")).collect::<Vec<_>>().join(" ");
    assert_eq!(common::refused(&format!("(class c({} p34 q))", many(36))), (4, 0, 1));
    assert_eq!(common::refused(&format!("(class c({}))", many(36))), (6, 0, 1));
    assert_eq!(tried(&format!("(class c({}))", many(32)), PERMISSIONS, "p31"), found(7, 31, 22));
}

/// Reading 62: a hit has the name's length and every byte of it.
#[test]
fn reading_62_every_byte() {
    let short = "(type aaaa)(type aaab)(type aaa)(type aaac)(type baac)";
    assert_eq!(tried(short, TYPES, "aaad"), missing(4));
    assert_eq!(tried(short, TYPES, "aa"), missing(0));
    assert_eq!(tried(short, TYPES, "aaa"), found(2, 2, 1));
    assert_eq!(tried(short, TYPES, "baac"), found(2, 4, 4));
    assert_eq!(tried(short, TYPES, "aaaaa"), missing(0));
    let long = "(role abcdefgh)(role abcdefgh1)(role abcdefgh2)(role abcdefghijklmnop)(role abcdefghijklmnoq)";
    assert_eq!(tried(long, ROLES, "abcdefgh"), found(1, 0, 1));
    assert_eq!(tried(long, ROLES, "abcdefgh2"), found(1, 2, 2));
    assert_eq!(tried(long, ROLES, "abcdefgh3"), missing(2));
    assert_eq!(tried(long, ROLES, "abcdefgx2"), missing(2));
    assert_eq!(tried(long, ROLES, "abcdefghijklmnoq"), found(1, 4, 2));
    assert_eq!(tried(long, ROLES, "abcdefghijklmnor"), missing(2));
    assert_eq!(tried(long, ROLES, "Abcdefghijklmnop"), missing(2));
}

/// Entries that no text gives: of two with one name the first is the hit.
#[test]
fn the_first_of_two_is_the_hit() {
    let entry = |sort, number, name: &[u8]| NameEntry { sort, number, name: name.to_vec() };
    let entries = [entry(1, 0, b"x"), entry(4, 7, b"a"), entry(1, 1, b"y"), entry(1, 5, b"a"), entry(0, 3, b"a")];
    assert_eq!(try_at(&entries, Among::of(ROLES), b"a"), found(4, 7, 2));
    assert_eq!(try_at(&entries, Among::of(USERS), b"a"), found(0, 3, 1));
}

/// Reading 61: what a try finds is what a plain search for the name finds, and a text's answer is the listed one.
#[test]
fn reading_61_nothing_else_differs() {
    for case in try_cases(&mut Random::new(3)) {
        let names = section_names(&case.section).unwrap().0;
        let known: BTreeMap<(u32, &[u8]), (u8, u16)> =
            names.iter().map(|entry| ((family_of(entry), entry.name.as_slice()), (entry.sort, entry.number))).collect();
        for (family, name) in &case.tries {
            let tried = try_at(&names, Among::of(*family), name);
            assert_eq!(tried.found, known.get(&(*family, name.as_slice())).copied());
        }
    }
    for case in cases() {
        assert_eq!(reference::table::table_of(&case.text).err(), case.fault, "{}", case.rule);
    }
}

/// The number of the family that an entry is in.
fn family_of(entry: &NameEntry) -> u32 {
    [USERS, ROLES, TYPES, USERS, ROLES, TYPES, CLASSES, PERMISSIONS + entry.number as u32 / 32][entry.sort as usize]
}

/// The counts of the whole corpus by other means: the entries are put into one list for each family and length first.
#[test]
fn the_counts_of_the_corpus() {
    for case in try_cases(&mut Random::new(4)) {
        let names = section_names(&case.section).unwrap().0;
        let mut lists: BTreeMap<(u32, usize), Vec<&[u8]>> = BTreeMap::new();
        for entry in &names {
            lists.entry((family_of(entry), entry.name.len())).or_default().push(&entry.name);
        }
        for (family, name) in &case.tries {
            let list = lists.get(&(*family, name.len())).map_or(&[][..], |list| list);
            let before = list.iter().take_while(|known| *known != name).count();
            let hit = usize::from(before < list.len());
            assert_eq!(try_at(&names, Among::of(*family), name).compared, before + hit);
        }
    }
}

/// A case written by hand, byte for byte, and its lines.
#[test]
fn a_case_and_its_lines() {
    let section = b"\x01\x00\x00\x01a\x01\x01\x00\x02bb\x01\x02\x00\x01c\x04\x00\x00\x01d\x00\x00\x00\x01c";
    assert_eq!(section_of(READING_57.as_bytes()).unwrap(), section);
    let mut corpus = vec![section.len() as u8, 0, 0, 0];
    corpus.extend(section);
    corpus.extend(b"\x03\x00\x00\x00");
    corpus.extend(b"\x01\x00\x00\x00\x01\x00\x00\x00d");
    corpus.extend(b"\x01\x00\x00\x00\x02\x00\x00\x00zz");
    corpus.extend(b"\x28\x00\x00\x00\x00\x00\x00\x00");
    let expected = [
        "chains found 4 0 compared 3",
        "section found 4 0 compared 3",
        "chains missing compared 1",
        "section missing compared 1",
        "chains missing compared 0",
        "section missing compared 0",
    ];
    assert_eq!(answer(Layer::Tries, &corpus).unwrap(), expected);
    corpus[4] = 8;
    assert_eq!(answer(Layer::Tries, &corpus), Err("sort".to_string()));
}

#[test]
fn the_corpus_has_every_kind_of_try() {
    let (mut hits, mut misses, mut of_sort) = (0, 0, [0; 8]);
    let (mut none, mut one, mut many, mut most) = (0, 0, 0, 0);
    let (mut elsewhere, mut undeclared, mut beyond) = (0, 0, 0);
    for case in try_cases(&mut Random::new(1)) {
        let (names, counts) = section_names(&case.section).unwrap();
        for (family, name) in &case.tries {
            assert!(*family <= 40 && name.len() <= 70);
            let tried = try_at(&names, Among::of(*family), name);
            match tried.found {
                Some((sort, _)) => {
                    hits += 1;
                    of_sort[sort as usize] += 1;
                }
                None => misses += 1,
            }
            none += usize::from(tried.compared == 0);
            one += usize::from(tried.compared == 1);
            many += usize::from(tried.compared > 100);
            most = most.max(tried.compared);
            let permission = names.iter().any(|entry| entry.sort == 7 && &entry.name == name);
            if permission && *family >= PERMISSIONS {
                let class = (*family - PERMISSIONS) as usize;
                elsewhere += usize::from(tried.found.is_none() && class < counts.classes());
                undeclared += usize::from(class >= counts.classes() && class < 32);
                beyond += usize::from(class >= 32);
            }
        }
    }
    assert!(hits > 2_000 && misses > 2_000);
    assert!(of_sort.iter().all(|&count| count > 50), "{of_sort:?}");
    assert!(none > 1_000 && one > 1_000 && many > 200, "{none} {one} {many}");
    assert!(elsewhere > 50 && undeclared > 50 && beyond > 50, "{elsewhere} {undeclared} {beyond}");
    // All types and typeattributes are of one length there.
    assert_eq!(most, 512 + 64);
}

/// Each section is sound as section 1, and declarations in its order are accepted and give just these bytes.
#[test]
fn every_section_of_the_corpus_is_that_of_a_text() {
    let mut maxima = 0;
    for case in try_cases(&mut Random::new(1)) {
        let (names, counts) = section_names(&case.section).expect("sound as section 1");
        assert!(names.len() <= 2_016 && names.iter().all(|entry| (1..=64).contains(&entry.name.len())));
        maxima += usize::from(names.len() == 2_016 && counts.sorts == [128, 128, 512, 64, 64, 64, 32]);
        assert_eq!(section_of(declarations(&names).as_bytes()), Some(case.section));
    }
    assert_eq!(maxima, 2);
}

/// Blocks are opened and closed as the full names ask for.
fn declarations(names: &[NameEntry]) -> String {
    let words = ["user", "role", "type", "userattribute", "roleattribute", "typeattribute"];
    let mut text = String::new();
    let mut open: Vec<String> = Vec::new();
    for (place, entry) in names.iter().enumerate() {
        let full = String::from_utf8(entry.name.clone()).unwrap();
        let mut blocks: Vec<String> = full.split('.').map(String::from).collect();
        let name = blocks.pop().unwrap();
        // A permission takes no block's name.
        if entry.sort != 7 {
            let shared = open.iter().zip(&blocks).take_while(|(a, b)| a == b).count();
            text.push_str(&")".repeat(open.len() - shared));
            blocks[shared..].iter().for_each(|block| text.push_str(&format!("(block {block}")));
            open = blocks;
        }
        match entry.sort {
            6 => {
                let permissions = names[place + 1..].iter().take_while(|entry| entry.sort == 7);
                let list: Vec<String> = permissions.map(|p| String::from_utf8(p.name.clone()).unwrap()).collect();
                text.push_str(&format!("(class {name}({}))", list.join(" ")));
            }
            7 => {}
            sort => text.push_str(&format!("({} {name})", words[sort as usize])),
        }
    }
    text + &")".repeat(open.len())
}

#[test]
fn the_corpus_stays_small() {
    let corpus = write(Layer::Tries, 1);
    let lines = answer(Layer::Tries, &corpus).unwrap();
    assert!(corpus.len() < 600_000 && lines.len() < 40_000, "{} bytes, {} lines", corpus.len(), lines.len());
    for pair in lines.chunks(2) {
        let (chains, section) = (pair[0].strip_prefix("chains "), pair[1].strip_prefix("section "));
        assert!(chains.is_some() && chains == section, "{pair:?}");
    }
    assert_eq!(try_lines(&[], ROLES, b"a"), ["chains missing compared 0", "section missing compared 0"]);
}
