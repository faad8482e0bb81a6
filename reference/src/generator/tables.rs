//! Damaged tables: one way of damage for each condition of soundness, tables at and past each maximum, and tables that
//! look odd and are sound.

use crate::meaning::Numbers;
use crate::random::Random;
use crate::sound::{decode, family_of_component};
use crate::table::{
    assemble, bodies, header, ConstraintRecord, Contents, NameEntry, Row, TransitionRecord, ValidationRecord, CLASS,
    PERMISSION,
};

/// A way to damage a table, on the level at which it is easiest said. It gives false where the table has nothing to
/// damage in this way.
#[derive(Clone, Copy)]
pub enum Way {
    Contents(fn(&mut Contents, &mut Random) -> bool),
    Bodies(fn(&mut Vec<Vec<u8>>, &mut Random) -> bool),
    Bytes(fn(&mut Vec<u8>, &mut Random) -> bool),
}

pub type Named = (&'static str, Way);

/// Applies a way of damage to the bytes of a sound table, in its own edition.
pub fn apply(way: Way, table: &[u8], random: &mut Random) -> Option<Vec<u8>> {
    let mut contents = decode(table).expect("damage starts from a sound table").contents;
    let sections = sections_of(table);
    let mut parts = bodies(&contents)[..sections].to_vec();
    let mut bytes = table.to_vec();
    match way {
        Way::Contents(damage) => {
            let done = damage(&mut contents, random);
            // Damage to what edition 1 does not have is none.
            let damaged = assemble(&bodies(&contents)[..sections]);
            (done && damaged != table).then_some(damaged)
        }
        Way::Bodies(damage) => {
            let done = damage(&mut parts, random);
            done.then(|| assemble(&parts))
        }
        Way::Bytes(damage) => {
            let done = damage(&mut bytes, random);
            done.then_some(bytes)
        }
    }
}

fn sections_of(table: &[u8]) -> usize {
    table[2] as usize
}

/// The same table in edition 1, without what that edition does not have.
pub fn in_edition_1(table: &[u8]) -> Vec<u8> {
    assemble(&bodies(&decode(table).expect("a sound table").contents)[..8])
}

/// Every way; each of them leaves a table that is not sound.
pub fn ways() -> Vec<Named> {
    let groups = [
        header_ways(),
        layout_ways(),
        entry_ways(),
        name_ways(),
        dot_ways(),
        class_ways(),
        order_ways(),
        count_ways(),
        bit_ways(),
        transition_ways(),
        constraint_ways(),
        row_range_ways(),
        row_ways(),
        comparison_ways(),
        stack_ways(),
        validation_ways(),
        validation_row_ways(),
    ];
    groups.concat()
}

fn add_to_four(bytes: &mut [u8], at: usize, add: u32) {
    let old = u32::from_le_bytes([bytes[at], bytes[at + 1], bytes[at + 2], bytes[at + 3]]);
    bytes[at..at + 4].copy_from_slice(&old.wrapping_add(add).to_le_bytes());
}

fn header_ways() -> Vec<Named> {
    vec![
        ("cut within the header", Way::Bytes(|b, r| {
            b.truncate(r.below(header(sections_of(b))));
            true
        })),
        ("edition", Way::Bytes(|b, r| {
            let at = r.below(2);
            b[at] = b[at].wrapping_add(r.between(1, 255) as u8);
            true
        })),
        ("another edition's count", Way::Bytes(|b, _| {
            b[2] = 18 - b[2];
            true
        })),
        ("another edition", Way::Bytes(|b, _| {
            b[0] = 3 - b[0];
            true
        })),
        ("an edition not known", Way::Bytes(|b, r| {
            (b[0], b[2]) = *r.pick(&[(0, 8), (0, 10), (3, 8), (3, 10), (3, 11), (4, 12), (5, 13)]);
            true
        })),
        ("count of bodies", Way::Bytes(|b, r| {
            let at = 2 + r.below(2);
            b[at] = b[at].wrapping_add(r.between(1, 255) as u8);
            true
        })),
    ]
}

fn layout_ways() -> Vec<Named> {
    vec![
        ("offset", Way::Bytes(|b, r| {
            let body = r.below(sections_of(b));
            add_to_four(b, 4 + 8 * body, *r.pick(&[1, 255, 256, u32::MAX, 1 << 31]));
            true
        })),
        ("length", Way::Bytes(|b, r| {
            let body = r.below(sections_of(b));
            add_to_four(b, 8 + 8 * body, *r.pick(&[1, 16, 64, u32::MAX, 1 << 31]));
            true
        })),
        ("cut at the end", Way::Bytes(|b, r| {
            let keep = b.len() - 1 - r.below(3.min(b.len() - header(sections_of(b))).max(1));
            b.truncate(keep);
            true
        })),
        ("gap between bodies", Way::Bytes(|b, r| {
            let body = r.between(1, sections_of(b) - 1);
            let at = u32::from_le_bytes([b[4 + body * 8], b[5 + body * 8], b[6 + body * 8], b[7 + body * 8]]) as usize;
            b.insert(at, 0);
            (body..sections_of(b)).for_each(|later| add_to_four(b, 4 + later * 8, 1));
            true
        })),
        ("all offsets a byte later", Way::Bytes(|b, _| {
            b.insert(header(sections_of(b)), 0);
            (0..sections_of(b)).for_each(|body| add_to_four(b, 4 + body * 8, 1));
            true
        })),
    ]
}

/// A random entry of one of the sorts.
fn some_entry<'a>(c: &'a mut Contents, r: &mut Random, sorts: &[u8]) -> Option<&'a mut NameEntry> {
    let places: Vec<usize> = (0..c.names.len()).filter(|&i| sorts.contains(&c.names[i].sort)).collect();
    if places.is_empty() {
        return None;
    }
    let place = *r.pick(&places);
    Some(&mut c.names[place])
}

const ALL_SORTS: [u8; 8] = [0, 1, 2, 3, 4, 5, 6, 7];
const NUMBERED: [u8; 7] = [0, 1, 2, 3, 4, 5, 6];

/// Gives a random entry the name that `rename` makes of its own.
fn rename(c: &mut Contents, r: &mut Random, rename: fn(&mut Vec<u8>, &mut Random)) -> bool {
    match some_entry(c, r, &ALL_SORTS) {
        None => false,
        Some(entry) => {
            let mut name = entry.name.clone();
            rename(&mut name, r);
            entry.name = name;
            true
        }
    }
}

fn entry_ways() -> Vec<Named> {
    vec![
        ("stray bytes in section 1", Way::Bodies(|b, r| {
            let stray = vec![*r.pick(&[0, 1, 97]); r.between(1, 3)];
            b[0].extend(stray);
            true
        })),
        ("name cut", Way::Bodies(|b, _| b[0].pop().is_some())),
        ("sort above 7", Way::Contents(|c, r| {
            let sort = r.between(8, 255) as u8;
            some_entry(c, r, &ALL_SORTS).map(|e| e.sort = sort).is_some()
        })),
        ("number skips", Way::Contents(|c, r| {
            let add = *r.pick(&[1, 2, 32, 256]);
            some_entry(c, r, &NUMBERED).map(|e| e.number += add).is_some()
        })),
        ("number repeats", Way::Contents(|c, r| {
            some_entry(c, r, &NUMBERED).map(|e| e.number = e.number.wrapping_sub(1)).is_some()
        })),
    ]
}

fn name_ways() -> Vec<Named> {
    vec![
        ("empty name", Way::Contents(|c, r| rename(c, r, |name, _| name.clear()))),
        ("long name", Way::Contents(|c, r| rename(c, r, |name, r| name.resize(r.between(65, 255), b'n')))),
        ("bad first byte", Way::Contents(|c, r| {
            rename(c, r, |name, r| name[0] = *r.pick(b"0-9!. ;(\x00\x80\xff"))
        })),
        ("bad later byte", Way::Contents(|c, r| rename(c, r, |name, r| {
            let byte = *r.pick(b"!. ;()\x00\n\x80\xff");
            if name.len() < 64 {
                name.push(byte);
            } else {
                name[63] = byte;
            }
        }))),
        ("reserved name", Way::Contents(|c, r| rename(c, r, |name, r| {
            *name = r.pick(&["all", "and", "xor", "not", "incomp", "u1", "r3", "t2", "l1", "h2"]).as_bytes().to_vec();
        }))),
        ("name twice in a family", Way::Contents(|c, r| {
            let of = |sorts: [u8; 2]| -> Vec<usize> {
                (0..c.names.len()).filter(|&i| sorts.contains(&c.names[i].sort)).collect()
            };
            let mut families = vec![of([0, 3]), of([1, 4]), of([2, 5]), of([CLASS, CLASS])];
            families.retain(|places| places.len() > 1);
            if families.is_empty() {
                return false;
            }
            let places = r.pick(&families);
            c.names[places[places.len() - 1]].name = c.names[places[0]].name.clone();
            true
        })),
    ]
}

/// Document 02, W-203 and its reading 53: full names that no sound table holds.
fn dot_ways() -> Vec<Named> {
    vec![
        ("leading dot", Way::Contents(|c, r| rename(c, r, |name, _| {
            name.truncate(63);
            name.insert(0, b'.');
        }))),
        ("bad dot", Way::Contents(|c, r| rename(c, r, |name, r| {
            name.truncate(60);
            name.extend(*r.pick(&[b".", b"..b".as_slice(), b".1", b".-b", b".b."]));
        }))),
        ("ten parts", Way::Contents(|c, r| {
            let parts = vec!["a"; r.between(10, 32)];
            some_entry(c, r, &NUMBERED).map(|e| e.name = parts.join(".").into_bytes()).is_some()
        })),
        ("65 bytes with dots", Way::Contents(|c, r| {
            let first = r.between(1, 63);
            let name = format!("{}.{}", "n".repeat(first), "m".repeat(64 - first));
            some_entry(c, r, &NUMBERED).map(|e| e.name = name.into_bytes()).is_some()
        })),
        ("dotted permission", Way::Contents(|c, r| {
            let block = *r.pick(&["b.", "process.", "a.b."]);
            some_entry(c, r, &[PERMISSION]).map(|e| e.name = [block.as_bytes(), b"p"].concat()).is_some()
        })),
        ("reserved part", Way::Contents(|c, r| {
            let name = *r.pick(&["b.all", "all.b", "b.u1", "a.t3.b", "b.not.h1", "dom.eq", "a.l2"]);
            some_entry(c, r, &NUMBERED).map(|e| e.name = name.as_bytes().to_vec()).is_some()
        })),
        ("dotted name twice in a family", Way::Contents(|c, r| {
            let mut families = vec![vec![0, 3], vec![1, 4], vec![2, 5], vec![CLASS]];
            families.retain(|sorts| c.names.iter().filter(|e| sorts.contains(&e.sort)).count() > 1);
            if families.is_empty() {
                return false;
            }
            let sorts = r.pick(&families);
            c.names.iter_mut().filter(|e| sorts.contains(&e.sort)).for_each(|e| e.name = b"b.a".to_vec());
            true
        })),
    ]
}

/// The places of the classes in section 1.
fn class_places(c: &Contents) -> Vec<usize> {
    (0..c.names.len()).filter(|&i| c.names[i].sort == CLASS).collect()
}

fn class_ways() -> Vec<Named> {
    vec![
        ("permission number", Way::Contents(|c, r| {
            let add = *r.pick(&[1, 32, 31, 256, u16::MAX]);
            some_entry(c, r, &[PERMISSION]).map(|e| e.number = e.number.wrapping_add(add)).is_some()
        })),
        ("permission twice in a class", Way::Contents(|c, r| {
            let pairs: Vec<usize> = (1..c.names.len())
                .filter(|&i| c.names[i].sort == PERMISSION && c.names[i - 1].sort == PERMISSION)
                .collect();
            if pairs.is_empty() {
                return false;
            }
            let place = *r.pick(&pairs);
            c.names[place].name = c.names[place - 1].name.clone();
            true
        })),
        ("class without permission", Way::Contents(|c, r| {
            let classes = class_places(c);
            if classes.is_empty() {
                return false;
            }
            let place = *r.pick(&classes);
            while place + 1 < c.names.len() && c.names[place + 1].sort == PERMISSION {
                c.names.remove(place + 1);
            }
            true
        })),
    ]
}

fn order_ways() -> Vec<Named> {
    vec![
        ("entry between class and permission", Way::Contents(|c, r| {
            let classes = class_places(c);
            let others: Vec<usize> = (0..c.names.len()).filter(|&i| c.names[i].sort < CLASS).collect();
            if classes.is_empty() || others.is_empty() {
                return false;
            }
            let entry = c.names.remove(*others.last().unwrap());
            let place = *r.pick(&class_places(c));
            c.names.insert(place + 1, entry);
            true
        })),
        ("entry between permissions", Way::Contents(|c, _| {
            let pair = (1..c.names.len()).find(|&i| c.names[i].sort == PERMISSION && c.names[i - 1].sort == PERMISSION);
            let Some(place) = pair else { return false };
            let types = c.names.iter().filter(|e| e.sort == 2).count();
            c.names.insert(place, NameEntry { sort: 2, number: types as u16, name: b"between".to_vec() });
            true
        })),
        ("permission before any class", Way::Contents(|c, r| {
            let name = vec![*r.pick(b"pqr")];
            c.names.insert(0, NameEntry { sort: PERMISSION, number: 0, name });
            true
        })),
        ("class behind its permission", Way::Contents(|c, r| {
            let classes = class_places(c);
            if classes.is_empty() {
                return false;
            }
            let place = *r.pick(&classes);
            c.names.swap(place, place + 1);
            true
        })),
    ]
}

/// The four bodies of sets: roles of users, types of roles, roles to become, attributes.
const SET_BODIES: [usize; 4] = [1, 2, 3, 7];

fn count_ways() -> Vec<Named> {
    vec![
        ("a set too many", Way::Bodies(|b, r| {
            let body = *r.pick(&SET_BODIES);
            b[body].extend(vec![0; *r.pick(&[16, 64])]);
            true
        })),
        ("a set too few", Way::Bodies(|b, r| {
            let body = *r.pick(&SET_BODIES);
            let keep = b[body].len().saturating_sub(16);
            let shorter = keep < b[body].len();
            b[body].truncate(keep);
            shorter
        })),
        ("a byte too many", Way::Bodies(|b, r| {
            let body = r.between(1, b.len() - 1);
            b[body].push(0);
            true
        })),
        ("a byte too few", Way::Bodies(|b, r| {
            let body = r.between(1, b.len() - 1);
            b[body].pop().is_some()
        })),
        ("a name too many", Way::Contents(|c, r| {
            // Of every sort but the type, which no count of records follows.
            let sort = *r.pick(&[0, 1, 3, 4, 5]);
            let number = c.names.iter().filter(|e| e.sort == sort).count() as u16;
            c.names.push(NameEntry { sort, number, name: b"one-more".to_vec() });
            true
        })),
        ("a name too few", Way::Contents(|c, _| {
            let place = c.names.iter().rposition(|e| [0, 1, 3, 4, 5].contains(&e.sort));
            place.map(|i| c.names.remove(i)).is_some()
        })),
    ]
}

/// Adds one undeclared number to the last set of a list.
fn undeclared(list: &mut [Numbers], declared: usize, width: usize, r: &mut Random) -> bool {
    match list.last_mut() {
        Some(set) if declared < width => set.insert(*r.pick(&[declared, width - 1])),
        _ => false,
    }
}

fn bit_ways() -> Vec<Named> {
    fn users(c: &Contents) -> usize {
        c.roles_of_user.len()
    }
    fn roles(c: &Contents) -> usize {
        c.types_of_role.len()
    }
    fn types(c: &Contents) -> usize {
        c.names.iter().filter(|e| e.sort == 2).count()
    }
    vec![
        ("role bit of a user", Way::Contents(|c, r| undeclared(&mut c.roles_of_user, c.types_of_role.len(), 128, r))),
        ("type bit of a role", Way::Contents(|c, r| {
            let declared = types(c);
            undeclared(&mut c.types_of_role, declared, 512, r)
        })),
        ("bit of a role to become", Way::Contents(|c, r| undeclared(&mut c.becomes, c.types_of_role.len(), 128, r))),
        ("user bit of an attribute", Way::Contents(|c, r| {
            let declared = users(c);
            undeclared(&mut c.userattributes, declared, 128, r)
        })),
        ("role bit of an attribute", Way::Contents(|c, r| {
            let declared = roles(c);
            undeclared(&mut c.roleattributes, declared, 128, r)
        })),
        ("type bit of an attribute", Way::Contents(|c, r| {
            let declared = types(c);
            undeclared(&mut c.typeattributes, declared, 512, r)
        })),
        ("role bit of a transition", Way::Contents(|c, r| {
            let declared = roles(c);
            c.transitions.last_mut().is_some_and(|t| declared < 128 && t.roles.insert(*r.pick(&[declared, 127])))
        })),
        ("type bit of a transition", Way::Contents(|c, r| {
            let declared = types(c);
            c.transitions.last_mut().is_some_and(|t| declared < 512 && t.types.insert(*r.pick(&[declared, 511])))
        })),
    ]
}

fn transition_ways() -> Vec<Named> {
    vec![
        ("class of a transition", Way::Contents(|c, r| {
            let classes = class_places(c).len() as u8;
            c.transitions.last_mut().map(|t| t.class = *r.pick(&[classes, 32, 255])).is_some()
        })),
        ("new role", Way::Contents(|c, r| {
            let roles = c.types_of_role.len() as u8;
            c.transitions.last_mut().map(|t| t.new_role = *r.pick(&[roles, 128, 255])).is_some()
        })),
    ]
}

/// A random constraint.
fn some_constraint<'a>(c: &'a mut Contents, r: &mut Random) -> Option<&'a mut ConstraintRecord> {
    if c.constraints.is_empty() {
        return None;
    }
    let place = r.below(c.constraints.len());
    Some(&mut c.constraints[place])
}

fn constraint_ways() -> Vec<Named> {
    vec![
        ("class of a constraint", Way::Contents(|c, r| {
            let class = *r.pick(&[class_places(c).len() as u16, 32, 256]);
            some_constraint(c, r).map(|x| x.class = class).is_some()
        })),
        ("empty mask", Way::Contents(|c, r| some_constraint(c, r).map(|x| x.mask = 0).is_some())),
        ("permission in a mask", Way::Contents(|c, r| {
            let places = class_places(c);
            let after = |class: u16| &c.names[places[class as usize] + 1..];
            let counts: Vec<usize> = c
                .constraints
                .iter()
                .map(|x| after(x.class).iter().take_while(|e| e.sort == PERMISSION).count())
                .collect();
            if counts.is_empty() {
                return false;
            }
            let place = r.below(counts.len());
            // With 32 permissions every bit names one.
            if counts[place] == 32 {
                return false;
            }
            c.constraints[place].mask |= 1 << r.pick(&[counts[place], 31]);
            true
        })),
    ]
}

fn row_range_ways() -> Vec<Named> {
    vec![
        ("first row", Way::Contents(|c, r| {
            let add = *r.pick(&[1, 256, u16::MAX]);
            some_constraint(c, r).map(|x| x.first_row = x.first_row.wrapping_add(add)).is_some()
        })),
        ("row count 0", Way::Contents(|c, r| some_constraint(c, r).map(|x| x.row_count = 0).is_some())),
        ("row count", Way::Contents(|c, r| {
            let add = *r.pick(&[1, 256, u16::MAX]);
            some_constraint(c, r).map(|x| x.row_count = x.row_count.wrapping_add(add)).is_some()
        })),
        ("constraint of no rows", Way::Contents(|c, _| {
            let Some(mut last) = c.constraints.last().copied() else { return false };
            last.first_row = c.rows.len() as u16;
            last.row_count = 0;
            c.constraints.push(last);
            true
        })),
        ("rows left", Way::Contents(|c, _| {
            c.rows.push(Row { kind: 3, ..Row::default() });
            true
        })),
        ("rows missing", Way::Contents(|c, _| c.rows.pop().is_some())),
        ("constraint dropped", Way::Contents(|c, _| c.constraints.pop().is_some())),
        ("constraints share rows", Way::Contents(|c, r| {
            let copy = some_constraint(c, r).copied();
            copy.map(|x| c.constraints.push(x)).is_some()
        })),
        ("constraints swapped", Way::Contents(|c, _| {
            c.constraints.reverse();
            c.constraints.len() > 1
        })),
    ]
}

/// Changes a random row of one of the kinds.
fn row_of(c: &mut Contents, r: &mut Random, kinds: &[u8], change: fn(&mut Row, &mut Random)) -> bool {
    let places: Vec<usize> = (0..c.rows.len()).filter(|&i| kinds.contains(&c.rows[i].kind)).collect();
    if places.is_empty() {
        return false;
    }
    let place = *r.pick(&places);
    change(&mut c.rows[place], r);
    true
}

fn row_ways() -> Vec<Named> {
    const ANY: &[u8] = &[0, 1, 2, 3, 4, 5];
    vec![
        ("kind", Way::Contents(|c, r| row_of(c, r, ANY, |row, r| row.kind = r.between(6, 255) as u8))),
        ("fourth byte", Way::Contents(|c, r| row_of(c, r, ANY, |row, r| row.zero = r.between(1, 255) as u8))),
        ("component of an operator", Way::Contents(|c, r| {
            row_of(c, r, &[0, 1, 2], |row, r| row.component = r.between(1, 5) as u8)
        })),
        ("operator of an operator", Way::Contents(|c, r| {
            row_of(c, r, &[0, 1, 2], |row, r| row.operator = r.between(1, 4) as u8)
        })),
        ("number of an operator", Way::Contents(|c, r| {
            row_of(c, r, &[0, 1, 2], |row, r| row.number = *r.pick(&[1, 256]))
        })),
    ]
}

fn comparison_ways() -> Vec<Named> {
    vec![
        ("number of two sides", Way::Contents(|c, r| row_of(c, r, &[3], |row, r| row.number = *r.pick(&[1, 256])))),
        ("component of two sides", Way::Contents(|c, r| {
            row_of(c, r, &[3], |row, r| row.component = *r.pick(&[1, 3, 5, 6, 255]))
        })),
        ("dom of users or types", Way::Contents(|c, r| row_of(c, r, &[3], |row, r| {
            row.component = *r.pick(&[0, 4]);
            row.operator = r.between(2, 4) as u8;
        }))),
        ("operator of two sides", Way::Contents(|c, r| {
            row_of(c, r, &[3], |row, r| row.operator = r.between(5, 255) as u8)
        })),
        ("operator of a named row", Way::Contents(|c, r| {
            row_of(c, r, &[4, 5], |row, r| row.operator = r.between(2, 5) as u8)
        })),
        ("component of a named row", Way::Contents(|c, r| {
            row_of(c, r, &[4, 5], |row, r| row.component = r.between(6, 255) as u8)
        })),
        ("number of a thing", Way::Contents(|c, r| row_of(c, r, &[4], |row, r| row.number += *r.pick(&[512, 256, 1024])))),
        ("number of an attribute", Way::Contents(|c, r| row_of(c, r, &[5], |row, r| row.number += *r.pick(&[64, 256])))),
        ("first undeclared thing", Way::Contents(|c, _| {
            let counts: Vec<u16> = (0..3).map(|s| c.names.iter().filter(|e| e.sort == s).count() as u16).collect();
            let rows = c.rows.iter_mut().filter(|row| row.kind == 4);
            rows.map(|row| row.number = counts[family_of_component(row.component)]).count() > 0
        })),
        ("first undeclared attribute", Way::Contents(|c, _| {
            let counts: Vec<u16> = (3..6).map(|s| c.names.iter().filter(|e| e.sort == s).count() as u16).collect();
            let rows = c.rows.iter_mut().filter(|row| row.kind == 5);
            rows.map(|row| row.number = counts[family_of_component(row.component)]).count() > 0
        })),
    ]
}

/// The rows of a single constraint put in the place of all others.
fn only_rows(c: &mut Contents, kinds: &[u8]) -> bool {
    let Some(first) = c.constraints.first().copied() else { return false };
    c.rows = kinds.iter().map(|&kind| Row { kind, ..Row::default() }).collect();
    c.constraints = vec![ConstraintRecord { first_row: 0, row_count: kinds.len() as u16, ..first }];
    true
}

fn stack_ways() -> Vec<Named> {
    vec![
        ("not without operand", Way::Contents(|c, _| only_rows(c, &[0, 3]))),
        ("not alone", Way::Contents(|c, _| only_rows(c, &[0]))),
        ("and without operands", Way::Contents(|c, _| only_rows(c, &[1]))),
        ("or with one operand", Way::Contents(|c, _| only_rows(c, &[3, 2]))),
        ("underflow that recovers", Way::Contents(|c, _| only_rows(c, &[3, 1, 3]))),
        ("two left", Way::Contents(|c, _| only_rows(c, &[3, 3]))),
        ("two left behind an operator", Way::Contents(|c, _| only_rows(c, &[3, 3, 3, 1]))),
        ("six on the stack", Way::Contents(|c, _| only_rows(c, &[3, 3, 3, 3, 3, 3, 1, 1, 1, 1, 1]))),
        ("six on the stack after an operator", Way::Contents(|c, _| {
            only_rows(c, &[3, 3, 1, 3, 3, 3, 3, 3, 1, 2, 1, 2, 1])
        })),
        ("a comparison for an operator", Way::Contents(|c, r| row_of(c, r, &[1, 2], |row, _| row.kind = 3))),
        ("an operator for a comparison", Way::Contents(|c, r| {
            row_of(c, r, &[3, 4, 5], |row, _| *row = Row { kind: 1, ..Row::default() })
        })),
    ]
}

/// Document 02, W-205: section 9, "sound as 6 and 7 are".
fn validation_ways() -> Vec<Named> {
    fn some<'a>(c: &'a mut Contents, r: &mut Random) -> Option<&'a mut ValidationRecord> {
        let count = c.validations.len();
        if count == 0 { None } else { c.validations.get_mut(r.below(count)) }
    }
    vec![
        ("class of a validatetrans", Way::Contents(|c, r| {
            let class = *r.pick(&[class_places(c).len() as u16, 32, 256]);
            some(c, r).map(|v| v.class = class).is_some()
        })),
        ("row count 0 of a validatetrans", Way::Contents(|c, r| some(c, r).map(|v| v.row_count = 0).is_some())),
        ("row count of a validatetrans", Way::Contents(|c, r| {
            let add = *r.pick(&[1, 256, u16::MAX]);
            some(c, r).map(|v| v.row_count = v.row_count.wrapping_add(add)).is_some()
        })),
        ("validatetrans of no rows", Way::Contents(|c, r| {
            let class = some(c, r).map(|v| v.class);
            class.map(|class| c.validations.push(ValidationRecord { class, row_count: 0 })).is_some()
        })),
        ("a row of the next validatetrans", Way::Contents(|c, _| {
            let Some(place) = (1..c.validations.len()).find(|&place| c.validations[place].row_count > 1) else { return false };
            c.validations[place - 1].row_count += 1;
            c.validations[place].row_count -= 1;
            true
        })),
        ("validatetrans dropped", Way::Contents(|c, _| c.validations.pop().is_some())),
        ("validatetrans twice, rows once", Way::Contents(|c, r| {
            let copy = some(c, r).copied();
            copy.map(|v| c.validations.push(v)).is_some()
        })),
        ("rows of a validatetrans left", Way::Contents(|c, _| {
            c.validation_rows.push(Row { kind: 3, ..Row::default() });
            true
        })),
        ("rows of a validatetrans missing", Way::Contents(|c, _| c.validation_rows.pop().is_some())),
    ]
}

/// Changes a random row of section 10 of one of the kinds.
fn validation_row_of(c: &mut Contents, r: &mut Random, kinds: &[u8], change: fn(&mut Row, &mut Random)) -> bool {
    let places: Vec<usize> = (0..c.validation_rows.len()).filter(|&i| kinds.contains(&c.validation_rows[i].kind)).collect();
    if places.is_empty() {
        return false;
    }
    let place = *r.pick(&places);
    change(&mut c.validation_rows[place], r);
    true
}

/// The rows of a single validatetrans put in the place of all others.
fn only_validation_rows(c: &mut Contents, kinds: &[u8]) -> bool {
    let Some(first) = c.validations.first().copied() else { return false };
    c.validation_rows = kinds.iter().map(|&kind| Row { kind, ..Row::default() }).collect();
    c.validations = vec![ValidationRecord { row_count: kinds.len() as u16, ..first }];
    true
}

/// Document 02, W-205: section 10; reading 69: components 6 to 8 only there, and only for kinds 4 and 5.
fn validation_row_ways() -> Vec<Named> {
    const ANY: &[u8] = &[0, 1, 2, 3, 4, 5];
    vec![
        ("side 3 in section 7", Way::Contents(|c, r| {
            row_of(c, r, &[4, 5], |row, r| {
                row.component = r.between(6, 8) as u8;
                row.number = 0;
            })
        })),
        ("kind in section 10", Way::Contents(|c, r| {
            validation_row_of(c, r, ANY, |row, r| row.kind = r.between(6, 255) as u8)
        })),
        ("fourth byte in section 10", Way::Contents(|c, r| {
            validation_row_of(c, r, ANY, |row, r| row.zero = r.between(1, 255) as u8)
        })),
        ("unused field in section 10", Way::Contents(|c, r| validation_row_of(c, r, &[0, 1, 2], |row, r| match r.below(3) {
            0 => row.component = r.between(1, 8) as u8,
            1 => row.operator = r.between(1, 4) as u8,
            _ => row.number = *r.pick(&[1, 256]),
        }))),
        ("a pair with side 3", Way::Contents(|c, r| {
            validation_row_of(c, r, &[3], |row, r| row.component = *r.pick(&[1, 3, 5, 6, 7, 8, 9]))
        })),
        ("dom of users or types in section 10", Way::Contents(|c, r| validation_row_of(c, r, &[3], |row, r| {
            row.component = *r.pick(&[0, 4]);
            row.operator = r.between(2, 4) as u8;
        }))),
        ("component over 8", Way::Contents(|c, r| {
            validation_row_of(c, r, &[4, 5], |row, r| row.component = r.between(9, 255) as u8)
        })),
        ("operator of a named row in section 10", Way::Contents(|c, r| {
            validation_row_of(c, r, &[4, 5], |row, r| row.operator = r.between(2, 5) as u8)
        })),
        ("undeclared number in section 10", Way::Contents(|c, _| {
            let count = |sort: usize| c.names.iter().filter(|e| e.sort as usize == sort).count() as u16;
            let counts: Vec<u16> = (0..6).map(count).collect();
            let Some(row) = c.validation_rows.iter_mut().rfind(|row| row.kind > 3) else { return false };
            row.number = counts[family_of_component(row.component) + 3 * (row.kind as usize - 4)];
            true
        })),
        ("stack in section 10: not alone", Way::Contents(|c, _| only_validation_rows(c, &[0]))),
        ("stack in section 10: two left", Way::Contents(|c, _| only_validation_rows(c, &[3, 3]))),
        ("stack in section 10: underflow", Way::Contents(|c, _| only_validation_rows(c, &[3, 1, 3]))),
        ("stack in section 10: six", Way::Contents(|c, _| only_validation_rows(c, &[3, 3, 3, 3, 3, 3, 1, 1, 1, 1, 1]))),
    ]
}

/// Random bytes changed anywhere in the table, or one in its names; what comes of it may still be sound.
pub fn flip(random: &mut Random, table: &[u8]) -> Vec<u8> {
    let mut bytes = table.to_vec();
    let names = u32::from_le_bytes([table[8], table[9], table[10], table[11]]) as usize;
    if names > 0 && random.chance(15) {
        bytes[header(sections_of(table)) + random.below(names)] = *random.pick(b"..ab_-1\x01\x40\x41");
        return bytes;
    }
    for _ in 0..random.between(1, 2) {
        let at = random.below(bytes.len());
        match random.below(3) {
            0 => bytes[at] ^= 1 << random.below(8),
            1 => bytes[at] = random.byte(),
            _ => bytes[at] = bytes[at].wrapping_add(1),
        }
    }
    bytes
}

/// A table that is damaged in one of the ways, or by changed bytes.
pub fn damaged(random: &mut Random, table: &[u8]) -> Vec<u8> {
    let way = random.pick(&ways()).1;
    let damaged = if random.chance(40) { apply(way, table, random) } else { None };
    damaged.unwrap_or_else(|| flip(random, table))
}

/// Bytes behind the table: "Bytes after the last body are not read."
pub fn with_bytes_behind(random: &mut Random, table: &[u8]) -> Vec<u8> {
    let mut bytes = table.to_vec();
    for _ in 0..random.between(1, 20) {
        bytes.push(random.byte());
    }
    bytes
}

fn names_of(sort: u8, count: usize) -> Vec<NameEntry> {
    (0..count).map(|n| NameEntry { sort, number: n as u16, name: format!("a{n}").into_bytes() }).collect()
}

fn one_class(permissions: usize) -> Vec<NameEntry> {
    let mut names = names_of(CLASS, 1);
    names.extend(names_of(PERMISSION, permissions));
    names
}

/// A table exactly at each maximum and one past it. Only the writer of a table could pass it: no text does.
pub fn bounds() -> Vec<(&'static str, Vec<u8>, Vec<u8>)> {
    type Build = fn(usize) -> Contents;
    let list: [(&'static str, usize, Build); 16] = [
        ("users", 128, |n| Contents { names: names_of(0, n), roles_of_user: vec![Numbers::new(); n], ..empty() }),
        ("roles", 128, |n| {
            let sets = vec![Numbers::new(); n];
            Contents { names: names_of(1, n), types_of_role: sets.clone(), becomes: sets, ..empty() }
        }),
        ("types", 512, |n| Contents { names: names_of(2, n), ..empty() }),
        ("userattributes", 64, |n| Contents { names: names_of(3, n), userattributes: vec![Numbers::new(); n], ..empty() }),
        ("roleattributes", 64, |n| Contents { names: names_of(4, n), roleattributes: vec![Numbers::new(); n], ..empty() }),
        ("typeattributes", 64, |n| Contents { names: names_of(5, n), typeattributes: vec![Numbers::new(); n], ..empty() }),
        ("classes", 32, many_classes),
        ("permissions", 32, |n| Contents { names: one_class(n), ..empty() }),
        ("transitions", 128, many_transitions),
        ("constraints", 128, |n| constraints_of(n, 1)),
        ("rows", 2_048, |n| constraints_of(1, n)),
        // Document 02, W-205: "At most 64 such statements and 1,024 rows."
        ("validatetrans", 64, |n| validations_of(n, 1)),
        ("validatetrans rows", 1_024, |n| validations_of(1, n)),
        // Document 02, W-203: "at most 64 bytes and nine parts, a permission's one".
        ("parts of a name", 9, |n| one_type(&vec!["a"; n].join("."))),
        ("bytes of a dotted name", 64, |n| one_type(&format!("a.{}", "n".repeat(n - 2)))),
        ("parts of a permission", 1, |n| {
            let mut names = one_class(1);
            names[1].name = vec!["p"; n].join(".").into_bytes();
            Contents { names, ..empty() }
        }),
    ];
    let table = |contents: Contents| assemble(&bodies(&contents));
    list.into_iter().map(|(name, most, build)| (name, table(build(most)), table(build(most + 1)))).collect()
}

fn empty() -> Contents {
    Contents::default()
}

fn one_type(name: &str) -> Contents {
    Contents { names: vec![NameEntry { sort: 2, number: 0, name: name.as_bytes().to_vec() }], ..empty() }
}

fn many_classes(count: usize) -> Contents {
    let mut names = Vec::new();
    for n in 0..count {
        names.push(NameEntry { sort: CLASS, number: n as u16, name: format!("c{n}").into_bytes() });
        names.push(NameEntry { sort: PERMISSION, number: n as u16 * 32, name: b"p".to_vec() });
    }
    Contents { names, ..empty() }
}

fn many_transitions(count: usize) -> Contents {
    let mut names = one_class(1);
    names.extend(names_of(1, 1));
    let one = TransitionRecord { roles: Numbers::from([0]), types: Numbers::new(), class: 0, new_role: 0 };
    let sets = vec![Numbers::new()];
    Contents { names, types_of_role: sets.clone(), becomes: sets, transitions: vec![one; count], ..empty() }
}

/// `count` constraints of a comparison and nots.
fn constraints_of(count: usize, rows: usize) -> Contents {
    let mut contents = Contents { names: one_class(1), ..empty() };
    for n in 0..count {
        let first_row = (n * rows) as u16;
        contents.constraints.push(ConstraintRecord { class: 0, mask: 1, first_row, row_count: rows as u16 });
        contents.rows.push(Row { kind: 3, ..Row::default() });
        contents.rows.extend(vec![Row::default(); rows - 1]);
    }
    contents
}

/// `count` validatetrans of a comparison and nots.
fn validations_of(count: usize, rows: usize) -> Contents {
    let mut contents = Contents { names: one_class(1), ..empty() };
    for _ in 0..count {
        contents.validations.push(ValidationRecord { class: 0, row_count: rows as u16 });
        contents.validation_rows.push(Row { kind: 3, ..Row::default() });
        contents.validation_rows.extend(vec![Row::default(); rows - 1]);
    }
    contents
}

/// The largest sound table of the newest edition (reading 8 of document 02): everything at its maximum, each name of 64 bytes.
pub fn largest() -> Vec<u8> {
    let long = |sort: u8, number: usize| {
        let name = format!("{}{:n>63}", (b'a' + sort) as char, format!("-{number}")).into_bytes();
        NameEntry { sort, number: number as u16, name }
    };
    let mut contents = constraints_of(128, 16);
    let validations = validations_of(64, 16);
    contents.names = (0..6).flat_map(|sort| (0..[128, 128, 512, 64, 64, 64][sort]).map(move |n| long(sort as u8, n))).collect();
    for class in 0..32 {
        contents.names.push(long(CLASS, class));
        contents.names.extend((0..32).map(|place| long(PERMISSION, class * 32 + place)));
    }
    let all = |count: usize| (0..count).collect::<Numbers>();
    let transition = TransitionRecord { roles: all(128), types: all(512), class: 31, new_role: 127 };
    assemble(&bodies(&Contents {
        roles_of_user: vec![all(128); 128],
        types_of_role: vec![all(512); 128],
        becomes: vec![all(128); 128],
        transitions: vec![transition; 128],
        userattributes: vec![all(128); 64],
        roleattributes: vec![all(128); 64],
        typeattributes: vec![all(512); 64],
        validations: validations.validations,
        validation_rows: validations.validation_rows,
        ..contents
    }))
}

/// Tables that no text gives and that are sound all the same (reading 34; document 02, readings 53 and 70).
pub fn odd_and_sound() -> Vec<(&'static str, Vec<u8>)> {
    let table = |contents: &Contents| assemble(&bodies(contents));
    let mut clashing = many_transitions(1);
    clashing.names.push(NameEntry { sort: 1, number: 1, name: b"b".to_vec() });
    clashing.names.push(NameEntry { sort: 2, number: 0, name: b"t".to_vec() });
    clashing.types_of_role.push(Numbers::new());
    clashing.becomes.push(Numbers::new());
    clashing.transitions[0].types.insert(0);
    let mut second = clashing.transitions[0].clone();
    second.new_role = 1;
    clashing.transitions.push(second);
    let mut mixed = many_classes(2);
    for (at, sort) in [(0, 2), (3, 2), (6, 2)] {
        mixed.names.insert(at, NameEntry { sort, number: at as u16 / 3, name: format!("t{at}x").into_bytes() });
    }
    let mut long_names = Contents::default();
    for class in 0..32u16 {
        long_names.names.push(NameEntry { sort: CLASS, number: class, name: format!("c{class}").into_bytes() });
        for place in 0..32 {
            let name = format!("{:n>64}", format!("-{place}")).into_bytes();
            long_names.names.push(NameEntry { sort: PERMISSION, number: class * 32 + place, name });
        }
    }
    // Names of one block here and there: no text opens a block twice. A block's name is a class's too.
    let mut dotted = many_classes(2);
    dotted.names[0].name = b"b".to_vec();
    dotted.names[2].name = b"b.process".to_vec();
    for (number, name) in ["b.a", "a", "b.b.a", "All.u4.not-", "b.c"].into_iter().enumerate() {
        dotted.names.push(NameEntry { sort: 2, number: number as u16, name: name.as_bytes().to_vec() });
    }
    vec![
        ("clashing transitions", table(&clashing)),
        ("empty transition sets", table(&many_transitions(2))),
        ("rows deeper than 32 levels", table(&constraints_of(2, 40))),
        ("sorts mixed", table(&mixed)),
        ("names longer in all than a text", table(&long_names)),
        ("dotted names without blocks", table(&dotted)),
        ("validatetrans rows deeper than 32 levels", table(&validations_of(2, 40))),
        ("edition 1 with dotted names", in_edition_1(&table(&dotted))),
        ("edition 1 with rows deeper than 32 levels", in_edition_1(&table(&constraints_of(2, 40)))),
    ]
}

/// Small policies whose tables have something in every body; the last has no validatetrans.
pub const BASES: [&str; 3] = [
    "(user u)(role a)(userattribute x)(class c(p q))(type t)(roleattribute y)(role b)(typeattribute z)(type s)\
     (userattributeset x(all))(roleattributeset y(not a))(typeattributeset z(s))(userrole x y)(roletype b z)(roleallow a b)\
     (validatetrans c(or(eq u3 x)(not(and(neq t3 s)(incomp r1 r2)))))\
     (roletransition y z c a)(constrain(c(q))(or(eq u1 x)(not(neq t2 s))))(constrain(c(p q))(and(dom r1 r2)(eq r1 y)))",
    "(class process(transition dyntransition))(class d(p))(user u)(user v)(role a)(type t)(userrole u a)(roletype a t)\
     (constrain(process(transition))(or(eq u1 u)(and(neq r2 a)(eq t1 t2))))(constrain(d(p))(not(eq u1 u2)))\
     (userattribute w)(userattributeset w(v))(constrain(d(p))(eq u2 w))(roletransition a t d a)\
     (validatetrans d(neq r3 a))(validatetrans process(eq u1 u2))(validatetrans d(and(eq u3 w)(eq t2 t)))",
    "(type t)(block b(class c(p))(role a)(roletype a t)(constrain(c(p))(incomp r1 r2))(constrain(c(p))(eq t1 t))\
     (typeattribute k))(constrain(b.c(p))(and(neq t1 b.k)(and(eq t2 .b.k)(and(eq u1 u2)(or(eq r1 b.a)(neq r2 b.a))))))",
];
