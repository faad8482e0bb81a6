//! Questions in and out of range, up to the largest number.

use crate::random::Random;
use crate::sound::Decoded;

/// Kind (0 valid, 1 change, 2 new role, 3 name, 4 entry, 5 relabel) and up to ten arguments, those not used 0.
pub type Question = [u64; 11];

/// A question from its kind and its arguments.
pub fn of<const N: usize>(numbers: [u64; N]) -> Question {
    let mut question = [0; 11];
    question[..N].copy_from_slice(&numbers);
    question
}

/// How many numbers of a question stand in a corpus: nine, and for the relabel question eleven.
pub fn written_length(kind: u64) -> usize {
    if kind == 5 { 11 } else { 9 }
}

/// A number that is declared, or rarely one that is not: just past the count, or one that a narrower number would fold
/// back onto a declared one.
fn number(random: &mut Random, count: usize) -> u64 {
    if count > 0 && !random.chance(3) {
        return random.below(count) as u64;
    }
    undeclared(random, count as u64)
}

pub fn undeclared(random: &mut Random, count: u64) -> u64 {
    match random.below(9) {
        0 | 1 => count,
        2 => count + 1,
        3 => u64::MAX,
        4 => u64::MAX - 1,
        5 => 1 << random.between(10, 63),
        6 => 256 + count,
        7 => (1 << 32) + random.below(count as usize + 1) as u64,
        _ => (1 << 16) + random.below(count as usize + 1) as u64,
    }
}

/// The number of the role `object_r`, if there is one.
fn object_role(table: &Decoded) -> Option<u64> {
    let mut names = table.contents.names.iter();
    names.find(|e| e.sort == 1 && e.name == b"object_r").map(|e| e.number as u64)
}

/// A context, valid in most cases if the table has a valid one.
fn context(random: &mut Random, table: &Decoded) -> [u64; 3] {
    if let Some(role) = object_role(table) {
        if random.chance(35) {
            return [number(random, table.counts.users()), role, number(random, table.counts.types())];
        }
    }
    let users = &table.contents.roles_of_user;
    if random.chance(85) && !users.is_empty() {
        for _ in 0..10 {
            let user = random.below(users.len());
            let roles: Vec<usize> = users[user].iter().copied().collect();
            if roles.is_empty() {
                continue;
            }
            let role = *random.pick(&roles);
            let types: Vec<usize> = table.contents.types_of_role[role].iter().copied().collect();
            if !types.is_empty() {
                return [user as u64, role as u64, *random.pick(&types) as u64];
            }
        }
    }
    let counts = &table.counts;
    [number(random, counts.users()), number(random, counts.roles()), number(random, counts.types())]
}

pub fn ask(random: &mut Random, table: &Decoded) -> Question {
    let counts = &table.counts;
    match random.below(24) {
        20..=23 => relabel(random, table),
        0..=2 => {
            let [user, role, kind] = context(random, table);
            of([0, user, role, kind])
        }
        3..=13 => change(random, table),
        14..=15 => {
            let role = number(random, counts.roles());
            let kind = number(random, counts.types());
            of([2, role, kind, number(random, counts.classes())])
        }
        16..=17 => name(random, table),
        _ => entry(random, table),
    }
}

fn change(random: &mut Random, table: &Decoded) -> Question {
    let [u1, r1, t1] = context(random, table);
    let [u2, r2, t2] = context(random, table);
    if random.chance(35) {
        if let Some((class, permission)) = role_change(random, table) {
            return of([1, u1, r1, t1, u2, r2, t2, class, permission]);
        }
    }
    let class = number(random, table.counts.classes());
    let permissions = table.counts.permissions.get(class as usize).copied().unwrap_or(1);
    of([1, u1, r1, t1, u2, r2, t2, class, number(random, permissions)])
}

/// A relabel question, for a class that has a validatetrans where there is one.
fn relabel(random: &mut Random, table: &Decoded) -> Question {
    let [u1, r1, t1] = context(random, table);
    let [u2, r2, t2] = context(random, table);
    let [u3, r3, t3] = context(random, table);
    let validations = &table.contents.validations;
    let class = if !validations.is_empty() && random.chance(80) {
        random.pick(validations).class as u64
    } else {
        number(random, table.counts.classes())
    };
    of([5, class, u1, r1, t1, u2, r2, t2, u3, r3, t3])
}

/// A class and permission where a change of role may have to be allowed, or that only look so.
fn role_change(random: &mut Random, table: &Decoded) -> Option<(u64, u64)> {
    let asks = |name: &[u8]| name == b"transition" || name == b"dyntransition";
    let names = table.contents.names.iter();
    let numbers: Vec<u64> = names.filter(|e| e.sort == 7 && asks(&e.name)).map(|e| e.number as u64).collect();
    if numbers.is_empty() {
        return None;
    }
    let number = *random.pick(&numbers);
    Some((number / 32, number % 32))
}

fn name(random: &mut Random, table: &Decoded) -> Question {
    if random.chance(25) || table.contents.names.is_empty() {
        // Also the numbers around a class's permissions, which lie 32 apart.
        let sort = if random.chance(40) { 7 } else { number(random, 8) };
        let near = *random.pick(&[1, 2, 3, 31, 32, 33, 63, 64, 1_023, 1_024]);
        let number = if random.chance(60) { near } else { undeclared(random, 1) };
        return of([3, sort, number]);
    }
    let entry = random.pick(&table.contents.names);
    let (sort, number) = (entry.sort as u64, entry.number as u64);
    let sort = if random.chance(5) { sort + 256 } else { sort };
    of([3, sort, number])
}

fn entry(random: &mut Random, table: &Decoded) -> Question {
    let contents = &table.contents;
    let (users, roles, types) = table.counts.attributes();
    let lengths = [
        contents.roles_of_user.len(),
        contents.types_of_role.len(),
        contents.becomes.len(),
        contents.transitions.len(),
        contents.constraints.len(),
        contents.rows.len(),
        users + roles + types,
        contents.validations.len(),
        contents.validation_rows.len(),
    ];
    if random.chance(10) {
        let body = *random.pick(&[0, 1, 9, 11, 12, 13, 258, u64::MAX]);
        return of([4, body]);
    }
    let body = random.below(lengths.len());
    of([4, body as u64 + 2, number(random, lengths[body])])
}
