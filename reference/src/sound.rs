//! Judges whether any bytes are a sound table, and reads back what a sound one holds.
//!
//! Each condition of "A table is **sound** when" gives its own reason, so that the tests can see that each of them is
//! reached. The reason is never part of an answer.

use crate::lexer::{has_dot, is_good_name, is_reserved, parts_of};
use crate::limits;
use crate::meaning::Numbers;
use crate::table::{
    header, ConstraintRecord, Contents, NameEntry, Row, TransitionRecord, ValidationRecord, CLASS, CONSTRAINT, EDITIONS,
    NARROW, PERMISSION, ROW, TRANSITION, VALIDATION, WIDE,
};
use std::collections::BTreeSet;

pub type Reason = &'static str;

/// Every reason that `decode` can give.
pub const REASONS: [Reason; 49] = [
    "shorter than the header",
    "edition",
    "count of bodies",
    "offset",
    "body past the end",
    "name entry cut",
    "name length",
    "sort",
    "name not good",
    "too many parts",
    "permission with a dot",
    "name reserved",
    "name twice in a family",
    "number does not rise",
    "permission without its class",
    "permission number",
    "permission twice in a class",
    "class without permission",
    "too many users",
    "too many roles",
    "too many types",
    "too many userattributes",
    "too many roleattributes",
    "too many typeattributes",
    "too many classes",
    "too many permissions",
    "too many transitions",
    "too many constraints",
    "too many rows",
    "too many validatetrans",
    "too many validatetrans rows",
    "length of a body",
    "undeclared user bit",
    "undeclared role bit",
    "undeclared type bit",
    "undeclared transition class",
    "undeclared new role",
    "undeclared constraint class",
    "undeclared validatetrans class",
    "empty mask",
    "undeclared permission in mask",
    "first row",
    "no rows",
    "rows left or missing",
    "kind",
    "unused field",
    "component or operator",
    "undeclared row number",
    "stack",
];

/// How many of each sort section 1 declares, and the permissions of each class.
#[derive(Clone, Debug, Default, PartialEq, Eq)]
pub struct Counts {
    pub sorts: [usize; 7],
    pub permissions: Vec<usize>,
}

impl Counts {
    pub fn users(&self) -> usize {
        self.sorts[0]
    }
    pub fn roles(&self) -> usize {
        self.sorts[1]
    }
    pub fn types(&self) -> usize {
        self.sorts[2]
    }
    pub fn attributes(&self) -> (usize, usize, usize) {
        (self.sorts[3], self.sorts[4], self.sorts[5])
    }
    pub fn classes(&self) -> usize {
        self.sorts[6]
    }
}

/// A sound table, read.
#[derive(Clone, Debug, PartialEq, Eq)]
pub struct Decoded {
    pub contents: Contents,
    pub counts: Counts,
    /// Offset of each body in the table: as many as the edition has.
    pub offsets: Vec<usize>,
}

pub fn is_sound(bytes: &[u8]) -> bool {
    decode(bytes).is_ok()
}

pub fn decode(bytes: &[u8]) -> Result<Decoded, Reason> {
    let (offsets, bodies) = split(bytes)?;
    let (names, counts) = section_names(bodies[0])?;
    let (users, roles, types) = (counts.users(), counts.roles(), counts.types());
    let (userattributes, roleattributes, typeattributes) = counts.attributes();
    let transitions = read_transitions(bodies[4], &counts)?;
    let rows = read_rows(bodies[6], &counts, CONSTRAIN_ROWS)?;
    let constraints = read_constraints(bodies[5], &counts)?;
    if !first_rows_are_sums(&constraints) {
        return Err("first row");
    }
    let row_counts: Vec<u16> = constraints.iter().map(|c| c.row_count).collect();
    rows_are_taken_up(&row_counts, &rows)?;
    // "Readers take edition 1 as having none."
    let (ninth, tenth) = if bodies.len() > 8 { (bodies[8], bodies[9]) } else { (&[][..], &[][..]) };
    let validation_rows = read_rows(tenth, &counts, VALIDATETRANS_ROWS)?;
    let validations = read_validations(ninth, &counts)?;
    let row_counts: Vec<u16> = validations.iter().map(|v| v.row_count).collect();
    rows_are_taken_up(&row_counts, &validation_rows)?;
    let narrow = (userattributes + roleattributes) * NARROW;
    if bodies[7].len() != narrow + typeattributes * WIDE {
        return Err("length of a body");
    }
    let (first, last) = bodies[7].split_at(narrow);
    let (first, middle) = first.split_at(userattributes * NARROW);
    let contents = Contents {
        names,
        roles_of_user: read_sets(bodies[1], NARROW, users, (roles, "undeclared role bit"))?,
        types_of_role: read_sets(bodies[2], WIDE, roles, (types, "undeclared type bit"))?,
        becomes: read_sets(bodies[3], NARROW, roles, (roles, "undeclared role bit"))?,
        transitions,
        constraints,
        rows,
        userattributes: read_sets(first, NARROW, userattributes, (users, "undeclared user bit"))?,
        roleattributes: read_sets(middle, NARROW, roleattributes, (roles, "undeclared role bit"))?,
        typeattributes: read_sets(last, WIDE, typeattributes, (types, "undeclared type bit"))?,
        validations,
        validation_rows,
    };
    Ok(Decoded { contents, counts, offsets })
}

/// Section 1 by itself: its entries in order, and how many there are of each sort.
pub fn section_names(section: &[u8]) -> Result<(Vec<NameEntry>, Counts), Reason> {
    let names = read_names(section)?;
    let counts = count_names(&names)?;
    within_maxima(&counts)?;
    Ok((names, counts))
}

fn two(bytes: &[u8], at: usize) -> u16 {
    u16::from_le_bytes([bytes[at], bytes[at + 1]])
}

fn four(bytes: &[u8], at: usize) -> u32 {
    u32::from_le_bytes([bytes[at], bytes[at + 1], bytes[at + 2], bytes[at + 3]])
}

/// The edition, the sections that it has, pairs of offset and length, "the bodies follow the last pair" in order, without
/// gaps. "Bytes after the last body are not read."
fn split(bytes: &[u8]) -> Result<(Vec<usize>, Vec<&[u8]>), Reason> {
    if bytes.len() < header(0) {
        return Err("shorter than the header");
    }
    // Reading 68 of document 02: edition 1 has exactly 8 sections, edition 2 exactly 10.
    let Some((_, sections)) = EDITIONS.into_iter().find(|(edition, _)| *edition == two(bytes, 0)) else {
        return Err("edition");
    };
    if two(bytes, 2) as usize != sections {
        return Err("count of bodies");
    }
    if bytes.len() < header(sections) {
        return Err("shorter than the header");
    }
    let mut offsets = Vec::new();
    let mut bodies = Vec::new();
    let mut expected = header(sections) as u64;
    for body in 0..sections {
        let offset = four(bytes, 4 + body * 8) as u64;
        let length = four(bytes, 8 + body * 8) as u64;
        if offset != expected {
            return Err("offset");
        }
        expected = offset + length;
        if expected > bytes.len() as u64 {
            return Err("body past the end");
        }
        offsets.push(offset as usize);
        bodies.push(&bytes[offset as usize..expected as usize]);
    }
    Ok((offsets, bodies))
}

/// Reading 31: section 1 is used up exactly; stray bytes, a cut name, length 0 or above 64, sort above 7 are unsound.
fn read_names(body: &[u8]) -> Result<Vec<NameEntry>, Reason> {
    let mut entries = Vec::new();
    let mut rest = body;
    while !rest.is_empty() {
        if rest.len() < 4 {
            return Err("name entry cut");
        }
        let length = rest[3] as usize;
        if length == 0 || length > limits::NAME {
            return Err("name length");
        }
        if rest.len() < 4 + length {
            return Err("name entry cut");
        }
        if rest[0] > PERMISSION {
            return Err("sort");
        }
        let name = rest[4..4 + length].to_vec();
        check_name(rest[0], &name)?;
        entries.push(NameEntry { sort: rest[0], number: two(rest, 1), name });
        rest = &rest[4 + length..];
    }
    Ok(entries)
}

/// "names are good, not reserved", a permission's too. Document 02, W-203: "Tables, sound ones included, hold the full
/// dotted name without leading dot, at most 64 bytes and nine parts, a permission's one." Reading 53 of document 02: no
/// block need exist anywhere.
fn check_name(sort: u8, name: &[u8]) -> Result<(), Reason> {
    // A leading dot would leave an empty first part, which is not good.
    if !is_good_name(name) {
        return Err("name not good");
    }
    if parts_of(name).count() > limits::PARTS {
        return Err("too many parts");
    }
    if sort == PERMISSION && has_dot(name) {
        return Err("permission with a dot");
    }
    if is_reserved(name) {
        return Err("name reserved");
    }
    Ok(())
}

/// "unique in their families, numbers in each sort (places in each class) rise from 0, each class is followed by at
/// least one permission and its permissions differ"
fn count_names(entries: &[NameEntry]) -> Result<Counts, Reason> {
    let mut counts = Counts::default();
    let mut seen: BTreeSet<(u8, &[u8])> = BTreeSet::new();
    let mut rest = entries;
    while let Some((entry, after)) = rest.split_first() {
        rest = after;
        if entry.sort == PERMISSION {
            // A class takes its permissions with it below, so this one does not stand right after a class.
            return Err("permission without its class");
        }
        if !seen.insert((family_of_sort(entry.sort), &entry.name)) {
            return Err("name twice in a family");
        }
        // Reading 30: 0, 1, 2, .. without gaps in order of appearance; sorts may be mixed in any order.
        if entry.number as usize != counts.sorts[entry.sort as usize] {
            return Err("number does not rise");
        }
        counts.sorts[entry.sort as usize] += 1;
        if entry.sort == CLASS {
            let many = after.iter().take_while(|e| e.sort == PERMISSION).count();
            check_permissions(entry.number as usize, &after[..many])?;
            counts.permissions.push(many);
            rest = &after[many..];
        }
    }
    Ok(counts)
}

/// Users with userattributes, roles with roleattributes, types with typeattributes, classes.
fn family_of_sort(sort: u8) -> u8 {
    match sort {
        0 | 3 => 0,
        1 | 4 => 1,
        2 | 5 => 2,
        _ => 3,
    }
}

/// Reading 30: a permission's number is exactly its class x 32 + its place.
fn check_permissions(class: usize, permissions: &[NameEntry]) -> Result<(), Reason> {
    if permissions.is_empty() {
        return Err("class without permission");
    }
    if permissions.len() > limits::PERMISSIONS {
        return Err("too many permissions");
    }
    let mut seen = BTreeSet::new();
    for (place, permission) in permissions.iter().enumerate() {
        if permission.number as usize != class * limits::PERMISSIONS + place {
            return Err("permission number");
        }
        if !seen.insert(&permission.name) {
            return Err("permission twice in a class");
        }
    }
    Ok(())
}

fn within_maxima(counts: &Counts) -> Result<(), Reason> {
    let most = [
        (limits::USERS, "too many users"),
        (limits::ROLES, "too many roles"),
        (limits::TYPES, "too many types"),
        (limits::ATTRIBUTES, "too many userattributes"),
        (limits::ATTRIBUTES, "too many roleattributes"),
        (limits::ATTRIBUTES, "too many typeattributes"),
        (limits::CLASSES, "too many classes"),
    ];
    for (sort, (most, reason)) in most.into_iter().enumerate() {
        if counts.sorts[sort] > most {
            return Err(reason);
        }
    }
    Ok(())
}

/// The members of a set, each of which must be declared: "no bit or index names something undeclared".
fn read_set(bytes: &[u8], (declared, reason): (usize, Reason)) -> Result<Numbers, Reason> {
    let members: Numbers = (0..bytes.len() * 8).filter(|n| bytes[n / 8] >> (n % 8) & 1 == 1).collect();
    if members.iter().any(|&n| n >= declared) {
        return Err(reason);
    }
    Ok(members)
}

/// "counts agree with section 1"
fn read_sets(body: &[u8], width: usize, count: usize, members: (usize, Reason)) -> Result<Vec<Numbers>, Reason> {
    if body.len() != count * width {
        return Err("length of a body");
    }
    body.chunks(width).map(|bytes| read_set(bytes, members)).collect()
}

/// The records of a body whose count section 1 does not give.
fn records(body: &[u8], width: usize, most: usize, too_many: Reason) -> Result<Vec<&[u8]>, Reason> {
    if body.len() % width != 0 {
        return Err("length of a body");
    }
    if body.len() / width > most {
        return Err(too_many);
    }
    Ok(body.chunks(width).collect())
}

/// Reading 34: clashing transitions and empty sets are sound.
fn read_transitions(body: &[u8], counts: &Counts) -> Result<Vec<TransitionRecord>, Reason> {
    let mut transitions = Vec::new();
    for record in records(body, TRANSITION, limits::TRANSITIONS, "too many transitions")? {
        let (roles, rest) = record.split_at(NARROW);
        let (types, rest) = rest.split_at(WIDE);
        let (class, new_role) = (rest[0], rest[1]);
        if class as usize >= counts.classes() {
            return Err("undeclared transition class");
        }
        if new_role as usize >= counts.roles() {
            return Err("undeclared new role");
        }
        transitions.push(TransitionRecord {
            roles: read_set(roles, (counts.roles(), "undeclared role bit"))?,
            types: read_set(types, (counts.types(), "undeclared type bit"))?,
            class,
            new_role,
        });
    }
    Ok(transitions)
}

fn read_constraints(body: &[u8], counts: &Counts) -> Result<Vec<ConstraintRecord>, Reason> {
    let mut constraints = Vec::new();
    for record in records(body, CONSTRAINT, limits::CONSTRAINTS, "too many constraints")? {
        let constraint = ConstraintRecord {
            class: two(record, 0),
            mask: four(record, 2),
            first_row: two(record, 6),
            row_count: two(record, 8),
        };
        if constraint.class as usize >= counts.classes() {
            return Err("undeclared constraint class");
        }
        if constraint.mask == 0 {
            return Err("empty mask");
        }
        let permissions = counts.permissions[constraint.class as usize];
        if (permissions..32).any(|place| constraint.mask >> place & 1 == 1) {
            return Err("undeclared permission in mask");
        }
        constraints.push(constraint);
    }
    Ok(constraints)
}

fn read_validations(body: &[u8], counts: &Counts) -> Result<Vec<ValidationRecord>, Reason> {
    let mut validations = Vec::new();
    for record in records(body, VALIDATION, limits::VALIDATETRANS, "too many validatetrans")? {
        let validation = ValidationRecord { class: two(record, 0), row_count: two(record, 2) };
        if validation.class as usize >= counts.classes() {
            return Err("undeclared validatetrans class");
        }
        validations.push(validation);
    }
    Ok(validations)
}

/// What differs between the rows of section 7 and those of section 10: the most of them, and the greatest component.
/// Document 02, W-205: "components u3, r3, t3 as 6, 7, 8, legal only here" (reading 69).
#[derive(Clone, Copy)]
struct RowRules {
    most: usize,
    too_many: Reason,
    greatest_component: u8,
}

const CONSTRAIN_ROWS: RowRules = RowRules { most: limits::ROWS, too_many: "too many rows", greatest_component: 5 };
const VALIDATETRANS_ROWS: RowRules =
    RowRules { most: limits::VALIDATETRANS_ROWS, too_many: "too many validatetrans rows", greatest_component: 8 };

fn read_rows(body: &[u8], counts: &Counts, rules: RowRules) -> Result<Vec<Row>, Reason> {
    let mut rows = Vec::new();
    for record in records(body, ROW, rules.most, rules.too_many)? {
        let row = Row {
            kind: record[0],
            component: record[1],
            operator: record[2],
            zero: record[3],
            number: two(record, 4),
        };
        check_row(&row, counts, rules.greatest_component)?;
        rows.push(row);
    }
    Ok(rows)
}

/// Reading 32: unused fields are 0; operators 2 to 4 only for kind 3 with component 2.
fn check_row(row: &Row, counts: &Counts, greatest_component: u8) -> Result<(), Reason> {
    if row.zero != 0 {
        return Err("unused field");
    }
    match row.kind {
        0..=2 if row.component == 0 && row.operator == 0 && row.number == 0 => Ok(()),
        0..=2 => Err("unused field"),
        3 if row.number != 0 => Err("unused field"),
        3 => match (row.component, row.operator) {
            (0 | 4, 0..=1) | (2, 0..=4) => Ok(()),
            _ => Err("component or operator"),
        },
        4 | 5 if row.component > greatest_component || row.operator > 1 => Err("component or operator"),
        4 | 5 => {
            // Sorts 0 to 2 are the things, 3 to 5 their attributes.
            let family = family_of_component(row.component);
            let sort = if row.kind == 4 { family } else { family + 3 };
            if row.number as usize >= counts.sorts[sort] {
                return Err("undeclared row number");
            }
            Ok(())
        }
        _ => Err("kind"),
    }
}

/// 0 for u, 1 for r, 2 for t: u1 u2 r1 r2 t1 t2 come in pairs, then u3 r3 t3.
pub fn family_of_component(component: u8) -> usize {
    match component {
        0..=5 => component as usize / 2,
        _ => component as usize - 6,
    }
}

/// Reading 33: each first row is the sum of the earlier counts.
fn first_rows_are_sums(constraints: &[ConstraintRecord]) -> bool {
    let mut taken = 0;
    for constraint in constraints {
        if constraint.first_row as usize != taken {
            return false;
        }
        taken += constraint.row_count as usize;
    }
    true
}

/// "constraints take up the rows in order with none left, and each constraint's rows, at least one, leave between 1 and
/// 5 on the stack after every row and 1 after the last" (reading 33). Document 02, W-205: sections 9 and 10 are "sound as 6 and
/// 7 are"; their first rows are the running sums (reading 67).
fn rows_are_taken_up(row_counts: &[u16], rows: &[Row]) -> Result<(), Reason> {
    let mut taken = 0;
    for &row_count in row_counts {
        if row_count == 0 {
            return Err("no rows");
        }
        let end = taken + row_count as usize;
        if end > rows.len() {
            return Err("rows left or missing");
        }
        check_stack(&rows[taken..end])?;
        taken = end;
    }
    if taken != rows.len() {
        return Err("rows left or missing");
    }
    Ok(())
}

fn check_stack(rows: &[Row]) -> Result<(), Reason> {
    let mut depth: i64 = 0;
    for row in rows {
        depth += match row.kind {
            0 => 0,
            1 | 2 => -1,
            _ => 1,
        };
        if !(1..=limits::STACK as i64).contains(&depth) {
            return Err("stack");
        }
    }
    if depth != 1 {
        return Err("stack");
    }
    Ok(())
}
