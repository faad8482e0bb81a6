//! "The table, contents first": what a table holds, how it is laid out in bytes, and the compiler.

use crate::fault::Fault;
use crate::meaning::{meaning, Meaning, Numbers};
use crate::parser::{Constrain, Expression, Family, Name, Operator, Relation, Side, Transition};
use crate::policy::read;

pub use crate::lookup::{thing_sort, NameEntry, CLASS, PERMISSION};

/// Each edition and how many sections it has: 1 those of document 01, 2 those of document 02, W-205, as well. Reading 68 of
/// document 02: bytes 2-3 must fit the edition, and an edition not known here is unsound.
pub const EDITIONS: [(u16, usize); 2] = [(1, 8), (2, 10)];

/// Edition, count, then pairs of 4 and 4 bytes: "the bodies follow the last pair".
pub fn header(sections: usize) -> usize {
    4 + 8 * sections
}

/// Bytes of a set of users or roles, and of a set of types.
pub const NARROW: usize = 16;
pub const WIDE: usize = 64;
pub const TRANSITION: usize = NARROW + WIDE + 1 + 1;
pub const CONSTRAINT: usize = 10;
pub const ROW: usize = 6;
/// Document 02, W-205: section 9 "holds class and row count, 2 bytes each".
pub const VALIDATION: usize = 4;

#[derive(Clone, Debug, PartialEq, Eq)]
pub struct TransitionRecord {
    pub roles: Numbers,
    pub types: Numbers,
    pub class: u8,
    pub new_role: u8,
}

#[derive(Clone, Copy, Debug, PartialEq, Eq)]
pub struct ConstraintRecord {
    pub class: u16,
    pub mask: u32,
    pub first_row: u16,
    pub row_count: u16,
}

/// A validatetrans: no first row and no mask (reading 67 of document 02).
#[derive(Clone, Copy, Debug, PartialEq, Eq)]
pub struct ValidationRecord {
    pub class: u16,
    pub row_count: u16,
}

/// "kind (0 not, 1 and, 2 or, 3 two sides, 4 side and thing, 5 side and attribute), component (u1 u2 r1 r2 t1 t2 as 0 to
/// 5; document 02, W-205: u3, r3, t3 as 6, 7, 8), operator (eq neq dom domby incomp as 0 to 4), 0, number in 2 bytes".
/// `zero` is the fourth byte.
#[derive(Clone, Copy, Debug, PartialEq, Eq, Default)]
pub struct Row {
    pub kind: u8,
    pub component: u8,
    pub operator: u8,
    pub zero: u8,
    pub number: u16,
}

/// What the bodies of a table hold. "Readers take edition 1 as having none" of the last two.
#[derive(Clone, Debug, PartialEq, Eq, Default)]
pub struct Contents {
    pub names: Vec<NameEntry>,
    pub roles_of_user: Vec<Numbers>,
    pub types_of_role: Vec<Numbers>,
    pub becomes: Vec<Numbers>,
    pub transitions: Vec<TransitionRecord>,
    pub constraints: Vec<ConstraintRecord>,
    pub rows: Vec<Row>,
    pub userattributes: Vec<Numbers>,
    pub roleattributes: Vec<Numbers>,
    pub typeattributes: Vec<Numbers>,
    pub validations: Vec<ValidationRecord>,
    pub validation_rows: Vec<Row>,
}

#[derive(Clone, Copy, Debug, PartialEq, Eq)]
pub enum Outcome {
    /// The length of the table.
    Accepted(usize),
    Refused(Fault),
}

/// Compiles a text into lent memory. "On refusal the lent memory is unchanged. On success bytes past the table are
/// unchanged."
pub fn compile(text: &[u8], lent: &mut [u8]) -> Outcome {
    let table = match table_of(text) {
        Ok(table) => table,
        Err(fault) => return Outcome::Refused(fault),
    };
    // Reading 27: equal is accepted. Reading 22 of document 02: the length needed is no place in the text, so 10 has line 0.
    if lent.len() < table.len() {
        return Outcome::Refused(Fault::new(10, table.len()));
    }
    lent[..table.len()].copy_from_slice(&table);
    Outcome::Accepted(table.len())
}

/// Faults 1 to 9, or the bytes of the table: "New tables are in the newest edition".
pub fn table_of(text: &[u8]) -> Result<Vec<u8>, Fault> {
    let meaning = meaning(read(text)?)?;
    Ok(assemble(&bodies(&contents(&meaning))))
}

/// The contents of the table of an accepted policy.
pub fn contents(meaning: &Meaning) -> Contents {
    let policy = &meaning.policy;
    let users = policy.things(Family::User).len();
    let roles = policy.things(Family::Role).len();
    let given = |relation, count| (0..count).map(|n| meaning.given(relation, n)).collect();
    let attributes = |family| {
        let count = policy.attributes(family).len();
        (0..count).map(|n| meaning.attribute(family, n).clone()).collect()
    };
    let (constraints, rows) = constraints_and_rows(meaning);
    let (validations, validation_rows) = validations_and_rows(meaning);
    Contents {
        names: policy.names.clone(),
        roles_of_user: given(Relation::UserRole, users),
        types_of_role: given(Relation::RoleType, roles),
        becomes: given(Relation::RoleAllow, roles),
        transitions: policy.transitions().iter().map(|(_, t)| transition(meaning, t)).collect(),
        constraints,
        rows,
        userattributes: attributes(Family::User),
        roleattributes: attributes(Family::Role),
        typeattributes: attributes(Family::Type),
        validations,
        validation_rows,
    }
}

/// "role set 16, type set 64, class 1, new role 1"
fn transition(meaning: &Meaning, t: &Transition) -> TransitionRecord {
    TransitionRecord {
        roles: meaning.stands_for(Family::Role, &t.role),
        types: meaning.stands_for(Family::Type, &t.kind),
        class: meaning.policy.class(&t.class).unwrap() as u8,
        new_role: meaning.policy.thing(Family::Role, &t.new_role).unwrap() as u8,
    }
}

/// "class 2, permission mask 4, first row 2, row count 2"; reading 29: the first row counts over all rows.
fn constraints_and_rows(meaning: &Meaning) -> (Vec<ConstraintRecord>, Vec<Row>) {
    let mut constraints = Vec::new();
    let mut rows = Vec::new();
    for constrain in meaning.policy.constrains() {
        let first_row = rows.len();
        write_rows(meaning, &constrain.expression, &mut rows);
        let class = meaning.policy.class(&constrain.class).unwrap();
        constraints.push(ConstraintRecord {
            class: class as u16,
            mask: mask(meaning, class, constrain),
            first_row: first_row as u16,
            row_count: (rows.len() - first_row) as u16,
        });
    }
    (constraints, rows)
}

/// Sections 9 and 10, in text order.
fn validations_and_rows(meaning: &Meaning) -> (Vec<ValidationRecord>, Vec<Row>) {
    let mut validations = Vec::new();
    let mut rows = Vec::new();
    for validatetrans in meaning.policy.validatetrans() {
        let first_row = rows.len();
        write_rows(meaning, &validatetrans.expression, &mut rows);
        let class = meaning.policy.class(&validatetrans.class).unwrap() as u16;
        validations.push(ValidationRecord { class, row_count: (rows.len() - first_row) as u16 });
    }
    (validations, rows)
}

/// Reading 29: the mask's bit is the permission's place; "repeats of P are harmless".
fn mask(meaning: &Meaning, class: usize, constrain: &Constrain) -> u32 {
    let mut mask = 0;
    for permission in &constrain.permissions {
        mask |= 1 << meaning.policy.permission(class, permission).unwrap();
    }
    mask
}

/// "operands before operators, left first"
fn write_rows(meaning: &Meaning, expression: &Expression, rows: &mut Vec<Row>) {
    match expression {
        Expression::Not(e) => {
            write_rows(meaning, e, rows);
            rows.push(Row { kind: 0, ..Row::default() });
        }
        Expression::And(e, f) => {
            write_rows(meaning, e, rows);
            write_rows(meaning, f, rows);
            rows.push(Row { kind: 1, ..Row::default() });
        }
        Expression::Or(e, f) => {
            write_rows(meaning, e, rows);
            write_rows(meaning, f, rows);
            rows.push(Row { kind: 2, ..Row::default() });
        }
        Expression::Sides(operator, family) => {
            let component = component(*family, Side::One);
            rows.push(Row { kind: 3, component, operator: operator_number(*operator), ..Row::default() });
        }
        Expression::Named(operator, family, side, name) => {
            let (kind, number) = thing_or_attribute(meaning, *family, name);
            let component = component(*family, *side);
            rows.push(Row { kind, component, operator: operator_number(*operator), zero: 0, number });
        }
    }
}

/// Kind 4 with the thing's number, or kind 5 with "the attribute's own number" (reading 28).
fn thing_or_attribute(meaning: &Meaning, family: Family, name: &Name) -> (u8, u16) {
    match meaning.policy.thing(family, name) {
        Some(thing) => (4, thing as u16),
        None => (5, meaning.policy.attribute(family, name).unwrap() as u16),
    }
}

fn component(family: Family, side: Side) -> u8 {
    let place = thing_sort(family);
    match side {
        Side::One => 2 * place,
        Side::Two => 2 * place + 1,
        Side::Three => 6 + place,
    }
}

fn operator_number(operator: Operator) -> u8 {
    match operator {
        Operator::Eq => 0,
        Operator::Neq => 1,
        Operator::Dom => 2,
        Operator::Domby => 3,
        Operator::Incomp => 4,
    }
}

/// The bytes of the bodies of the newest edition; the first eight of them are those of edition 1.
pub fn bodies(contents: &Contents) -> Vec<Vec<u8>> {
    let mut attribute_sets = sets(&contents.userattributes, NARROW);
    attribute_sets.extend(sets(&contents.roleattributes, NARROW));
    attribute_sets.extend(sets(&contents.typeattributes, WIDE));
    vec![
        contents.names.iter().flat_map(name_bytes).collect(),
        sets(&contents.roles_of_user, NARROW),
        sets(&contents.types_of_role, WIDE),
        sets(&contents.becomes, NARROW),
        contents.transitions.iter().flat_map(transition_bytes).collect(),
        contents.constraints.iter().flat_map(constraint_bytes).collect(),
        contents.rows.iter().flat_map(row_bytes).collect(),
        attribute_sets,
        contents.validations.iter().flat_map(validation_bytes).collect(),
        contents.validation_rows.iter().flat_map(row_bytes).collect(),
    ]
}

/// The table of the edition that has so many bodies: "Bytes 2-3 say how many sections there are, and the bodies follow the last
/// pair", "in order, without gaps"; reading 29: an empty body still has the running offset.
pub fn assemble(bodies: &[Vec<u8>]) -> Vec<u8> {
    let (edition, sections) = EDITIONS.into_iter().find(|(_, sections)| *sections == bodies.len()).expect("an edition");
    let mut table = edition.to_le_bytes().to_vec();
    table.extend((sections as u16).to_le_bytes());
    let mut offset = header(sections);
    for body in bodies {
        table.extend((offset as u32).to_le_bytes());
        table.extend((body.len() as u32).to_le_bytes());
        offset += body.len();
    }
    for body in bodies {
        table.extend(body);
    }
    table
}

/// "number n is bit n mod 8 (lowest is 0) of byte n div 8"
fn set_bytes(set: &Numbers, width: usize) -> Vec<u8> {
    let mut bytes = vec![0; width];
    for n in set {
        bytes[n / 8] |= 1 << (n % 8);
    }
    bytes
}

fn sets(list: &[Numbers], width: usize) -> Vec<u8> {
    list.iter().flat_map(|set| set_bytes(set, width)).collect()
}

/// "sort in 1 byte, number in 2 bytes, length in 1, bytes"
fn name_bytes(entry: &NameEntry) -> Vec<u8> {
    let mut bytes = vec![entry.sort];
    bytes.extend(entry.number.to_le_bytes());
    bytes.push(entry.name.len() as u8);
    bytes.extend(&entry.name);
    bytes
}

fn transition_bytes(t: &TransitionRecord) -> Vec<u8> {
    let mut bytes = set_bytes(&t.roles, NARROW);
    bytes.extend(set_bytes(&t.types, WIDE));
    bytes.extend([t.class, t.new_role]);
    bytes
}

fn constraint_bytes(c: &ConstraintRecord) -> Vec<u8> {
    let mut bytes = c.class.to_le_bytes().to_vec();
    bytes.extend(c.mask.to_le_bytes());
    bytes.extend(c.first_row.to_le_bytes());
    bytes.extend(c.row_count.to_le_bytes());
    bytes
}

fn validation_bytes(v: &ValidationRecord) -> Vec<u8> {
    let mut bytes = v.class.to_le_bytes().to_vec();
    bytes.extend(v.row_count.to_le_bytes());
    bytes
}

fn row_bytes(row: &Row) -> Vec<u8> {
    let mut bytes = vec![row.kind, row.component, row.operator, row.zero];
    bytes.extend(row.number.to_le_bytes());
    bytes
}
