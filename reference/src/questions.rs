//! The five questions and the relabel question, asked of table bytes alone. "Each tries 11, then 12."

use crate::limits;
use crate::parser::Family;
use crate::sound::{decode, family_of_component, Decoded};
use crate::table::{thing_sort, Row, CLASS, CONSTRAINT, NARROW, PERMISSION, ROW, TRANSITION, VALIDATION, WIDE};

#[derive(Clone, Copy, Debug, PartialEq, Eq)]
pub struct Context<N> {
    pub user: N,
    pub role: N,
    pub kind: N,
}

impl<N: Copy> Context<N> {
    pub fn part(&self, family: Family) -> N {
        match family {
            Family::User => self.user,
            Family::Role => self.role,
            Family::Type => self.kind,
        }
    }
}

#[derive(Clone, Copy, Debug, PartialEq, Eq)]
pub struct Change<N> {
    pub source: Context<N>,
    pub target: Context<N>,
    pub class: N,
    pub permission: N,
}

/// Document 02, W-205: "A new question gives class and three contexts".
#[derive(Clone, Copy, Debug, PartialEq, Eq)]
pub struct Relabel<N> {
    pub class: N,
    pub old: Context<N>,
    pub new: Context<N>,
    pub process: Context<N>,
}

#[derive(Clone, Copy, Debug, PartialEq, Eq)]
pub enum ValidAnswer {
    Valid,
    NotValid,
    Refused(u8),
}

/// Of a change or of a relabelling. `constraint` has a meaning for denials 4 and 6 only, where it is the number of the failing
/// constrain or validatetrans, and is 0 otherwise. Reading 76 of document 02: 3 and 4 are denials of a change only, 5 and 6 of
/// a relabelling only.
#[derive(Clone, Copy, Debug, PartialEq, Eq)]
pub enum ChangeAnswer {
    Granted { consulted: usize },
    Denied { number: u8, constraint: usize, consulted: usize },
    Refused(u8),
}

#[derive(Clone, Copy, Debug, PartialEq, Eq)]
pub enum RoleAnswer {
    Role(usize),
    Refused(u8),
}

/// A part of the lent table: where it starts and how long it is.
#[derive(Clone, Copy, Debug, PartialEq, Eq)]
pub enum PartAnswer {
    Part { start: usize, length: usize },
    Refused(u8),
}

const NOT_SOUND: u8 = 11;
const NOT_DECLARED: u8 = 12;

/// A question's number as an index, if it is below the count.
fn declared(number: u64, count: usize) -> Option<usize> {
    if number < count as u64 {
        Some(number as usize)
    } else {
        None
    }
}

fn declared_context(table: &Decoded, context: &Context<u64>) -> Option<Context<usize>> {
    Some(Context {
        user: declared(context.user, table.counts.users())?,
        role: declared(context.role, table.counts.roles())?,
        kind: declared(context.kind, table.counts.types())?,
    })
}

pub fn valid_context(bytes: &[u8], context: &Context<u64>) -> ValidAnswer {
    let Ok(table) = decode(bytes) else { return ValidAnswer::Refused(NOT_SOUND) };
    match declared_context(&table, context) {
        None => ValidAnswer::Refused(NOT_DECLARED),
        Some(context) if is_valid(&table, &context) => ValidAnswer::Valid,
        Some(_) => ValidAnswer::NotValid,
    }
}

/// "the role is among the user's, the type among the role's"; document 02, W-201: "a context whose role is named
/// `object_r` is valid with any declared user and any declared type".
fn is_valid(table: &Decoded, context: &Context<usize>) -> bool {
    if name_bytes(table, thing_sort(Family::Role), context.role) == b"object_r" {
        return true;
    }
    table.contents.roles_of_user[context.user].contains(&context.role)
        && table.contents.types_of_role[context.role].contains(&context.kind)
}

pub fn change(bytes: &[u8], question: &Change<u64>) -> ChangeAnswer {
    let Ok(table) = decode(bytes) else { return ChangeAnswer::Refused(NOT_SOUND) };
    // Reading 35: every number is tried for 12 before any denial.
    match declared_change(&table, question) {
        None => ChangeAnswer::Refused(NOT_DECLARED),
        Some(question) => decide(&table, &question),
    }
}

fn declared_change(table: &Decoded, question: &Change<u64>) -> Option<Change<usize>> {
    let source = declared_context(table, &question.source)?;
    let target = declared_context(table, &question.target)?;
    let class = declared(question.class, table.counts.classes())?;
    let permission = declared(question.permission, table.counts.permissions[class])?;
    Some(Change { source, target, class, permission })
}

/// Denials in order 1, 2, 3, 4, otherwise granted. Reading 37: consulted counts the constraints that name class and
/// permission; the number of denial 4 is among all constraints.
fn decide(table: &Decoded, question: &Change<usize>) -> ChangeAnswer {
    let denied = |number| ChangeAnswer::Denied { number, constraint: 0, consulted: 0 };
    if !is_valid(table, &question.source) {
        return denied(1);
    }
    if !is_valid(table, &question.target) {
        return denied(2);
    }
    if asks_role_allow(table, question) {
        let becomes = &table.contents.becomes[question.source.role];
        if !becomes.contains(&question.target.role) {
            return denied(3);
        }
    }
    let mut consulted = 0;
    for (number, constraint) in table.contents.constraints.iter().enumerate() {
        if constraint.class as usize != question.class || constraint.mask >> question.permission & 1 == 0 {
            continue;
        }
        consulted += 1;
        let first = constraint.first_row as usize;
        let rows = &table.contents.rows[first..first + constraint.row_count as usize];
        if !run(table, rows, &[question.source, question.target]) {
            return ChangeAnswer::Denied { number: 4, constraint: number, consulted };
        }
    }
    ChangeAnswer::Granted { consulted }
}

/// Document 02, W-205.
pub fn relabel(bytes: &[u8], question: &Relabel<u64>) -> ChangeAnswer {
    let Ok(table) = decode(bytes) else { return ChangeAnswer::Refused(NOT_SOUND) };
    // Reading 72 of document 02: 12 for the class or any of nine numbers, before any denial.
    match declared_relabel(&table, question) {
        None => ChangeAnswer::Refused(NOT_DECLARED),
        Some(question) => decide_relabel(&table, &question),
    }
}

fn declared_relabel(table: &Decoded, question: &Relabel<u64>) -> Option<Relabel<usize>> {
    Some(Relabel {
        class: declared(question.class, table.counts.classes())?,
        old: declared_context(table, &question.old)?,
        new: declared_context(table, &question.new)?,
        process: declared_context(table, &question.process)?,
    })
}

/// "denials 1 old, 2 new, 5 process not valid, 6 with the first failing statement's number, else granted; consulted as for a
/// change, 0 for denials 1, 2 and 5". Reading 73 of document 02: the number is the place among all validatetrans, and edition
/// 1, which has none, grants with 0 once all three are valid. Reading 72: no role allow is asked.
fn decide_relabel(table: &Decoded, question: &Relabel<usize>) -> ChangeAnswer {
    let sides = [question.old, question.new, question.process];
    for (number, context) in [1, 2, 5].into_iter().zip(&sides) {
        if !is_valid(table, context) {
            return ChangeAnswer::Denied { number, constraint: 0, consulted: 0 };
        }
    }
    let mut consulted = 0;
    let mut rest = table.contents.validation_rows.as_slice();
    for (number, validation) in table.contents.validations.iter().enumerate() {
        // Reading 67: there is no first row; the rows follow one another.
        let (rows, behind) = rest.split_at(validation.row_count as usize);
        rest = behind;
        if validation.class as usize != question.class {
            continue;
        }
        consulted += 1;
        if !run(table, rows, &sides) {
            return ChangeAnswer::Denied { number: 6, constraint: number, consulted };
        }
    }
    ChangeAnswer::Granted { consulted }
}

/// "class `process`, permission `transition` or `dyntransition`, roles differ"; document 02, W-203: "Only the full names
/// `process` and `object_r` are treated apart." Tables hold full names.
fn asks_role_allow(table: &Decoded, question: &Change<usize>) -> bool {
    let class = name_bytes(table, CLASS, question.class);
    let permission = name_bytes(table, PERMISSION, question.class * limits::PERMISSIONS + question.permission);
    class == b"process"
        && (permission == b"transition" || permission == b"dyntransition")
        && question.source.role != question.target.role
}

fn name_bytes(table: &Decoded, sort: u8, number: usize) -> &[u8] {
    let mut entries = table.contents.names.iter();
    let found = entries.find(|e| e.sort == sort && e.number as usize == number);
    &found.expect("the number is declared").name
}

/// Runs the rows of a constrain or validatetrans over the contexts of its sides. A sound table keeps the stack between 1 and 5.
fn run(table: &Decoded, rows: &[Row], sides: &[Context<usize>]) -> bool {
    let mut stack = Vec::new();
    for row in rows {
        let result = match row.kind {
            0 => !pop(&mut stack),
            1 => {
                let (right, left) = (pop(&mut stack), pop(&mut stack));
                left && right
            }
            2 => {
                let (right, left) = (pop(&mut stack), pop(&mut stack));
                left || right
            }
            _ => compare(table, row, sides),
        };
        stack.push(result);
        assert!(stack.len() <= limits::STACK);
    }
    let last = pop(&mut stack);
    assert!(stack.is_empty());
    last
}

fn pop(stack: &mut Vec<bool>) -> bool {
    stack.pop().expect("a sound table has an operand here")
}

/// A comparison row. Reading 28: `dom domby incomp` are "read as eq and neq when asked".
fn compare(table: &Decoded, row: &Row, sides: &[Context<usize>]) -> bool {
    let value = component(sides, row.component);
    let same = match row.kind {
        // "kind 3 uses u1, r1, t1": the other side is the next component.
        3 => value == component(sides, row.component + 1),
        4 => value == row.number as usize,
        _ => {
            let sets = match family_of_component(row.component) {
                0 => &table.contents.userattributes,
                1 => &table.contents.roleattributes,
                _ => &table.contents.typeattributes,
            };
            sets[row.number as usize].contains(&value)
        }
    };
    match row.operator {
        // eq, dom, domby
        0 | 2 | 3 => same,
        // neq, incomp
        _ => !same,
    }
}

/// "component (u1 u2 r1 r2 t1 t2 as 0 to 5", "u3, r3, t3 as 6, 7, 8"
fn component(sides: &[Context<usize>], component: u8) -> usize {
    match component {
        0 => sides[0].user,
        1 => sides[1].user,
        2 => sides[0].role,
        3 => sides[1].role,
        4 => sides[0].kind,
        5 => sides[1].kind,
        6 => sides[2].user,
        7 => sides[2].role,
        _ => sides[2].kind,
    }
}

/// "that of the first matching transition, else the role given"
pub fn new_role(bytes: &[u8], role: u64, kind: u64, class: u64) -> RoleAnswer {
    let Ok(table) = decode(bytes) else { return RoleAnswer::Refused(NOT_SOUND) };
    let role = declared(role, table.counts.roles());
    let kind = declared(kind, table.counts.types());
    let class = declared(class, table.counts.classes());
    let (Some(role), Some(kind), Some(class)) = (role, kind, class) else {
        return RoleAnswer::Refused(NOT_DECLARED);
    };
    for transition in &table.contents.transitions {
        let matches = transition.roles.contains(&role) && transition.types.contains(&kind);
        if matches && transition.class as usize == class {
            return RoleAnswer::Role(transition.new_role as usize);
        }
    }
    RoleAnswer::Role(role)
}

/// Reading 36: the name's bytes without the entry's head. The number of a permission is class x 32 + its place, as in
/// section 1.
pub fn name_of(bytes: &[u8], sort: u64, number: u64) -> PartAnswer {
    let Ok(table) = decode(bytes) else { return PartAnswer::Refused(NOT_SOUND) };
    let mut at = table.offsets[0];
    for entry in &table.contents.names {
        let head = 4;
        if entry.sort as u64 == sort && entry.number as u64 == number {
            return PartAnswer::Part { start: at + head, length: entry.name.len() };
        }
        at += head + entry.name.len();
    }
    PartAnswer::Refused(NOT_DECLARED)
}

/// Reading 36: the whole record. "no such body or entry is 12"; document 02, W-205: "Entry serves all later bodies too", and a
/// body that the edition lacks is 12 (reading 71).
pub fn entry(bytes: &[u8], body: u64, place: u64) -> PartAnswer {
    let Ok(table) = decode(bytes) else { return PartAnswer::Refused(NOT_SOUND) };
    if body > table.offsets.len() as u64 {
        return PartAnswer::Refused(NOT_DECLARED);
    }
    let widths = match body {
        2 => vec![NARROW; table.counts.users()],
        3 => vec![WIDE; table.counts.roles()],
        4 => vec![NARROW; table.counts.roles()],
        5 => vec![TRANSITION; table.contents.transitions.len()],
        6 => vec![CONSTRAINT; table.contents.constraints.len()],
        7 => vec![ROW; table.contents.rows.len()],
        8 => attribute_widths(&table),
        9 => vec![VALIDATION; table.contents.validations.len()],
        10 => vec![ROW; table.contents.validation_rows.len()],
        _ => return PartAnswer::Refused(NOT_DECLARED),
    };
    match declared(place, widths.len()) {
        None => PartAnswer::Refused(NOT_DECLARED),
        Some(place) => {
            let before: usize = widths[..place].iter().sum();
            PartAnswer::Part { start: table.offsets[body as usize - 1] + before, length: widths[place] }
        }
    }
}

/// "in body 8 userattributes come first, then roleattributes, then typeattributes"
fn attribute_widths(table: &Decoded) -> Vec<usize> {
    let (users, roles, types) = table.counts.attributes();
    let mut widths = vec![NARROW; users + roles];
    widths.extend(vec![WIDE; types]);
    widths
}
