//! The forms of the statements. `form` gives a statement as read, or nothing: then it is fault 3.
//! No name is looked up here (reading 11: 3 is tried for the whole statement before any name is looked up).

use crate::lexer::{has_dot, is_reserved, Group, Part};

/// A name as written; in a policy that was read, and in a table, a full name.
pub type Name = Vec<u8>;

/// The three families that have attributes. Classes are the fourth and have none.
#[derive(Clone, Copy, Debug, PartialEq, Eq, PartialOrd, Ord)]
pub enum Family {
    User,
    Role,
    Type,
}

/// "users, then roles, then types"
pub const FAMILIES: [Family; 3] = [Family::User, Family::Role, Family::Type];

/// S of a set statement, and its operands.
#[derive(Clone, Debug, PartialEq, Eq)]
pub enum Set {
    Named(Name),
    Union(Vec<Set>),
    All,
    Not(Box<Set>),
    And(Box<Set>, Box<Set>),
    Or(Box<Set>, Box<Set>),
    Xor(Box<Set>, Box<Set>),
}

#[derive(Clone, Copy, Debug, PartialEq, Eq)]
pub enum Operator {
    Eq,
    Neq,
    Dom,
    Domby,
    Incomp,
}

impl Operator {
    fn of(word: &[u8]) -> Option<Operator> {
        match word {
            b"eq" => Some(Operator::Eq),
            b"neq" => Some(Operator::Neq),
            b"dom" => Some(Operator::Dom),
            b"domby" => Some(Operator::Domby),
            b"incomp" => Some(Operator::Incomp),
            _ => None,
        }
    }

    /// "op: `eq neq`; rop: also `dom domby incomp`."
    fn is_op(self) -> bool {
        matches!(self, Operator::Eq | Operator::Neq)
    }
}

/// "Side 1 is the source, 2 the target." Document 02, W-205: relabelling "weighs the old context (side 1), the new one (2) and
/// the clerk's process (3)".
#[derive(Clone, Copy, Debug, PartialEq, Eq)]
pub enum Side {
    One,
    Two,
    Three,
}

/// E of a constrain or validatetrans statement.
#[derive(Clone, Debug, PartialEq, Eq)]
pub enum Expression {
    Sides(Operator, Family),
    Named(Operator, Family, Side, Name),
    And(Box<Expression>, Box<Expression>),
    Or(Box<Expression>, Box<Expression>),
    Not(Box<Expression>),
}

/// The three statements that give every member of one set every member of another.
#[derive(Clone, Copy, Debug, PartialEq, Eq)]
pub enum Relation {
    UserRole,
    RoleType,
    RoleAllow,
}

impl Relation {
    pub fn families(self) -> (Family, Family) {
        match self {
            Relation::UserRole => (Family::User, Family::Role),
            Relation::RoleType => (Family::Role, Family::Type),
            Relation::RoleAllow => (Family::Role, Family::Role),
        }
    }
}

#[derive(Clone, Debug, PartialEq, Eq)]
pub struct Transition {
    pub role: Name,
    pub kind: Name,
    pub class: Name,
    pub new_role: Name,
}

#[derive(Clone, Debug, PartialEq, Eq)]
pub struct Constrain {
    pub class: Name,
    pub permissions: Vec<Name>,
    pub expression: Expression,
}

/// Document 02, W-205.
#[derive(Clone, Debug, PartialEq, Eq)]
pub struct Validatetrans {
    pub class: Name,
    pub expression: Expression,
}

#[derive(Clone, Debug, PartialEq, Eq)]
pub enum Statement {
    Thing(Family, Name),
    Attribute(Family, Name),
    Class(Name, Vec<Name>),
    AttributeSet(Family, Name, Set),
    Relation(Relation, Name, Name),
    Transition(Transition),
    Constrain(Constrain),
    Validatetrans(Validatetrans),
}

/// A block's own name, and the groups in it.
#[derive(Clone, Debug, PartialEq, Eq)]
pub struct Block<'a> {
    pub name: Name,
    pub inside: Vec<&'a Group>,
}

/// What a group can be: a statement, or a block of statements and blocks.
#[derive(Clone, Debug, PartialEq, Eq)]
pub enum Item<'a> {
    Statement(Statement),
    Block(Block<'a>),
}

/// The item that a group is, or nothing: then it is fault 3. Reading 35 of document 02: of a block the header is tried whole,
/// and nothing in it.
pub fn item(group: &Group) -> Option<Item<'_>> {
    match group.parts.split_first() {
        Some((Part::Name(keyword), rest)) if keyword == b"block" => Some(Item::Block(block(rest)?)),
        _ => Some(Item::Statement(form(group)?)),
    }
}

/// Document 02, W-203: a block "is of its form if only parts in parentheses, or nothing, follow its name".
fn block(parts: &[Part]) -> Option<Block<'_>> {
    let (first, rest) = parts.split_first()?;
    let inside = rest.iter().map(inner_group).collect::<Option<Vec<&Group>>>()?;
    Some(Block { name: undotted(first)?, inside })
}

fn inner_group(part: &Part) -> Option<&Group> {
    match part {
        Part::Name(_) => None,
        Part::Group(group) => Some(group),
    }
}

/// The statement that a group is, or nothing where it is "not of a form above". Keywords, operators and sides are words
/// without a dot, so a dotted word is never one of them (reading 39 of document 02).
pub fn form(statement: &Group) -> Option<Statement> {
    let (first, rest) = statement.parts.split_first()?;
    match word(first)? {
        b"user" => Some(Statement::Thing(Family::User, only_name(rest)?)),
        b"role" => Some(Statement::Thing(Family::Role, only_name(rest)?)),
        b"type" => Some(Statement::Thing(Family::Type, only_name(rest)?)),
        b"userattribute" => Some(Statement::Attribute(Family::User, only_name(rest)?)),
        b"roleattribute" => Some(Statement::Attribute(Family::Role, only_name(rest)?)),
        b"typeattribute" => Some(Statement::Attribute(Family::Type, only_name(rest)?)),
        b"class" => class(rest),
        b"userattributeset" => attribute_set(Family::User, rest),
        b"roleattributeset" => attribute_set(Family::Role, rest),
        b"typeattributeset" => attribute_set(Family::Type, rest),
        b"userrole" => relation(Relation::UserRole, rest),
        b"roletype" => relation(Relation::RoleType, rest),
        b"roleallow" => relation(Relation::RoleAllow, rest),
        b"roletransition" => transition(rest),
        b"constrain" => constrain(rest),
        b"validatetrans" => validatetrans(rest),
        // Reading 20: statements left out and unknown keywords.
        _ => None,
    }
}

fn word(part: &Part) -> Option<&[u8]> {
    match part {
        Part::Name(name) => Some(name),
        Part::Group(_) => None,
    }
}

fn inside(part: &Part) -> Option<&[Part]> {
    inner_group(part).map(|group| group.parts.as_slice())
}

/// A place where a name is asked for: "A reserved word where a name is asked for, a permission's included, is fault 3."
/// Reading 38 of document 02: a name with a reserved part too.
fn name(part: &Part) -> Option<Name> {
    let bytes = word(part)?;
    if is_reserved(bytes) {
        return None;
    }
    Some(bytes.to_vec())
}

/// Document 02, W-203: "3 for a dot in a declared, block or permission name"; reading 37: a leading one too.
fn undotted(part: &Part) -> Option<Name> {
    name(part).filter(|name| !has_dot(name))
}

/// The one name that a statement declares.
fn only_name(parts: &[Part]) -> Option<Name> {
    match parts {
        [only] => undotted(only),
        _ => None,
    }
}

/// `(P ...)` "with at least one permission".
fn permissions(part: &Part) -> Option<Vec<Name>> {
    let parts = inside(part)?;
    if parts.is_empty() {
        return None;
    }
    parts.iter().map(undotted).collect()
}

fn class(parts: &[Part]) -> Option<Statement> {
    match parts {
        [class, list] => Some(Statement::Class(undotted(class)?, permissions(list)?)),
        _ => None,
    }
}

fn attribute_set(family: Family, parts: &[Part]) -> Option<Statement> {
    match parts {
        [attribute, s] => Some(Statement::AttributeSet(family, name(attribute)?, set(inside(s)?)?)),
        _ => None,
    }
}

/// S, given what stands inside its parentheses. Reading 16: `all not and or xor` are operators only as the first item
/// and with exact counts; anywhere else they are reserved words in a name's place.
fn set(parts: &[Part]) -> Option<Set> {
    let (first, rest) = parts.split_first()?;
    match (word(first), rest) {
        (Some(b"all"), []) => Some(Set::All),
        (Some(b"not"), [x]) => Some(Set::Not(operand(x)?)),
        (Some(b"and"), [x, y]) => Some(Set::And(operand(x)?, operand(y)?)),
        (Some(b"or"), [x, y]) => Some(Set::Or(operand(x)?, operand(y)?)),
        (Some(b"xor"), [x, y]) => Some(Set::Xor(operand(x)?, operand(y)?)),
        _ => {
            let mut union = Vec::new();
            for part in parts {
                union.push(*operand(part)?);
            }
            Some(Set::Union(union))
        }
    }
}

/// "An operand is a name of the family or again such an S."
fn operand(part: &Part) -> Option<Box<Set>> {
    match part {
        Part::Name(_) => Some(Box::new(Set::Named(name(part)?))),
        Part::Group(group) => Some(Box::new(set(&group.parts)?)),
    }
}

fn relation(which: Relation, parts: &[Part]) -> Option<Statement> {
    match parts {
        [first, second] => Some(Statement::Relation(which, name(first)?, name(second)?)),
        _ => None,
    }
}

fn transition(parts: &[Part]) -> Option<Statement> {
    match parts {
        [role, kind, class, new_role] => Some(Statement::Transition(Transition {
            role: name(role)?,
            kind: name(kind)?,
            class: name(class)?,
            new_role: name(new_role)?,
        })),
        _ => None,
    }
}

/// `(constrain (C (P ...)) E)`; reading 19: `(C (P ...))` is exactly two items.
fn constrain(parts: &[Part]) -> Option<Statement> {
    let [head, e] = parts else { return None };
    let [class, list] = inside(head)? else { return None };
    Some(Statement::Constrain(Constrain {
        class: name(class)?,
        permissions: permissions(list)?,
        expression: expression(e, &[Side::One, Side::Two])?,
    }))
}

/// `(validatetrans C E)`: "E as in constrain, x also u3, r3 or t3". Reading 63 of document 02: C is a name, and one E.
fn validatetrans(parts: &[Part]) -> Option<Statement> {
    let [class, e] = parts else { return None };
    let expression = expression(e, &[Side::One, Side::Two, Side::Three])?;
    Some(Statement::Validatetrans(Validatetrans { class: name(class)?, expression }))
}

/// E over the sides that its statement has; reading 18: two operands for `and` and `or`, one for `not`, each parenthesised.
fn expression(part: &Part, sides: &[Side]) -> Option<Expression> {
    let inner = |part| expression(part, sides).map(Box::new);
    let (first, rest) = inside(part)?.split_first()?;
    match (word(first)?, rest) {
        (b"and", [e, f]) => Some(Expression::And(inner(e)?, inner(f)?)),
        (b"or", [e, f]) => Some(Expression::Or(inner(e)?, inner(f)?)),
        (b"not", [e]) => Some(Expression::Not(inner(e)?)),
        (operator, [left, right]) => comparison(Operator::of(operator)?, word(left)?, word(right)?, sides),
        _ => None,
    }
}

/// `(op u1 u2)`, `(op t1 t2)`, `(rop r1 r2)`, `(op x name)`. Document 02, W-205: "no pair with side 3" (reading 64: on either
/// side of it).
fn comparison(operator: Operator, left: &[u8], right: &[u8], sides: &[Side]) -> Option<Expression> {
    match (left, right) {
        (b"u1", b"u2") if operator.is_op() => return Some(Expression::Sides(operator, Family::User)),
        (b"t1", b"t2") if operator.is_op() => return Some(Expression::Sides(operator, Family::Type)),
        (b"r1", b"r2") => return Some(Expression::Sides(operator, Family::Role)),
        _ => {}
    }
    // Readings 14 and 15: anything reserved on the right is 3, as is dom, domby or incomp with a name.
    if !operator.is_op() || is_reserved(right) {
        return None;
    }
    let (family, side) = side_of(left)?;
    if !sides.contains(&side) {
        return None;
    }
    Some(Expression::Named(operator, family, side, right.to_vec()))
}

/// "x one of u1 u2 r1 r2 t1 t2", "also u3, r3 or t3"
fn side_of(word: &[u8]) -> Option<(Family, Side)> {
    match word {
        b"u1" => Some((Family::User, Side::One)),
        b"u2" => Some((Family::User, Side::Two)),
        b"u3" => Some((Family::User, Side::Three)),
        b"r1" => Some((Family::Role, Side::One)),
        b"r2" => Some((Family::Role, Side::Two)),
        b"r3" => Some((Family::Role, Side::Three)),
        b"t1" => Some((Family::Type, Side::One)),
        b"t2" => Some((Family::Type, Side::Two)),
        b"t3" => Some((Family::Type, Side::Three)),
        _ => None,
    }
}
