//! Statements and blocks in text order, a statement "tried for 3, 4, 5, 6, 7", a block for 3, 4, 6 "before the statements in
//! it" (document 02, W-203).

use crate::fault::{line_of, Fault};
use crate::lexer::{scan, tree, Group};
use crate::limits;
use crate::lookup::{attribute_sort, full_name, thing_sort, try_at, Among, NameEntry, Try, CLASS, PERMISSION};
use crate::parser::{item, Block, Constrain, Expression, Family, Item, Name, Statement, Transition, Validatetrans};
use crate::resolve::Scope;
use std::collections::BTreeSet;

/// A statement with the place of its opening parenthesis and its line.
#[derive(Clone, Debug, PartialEq, Eq)]
pub struct Placed {
    pub place: usize,
    pub line: usize,
    pub statement: Statement,
}

#[derive(Clone, Debug, PartialEq, Eq)]
pub struct Class {
    pub name: Name,
    pub permissions: Vec<Name>,
}

/// A text without faults 1 to 7: its statements in full names, those in blocks among the others, and what they declare.
#[derive(Clone, Debug, Default)]
pub struct Policy {
    pub statements: Vec<Placed>,
    /// "Names in text order, permissions directly after their class"
    pub names: Vec<NameEntry>,
    pub classes: Vec<Class>,
    /// The full names of the blocks opened so far. Reading 41 of document 02: a family of their own; no table holds them.
    blocks: BTreeSet<Name>,
}

/// Faults 1 to 7, or the policy as read.
pub fn read(text: &[u8]) -> Result<Policy, Fault> {
    let tokens = scan(text)?;
    let mut reader = Reader { text, policy: Policy::default() };
    for group in tree(&tokens) {
        reader.read(&group, &[])?;
    }
    Ok(reader.policy)
}

/// The text, whose lines the refusals carry, and what was read of it so far.
struct Reader<'a> {
    text: &'a [u8],
    policy: Policy,
}

impl Reader<'_> {
    /// A statement, or a block and then what is in it; `blocks` are those around it, the outermost first.
    fn read(&mut self, group: &Group, blocks: &[Name]) -> Result<(), Fault> {
        let (place, line) = (group.place, line_of(self.text, group.place));
        let refused = |number| Fault { number, place, line };
        match item(group).ok_or(refused(3))? {
            Item::Statement(written) => {
                let statement = self.policy.judged(&written, blocks).map_err(refused)?;
                self.policy.take(Placed { place, line, statement });
            }
            Item::Block(block) => {
                self.policy.open(&block, blocks).map_err(refused)?;
                let inner = [blocks, &[block.name]].concat();
                for group in block.inside {
                    self.read(group, &inner)?;
                }
            }
        }
        Ok(())
    }
}

impl Placed {
    /// A fault at this statement.
    pub fn fault(&self, number: u8) -> Fault {
        Fault { number, place: self.place, line: self.line }
    }
}

impl Policy {
    pub fn things(&self, family: Family) -> Vec<&Name> {
        self.of_sort(thing_sort(family))
    }

    pub fn attributes(&self, family: Family) -> Vec<&Name> {
        self.of_sort(attribute_sort(family))
    }

    /// A name's number is its index here: "Things are numbered from 0 in text order within their sort."
    fn of_sort(&self, sort: u8) -> Vec<&Name> {
        self.names.iter().filter(|entry| entry.sort == sort).map(|entry| &entry.name).collect()
    }

    /// The one try by which every name is looked up, by its full name and among what is declared so far. Only what it finds is
    /// used; its count is not (reading 61 of document 02).
    pub fn try_name(&self, among: Among, name: &Name) -> Try {
        try_at(&self.names, among, name)
    }

    /// The number of what a try finds, if it is of that sort. Here and below names are full names.
    fn number(&self, among: Among, sort: u8, name: &Name) -> Option<usize> {
        self.try_name(among, name).found.filter(|found| found.0 == sort).map(|found| found.1 as usize)
    }

    pub fn thing(&self, family: Family, name: &Name) -> Option<usize> {
        self.number(Among::Family(family), thing_sort(family), name)
    }

    pub fn attribute(&self, family: Family, name: &Name) -> Option<usize> {
        self.number(Among::Family(family), attribute_sort(family), name)
    }

    pub fn class(&self, name: &Name) -> Option<usize> {
        self.number(Among::Classes, CLASS, name)
    }

    /// The place of a permission in its class.
    pub fn permission(&self, class: usize, name: &Name) -> Option<usize> {
        self.number(Among::Permissions(class), PERMISSION, name).map(|number| number % limits::PERMISSIONS)
    }

    pub fn transitions(&self) -> Vec<(&Placed, &Transition)> {
        let placed = self.statements.iter();
        placed
            .filter_map(|p| match &p.statement {
                Statement::Transition(transition) => Some((p, transition)),
                _ => None,
            })
            .collect()
    }

    pub fn constrains(&self) -> Vec<&Constrain> {
        let placed = self.statements.iter();
        placed
            .filter_map(|p| match &p.statement {
                Statement::Constrain(constrain) => Some(constrain),
                _ => None,
            })
            .collect()
    }

    pub fn validatetrans(&self) -> Vec<&Validatetrans> {
        let placed = self.statements.iter();
        placed
            .filter_map(|p| match &p.statement {
                Statement::Validatetrans(validatetrans) => Some(validatetrans),
                _ => None,
            })
            .collect()
    }

    /// The statement in full names, or its fault. Reading 23: within a statement the order is 4, 5, 6, 7.
    fn judged(&self, written: &Statement, blocks: &[Name]) -> Result<Statement, u8> {
        let statement = Scope { policy: self, blocks }.statement(written)?;
        if self.passes_a_maximum(&statement) {
            Err(6)
        } else if needs_too_much(&statement) {
            Err(7)
        } else {
            Ok(statement)
        }
    }

    /// Opens a block within others, or gives its fault: "4 for a block opened twice under one full name, 6 for a full name
    /// too long or a ninth level"; reading 48 of document 02: in this order.
    fn open(&mut self, block: &Block, blocks: &[Name]) -> Result<(), u8> {
        let full = full_name(blocks, &block.name);
        if self.blocks.contains(&full) {
            return Err(4);
        }
        if full.len() > limits::NAME || blocks.len() + 1 > limits::BLOCKS {
            return Err(6);
        }
        self.blocks.insert(full);
        Ok(())
    }

    /// Fault 6: "one of the other maxima passed" if this statement were taken; document 02, W-203: also "a full name too
    /// long". Reading 45 of document 02: that is for declarations, never for uses.
    fn passes_a_maximum(&self, statement: &Statement) -> bool {
        match statement {
            Statement::Thing(family, name) => {
                name.len() > limits::NAME || self.things(*family).len() + 1 > most_things(*family)
            }
            Statement::Attribute(family, name) => {
                name.len() > limits::NAME || self.attributes(*family).len() + 1 > limits::ATTRIBUTES
            }
            Statement::Class(name, permissions) => {
                name.len() > limits::NAME
                    || self.classes.len() + 1 > limits::CLASSES
                    || permissions.len() > limits::PERMISSIONS
            }
            Statement::AttributeSet(..) | Statement::Relation(..) => false,
            Statement::Transition(_) => self.transitions().len() + 1 > limits::TRANSITIONS,
            Statement::Constrain(constrain) => {
                let earlier = self.constrains();
                let rows: usize = earlier.iter().map(|c| rows_of(&c.expression)).sum();
                earlier.len() + 1 > limits::CONSTRAINTS || rows + rows_of(&constrain.expression) > limits::ROWS
            }
            // Reading 66 of document 02: counted apart from the constrains.
            Statement::Validatetrans(validatetrans) => {
                let earlier = self.validatetrans();
                let rows: usize = earlier.iter().map(|v| rows_of(&v.expression)).sum();
                earlier.len() + 1 > limits::VALIDATETRANS
                    || rows + rows_of(&validatetrans.expression) > limits::VALIDATETRANS_ROWS
            }
        }
    }

    /// Only from here on are the statement's names declared (reading 23: "earlier" means an earlier statement).
    fn take(&mut self, placed: Placed) {
        match &placed.statement {
            Statement::Thing(family, name) => self.declare(thing_sort(*family), self.things(*family).len(), name),
            Statement::Attribute(family, name) => {
                self.declare(attribute_sort(*family), self.attributes(*family).len(), name);
            }
            Statement::Class(name, permissions) => {
                let class = self.classes.len();
                self.declare(CLASS, class, name);
                for (place, permission) in permissions.iter().enumerate() {
                    self.declare(PERMISSION, class * limits::PERMISSIONS + place, permission);
                }
                self.classes.push(Class { name: name.clone(), permissions: permissions.clone() });
            }
            _ => {}
        }
        self.statements.push(placed);
    }

    fn declare(&mut self, sort: u8, number: usize, name: &Name) {
        self.names.push(NameEntry { sort, number: number as u16, name: name.clone() });
    }
}

pub fn most_things(family: Family) -> usize {
    match family {
        Family::User => limits::USERS,
        Family::Role => limits::ROLES,
        Family::Type => limits::TYPES,
    }
}

/// "one per operator and comparison"
pub fn rows_of(expression: &Expression) -> usize {
    match expression {
        Expression::Sides(..) | Expression::Named(..) => 1,
        Expression::Not(e) => 1 + rows_of(e),
        Expression::And(e, f) | Expression::Or(e, f) => 1 + rows_of(e) + rows_of(f),
    }
}

/// "a comparison 1; `not E` that of E; `and`/`or` of E and F the larger of need(E) and 1 + need(F)"
pub fn need_of(expression: &Expression) -> usize {
    match expression {
        Expression::Sides(..) | Expression::Named(..) => 1,
        Expression::Not(e) => need_of(e),
        Expression::And(e, f) | Expression::Or(e, f) => need_of(e).max(1 + need_of(f)),
    }
}

fn needs_too_much(statement: &Statement) -> bool {
    match statement {
        Statement::Constrain(constrain) => need_of(&constrain.expression) > limits::STACK,
        Statement::Validatetrans(validatetrans) => need_of(&validatetrans.expression) > limits::STACK,
        _ => false,
    }
}
