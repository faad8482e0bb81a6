//! The names of one statement, looked up among what is declared so far: the same statement in full names, or its fault 4 or
//! 5. From here on no block matters any more; what follows goes by full names alone.

use crate::lookup::{attribute_sort, full_name, thing_sort, tried_names, try_among, Among, NameEntry, PERMISSION};
use crate::parser::{Constrain, Expression, Family, Name, Set, Statement, Transition, Validatetrans};
use crate::policy::Policy;

/// Where a statement stands: behind what the policy declares so far, within these blocks, the outermost first.
pub struct Scope<'a> {
    pub policy: &'a Policy,
    pub blocks: &'a [Name],
}

impl Scope<'_> {
    /// A statement declares names or uses them, never both: 4 for the one kind, 5 for the other.
    pub fn statement(&self, written: &Statement) -> Result<Statement, u8> {
        match written {
            Statement::Thing(..) | Statement::Attribute(..) | Statement::Class(..) => self.declaration(written).ok_or(4),
            _ => self.user(written).ok_or(5),
        }
    }

    /// Nothing where it is fault 4: "name declared again in its family, or permission twice in a class". A thing and an
    /// attribute of one family clash; a class's name and its permissions do not (reading 21).
    fn declaration(&self, written: &Statement) -> Option<Statement> {
        match written {
            Statement::Thing(family, name) => Some(Statement::Thing(*family, self.new_name(Among::Family(*family), name)?)),
            Statement::Attribute(family, name) => {
                Some(Statement::Attribute(*family, self.new_name(Among::Family(*family), name)?))
            }
            // Document 02, W-203: "Permissions take no block's name."
            Statement::Class(name, permissions) if !has_repeats(permissions) => {
                Some(Statement::Class(self.new_name(Among::Classes, name)?, permissions.clone()))
            }
            _ => None,
        }
    }

    /// The full name that a declaration gives, if it is new.
    fn new_name(&self, among: Among, name: &Name) -> Option<Name> {
        let full = full_name(self.blocks, name);
        self.policy.try_name(among, &full).found.is_none().then_some(full)
    }

    /// Nothing where it is fault 5: "name not declared before, or of the wrong sort" (reading 22).
    fn user(&self, written: &Statement) -> Option<Statement> {
        match written {
            Statement::AttributeSet(family, attribute, set) => {
                let attribute = self.of_sort(*family, attribute_sort(*family), attribute)?;
                Some(Statement::AttributeSet(*family, attribute, self.set(*family, set)?))
            }
            Statement::Relation(relation, first, second) => {
                let (left, right) = relation.families();
                Some(Statement::Relation(*relation, self.either(left, first)?, self.either(right, second)?))
            }
            // "the first two may be attributes, the new role may not"
            Statement::Transition(t) => Some(Statement::Transition(Transition {
                role: self.either(Family::Role, &t.role)?,
                kind: self.either(Family::Type, &t.kind)?,
                class: self.class(&t.class)?,
                new_role: self.of_sort(Family::Role, thing_sort(Family::Role), &t.new_role)?,
            })),
            Statement::Constrain(constrain) => Some(Statement::Constrain(self.constrain(constrain)?)),
            // Reading 65 of document 02: any declared class, found as any use, and no permission.
            Statement::Validatetrans(v) => Some(Statement::Validatetrans(Validatetrans {
                class: self.class(&v.class)?,
                expression: self.expression(&v.expression)?,
            })),
            _ => None,
        }
    }

    /// The full name of the first try that hits, and the sort found there: "the first hit of the family decides".
    fn first_hit(&self, among: Among, written: &Name) -> Option<(Name, u8)> {
        tried_names(self.blocks, written).into_iter().find_map(|full| {
            let (sort, _) = self.policy.try_name(among, &full).found?;
            Some((full, sort))
        })
    }

    /// A thing or an attribute of the family.
    fn either(&self, family: Family, written: &Name) -> Option<Name> {
        self.first_hit(Among::Family(family), written).map(|(full, _)| full)
    }

    /// Reading 44 of document 02: a first hit of the wrong sort decides too, and nothing is tried further out.
    fn of_sort(&self, family: Family, wanted: u8, written: &Name) -> Option<Name> {
        self.first_hit(Among::Family(family), written).filter(|(_, sort)| *sort == wanted).map(|(full, _)| full)
    }

    fn class(&self, written: &Name) -> Option<Name> {
        self.first_hit(Among::Classes, written).map(|(full, _)| full)
    }

    fn set(&self, family: Family, set: &Set) -> Option<Set> {
        let inner = |x: &Set| self.set(family, x).map(Box::new);
        match set {
            Set::Named(name) => Some(Set::Named(self.either(family, name)?)),
            Set::Union(operands) => {
                let operands: Option<Vec<Set>> = operands.iter().map(|x| self.set(family, x)).collect();
                Some(Set::Union(operands?))
            }
            Set::All => Some(Set::All),
            Set::Not(x) => Some(Set::Not(inner(x)?)),
            Set::And(x, y) => Some(Set::And(inner(x)?, inner(y)?)),
            Set::Or(x, y) => Some(Set::Or(inner(x)?, inner(y)?)),
            Set::Xor(x, y) => Some(Set::Xor(inner(x)?, inner(y)?)),
        }
    }

    /// "each P a permission of C"; reading 46 of document 02: of the class found, by its one part, never by blocks.
    fn constrain(&self, written: &Constrain) -> Option<Constrain> {
        let class = self.class(&written.class)?;
        let number = self.policy.class(&class)?;
        if written.permissions.iter().any(|permission| self.policy.permission(number, permission).is_none()) {
            return None;
        }
        let expression = self.expression(&written.expression)?;
        Some(Constrain { class, permissions: written.permissions.clone(), expression })
    }

    fn expression(&self, expression: &Expression) -> Option<Expression> {
        let inner = |e: &Expression| self.expression(e).map(Box::new);
        match expression {
            Expression::Sides(operator, family) => Some(Expression::Sides(*operator, *family)),
            Expression::Named(operator, family, side, name) => {
                Some(Expression::Named(*operator, *family, *side, self.either(*family, name)?))
            }
            Expression::Not(e) => Some(Expression::Not(inner(e)?)),
            Expression::And(e, f) => Some(Expression::And(inner(e)?, inner(f)?)),
            Expression::Or(e, f) => Some(Expression::Or(inner(e)?, inner(f)?)),
        }
    }
}

/// Reading 60 of document 02 leaves free how a class's row is tested. Here each permission is tried among those before it;
/// there may be more than 32 of them, since 4 comes before 6.
fn has_repeats(permissions: &[Name]) -> bool {
    let numbered = permissions.iter().enumerate();
    let entries: Vec<NameEntry> = numbered
        .map(|(place, name)| NameEntry { sort: PERMISSION, number: place as u16, name: name.clone() })
        .collect();
    permissions.iter().enumerate().any(|(place, name)| try_among(entries[..place].iter(), name).found.is_some())
}
