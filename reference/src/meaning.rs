//! What the statements mean: final sets, faults 8 and 9, and the answers to a change and to a relabel question read from the
//! statements alone. There is no table here, no row and no stack.

use crate::fault::Fault;
use crate::parser::{Expression, Family, Name, Operator, Relation, Set, Side, Statement, FAMILIES};
use crate::policy::{Placed, Policy};
use crate::questions::{Change, ChangeAnswer, Context, Relabel};
use std::collections::{BTreeMap, BTreeSet};

pub type Numbers = BTreeSet<usize>;

/// An accepted policy with the final set of every attribute.
#[derive(Debug)]
pub struct Meaning {
    pub policy: Policy,
    attributes: BTreeMap<(Family, usize), Numbers>,
}

/// Faults 8 and 9 of a policy that passed 3 to 7, or its meaning.
pub fn meaning(policy: Policy) -> Result<Meaning, Fault> {
    if let Some(declaration) = first_cycle(&policy) {
        return Err(declaration.fault(8));
    }
    let mut attributes = BTreeMap::new();
    for family in FAMILIES {
        for number in 0..policy.attributes(family).len() {
            final_set(&policy, family, number, &mut attributes);
        }
    }
    let meaning = Meaning { policy, attributes };
    match meaning.first_clash().map(|later| later.fault(9)) {
        Some(fault) => Err(fault),
        None => Ok(meaning),
    }
}

/// Fault 8: "opening parenthesis of the declaration of the lowest-numbered attribute on a cycle; users, then roles,
/// then types". Reading 25: on a cycle means that it reaches itself.
fn first_cycle(policy: &Policy) -> Option<&Placed> {
    for family in FAMILIES {
        for number in 0..policy.attributes(family).len() {
            if reached_from(policy, family, number).contains(&number) {
                return Some(declaration(policy, family, number));
            }
        }
    }
    None
}

/// The attributes that an attribute's sets mention, directly or through others.
fn reached_from(policy: &Policy, family: Family, start: usize) -> Numbers {
    let mut reached = Numbers::new();
    let mut open = vec![start];
    while let Some(number) = open.pop() {
        for set in sets_of(policy, family, number) {
            for next in mentioned(policy, family, set) {
                if reached.insert(next) {
                    open.push(next);
                }
            }
        }
    }
    reached
}

/// The S of every set statement of one attribute: "Several statements for one attribute add up."
fn sets_of(policy: &Policy, family: Family, attribute: usize) -> Vec<&Set> {
    let name = policy.attributes(family)[attribute];
    let placed = policy.statements.iter();
    placed
        .filter_map(|p| match &p.statement {
            Statement::AttributeSet(f, a, set) if *f == family && a == name => Some(set),
            _ => None,
        })
        .collect()
}

/// Reading 25: mention is by text; `(and x (not x))` mentions x.
fn mentioned(policy: &Policy, family: Family, set: &Set) -> Numbers {
    match set {
        Set::Named(name) => policy.attribute(family, name).into_iter().collect(),
        Set::Union(operands) => operands.iter().flat_map(|x| mentioned(policy, family, x)).collect(),
        Set::All => Numbers::new(),
        Set::Not(x) => mentioned(policy, family, x),
        Set::And(x, y) | Set::Or(x, y) | Set::Xor(x, y) => {
            &mentioned(policy, family, x) | &mentioned(policy, family, y)
        }
    }
}

/// Reading 24 of document 02: 8 has the place and the line of the attribute's declaration.
fn declaration(policy: &Policy, family: Family, number: usize) -> &Placed {
    let wanted = Statement::Attribute(family, policy.attributes(family)[number].clone());
    let found = policy.statements.iter().find(|p| p.statement == wanted);
    found.expect("every attribute has a declaration")
}

/// "an attribute for the union of the S in its statements, each by its form, and without any for nothing". What was
/// worked out already is kept, since attributes may mention one another many times over.
fn final_set(
    policy: &Policy,
    family: Family,
    attribute: usize,
    known: &mut BTreeMap<(Family, usize), Numbers>,
) -> Numbers {
    if let Some(set) = known.get(&(family, attribute)) {
        return set.clone();
    }
    let mut union = Numbers::new();
    for set in sets_of(policy, family, attribute) {
        union.extend(value(policy, family, set, known));
    }
    known.insert((family, attribute), union.clone());
    union
}

/// The members of an S by its form.
fn value(policy: &Policy, family: Family, set: &Set, known: &mut BTreeMap<(Family, usize), Numbers>) -> Numbers {
    // "`(all)` is every user, role or type of the whole text; `not` is taken within it."
    let whole: Numbers = (0..policy.things(family).len()).collect();
    let mut of = |x: &Set| value(policy, family, x, known);
    match set {
        Set::All => whole,
        Set::Not(x) => &whole - &of(x),
        Set::And(x, y) => &of(x) & &of(y),
        Set::Or(x, y) => &of(x) | &of(y),
        Set::Xor(x, y) => &of(x) ^ &of(y),
        Set::Union(operands) => operands.iter().flat_map(of).collect(),
        Set::Named(name) => match policy.thing(family, name) {
            Some(thing) => Numbers::from([thing]),
            None => final_set(policy, family, attribute_number(policy, family, name), known),
        },
    }
}

fn attribute_number(policy: &Policy, family: Family, name: &Name) -> usize {
    policy.attribute(family, name).expect("fault 5 was tried")
}

impl Meaning {
    /// The final set of an attribute.
    pub fn attribute(&self, family: Family, number: usize) -> &Numbers {
        &self.attributes[&(family, number)]
    }

    /// "A thing stands for itself alone", an attribute for its final set "whatever line uses it".
    pub fn stands_for(&self, family: Family, name: &Name) -> Numbers {
        match self.policy.thing(family, name) {
            Some(thing) => Numbers::from([thing]),
            None => self.attribute(family, attribute_number(&self.policy, family, name)).clone(),
        }
    }

    /// Fault 9 by final sets (reading 26): the first statement that clashes with an earlier one.
    fn first_clash(&self) -> Option<&Placed> {
        let transitions = self.policy.transitions();
        for (later, (placed, second)) in transitions.iter().enumerate() {
            for (_, first) in &transitions[..later] {
                let roles = &self.stands_for(Family::Role, &first.role) & &self.stands_for(Family::Role, &second.role);
                let types = &self.stands_for(Family::Type, &first.kind) & &self.stands_for(Family::Type, &second.kind);
                let share = !roles.is_empty() && !types.is_empty() && first.class == second.class;
                if share && first.new_role != second.new_role {
                    return Some(placed);
                }
            }
        }
        None
    }

    /// What all lines of one relation together give to a thing: "`userrole` gives every user of its first set every
    /// role of its second; `roletype` gives roles types and `roleallow` roles to become likewise."
    pub fn given(&self, relation: Relation, thing: usize) -> Numbers {
        let (left, right) = relation.families();
        let mut gives = Numbers::new();
        for placed in &self.policy.statements {
            if let Statement::Relation(which, first, second) = &placed.statement {
                if *which == relation && self.stands_for(left, first).contains(&thing) {
                    gives.extend(self.stands_for(right, second));
                }
            }
        }
        gives
    }

    /// "the role is among the user's, the type among the role's"; document 02, W-201: "a context whose role is named
    /// `object_r` is valid with any declared user and any declared type".
    fn is_valid(&self, context: &Context<usize>) -> bool {
        if self.policy.things(Family::Role)[context.role] == b"object_r" {
            return true;
        }
        self.given(Relation::UserRole, context.user).contains(&context.role)
            && self.given(Relation::RoleType, context.role).contains(&context.kind)
    }

    /// The answer the statements give to a change question in numbers they declare.
    pub fn change(&self, question: &Change<usize>) -> ChangeAnswer {
        let denied = |number| ChangeAnswer::Denied { number, constraint: 0, consulted: 0 };
        if !self.is_valid(&question.source) {
            return denied(1);
        }
        if !self.is_valid(&question.target) {
            return denied(2);
        }
        if self.asks_role_allow(question) && !self.may_become(question.source.role, question.target.role) {
            return denied(3);
        }
        let mut consulted = 0;
        for (number, constrain) in self.policy.constrains().iter().enumerate() {
            // "A constrain names what is asked if its C is the class and the permission is among its P"
            let class = &self.policy.classes[question.class];
            let permission = &class.permissions[question.permission];
            if constrain.class == class.name && constrain.permissions.contains(permission) {
                consulted += 1;
                if !self.is_true(&constrain.expression, &[question.source, question.target]) {
                    return ChangeAnswer::Denied { number: 4, constraint: number, consulted };
                }
            }
        }
        ChangeAnswer::Granted { consulted }
    }

    /// The answer the statements give to a relabel question in numbers they declare. Document 02, W-205: "denials 1 old, 2 new,
    /// 5 process not valid, 6 with the first failing statement's number, else granted; consulted as for a change". Reading
    /// 72 of document 02: no role allow is asked. Reading 73: the number is the place among all validatetrans.
    pub fn relabel(&self, question: &Relabel<usize>) -> ChangeAnswer {
        let sides = [question.old, question.new, question.process];
        for (denial, context) in [1, 2, 5].into_iter().zip(&sides) {
            if !self.is_valid(context) {
                return ChangeAnswer::Denied { number: denial, constraint: 0, consulted: 0 };
            }
        }
        let class = &self.policy.classes[question.class].name;
        let mut consulted = 0;
        for (number, validatetrans) in self.policy.validatetrans().into_iter().enumerate() {
            if validatetrans.class == *class {
                consulted += 1;
                if !self.is_true(&validatetrans.expression, &sides) {
                    return ChangeAnswer::Denied { number: 6, constraint: number, consulted };
                }
            }
        }
        ChangeAnswer::Granted { consulted }
    }

    /// "class `process`, permission `transition` or `dyntransition`, roles differ"; by exact name (reading 38), which is the
    /// full name: document 02, W-203, "Only the full names `process` and `object_r` are treated apart."
    fn asks_role_allow(&self, question: &Change<usize>) -> bool {
        let class = &self.policy.classes[question.class];
        let permission = class.permissions[question.permission].as_slice();
        class.name == b"process"
            && (permission == b"transition" || permission == b"dyntransition")
            && question.source.role != question.target.role
    }

    fn may_become(&self, from: usize, to: usize) -> bool {
        self.given(Relation::RoleAllow, from).contains(&to)
    }

    /// "each E by its own form"; `and or not` as in logic. The contexts are those of side 1, 2 and, for a validatetrans, 3.
    fn is_true(&self, expression: &Expression, sides: &[Context<usize>]) -> bool {
        match expression {
            Expression::And(e, f) => self.is_true(e, sides) && self.is_true(f, sides),
            Expression::Or(e, f) => self.is_true(e, sides) || self.is_true(f, sides),
            Expression::Not(e) => !self.is_true(e, sides),
            Expression::Sides(operator, family) => {
                let same = sides[0].part(*family) == sides[1].part(*family);
                holds(*operator, same)
            }
            Expression::Named(operator, family, side, name) => {
                let context = match side {
                    Side::One => &sides[0],
                    Side::Two => &sides[1],
                    Side::Three => &sides[2],
                };
                holds(*operator, self.stands_for(*family, name).contains(&context.part(*family)))
            }
        }
    }
}

/// "`dom` and `domby` read as `eq`, `incomp` as `neq`"
fn holds(operator: Operator, same: bool) -> bool {
    match operator {
        Operator::Eq | Operator::Dom | Operator::Domby => same,
        Operator::Neq | Operator::Incomp => !same,
    }
}
