//! Random policies of every statement kind. With the flags of `Shape` off, each of them is free of faults.

use crate::parser::{Family, FAMILIES};
use crate::random::Random;
use std::collections::BTreeMap;

#[derive(Clone, Copy, Debug)]
pub struct Shape {
    /// Statements after the first declarations.
    pub steps: usize,
    /// Attributes may mention any attribute: fault 8 becomes likely.
    pub cycles: bool,
    /// Transitions take any new role: fault 9 becomes likely.
    pub clashes: bool,
    /// Constraints may need a stack above 5: fault 7 becomes likely.
    pub deep: bool,
    /// Classes have around 32 permissions: fault 6 becomes likely.
    pub crowded: bool,
    /// Few roles, so that the table stays small.
    pub small: bool,
    /// Names are often `object_r`, be they of a role or of something else.
    pub objects: bool,
    /// Document 02, W-203: blocks, nested to 8, and uses written in every way that finds what is meant.
    pub blocks: bool,
    /// Document 02, W-205: validatetrans statements, with sides 1 to 3.
    pub relabels: bool,
}

impl Shape {
    pub fn good(steps: usize) -> Shape {
        Shape {
            steps,
            cycles: false,
            clashes: false,
            deep: false,
            crowded: false,
            small: false,
            objects: false,
            blocks: false,
            relabels: false,
        }
    }

    pub fn small(steps: usize) -> Shape {
        Shape { small: true, ..Shape::good(steps) }
    }
}

/// An attribute with its rank: its sets mention only attributes of lower rank. The rank has nothing to do with the
/// number or the line, so an attribute is used before and after its sets, and before those it mentions are filled.
#[derive(Clone)]
struct Attribute {
    name: String,
    rank: u64,
}

/// What is declared is kept by its full name.
struct Writer<'a> {
    random: &'a mut Random,
    shape: Shape,
    /// Names in them are in the form of `both`.
    statements: Vec<String>,
    things: BTreeMap<Family, Vec<String>>,
    attributes: BTreeMap<Family, Vec<Attribute>>,
    classes: Vec<(String, Vec<String>)>,
    new_roles: BTreeMap<String, String>,
    /// The names of the blocks that are open, the outermost first, and the full names of all that ever were.
    open: Vec<String>,
    opened: Vec<String>,
    /// How many sides the statement that is written has.
    sides: usize,
}

/// The statements of a random policy. A block is two of them: its header without the closing parenthesis, and that.
pub fn policy(random: &mut Random, shape: Shape) -> Vec<String> {
    raw_policy(random, shape).iter().map(|statement| as_written(statement)).collect()
}

/// A random policy in blocks, and the same one without: each full name is declared and used as one name, its dots written
/// as `-`. So the second says what each name of the first stands for.
pub fn policy_twice(random: &mut Random, shape: Shape) -> (Vec<String>, Vec<String>) {
    let raw = raw_policy(random, Shape { blocks: true, ..shape });
    let is_statement = |statement: &&String| statement.ends_with(')') && statement.len() > 1;
    let flat = raw.iter().filter(is_statement).map(|statement| as_meant(statement)).collect();
    (raw.iter().map(|statement| as_written(statement)).collect(), flat)
}

fn raw_policy(random: &mut Random, shape: Shape) -> Vec<String> {
    let mut writer = Writer {
        random,
        shape,
        statements: Vec::new(),
        things: BTreeMap::new(),
        attributes: BTreeMap::new(),
        classes: Vec::new(),
        new_roles: BTreeMap::new(),
        open: Vec::new(),
        opened: Vec::new(),
        sides: 2,
    };
    for family in FAMILIES {
        writer.declare_thing(family);
        if writer.random.chance(60) {
            writer.declare_attribute(family);
        }
    }
    writer.declare_class();
    if shape.clashes {
        // With one role alone no new roles differ.
        writer.declare_thing(Family::Role);
    }
    for _ in 0..shape.steps {
        writer.step();
    }
    while !writer.open.is_empty() {
        writer.close_block();
    }
    writer.statements
}

/// A name in a raw statement: as it is written, and in full.
fn both(written: &str, full: &str) -> String {
    format!("<{written}={full}>")
}

fn as_written(statement: &str) -> String {
    with_names(statement, |written, _| written.to_string())
}

fn as_meant(statement: &str) -> String {
    with_names(statement, |_, full| full.replace('.', "-"))
}

/// A raw statement with each of its names replaced.
fn with_names(statement: &str, name: fn(&str, &str) -> String) -> String {
    let mut pieces = statement.split('<');
    let mut text = pieces.next().unwrap_or_default().to_string();
    for piece in pieces {
        let (both, behind) = piece.split_once('>').expect("a name ends");
        let (written, full) = both.split_once('=').expect("a name is written and meant");
        text.push_str(&name(written, full));
        text.push_str(behind);
    }
    text
}

fn word(family: Family) -> &'static str {
    match family {
        Family::User => "user",
        Family::Role => "role",
        Family::Type => "type",
    }
}

fn letter(family: Family) -> &'static str {
    match family {
        Family::User => "u",
        Family::Role => "r",
        Family::Type => "t",
    }
}

/// Names that a careless reader may take for something else.
const ODD_NAMES: [&str; 25] = [
    "role", "user", "type", "class", "constrain", "roleattributeset", "u", "r", "t", "l", "h", "u0", "u4", "u10", "l3",
    "h3", "All", "U1", "_", "__-", "and-", "not_", "eq1", "process", "validatetrans",
];

impl Writer<'_> {
    fn name(&mut self, taken: &[String]) -> String {
        loop {
            let name = match self.random.below(12) {
                0..=3 if self.shape.objects => "object_r".to_string(),
                // Few names, so that inner ones often hide outer ones.
                0..=6 if self.shape.blocks => format!("{}0", self.random.pick(&["a", "b", "c"])),
                0 => self.random.pick(&ODD_NAMES).to_string(),
                1 if !self.shape.small => self.random.pick(&["a", "Z", "_"]).repeat(self.random.between(2, 64)),
                _ => format!("{}{}", self.random.pick(&["a", "b", "c", "d", "e", "f"]), self.random.below(10)),
            };
            if !taken.contains(&name) {
                return name;
            }
        }
    }

    fn family_names(&self, family: Family) -> Vec<String> {
        let mut names = self.things.get(&family).cloned().unwrap_or_default();
        let attributes = self.attributes.get(&family).cloned().unwrap_or_default();
        names.extend(attributes.into_iter().map(|a| a.name));
        names
    }

    /// The full name under the outermost so many of the open blocks.
    fn full_name(&self, depth: usize, name: &str) -> String {
        self.open[..depth].iter().map(|block| format!("{block}.")).collect::<String>() + name
    }

    /// A name that is new under the open blocks, in both forms, and its full name.
    fn new_name(&mut self, taken: &[String]) -> (String, String) {
        loop {
            let name = self.name(&[]);
            let full = self.full_name(self.open.len(), &name);
            if !taken.contains(&full) && full.len() <= 64 {
                return (both(&name, &full), full);
            }
        }
    }

    /// A use of a full name, in both forms. It is written whole behind a leading dot, or without the names of some of the
    /// open blocks where nothing of the family comes first on the way outward.
    fn used(&mut self, family: &[String], full: &str) -> String {
        let mut ways = vec![format!(".{full}")];
        for depth in 0..=self.open.len() {
            let Some(rest) = full.strip_prefix(&self.full_name(depth, "")) else { break };
            let mut tries = (0..=self.open.len()).rev().map(|depth| self.full_name(depth, rest));
            if tries.find(|name| family.contains(name)).is_some_and(|hit| hit == full) {
                ways.extend([rest.to_string(), rest.to_string()]);
            }
        }
        let written = if self.shape.blocks { self.random.pick(&ways).clone() } else { full.to_string() };
        both(&written, full)
    }

    /// A use of any name of the family.
    fn some_name(&mut self, family: Family) -> String {
        let names = self.family_names(family);
        let full = self.random.pick(&names).clone();
        self.used(&names, &full)
    }

    /// A use of the first thing of the family.
    fn first_name(&mut self, family: Family) -> String {
        let full = self.things[&family][0].clone();
        self.used(&self.family_names(family), &full)
    }

    fn used_class(&mut self, full: &str) -> String {
        let names: Vec<String> = self.classes.iter().map(|(name, _)| name.clone()).collect();
        self.used(&names, full)
    }

    /// A block within those that are open, unless it would be refused.
    fn open_block(&mut self) {
        let name = match self.random.below(8) {
            0 => self.random.pick(&ODD_NAMES).to_string(),
            1 => self.random.pick(&["block", "object_r", "a", "_"]).to_string(),
            2 if !self.shape.small => "b".repeat(self.random.between(1, 30)),
            _ => format!("{}{}", self.random.pick(&["a", "b", "c"]), self.random.below(2)),
        };
        let full = self.full_name(self.open.len(), &name);
        // Some bytes are left for the names in it.
        if self.open.len() < 8 && full.len() <= 56 && !self.opened.contains(&full) {
            self.statements.push(format!("(block {name}"));
            self.open.push(name);
            self.opened.push(full);
        }
    }

    fn close_block(&mut self) {
        if self.open.pop().is_some() {
            self.statements.push(")".to_string());
        }
    }

    fn declare_thing(&mut self, family: Family) {
        let (name, full) = self.new_name(&self.family_names(family));
        self.statements.push(format!("({} {name})", word(family)));
        self.things.entry(family).or_default().push(full);
    }

    fn declare_attribute(&mut self, family: Family) {
        let (name, full) = self.new_name(&self.family_names(family));
        self.statements.push(format!("({}attribute {name})", word(family)));
        let rank = self.random.next();
        self.attributes.entry(family).or_default().push(Attribute { name: full, rank });
    }

    fn declare_class(&mut self) {
        let taken: Vec<String> = self.classes.iter().map(|(name, _)| name.clone()).collect();
        let process = self.full_name(self.open.len(), "process");
        let is_process = !taken.contains(&process) && self.random.chance(60);
        let (name, full) = if is_process { (both("process", &process), process) } else { self.new_name(&taken) };
        let permissions = self.permissions(is_process);
        self.statements.push(format!("(class {name} ({}))", permissions.join(" ")));
        self.classes.push((full, permissions));
    }

    /// At least one permission, now and then those that ask for a role allow: also on other classes, where none is
    /// asked, while `process` may lack them.
    fn permissions(&mut self, of_process: bool) -> Vec<String> {
        let some: &[&[&str]] = &[&["transition", "dyntransition"], &["dyntransition"], &["transition"], &[]];
        let first = if of_process || self.random.chance(20) { *self.random.pick(some) } else { &[] };
        let mut permissions: Vec<String> = first.iter().map(|name| name.to_string()).collect();
        let more = if self.shape.crowded { self.random.between(29, 34) } else { self.random.between(1, 3) };
        for _ in 0..more {
            let permission = self.name(&permissions);
            permissions.push(permission);
        }
        permissions
    }

    fn step(&mut self) {
        let family = *self.random.pick(&FAMILIES);
        let roles = self.things[&Family::Role].len();
        let crowded = self.shape.small && roles >= 2;
        match self.random.below(100) {
            _ if self.shape.blocks && self.random.chance(14) => self.open_block(),
            _ if self.shape.blocks && self.random.chance(9) => self.close_block(),
            _ if self.shape.relabels && self.random.chance(15) => self.validatetrans(),
            _ if self.shape.clashes && self.random.chance(30) => self.transition(),
            0..=11 if family != Family::Role || !crowded => self.declare_thing(family),
            0..=11 => self.declare_thing(Family::Type),
            12..=19 => self.declare_attribute(family),
            20..=22 if self.classes.len() < 30 => self.declare_class(),
            20..=39 => self.attribute_set(family),
            40..=57 => self.relation("userrole", Family::User, Family::Role),
            58..=73 => self.relation("roletype", Family::Role, Family::Type),
            74..=78 => self.relation("roleallow", Family::Role, Family::Role),
            79..=84 => self.transition(),
            _ => self.constrain(),
        }
    }

    fn attribute_set(&mut self, family: Family) {
        let Some(attributes) = self.attributes.get(&family).cloned() else { return };
        let attribute = self.random.pick(&attributes).clone();
        let mut names = self.things[&family].clone();
        for other in &attributes {
            if self.shape.cycles || other.rank < attribute.rank {
                names.push(other.name.clone());
            }
        }
        let levels = self.random.below(4);
        let family_names = self.family_names(family);
        let names: Vec<String> = names.iter().map(|full| self.used(&family_names, full)).collect();
        let set = self.set(&names, levels);
        let attribute = self.used(&family_names, &attribute.name);
        self.statements.push(format!("({}attributeset {attribute} {set})", word(family)));
    }

    /// An S over the names.
    fn set(&mut self, names: &[String], levels: usize) -> String {
        let operator = *self.random.pick(&["and", "or", "xor"]);
        match self.random.below(10) {
            0 => "(all)".to_string(),
            1 | 2 => format!("(not {})", self.operand(names, levels)),
            3..=5 => format!("({operator} {} {})", self.operand(names, levels), self.operand(names, levels)),
            _ => {
                let count = self.random.between(1, 3);
                let operands: Vec<String> = (0..count).map(|_| self.operand(names, levels)).collect();
                format!("({})", operands.join(" "))
            }
        }
    }

    fn operand(&mut self, names: &[String], levels: usize) -> String {
        if levels == 0 || self.random.chance(60) {
            self.random.pick(names).clone()
        } else {
            self.set(names, levels - 1)
        }
    }

    fn relation(&mut self, keyword: &str, left: Family, right: Family) {
        let first = self.some_name(left);
        let second = self.some_name(right);
        self.statements.push(format!("({keyword} {first} {second})"));
    }

    fn transition(&mut self) {
        // The same role, type and class again and again make a clash likely.
        let same = self.shape.clashes && self.random.chance(50);
        let role = if same { self.first_name(Family::Role) } else { self.some_name(Family::Role) };
        let kind = if same { self.first_name(Family::Type) } else { self.some_name(Family::Type) };
        let class = if same { &self.classes[0] } else { self.random.pick(&self.classes) }.0.clone();
        let any = self.random.pick(&self.things[&Family::Role]).clone();
        let kept = self.new_roles.entry(class.clone()).or_insert(any.clone()).clone();
        let new_role = if self.shape.clashes { any } else { kept };
        let new_role = self.used(&self.family_names(Family::Role), &new_role);
        let class = self.used_class(&class);
        self.statements.push(format!("(roletransition {role} {kind} {class} {new_role})"));
    }

    fn constrain(&mut self) {
        let (class, permissions) = self.random.pick(&self.classes).clone();
        let count = self.random.between(1, permissions.len() + 1);
        let asked: Vec<String> = (0..count).map(|_| self.random.pick(&permissions).clone()).collect();
        let expression = self.some_expression();
        let class = self.used_class(&class);
        self.statements.push(format!("(constrain ({class} ({})) {expression})", asked.join(" ")));
    }

    fn validatetrans(&mut self) {
        let class = self.random.pick(&self.classes).0.clone();
        self.sides = 3;
        let expression = self.some_expression();
        self.sides = 2;
        let class = self.used_class(&class);
        self.statements.push(format!("(validatetrans {class} {expression})"));
    }

    fn some_expression(&mut self) -> String {
        let most = if self.shape.deep { 7 } else { 5 };
        match self.random.below(if self.shape.deep { 3 } else { 10 }) {
            0 => self.chain_to_the_right(most),
            1 => self.chain_to_the_left(7),
            _ => {
                let levels = self.random.below(most);
                self.expression(levels)
            }
        }
    }

    /// `most` comparisons to the right need a stack of `most`.
    fn chain_to_the_right(&mut self, most: usize) -> String {
        let count = self.random.between(most - 1, most);
        let mut chain = self.comparison();
        for _ in 1..count {
            let operator = *self.random.pick(&["and", "or"]);
            chain = format!("({operator} {} {chain})", self.comparison());
        }
        chain
    }

    /// Any number of comparisons to the left needs a stack of 2.
    fn chain_to_the_left(&mut self, count: usize) -> String {
        let mut chain = self.comparison();
        for _ in 1..count {
            let operator = *self.random.pick(&["and", "or"]);
            chain = format!("({operator} {chain} {})", self.comparison());
        }
        chain
    }

    /// With at most 4 levels of operators the need is at most 5.
    fn expression(&mut self, levels: usize) -> String {
        if levels == 0 {
            return self.comparison();
        }
        match self.random.below(4) {
            0 => format!("(and {} {})", self.expression(levels - 1), self.expression(levels - 1)),
            1 => format!("(or {} {})", self.expression(levels - 1), self.expression(levels - 1)),
            2 => format!("(not {})", self.expression(levels - 1)),
            _ => self.comparison(),
        }
    }

    fn comparison(&mut self) -> String {
        let family = *self.random.pick(&FAMILIES);
        let x = letter(family);
        let operator = *self.random.pick(&["eq", "neq"]);
        if self.random.chance(40) {
            let role_operator = *self.random.pick(&["eq", "neq", "dom", "domby", "incomp"]);
            let operator = if family == Family::Role { role_operator } else { operator };
            return format!("({operator} {x}1 {x}2)");
        }
        let side = self.random.between(1, self.sides);
        let name = self.some_name(family);
        format!("({operator} {x}{side} {name})")
    }
}
