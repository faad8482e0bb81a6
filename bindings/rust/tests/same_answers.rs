//! The sample office, asked through `Table`, which tests the table once, and through the C
//! functions that test it at every question. All answers are the same.

use std::collections::BTreeSet;

use tegzhumbi::{
    Class, Context, Decision, Denial, Permission, Role, RoleAttribute, Table, TableBuf, Type,
    TypeAttribute, Undeclared, User, UserAttribute,
};

/// The functions of `include/tegzhumbi.h` with the test in them. Each reads within the slice whose
/// pointer and length it is given, and nothing else.
mod tested {
    use tegzhumbi::{Class, Context, Permission, Role, Type};

    /// Outcome, number, constraint and consulted.
    pub type Answer = [u32; 4];

    /// Number, start and length.
    type Part = [u32; 3];

    /// An array in a struct lies, and is given back, as a struct of so many fields is.
    #[repr(C)]
    struct Numbers<const N: usize>([u32; N]);

    extern "C" {
        fn tegzhumbi_valid(t: *const u8, n: usize, u: u64, r: u64, k: u64) -> Numbers<4>;
        fn tegzhumbi_change(
            t: *const u8,
            n: usize,
            u1: u64,
            r1: u64,
            k1: u64,
            u2: u64,
            r2: u64,
            k2: u64,
            class: u64,
            permission: u64,
        ) -> Numbers<4>;
        fn tegzhumbi_relabel(
            t: *const u8,
            n: usize,
            class: u64,
            u1: u64,
            r1: u64,
            k1: u64,
            u2: u64,
            r2: u64,
            k2: u64,
            u3: u64,
            r3: u64,
            k3: u64,
        ) -> Numbers<4>;
        fn tegzhumbi_new_role(t: *const u8, n: usize, r: u64, k: u64, c: u64) -> Numbers<4>;
        fn tegzhumbi_name(t: *const u8, n: usize, sort: u64, number: u64) -> Numbers<3>;
        fn tegzhumbi_entry(t: *const u8, n: usize, body: u64, place: u64) -> Numbers<3>;
    }

    fn numbers(context: Context) -> [u64; 3] {
        [context.user.0, context.role.0, context.kind.0].map(u64::from)
    }

    pub fn valid(table: &[u8], context: Context) -> Answer {
        let [u, r, k] = numbers(context);
        // SAFETY: the pointer and the length are those of a slice.
        unsafe { tegzhumbi_valid(table.as_ptr(), table.len(), u, r, k).0 }
    }

    pub fn change(table: &[u8], sides: [Context; 2], class: Class, asked: Permission) -> Answer {
        let [[u1, r1, k1], [u2, r2, k2]] = sides.map(numbers);
        let (t, n) = (table.as_ptr(), table.len());
        let (class, asked) = (class.0.into(), asked.0.into());
        // SAFETY: the pointer and the length are those of a slice.
        unsafe { tegzhumbi_change(t, n, u1, r1, k1, u2, r2, k2, class, asked).0 }
    }

    pub fn relabel(table: &[u8], class: Class, sides: [Context; 3]) -> Answer {
        let [[u1, r1, k1], [u2, r2, k2], [u3, r3, k3]] = sides.map(numbers);
        let (t, n, class) = (table.as_ptr(), table.len(), class.0.into());
        // SAFETY: the pointer and the length are those of a slice.
        unsafe { tegzhumbi_relabel(t, n, class, u1, r1, k1, u2, r2, k2, u3, r3, k3).0 }
    }

    pub fn new_role(table: &[u8], role: Role, kind: Type, class: Class) -> Answer {
        let (r, k, c) = (role.0.into(), kind.0.into(), class.0.into());
        // SAFETY: the pointer and the length are those of a slice.
        unsafe { tegzhumbi_new_role(table.as_ptr(), table.len(), r, k, c).0 }
    }

    pub fn name(table: &[u8], sort: u64, number: u16) -> Option<&[u8]> {
        // SAFETY: the pointer and the length are those of a slice.
        let part = unsafe { tegzhumbi_name(table.as_ptr(), table.len(), sort, number.into()).0 };
        shown(table, part)
    }

    pub fn entry(table: &[u8], body: u64, place: u16) -> Option<&[u8]> {
        // SAFETY: the pointer and the length are those of a slice.
        let part = unsafe { tegzhumbi_entry(table.as_ptr(), table.len(), body, place.into()).0 };
        shown(table, part)
    }

    fn shown(table: &[u8], part: Part) -> Option<&[u8]> {
        match part {
            [0, start, length] => Some(&table[start as usize..][..length as usize]),
            [12, 0, 0] => None,
            other => panic!("no answer for a sound table: {other:?}"),
        }
    }
}

fn office() -> TableBuf {
    TableBuf::compile(include_bytes!("../../../examples/office.cil")).expect("it is a policy")
}

/// All contexts, and those with one number more than is declared.
fn contexts(table: Table<'_>) -> Vec<Context> {
    let users = (0..=table.users().len() as u16).map(User);
    let in_roles = users.flat_map(|user| {
        let roles = (0..=table.roles().len() as u16).map(Role);
        roles.map(move |role| (user, role))
    });
    let with_types = in_roles.flat_map(|(user, role)| {
        let kinds = (0..=table.types().len() as u16).map(Type);
        kinds.map(move |kind| Context { user, role, kind })
    });
    with_types.collect()
}

/// Some contexts that are valid, and some that mostly are not.
fn sample(table: Table<'_>, step: usize) -> Vec<Context> {
    let all = contexts(table);
    let valid = all
        .iter()
        .filter(|&&context| table.valid(context) == Ok(true));
    let others = all.iter().step_by(20 * step);
    valid.step_by(step).chain(others).copied().collect()
}

/// All classes, and one more.
fn classes(table: Table<'_>) -> impl Iterator<Item = Class> {
    (0..=table.classes().len() as u16).map(Class)
}

/// All permissions of all classes, and some more.
fn permissions(table: Table<'_>) -> Vec<(Class, Permission)> {
    let of_class = |class| (0..5).map(move |place| (class, Permission(place)));
    classes(table).flat_map(of_class).collect()
}

/// Each context of a sample beside each.
fn pairs(sample: &[Context]) -> impl Iterator<Item = [Context; 2]> + '_ {
    let beside = |first| sample.iter().map(move |&second| [first, second]);
    sample.iter().copied().flat_map(beside)
}

const REFUSED: tested::Answer = [2, 12, 0, 0];

fn numbers_of(decision: Result<Decision, Undeclared>) -> tested::Answer {
    match decision {
        Ok(Decision::Granted { consulted }) => [0, 0, 0, consulted],
        Ok(Decision::Denied { denial, consulted }) => {
            [1, denial.number(), statement_of(denial), consulted]
        }
        Err(Undeclared) => REFUSED,
    }
}

fn statement_of(denial: Denial) -> u32 {
    match denial {
        Denial::ConstraintFails { statement } => statement,
        Denial::RelabelFails { statement } => statement,
        _ => 0,
    }
}

/// Outcome and number: what a sample should have met.
fn kind_of([outcome, number, _, _]: tested::Answer) -> (u32, u32) {
    (outcome, number)
}

#[test]
fn valid_contexts() {
    let office = office();
    let table = office.table();
    for context in contexts(table) {
        let answer = match table.valid(context) {
            Ok(true) => [0, 0, 0, 0],
            Ok(false) => [1, 0, 0, 0],
            Err(Undeclared) => REFUSED,
        };
        assert_eq!(
            answer,
            tested::valid(office.bytes(), context),
            "{context:?}"
        );
    }
}

#[test]
fn changes() {
    let office = office();
    let table = office.table();
    let sample = sample(table, 13);
    let mut met = BTreeSet::new();
    for (class, permission) in permissions(table) {
        for [source, target] in pairs(&sample) {
            let answer = numbers_of(table.change(source, target, class, permission));
            let expected = tested::change(office.bytes(), [source, target], class, permission);
            assert_eq!(
                answer, expected,
                "{source:?} {target:?} {class:?} {permission:?}"
            );
            met.insert(kind_of(answer));
        }
    }
    assert_eq!(
        Vec::from_iter(met),
        [(0, 0), (1, 1), (1, 2), (1, 3), (1, 4), (2, 12)]
    );
}

#[test]
fn relabellings() {
    let office = office();
    let table = office.table();
    let sample = sample(table, 40);
    let mut met = BTreeSet::new();
    for class in classes(table) {
        for [old, new] in pairs(&sample) {
            for process in sample.iter().copied() {
                let answer = numbers_of(table.relabel(class, old, new, process));
                let expected = tested::relabel(office.bytes(), class, [old, new, process]);
                assert_eq!(answer, expected, "{class:?} {old:?} {new:?} {process:?}");
                met.insert(kind_of(answer));
            }
        }
    }
    assert_eq!(
        Vec::from_iter(met),
        [(0, 0), (1, 1), (1, 2), (1, 5), (1, 6), (2, 12)]
    );
}

#[test]
fn new_roles() {
    let office = office();
    let table = office.table();
    let mut changed = 0;
    for class in classes(table) {
        for Context { role, kind, .. } in contexts(table).into_iter().take(14 * 13) {
            let proposed = table.new_role(role, kind, class);
            let answer = proposed.map_or(REFUSED, |next| [0, next.0.into(), 0, 0]);
            assert_eq!(answer, tested::new_role(office.bytes(), role, kind, class));
            changed += usize::from(proposed.is_ok_and(|next| next != role));
        }
    }
    // Three desk roles with cash, the senior clerk with signed leases, two money roles with audits.
    assert_eq!(changed, 6);
}

#[test]
fn names() {
    let office = office();
    let table = office.table();
    let class_of = |number: u16| (Class(number / 32), Permission(number % 32));
    for number in 0..512 {
        let (class, permission) = class_of(number);
        let names = [
            table.user_name(User(number)),
            table.role_name(Role(number)),
            table.kind_name(Type(number)),
            table.user_attribute_name(UserAttribute(number)),
            table.role_attribute_name(RoleAttribute(number)),
            table.type_attribute_name(TypeAttribute(number)),
            table.class_name(Class(number)),
            table.permission_name(class, permission),
        ];
        for (sort, name) in (0..).zip(names) {
            let expected = tested::name(office.bytes(), sort, number);
            assert_eq!(name.map(str::as_bytes), expected, "{sort} {number}");
        }
    }
}

/// The numbers in a set, bit after bit.
fn in_set(set: &[u8]) -> Vec<u16> {
    let is_member = |number: &u16| set[usize::from(number / 8)] & 1 << (number % 8) != 0;
    (0..8 * set.len() as u16).filter(is_member).collect()
}

#[test]
fn sets() {
    let office = office();
    let table = office.table();
    let expected = |body, place| tested::entry(office.bytes(), body, place).map(in_set);
    for number in 0..41 {
        let roles = table
            .roles_of(User(number))
            .map(|set| set.map(|role| role.0).collect());
        assert_eq!(roles.ok(), expected(2, number));
        let kinds = table
            .types_of(Role(number))
            .map(|set| set.map(|kind| kind.0).collect());
        assert_eq!(kinds.ok(), expected(3, number));
        let next = table
            .may_become(Role(number))
            .map(|set| set.map(|role| role.0).collect());
        assert_eq!(next.ok(), expected(4, number));
    }
    let users = table
        .user_attributes()
        .map(|a| table.users_in(a).unwrap().map(|u| u.0).collect());
    let roles = table
        .role_attributes()
        .map(|a| table.roles_in(a).unwrap().map(|r| r.0).collect());
    let kinds = table
        .type_attributes()
        .map(|a| table.types_in(a).unwrap().map(|k| k.0).collect());
    let attributes: Vec<Vec<u16>> = users.chain(roles).chain(kinds).collect();
    let all: Vec<Vec<u16>> = (0..).map_while(|place| expected(8, place)).collect();
    assert_eq!(attributes, all);
    assert_eq!(all.len(), 10);
}
