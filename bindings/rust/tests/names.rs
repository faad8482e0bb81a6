//! Names and numbers go back and forth, sets have the members that the statements give, and numbers
//! that are not declared are told apart from those of a neighbour.

use tegzhumbi::{
    Class, Context, Permission, Role, RoleAttribute, Table, TableBuf, Type, TypeAttribute,
    Undeclared, User, UserAttribute,
};

fn office() -> TableBuf {
    TableBuf::compile(include_bytes!("../../../examples/office.cil")).expect("it is a policy")
}

fn role_names(table: Table<'_>, roles: impl Iterator<Item = Role>) -> Vec<&str> {
    roles.map(|role| table.role_name(role).unwrap()).collect()
}

fn type_names(table: Table<'_>, kinds: impl Iterator<Item = Type>) -> Vec<&str> {
    kinds.map(|kind| table.kind_name(kind).unwrap()).collect()
}

#[test]
fn every_name_leads_back_to_its_number() {
    let office = office();
    let t = office.table();
    assert!(t
        .users()
        .all(|a| t.user(t.user_name(a).unwrap()) == Some(a)));
    assert!(t
        .roles()
        .all(|a| t.role(t.role_name(a).unwrap()) == Some(a)));
    assert!(t
        .types()
        .all(|a| t.kind(t.kind_name(a).unwrap()) == Some(a)));
    assert!(t
        .classes()
        .all(|a| t.class(t.class_name(a).unwrap()) == Some(a)));

    let back = |a| t.user_attribute(t.user_attribute_name(a).unwrap());
    assert!(t.user_attributes().all(|a| back(a) == Some(a)));
    let back = |a| t.role_attribute(t.role_attribute_name(a).unwrap());
    assert!(t.role_attributes().all(|a| back(a) == Some(a)));
    let back = |a| t.type_attribute(t.type_attribute_name(a).unwrap());
    assert!(t.type_attributes().all(|a| back(a) == Some(a)));

    let back = |class, a| t.permission(class, t.permission_name(class, a).unwrap());
    let all_back = |class| {
        t.permissions(class)
            .unwrap()
            .all(|a| back(class, a) == Some(a))
    };
    assert!(t.classes().all(all_back));
}

#[test]
fn the_office_has_what_its_text_declares() {
    let office = office();
    let table = office.table();
    let counts = [
        table.users().len(),
        table.roles().len(),
        table.types().len(),
    ];
    assert_eq!(counts, [40, 13, 12]);
    let attributes = [
        table.user_attributes().len(),
        table.role_attributes().len(),
        table.type_attributes().len(),
    ];
    assert_eq!(attributes, [2, 4, 4]);
    let classes: Vec<_> = table
        .classes()
        .map(|class| table.class_name(class).unwrap())
        .collect();
    assert_eq!(classes, ["process", "lease", "ledger", "roll"]);
    let permissions = |class| table.permissions(class).unwrap().len();
    assert_eq!(
        table.classes().map(permissions).collect::<Vec<_>>(),
        [3, 4, 3, 2]
    );
}

#[test]
fn sets_have_the_members_that_the_statements_give() {
    let office = office();
    let table = office.table();
    let alder = table.user("alder").unwrap();
    let roles = table.roles_of(alder).unwrap();
    assert_eq!(
        role_names(table, roles),
        ["clerk", "senior_clerk", "registrar"]
    );

    let cashier = table.role("cashier").unwrap();
    let kinds = table.types_of(cashier).unwrap();
    assert_eq!(
        type_names(table, kinds),
        ["public_t", "desk_t", "cash_t", "ledger_t"]
    );

    let clerk = table.role("clerk").unwrap();
    let next = table.may_become(clerk).unwrap();
    assert_eq!(role_names(table, next), ["senior_clerk", "cashier"]);
}

#[test]
fn attributes_have_their_final_sets() {
    let office = office();
    let table = office.table();
    let trusted = table
        .users_in(table.user_attribute("trusted_users").unwrap())
        .unwrap();
    let names: Vec<&str> = trusted.map(|user| table.user_name(user).unwrap()).collect();
    assert_eq!(names, ["alder", "oak", "yew", "redwood"]);

    let money = table
        .roles_in(table.role_attribute("money_roles").unwrap())
        .unwrap();
    assert_eq!(role_names(table, money), ["cashier", "bookkeeper"]);
    let staff = table
        .roles_in(table.role_attribute("staff_roles").unwrap())
        .unwrap();
    assert_eq!(staff.count(), 11);

    let sealed = table
        .types_in(table.type_attribute("sealed_types").unwrap())
        .unwrap();
    let names = type_names(table, sealed);
    assert_eq!(names, ["signed_lease_t", "archived_lease_t", "ledger_t"]);
}

#[test]
fn names_in_blocks_are_full_names() {
    let branches = include_bytes!("../../../examples/branches.cil");
    let branches = TableBuf::compile(branches).unwrap();
    let table = branches.table();
    let elm = table.user("harbour.night.elm").unwrap();
    let roles = table.roles_of(elm).unwrap();
    assert_eq!(role_names(table, roles), ["harbour.clerk"]);
    assert_eq!(table.user("elm"), None);
}

#[test]
fn names_that_are_not_declared() {
    let office = office();
    let table = office.table();
    assert_eq!(table.user("clerk"), None);
    assert_eq!(table.role("alder"), None);
    assert_eq!(table.kind("Desk_t"), None);
    assert_eq!(table.class(""), None);
    assert_eq!(table.role_attribute("clerk"), None);
    assert_eq!(table.permission(Class(1), "fork"), None);
    assert_eq!(table.permission(Class(4), "fork"), None);
    assert_eq!(table.context("alder", "clerk", "no_t"), None);
}

#[test]
fn numbers_that_are_not_declared_have_no_name() {
    let office = office();
    let table = office.table();
    assert_eq!(table.user_name(User(40)), None);
    assert_eq!(table.role_name(Role(13)), None);
    assert_eq!(table.kind_name(Type(12)), None);
    assert_eq!(table.class_name(Class(4)), None);
    assert_eq!(table.user_attribute_name(UserAttribute(2)), None);
    assert_eq!(table.role_attribute_name(RoleAttribute(4)), None);
    assert_eq!(table.type_attribute_name(TypeAttribute(u16::MAX)), None);
    // Place 32 of a class is no other name of the next class's first permission.
    assert!(table.permission_name(Class(1), Permission(0)).is_some());
    assert_eq!(table.permission_name(Class(0), Permission(32)), None);
    assert_eq!(table.permission_name(Class(0), Permission(3)), None);
    assert_eq!(
        table.permission_name(Class(u16::MAX), Permission(u16::MAX)),
        None
    );
}

#[test]
fn numbers_that_are_not_declared_have_no_set() {
    let office = office();
    let table = office.table();
    assert_eq!(table.permissions(Class(4)).err(), Some(Undeclared));
    assert_eq!(table.permissions(Class(32)).err(), Some(Undeclared));
    assert_eq!(table.roles_of(User(40)).err(), Some(Undeclared));
    assert_eq!(table.types_of(Role(13)).err(), Some(Undeclared));
    assert_eq!(table.may_become(Role(u16::MAX)).err(), Some(Undeclared));
    // Attributes of all families are in one body: none has the set of the next family's first.
    assert_eq!(table.users_in(UserAttribute(2)).err(), Some(Undeclared));
    assert_eq!(table.roles_in(RoleAttribute(4)).err(), Some(Undeclared));
    assert_eq!(table.types_in(TypeAttribute(4)).err(), Some(Undeclared));
    assert_eq!(
        table.types_in(TypeAttribute(u16::MAX)).err(),
        Some(Undeclared)
    );
}

const FAR: [u16; 6] = [40, 128, 255, 256, 512, u16::MAX];

#[test]
fn questions_about_undeclared_contexts_are_refused() {
    let office = office();
    let table = office.table();
    let good = table.context("alder", "clerk", "desk_t").unwrap();
    let (process, fork) = (Class(0), Permission(0));
    assert!(table.change(good, good, process, fork).is_ok());
    let users = FAR.map(|far| Context {
        user: User(far),
        ..good
    });
    let roles = FAR.map(|far| Context {
        role: Role(far),
        ..good
    });
    let kinds = FAR.map(|far| Context {
        kind: Type(far),
        ..good
    });
    for bad in [users, roles, kinds].concat() {
        assert_eq!(table.valid(bad), Err(Undeclared));
        assert_eq!(table.change(bad, good, process, fork), Err(Undeclared));
        assert_eq!(table.change(good, bad, process, fork), Err(Undeclared));
        assert_eq!(table.relabel(process, bad, good, good), Err(Undeclared));
        assert_eq!(table.relabel(process, good, bad, good), Err(Undeclared));
        assert_eq!(table.relabel(process, good, good, bad), Err(Undeclared));
    }
}

#[test]
fn questions_about_undeclared_classes_permissions_and_roles_are_refused() {
    let office = office();
    let table = office.table();
    let good = table.context("alder", "clerk", "desk_t").unwrap();
    let (process, fork) = (Class(0), Permission(0));
    for far in FAR {
        assert_eq!(table.change(good, good, Class(far), fork), Err(Undeclared));
        assert_eq!(
            table.change(good, good, process, Permission(far)),
            Err(Undeclared)
        );
        assert_eq!(table.relabel(Class(far), good, good, good), Err(Undeclared));
        assert_eq!(
            table.new_role(Role(far), good.kind, process),
            Err(Undeclared)
        );
        assert_eq!(
            table.new_role(good.role, Type(far), process),
            Err(Undeclared)
        );
        assert_eq!(
            table.new_role(good.role, good.kind, Class(far)),
            Err(Undeclared)
        );
    }
}
