//! The examples that the documents work out by hand, P1 to P12, as far as they reach through this
//! interface. Lengths and offsets are those of tables of edition 2.

use tegzhumbi::{
    Class, Context, Decision, Denial, Permission, Refusal, Role, RoleAttribute, TableBuf, Type,
    User,
};

const ROLL: &str = "(user u)(role a)(role b)(type t)(userrole u a)(roletype a t)";

fn compiled(text: &str) -> TableBuf {
    TableBuf::compile(text.as_bytes()).unwrap_or_else(|refusal| panic!("{refusal}: {text}"))
}

/// Number, place and line.
fn refused(text: &str) -> (u32, usize, Option<usize>) {
    let refusal: Refusal = TableBuf::compile(text.as_bytes()).expect_err(text);
    (refusal.number(), refusal.place(), refusal.line())
}

#[test]
fn p1_the_empty_text_has_a_table_of_84_bytes() {
    let empty = compiled("");
    assert_eq!(empty.bytes().len(), 84);
    assert_eq!(empty.bytes()[..4], [2, 0, 10, 0]);
    assert_eq!(empty.table().users().len(), 0);
}

#[test]
fn p2_the_roll_takes_280_bytes() {
    let roll = compiled(ROLL);
    let bytes = roll.bytes();
    assert_eq!(bytes.len(), 280);
    let offset = |body: usize| u32::from_le_bytes(bytes[4 + 8 * body..][..4].try_into().unwrap());
    let offsets: Vec<u32> = (0..10).map(offset).collect();
    assert_eq!(offsets, [84, 104, 120, 248, 280, 280, 280, 280, 280, 280]);

    let table = roll.table();
    assert_eq!(
        table.roles_of(User(0)).unwrap().collect::<Vec<_>>(),
        [Role(0)]
    );
    assert_eq!(
        table.types_of(Role(0)).unwrap().collect::<Vec<_>>(),
        [Type(0)]
    );
    assert_eq!(table.types_of(Role(1)).unwrap().count(), 0);
}

#[test]
fn p3_to_p7_refusals() {
    assert_eq!(refused("(role a)(role a)"), (4, 8, Some(1)));
    assert_eq!(refused("(role a)(roletype a t)"), (5, 8, Some(1)));
    assert_eq!(refused("("), (2, 1, Some(1)));
    assert_eq!(refused("()"), (3, 0, Some(1)));
    assert_eq!(
        refused("(roleattribute x)(roleattributeset x (x))"),
        (8, 0, Some(1))
    );
}

#[test]
fn p8_and_p9_sets() {
    let set = |expression: &str| -> Vec<Role> {
        let text = "(role a)(role b)(role c)(roleattribute x)(roleattributeset x ";
        let policy = compiled(&format!("{text}{expression})"));
        let members = policy.table().roles_in(RoleAttribute(0)).unwrap();
        members.collect()
    };
    assert_eq!(set("(not (a b))"), [Role(2)]);
    assert_eq!(set("(xor (a b) (b c))"), [Role(0), Role(2)]);
}

#[test]
fn p10_at_most_five_values_on_the_stack() {
    let one = "(eq u1 u2)";
    let right = |count| (1..count).fold(one.to_string(), |e, _| format!("(and {one} {e})"));
    let left = |count| (1..count).fold(one.to_string(), |e, _| format!("(and {e} {one})"));
    let policy = |e: String| format!("(class c (p))\n(constrain (c (p)) {e})");
    compiled(&policy(right(5)));
    assert_eq!(refused(&policy(right(6))), (7, 14, Some(2)));
    compiled(&policy(left(6)));
}

#[test]
fn p11_a_target_that_is_not_valid() {
    let roll = compiled(&format!("{ROLL}(class c (p))"));
    let in_role = |role| Context {
        user: User(0),
        role: Role(role),
        kind: Type(0),
    };
    let denied = |denial| {
        Ok(Decision::Denied {
            denial,
            consulted: 0,
        })
    };
    let change = |source, target| {
        let (source, target) = (in_role(source), in_role(target));
        roll.table().change(source, target, Class(0), Permission(0))
    };
    assert_eq!(change(0, 1), denied(Denial::TargetNotValid));
    assert_eq!(change(1, 0), denied(Denial::SourceNotValid));
    assert_eq!(change(0, 0), Ok(Decision::Granted { consulted: 0 }));
}

#[test]
fn p12_role_64_is_not_role_0() {
    let roles: String = (0..65)
        .map(|number| format!("(role role{number})"))
        .collect();
    let policy = compiled(&format!("(user u){roles}(userrole u role64)"));
    let members = policy.table().roles_of(User(0)).unwrap();
    assert_eq!(members.collect::<Vec<_>>(), [Role(64)]);
}

#[test]
fn on_both_sides_of_the_maxima() {
    let roles = |count| -> String { (0..count).map(|n| format!("(role role{n})\n")).collect() };
    assert_eq!(compiled(&roles(128)).table().roles().len(), 128);
    assert_eq!(refused(&roles(129)), (6, roles(128).len(), Some(129)));

    let nested = |levels: usize| format!("{}{}", "(".repeat(levels), ")".repeat(levels));
    assert_eq!(refused(&nested(32)), (3, 0, Some(1)));
    assert_eq!(refused(&nested(33)), (2, 32, Some(1)));

    let name = "n".repeat(64);
    assert_eq!(
        compiled(&format!("(user {name})")).table().user(&name),
        Some(User(0))
    );
    assert_eq!(refused(&format!("(user {name}n)")), (2, 6, Some(1)));
}
