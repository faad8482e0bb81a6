//! The five questions by hand: answers, 11 before 12, and numbers up to the largest.

mod common;

use common::{context, question, table};
use reference::questions::{
    change, entry, name_of, new_role, valid_context, ChangeAnswer, PartAnswer, RoleAnswer, ValidAnswer,
};

const POLICY: &str = "(user u)(role a)(role b)(type t)(type s)(class c (p q))(class process (transition))\
    (userattribute x)(roleattribute y)(typeattribute z)(userattributeset x (u))(typeattributeset z (s))\
    (userrole x a)(userrole u b)(typeattributeset z (t))(roletype a z)(roletype b t)\
    (roletransition a z c b)(roletransition b t c b)\
    (constrain (c (p)) (eq u1 u2))(constrain (c (q)) (neq t1 t2))(constrain (c (p q)) (eq r1 r2))\
    (constrain (process (transition)) (eq t2 z))";

fn part(start: usize, length: usize) -> PartAnswer {
    PartAnswer::Part { start, length }
}

const FAR: [u64; 6] = [2, 258, 65_538, (1 << 32) + 1, 1 << 63, u64::MAX];

#[test]
fn valid_contexts() {
    let table = table(POLICY);
    assert_eq!(valid_context(&table, &context(0, 0, 1)), ValidAnswer::Valid);
    assert_eq!(valid_context(&table, &context(0, 1, 0)), ValidAnswer::Valid);
    assert_eq!(valid_context(&table, &context(0, 1, 1)), ValidAnswer::NotValid);
    for far in FAR {
        assert_eq!(valid_context(&table, &context(far, 0, 0)), ValidAnswer::Refused(12));
        assert_eq!(valid_context(&table, &context(0, far, 0)), ValidAnswer::Refused(12));
        assert_eq!(valid_context(&table, &context(0, 0, far)), ValidAnswer::Refused(12));
    }
    assert_eq!(valid_context(&table[..50], &context(u64::MAX, 0, 0)), ValidAnswer::Refused(11));
}

/// Document 02, W-201.
#[test]
fn object_r_is_valid_with_any_user_and_type() {
    let table = table("(user u)(user v)(role a)(role object_r)(type s)(type t)(class process (transition))(class c (p))\
        (userrole u a)(roletype a s)(constrain (c (p)) (neq r1 object_r))");
    for user in 0..2 {
        for kind in 0..2 {
            assert_eq!(valid_context(&table, &context(user, 1, kind)), ValidAnswer::Valid);
        }
    }
    assert_eq!(valid_context(&table, &context(1, 0, 0)), ValidAnswer::NotValid);
    assert_eq!(valid_context(&table, &context(2, 1, 0)), ValidAnswer::Refused(12));
    assert_eq!(valid_context(&table, &context(0, 1, 2)), ValidAnswer::Refused(12));
    let ask = |source, target, class| change(&table, &question(source, target, class, 0));
    let denied = |number, constraint, consulted| ChangeAnswer::Denied { number, constraint, consulted };
    assert_eq!(ask([0, 0, 0], [1, 1, 1], 1), ChangeAnswer::Granted { consulted: 1 });
    assert_eq!(ask([1, 1, 1], [0, 0, 0], 1), denied(4, 0, 1));
    assert_eq!(ask([1, 1, 1], [1, 0, 0], 1), denied(2, 0, 0));
    assert_eq!(ask([0, 0, 0], [1, 1, 1], 0), denied(3, 0, 0));
    assert_eq!(ask([0, 1, 0], [1, 1, 1], 0), ChangeAnswer::Granted { consulted: 0 });
}

/// "whose role is named": no other name, and nothing else of that name.
#[test]
fn only_a_role_is_object_r() {
    let table = table("(user object_r)(role Object_r)(roleattribute object_r)(role object_rr)(type object_r)(class object_r (object_r))");
    for role in 0..2 {
        assert_eq!(valid_context(&table, &context(0, role, 0)), ValidAnswer::NotValid);
    }
}

#[test]
fn changes_with_the_number_consulted() {
    let table = table(POLICY);
    let ask = |source, target, class, permission| change(&table, &question(source, target, class, permission));
    let denied = |number, constraint, consulted| ChangeAnswer::Denied { number, constraint, consulted };
    let (a_t, a_s, b_t, b_s) = ([0, 0, 0], [0, 0, 1], [0, 1, 0], [0, 1, 1]);
    assert_eq!(ask(a_t, a_s, 0, 0), ChangeAnswer::Granted { consulted: 2 });
    assert_eq!(ask(a_t, b_t, 0, 0), denied(4, 2, 2));
    assert_eq!(ask(a_t, a_t, 0, 1), denied(4, 1, 1));
    assert_eq!(ask(a_s, b_t, 0, 1), denied(4, 2, 2));
    assert_eq!(ask(b_s, b_s, 0, 0), denied(1, 0, 0));
    assert_eq!(ask(b_t, b_s, 0, 0), denied(2, 0, 0));
    assert_eq!(ask(a_t, b_t, 1, 0), denied(3, 0, 0));
    assert_eq!(ask(a_t, a_s, 1, 0), ChangeAnswer::Granted { consulted: 1 });
}

#[test]
fn every_number_of_a_change_is_tried_before_any_denial() {
    let table = table(POLICY);
    let not_valid = [0, 1, 1];
    for far in FAR {
        for place in 0..8 {
            let mut numbers = [0, 1, 1, 0, 1, 1, 0, 0];
            numbers[place] = far;
            let [u1, r1, t1, u2, r2, t2, class, permission] = numbers;
            let asked = question([u1, r1, t1], [u2, r2, t2], class, permission);
            assert_eq!(change(&table, &asked), ChangeAnswer::Refused(12), "{numbers:?}");
        }
    }
    // Class 1 has one permission: the count is the class's own.
    assert_eq!(change(&table, &question(not_valid, not_valid, 1, 1)), ChangeAnswer::Refused(12));
    assert_eq!(change(b"", &question(not_valid, not_valid, 9, 9)), ChangeAnswer::Refused(11));
}

#[test]
fn new_roles() {
    let table = table(POLICY);
    assert_eq!(new_role(&table, 0, 1, 0), RoleAnswer::Role(1));
    assert_eq!(new_role(&table, 1, 1, 0), RoleAnswer::Role(1));
    assert_eq!(new_role(&table, 0, 0, 1), RoleAnswer::Role(0));
    for far in FAR {
        assert_eq!(new_role(&table, far, 0, 0), RoleAnswer::Refused(12));
        assert_eq!(new_role(&table, 0, far, 0), RoleAnswer::Refused(12));
        assert_eq!(new_role(&table, 0, 0, far), RoleAnswer::Refused(12));
    }
    assert_eq!(new_role(&table[..67], 0, 0, 0), RoleAnswer::Refused(11));
}

#[test]
fn the_first_matching_transition_counts_in_a_table_with_clashing_ones() {
    let (_, clashing) = &reference::generator::tables::odd_and_sound()[0];
    assert_eq!(new_role(clashing, 0, 0, 0), RoleAnswer::Role(0));
    assert_eq!(new_role(clashing, 1, 0, 0), RoleAnswer::Role(1));
}

#[test]
fn names() {
    let table = table(POLICY);
    // u a b t s are five entries of five bytes, then the class and its two permissions.
    assert_eq!(name_of(&table, 0, 0), part(88, 1));
    assert_eq!(name_of(&table, 1, 1), part(98, 1));
    assert_eq!(name_of(&table, 6, 0), part(113, 1));
    assert_eq!(name_of(&table, 7, 1), part(123, 1));
    assert_eq!(name_of(&table, 6, 1), part(128, 7));
    assert_eq!(name_of(&table, 7, 32), part(139, 10));
    assert_eq!(&table[139..149], b"transition");
    let near = [(0, 1), (1, 2), (7, 2), (7, 33), (7, 64), (8, 0)];
    let far = [(256, 0), (u64::MAX, 0), (0, u64::MAX), (0, 65_536), (0, 1 << 32)];
    for (sort, number) in near.into_iter().chain(far) {
        assert_eq!(name_of(&table, sort, number), PartAnswer::Refused(12), "{sort} {number}");
    }
    assert_eq!(name_of(&table[..80], 0, 0), PartAnswer::Refused(11));
}

#[test]
fn entries() {
    let table = table(POLICY);
    let offset = |body: usize| u32::from_le_bytes(table[body * 8 - 4..body * 8].try_into().unwrap()) as usize;
    let expected = [(2, 0, 0, 16), (3, 1, 64, 64), (4, 1, 16, 16), (5, 1, 82, 82), (6, 3, 30, 10), (7, 3, 18, 6)];
    for (body, place, before, length) in expected {
        assert_eq!(entry(&table, body as u64, place), part(offset(body) + before, length));
        assert_eq!(entry(&table, body as u64, place + 1), PartAnswer::Refused(12));
    }
    assert_eq!(entry(&table, 8, 0), part(offset(8), 16));
    assert_eq!(entry(&table, 8, 1), part(offset(8) + 16, 16));
    assert_eq!(entry(&table, 8, 2), part(offset(8) + 32, 64));
    assert_eq!(entry(&table, 8, 3), PartAnswer::Refused(12));
    for body in [0, 1, 9, 258, u64::MAX] {
        assert_eq!(entry(&table, body, 0), PartAnswer::Refused(12));
    }
    assert_eq!(entry(&table, 2, u64::MAX), PartAnswer::Refused(12));
    assert_eq!(entry(&[], 0, 0), PartAnswer::Refused(11));
}
