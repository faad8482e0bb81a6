//! Tables as bytes: damaged, followed by other bytes, of edition 1, lent, kept, and shared by
//! threads.

use tegzhumbi::{Class, Decision, Denial, Table, TableBuf, Unsound};

const OFFICE: &[u8] = include_bytes!("../../../examples/office.cil");

const SMALL: &[u8] = b"(class file (read)) (user u) (user v) (role a) (type t)
    (userrole u a) (roletype a t)
    (constrain (file (read)) (eq u1 u2)) (validatetrans file (eq u3 v))";

fn compiled(text: &[u8]) -> TableBuf {
    TableBuf::compile(text).expect("the text is a policy")
}

#[test]
fn a_damaged_table_is_unsound() {
    let good = compiled(SMALL).into_bytes();
    assert!(Table::new(&good).is_ok());
    for length in 0..good.len() {
        assert_eq!(
            Table::new(&good[..length]).unwrap_err(),
            Unsound,
            "{length} bytes"
        );
    }
    // Every byte of the header counts: the edition, the number of bodies, offsets and lengths.
    for at in 0..84 {
        let mut damaged = good.clone();
        damaged[at] ^= 0x10;
        assert_eq!(Table::new(&damaged).unwrap_err(), Unsound, "byte {at}");
        let error = TableBuf::from_bytes(damaged.clone()).unwrap_err();
        assert_eq!(error.into_bytes(), damaged, "byte {at}");
    }
}

#[test]
fn what_is_after_a_table_is_no_part_of_it() {
    let own = compiled(OFFICE);
    let mut longer = own.bytes().to_vec();
    longer.extend([0xa5; 500]);
    let table = Table::new(&longer).unwrap();
    assert_eq!(table.bytes(), own.bytes());
    assert_eq!(table.user_name(tegzhumbi::User(39)), Some("sequoia"));
    let lease = table.class("lease").unwrap();
    let read = table.permission(lease, "read").unwrap();
    let clerk = table.context("cedar", "clerk", "desk_t").unwrap();
    assert_eq!(
        table.change(clerk, clerk, lease, read),
        own.table().change(clerk, clerk, lease, read)
    );
    assert_eq!(TableBuf::from_bytes(longer).unwrap().bytes(), own.bytes());
}

/// The same table in edition 1, which has no validatetrans statements: without the last two bodies
/// and their two pairs of offset and length.
fn in_edition_1(table: &[u8]) -> Vec<u8> {
    let number = |at: usize| u32::from_le_bytes(table[at..at + 4].try_into().unwrap());
    let mut older = vec![1, 0, 8, 0];
    for body in 0..8 {
        older.extend((number(4 + 8 * body) - 16).to_le_bytes());
        older.extend(number(8 + 8 * body).to_le_bytes());
    }
    let ninth_body = number(4 + 8 * 8) as usize;
    older.extend(&table[84..ninth_body]);
    older
}

#[test]
fn a_table_of_edition_1_is_read() {
    let newest = compiled(SMALL);
    let older = in_edition_1(newest.bytes());
    let file = Class(0);
    let by_user = |table: Table<'_>| {
        let context = table.context("u", "a", "t").unwrap();
        table.relabel(file, context, context, context).unwrap()
    };
    let denial = Denial::RelabelFails { statement: 0 };
    assert_eq!(
        by_user(newest.table()),
        Decision::Denied {
            denial,
            consulted: 1
        }
    );

    let mut longer = older.clone();
    longer.push(0xa5);
    let table = Table::new(&longer).unwrap();
    assert_eq!(table.bytes(), older);
    assert_eq!(by_user(table), Decision::Granted { consulted: 0 });
}

#[test]
fn memory_is_lent_again_once_the_table_is_dropped() {
    let mut memory = vec![0xa5; 4_000];
    let small = tegzhumbi::compile(SMALL, &mut memory).unwrap();
    assert_eq!(small.users().len(), 2);
    let office = tegzhumbi::compile(OFFICE, &mut memory).unwrap();
    assert_eq!(office.users().len(), 40);
    let length = office.bytes().len();
    assert_eq!(length, 3_720);

    // A refused text leaves the last table in the memory, and nothing was written after it.
    tegzhumbi::compile(b"(role", &mut memory).unwrap_err();
    assert_eq!(memory[..length], *compiled(OFFICE).bytes());
    assert!(memory[length..].iter().all(|&byte| byte == 0xa5));
    assert_eq!(Table::new(&memory).unwrap().users().len(), 40);
}

#[test]
fn an_owned_table_is_the_table_it_was_made_from() {
    let office = compiled(OFFICE);
    let copies = [
        office.clone(),
        TableBuf::from(office.table()),
        TableBuf::from_bytes(office.bytes().to_vec()).unwrap(),
    ];
    for copy in copies {
        assert_eq!(copy.as_ref(), office.bytes());
        assert_eq!(copy.table().roles().len(), 13);
        assert_eq!(copy.into_bytes(), office.bytes());
    }
    assert_eq!(
        format!("{office:?}"),
        "TableBuf(Table { bytes: 3720, users: 40, roles: 13, types: 12, classes: 4, .. })"
    );
}

#[test]
fn threads_share_tables() {
    fn is_shared<T: Send + Sync>() {}
    is_shared::<Table<'static>>();
    is_shared::<TableBuf>();

    let office = compiled(OFFICE);
    let table = office.table();
    let context = table.context("cedar", "clerk", "desk_t").unwrap();
    std::thread::scope(|scope| {
        for _ in 0..4 {
            scope.spawn(move || assert_eq!(table.valid(context), Ok(true)));
        }
    });
}
