//! Helpers shared by the tests.
#![allow(dead_code)]

use reference::fault::Fault;
use reference::meaning::{meaning, Meaning, Numbers};
use reference::policy::read;
use reference::questions::{Change, Context};
use reference::sound::decode;
use reference::table::{table_of, Contents};

pub fn table(text: &str) -> Vec<u8> {
    table_of(text.as_bytes()).unwrap_or_else(|fault| panic!("{fault}: {text}"))
}

pub fn contents(text: &str) -> Contents {
    decode(&table(text)).expect("a written table is sound").contents
}

/// Number, place and line.
pub fn refused(text: &str) -> (u8, usize, usize) {
    match table_of(text.as_bytes()) {
        Ok(_) => panic!("accepted: {text}"),
        Err(Fault { number, place, line }) => (number, place, line),
    }
}

pub fn meant(text: &[u8]) -> Meaning {
    meaning(read(text).expect("faults 1 to 7")).expect("faults 8 and 9")
}

pub fn set(numbers: &[usize]) -> Numbers {
    numbers.iter().copied().collect()
}

pub fn context<N>(user: N, role: N, kind: N) -> Context<N> {
    Context { user, role, kind }
}

pub fn question(source: [u64; 3], target: [u64; 3], class: u64, permission: u64) -> Change<u64> {
    let [u1, r1, t1] = source;
    let [u2, r2, t2] = target;
    Change { source: context(u1, r1, t1), target: context(u2, r2, t2), class, permission }
}
