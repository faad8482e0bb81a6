//! "The printed roll".

use crate::limits;
use crate::sound::decode;
use crate::table::{compile, Outcome};

/// What the program prints for a text. Reading 39: every line ends with LF, the refusal line too.
pub fn roll(text: &[u8]) -> Vec<u8> {
    let mut memory = vec![0; limits::ROLL_MEMORY];
    match compile(text, &mut memory) {
        Outcome::Refused(fault) => format!("{fault}\n").into_bytes(),
        Outcome::Accepted(length) => {
            let mut printed = format!("accepted {length} bytes\n").into_bytes();
            printed.extend(lines(&memory));
            printed
        }
    }
}

/// "Users first, then roles, by number; each line says how many members its set has."
fn lines(table: &[u8]) -> Vec<u8> {
    let contents = decode(table).expect("a written table is sound").contents;
    let names_of_sort = |sort| contents.names.iter().filter(move |e| e.sort == sort).map(|e| &e.name);
    let mut printed = Vec::new();
    let mut line = |kind: &str, name: &[u8], what: &str, count: usize| {
        printed.extend(format!("{kind} ").into_bytes());
        printed.extend(name);
        printed.extend(format!(" {what} {count}\n").into_bytes());
    };
    for (name, roles) in names_of_sort(0).zip(&contents.roles_of_user) {
        line("user", name, "roles", roles.len());
    }
    for (name, types) in names_of_sort(1).zip(&contents.types_of_role) {
        line("role", name, "types", types.len());
    }
    printed
}
