//! The functions of the static library, and all that is unsafe in this package.
//!
//! `include/tegzhumbi.h` says what each function does. Calling one is right for three reasons:
//!
//! - The pointer and the length are those of one Rust slice, an empty one included, so all of its
//!   bytes may be read, and written where it is `&mut`; that slice overlaps no other.
//! - The function is proved to end for all bytes and all numbers, and to touch nothing outside of
//!   what it is lent. It keeps no pointer and has no state, so threads may call it at once.
//! - The structs below have the fields of the header's, in their order.
//!
//! The machine's stack has no part in what is proved. The code that is built for x86-64 touches its
//! stack page after page, so with too little of it a thread meets the guard page and the process
//! ends, as with Rust's own code.

use crate::names::Sort;
use crate::{Class, Context, Permission, Role, Type};

/// What became of a text: number 0 and the length of the table, or a refusal.
#[repr(C)]
pub(crate) struct Compiled {
    pub(crate) number: u32,
    pub(crate) place: u32,
    pub(crate) line: u32,
}

/// The answer to a question: outcome 0 is yes, 1 is no, and 2 a refusal.
#[repr(C)]
pub(crate) struct Answer {
    pub(crate) outcome: u32,
    pub(crate) number: u32,
    pub(crate) constraint: u32,
    pub(crate) consulted: u32,
}

impl Answer {
    /// Granted or valid; or a new role is told.
    pub(crate) const YES: u32 = 0;
    pub(crate) const REFUSED: u32 = 2;
}

/// Number 0 and a part of the table, or a refusal.
#[repr(C)]
struct Part {
    number: u32,
    start: u32,
    length: u32,
}

/// How many numbers a summary has: how many there are of each sort but permissions, four numbers
/// that only the questions read, and how many permissions each of 32 classes has.
const SUMMARY_NUMBERS: usize = 43;

/// Where the permissions of the first class are counted.
const FIRST_CLASS: usize = 11;

/// What the questions without the test have to know of a table.
#[repr(C)]
#[derive(Clone, Copy)]
pub(crate) struct Summary {
    numbers: [u32; SUMMARY_NUMBERS],
}

impl Summary {
    /// How many things of a sort, other than permissions, the table declares: 512 at most.
    pub(crate) fn count(&self, sort: Sort) -> u16 {
        self.numbers[sort as usize] as u16
    }

    /// How many permissions a class has: 32 at most, and none if it is not declared.
    pub(crate) fn permissions(&self, class: Class) -> u16 {
        let counts = &self.numbers[FIRST_CLASS..];
        counts
            .get(usize::from(class.0))
            .map_or(0, |&count| count as u16)
    }
}

extern "C" {
    fn tegzhumbi_compile(
        text: *const u8,
        text_len: usize,
        table: *mut u8,
        table_len: usize,
    ) -> Compiled;
    fn tegzhumbi_summarize(table: *const u8, table_len: usize, summary: *mut Summary) -> u32;
    fn tegzhumbi_sound_valid(
        table: *const u8,
        table_len: usize,
        summary: *const Summary,
        user: u64,
        role: u64,
        kind: u64,
    ) -> Answer;
    fn tegzhumbi_sound_change(
        table: *const u8,
        table_len: usize,
        summary: *const Summary,
        source_user: u64,
        source_role: u64,
        source_type: u64,
        target_user: u64,
        target_role: u64,
        target_type: u64,
        class: u64,
        permission: u64,
    ) -> Answer;
    fn tegzhumbi_sound_relabel(
        table: *const u8,
        table_len: usize,
        summary: *const Summary,
        class: u64,
        old_user: u64,
        old_role: u64,
        old_type: u64,
        new_user: u64,
        new_role: u64,
        new_type: u64,
        process_user: u64,
        process_role: u64,
        process_type: u64,
    ) -> Answer;
    fn tegzhumbi_sound_new_role(
        table: *const u8,
        table_len: usize,
        summary: *const Summary,
        role: u64,
        kind: u64,
        class: u64,
    ) -> Answer;
    fn tegzhumbi_sound_name(table: *const u8, table_len: usize, sort: u64, number: u64) -> Part;
    fn tegzhumbi_sound_entry(table: *const u8, table_len: usize, body: u64, place: u64) -> Part;
}

pub(crate) fn compile(text: &[u8], memory: &mut [u8]) -> Compiled {
    let (text_start, text_len) = (text.as_ptr(), text.len());
    // SAFETY: both slices are lent whole, the second to be written to; since it is `&mut`, it does
    // not overlap the text.
    unsafe { tegzhumbi_compile(text_start, text_len, memory.as_mut_ptr(), memory.len()) }
}

/// The summary of the table that the bytes begin with, or none if they are no sound table.
pub(crate) fn summarize(table: &[u8]) -> Option<Summary> {
    let mut summary = Summary {
        numbers: [0; SUMMARY_NUMBERS],
    };
    // SAFETY: the slice is lent to be read, and the numbers of one summary to be written.
    let sound = unsafe { tegzhumbi_summarize(table.as_ptr(), table.len(), &mut summary) };
    (sound == 1).then_some(summary)
}

pub(crate) fn valid(table: &[u8], summary: &Summary, context: Context) -> Answer {
    let [user, role, kind] = context.numbers();
    // SAFETY: the slice and one summary are lent to be read.
    unsafe { tegzhumbi_sound_valid(table.as_ptr(), table.len(), summary, user, role, kind) }
}

pub(crate) fn change(
    table: &[u8],
    summary: &Summary,
    [source, target]: [Context; 2],
    class: Class,
    permission: Permission,
) -> Answer {
    let [user1, role1, type1] = source.numbers();
    let [user2, role2, type2] = target.numbers();
    let (class, permission) = (class.0.into(), permission.0.into());
    let (start, length) = (table.as_ptr(), table.len());
    // SAFETY: the slice and one summary are lent to be read.
    unsafe {
        tegzhumbi_sound_change(
            start, length, summary, user1, role1, type1, user2, role2, type2, class, permission,
        )
    }
}

pub(crate) fn relabel(
    table: &[u8],
    summary: &Summary,
    class: Class,
    [old, new, process]: [Context; 3],
) -> Answer {
    let [user1, role1, type1] = old.numbers();
    let [user2, role2, type2] = new.numbers();
    let [user3, role3, type3] = process.numbers();
    let class = class.0.into();
    let (start, length) = (table.as_ptr(), table.len());
    // SAFETY: the slice and one summary are lent to be read.
    unsafe {
        tegzhumbi_sound_relabel(
            start, length, summary, class, user1, role1, type1, user2, role2, type2, user3, role3,
            type3,
        )
    }
}

pub(crate) fn new_role(
    table: &[u8],
    summary: &Summary,
    role: Role,
    kind: Type,
    class: Class,
) -> Answer {
    let (role, kind, class) = (role.0.into(), kind.0.into(), class.0.into());
    // SAFETY: the slice and one summary are lent to be read.
    unsafe { tegzhumbi_sound_new_role(table.as_ptr(), table.len(), summary, role, kind, class) }
}

/// The bytes of a name in a sound table.
pub(crate) fn name(table: &[u8], sort: u64, number: u64) -> Option<&[u8]> {
    // SAFETY: the slice is lent to be read.
    let part = unsafe { tegzhumbi_sound_name(table.as_ptr(), table.len(), sort, number) };
    part_of(table, part)
}

/// The bytes of an entry of a body in a sound table.
pub(crate) fn entry(table: &[u8], body: u64, place: u64) -> Option<&[u8]> {
    // SAFETY: the slice is lent to be read.
    let part = unsafe { tegzhumbi_sound_entry(table.as_ptr(), table.len(), body, place) };
    part_of(table, part)
}

fn part_of(table: &[u8], part: Part) -> Option<&[u8]> {
    let (start, length) = (part.start as usize, part.length as usize);
    (part.number == 0).then(|| &table[start..start + length])
}

#[cfg(test)]
mod tests {
    use super::*;
    use crate::MAX_TABLE_BYTES;

    /// The library writes as many numbers into a summary as the header says.
    #[test]
    fn the_c_header_has_the_same_lengths() {
        let path = concat!(env!("CARGO_MANIFEST_DIR"), "/../../include/tegzhumbi.h");
        let header = std::fs::read_to_string(path).expect("the header can be read");
        let says = |name, number| header.contains(&format!("#define {name} {number}\n"));
        assert!(says("TEGZHUMBI_SUMMARY_LENGTH", SUMMARY_NUMBERS));
        assert!(says("TEGZHUMBI_LONGEST_TABLE", MAX_TABLE_BYTES));
    }
}
