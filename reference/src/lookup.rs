//! The full names at which a use is tried (document 02, W-203), and one try: what it finds, and how many entries it compared
//! byte by byte. W-204: "Compare the length first and step over entries that can't match. Each try at a full name also tells
//! how many entries it compared byte by byte: exactly those of its family (for a permission, its class) and length, in order
//! of declaration, up to and including the hit."

use crate::limits;
use crate::parser::{Family, Name};

/// "sort in 1 byte (0 user, 1 role, 2 type, 3 to 5 their attributes, 6 class, 7 permission)"
pub const CLASS: u8 = 6;
pub const PERMISSION: u8 = 7;

/// A declared name as section 1 has it.
#[derive(Clone, Debug, PartialEq, Eq)]
pub struct NameEntry {
    pub sort: u8,
    /// "number in 2 bytes (permission: class x 32 + its place)"
    pub number: u16,
    /// The full name; of a permission its one part.
    pub name: Name,
}

/// What a try looks among (reading 57 of document 02): one family, things and attributes together, or the permissions of
/// one class.
#[derive(Clone, Copy, Debug, PartialEq, Eq)]
pub enum Among {
    Family(Family),
    Classes,
    /// By the number of the class, which need not be declared.
    Permissions(usize),
}

/// What came of a try. The count is never part of an answer (reading 61 of document 02).
#[derive(Clone, Copy, Debug, PartialEq, Eq)]
pub struct Try {
    /// Sort and number of the hit.
    pub found: Option<(u8, u16)>,
    pub compared: usize,
}

impl Among {
    /// By number: 0 users, 1 roles, 2 types, each with its attributes, 3 classes, 4 + c the permissions of class c.
    pub fn of(number: u32) -> Among {
        match number {
            0 => Among::Family(Family::User),
            1 => Among::Family(Family::Role),
            2 => Among::Family(Family::Type),
            3 => Among::Classes,
            _ => Among::Permissions(number as usize - 4),
        }
    }

    fn holds(self, entry: &NameEntry) -> bool {
        match self {
            Among::Family(family) => entry.sort == thing_sort(family) || entry.sort == attribute_sort(family),
            Among::Classes => entry.sort == CLASS,
            // Reading 59 of document 02: never those of other classes.
            Among::Permissions(class) => {
                entry.sort == PERMISSION && entry.number as usize / limits::PERMISSIONS == class
            }
        }
    }
}

/// The full name of what is declared within these blocks, the outermost first: "puts the names declared inside under `b.`".
pub fn full_name(blocks: &[Name], name: &Name) -> Name {
    [blocks, std::slice::from_ref(name)].concat().join(&b'.')
}

/// The full names at which a use within these blocks is tried, in order: "A leading dot means the whole-text level; any
/// other use is tried in the innermost block, then outward". Reading 42 of document 02: a dotted use is no exception,
/// whichever blocks exist. Reading 45: a try may pass 64 bytes; it misses, since no entry is so long.
pub fn tried_names(blocks: &[Name], written: &Name) -> Vec<Name> {
    match written.strip_prefix(b".") {
        Some(full) => vec![full.to_vec()],
        None => (0..=blocks.len()).rev().map(|depth| full_name(&blocks[..depth], written)).collect(),
    }
}

/// One try over entries in order of declaration.
pub fn try_at(entries: &[NameEntry], among: Among, name: &[u8]) -> Try {
    try_among(entries.iter().filter(|entry| among.holds(entry)), name)
}

/// One try over the entries of its family alone. Counted are those of the name's length "up to and including the hit";
/// with no hit, all of them (reading 57 of document 02).
pub fn try_among<'a>(family: impl Iterator<Item = &'a NameEntry> + Clone, name: &[u8]) -> Try {
    let of_length = family.filter(|entry| entry.name.len() == name.len());
    match of_length.clone().enumerate().find(|(_, entry)| entry.name == name) {
        Some((place, hit)) => Try { found: Some((hit.sort, hit.number)), compared: place + 1 },
        None => Try { found: None, compared: of_length.count() },
    }
}

pub fn thing_sort(family: Family) -> u8 {
    match family {
        Family::User => 0,
        Family::Role => 1,
        Family::Type => 2,
    }
}

pub fn attribute_sort(family: Family) -> u8 {
    thing_sort(family) + 3
}
