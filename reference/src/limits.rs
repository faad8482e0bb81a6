//! The maxima of document 01, "How many" and "Reading the text", and of document 02.

/// "Text 65,535 bytes."
pub const TEXT: usize = 65_535;
/// "has 1 to 64 bytes"; document 02, W-203: not counting a leading dot, and "at most 64 bytes" for a full name.
pub const NAME: usize = 64;
/// "to 32 levels, the statement's own parentheses being level 1"
pub const LEVELS: usize = 32;
/// Document 02, W-203: "blocks nest to 8".
pub const BLOCKS: usize = 8;
/// Document 02, W-203: "at most 64 bytes and nine parts".
pub const PARTS: usize = 9;
pub const USERS: usize = 128;
pub const ROLES: usize = 128;
pub const TYPES: usize = 512;
/// "attributes 64 per family"
pub const ATTRIBUTES: usize = 64;
pub const CLASSES: usize = 32;
/// "permissions 32 per class"; also the factor in "class x 32 + its place".
pub const PERMISSIONS: usize = 32;
pub const TRANSITIONS: usize = 128;
pub const CONSTRAINTS: usize = 128;
/// "constraint rows 2,048 in all"
pub const ROWS: usize = 2_048;
/// Document 02, W-205: "At most 64 such statements and 1,024 rows."
pub const VALIDATETRANS: usize = 64;
pub const VALIDATETRANS_ROWS: usize = 1_024;
/// "Stack need of E ... At most 5."
pub const STACK: usize = 5;
/// "a table memory of 65,536 bytes"
pub const ROLL_MEMORY: usize = 65_536;
