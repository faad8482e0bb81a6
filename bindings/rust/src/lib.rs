//! Access policies written in SELinux CIL, compiled to a **table**, and questions answered from the
//! table alone. Every answer is given by the static library `tegzhumbi_c`, which is proved to meet
//! its contracts; this package links it and gives its numbers types.
//!
//! A server compiles its policy and looks up the numbers of what it will ask about. Then it asks as
//! often as it likes; a question allocates nothing and changes nothing.
//!
//! ```
//! use tegzhumbi::{Decision, Denial, TableBuf};
//!
//! const POLICY: &[u8] = b"
//!     (class lease (read sign))
//!     (user ash) (role clerk) (role registrar) (type desk)
//!     (userrole ash clerk)
//!     (roletype clerk desk) (roletype registrar desk)
//!     (roleallow clerk registrar)
//!     (constrain (lease (sign)) (eq r1 registrar))
//! ";
//!
//! fn main() -> Result<(), Box<dyn std::error::Error>> {
//!     let office = TableBuf::compile(POLICY)?;
//!     let table = office.table();
//!     let ash_as_clerk = table.context("ash", "clerk", "desk").ok_or("no such context")?;
//!     let lease = table.class("lease").ok_or("no class lease")?;
//!     let read = table.permission(lease, "read").ok_or("leases are not read")?;
//!     let sign = table.permission(lease, "sign").ok_or("leases are not signed")?;
//!
//!     // May ash as a clerk, at the desk, read a lease that is labelled so? And sign it?
//!     assert!(table.change(ash_as_clerk, ash_as_clerk, lease, read)?.is_granted());
//!     let decision = table.change(ash_as_clerk, ash_as_clerk, lease, sign)?;
//!     let denial = Denial::ConstraintFails { statement: 0 };
//!     assert_eq!(decision, Decision::Denied { denial, consulted: 1 });
//!     assert_eq!(
//!         decision.to_string(),
//!         "denied: constrain statement 0 of the text, counted from 0, fails"
//!     );
//!
//!     // A text that is not a policy is refused, and the refusal says where to look.
//!     let refusal = TableBuf::compile(b"(role clerk)\n(role clerk)").unwrap_err();
//!     assert_eq!(
//!         refusal.to_string(),
//!         "line 2: declared again: a name in its family, a permission in its class, or a block"
//!     );
//!     Ok(())
//! }
//! ```
//!
//! [`TableBuf`] owns its table and [`Table`] borrows one, as `String` and `str` do. Both exist only
//! for bytes that were found to be a sound table. They are tested once and cannot change after
//! that, so no question has to test them again. A table is plain bytes without pointers
//! ([`Table::bytes`]): keep it in a file, send it, and read it without the text
//! ([`TableBuf::from_bytes`]).
//!
//! # Numbers
//!
//! Users, roles, types, attributes and classes are known by their numbers. They count from 0 in the
//! order of the policy's text, each sort for itself, and permissions within their class. So numbers
//! are those of one table: **look them up anew when the policy changes**. Looking up a name or a
//! number gives an `Option`. Asking about a number that the table does not declare is refused as
//! [`Undeclared`].
//!
//! # Stack
//!
//! Compiling takes up to 448 KB of the thread's stack, and everything else up to 24 KB. The threads
//! of Rust's standard library have 2 MB unless they are given less.

#![deny(missing_docs, unsafe_code)]

mod decision;
#[allow(unsafe_code)]
mod linked;
mod names;
mod numbers;
mod refusal;
mod sets;
mod table;
mod table_buf;

pub use decision::{Decision, Denial};
pub use numbers::{
    Class, Context, Permission, Role, RoleAttribute, Type, TypeAttribute, User, UserAttribute,
};
pub use refusal::{Refusal, RefusalKind, Undeclared, Unsound};
pub use table::Table;
pub use table_buf::{TableBuf, UnsoundBytes};

/// The most bytes that a table can have: memory of this length is enough for every text.
pub const MAX_TABLE_BYTES: usize = 186_068;

/// Compiles a text into lent memory.
///
/// The table is written to the start of the memory, and the bytes after it stay as they are. If the
/// text is refused, all of the memory stays as it is. Who has no memory to lend calls
/// [`TableBuf::compile`].
///
/// ```
/// use tegzhumbi::RefusalKind;
///
/// let mut memory = [0; 280];
/// let roll = b"(user u)(role a)(role b)(type t)(userrole u a)(roletype a t)";
/// let refusal = tegzhumbi::compile(roll, &mut memory[..200]).unwrap_err();
/// assert_eq!(refusal.kind(), RefusalKind::MemoryTooShort);
/// assert_eq!(
///     refusal.to_string(),
///     "the lent memory is shorter than the table, which takes 280 bytes"
/// );
/// let table = tegzhumbi::compile(roll, &mut memory)?;
/// assert_eq!(table.bytes().len(), 280);
/// # Ok::<(), tegzhumbi::Refusal>(())
/// ```
///
/// The memory can be lent again, or written to, once the table is no longer used. Not before:
///
/// ```compile_fail,E0506
/// let mut memory = [0; 280];
/// let table = tegzhumbi::compile(b"(user ash)", &mut memory).unwrap();
/// memory[0] = 1;
/// println!("{:?}", table);
/// ```
pub fn compile<'m>(text: &[u8], memory: &'m mut [u8]) -> Result<Table<'m>, Refusal> {
    let compiled = linked::compile(text, memory);
    if compiled.number != 0 {
        return Err(Refusal::of(compiled));
    }
    let written = &memory[..compiled.place as usize];
    Ok(Table::new(written).expect("what compile writes is a sound table"))
}
