//! A table that was found to be sound, and the questions on it.

use std::fmt;

use crate::linked::{self, Answer, Summary};
use crate::{Class, Context, Decision, Permission, Role, Type, Undeclared, Unsound};

/// A sound table, borrowed: what a policy says, in bytes that answer questions.
///
/// It is made by [`compile`](crate::compile), [`Table::new`] or
/// [`TableBuf::table`](crate::TableBuf::table). It is small (no bytes of the table are copied with
/// it), and threads may share it. Each question is refused as [`Undeclared`] if one of its numbers
/// is not declared in the table, and for no other reason.
///
/// Numbers are found by name, and names by number:
///
/// ```
/// use tegzhumbi::{Class, Permission, Role, TableBuf, User};
///
/// let office = TableBuf::compile(
///     b"(class lease (read sign))
///       (user ash) (role clerk) (role registrar) (type desk)
///       (userrole ash clerk) (roletype clerk desk) (roleallow clerk registrar)",
/// )?;
/// let table = office.table();
/// assert_eq!(table.role("registrar"), Some(Role(1)));
/// assert_eq!(table.role_name(Role(1)), Some("registrar"));
/// assert_eq!(table.permission(Class(0), "sign"), Some(Permission(1)));
/// assert_eq!(table.user("elm"), None);
///
/// let roles: Vec<Role> = table.roles_of(User(0))?.collect();
/// assert_eq!(roles, [Role(0)]);
/// # Ok::<(), Box<dyn std::error::Error>>(())
/// ```
///
/// A lookup walks over the names of the table. A server that is asked by names keeps a map:
///
/// ```
/// use std::collections::HashMap;
/// use tegzhumbi::{TableBuf, User};
///
/// let office = TableBuf::compile(b"(user ash) (user birch)")?;
/// let table = office.table();
/// let users: HashMap<&str, User> =
///     table.users().filter_map(|user| Some((table.user_name(user)?, user))).collect();
/// assert_eq!(users["birch"], User(1));
/// # Ok::<(), tegzhumbi::Refusal>(())
/// ```
#[derive(Clone, Copy)]
pub struct Table<'t> {
    /// The table's own bytes: a sound table, and nothing after it.
    pub(crate) bytes: &'t [u8],
    /// The summary of these bytes.
    pub(crate) summary: Summary,
}

impl<'t> Table<'t> {
    /// Tests whether the bytes are a sound table, with anything after it.
    ///
    /// This is the only test: the bytes are borrowed, so they cannot change while the table is
    /// used. It goes over the whole table.
    ///
    /// ```
    /// use tegzhumbi::{Table, TableBuf, Unsound};
    ///
    /// let mut bytes = TableBuf::compile(b"(user ash)")?.into_bytes();
    /// assert_eq!(Table::new(&bytes)?.user_name(tegzhumbi::User(0)), Some("ash"));
    ///
    /// bytes[0] = 77; // there is no such edition of tables
    /// assert_eq!(Table::new(&bytes).unwrap_err(), Unsound);
    /// # Ok::<(), Box<dyn std::error::Error>>(())
    /// ```
    pub fn new(bytes: &'t [u8]) -> Result<Table<'t>, Unsound> {
        let summary = linked::summarize(bytes).ok_or(Unsound)?;
        // The summary is that of the table's own bytes, whatever is after them: proved, as
        // `summary-of-own-bytes` in crates/table_summary/proofs/OwnBytes.antt.
        let bytes = &bytes[..length_of(bytes)];
        Ok(Table { bytes, summary })
    }

    /// The table's own bytes, without what was after it: what to keep in a file or send.
    pub fn bytes(&self) -> &'t [u8] {
        self.bytes
    }

    /// Whether the user may act in the role with the type.
    ///
    /// The role has to be among the user's, and the type among the role's. A role named `object_r`,
    /// which files carry, is valid with every user and type.
    ///
    /// ```
    /// use tegzhumbi::{Context, TableBuf, Type, Undeclared};
    ///
    /// let office = TableBuf::compile(
    ///     b"(user ash) (role clerk) (role temp) (role object_r) (type desk)
    ///       (userrole ash clerk) (roletype clerk desk)",
    /// )?;
    /// let table = office.table();
    /// let valid = |role| table.valid(table.context("ash", role, "desk").unwrap());
    /// assert_eq!(valid("clerk"), Ok(true));
    /// assert_eq!(valid("temp"), Ok(false));
    /// assert_eq!(valid("object_r"), Ok(true));
    ///
    /// let as_clerk = table.context("ash", "clerk", "desk").unwrap();
    /// assert_eq!(table.valid(Context { kind: Type(1), ..as_clerk }), Err(Undeclared));
    /// # Ok::<(), tegzhumbi::Refusal>(())
    /// ```
    pub fn valid(&self, context: Context) -> Result<bool, Undeclared> {
        let answer = declared(linked::valid(self.bytes, &self.summary, context))?;
        Ok(answer.outcome == Answer::YES)
    }

    /// Whether the source may do to the target, or become by it, what a permission of a class
    /// names.
    ///
    /// ```
    /// use tegzhumbi::{Decision, Denial, TableBuf};
    ///
    /// let office = TableBuf::compile(
    ///     b"(class process (transition)) (user ash) (type desk)
    ///       (role clerk) (role registrar) (userrole ash clerk) (userrole ash registrar)
    ///       (roletype clerk desk) (roletype registrar desk) (roleallow clerk registrar)",
    /// )?;
    /// let table = office.table();
    /// let process = table.class("process").unwrap();
    /// let transition = table.permission(process, "transition").unwrap();
    /// let clerk = table.context("ash", "clerk", "desk").unwrap();
    /// let registrar = table.context("ash", "registrar", "desk").unwrap();
    /// assert_eq!(
    ///     table.change(clerk, registrar, process, transition),
    ///     Ok(Decision::Granted { consulted: 0 })
    /// );
    /// let denial = Denial::RoleMayNotChange;
    /// assert_eq!(
    ///     table.change(registrar, clerk, process, transition),
    ///     Ok(Decision::Denied { denial, consulted: 0 })
    /// );
    /// # Ok::<(), tegzhumbi::Refusal>(())
    /// ```
    pub fn change(
        &self,
        source: Context,
        target: Context,
        class: Class,
        permission: Permission,
    ) -> Result<Decision, Undeclared> {
        let sides = [source, target];
        let answer = linked::change(self.bytes, &self.summary, sides, class, permission);
        declared(answer).map(Decision::of)
    }

    /// Whether a process may relabel a file of a class from its old context to a new one.
    ///
    /// ```
    /// use tegzhumbi::{Decision, Denial, TableBuf};
    ///
    /// let office = TableBuf::compile(
    ///     b"(class lease (sign)) (user ash) (role clerk) (role object_r)
    ///       (type desk) (type draft) (type signed) (userrole ash clerk) (roletype clerk desk)
    ///       (validatetrans lease (eq u1 u2))
    ///       (validatetrans lease (or (neq t2 signed) (neq r3 clerk)))",
    /// )?;
    /// let table = office.table();
    /// let lease = table.class("lease").unwrap();
    /// let draft = table.context("ash", "object_r", "draft").unwrap();
    /// let signed = table.context("ash", "object_r", "signed").unwrap();
    /// let clerk = table.context("ash", "clerk", "desk").unwrap();
    /// let denial = Denial::RelabelFails { statement: 1 };
    /// assert_eq!(
    ///     table.relabel(lease, draft, signed, clerk),
    ///     Ok(Decision::Denied { denial, consulted: 2 })
    /// );
    /// assert_eq!(
    ///     table.relabel(lease, signed, draft, clerk),
    ///     Ok(Decision::Granted { consulted: 2 })
    /// );
    /// # Ok::<(), tegzhumbi::Refusal>(())
    /// ```
    pub fn relabel(
        &self,
        class: Class,
        old: Context,
        new: Context,
        process: Context,
    ) -> Result<Decision, Undeclared> {
        let sides = [old, new, process];
        let answer = linked::relabel(self.bytes, &self.summary, class, sides);
        declared(answer).map(Decision::of)
    }

    /// The role that a new process is proposed: that of the first role transition of the role, the
    /// type and the class, else the role given. Whether it may be taken is still a [`change`].
    ///
    /// ```
    /// use tegzhumbi::TableBuf;
    ///
    /// let office = TableBuf::compile(
    ///     b"(class process (transition)) (role clerk) (role cashier) (type desk) (type cash)
    ///       (roletransition clerk cash process cashier)",
    /// )?;
    /// let table = office.table();
    /// let process = table.class("process").unwrap();
    /// let (clerk, cashier) = (table.role("clerk").unwrap(), table.role("cashier").unwrap());
    /// let (desk, cash) = (table.kind("desk").unwrap(), table.kind("cash").unwrap());
    /// assert_eq!(table.new_role(clerk, cash, process), Ok(cashier));
    /// assert_eq!(table.new_role(clerk, desk, process), Ok(clerk));
    /// # Ok::<(), tegzhumbi::Refusal>(())
    /// ```
    ///
    /// [`change`]: Table::change
    pub fn new_role(&self, role: Role, kind: Type, class: Class) -> Result<Role, Undeclared> {
        let answer = linked::new_role(self.bytes, &self.summary, role, kind, class);
        let number = declared(answer)?.number;
        Ok(Role(
            number.try_into().expect("no role has a number above 127"),
        ))
    }
}

/// How long the sound table is that the bytes begin with. Its header has the edition, the number of
/// bodies, and for each body where it begins and how long it is; the last body ends the table.
fn length_of(table: &[u8]) -> usize {
    let bodies = usize::from(u16::from_le_bytes([table[2], table[3]]));
    let last = 4 + 8 * (bodies - 1);
    four_bytes(table, last) + four_bytes(table, last + 4)
}

fn four_bytes(table: &[u8], at: usize) -> usize {
    let bytes = [table[at], table[at + 1], table[at + 2], table[at + 3]];
    u32::from_le_bytes(bytes) as usize
}

/// The answer, unless it is a refusal. The table is sound, so only an undeclared number is a cause.
fn declared(answer: Answer) -> Result<Answer, Undeclared> {
    match answer.outcome {
        Answer::REFUSED => Err(Undeclared),
        _ => Ok(answer),
    }
}

impl fmt::Debug for Table<'_> {
    /// How much there is of everything, since the bytes themselves would fill pages.
    fn fmt(&self, f: &mut fmt::Formatter<'_>) -> fmt::Result {
        f.debug_struct("Table")
            .field("bytes", &self.bytes.len())
            .field("users", &self.users().len())
            .field("roles", &self.roles().len())
            .field("types", &self.types().len())
            .field("classes", &self.classes().len())
            .finish_non_exhaustive()
    }
}
