//! What a question is asked about, by number. A name in a table has its number in two bytes.

/// A user, by its number.
#[derive(Clone, Copy, Debug, PartialEq, Eq, PartialOrd, Ord, Hash)]
pub struct User(pub u16);

/// A role, by its number.
#[derive(Clone, Copy, Debug, PartialEq, Eq, PartialOrd, Ord, Hash)]
pub struct Role(pub u16);

/// A type, by its number.
#[derive(Clone, Copy, Debug, PartialEq, Eq, PartialOrd, Ord, Hash)]
pub struct Type(pub u16);

/// An attribute that stands for users, by its number.
#[derive(Clone, Copy, Debug, PartialEq, Eq, PartialOrd, Ord, Hash)]
pub struct UserAttribute(pub u16);

/// An attribute that stands for roles, by its number.
#[derive(Clone, Copy, Debug, PartialEq, Eq, PartialOrd, Ord, Hash)]
pub struct RoleAttribute(pub u16);

/// An attribute that stands for types, by its number.
#[derive(Clone, Copy, Debug, PartialEq, Eq, PartialOrd, Ord, Hash)]
pub struct TypeAttribute(pub u16);

/// A class of objects, by its number.
#[derive(Clone, Copy, Debug, PartialEq, Eq, PartialOrd, Ord, Hash)]
pub struct Class(pub u16);

/// A permission, by its place in its class; without that class it means nothing.
#[derive(Clone, Copy, Debug, PartialEq, Eq, PartialOrd, Ord, Hash)]
pub struct Permission(pub u16);

/// A user, acting in a role, with a type.
#[derive(Clone, Copy, Debug, PartialEq, Eq, PartialOrd, Ord, Hash)]
pub struct Context {
    /// Who acts, or whose file it is.
    pub user: User,
    /// In which role.
    pub role: Role,
    /// With which type. (`type` is a word of Rust.)
    pub kind: Type,
}

impl Context {
    /// The three numbers as the library's functions take them.
    pub(crate) fn numbers(self) -> [u64; 3] {
        [self.user.0, self.role.0, self.kind.0].map(u64::from)
    }
}
