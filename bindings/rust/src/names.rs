//! The names of a table: of each number its name, of each name its number, and all numbers. Names
//! are in full: in front of them are those of the blocks around, with dots between.

use crate::{
    linked, Class, Context, Permission, Role, RoleAttribute, Table, Type, TypeAttribute,
    Undeclared, User, UserAttribute,
};

/// The sorts of names, by the numbers that they have in a table.
#[derive(Clone, Copy, PartialEq, PartialOrd)]
pub(crate) enum Sort {
    User = 0,
    Role = 1,
    Type = 2,
    UserAttribute = 3,
    RoleAttribute = 4,
    TypeAttribute = 5,
    Class = 6,
}

/// The sort of permissions, which are numbered by class: the class x 32 + the place in it.
const PERMISSION: u64 = 7;
const PERMISSIONS_OF_A_CLASS: u64 = 32;

impl<'t> Table<'t> {
    /// The context of three names, if the table declares them all. Whether it is valid is a
    /// question of its own. In a name declared within blocks, the names of the blocks go before, as
    /// in `harbour.clerk`.
    pub fn context(&self, user: &str, role: &str, kind: &str) -> Option<Context> {
        Some(Context {
            user: self.user(user)?,
            role: self.role(role)?,
            kind: self.kind(kind)?,
        })
    }

    /// All users.
    pub fn users(&self) -> impl ExactSizeIterator<Item = User> {
        self.numbers(Sort::User).map(User)
    }

    /// The user of a name.
    pub fn user(&self, name: &str) -> Option<User> {
        self.find(Sort::User, name).map(User)
    }

    /// The name of a user; none if the table does not declare it.
    pub fn user_name(&self, user: User) -> Option<&'t str> {
        self.name(Sort::User, user.0)
    }

    /// All roles.
    pub fn roles(&self) -> impl ExactSizeIterator<Item = Role> {
        self.numbers(Sort::Role).map(Role)
    }

    /// The role of a name.
    pub fn role(&self, name: &str) -> Option<Role> {
        self.find(Sort::Role, name).map(Role)
    }

    /// The name of a role; none if the table does not declare it.
    pub fn role_name(&self, role: Role) -> Option<&'t str> {
        self.name(Sort::Role, role.0)
    }

    /// All types.
    pub fn types(&self) -> impl ExactSizeIterator<Item = Type> {
        self.numbers(Sort::Type).map(Type)
    }

    /// The type of a name. (`type` is a word of Rust.)
    pub fn kind(&self, name: &str) -> Option<Type> {
        self.find(Sort::Type, name).map(Type)
    }

    /// The name of a type; none if the table does not declare it.
    pub fn kind_name(&self, kind: Type) -> Option<&'t str> {
        self.name(Sort::Type, kind.0)
    }

    /// All attributes that stand for users.
    pub fn user_attributes(&self) -> impl ExactSizeIterator<Item = UserAttribute> {
        self.numbers(Sort::UserAttribute).map(UserAttribute)
    }

    /// The attribute of a name that stands for users.
    pub fn user_attribute(&self, name: &str) -> Option<UserAttribute> {
        self.find(Sort::UserAttribute, name).map(UserAttribute)
    }

    /// The name of an attribute that stands for users; none if the table does not declare it.
    pub fn user_attribute_name(&self, attribute: UserAttribute) -> Option<&'t str> {
        self.name(Sort::UserAttribute, attribute.0)
    }

    /// All attributes that stand for roles.
    pub fn role_attributes(&self) -> impl ExactSizeIterator<Item = RoleAttribute> {
        self.numbers(Sort::RoleAttribute).map(RoleAttribute)
    }

    /// The attribute of a name that stands for roles.
    pub fn role_attribute(&self, name: &str) -> Option<RoleAttribute> {
        self.find(Sort::RoleAttribute, name).map(RoleAttribute)
    }

    /// The name of an attribute that stands for roles; none if the table does not declare it.
    pub fn role_attribute_name(&self, attribute: RoleAttribute) -> Option<&'t str> {
        self.name(Sort::RoleAttribute, attribute.0)
    }

    /// All attributes that stand for types.
    pub fn type_attributes(&self) -> impl ExactSizeIterator<Item = TypeAttribute> {
        self.numbers(Sort::TypeAttribute).map(TypeAttribute)
    }

    /// The attribute of a name that stands for types.
    pub fn type_attribute(&self, name: &str) -> Option<TypeAttribute> {
        self.find(Sort::TypeAttribute, name).map(TypeAttribute)
    }

    /// The name of an attribute that stands for types; none if the table does not declare it.
    pub fn type_attribute_name(&self, attribute: TypeAttribute) -> Option<&'t str> {
        self.name(Sort::TypeAttribute, attribute.0)
    }

    /// All classes.
    pub fn classes(&self) -> impl ExactSizeIterator<Item = Class> {
        self.numbers(Sort::Class).map(Class)
    }

    /// The class of a name.
    pub fn class(&self, name: &str) -> Option<Class> {
        self.find(Sort::Class, name).map(Class)
    }

    /// The name of a class; none if the table does not declare it.
    pub fn class_name(&self, class: Class) -> Option<&'t str> {
        self.name(Sort::Class, class.0)
    }

    /// All permissions of a class.
    pub fn permissions(
        &self,
        class: Class,
    ) -> Result<impl ExactSizeIterator<Item = Permission>, Undeclared> {
        match self.summary.permissions(class) {
            0 => Err(Undeclared),
            count => Ok((0..count).map(Permission)),
        }
    }

    /// The permission of a name in a class.
    pub fn permission(&self, class: Class, name: &str) -> Option<Permission> {
        let mut permissions = self.permissions(class).ok()?;
        permissions.find(|&permission| self.permission_name(class, permission) == Some(name))
    }

    /// The name of a permission of a class; none if the table does not declare it.
    pub fn permission_name(&self, class: Class, permission: Permission) -> Option<&'t str> {
        // A greater place would have the number of a permission of the next class.
        if permission.0 >= self.summary.permissions(class) {
            return None;
        }
        let number = u64::from(class.0) * PERMISSIONS_OF_A_CLASS + u64::from(permission.0);
        linked::name(self.bytes, PERMISSION, number).map(text)
    }

    /// All numbers of a sort.
    fn numbers(&self, sort: Sort) -> std::ops::Range<u16> {
        0..self.summary.count(sort)
    }

    fn find(&self, sort: Sort, name: &str) -> Option<u16> {
        self.numbers(sort)
            .find(|&number| self.name(sort, number) == Some(name))
    }

    fn name(&self, sort: Sort, number: u16) -> Option<&'t str> {
        linked::name(self.bytes, sort as u64, number.into()).map(text)
    }
}

/// A name as text: it has only letters, digits, `_`, `-` and dots.
fn text(name: &[u8]) -> &str {
    std::str::from_utf8(name).expect("names are ASCII")
}
