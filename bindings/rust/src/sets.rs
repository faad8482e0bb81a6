//! The sets of a table: the roles of a user, the types of a role, the members of an attribute.

use crate::names::Sort;
use crate::{
    linked, Role, RoleAttribute, Table, Type, TypeAttribute, Undeclared, User, UserAttribute,
};

/// Which body of a table has a set for each user, each role or each attribute.
const ROLES_OF_USERS: u64 = 2;
const TYPES_OF_ROLES: u64 = 3;
const ROLES_TO_BECOME: u64 = 4;
const ATTRIBUTES: u64 = 8;

impl<'t> Table<'t> {
    /// The roles that a user may act in, by number.
    pub fn roles_of(&self, user: User) -> Result<impl Iterator<Item = Role> + 't, Undeclared> {
        Ok(members(self.set(ROLES_OF_USERS, user.0)?).map(Role))
    }

    /// The types that a role may have, by number.
    pub fn types_of(&self, role: Role) -> Result<impl Iterator<Item = Type> + 't, Undeclared> {
        Ok(members(self.set(TYPES_OF_ROLES, role.0)?).map(Type))
    }

    /// The roles that a process of a role may become, by number; the role itself is among them only
    /// if a roleallow statement says so.
    pub fn may_become(&self, role: Role) -> Result<impl Iterator<Item = Role> + 't, Undeclared> {
        Ok(members(self.set(ROLES_TO_BECOME, role.0)?).map(Role))
    }

    /// The users that an attribute stands for, by number.
    ///
    /// ```
    /// use tegzhumbi::{TableBuf, User};
    ///
    /// // An attribute stands for its final set, whatever line says it: birch is among the others.
    /// let office = TableBuf::compile(
    ///     b"(userattribute others) (user ash) (userattributeset others (not ash)) (user birch)",
    /// )?;
    /// let table = office.table();
    /// let others = table.user_attribute("others").unwrap();
    /// assert_eq!(table.users_in(others)?.collect::<Vec<User>>(), [User(1)]);
    /// # Ok::<(), Box<dyn std::error::Error>>(())
    /// ```
    pub fn users_in(
        &self,
        attribute: UserAttribute,
    ) -> Result<impl Iterator<Item = User> + 't, Undeclared> {
        Ok(members(self.attribute(Sort::UserAttribute, attribute.0)?).map(User))
    }

    /// The roles that an attribute stands for, by number.
    pub fn roles_in(
        &self,
        attribute: RoleAttribute,
    ) -> Result<impl Iterator<Item = Role> + 't, Undeclared> {
        Ok(members(self.attribute(Sort::RoleAttribute, attribute.0)?).map(Role))
    }

    /// The types that an attribute stands for, by number.
    pub fn types_in(
        &self,
        attribute: TypeAttribute,
    ) -> Result<impl Iterator<Item = Type> + 't, Undeclared> {
        Ok(members(self.attribute(Sort::TypeAttribute, attribute.0)?).map(Type))
    }

    fn set(&self, body: u64, place: u16) -> Result<&'t [u8], Undeclared> {
        linked::entry(self.bytes, body, place.into()).ok_or(Undeclared)
    }

    /// The set of an attribute. The families share a body: users' attributes, then roles', then
    /// types'. So a number is looked at first, since one that is too large would have the place of
    /// an attribute of the next family.
    fn attribute(&self, sort: Sort, number: u16) -> Result<&'t [u8], Undeclared> {
        if number >= self.summary.count(sort) {
            return Err(Undeclared);
        }
        let families = [
            Sort::UserAttribute,
            Sort::RoleAttribute,
            Sort::TypeAttribute,
        ];
        let earlier = families.into_iter().filter(|&family| family < sort);
        let before: u16 = earlier.map(|family| self.summary.count(family)).sum();
        self.set(ATTRIBUTES, before + number)
    }
}

/// The numbers in a set: number n is in it if bit n mod 8 of byte n div 8 is 1.
fn members(set: &[u8]) -> impl Iterator<Item = u16> + '_ {
    let bits = set
        .iter()
        .flat_map(|byte| (0..8).map(move |bit| byte >> bit & 1 == 1));
    (0..)
        .zip(bits)
        .filter_map(|(number, is_member)| is_member.then_some(number))
}

#[cfg(test)]
mod tests {
    use super::*;

    #[test]
    fn members_are_the_bits_that_are_1() {
        assert_eq!(members(&[0; 16]).count(), 0);
        assert_eq!(members(&[0x81, 0, 0x02]).collect::<Vec<u16>>(), [0, 7, 17]);
        assert_eq!(
            members(&[0xff; 64]).collect::<Vec<u16>>(),
            (0..512).collect::<Vec<u16>>()
        );
    }
}
