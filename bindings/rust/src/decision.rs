//! What a change or a relabelling is answered.

use std::fmt;

use crate::linked::Answer;

/// The answer to [`Table::change`](crate::Table::change) and
/// [`Table::relabel`](crate::Table::relabel).
///
/// With it goes how many statements were consulted: those that speak of what is asked, up to and
/// with the first that fails. For a change they are constrain statements, for a relabelling
/// validatetrans statements.
#[derive(Clone, Copy, Debug, PartialEq, Eq, Hash)]
#[must_use = "a decision that nobody looks at denies nothing"]
pub enum Decision {
    /// It may be done.
    Granted {
        /// All statements that speak of it; each of them is true.
        consulted: u32,
    },
    /// It may not be done.
    Denied {
        /// Why not.
        denial: Denial,
        /// Statements up to and with the one that fails; 0 where the denial is another.
        consulted: u32,
    },
}

impl Decision {
    /// What an answer says that is not a refusal.
    pub(crate) fn of(answer: Answer) -> Decision {
        let consulted = answer.consulted;
        match answer.outcome {
            Answer::YES => Decision::Granted { consulted },
            _ => Decision::Denied {
                denial: Denial::of(answer.number, answer.constraint),
                consulted,
            },
        }
    }

    /// Whether it may be done.
    pub fn is_granted(self) -> bool {
        matches!(self, Decision::Granted { .. })
    }

    /// How many statements were consulted.
    pub fn consulted(self) -> u32 {
        match self {
            Decision::Granted { consulted } => consulted,
            Decision::Denied { consulted, .. } => consulted,
        }
    }
}

impl fmt::Display for Decision {
    fn fmt(&self, f: &mut fmt::Formatter<'_>) -> fmt::Result {
        match self {
            Decision::Granted { .. } => f.write_str("granted"),
            Decision::Denied { denial, .. } => write!(f, "denied: {denial}"),
        }
    }
}

/// Why a change or a relabelling is denied: the first of these that holds, in the order given.
///
/// A change is denied by 1 to 4, a relabelling by 1, 2, 5 and 6.
#[derive(Clone, Copy, Debug, PartialEq, Eq, Hash)]
pub enum Denial {
    /// 1: the source of the change, or the old context of the file, is not valid.
    SourceNotValid,
    /// 2: the target of the change, or the new context of the file, is not valid.
    TargetNotValid,
    /// 3: the source's role may not become the target's. Asked only of the class `process` and its
    /// permissions `transition` and `dyntransition`, and where the roles differ.
    RoleMayNotChange,
    /// 4: a constrain statement fails.
    ConstraintFails {
        /// Which: its place among all constrain statements of the text, from 0.
        statement: u32,
    },
    /// 5: the context of the process that relabels the file is not valid.
    ProcessNotValid,
    /// 6: a validatetrans statement fails.
    RelabelFails {
        /// Which: its place among all validatetrans statements of the text, from 0.
        statement: u32,
    },
}

impl Denial {
    fn of(number: u32, statement: u32) -> Denial {
        match number {
            1 => Denial::SourceNotValid,
            2 => Denial::TargetNotValid,
            3 => Denial::RoleMayNotChange,
            4 => Denial::ConstraintFails { statement },
            5 => Denial::ProcessNotValid,
            6 => Denial::RelabelFails { statement },
            other => unreachable!("a question is denied with 1 to 6, not with {other}"),
        }
    }

    /// The number that the documents give it, 1 to 6.
    pub fn number(self) -> u32 {
        match self {
            Denial::SourceNotValid => 1,
            Denial::TargetNotValid => 2,
            Denial::RoleMayNotChange => 3,
            Denial::ConstraintFails { .. } => 4,
            Denial::ProcessNotValid => 5,
            Denial::RelabelFails { .. } => 6,
        }
    }
}

impl fmt::Display for Denial {
    fn fmt(&self, f: &mut fmt::Formatter<'_>) -> fmt::Result {
        let not_valid =
            "not valid: its user lacks the role (userrole), or its role the type (roletype)";
        match self {
            Denial::SourceNotValid => write!(f, "the source, or old context, is {not_valid}"),
            Denial::TargetNotValid => write!(f, "the target, or new context, is {not_valid}"),
            Denial::RoleMayNotChange => {
                f.write_str("the source's role may not become the target's (roleallow)")
            }
            Denial::ConstraintFails { statement } => {
                write!(
                    f,
                    "constrain statement {statement} of the text, counted from 0, fails"
                )
            }
            Denial::ProcessNotValid => write!(f, "the process is {not_valid}"),
            Denial::RelabelFails { statement } => {
                write!(
                    f,
                    "validatetrans statement {statement} of the text, counted from 0, fails"
                )
            }
        }
    }
}

#[cfg(test)]
mod tests {
    use super::*;

    #[test]
    fn denials_go_by_their_numbers() {
        for number in 1..=6 {
            assert_eq!(Denial::of(number, 7).number(), number);
        }
        assert_eq!(Denial::of(4, 7), Denial::ConstraintFails { statement: 7 });
        assert_eq!(Denial::of(6, 7), Denial::RelabelFails { statement: 7 });
    }

    #[test]
    fn denials_say_what_is_wrong() {
        let shown = [1, 2, 3, 4, 5, 6].map(|number| Denial::of(number, 7).to_string());
        let lacks =
            "not valid: its user lacks the role (userrole), or its role the type (roletype)";
        assert_eq!(shown[0], format!("the source, or old context, is {lacks}"));
        assert_eq!(shown[1], format!("the target, or new context, is {lacks}"));
        assert_eq!(
            shown[2],
            "the source's role may not become the target's (roleallow)"
        );
        assert_eq!(
            shown[3],
            "constrain statement 7 of the text, counted from 0, fails"
        );
        assert_eq!(shown[4], format!("the process is {lacks}"));
        assert_eq!(
            shown[5],
            "validatetrans statement 7 of the text, counted from 0, fails"
        );
    }

    #[test]
    fn decisions_are_shown_with_their_denial() {
        let granted = Decision::Granted { consulted: 3 };
        assert_eq!(
            (granted.to_string().as_str(), granted.consulted()),
            ("granted", 3)
        );
        let denial = Denial::RoleMayNotChange;
        let denied = Decision::Denied {
            denial,
            consulted: 0,
        };
        assert_eq!(denied.to_string(), format!("denied: {denial}"));
        assert_eq!(denied.consulted(), 0);
    }

    #[test]
    fn only_outcome_0_is_a_grant() {
        for outcome in 0..4 {
            let answer = Answer {
                outcome,
                number: 1,
                constraint: 0,
                consulted: 0,
            };
            assert_eq!(Decision::of(answer).is_granted(), outcome == 0);
        }
    }
}
