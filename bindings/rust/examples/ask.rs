//! Compiles the policy on standard input, and prints from its table alone what each user's roles
//! are, and what some questions are answered.
//!
//! usage: ask <policy.cil

use std::io::Read;
use std::process::ExitCode;

use tegzhumbi::{
    Class, Context, Decision, Permission, Role, Table, TableBuf, Type, Undeclared, User,
};

fn main() -> ExitCode {
    let mut text = Vec::new();
    let input = std::io::stdin().read_to_end(&mut text);
    input.expect("standard input can be read");
    match TableBuf::compile(&text) {
        Ok(policy) => {
            println!("accepted {} bytes", policy.bytes().len());
            print_roles(policy.table());
            print_answers(policy.table());
            print_signing(policy.table());
            ExitCode::SUCCESS
        }
        Err(refusal) => {
            let (number, place) = (refusal.number(), refusal.place());
            println!("refused {number} at {place}: {refusal}");
            ExitCode::FAILURE
        }
    }
}

fn print_roles(table: Table<'_>) {
    for user in table.users() {
        let name = table.user_name(user).expect("a user has a name");
        let roles = table.roles_of(user).expect("a user has a set of roles");
        let names: Vec<&str> = roles.filter_map(|role| table.role_name(role)).collect();
        println!("{name}: {}", names.join(" "));
    }
}

/// Asks about the first user, role, type, class and permission.
fn print_answers(table: Table<'_>) {
    let (user, role, kind) = (User(0), Role(0), Type(0));
    let (class, permission) = (Class(0), Permission(0));
    let names = [
        table.user_name(user),
        table.role_name(role),
        table.kind_name(kind),
        table.class_name(class),
        table.permission_name(class, permission),
    ];
    let names = names.map(|name| name.unwrap_or("nothing"));
    println!("asked of: {}", names.join(" "));

    let context = Context { user, role, kind };
    println!("valid: {}", shown(table.valid(context)));
    let change = table.change(context, context, class, permission);
    println!("change: {}", shown(change.map(with_count)));
    let new_role = table.new_role(role, kind, class);
    let name = new_role.map(|role| table.role_name(role).expect("a role has a name"));
    println!("new role: {}", shown(name));
}

/// Asks whether a lease may be signed, if the policy speaks of leases.
fn print_signing(table: Table<'_>) {
    for (role, kind) in [("clerk", "desk_t"), ("registrar", "roll_t")] {
        if let Some(answer) = sign_lease(table, role, kind) {
            let answer = shown(answer.map(with_count));
            println!("lease signed by a {role}: {answer}");
        }
    }
}

/// Whether a lease file of the first user, a draft, may be relabelled as signed by a process of the
/// same user in a role; none if the policy does not speak of leases.
fn sign_lease(table: Table<'_>, role: &str, kind: &str) -> Option<Result<Decision, Undeclared>> {
    let user = table.user_name(User(0))?;
    let draft = table.context(user, "object_r", "draft_lease_t")?;
    let signed = table.context(user, "object_r", "signed_lease_t")?;
    let process = table.context(user, role, kind)?;
    Some(table.relabel(table.class("lease")?, draft, signed, process))
}

fn with_count(decision: Decision) -> String {
    format!("{decision} ({} consulted)", decision.consulted())
}

/// The answer, or why there is none.
fn shown<A: ToString>(answer: Result<A, Undeclared>) -> String {
    match answer {
        Ok(answer) => answer.to_string(),
        Err(undeclared) => format!("refused, {undeclared}"),
    }
}
