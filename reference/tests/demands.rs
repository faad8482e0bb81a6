//! The three demands at random: memory, accepted exactly, and the table's answer against that of the statements.

mod common;

use common::{meant, table};
use reference::corpus::policy_text;
use reference::fault::Fault;
use reference::generator::damage::damage;
use reference::generator::layout::{lay_out, Gaps};
use reference::generator::policies::{policy, Shape};
use reference::generator::relabels::longer;
use reference::generator::tables::{in_edition_1, with_bytes_behind};
use reference::meaning::Meaning;
use reference::parser::{Family, Relation};
use reference::questions::{
    change, new_role, relabel, valid_context, Change, ChangeAnswer, Context, Relabel, RoleAnswer, ValidAnswer,
};
use reference::random::Random;
use reference::sound::decode;
use reference::table::{compile, contents, table_of, Outcome};

fn some_policy(random: &mut Random) -> Vec<u8> {
    let steps = random.between(0, 70);
    let small = random.chance(30);
    let objects = random.chance(30);
    let blocks = random.chance(40);
    let relabels = random.chance(50);
    policy_text(random, Shape { small, objects, blocks, relabels, ..Shape::good(steps) })
}

/// A context in declared numbers, mostly a valid one.
fn some_context(random: &mut Random, meaning: &Meaning) -> Context<usize> {
    let count = |family| meaning.policy.things(family).len();
    let pick = |random: &mut Random, from: Vec<usize>, count: usize| {
        if from.is_empty() || random.chance(10) {
            random.below(count)
        } else {
            *random.pick(&from)
        }
    };
    let user = random.below(count(Family::User));
    let roles = meaning.given(Relation::UserRole, user).into_iter().collect();
    let role = pick(random, roles, count(Family::Role));
    let types = meaning.given(Relation::RoleType, role).into_iter().collect();
    let kind = pick(random, types, count(Family::Type));
    Context { user, role, kind }
}

fn some_change(random: &mut Random, meaning: &Meaning) -> Change<usize> {
    let source = some_context(random, meaning);
    let target = if random.chance(10) { source } else { some_context(random, meaning) };
    let classes = &meaning.policy.classes;
    let process = classes.iter().position(|class| class.name == b"process");
    let class = match process {
        Some(process) if random.chance(50) => process,
        _ => random.below(classes.len()),
    };
    Change { source, target, class, permission: random.below(classes[class].permissions.len()) }
}

fn wide_context(c: &Context<usize>) -> Context<u64> {
    Context { user: c.user as u64, role: c.role as u64, kind: c.kind as u64 }
}

fn wide(q: &Change<usize>) -> Change<u64> {
    Change {
        source: wide_context(&q.source),
        target: wide_context(&q.target),
        class: q.class as u64,
        permission: q.permission as u64,
    }
}

#[test]
fn the_table_answers_as_the_statements() {
    let mut random = Random::new(3);
    let (mut denials, mut grants) = ([0; 5], 0);
    for _ in 0..400 {
        let text = some_policy(&mut random);
        let meaning = meant(&text);
        let table = table_of(&text).unwrap();
        let table = with_bytes_behind(&mut random, &table);
        for _ in 0..30 {
            let question = some_change(&mut random, &meaning);
            let answer = meaning.change(&question);
            assert_eq!(change(&table, &wide(&question)), answer, "{}", String::from_utf8_lossy(&text));
            match answer {
                ChangeAnswer::Granted { .. } => grants += 1,
                ChangeAnswer::Denied { number, .. } => denials[number as usize] += 1,
                ChangeAnswer::Refused(_) => panic!("never a refusal"),
            }
        }
    }
    assert!(grants > 500 && denials[1..].iter().all(|&count| count > 100), "{grants} {denials:?}");
}

fn some_relabel(random: &mut Random, meaning: &Meaning) -> Relabel<usize> {
    let [old, new, process] = [(); 3].map(|_| some_context(random, meaning));
    let validated: Vec<usize> =
        meaning.policy.validatetrans().iter().map(|v| meaning.policy.class(&v.class).unwrap()).collect();
    let class = if validated.is_empty() || random.chance(20) {
        random.below(meaning.policy.classes.len())
    } else {
        *random.pick(&validated)
    };
    Relabel { class, old, new, process }
}

fn wide_relabel(q: &Relabel<usize>) -> Relabel<u64> {
    let [old, new, process] = [q.old, q.new, q.process].map(|c| wide_context(&c));
    Relabel { class: q.class as u64, old, new, process }
}

/// Document 02, W-205: "Demand 3 covers this question"; on edition 1 every validatetrans is left out.
#[test]
fn the_table_answers_a_relabelling_as_the_statements() {
    let mut random = Random::new(13);
    let (mut denials, mut grants) = ([0; 7], 0);
    for _ in 0..400 {
        let text = some_policy(&mut random);
        let meaning = meant(&text);
        let table = table_of(&text).unwrap();
        let older = in_edition_1(&table);
        let table = with_bytes_behind(&mut random, &table);
        for _ in 0..30 {
            let question = some_relabel(&mut random, &meaning);
            let answer = meaning.relabel(&question);
            assert_eq!(relabel(&table, &wide_relabel(&question)), answer, "{}", String::from_utf8_lossy(&text));
            let without = match answer {
                ChangeAnswer::Denied { number: 6, .. } | ChangeAnswer::Granted { .. } => ChangeAnswer::Granted { consulted: 0 },
                other => other,
            };
            assert_eq!(relabel(&older, &wide_relabel(&question)), without);
            match answer {
                ChangeAnswer::Granted { .. } => grants += 1,
                ChangeAnswer::Denied { number, .. } => denials[number as usize] += 1,
                ChangeAnswer::Refused(_) => panic!("never a refusal"),
            }
        }
    }
    assert!(grants > 500 && [1, 2, 5, 6].iter().all(|&n| denials[n] > 100), "{grants} {denials:?}");
    assert_eq!((denials[3], denials[4]), (0, 0));
}

/// How often each of the four combinations of question and added statement kept a denial, and how often it made a new one. The
/// first place is 0 for a change, 1 for a relabelling; the second is 0 for a constrain, 1 for a validatetrans.
#[derive(Debug, Default)]
struct Combined {
    kept: [[usize; 2]; 2],
    new: [[usize; 2]; 2],
}

impl Combined {
    /// Document 02, reading 75: a question that the first table denies is denied by the second, with the same answer; and a
    /// statement of the other kind leaves every answer as it was.
    fn take(&mut self, question: usize, added: usize, first: ChangeAnswer, second: ChangeAnswer) {
        assert!(!matches!((first, second), (ChangeAnswer::Refused(_), _) | (_, ChangeAnswer::Refused(_))));
        if question != added || matches!(first, ChangeAnswer::Denied { .. }) {
            assert_eq!(first, second);
        }
        self.kept[question][added] += matches!(first, ChangeAnswer::Denied { .. }) as usize;
        let granted = matches!(first, ChangeAnswer::Granted { .. });
        self.new[question][added] += (granted && matches!(second, ChangeAnswer::Denied { .. })) as usize;
    }
}

/// Document 02, reading 75: two questions and two kinds of added statement, on random policies, some of them in blocks. Both
/// tables answer as their statements.
#[test]
fn one_more_statement_of_either_kind() {
    let mut random = Random::new(17);
    let mut combined = Combined::default();
    for round in 0..400 {
        let steps = random.between(10, 60);
        let shorter = policy_text(&mut random, Shape { relabels: true, blocks: round % 2 == 0, ..Shape::good(steps) });
        let meaning = meant(&shorter);
        let number = random.below(meaning.policy.classes.len());
        let class = meaning.policy.classes[number].clone();
        let user = random.pick(&meaning.policy.things(Family::User)).to_vec();
        let names = [class.name, class.permissions[0].clone(), user];
        let [name, permission, user] = names.map(|name| String::from_utf8(name).unwrap());
        let added = round / 2 % 2;
        let last = match added {
            0 => format!("\n(constrain({name}({permission}))(eq u2 {user}))"),
            _ => format!("\n(validatetrans {name}(and(eq u3 {user})(eq t1 t2)))"),
        };
        let longer = [shorter.clone(), last.into_bytes()].concat();
        let (before, after) = (table_of(&shorter).unwrap(), table_of(&longer).unwrap());
        let longer = meant(&longer);
        for _ in 0..20 {
            // In most cases in the class of the added statement.
            let (mut question, mut relabelling) = (some_change(&mut random, &meaning), some_relabel(&mut random, &meaning));
            if random.chance(70) {
                (question.class, question.permission, relabelling.class) = (number, 0, number);
            }
            let (first, second) = (change(&before, &wide(&question)), change(&after, &wide(&question)));
            assert_eq!((first, second), (meaning.change(&question), longer.change(&question)));
            combined.take(0, added, first, second);
            let question = relabelling;
            let (first, second) = (relabel(&before, &wide_relabel(&question)), relabel(&after, &wide_relabel(&question)));
            assert_eq!((first, second), (meaning.relabel(&question), longer.relabel(&question)));
            combined.take(1, added, first, second);
        }
    }
    assert!(combined.kept.iter().flatten().all(|&count| count > 500), "{combined:?}");
    assert!(combined.new[0][0] > 50 && combined.new[1][1] > 50, "{combined:?}");
    assert_eq!((combined.new[0][1], combined.new[1][0]), (0, 0));
}

/// Document 02, reading 75: the listed policies, every question in their numbers, also on tables in edition 1.
#[test]
fn one_more_statement_by_hand() {
    let range = |count: usize| 0..count as u64;
    for listed in longer() {
        let (before, after) = (table(&listed.text), table(&format!("{}{}", listed.text, listed.added)));
        let added = listed.added.starts_with("(validatetrans ") as usize;
        assert!(added == 1 || listed.added.starts_with("(constrain("), "{}", listed.rule);
        let decoded = decode(&before).unwrap().counts;
        let mut contexts = Vec::new();
        for user in range(decoded.users()) {
            for role in range(decoded.roles()) {
                contexts.extend(range(decoded.types()).map(|kind| Context { user, role, kind }));
            }
        }
        let mut combined = Combined::default();
        for class in range(decoded.classes()) {
            for &source in &contexts {
                for &target in &contexts {
                    let question = Change { source, target, class, permission: 0 };
                    combined.take(0, added, change(&before, &question), change(&after, &question));
                    for &process in &contexts {
                        let question = Relabel { class, old: source, new: target, process };
                        combined.take(1, added, relabel(&before, &question), relabel(&after, &question));
                        assert_eq!(relabel(&in_edition_1(&before), &question), relabel(&in_edition_1(&after), &question));
                    }
                }
            }
        }
        assert!(combined.kept[0][added] > 0 && combined.kept[1][added] > 0, "{}", listed.rule);
        assert_eq!(combined.new[0][added] > 0, listed.denies_change, "{}", listed.rule);
        assert_eq!(combined.new[1][added] > 0, listed.denies_relabelling, "{}", listed.rule);
    }
}

/// "if the longer policy is accepted": at 64 statements, or 1,024 rows, one more validatetrans is refused.
#[test]
fn one_validatetrans_too_many() {
    let text = format!("(class c(p)){}", "(validatetrans c(eq u1 u2))".repeat(64));
    let one_more = format!("{text}(validatetrans c(eq u1 u2))");
    assert_eq!(table_of(one_more.as_bytes()), Err(Fault::new(6, text.len()).in_text(one_more.as_bytes())));
    assert!(table_of(format!("{text}(constrain(c(p))(eq u1 u2))").as_bytes()).is_ok());
}

#[test]
fn other_questions_answer_as_the_statements() {
    let mut random = Random::new(4);
    for _ in 0..150 {
        let text = some_policy(&mut random);
        let meaning = meant(&text);
        let table = table_of(&text).unwrap();
        for _ in 0..20 {
            let context = some_context(&mut random, &meaning);
            let object = meaning.policy.things(Family::Role)[context.role] == b"object_r";
            let valid = object
                || meaning.given(Relation::UserRole, context.user).contains(&context.role)
                    && meaning.given(Relation::RoleType, context.role).contains(&context.kind);
            let expected = if valid { ValidAnswer::Valid } else { ValidAnswer::NotValid };
            assert_eq!(valid_context(&table, &wide_context(&context)), expected);
            let class = random.below(meaning.policy.classes.len());
            let expected = RoleAnswer::Role(proposed(&meaning, context.role, context.kind, class));
            assert_eq!(new_role(&table, context.role as u64, context.kind as u64, class as u64), expected);
        }
    }
}

/// The new role by the statements.
fn proposed(meaning: &Meaning, role: usize, kind: usize, class: usize) -> usize {
    for (_, t) in meaning.policy.transitions() {
        let roles = meaning.stands_for(Family::Role, &t.role);
        let types = meaning.stands_for(Family::Type, &t.kind);
        if roles.contains(&role) && types.contains(&kind) && t.class == meaning.policy.classes[class].name {
            return meaning.policy.thing(Family::Role, &t.new_role).unwrap();
        }
    }
    role
}

#[test]
fn one_more_constrain_keeps_each_denial() {
    let mut random = Random::new(6);
    let mut kept = 0;
    for _ in 0..300 {
        let steps = random.between(10, 70);
        let mut statements = policy(&mut random, Shape::good(steps));
        let Some(last) = statements.iter().rposition(|s| s.starts_with("(constrain ")) else { continue };
        statements.truncate(last + 1);
        let shorter = lay_out(&mut random, &statements[..last], Gaps::Least);
        let longer = lay_out(&mut random, &statements, Gaps::Least);
        let meaning = meant(&shorter);
        let (before, after) = (table_of(&shorter).unwrap(), table_of(&longer).unwrap());
        for _ in 0..30 {
            let question = wide(&some_change(&mut random, &meaning));
            let (first, second) = (change(&before, &question), change(&after, &question));
            if matches!(first, ChangeAnswer::Denied { .. }) {
                assert_eq!(first, second);
                kept += 1;
            }
        }
    }
    assert!(kept > 1_000);
}

/// Document 02, reading 55: the added constrain stands at whole-text level, behind the last block. The text may end inside a
/// comment, which has to end first.
#[test]
fn one_more_constrain_behind_blocks() {
    let mut random = Random::new(16);
    let (mut kept, mut new, mut inner) = (0, 0, 0);
    for _ in 0..200 {
        let steps = random.between(10, 60);
        let mut shorter = policy_text(&mut random, Shape { blocks: true, ..Shape::good(steps) });
        if random.chance(30) {
            shorter.extend(b";)");
        }
        let meaning = meant(&shorter);
        let class = random.pick(&meaning.policy.classes).clone();
        let role = random.pick(&meaning.policy.things(Family::Role)).to_vec();
        inner += class.name.contains(&b'.') as usize;
        let [class, permission, role] = [class.name, class.permissions[0].clone(), role].map(|n| String::from_utf8(n).unwrap());
        // At whole-text level a full name finds itself, with or without a leading dot.
        let last = format!("\n(constrain({class}({permission}))(neq r1 .{role}))").into_bytes();
        let longer = [shorter.clone(), last].concat();
        let (before, after) = (table_of(&shorter).unwrap(), table_of(&longer).unwrap());
        let longer = meant(&longer);
        for _ in 0..20 {
            let question = some_change(&mut random, &meaning);
            let (first, second) = (change(&before, &wide(&question)), change(&after, &wide(&question)));
            assert_eq!(second, longer.change(&question));
            if matches!(first, ChangeAnswer::Denied { .. }) {
                assert_eq!(first, second);
                kept += 1;
            } else if matches!(second, ChangeAnswer::Denied { number: 4, .. }) {
                new += 1;
            }
        }
    }
    assert!(kept > 500 && new > 50 && inner > 25, "{kept} {new} {inner}");
}

#[test]
fn memory_is_unchanged_on_refusal_and_behind_the_table() {
    let mut random = Random::new(8);
    for round in 0..600 {
        let mut text = some_policy(&mut random);
        if round % 2 == 0 {
            text = damage(&mut random, &text);
        }
        let before: Vec<u8> = (0..random.below(4_000)).map(|_| random.byte()).collect();
        let mut lent = before.clone();
        match (compile(&text, &mut lent), table_of(&text)) {
            (Outcome::Accepted(length), Ok(table)) => {
                assert_eq!(lent[..length], table);
                assert_eq!(lent[length..], before[length..]);
            }
            (Outcome::Refused(fault), Ok(table)) => {
                assert_eq!(fault, Fault::new(10, table.len()));
                assert!(before.len() < table.len());
                assert_eq!(lent, before);
            }
            (Outcome::Refused(fault), Err(expected)) => {
                assert_eq!(fault, expected);
                assert_eq!(lent, before);
            }
            (outcome, _) => panic!("{outcome:?}"),
        }
    }
}

#[test]
fn lent_memory_just_enough_and_one_byte_less() {
    let length = table("(role a)").len();
    assert_eq!(compile(b"(role a)", &mut vec![9; length]), Outcome::Accepted(length));
    let mut short = vec![9; length - 1];
    assert_eq!(compile(b"(role a)", &mut short), Outcome::Refused(Fault::new(10, length)));
    assert_eq!(short, vec![9; length - 1]);
    assert_eq!(compile(b"", &mut []), Outcome::Refused(Fault::new(10, 84)));
    // Faults 1 to 9 come before 10.
    assert!(matches!(compile(b"()", &mut []), Outcome::Refused(fault) if fault.number == 3));
}

#[test]
fn a_table_gives_back_sets_rows_and_names() {
    let mut random = Random::new(9);
    for _ in 0..300 {
        let text = some_policy(&mut random);
        let decoded = decode(&table_of(&text).unwrap()).expect("a written table is sound");
        assert_eq!(decoded.contents, contents(&meant(&text)));
    }
}

/// Gaps have no meaning: the same statements laid out otherwise give the same table.
#[test]
fn gaps_do_not_change_the_table() {
    let mut random = Random::new(10);
    for _ in 0..100 {
        let statements = policy(&mut random, Shape::good(30));
        let plain = lay_out(&mut random, &statements, Gaps::Least);
        let varied = lay_out(&mut random, &statements, Gaps::Varied);
        assert_eq!(table_of(&plain), table_of(&varied));
    }
}
