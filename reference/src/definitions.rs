//! Theorems that hold the definitions of the proved side to this program: what it says of small cases, written in the
//! prover's language, each to be closed by computation. Of the definitions only the names are known here.

use crate::corpus::fill;
use crate::fault::Fault;
use crate::generator::asked::asked;
use crate::generator::cases::cases_for_theorems;
use crate::generator::damage::{damage_dots, damage_sides, damage_tokens};
use crate::generator::layout::{lay_out, Gaps};
use crate::generator::maxima;
use crate::generator::policies::{policy, Shape};
use crate::generator::questions::{ask, of, Question};
use crate::generator::tables::{apply, in_edition_1, odd_and_sound, with_bytes_behind, ways, BASES};
use crate::lexer::has_dot;
use crate::meaning::meaning;
use crate::policy::read;
use crate::questions::{
    change, entry, name_of, new_role, relabel, valid_context, Change, ChangeAnswer, Context, PartAnswer, Relabel, RoleAnswer,
    ValidAnswer,
};
use crate::random::Random;
use crate::roll::roll;
use crate::sound::{decode, is_sound};
use crate::table::{compile, table_of, Outcome};

/// A source file of the prover.
pub struct File {
    pub name: String,
    pub text: String,
}

/// What is claimed of one case. Values that several claims cite have names of their own. In a value or a claim `CASE`
/// stands for the item's name, and every name is that name with an ending.
struct Item {
    rule: String,
    values: Vec<(&'static str, String)>,
    claims: Vec<(String, String)>,
}

impl Item {
    fn one(rule: &str, claim: String) -> Item {
        Item { rule: rule.to_string(), values: Vec::new(), claims: vec![(String::new(), claim)] }
    }
}

/// Items of one kind: the first part of their files' name, what their claims cite (the library's words, and definitions), and what stands
/// before them.
struct Chapter {
    name: &'static str,
    about: &'static str,
    words: &'static str,
    cites: &'static [&'static str],
    before: &'static str,
    items: Vec<Item>,
}

const MOST_ITEMS: usize = 60;
const MOST_BYTES: usize = 100_000;
/// The greatest text and table that are written out.
const MOST_TEXT: usize = 160;
const MOST_TABLE: usize = 400;
/// The most columns of a line, and the most bytes between two quotes.
const MOST_COLUMNS: usize = 150;
const MOST_QUOTED: usize = 120;

/// What the theorems of one crate are about: texts and what becomes of them, or tables and questions about them.
#[derive(Clone, Copy)]
pub enum Subject {
    Texts,
    Tables,
}

impl Subject {
    pub fn of(name: &str) -> Option<Subject> {
        match name {
            "texts" => Some(Subject::Texts),
            "tables" => Some(Subject::Tables),
            _ => None,
        }
    }
}

/// Every file about a subject, `Lib.antt` last: it names the others. Both subjects are made from the seed in one order, whichever is asked for.
pub fn definitions(seed: u64, subject: Subject) -> Vec<File> {
    let mut random = Random::new(seed);
    let texts = vec![refused(&mut random), accepted(&mut random), lent(), printed()];
    let tables = vec![questions(&mut random), unsound(&mut random), odd(&mut random)];
    let chapters = match subject {
        Subject::Texts => texts,
        Subject::Tables => tables,
    };
    let mut files: Vec<File> = chapters.iter().flat_map(files_of).collect();
    let names = files.iter().map(|file| format!("pub mod {}\n", file.name.trim_end_matches(".antt")));
    let text = names.collect();
    files.push(File { name: "Lib.antt".to_string(), text });
    files
}

fn files_of(chapter: &Chapter) -> Vec<File> {
    let mut files: Vec<File> = Vec::new();
    let mut items = 0;
    for (number, item) in chapter.items.iter().enumerate() {
        if files.is_empty() || items == MOST_ITEMS || files[files.len() - 1].text.len() > MOST_BYTES {
            let name = format!("{}{}.antt", chapter.name, files.len());
            files.push(File { name, text: opening(chapter) });
            items = 0;
        }
        items += 1;
        let last = files.len() - 1;
        files[last].text.push_str(&written(&format!("{}-{number}", chapter.name.to_lowercase()), item));
    }
    for file in &mut files {
        if file.text.contains(" ++ ") {
            file.text = file.text.replacen("[], ◌∷◌", "[], ◌∷◌, ◌++◌", 1);
        }
        file.text = file.text.lines().map(folded).collect();
    }
    files
}

/// A line of at most `MOST_COLUMNS`, or several: it goes on after a blank that is in no quotes and no braces.
fn folded(line: &str) -> String {
    if line.starts_with("use ") || line.starts_with("--") {
        return format!("{line}\n");
    }
    let letters: Vec<char> = line.chars().collect();
    let (mut text, mut start, mut blank, mut quotes, mut braces) = (String::new(), 0, None, false, 0);
    for at in 0..letters.len() {
        match letters[at] {
            '"' if letters[at - 1] != '\\' => quotes = !quotes,
            '{' if !quotes => braces += 1,
            '}' if !quotes => braces -= 1,
            ' ' if !quotes && braces == 0 && at > start + 4 => {
                if at - start > MOST_COLUMNS - 4 {
                    if let Some(end) = blank {
                        text.extend(&letters[start..end]);
                        text.push_str("\n    ");
                        start = end + 1;
                    }
                }
                blank = Some(at);
            }
            _ => {}
        }
    }
    if letters.len() - start > MOST_COLUMNS - 4 {
        if let Some(end) = blank.filter(|end| *end > start) {
            text.extend(&letters[start..end]);
            text.push_str("\n    ");
            start = end + 1;
        }
    }
    text.extend(&letters[start..]);
    text.push('\n');
    text
}

fn opening(chapter: &Chapter) -> String {
    let mut text = format!(
        "-- {} and what the independent second program says of them, held to the definitions by computation. \
         Written by reference/regenerate.\n-- Assumes nothing.\n",
        chapter.about
    );
    text.push_str(&format!("use Rattle.std.specs.Prelude.{{◌≡◌, refl, List, [], ◌∷◌{}}}\n", chapter.words));
    for line in chapter.cites {
        text.push_str(&format!("use {line}\n"));
    }
    text.push_str("use Rattle.policy.specs.Computing.{computing}\n");
    text.push_str(chapter.before);
    text
}

fn written(name: &str, item: &Item) -> String {
    let values = item.values.iter().map(|(end, value)| format!("abbrev {name}{end} : List ℕ\n{name}{end} = {value}\n"));
    let claims = item.claims.iter().map(|(end, claim)| {
        let claim = claim.replace("CASE", name);
        format!("{name}{end} : {claim}\nunfolding computing\n{name}{end} = refl\n")
    });
    let parts: Vec<String> = values.chain(claims).collect();
    format!("\n-- {}\n{}", item.rule, parts.join("\n"))
}

/// ASCII, which is the same in a quoted text and in bytes.
fn is_plain(text: &[u8]) -> bool {
    text.is_ascii()
}

/// A text in quotes; the prover escapes as Rust does. A long one is put together from several.
fn quoted(text: &[u8]) -> String {
    assert!(is_plain(text));
    if text.is_empty() {
        return "bytes \"\"".to_string();
    }
    let pieces = text.chunks(MOST_QUOTED).map(|piece| format!("bytes {:?}", String::from_utf8_lossy(piece)));
    pieces.collect::<Vec<String>>().join(" ++ ")
}

/// Bytes one by one.
fn listed(bytes: &[u8]) -> String {
    let mut list: String = bytes.iter().map(|byte| format!("{byte} ∷ ")).collect();
    list.push_str("[]");
    list
}

/// What is compiled is made from the text.
fn of_text(text: &[u8]) -> String {
    format!("of_text ({})", quoted(text))
}

/// A refusal by its number, place and line.
fn rejected(fault: Fault) -> String {
    format!("rejected (refusal_at {} {} {})", fault.number, fault.place, fault.line)
}

const BYTES: &str = "Rattle.lexer.specs.Spell.{bytes}";

/// Refusals 1 to 9, with memory enough for any table.
fn refused(random: &mut Random) -> Chapter {
    let mut items = Vec::new();
    let mut add = |rule: &str, text: &[u8]| {
        if let Err(fault) = table_of(text) {
            items.push(Item::one(rule, format!("outcome ({}) 65536 ≡ {}", of_text(text), rejected(fault))));
        }
    };
    for case in cases_for_theorems().iter().filter(|case| case.text.len() <= MOST_TEXT && is_plain(&case.text)) {
        add(&case.rule, &case.text);
    }
    for (rule, text) in texts_at_maxima() {
        add(&rule, &text);
    }
    for _ in 0..8 {
        let text = small_policy(random, Shape::small(2));
        add("a random policy, damaged", &damage_tokens(random, &text));
    }
    for _ in 0..2 {
        let text = small_policy_in_blocks(random);
        add("a random policy in blocks, damaged", &damage_dots(random, &text));
        let text = small_policy(random, Shape { clashes: true, ..Shape::small(8) });
        add("a random policy with clashes", &text);
        let text = small_policy_with_relabels(random);
        add("a random policy with validatetrans, its sides mixed up", &damage_sides(random, &text));
    }
    for _ in 0..12 {
        let text = small_policy(random, Shape { cycles: true, ..Shape::small(12) });
        add("a random policy with cycles", &text);
    }
    Chapter {
        name: "Refused",
        about: "Texts",
        words: "",
        cites: &[BYTES, "Rattle.policy.specs.Outcome.{of_text, refusal_at, rejected, outcome}"],
        before: "",
        items,
    }
}

fn small_policy(random: &mut Random, shape: Shape) -> Vec<u8> {
    let statements = policy(random, shape);
    lay_out(random, &statements, Gaps::Least)
}

/// A random policy that declares something in a block, in few bytes.
fn small_policy_in_blocks(random: &mut Random) -> Vec<u8> {
    loop {
        let text = small_policy(random, Shape { blocks: true, ..Shape::small(6) });
        let table = decode(&table_of(&text).expect("a good policy")).expect("sound");
        if text.len() <= MOST_TEXT && table.contents.names.iter().any(|entry| has_dot(&entry.name)) {
            return text;
        }
    }
}

/// A random policy with a validatetrans, in few bytes.
fn small_policy_with_relabels(random: &mut Random) -> Vec<u8> {
    loop {
        let text = small_policy(random, Shape { relabels: true, ..Shape::small(6) });
        let table = decode(&table_of(&text).expect("a good policy")).expect("sound");
        if text.len() <= MOST_TEXT && !table.contents.validations.is_empty() {
            return text;
        }
    }
}

/// One past a maximum; and exactly at it, with a statement of no form behind, so that 3 there says that all before passed.
fn texts_at_maxima() -> Vec<(String, Vec<u8>)> {
    let mut list = Vec::new();
    // Of the bounds of document 02, W-203, one for each kind is enough.
    let left_out = |name: &str| name == "levels within a block" || name.starts_with("full name of") && !name.ends_with("role");
    let bounds = maxima::bounds().into_iter().filter(|bound| bound.past.len() <= MOST_PAST_MAXIMUM && !left_out(bound.name));
    for bound in bounds {
        list.push((format!("past the maximum: {}", bound.name), bound.past));
        if bound.at.len() <= MOST_AT_MAXIMUM {
            list.push((format!("at the maximum: {}", bound.name), [bound.at, b"()".to_vec()].concat()));
        }
    }
    // The shortest text in which 5 and 6 meet is taken too.
    let taken = |rule: &str, text: &[u8]| text.len() <= MOST_AT_MAXIMUM || rule == "a 129th transition with an unknown role";
    for (rule, text, _) in maxima::orders().into_iter().filter(|(rule, text, _)| taken(rule, text)) {
        list.push((format!("reading 23: {rule}"), text));
    }
    list
}

/// The greatest texts at and past a maximum that are written out: the time to compute one grows with the square of it.
const MOST_AT_MAXIMUM: usize = 700;
const MOST_PAST_MAXIMUM: usize = 1_500;

/// The whole table, byte for byte.
fn accepted(random: &mut Random) -> Chapter {
    let mut items = Vec::new();
    let mut add = |rule: &str, text: &[u8]| match table_of(text) {
        Ok(table) if table.len() <= MOST_TABLE => {
            items.push(Item::one(rule, format!("table_of ({}) ≡ {}", quoted(text), listed(&table))));
            true
        }
        _ => false,
    };
    for case in cases_for_theorems().iter().filter(|case| case.text.len() <= MOST_TEXT && is_plain(&case.text)) {
        add(&case.rule, &case.text);
    }
    let mut found = 0;
    while found < 4 {
        let text = small_policy(random, Shape::small(2));
        found += add("a random policy", &text) as usize;
    }
    while found < 6 {
        let text = small_policy_in_blocks(random);
        found += add("a random policy in blocks", &text) as usize;
    }
    while found < 8 {
        let text = small_policy_with_relabels(random);
        found += add("a random policy with validatetrans", &text) as usize;
    }
    Chapter {
        name: "Accepted",
        about: "Texts",
        words: "",
        cites: &[BYTES, "Rattle.policy.specs.Worked.{table_of}"],
        before: "",
        items,
    }
}

/// Refusal 10, and the memory afterwards.
fn lent() -> Chapter {
    let mut items = Vec::new();
    let validated = "(class c(p))(validatetrans c(eq u1 u2))";
    for text in ["", "(user a)", "(class c(p))(constrain(c(p))(eq u1 u2))", "\n(user a)\n", validated] {
        let length = table_of(text.as_bytes()).expect("accepted").len();
        for lent in [0, length - 1, length, length + 1] {
            let answer = match compile(text.as_bytes(), &mut fill(lent)) {
                Outcome::Accepted(length) => format!("accepted {length}"),
                Outcome::Refused(fault) => rejected(fault),
            };
            items.push(Item::one("so much is lent", format!("outcome ({}) {lent} ≡ {answer}", of_text(text.as_bytes()))));
        }
    }
    for (rule, text, lent) in [
        // The table has 105 bytes.
        ("bytes past the table are unchanged", "(user a)", 116),
        ("on refusal 10 the memory is unchanged", "(user a)", 104),
        ("on refusal 3 the memory is unchanged", "(user a)()", 96),
        ("on refusal 2 the memory is unchanged", "!", 70),
    ] {
        let before = fill(lent);
        let mut after = before.clone();
        compile(text.as_bytes(), &mut after);
        let claim = format!("after ({}) ({}) ≡ {}", of_text(text.as_bytes()), listed(&before), listed(&after));
        items.push(Item::one(rule, claim));
    }
    Chapter {
        name: "Lent",
        about: "Texts and lent memory,",
        words: "",
        cites: &[BYTES, "Rattle.policy.specs.Outcome.{of_text, refusal_at, accepted, rejected, outcome, after}"],
        before: "",
        items,
    }
}

/// The words of the library for the questions' claims.
const VALUES: &str = ", ℕ, true, false";

/// What the questions' claims cite.
const ASKING: &[&str] = &[
    "Rattle.std.proofs.Math.Option.{none, some}",
    BYTES,
    "Rattle.policy.specs.Basics.{each}",
    "Rattle.policy.specs.Reading.{policy, refused}",
    "Rattle.policy.specs.Deciding.{Question, Answer, granted, denied, fails, refuses, answered, refused}",
    "Rattle.policy.specs.Answer.{answer}",
    "Rattle.policy.specs.Questions.{change, decided, change_on, relabel_on, valid_on, new_role_on, name_on, entry_on}",
    "Rattle.policy.specs.Sound.{image_in}",
    "Rattle.policy.specs.Outcome.{of_text, policy_of}",
    "Rattle.policy.specs.Worked.{table_of, context}",
];

/// Several changes at once, in the prover's language: the statements, and the table, are read once for all of them.
const CHANGES: &str = "
-- what the statements of a text answer
abbrev from_text : List ℕ → List Question → List Answer
from_text text qs = elim (policy_of (of_text text)) [ policy p ↦ each (answer p) qs | refused n at ↦ [] ]

-- `change_on` for each question
abbrev changes_on : List ℕ → List Question → List Answer
changes_on t qs = elim (image_in t) [ some i ↦ each (change i) qs | none ↦ each (λ q. decided (λ i. change i q) none) qs ]
";

/// Questions on tables of accepted texts; changes also as the statements answer them. Each relabelling is a claim of its own.
fn questions(random: &mut Random) -> Chapter {
    let mut items = Vec::new();
    for asked in asked() {
        items.push(asked_item(asked.rule, asked.text.as_bytes(), &asked.questions));
    }
    for _ in 0..RANDOM_ASKED {
        let steps = random.between(8, 14);
        let text = small_policy(random, Shape::small(steps));
        let decoded = decode(&table_of(&text).expect("a good policy")).expect("sound");
        let list: Vec<Question> = (0..6).map(|_| ask(random, &decoded)).collect();
        items.push(asked_item("a random policy and random questions", &text, &list));
    }
    items.extend(in_the_older_edition());
    Chapter { name: "Asked", about: "Questions", words: VALUES, cites: ASKING, before: CHANGES, items }
}

/// The table is written out, so that it is not computed again for every question.
fn asked_item(rule: &str, text: &[u8], list: &[Question]) -> Item {
    let table = table_of(text).expect("an accepted text");
    let mut claims = vec![("-written".to_string(), "table_of CASE ≡ CASE-table".to_string())];
    for (number, question) in list.iter().enumerate().filter(|(_, question)| question[0] != 1) {
        let claim = on_table("CASE-table", &table, question);
        if claims.iter().all(|(_, before)| *before != claim) {
            claims.push((format!("-{number}"), claim));
        }
    }
    let changes: Vec<Change<u64>> = list.iter().filter_map(asked_change).collect();
    match changes.as_slice() {
        [] => {}
        [one] => {
            let claim = format!("change_on CASE-table {} ≡ {}", change_words(one), change_answer(change(&table, one)));
            claims.push(("-change".to_string(), claim));
        }
        _ => claims.push(("-changes".to_string(), several("changes_on CASE-table", &changes, &|q| change(&table, q)))),
    }
    // The statements are asked only for what they declare.
    let declared = |q: &Change<u64>| !matches!(change(&table, q), ChangeAnswer::Refused(_));
    let changes: Vec<Change<u64>> = changes.into_iter().filter(declared).collect();
    if !changes.is_empty() {
        let meaning = meaning(read(text).expect("accepted")).expect("accepted");
        claims.push(("-statements".to_string(), several("from_text CASE", &changes, &|q| meaning.change(&in_bounds(q)))));
    }
    Item { rule: rule.to_string(), values: vec![("", quoted(text)), ("-table", listed(&table))], claims }
}

/// Document 02, W-205: "Readers take edition 1 as having none."
fn in_the_older_edition() -> Vec<Item> {
    let text = "(user u)(role a)(role b)(type t)(userrole u a)(roletype a t)(class c(p))(validatetrans c(neq u3 u))\
                (constrain(c(p))(neq u1 u2))";
    let table = in_edition_1(&table_of(text.as_bytes()).expect("an accepted text"));
    let (a, b) = (Context { user: 0, role: 0, kind: 0 }, Context { user: 0, role: 1, kind: 0 });
    let asked = Change { source: a, target: a, class: 0, permission: 0 };
    let relabels = [(a, a, a), (a, a, b), (b, a, a)].map(|(old, new, process)| Relabel { class: 0, old, new, process });
    let mut claims = vec![format!("change_on CASE-table {} ≡ {}", change_words(&asked), change_answer(change(&table, &asked)))];
    claims.extend(relabels.iter().map(|question| relabel_claim("CASE-table", &table, question)));
    let others: [Question; 4] = [of([0, 0, 0, 0]), of([4, 7, 0]), of([4, 9, 0]), of([4, 10, 0])];
    claims.extend(others.iter().map(|question| on_table("CASE-table", &table, question)));
    let claims = claims.into_iter().enumerate().map(|(number, claim)| (format!("-{number}"), claim)).collect();
    let rule = "W-205, readings 70, 71 and 73: a table of edition 1".to_string();
    vec![Item { rule, values: vec![("-table", listed(&table))], claims }]
}

/// A list of changes and the list of their answers.
fn several(asked: &str, changes: &[Change<u64>], answer: &dyn Fn(&Change<u64>) -> ChangeAnswer) -> String {
    let questions: String = changes.iter().map(|q| format!("{} ∷ ", change_words(q))).collect();
    let answers: String = changes.iter().map(|q| format!("{} ∷ ", change_answer(answer(q)))).collect();
    format!("{asked} ({questions}[]) ≡ {answers}[]")
}

fn in_bounds(question: &Change<u64>) -> Change<usize> {
    let context = |c: &Context<u64>| Context { user: c.user as usize, role: c.role as usize, kind: c.kind as usize };
    Change {
        source: context(&question.source),
        target: context(&question.target),
        class: question.class as usize,
        permission: question.permission as usize,
    }
}

const RANDOM_ASKED: usize = 3;

fn asked_change(question: &Question) -> Option<Change<u64>> {
    let [kind, a, b, c, d, e, f, class, permission, ..] = *question;
    let source = Context { user: a, role: b, kind: c };
    let target = Context { user: d, role: e, kind: f };
    (kind == 1).then_some(Change { source, target, class, permission })
}

/// A relabelling on a table.
fn relabel_claim(named: &str, table: &[u8], question: &Relabel<u64>) -> String {
    format!("relabel_on {named} {} ≡ {}", relabel_words(question), change_answer(relabel(table, question)))
}

/// What this program answers on the table to any question but a change.
fn on_table(named: &str, table: &[u8], question: &Question) -> String {
    let [kind, a, b, c, d, e, f, g, h, i, j] = *question;
    match kind {
        0 => {
            let asked = Context { user: a, role: b, kind: c };
            let answer = match valid_context(table, &asked) {
                ValidAnswer::Valid => "answered true".to_string(),
                ValidAnswer::NotValid => "answered false".to_string(),
                ValidAnswer::Refused(number) => format!("refused {number} 0"),
            };
            format!("valid_on {named} ({}) ≡ {answer}", context_words(&asked))
        }
        2 => {
            let answer = match new_role(table, a, b, c) {
                RoleAnswer::Role(role) => format!("answered {role}"),
                RoleAnswer::Refused(number) => format!("refused {number} 0"),
            };
            format!("new_role_on {named} {a} {b} {c} ≡ {answer}")
        }
        3 => format!("name_on {named} {a} {b} ≡ {}", part_answer(name_of(table, a, b))),
        5 => {
            let old = Context { user: b, role: c, kind: d };
            let new = Context { user: e, role: f, kind: g };
            let process = Context { user: h, role: i, kind: j };
            relabel_claim(named, table, &Relabel { class: a, old, new, process })
        }
        _ => format!("entry_on {named} {a} {b} ≡ {}", part_answer(entry(table, a, b))),
    }
}

fn context_words(c: &Context<u64>) -> String {
    format!("context {} {} {}", c.user, c.role, c.kind)
}

fn relabel_words(q: &Relabel<u64>) -> String {
    let [old, new, process] = [&q.old, &q.new, &q.process].map(context_words);
    format!("(record {{ class = {}; old = {old}; new = {new}; process = {process} }})", q.class)
}

fn change_words(q: &Change<u64>) -> String {
    let (source, target) = (context_words(&q.source), context_words(&q.target));
    format!("(record {{ source = {source}; target = {target}; class = {}; perm = {} }})", q.class, q.permission)
}

fn change_answer(answer: ChangeAnswer) -> String {
    match answer {
        ChangeAnswer::Granted { consulted } => said("granted", consulted),
        ChangeAnswer::Denied { number: number @ (4 | 6), constraint, consulted } => {
            said(&format!("fails {number} {constraint}"), consulted)
        }
        ChangeAnswer::Denied { number, consulted, .. } => said(&format!("denied {number}"), consulted),
        ChangeAnswer::Refused(number) => said(&format!("refuses {number} 0"), 0),
    }
}

fn said(verdict: &str, consulted: usize) -> String {
    format!("record {{ verdict = {verdict}; consulted = {consulted} }}")
}

fn part_answer(answer: PartAnswer) -> String {
    match answer {
        PartAnswer::Part { start, length } => format!("answered (record {{ start = {start}; size = {length} }})"),
        PartAnswer::Refused(number) => format!("refused {number} 0"),
    }
}

/// Small policies whose tables have something to damage, the smallest first.
const SMALL_BASES: [&str; 8] = [
    "(class c(p))(constrain(c(p))(not(eq u1 u2)))",
    "(class c(p))(validatetrans c(not(eq u1 u2)))",
    "(class c(p))(user u)(validatetrans c(eq u3 u))(validatetrans c(or(eq t1 t2)(neq u2 u)))",
    "(class c(p q))(user u)(constrain(c(q))(or(eq t1 t2)(neq u2 u)))(constrain(c(p))(eq t1 t2))",
    "(user u)(userattribute x)(class c(p))(class d(q r))(constrain(d(r))(and(eq u1 u2)(eq u1 x)))",
    "(role a)(user u)(userrole u a)(roleattribute y)(roleattributeset y(a))",
    "(role a)(type t)(roletype a t)(class c(p))(roletransition a t c a)",
    "(type t)(typeattribute z)(typeattributeset z(t))",
];

/// One damaged table for each way of damage, the smallest that it can be done to.
fn unsound(random: &mut Random) -> Chapter {
    let tables: Vec<Vec<u8>> =
        SMALL_BASES.iter().chain(&BASES).map(|text| table_of(text.as_bytes()).expect("a base is accepted")).collect();
    let mut items = vec![Item::one("no byte at all", "image_in [] ≡ none".to_string())];
    for (rule, way) in ways() {
        let table = tables.iter().find_map(|base| apply(way, base, random)).expect("a base to damage in this way");
        assert!(!is_sound(&table), "{rule}");
        items.push(Item::one(rule, format!("image_in ({}) ≡ none", listed(&table))));
    }
    // Document 02, W-205: some of them in edition 1 too.
    let older = [0, 3].map(|base| in_edition_1(&tables[base]));
    for (rule, way) in ways().into_iter().filter(|(rule, _)| IN_EDITION_1.contains(rule)) {
        let table = older.iter().find_map(|base| apply(way, base, random)).expect("a base to damage in this way");
        assert!(!is_sound(&table), "{rule}");
        items.push(Item::one(&format!("edition 1: {rule}"), format!("image_in ({}) ≡ none", listed(&table))));
    }
    Chapter {
        name: "Unsound",
        about: "Tables",
        words: "",
        cites: &["Rattle.std.proofs.Math.Option.{none}", "Rattle.policy.specs.Sound.{image_in}"],
        before: "",
        items,
    }
}

/// The ways of damage that are claimed of a table of edition 1 as well.
const IN_EDITION_1: [&str; 4] = ["another edition", "another edition's count", "cut at the end", "side 3 in section 7"];

/// Sound tables that no text gives, or with bytes behind, and an answer from each.
fn odd(random: &mut Random) -> Chapter {
    let behind = with_bytes_behind(random, &table_of(b"(user u)(role a)(userrole u a)").expect("accepted"));
    let mut tables = vec![("bytes behind the table", behind)];
    tables.extend(odd_and_sound().into_iter().filter(|(_, table)| table.len() <= 2 * MOST_TABLE));
    let questions: [Question; 3] = [of([2, 0, 0, 0]), of([3, 1, 0]), of([4, 5, 1])];
    let item = |(rule, table): (&str, Vec<u8>)| Item {
        rule: rule.to_string(),
        values: vec![("-table", listed(&table))],
        claims: (0..).zip(&questions).map(|(n, q)| (format!("-{n}"), on_table("CASE-table", &table, q))).collect(),
    };
    let items = tables.into_iter().map(item).collect();
    Chapter { name: "Odd", about: "Tables", words: VALUES, cites: ASKING, before: "", items }
}

/// The printed roll.
fn printed() -> Chapter {
    let texts: [(&str, &str); 15] = [
        ("the roll of document 01", "(user u)(role a)(role b)(type t)(userrole u a)(roletype a t)"),
        ("the empty text", ""),
        ("a refusal", "(role a)(roletype a t)"),
        ("a refusal at the end of the text", "(role a)(user "),
        ("refusal 8", "(roleattribute x)(roleattributeset x(x))"),
        ("W-202: a refusal on a later line", "(role a)\n\n(roletype a t)"),
        ("W-202: the line in two digits", "\n\n\n\n\n\n\n\n\n!"),
        ("W-202: the lines before the end of the text", "(\n"),
        ("users first", "(role b)(user v)(role a)(user u)(userrole u b)"),
        ("by number, not by name", "(user z)(user a)(role r)(userrole a r)"),
        ("sets through attributes", "(user u)(role a)(role b)(roleattribute x)(userrole u x)(roleattributeset x(all))"),
        (
            "more than nine members",
            "(role a)(type a)(type b)(type c)(type d)(type e)(type f)(type g)(type h)(type i)(type j)(typeattribute x)\
             (typeattributeset x(all))(roletype a x)",
        ),
        ("W-203: full names", "(block b(role a)(block c(user u)(userrole u a)))"),
        ("W-205: validatetrans prints nothing", "(user u)(role a)(class c(p))(validatetrans c(eq r3 a))"),
        ("attributes and classes print nothing", "(userattribute x)(class c(p))(type t)(role long-name_1)"),
    ];
    let item = |(rule, text): (&str, &str)| {
        let shown = roll(text.as_bytes());
        Item::one(rule, format!("printed ({}) ≡ {}", of_text(text.as_bytes()), quoted(&shown)))
    };
    Chapter {
        name: "Printed",
        about: "Texts",
        words: "",
        cites: &[BYTES, "Rattle.policy.specs.Outcome.{of_text}", "Rattle.policy.specs.Roll.{printed}"],
        before: "",
        items: texts.into_iter().map(item).collect(),
    }
}

#[cfg(test)]
mod tests {
    use super::*;

    const SUBJECTS: [Subject; 2] = [Subject::Texts, Subject::Tables];

    /// All theorems, each in one line again.
    fn all() -> String {
        SUBJECTS.iter().flat_map(|subject| definitions(1, *subject)).map(|file| file.text.replace("\n    ", " ")).collect()
    }

    /// The lines of all claimed refusals of one number.
    fn lines_of(text: &str, number: usize) -> Vec<usize> {
        let start = format!("≡ rejected (refusal_at {number} ");
        let line = |rest: &str| rest.split([' ', ')']).nth(1).and_then(|line| line.parse().ok());
        text.split(&start).skip(1).map(|rest| line(rest).expect("a place and a line")).collect()
    }

    #[test]
    fn every_kind_of_answer_is_claimed() {
        let text = all();
        let count = |what: &str| text.matches(what).count();
        for number in 2..=10 {
            assert!(count(&format!("≡ rejected (refusal_at {number} ")) >= 3, "rejected {number}");
        }
        for number in 2..=9 {
            assert!(lines_of(&text, number).iter().any(|line| *line > 1), "rejected {number} on a later line");
        }
        assert!(lines_of(&text, 10).iter().all(|line| *line == 0));
        for what in [
            "verdict = granted; consulted = 0", "verdict = granted; consulted = 1", "verdict = granted; consulted = 3",
            "verdict = denied 1;", "verdict = denied 2;", "verdict = denied 3;", "verdict = fails 4 0; consulted = 1",
            "verdict = fails 4 2; consulted = 2", "verdict = fails 4 4; consulted = 3", "verdict = refuses 12 0; consulted = 0",
            "verdict = denied 5; consulted = 0", "verdict = fails 6 1; consulted = 1", "verdict = fails 6 2; consulted = 2",
            "answered true", "answered false", "≡ answered 1", "≡ answered (record", "≡ refused 12 0", "≡ none",
            "printed (of_text (",
        ] {
            assert!(count(what) >= 1, "{what}");
        }
        assert_eq!(count("CASE"), 0);
        assert!(count(" : from_text asked-") >= 20);
        assert!(count(" : changes_on asked-") >= 18 && count(" : change_on asked-") >= 2);
    }

    /// Document 02, W-205: what is claimed of a relabelling, word for word; and no claim has a field of another name.
    #[test]
    fn relabellings_are_claimed() {
        let text = all();
        let claims: Vec<&str> = text.lines().filter(|line| line.contains(" : relabel_on asked-")).collect();
        assert!(claims.len() >= 15, "{}", claims.len());
        let expected = "-table (record { class = 0; old = context 1 1 1; new = context 0 0 0; process = context 1 1 1 }) \
                        ≡ record { verdict = fails 6 1; consulted = 1 }";
        assert!(claims.iter().any(|claim| claim.ends_with(expected)));
        for verdict in ["granted;", "denied 1;", "denied 2;", "denied 5;", "fails 6 0;", "refuses 12 0;"] {
            assert!(claims.iter().any(|claim| claim.contains(&format!("verdict = {verdict}"))), "{verdict}");
        }
        assert!(!text.contains("long = ") && text.contains("record { start = 88; size = "));
        let in_texts = |what: &str| text.lines().filter(|line| line.contains(what) && line.contains("(validatetrans ")).count();
        for number in [3, 5, 7] {
            assert!(in_texts(&format!("≡ rejected (refusal_at {number} ")) >= 1, "rejected {number}");
        }
        assert!(in_texts(": table_of (bytes") >= 5 && in_texts(": printed (") == 1);
    }

    #[test]
    fn texts_and_tables_with_blocks_and_dots_are_claimed() {
        let text = all();
        let in_blocks = |what: &str| text.lines().filter(|line| line.contains(what) && line.contains("(block ")).count();
        for number in [2, 3, 4, 5, 6, 8] {
            let what = format!("≡ rejected (refusal_at {number} ");
            let dotted = text.lines().filter(|line| line.contains(&what) && line.contains('.')).count();
            assert!(in_blocks(&what) + dotted >= 1, "rejected {number}");
        }
        assert!(in_blocks(": table_of (bytes") >= 4 && in_blocks(": printed (") == 1 && in_blocks("asked-") >= 1);
    }

    /// Each theorem takes long to check, so there are not many more than are needed.
    #[test]
    fn the_number_of_theorems_stays_about_the_same() {
        let count = |subject| definitions(1, subject).iter().map(|file| file.text.matches("= refl\n").count()).sum::<usize>();
        let (texts, tables) = (count(Subject::Texts), count(Subject::Tables));
        assert!((450..=540).contains(&texts) && (300..=370).contains(&tables), "{texts} {tables}");
    }

    #[test]
    fn the_same_seed_gives_the_same_files_and_none_is_large() {
        for subject in SUBJECTS {
            let files = definitions(3, subject);
            assert!(files.iter().zip(definitions(3, subject)).all(|(a, b)| a.name == b.name && a.text == b.text));
            assert!(files.iter().all(|file| file.text.len() < 150_000));
            assert_eq!(files.last().unwrap().text.lines().count(), files.len() - 1);
        }
    }
}
