//! The program: `reference roll`, `corpus`, `answer`, `definitions`, `statistics` and `compare`; see `USAGE`.

use reference::compare::{compare, linked};
use reference::corpus::{answer, write, Layer};
use reference::definitions::{definitions, Subject};
use reference::roll::roll;
use reference::statistics::statistics;
use std::io::{Read, Write};
use std::path::Path;
use std::process::ExitCode;

const USAGE: &str = "usage: reference roll                     text on standard input, prints the roll
       reference corpus LAYER SEED         writes a corpus; LAYER is scan, compile, sound, questions or tries
       reference answer LAYER              corpus on standard input, writes the expected lines
       reference definitions SUBJECT SEED FOLDER
                                           writes theorems that hold the prover's definitions to small cases; SUBJECT is texts or tables
       reference statistics LAYER [SEED]   counts the answers of a corpus
       reference compare SECONDS SEED      compares with the linked library";

fn main() -> ExitCode {
    let arguments: Vec<String> = std::env::args().skip(1).collect();
    let words: Vec<&str> = arguments.iter().map(String::as_str).collect();
    match run(&words) {
        Ok(bytes) => match std::io::stdout().write_all(&bytes) {
            Ok(()) => ExitCode::SUCCESS,
            Err(error) => complain(&error.to_string()),
        },
        Err(message) => complain(&message),
    }
}

fn complain(message: &str) -> ExitCode {
    eprintln!("{message}");
    ExitCode::from(2)
}

fn run(words: &[&str]) -> Result<Vec<u8>, String> {
    match words {
        ["roll"] => Ok(roll(&input()?)),
        ["corpus", name, seed] => Ok(write(layer(name)?, number(seed)?)),
        ["answer", name] => Ok(lines(answer(layer(name)?, &input()?)?)),
        ["definitions", name, seed, folder] => written(subject(name)?, number(seed)?, Path::new(folder)),
        ["statistics", name] => Ok(lines(statistics(layer(name)?, 1))),
        ["statistics", name, seed] => Ok(lines(statistics(layer(name)?, number(seed)?))),
        ["compare", seconds, seed] => compared(number(seconds)?, number(seed)?),
        _ => Err(USAGE.to_string()),
    }
}

/// Writes the files into the folder and says how many theorems they hold.
fn written(subject: Subject, seed: u64, folder: &Path) -> Result<Vec<u8>, String> {
    let files = definitions(seed, subject);
    for file in &files {
        std::fs::write(folder.join(&file.name), &file.text).map_err(|error| format!("{}: {error}", file.name))?;
    }
    let theorems: usize = files.iter().map(|file| file.text.matches("= refl\n").count()).sum();
    Ok(lines(vec![format!("{} files, {theorems} theorems", files.len())]))
}

fn compared(seconds: u64, seed: u64) -> Result<Vec<u8>, String> {
    let library = linked().ok_or("built without the other program; reference/long-comparison builds with it")?;
    let (tally, difference) = compare(&library, seconds, seed);
    match difference {
        None => Ok(lines(vec![format!("seed {seed}: {tally}; no difference")])),
        Some(difference) => Err(format!("seed {seed}: {tally}\n{difference}")),
    }
}

fn input() -> Result<Vec<u8>, String> {
    let mut bytes = Vec::new();
    std::io::stdin().read_to_end(&mut bytes).map_err(|error| error.to_string())?;
    Ok(bytes)
}

fn layer(name: &str) -> Result<Layer, String> {
    Layer::of(name).ok_or(format!("no layer {name}"))
}

fn subject(name: &str) -> Result<Subject, String> {
    Subject::of(name).ok_or(format!("no subject {name}"))
}

fn number(word: &str) -> Result<u64, String> {
    word.parse().map_err(|_| format!("not a number: {word}"))
}

fn lines(list: Vec<String>) -> Vec<u8> {
    list.into_iter().flat_map(|line| (line + "\n").into_bytes()).collect()
}
