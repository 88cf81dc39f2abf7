//! What the words of the command line ask.

use crate::command::{Command, JSON, NEAREST_FIRST, REACH};
use crate::edition::{Edition, MOVED, NO_MOVE, listed};
use crate::fault::{Fault, quoted};
use crate::near::meant;
use splicereel::Level;
use std::ffi::OsString;

/// A command with its words.
#[derive(Debug)]
pub struct Call {
    pub command: Command,
    pub json: bool,
    pub file: OsString,
    pub question: Question,
}

/// What is asked about a town.
#[derive(Debug)]
pub enum Question {
    /// Nothing but what it holds.
    Town,
    /// Its network, moved to an edition.
    Move(Edition),
    Way(Way),
    Reach(Reach),
    Nearest(Nearest),
}

/// From where to where, as the words name it, and up to which tolerance.
#[derive(Debug)]
pub struct Way {
    pub from: String,
    pub to: String,
    pub limit: Limit,
}

/// From where, up to which tolerance and how many feet.
#[derive(Debug)]
pub struct Reach {
    pub from: String,
    pub tolerance: Level,
    pub greatest: usize,
    /// In the order of lengths rather than of nodes.
    pub nearest_first: bool,
}

/// From where to the nearest of which places, and up to which tolerance.
#[derive(Debug)]
pub struct Nearest {
    pub from: String,
    pub tolerance: Level,
    pub places: Vec<String>,
}

/// Up to which tolerance.
#[derive(Clone, Copy, Debug, PartialEq, Eq)]
pub enum Limit {
    Within(Level),
    Least,
}

/// What is asked.
#[derive(Debug)]
pub enum Request {
    /// Help on a command, or on all of them.
    Help(Option<Command>),
    Version,
    Do(Call),
}

/// Reads the words after the program's name.
pub fn read(words: Vec<OsString>) -> Result<Request, Fault> {
    let Parted { options, plain } = part(words);
    let has = |names: [&str; 2]| {
        options
            .iter()
            .any(|option| names.contains(&option.as_str()))
    };
    let mut plain = plain.into_iter().peekable();
    let help = plain.next_if(|word| word == "help").is_some();
    let command = plain
        .next()
        .map(|word| command(word, &options))
        .transpose()?;
    if help || has(["--help", "-h"]) {
        return Ok(Request::Help(command));
    }
    if has(["--version", "-V"]) {
        return Ok(Request::Version);
    }
    let unknown = |option: &&String| ![JSON, NEAREST_FIRST, REACH].contains(&option.as_str());
    if let Some(option) = options.iter().find(unknown) {
        return Err(Fault::new(unknown_option(option)));
    }
    let Some(command) = command else {
        let names = Command::names().join(", ");
        return Err(Fault::new(format!(
            "a command is missing: {names}; see splicereel --help"
        )));
    };
    call(command, &options, plain).map(Request::Do)
}

/// A command with its options and the words after it.
fn call(
    command: Command,
    options: &[String],
    mut words: impl Iterator<Item = OsString>,
) -> Result<Call, Fault> {
    if let Some(option) = options.iter().find(|option| !command.takes(option)) {
        let (name, line) = (command.name(), command.line());
        let words = format!("{name} has no {option}; expected: {line}");
        return Err(Fault::new(words));
    }
    let file = words.next().ok_or_else(|| miscounted(command, 0))?;
    let words: Vec<String> = words
        .map(|word| word.to_string_lossy().into_owned())
        .collect();
    let has = |name: &str| options.iter().any(|option| option == name);
    let question = question(command, &words, has(NEAREST_FIRST))?;
    Ok(Call {
        command,
        json: has(JSON),
        file,
        question: question.ok_or_else(|| miscounted(command, 1 + words.len()))?,
    })
}

/// What the words after the file ask; none where they are too few or too many.
fn question(
    command: Command,
    words: &[String],
    nearest_first: bool,
) -> Result<Option<Question>, Fault> {
    Ok(Some(match (command, words) {
        (Command::Check | Command::Levels | Command::Draw | Command::Text, []) => Question::Town,
        (Command::Convert, [word]) => Question::Move(edition(command, word)?),
        (Command::Route | Command::Draw, [from, to, word]) => Question::Way(Way {
            from: from.clone(),
            to: to.clone(),
            limit: limit(command, word)?,
        }),
        (Command::Reach | Command::DrawReach, [from, word, feet]) => Question::Reach(Reach {
            from: from.clone(),
            tolerance: tolerance(command, word)?,
            greatest: greatest(command, feet)?,
            nearest_first,
        }),
        (Command::Nearest, [from, word, places @ ..]) if !places.is_empty() => {
            Question::Nearest(Nearest {
                from: from.clone(),
                tolerance: tolerance(command, word)?,
                places: places.to_vec(),
            })
        }
        _ => return Ok(None),
    }))
}

/// The edition to move to that a word names.
fn edition(command: Command, word: &str) -> Result<Edition, Fault> {
    let named = Edition::named(word);
    let moved = named.filter(|edition| MOVED.contains(edition));
    moved.ok_or_else(|| {
        let why = named.map_or_else(String::new, |_| format!(": {NO_MOVE}"));
        let due = format!("must be {}{why}", listed(&MOVED, "or"));
        wrong(command, "the edition", word, &due)
    })
}

/// The tolerance that a word names, or `least`.
fn limit(command: Command, word: &str) -> Result<Limit, Fault> {
    match word.parse() {
        Ok(level) => Ok(Limit::Within(level)),
        Err(_) if word == "least" => Ok(Limit::Least),
        Err(_) => {
            let near = meant(word, ["least"]);
            let due = format!("must be 1, 2, 3, 4 or least{near}");
            Err(wrong(command, "TOLERANCE", word, &due))
        }
    }
}

/// The tolerance that a word names.
fn tolerance(command: Command, word: &str) -> Result<Level, Fault> {
    let wrong = |_| wrong(command, "TOLERANCE", word, "must be 1, 2, 3 or 4");
    word.parse().map_err(wrong)
}

/// The greatest length that a word names.
fn greatest(command: Command, word: &str) -> Result<usize, Fault> {
    let whole = !word.is_empty() && word.bytes().all(|byte| byte.is_ascii_digit());
    let due = match whole {
        true => format!("must be at most {}", usize::MAX),
        false => "must be a whole number of feet, without commas or units".into(),
    };
    let read = word.parse().ok().filter(|_| whole);
    read.ok_or_else(|| wrong(command, "FEET", word, &due))
}

/// A word that is not what must stand in its place.
fn wrong(command: Command, place: &str, word: &str, due: &str) -> Fault {
    let (name, word) = (command.name(), quoted(word));
    Fault::new(format!("{name}: {place} is {word}, and {due}"))
}

/// The words that are options, and the others.
struct Parted {
    options: Vec<String>,
    plain: Vec<OsString>,
}

/// A word that begins with `-` is an option, but for `-` itself, numbers, and
/// everything after `--`.
fn part(words: Vec<OsString>) -> Parted {
    let mut parted = Parted {
        options: vec![],
        plain: vec![],
    };
    let mut ended = false;
    for word in words {
        let shown = word.to_string_lossy();
        let dashed = shown.strip_prefix('-').filter(|rest| !rest.is_empty());
        let option =
            dashed.is_some_and(|rest| !rest.starts_with(|letter: char| letter.is_ascii_digit()));
        if ended || !option {
            parted.plain.push(word);
        } else if shown == "--" {
            ended = true;
        } else {
            parted.options.push(shown.into_owned());
        }
    }
    parted
}

fn command(word: OsString, options: &[String]) -> Result<Command, Fault> {
    let word = word.to_string_lossy();
    let reach = options.iter().any(|option| option == REACH);
    Command::named(&word, reach).ok_or_else(|| {
        let names = Command::names();
        Fault::new(format!(
            "{} is no command; expected one of {}{}",
            quoted(&word),
            names.join(", "),
            meant(&word, names)
        ))
    })
}

fn unknown_option(option: &str) -> String {
    const OPTIONS: [&str; 5] = [JSON, NEAREST_FIRST, REACH, "--help", "--version"];
    let near = meant(option, OPTIONS);
    format!(
        "{} is no option; expected one of {}{near}",
        quoted(option),
        OPTIONS.join(", ")
    )
}

fn miscounted(command: Command, words: usize) -> Fault {
    let how = match words {
        0 => "its words are missing".to_string(),
        1 => "only a file is given".to_string(),
        _ => format!("{words} words are given"),
    };
    Fault::new(format!(
        "{}: {how}; expected: {}",
        command.name(),
        command.line()
    ))
}
