//! `splicereel`: a planner's program over the proved calls.
//!
//! Every answer comes from the archive: which files are in order, levels,
//! routes, and that there is none. The program reads files, asks, and shows.
//! An answer is made whole before any of it is written.

#![forbid(unsafe_code)]

mod call;
mod command;
mod convert;
mod corner;
mod cursor;
mod draw;
mod edition;
mod explain;
mod fault;
mod file;
mod json;
mod levels;
mod markdown;
mod near;
mod nearest;
mod page;
mod part;
mod picture;
mod reach;
mod route;
mod segment;
mod table;
mod town;

use call::{Call, Question, Request};
use command::Command;
use fault::Fault;
use json::Json;
use nearest::Nearby;
use reach::Reached;
use route::Asked;
use std::ffi::OsStr;
use std::io::{self, ErrorKind, Write};
use std::process::ExitCode;
use town::Town;

/// Exit status where a call answered.
const ANSWERED: u8 = 0;
/// Exit status where there is no route.
const NONE: u8 = 1;
/// Exit status where a file was refused, or the program was called wrongly.
const REFUSED: u8 = 2;

/// What a command says.
struct Said {
    answer: String,
    /// One line on what is wrong.
    fault: Option<String>,
    /// What stands below that line: the refused line of a network text.
    below: String,
    status: u8,
}

fn main() -> ExitCode {
    let said = match call::read(std::env::args_os().skip(1).collect()) {
        Ok(Request::Help(command)) => answered(command::help(command), ANSWERED),
        Ok(Request::Version) => answered(command::version() + "\n", ANSWERED),
        Ok(Request::Do(call)) => run(&call),
        Err(fault) => Said {
            answer: String::new(),
            fault: Some(fault.sentence()),
            below: String::new(),
            status: REFUSED,
        },
    };
    if let Some(fault) = said.fault {
        complain(&fault, &said.below);
    }
    ExitCode::from(write(&said.answer, said.status))
}

fn answered(answer: String, status: u8) -> Said {
    Said {
        answer,
        fault: None,
        below: String::new(),
        status,
    }
}

/// Writes an answer to standard output; the status, or another where it cannot
/// be written. Who closes the pipe has read enough.
fn write(answer: &str, status: u8) -> u8 {
    let mut out = io::stdout().lock();
    match out.write_all(answer.as_bytes()).and_then(|()| out.flush()) {
        Err(error) if error.kind() != ErrorKind::BrokenPipe => {
            complain(&format!("the answer cannot be written: {error}"), "");
            REFUSED
        }
        _ => status,
    }
}

/// One line on standard error, and below it the refused line; nothing is to be
/// done where they cannot be written.
fn complain(words: &str, below: &str) {
    let words: String = words.chars().map(fault::printable).collect();
    let said = format!("splicereel: {words}\n{below}");
    let _ = io::stderr().write_all(said.as_bytes());
}

/// Makes a call.
fn run(call: &Call) -> Said {
    let fault = match answer(call) {
        Ok((answer, status)) => return answered(answer, status),
        Err(fault) => fault,
    };
    let file = file_name(&call.file);
    Said {
        answer: if call.json {
            refusal(&file, &fault).line()
        } else {
            String::new()
        },
        fault: Some(format!("{file}: {}", fault.sentence())),
        below: fault.shown(),
        status: REFUSED,
    }
}

/// The file as messages name it.
fn file_name(file: &OsStr) -> String {
    match file == "-" {
        true => "standard input".into(),
        false => file
            .to_string_lossy()
            .chars()
            .map(fault::printable)
            .collect(),
    }
}

/// A fault for scripts.
fn refusal(file: &str, fault: &Fault) -> Json {
    let number = fault.refusal.map(|refusal| Json::number(refusal.number()));
    let mut fields = vec![
        ("file", Json::text(file)),
        ("answer", Json::text("refused")),
        ("refusal", number.unwrap_or(Json::Null)),
        ("line", fault.line.map_or(Json::Null, Json::number)),
        ("words", Json::text(&fault.words)),
    ];
    fields.extend(cursor::json(fault.cursor.as_deref()));
    Json::Object(fields)
}

/// What a call asked about a town, and what the archive answered.
enum Answer<'t> {
    Town,
    /// The text of the moved network.
    Moved(String),
    Way(Asked<'t>),
    Reach(Reached<'t>),
    Nearest(Nearby<'t>),
}

impl<'t> Answer<'t> {
    fn to(question: &Question, town: &'t Town) -> Result<Answer<'t>, Fault> {
        Ok(match question {
            Question::Town => Answer::Town,
            Question::Move(edition) => Answer::Moved(convert::text(town, *edition)?),
            Question::Way(way) => Answer::Way(Asked::new(town, way)?),
            Question::Reach(reach) => Answer::Reach(Reached::new(town, reach)?),
            Question::Nearest(nearest) => Answer::Nearest(Nearby::new(town, nearest)?),
        })
    }

    fn status(&self) -> u8 {
        match self {
            Answer::Way(Asked { found: None, .. }) => NONE,
            Answer::Nearest(Nearby { found: None, .. }) => NONE,
            _ => ANSWERED,
        }
    }
}

/// The answer to a call, and its status.
fn answer(call: &Call) -> Result<(String, u8), Fault> {
    if call.command == Command::Text {
        let text = table::read(&file::read(&call.file)?)?.text;
        return Ok((text, ANSWERED));
    }
    let town = Town::read(&call.file)?;
    let answer = Answer::to(&call.question, &town)?;
    let shown = match call.json {
        true => for_scripts(call, &town, &answer)?.line(),
        false => shown(call, &town, &answer)?,
    };
    Ok((shown, answer.status()))
}

/// The answer as a page or a picture.
fn shown(call: &Call, town: &Town, answer: &Answer<'_>) -> Result<String, Fault> {
    match (call.command, answer) {
        (Command::Draw, Answer::Way(asked)) => draw::route(town, asked),
        (Command::Draw, _) => draw::town(town),
        (Command::DrawReach, Answer::Reach(reached)) => draw::reach(town, reached),
        (_, Answer::Moved(text)) => Ok(text.clone()),
        (_, Answer::Way(asked)) => asked.page(),
        (_, Answer::Reach(reached)) => reached.page(),
        (_, Answer::Nearest(nearest)) => nearest.page(),
        (Command::Levels, _) => levels::page(town),
        _ => Ok(check(call, town)),
    }
}

/// A file that is in order.
fn check(call: &Call, town: &Town) -> String {
    let network = &town.network;
    format!(
        "{}: in order, edition {:02}, nodes {}, segments {}\n",
        file_name(&call.file),
        network.edition(),
        network.nodes(),
        network.segments()
    )
}

/// The answer for scripts.
fn for_scripts(call: &Call, town: &Town, answer: &Answer<'_>) -> Result<Json, Fault> {
    let mut fields = vec![
        ("file", Json::text(file_name(&call.file))),
        ("town", Json::optional(town.name.as_deref())),
        ("edition", Json::number(town.network.edition())),
        ("nodes", Json::number(town.network.nodes())),
    ];
    fields.extend(match answer {
        Answer::Way(asked) => asked.json()?,
        Answer::Reach(reached) => reached.json()?,
        Answer::Nearest(nearest) => nearest.json()?,
        Answer::Town if call.command == Command::Levels => levels::json(town)?,
        // convert takes no --json.
        Answer::Town | Answer::Moved(_) => vec![
            ("answer", Json::text("in order")),
            ("segments", Json::number(town.network.segments())),
        ],
    });
    Ok(Json::Object(fields))
}
