//! `compare [MINUTES [SEED]]` compares the archive with the twin for so long;
//! `compare replay SEED ROUND` makes the comparisons of one round again.

use compare::calls::Archive;
use compare::{Comparer, Mismatch};
use std::process::ExitCode;
use std::time::{Duration, Instant};
use towns::program::{self, number};

/// What a command line asks for.
enum Task {
    Run { minutes: u64, seed: u64 },
    Replay { seed: u64, round: u64 },
}

fn task(words: &[String]) -> Option<Task> {
    match words {
        [] => Some(Task::Run {
            minutes: 1,
            seed: 1,
        }),
        [minutes] => Some(Task::Run {
            minutes: number(minutes)?,
            seed: 1,
        }),
        [replay, seed, round] if replay == "replay" => Some(Task::Replay {
            seed: number(seed)?,
            round: number(round)?,
        }),
        [minutes, seed] => Some(Task::Run {
            minutes: number(minutes)?,
            seed: number(seed)?,
        }),
        _ => None,
    }
}

/// Rounds until the time is over; each begun is ended.
fn rounds(comparer: &mut Comparer<'_>, minutes: u64) -> Result<u64, Box<Mismatch>> {
    let (start, time) = (Instant::now(), Duration::from_secs(60 * minutes));
    let mut round = 0;
    while start.elapsed() < time {
        comparer.round(round)?;
        round += 1;
    }
    Ok(round)
}

fn run(minutes: u64, seed: u64) -> ExitCode {
    println!("compare: seed {seed}, {minutes} minutes");
    let mut comparer = Comparer::new(&Archive, seed);
    match rounds(&mut comparer, minutes) {
        Err(mismatch) => {
            println!("{mismatch}");
            ExitCode::FAILURE
        }
        Ok(rounds) => {
            print!("{}", comparer.reached);
            let missing = comparer.reached.missing();
            for thing in &missing {
                println!("compare: never reached: {thing}");
            }
            println!(
                "compare: seed {seed}, {rounds} rounds, {} comparisons, no mismatch",
                comparer.made
            );
            if missing.is_empty() {
                ExitCode::SUCCESS
            } else {
                ExitCode::FAILURE
            }
        }
    }
}

fn replay(seed: u64, round: u64) -> ExitCode {
    let mut comparer = Comparer::new(&Archive, seed);
    match comparer.round(round) {
        Ok(()) => {
            println!("compare: {} comparisons, no mismatch", comparer.made);
            ExitCode::SUCCESS
        }
        Err(mismatch) => {
            println!("{mismatch}");
            ExitCode::FAILURE
        }
    }
}

fn main() -> ExitCode {
    match task(&program::words()) {
        Some(Task::Run { minutes, seed }) => run(minutes, seed),
        Some(Task::Replay { seed, round }) => replay(seed, round),
        None => program::usage("compare [MINUTES [SEED]], or compare replay SEED ROUND"),
    }
}
