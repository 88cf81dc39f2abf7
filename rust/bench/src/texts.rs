//! Refused line beside Read: the archive's times on the same texts.

use crate::{SAMPLE, SAMPLES, SEEDS, both, median};
use bench::clock::microseconds;
use bench::damaged;
use splicereel::MAX_NETWORK;
use splicereel::ffi::{self, Part, Told};
use std::hint::black_box;
use towns::draw::mixed_grid;
use towns::sizes::MOST_SEGMENTS;

/// The bytes of a head's line.
const HEAD_LINE: usize = 15;

/// Calls that are made to learn how long one takes.
const FEW: usize = 20;

/// Which call is timed.
#[derive(Clone, Copy)]
enum Asked {
    Read,
    Refused,
}

/// A text, and the output that it is read into.
struct Subject {
    text: Vec<u8>,
    output: Vec<u8>,
}

impl Subject {
    /// Makes a call; gives the number that comes back.
    fn ask(&mut self, asked: Asked) -> u32 {
        let text = black_box(&self.text[..]);
        black_box(match asked {
            Asked::Read => ffi::read(text, &mut self.output, &mut Told::default()),
            Asked::Refused => ffi::refused_line(text, self.output.len(), &mut Part::default()),
        })
    }

    /// Microseconds for one call, as a mean over so many.
    fn sample(&mut self, asked: Asked, calls: usize) -> f64 {
        let start = microseconds();
        for _ in 0..calls {
            self.ask(asked);
        }
        (microseconds() - start) / calls as f64
    }
}

/// Texts by name: a town's, good and damaged, and a line far longer than any
/// frame. The last text Read refuses at its first digits, and the line's end
/// is searched in all of it.
fn texts() -> [(&'static str, Vec<u8>); 7] {
    let town = mixed_grid(SEEDS.start, MOST_SEGMENTS);
    let digits = b"0123456789ABCDEF".repeat(62_500);
    let line = [&digits[..], b"\n"].concat();
    let wrong = |mut text: Vec<u8>, at: usize| {
        text[at] = b'x';
        text
    };
    [
        ("in order", town.text()),
        ("a wrong check in the last line", damaged(&town)),
        ("a wrong digit in line 2", wrong(town.text(), HEAD_LINE)),
        ("a wrong digit in line 1", wrong(town.text(), 0)),
        ("a line of a million digits", line.clone()),
        ("a million digits and no 0A", digits),
        ("a million digits, the first wrong", wrong(line, 0)),
    ]
}

/// The table: microseconds of each call and the median of their ratios.
pub fn table() {
    println!("| text | bytes | refusal | Read | Refused line | ratio |");
    println!("|---|---|---|---|---|---|");
    for (title, text) in texts() {
        let length = text.len();
        let output = vec![0; MAX_NETWORK];
        let mut subject = Subject { text, output };
        let number = subject.ask(Asked::Refused);
        let calls = 1 + (SAMPLE / subject.sample(Asked::Refused, FEW)) as usize;
        let two = [Asked::Read, Asked::Refused];
        let turn = |turn| both(turn, |call| subject.sample(two[call], calls));
        let turns: Vec<(f64, f64)> = (0..SAMPLES).map(turn).collect();
        let of = |value: fn(&(f64, f64)) -> f64| median(turns.iter().map(value).collect());
        let (read, refused) = (of(|turn| turn.0), of(|turn| turn.1));
        let ratio = of(|turn| turn.1 / turn.0);
        println!("| {title} | {length} | {number} | {read:.2} | {refused:.2} | **{ratio:.2}** |");
    }
}
