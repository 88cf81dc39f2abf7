//! What the programs share: the words of the command line, standard input and
//! standard output.

use std::io::{Read, Write};
use std::process::ExitCode;

/// The words of the command line, without the program's name.
pub fn words() -> Vec<String> {
    std::env::args().skip(1).collect()
}

/// A word as a number.
pub fn number<T: std::str::FromStr>(word: &str) -> Option<T> {
    word.parse().ok()
}

/// Standard input, or none where it cannot be read.
pub fn input() -> Option<Vec<u8>> {
    let mut text = Vec::new();
    std::io::stdin().lock().read_to_end(&mut text).ok()?;
    Some(text)
}

/// Prints an answer, or fails where there is none or it cannot be written.
pub fn answer(text: Option<Vec<u8>>) -> ExitCode {
    match text.map(|text| std::io::stdout().write_all(&text)) {
        Some(Ok(())) => ExitCode::SUCCESS,
        _ => ExitCode::FAILURE,
    }
}

/// Says how a program is used, where its words were not understood.
pub fn usage(text: &str) -> ExitCode {
    eprintln!("usage: {text}");
    ExitCode::from(2)
}

/// The number that the command `cksum` prints of these bytes, so that a stored
/// answer can name the text that it is about.
pub fn cksum(bytes: &[u8]) -> u32 {
    let step = |sum: u32, byte: u8| {
        let mut sum = sum ^ u32::from(byte) << 24;
        for _ in 0..8 {
            let carry = sum >> 31;
            sum = (sum << 1) ^ (carry * 0x04C1_1DB7);
        }
        sum
    };
    // The length comes last, its low byte first, without the zeros above it.
    let length = bytes.len().to_le_bytes();
    let digits = length.iter().rposition(|&byte| byte != 0);
    let length = &length[..digits.map_or(0, |last| last + 1)];
    !bytes.iter().chain(length).copied().fold(0, step)
}
