//! `refused TEXT`: the refused line of a file.

use splicereel::Network;
use std::error::Error;
use std::io::Write;
use std::process::ExitCode;

fn main() -> Result<ExitCode, Box<dyn Error>> {
    let words: Vec<String> = std::env::args().skip(1).collect();
    let [text] = &words[..] else {
        return Err("usage: refused TEXT".into());
    };
    let text = std::fs::read(text)?;
    let Some(refused) = Network::refused_line(&text) else {
        println!("in order");
        return Ok(ExitCode::SUCCESS);
    };
    let refusal = refused.refusal;
    println!("refusal {}: {refusal}", refusal.number());
    std::io::stdout().write_all(&[refused.part, b"\n"].concat())?;
    Ok(ExitCode::from(2))
}
