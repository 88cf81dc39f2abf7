//! `moved TEXT`: the network of a file, which is of edition 02, as edition 03
//! and back.

use splicereel::Network;
use std::error::Error;
use std::process::ExitCode;

fn main() -> Result<ExitCode, Box<dyn Error>> {
    let words: Vec<String> = std::env::args().skip(1).collect();
    let [text] = &words[..] else {
        return Err("usage: moved TEXT".into());
    };
    let network = Network::read(&std::fs::read(text)?)?;
    let up = network.to_county()?;
    let back = up.to_town()?;
    for kept in [&network, &up] {
        let bytes = kept.as_bytes().len();
        println!("edition {:02}: {bytes} bytes", kept.edition());
    }
    let (same, words) = match back == network {
        true => (ExitCode::SUCCESS, "the first bytes"),
        false => (ExitCode::FAILURE, "other bytes"),
    };
    println!("edition {:02}: {words}", back.edition());
    Ok(same)
}
