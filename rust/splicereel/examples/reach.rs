//! `reach TEXT FROM TOLERANCE FEET`: what is in reach of a node in the town of a
//! file, and the nearest of it.

use splicereel::Network;
use std::error::Error;

fn main() -> Result<(), Box<dyn Error>> {
    let words: Vec<String> = std::env::args().skip(1).collect();
    let [text, from, tolerance, feet] = &words[..] else {
        return Err("usage: reach TEXT FROM TOLERANCE FEET".into());
    };
    let network = Network::read(&std::fs::read(text)?)?;
    let (from, tolerance) = (from.parse()?, tolerance.parse()?);
    let map = network.reach_map(from, tolerance, feet.parse()?)?;
    for entry in &map {
        println!("node {}: {} feet", entry.node, entry.feet);
    }
    let others = map.iter().map(|entry| entry.node);
    match network.nearest(from, tolerance, others.filter(|&node| node != from))? {
        None => println!("no other"),
        Some(entry) => println!("nearest: node {}, {} feet", entry.node, entry.feet),
    }
    Ok(())
}
