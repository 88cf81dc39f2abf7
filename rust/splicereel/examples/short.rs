//! `short TEXT FROM TO TOLERANCE`: a shortest route through the town of a
//! file.

use splicereel::Network;
use std::error::Error;

fn main() -> Result<(), Box<dyn Error>> {
    let words: Vec<String> = std::env::args().skip(1).collect();
    let [text, from, to, tolerance] = &words[..] else {
        return Err("usage: short TEXT FROM TO TOLERANCE".into());
    };
    let network = Network::read(&std::fs::read(text)?)?;
    match network.route(from.parse()?, to.parse()?, tolerance.parse()?)? {
        None => println!("none"),
        Some(route) => {
            for run in route.runs() {
                println!("{run}");
            }
            println!("{} feet, level {}", route.feet(), route.level());
        }
    }
    Ok(())
}
