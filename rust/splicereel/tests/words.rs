//! The C header says of each refusal what the crate says, names its measures
//! and has its version.

use splicereel::{Measure, Refusal};

const HEADER: &str = include_str!("../../../include/splicereel.h");

/// The names and numbers of an enumeration of the header.
fn enumerators(name: &str) -> Vec<(&'static str, u32)> {
    let start = format!("enum {name} {{");
    let (_, after) = HEADER.split_once(&start).expect(name);
    let (body, _) = after.split_once("};").expect(name);
    body.lines()
        .filter_map(|line| line.trim().trim_end_matches(',').split_once(" = "))
        .map(|(name, number)| (name, number.parse().expect(name)))
        .collect()
}

/// What `splicereel_refusal_text` returns for an enumerator.
fn text(name: &str) -> &'static str {
    let (_, after) = HEADER.split_once(&format!("case {name}:")).expect(name);
    let (_, after) = after.split_once("return \"").expect(name);
    after.split_once("\";").expect(name).0
}

#[test]
fn refusals_have_the_same_words() {
    let numbers = enumerators("splicereel_number");
    let refusals = numbers.iter().filter(|(_, number)| *number != 0);
    for (name, number) in refusals {
        assert_eq!(
            text(name),
            Refusal::from_number(*number).to_string(),
            "{name}"
        );
    }
    assert_eq!(numbers.len(), 19);
    assert_eq!(HEADER.matches("\n    case SPLICEREEL_").count(), 19);
}

#[test]
fn measures_have_the_same_names() {
    let measures = enumerators("splicereel_measure");
    assert_eq!(measures.len(), Measure::ALL.len());
    for (measure, (name, number)) in Measure::ALL.into_iter().zip(measures) {
        let words = name.replace("SPLICEREEL_", "").replace('_', " ");
        assert_eq!(words.to_lowercase(), measure.to_string());
        assert_eq!(number as usize, measure.number());
    }
}

#[test]
fn versions_are_the_same() {
    let version = env!("CARGO_PKG_VERSION");
    assert!(HEADER.contains(&format!("#define SPLICEREEL_VERSION \"{version}\"\n")));
    let parts = ["MAJOR", "MINOR", "PATCH"]
        .into_iter()
        .zip(version.split('.'));
    for (part, number) in parts {
        let line = format!("#define SPLICEREEL_VERSION_{part} {number}\n");
        assert!(HEADER.contains(&line), "{line}");
    }
}
