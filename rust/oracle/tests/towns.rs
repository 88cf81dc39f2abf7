//! The answers that the descriptions of `towns/` claim are the oracle's.

use oracle::{Net, Ways, read};
use std::fs;
use std::path::{Path, PathBuf};

fn towns() -> Vec<PathBuf> {
    let folder = Path::new(env!("CARGO_MANIFEST_DIR")).join("../../towns");
    fs::read_dir(folder)
        .expect("the folder of towns")
        .map(|entry| entry.expect("an entry").path())
        .filter(|file| file.extension().is_some_and(|kind| kind == "txt"))
        .collect()
}

/// The rows below the heading `from`.
fn claims(description: &str) -> Vec<Vec<String>> {
    description
        .lines()
        .skip_while(|line| !line.starts_with("| from |"))
        .skip(2)
        .take_while(|line| line.starts_with('|'))
        .map(|line| {
            line.split('|')
                .map(|cell| cell.trim().to_string())
                .collect()
        })
        .collect()
}

/// Feet and level of a shortest route, for `least` too. A level is claimed only
/// where the shortest route is the only one: it is then the least tolerance
/// that has a route as short.
fn answer(ways: &mut Ways, from: usize, to: usize, tolerance: &str) -> Option<(u32, usize)> {
    let feet = match tolerance {
        "least" => ways.least_stress(from, to).expect("no refusal")?.0,
        number => {
            let tolerance = number.parse().expect("a tolerance");
            ways.route(from, to, tolerance).expect("no refusal")?
        }
    };
    let level = (1..=4).find(|&level| ways.route(from, to, level) == Ok(Some(feet)));
    Some((feet, level.expect("a level")))
}

#[test]
fn claims_are_the_oracles() {
    let towns = towns();
    assert!(towns.len() >= 2, "towns are missing");
    for town in towns {
        let text = fs::read(&town).expect("a text");
        let kept = read(&text, usize::MAX).expect("a network");
        let mut ways = Ways::over(Net::parse(&kept).expect("a network"));
        let description = fs::read_to_string(town.with_extension("md")).expect("a description");
        let claims = claims(&description);
        assert!(!claims.is_empty(), "{}", town.display());
        for claim in claims {
            let node = |i: usize| claim[i].parse::<usize>().expect("a node");
            let claimed = (claim[4] != "none").then(|| {
                let feet = claim[4].replace(',', "");
                (
                    feet.parse().expect("feet"),
                    claim[5].parse().expect("a level"),
                )
            });
            let told = answer(&mut ways, node(1), node(2), &claim[3]);
            assert_eq!(told, claimed, "{}: {claim:?}", town.display());
        }
    }
}
