//! Pictures of what is reached of random towns: by the legend, every node and
//! every street has the shade of its own length, and what is not reached has
//! none.

mod common;

use common::xml::Xml;
use common::{GRID, run, some_towns, table};
use oracle::{Net, Ways};
use towns::Town;

/// The ground of a node that is not reached.
const GREY: &str = "#E0E0E0";

/// What is due in a picture, as the oracle says.
struct Reached {
    /// By node, the least length where it is reached.
    nodes: Vec<Option<u32>>,
    streets: Vec<Due>,
}

/// How a street is due.
#[derive(Clone, Copy, Debug, PartialEq, Eq)]
enum Due {
    /// In the shade of its farther end.
    Shade(u32),
    NotReached,
    AboveTheTolerance,
}

impl Reached {
    fn of(town: &Town, from: usize, tolerance: usize, greatest: usize) -> Reached {
        let net = Net::parse(&town.bytes()).expect("a network");
        let mut nodes = vec![None; town.nodes.into()];
        let map = Ways::over(net.clone()).reach_map(from, tolerance, greatest, usize::MAX);
        for (node, feet) in map.expect("no refusal") {
            nodes[node] = Some(feet);
        }
        let streets = town.segments.iter().enumerate().map(|(s, segment)| {
            let ends = [segment.a, segment.b].map(|end| nodes[usize::from(end.node)]);
            match (net.segment(s).expect("a segment").0, ends) {
                (level, _) if usize::from(level) > tolerance => Due::AboveTheTolerance,
                (_, [Some(a), Some(b)]) => Due::Shade(a.max(b)),
                _ => Due::NotReached,
            }
        });
        Reached {
            streets: streets.collect(),
            nodes,
        }
    }
}

/// What a legend says: how a line is drawn, and its words, in order.
struct Legend {
    /// The colour of each shade and its greatest length.
    shades: Vec<(String, u32)>,
    /// How the lines of each shade, those of what is not reached and those
    /// above the tolerance are drawn.
    lines: Vec<String>,
}

impl Legend {
    /// The first entries of a legend; the longest shade is that of the farthest
    /// node, and to who sees no colours each is lighter than the one before.
    fn of(entries: impl Iterator<Item = (String, String)>, farthest: u32) -> Legend {
        let (mut shades, mut lines) = (Vec::new(), Vec::new());
        for (line, words) in entries {
            let feet = words
                .strip_prefix("to ")
                .and_then(|words| words.strip_suffix(" ft"));
            match feet {
                Some(feet) => shades.push((colour(&line), feet.parse().expect("feet"))),
                None if words == "not reached" || words.starts_with("above level ") => {}
                None => break,
            }
            lines.push(line);
        }
        let lighter = |pair: &[(String, u32)]| {
            let [near, far] = [&pair[0], &pair[1]];
            near.1 < far.1 && lightness(&near.0) + 10 < lightness(&far.0)
        };
        assert!(shades.windows(2).all(lighter), "{shades:?}");
        assert_eq!(shades.last().map(|(_, feet)| *feet), Some(farthest));
        assert!(shades.len() <= 6 && lines.len() == shades.len() + 2);
        Legend { shades, lines }
    }

    /// The place in the list that a length has.
    fn place(&self, due: Due) -> usize {
        match due {
            Due::Shade(feet) => {
                let place = self.shades.iter().position(|(_, most)| feet <= *most);
                place.expect("a shade")
            }
            Due::NotReached => self.shades.len(),
            Due::AboveTheTolerance => self.shades.len() + 1,
        }
    }

    /// Each node has its own shade, or none.
    fn holds(&self, nodes: &[Option<u32>], fills: impl Iterator<Item = String>) {
        let due = nodes.iter().map(|feet| match feet {
            Some(feet) => &self.shades[self.place(Due::Shade(*feet))].0,
            None => GREY,
        });
        let fills: Vec<String> = fills.collect();
        assert!(
            due.eq(fills.iter().map(String::as_str)),
            "{nodes:?} {fills:?}"
        );
    }
}

/// The colour among some words.
fn colour(words: &str) -> String {
    let start = words.find('#').expect("a colour");
    words[start..start + 7].to_string()
}

/// How light a colour is, from 0 to 255, to who sees no colours.
fn lightness(colour: &str) -> u32 {
    let part = |at: usize| u32::from_str_radix(&colour[at..at + 2], 16).expect(colour);
    (299 * part(1) + 587 * part(3) + 114 * part(5)) / 1_000
}

/// Pictures of random towns, on a map or not, with what is due.
fn pictures(map: bool) -> impl Iterator<Item = (Town, Reached, String)> {
    some_towns(4).map(move |(mut rng, town)| {
        let (from, tolerance) = (rng.below(town.nodes.into()), rng.range(1, 4));
        let greatest = rng.pick(&[0, 150, 500, 1_000, 2_500, 10_000, usize::MAX]);
        let asked = [from, tolerance, greatest].map(|number| number.to_string());
        let words = [
            &["draw", "--reach", "-"],
            &asked.each_ref().map(String::as_str)[..],
        ];
        let said = run(
            &words.concat(),
            table(&town, map.then_some(GRID)).as_bytes(),
        );
        assert_eq!((said.status, said.err.as_str()), (Some(0), ""));
        let due = Reached::of(&town, from, tolerance, greatest);
        (town, due, said.out)
    })
}

/// How many pictures show several shades, and how many leave nodes out.
#[derive(Default)]
struct Count {
    shaded: usize,
    left_out: usize,
}

impl Count {
    fn note(&mut self, due: &Reached, legend: &Legend) {
        self.shaded += usize::from(legend.shades.len() > 2);
        self.left_out += usize::from(due.nodes.contains(&None));
    }

    fn is_enough(&self) {
        let Count { shaded, left_out } = self;
        assert!(*shaded > 12 && *left_out > 12, "{shaded}, {left_out}");
    }
}

#[test]
fn maps_are_shaded_by_length() {
    let mut count = Count::default();
    for (town, due, picture) in pictures(true) {
        let picture = Xml::read(&picture);
        let farthest = due.nodes.iter().flatten().max().expect("the start");
        let words = picture.group("legend");
        let legend = Legend::of(words.strokes.into_iter().zip(words.texts), *farthest);
        let nodes = picture.group("nodes");
        legend.holds(&due.nodes, nodes.fills.into_iter());
        let names = picture.group("names").texts.into_iter();
        let notes = names.filter_map(|words| words.strip_suffix(" ft")?.parse::<u32>().ok());
        assert!(notes.eq(due.nodes.iter().flatten().copied()));
        let shades = (1..=legend.shades.len()).map(|shade| format!("reached-{shade}"));
        let others = ["not-reached", "above"].map(str::to_string);
        for (place, name) in shades.chain(others).enumerate() {
            let group = picture.group(&name);
            assert_eq!(group.stroke.as_ref(), Some(&legend.lines[place]), "{name}");
            let drawn = group
                .paths
                .iter()
                .map(|path| [path[0], path[path.len() - 1]]);
            let streets = due.streets.iter().zip(&town.segments);
            let streets = streets.filter(|(due, _)| legend.place(**due) == place);
            let ends = streets.map(|(_, segment)| {
                [segment.a, segment.b].map(|end| nodes.circles[usize::from(end.node)])
            });
            assert!(drawn.eq(ends), "{name}");
        }
        count.note(&due, &legend);
    }
    count.is_enough();
}

#[test]
fn graphs_are_shaded_by_length() {
    let mut count = Count::default();
    for (_, due, picture) in pictures(false) {
        let farthest = due.nodes.iter().flatten().max().expect("the start");
        let (town, below) = picture
            .split_once("  subgraph cluster_legend")
            .expect("a legend");
        // Graphviz lays them from right to left.
        let mut entries: Vec<(String, String)> = below.lines().filter_map(entry).collect();
        entries.reverse();
        let legend = Legend::of(entries.into_iter(), *farthest);
        let nodes = town.lines().filter(|line| line.contains("fillcolor="));
        let fills = nodes
            .clone()
            .map(|line| colour(line.split("fillcolor=").nth(1).expect(line)));
        legend.holds(&due.nodes, fills);
        let notes = nodes.filter_map(|line| {
            let (before, _) = line.split_once(" ft\"")?;
            before.rsplit("\\n").next()?.parse::<u32>().ok()
        });
        assert!(notes.eq(due.nodes.iter().flatten().copied()));
        let streets = town.lines().filter_map(entry).map(|(line, _)| line);
        let lines = due
            .streets
            .iter()
            .map(|due| legend.lines[legend.place(*due)].clone());
        assert!(streets.eq(lines), "{picture}");
        count.note(&due, &legend);
    }
    count.is_enough();
}

/// How an edge of DOT is drawn, and its words.
fn entry(line: &str) -> Option<(String, String)> {
    let (_, attributes) = line.split_once(" -> ")?;
    let (_, drawn) = attributes.split_once("color=")?;
    let (drawn, words) = drawn.split_once(", label=\"")?;
    let (words, _) = words.split_once('"')?;
    Some((format!("color={drawn}"), words.trim().to_string()))
}
