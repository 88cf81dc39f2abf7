//! What the archive answers about the counties of `tests/counties`, whose answers
//! are the slow implementation's.

use compare::calls::{Archive, Calls, Reach};
use oracle::Net;
use splicereel::ffi::{Lent, Part, Scratch, Told};
use std::fs;
use std::path::{Path, PathBuf};
use towns::draw::{Rng, Shape, Spot, damage, town_of};
use towns::program::cksum;

/// The stored files.
fn files() -> Vec<PathBuf> {
    let folder = Path::new(env!("CARGO_MANIFEST_DIR")).join("../../tests/counties");
    let entries = fs::read_dir(folder).expect("the folder of counties");
    let files: Vec<PathBuf> = entries.map(|entry| entry.expect("a file").path()).collect();
    assert!(files.len() >= 5, "counties are missing");
    files
}

/// A county with what is lent for it.
struct County {
    text: Vec<u8>,
    net: Vec<u8>,
    oracle: Net,
    best: Vec<u32>,
    previous: Vec<u32>,
    buffer: Vec<u16>,
    list: Vec<u32>,
}

impl County {
    /// Drawn as the words of `town-gen` say, and kept by the archive.
    fn drawn(words: &str) -> County {
        let words: Vec<&str> = words.split(' ').collect();
        let ["town-gen", shape, seed, segments, edition] = words[..] else {
            panic!("{words:?}");
        };
        let number = |word: &str| word.parse::<usize>().expect("a number");
        let shape = Shape::from_name(shape).expect("a shape");
        let town = town_of(
            number(edition) as u8,
            shape,
            number(seed) as u64,
            number(segments),
        );
        let text = town.text();
        let size = town.bytes().len();
        let (mut net, mut told) = (vec![9; size + 5], Told::default());
        assert_eq!(Archive.read(&text, &mut net, &mut told), 0);
        assert_eq!(told[0] as usize, size);
        assert_eq!(net.split_off(size), [9; 5], "written past the network");
        assert_eq!(net, town.bytes());
        refused(&town, size);
        let oracle = Net::parse(&net).expect("a network");
        let (runs, nodes) = (oracle.runs(), oracle.nodes());
        County {
            text,
            net,
            oracle,
            best: vec![7; runs],
            previous: vec![7; runs],
            buffer: vec![7; runs],
            list: vec![7; 2 * nodes],
        }
    }

    /// The answer to a line's question, in the file's words.
    fn answer(&mut self, question: &str) -> String {
        let words: Vec<&str> = question.split(' ').collect();
        let number = |at: usize| words[at].parse::<usize>().expect("a number");
        match words[0] {
            "text" => format!("{} bytes, cksum {}", self.text.len(), cksum(&self.text)),
            "size" => {
                let (nodes, segments) = (self.oracle.nodes(), self.oracle.segments());
                format!("{nodes} nodes, {segments} segments")
            }
            "segment" => {
                let mut told = Told::default();
                let refused = Archive.judge_segment(&self.net, number(1), &mut told);
                assert_eq!(refused, 0);
                format!("{} {}", told[0], told[1])
            }
            "movement" => {
                let mut told = Told::default();
                match Archive.judge_movement(&self.net, number(1), number(2), &mut told) {
                    0 => format!("level {}", told[0]),
                    refused => format!("refused {refused}"),
                }
            }
            "route" => self.route(number(1), number(2), words[3].parse().ok()),
            "map" => self.map(number(1), number(2), number(3)),
            "nearest" => self.nearest(number(1), number(2), number(5), number(7)),
            other => panic!("{other}"),
        }
    }

    fn route(&mut self, from: usize, to: usize, tolerance: Option<usize>) -> String {
        let mut told = Told::default();
        let lent = Lent {
            best: &mut self.best,
            previous: &mut self.previous,
            buffer: &mut self.buffer,
            place: 0,
        };
        let refused = Archive.search(&self.net, from, to, tolerance, lent, &mut told);
        assert_eq!(refused, 0);
        let [found, count, feet, level, least, ..] = told;
        if found == 0 {
            return "none".into();
        }
        let within = tolerance.unwrap_or(least as usize) as u8;
        let runs = &self.buffer[..count as usize];
        let ridden = self
            .oracle
            .check_route(from, to, within, runs, runs.len(), feet, level as u8);
        assert_eq!(ridden, Ok(()), "{from} {to} {tolerance:?}");
        match tolerance {
            Some(_) => format!("found {feet}"),
            None => format!("found {feet} {least}"),
        }
    }

    /// How many entries, their lengths' sum, and some of them: every fourth part
    /// of them, and the last.
    fn map(&mut self, from: usize, tolerance: usize, greatest: usize) -> String {
        let mut told = Told::default();
        let reach = Reach {
            from,
            tolerance,
            greatest,
        };
        let scratch = Scratch {
            best: &mut self.best,
            previous: &mut self.previous,
        };
        let refused = Archive.reach_map(&self.net, reach, scratch, &mut self.list, &mut told);
        assert_eq!(refused, 0);
        let (entries, _) = self.list[..2 * told[0] as usize].as_chunks::<2>();
        let sum: u64 = entries.iter().map(|entry| u64::from(entry[1])).sum();
        let mut some: Vec<_> = entries.iter().step_by(1 + entries.len() / 4).collect();
        some.extend(entries.last());
        some.dedup();
        let some: Vec<String> = some
            .iter()
            .map(|e| format!(", {} at {}", e[0], e[1]))
            .collect();
        format!("{} entries, {sum} feet{}", entries.len(), some.concat())
    }

    fn nearest(&mut self, from: usize, tolerance: usize, step: usize, first: usize) -> String {
        let mut told = Told::default();
        let scratch = Scratch {
            best: &mut self.best,
            previous: &mut self.previous,
        };
        let mut marks = vec![0; self.oracle.nodes()];
        for node in (first..marks.len())
            .step_by(step)
            .filter(|&node| node != from)
        {
            marks[node] = 1;
        }
        let refused = Archive.nearest(&self.net, from, tolerance, &marks, scratch, &mut told);
        assert_eq!(refused, 0);
        match told[0] {
            0 => "none".into(),
            _ => format!("{} at {}", told[1], told[2]),
        }
    }
}

/// Each fault at the text's first line, a middle one and the last: Read and the
/// refused line say what was done.
fn refused(county: &towns::Town, size: usize) {
    let mut rng = Rng::new(size as u64);
    for (number, spot) in (1..=7).flat_map(|number| Spot::ALL.map(|spot| (number, spot))) {
        let Some(damaged) = damage(&mut rng, county, number, spot) else {
            continue;
        };
        let (mut output, mut told) = (vec![0; damaged.output], Told::default());
        let read = Archive.read(&damaged.text, &mut output, &mut told);
        let (number, line) = damaged.refusal;
        let must = (u32::from(number), line as u32);
        assert_eq!((read, told[0]), must, "{}", damaged.what);
        assert!(output.iter().all(|&byte| byte == 0));
        let mut part = Part::default();
        let refused = Archive.refused_line(&damaged.text, damaged.output, &mut part);
        let (slow, range) = oracle::refused_line(&damaged.text, damaged.output);
        assert_eq!((refused, part), (slow.into(), [range.start, range.len()]));
        assert_eq!(refused, must.0);
    }
}

#[test]
fn the_archive_answers_as_stored() {
    let mut far = 0;
    for file in files() {
        let stored = fs::read_to_string(&file).expect("answers");
        let mut lines = stored.lines();
        let mut county = County::drawn(lines.next().expect("a county"));
        for line in lines {
            let (question, answer) = line.split_once(": ").expect("an answer");
            assert_eq!(
                county.answer(question),
                answer,
                "{}: {question}",
                file.display()
            );
            let feet = answer
                .strip_prefix("found ")
                .and_then(|rest| rest.split(' ').next());
            let feet = feet.and_then(|feet| feet.parse::<u64>().ok());
            far += usize::from(feet.is_some_and(|feet| feet > 1 << 31));
        }
    }
    assert!(far > 0, "no route is above 2^31 feet");
}
