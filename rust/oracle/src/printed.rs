//! What programs must print.

use crate::{Net, Ways, read, refused_line};

/// At most so many bytes of standard input are judged by `levels`, by
/// `examples_refused` and by `examples_routes`.
pub const MOST_INPUT: usize = 65_536;

/// What program `levels` prints for this standard input.
pub fn levels(input: &[u8]) -> String {
    match network(judged(input)) {
        Err(refused) => refused + "\n",
        Ok(net) => (0..)
            .map_while(|s| Some((s, net.segment(s).ok()?)))
            .map(|(s, (level, measure))| format!("{s} {level} {measure}\n"))
            .collect(),
    }
}

/// What program `examples_refused` prints for this standard input: number,
/// start and length of the refused line, then the line itself, for an output of
/// 0 bytes, of one segment's network, and of the greatest length.
pub fn refused(input: &[u8]) -> Vec<u8> {
    let text = judged(input);
    let mut out = Vec::new();
    for room in [0, 37, usize::MAX] {
        let (number, part) = refused_line(text, room);
        let told = format!("{number} {} {}\n", part.start, part.len());
        out.extend([told.as_bytes(), &text[part], b"\n"].concat());
    }
    out
}

/// What program `examples_routes` prints for this standard input.
pub fn routes(input: &[u8]) -> String {
    let Ok(net) = network(judged(input)) else {
        return "not read\n".into();
    };
    let last = calls_at_the_end(&net);
    let mut ways = Ways::over(net);
    let mut out = String::new();
    for (from, to) in pairs() {
        for tolerance in [Some(0), Some(1), Some(2), Some(3), Some(4), Some(5), None] {
            let asked = tolerance.map_or("least".into(), |t| t.to_string());
            let told = told(&mut ways, from, to, tolerance)
                .unwrap_or_else(|number| format!("refused {number} untouched"));
            out += &format!("{from} {to} {asked} {told}\n");
        }
    }
    out + &last
}

/// What `town-route` prints about this network text: the answer of Route, or of
/// Least stress where there is no tolerance.
pub fn route(text: &[u8], from: usize, to: usize, tolerance: Option<usize>) -> String {
    let told = network(text).and_then(|net| {
        told(&mut Ways::over(net), from, to, tolerance)
            .map_err(|number| format!("refused {number}"))
    });
    told.unwrap_or_else(|refused| refused) + "\n"
}

/// What a program judges of its standard input.
fn judged(input: &[u8]) -> &[u8] {
    &input[..input.len().min(MOST_INPUT)]
}

/// The network of a text, or how it is refused. What Read keeps is always a
/// network, so that 8 would be a fault of this crate.
fn network(text: &[u8]) -> Result<Net, String> {
    let kept =
        read(text, usize::MAX).map_err(|(number, line)| format!("refused {number} {line}"))?;
    Net::parse(&kept).ok_or("refused 8".into())
}

/// A search's answer in words, or its refusal's number.
fn told(ways: &mut Ways, from: usize, to: usize, tolerance: Option<usize>) -> Result<String, u8> {
    let found = match tolerance {
        Some(tolerance) => ways
            .route(from, to, tolerance)?
            .map(|length| format!("found {length}")),
        None => ways
            .least_stress(from, to)?
            .map(|(length, tolerance)| format!("found {length} {tolerance}")),
    };
    Ok(found.unwrap_or("none".into()))
}

/// The nodes that the pairs of `examples_routes` are spread over.
const SPREAD: usize = 1_000;

/// The pairs of nodes that `examples_routes` asks about: all of the first nine
/// nodes, and 24 spread over the largest town.
fn pairs() -> impl Iterator<Item = (usize, usize)> {
    let near = (0..81).map(|pair| (pair / 9, pair % 9));
    let spread = (1..25).map(|k| (k * 37 % SPREAD, k * 91 % SPREAD));
    near.chain(spread)
}

/// The calls that `examples_routes` ends with, each from node 0 to itself.
fn calls_at_the_end(net: &Net) -> String {
    let mut out = String::new();
    // A place beyond the buffer's end; then a network without its first byte.
    for number in [11, 8] {
        for asked in ["1", "least"] {
            out += &format!("0 0 {asked} refused {number} untouched\n");
        }
    }
    // One number of scratch serves only where there is no segment.
    out + match net.segments() {
        0 => "found 0\n",
        _ => "refused 11 untouched\n",
    }
}
