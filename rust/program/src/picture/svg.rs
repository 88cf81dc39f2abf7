//! A town as a map, in SVG.
//!
//! Colours and widths are attributes, not a style sheet, so that every program
//! that shows SVG shows them.

use super::geometry::{Line, Point, Rect, at};
use super::ink::{Colour, DARK, GREY_GROUND, GREY_LINE, GREY_NAME};
use super::labels::{Anchor, LEADING, Label, SIZE, cut, labels, width};
use super::legend::{legend, one_way_stroke, stroke};
use super::map::Map;
use super::pieces::{arrow, escaped, number, points, rect, text};
use super::scene::{Scene, Sign, Ways};
use std::fmt::Write as _;

/// Round everything.
const MARGIN: f64 = 24.0;
/// From the middle of a street to the route, which keeps right.
const ASIDE: f64 = 8.0;
/// Before a corner, where the route begins to turn.
const CORNER: f64 = 14.0;
/// Title and caption: their sizes, and the most characters of each.
const TITLE: f64 = 20.0;
const CAPTION: f64 = 14.0;
const MOST: usize = 160;
/// The ground.
const WHITE: Colour = Colour([0xFF; 3]);

/// The picture of a scene whose nodes have places.
pub fn svg(scene: &Scene) -> String {
    let map = Map::of(scene);
    let ridden = ridden(scene, &map);
    let labels = labels(scene, &map, &ridden);
    let frame = labels
        .iter()
        .fold(map.frame(), |frame, label| frame.and(label.frame));
    let (heading, frame) = heading(scene, frame.wider(MARGIN));
    let (legend, frame) = legend(scene, map.foot, frame, MARGIN);
    let mut out = opening(scene, frame);
    out += &heading;
    write_streets(&mut out, scene, &map);
    write_papers(&mut out, &labels);
    write_one_ways(&mut out, scene, &map);
    if !ridden.is_empty() {
        write_route(&mut out, &route(scene, &map, &ridden), &ridden);
    }
    write_nodes(&mut out, scene, &map, &labels);
    out += &legend;
    out + "</svg>\n"
}

/// The picture's tag, its title and its white ground.
fn opening(scene: &Scene, frame: Rect) -> String {
    let Rect { low, .. } = frame;
    let (x, y, wide, high) = (
        number(low.x),
        number(low.y),
        number(frame.width()),
        number(frame.height()),
    );
    let mut title = scene.name.clone().unwrap_or_else(|| "A town".into());
    if let Some(caption) = &scene.caption {
        title = format!("{title}: {caption}");
    }
    format!(
        "<svg xmlns=\"http://www.w3.org/2000/svg\" viewBox=\"{x} {y} {wide} {high}\" width=\"{wide}\" height=\"{high}\" \
         font-family=\"sans-serif\" font-size=\"{SIZE}\" fill=\"{DARK}\">\n<title>{}</title>\n<g fill=\"#FFFFFF\">{}</g>\n",
        escaped(&title),
        rect(frame).trim_end(),
    )
}

/// Title and caption above a frame, and the frame round all.
fn heading(scene: &Scene, map: Rect) -> (String, Rect) {
    let (mut svg, mut frame) = (String::new(), map);
    for (words, size, weight) in [
        (&scene.caption, CAPTION, "normal"),
        (&scene.name, TITLE, "bold"),
    ] {
        let Some(words) = words else {
            continue;
        };
        let words = cut(words, MOST);
        let foot = at(map.low.x + MARGIN, frame.low.y);
        svg += &text(
            foot,
            &format!(" font-size=\"{size}\" font-weight=\"{weight}\""),
            &words,
        );
        let end = at(width(&words, size) + MARGIN, 0.0);
        frame = frame.and(Rect {
            low: foot - at(0.0, 1.6 * size),
            high: foot + end,
        });
    }
    (svg, frame)
}

/// The streets, the last ink first: each lies over those after it.
fn write_streets(out: &mut String, scene: &Scene, map: &Map) {
    for (place, ink) in scene.inks.iter().enumerate().rev() {
        // Writing to a string does not fail, here and below.
        let _ = writeln!(out, "<g id=\"{}\" fill=\"none\" {}>", ink.name, stroke(ink));
        for (number, (street, line)) in scene.streets.iter().zip(&map.lines).enumerate() {
            if street.ink == place {
                let words = escaped(&scene.street_words(number));
                let _ = writeln!(
                    out,
                    "<path d=\"{}\"><title>{words}</title></path>",
                    points('M', &line.points)
                );
            }
        }
        *out += "</g>\n";
    }
}

/// White behind the names, for those that stand over a street.
fn write_papers(out: &mut String, labels: &[Label]) {
    *out += "<g id=\"papers\" fill=\"#FFFFFF\" fill-opacity=\"0.75\">\n";
    for label in labels.iter().filter(|label| !label.lines.is_empty()) {
        *out += &rect(label.frame);
    }
    *out += "</g>\n";
}

/// An arrow in the middle of each street that is open one way.
fn write_one_ways(out: &mut String, scene: &Scene, map: &Map) {
    let _ = writeln!(out, "<g id=\"one-way\" {}>", one_way_stroke());
    for (street, line) in scene.streets.iter().zip(&map.lines) {
        let line = match street.ways {
            Ways::Both => continue,
            Ways::AToB => line.clone(),
            Ways::BToA => line.reversed(),
        };
        let (middle, direction) = line.along(line.length() * 0.5);
        let _ = writeln!(out, "<path d=\"{}\"/>", arrow(middle, direction, 16.0));
    }
    *out += "</g>\n";
}

/// Each run of the route, beside its street on the right, without its ends.
fn ridden(scene: &Scene, map: &Map) -> Vec<Line> {
    let ridden = scene.route.iter().map(|ride| {
        let line = &map.lines[ride.street];
        let line = if ride.backward {
            line.reversed()
        } else {
            line.clone()
        };
        line.trimmed(CORNER.min(line.length() * 0.3)).shifted(ASIDE)
    });
    ridden.collect()
}

/// The route as one line through its corners.
fn route(scene: &Scene, map: &Map, ridden: &[Line]) -> String {
    let mut path = String::new();
    let mut before: Option<&Line> = None;
    for (ride, line) in scene.route.iter().zip(ridden) {
        let [from, _] = scene.ends(*ride).map(|node| map.places[node]);
        path += &match before {
            Some(before) => points('Q', &[corner(from, before, line)]) + &points(' ', &line.points),
            None => points('M', &[from]) + &points('L', &line.points),
        };
        before = Some(line);
    }
    let last = scene.route.last().map(|ride| scene.ends(*ride));
    let to = last.map(|[_, to]| points('L', &[map.places[to]]));
    path + &to.unwrap_or_default()
}

/// The point towards which the route turns from one run onto the next at a
/// node: where the two lines beside their streets meet, or the node itself
/// where they lie too far apart for that.
fn corner(node: Point, before: &Line, after: &Line) -> Point {
    let (ahead, away) = (before.along(before.length()).1, after.along(0.0).1);
    let turned = 1.0 + ahead.dot(away);
    match turned < 0.4 {
        true => node,
        false => node + (ahead.right() + away.right()) * (ASIDE / turned),
    }
}

/// The route with a white border, and an arrow on each run.
fn write_route(out: &mut String, path: &str, ridden: &[Line]) {
    *out += "<g id=\"route\" stroke-linejoin=\"round\" stroke-linecap=\"round\">\n";
    for (colour, width) in [(WHITE, 7), (DARK, 3)] {
        let _ = writeln!(
            out,
            "<path fill=\"none\" stroke=\"{colour}\" stroke-width=\"{width}\" d=\"{path}\"/>"
        );
    }
    for line in ridden {
        let (middle, direction) = line.along(line.length() * 0.65);
        let _ = writeln!(out, "<path d=\"{}\"/>", arrow(middle, direction, 13.0));
    }
    *out += "</g>\n";
}

/// A circle for each node, and its name.
fn write_nodes(out: &mut String, scene: &Scene, map: &Map, labels: &[Label]) {
    let _ = writeln!(out, "<g id=\"nodes\" stroke=\"{DARK}\">");
    for (node, place) in scene.nodes.iter().zip(&map.places) {
        *out += &circle(*place, node.sign);
    }
    *out += "</g>\n<g id=\"names\">\n";
    for (node, label) in scene.nodes.iter().zip(labels) {
        *out += &name(label, node.sign);
    }
    *out += "</g>\n";
}

/// A node: dark where the route begins, a ring where it ends, in its shade
/// where it is reached.
fn circle(place: Point, sign: Sign) -> String {
    let (radius, fill, width) = match sign {
        Sign::Plain => (4.0, WHITE, 1.5),
        Sign::From => (6.5, DARK, 2.0),
        Sign::To => (6.5, WHITE, 4.0),
        Sign::Start(shade) => (8.0, shade, 3.0),
        Sign::Reached(shade) => (6.0, shade, 1.5),
        Sign::NotReached => (4.0, GREY_GROUND, 1.5),
    };
    let stroke = match sign {
        Sign::NotReached => format!(" stroke=\"{GREY_LINE}\""),
        _ => String::new(),
    };
    let (x, y) = (number(place.x), number(place.y));
    format!(
        "<circle cx=\"{x}\" cy=\"{y}\" r=\"{radius}\" fill=\"{fill}\" stroke-width=\"{width}\"{stroke}/>\n"
    )
}

fn name(label: &Label, sign: Sign) -> String {
    let anchor = match label.anchor {
        Anchor::Start => "start",
        Anchor::Middle => "middle",
        Anchor::End => "end",
    };
    let how = match sign {
        Sign::NotReached => format!(" fill=\"{GREY_NAME}\""),
        _ if sign.is_asked() => " font-weight=\"bold\"".into(),
        _ => String::new(),
    };
    let attributes = format!(" text-anchor=\"{anchor}\"{how}");
    let lines = label.lines.iter().enumerate();
    lines
        .map(|(place, line)| {
            text(
                label.start + at(0.0, LEADING * place as f64),
                &attributes,
                line,
            )
        })
        .collect()
}
