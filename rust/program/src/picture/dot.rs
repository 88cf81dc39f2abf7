//! A town in DOT, which Graphviz lays out.
//!
//! Legs are numbered clockwise, and most surveys begin with north. So a street
//! that leaves southward is drawn downward and one that leaves eastward to the
//! right, as far as Graphviz can: a town of blocks comes out as a map.

use super::geometry::compass;
use super::ink::{Colour, DARK, GREY_GROUND, GREY_LINE, GREY_NAME, Ink};
use super::scene::{Node, Scene, Sign, Street, Ways};
use std::fmt::Write as _;

/// The picture.
pub fn dot(scene: &Scene) -> String {
    let mut out = head(scene);
    // Writing to a string does not fail, here and below.
    for (number, node) in scene.nodes.iter().enumerate() {
        let _ = writeln!(
            out,
            "  {number} [label={}{}];",
            quoted(&label(node)),
            marked(node.sign)
        );
    }
    for (number, street) in scene.streets.iter().enumerate() {
        let name = quoted(street.name.as_deref().unwrap_or(""));
        let words = quoted(&scene.street_words(number));
        let arrow = match street.ways {
            Ways::AToB => Some(true),
            Ways::BToA => Some(false),
            Ways::Both => None,
        };
        let _ = writeln!(
            out,
            "  {}, {}, label={name}, tooltip={words}];",
            laid(street, arrow),
            drawn(&scene.inks[street.ink])
        );
    }
    for (place, ride) in scene.route.iter().enumerate() {
        let laid = laid(&scene.streets[ride.street], Some(!ride.backward));
        let _ = writeln!(
            out,
            "  {laid}, color=\"{DARK}\", penwidth=2, label=\"{}\"];",
            place + 1
        );
    }
    out += &legend(scene);
    out + "}\n"
}

fn head(scene: &Scene) -> String {
    let title: Vec<&str> = [&scene.name, &scene.caption]
        .into_iter()
        .flatten()
        .map(String::as_str)
        .collect();
    format!(
        "digraph town {{\n  graph [label={}, labelloc=t, fontname=\"sans-serif\", nodesep=0.6, ranksep=0.6];\n  \
         node [shape=box, style=rounded, width=0.3, height=0.3, margin=\"0.06,0.03\", fontname=\"sans-serif\", fontsize=11, color=\"{DARK}\"];\n  \
         edge [arrowsize=0.8, fontname=\"sans-serif\", fontsize=9];\n",
        quoted(&title.join("\n"))
    )
}

fn label(node: &Node) -> String {
    match &node.note {
        Some(note) => format!("{}\n{note}", node.name),
        None => node.name.clone(),
    }
}

/// What a node is to the question.
fn marked(sign: Sign) -> String {
    match sign {
        Sign::Plain => String::new(),
        Sign::From => filled(DARK),
        Sign::To => ", peripheries=2".into(),
        Sign::Start(shade) => filled(shade) + ", peripheries=2",
        Sign::Reached(shade) => filled(shade),
        Sign::NotReached => format!(
            ", style=\"rounded,filled\", fillcolor=\"{GREY_GROUND}\", color=\"{GREY_LINE}\", fontcolor=\"{GREY_NAME}\""
        ),
    }
}

/// A ground, and letters that are read on it.
fn filled(ground: Colour) -> String {
    let letters = if ground.is_dark() {
        "#FFFFFF"
    } else {
        "#000000"
    };
    format!(", style=\"rounded,filled\", fillcolor=\"{ground}\", fontcolor=\"{letters}\"")
}

/// A street's edge and the first of its attributes, with an arrow from A to B
/// or back. Graphviz draws what an edge leaves above or to the left of what it
/// reaches, so its northern or western end comes first.
fn laid(street: &Street, from_a: Option<bool>) -> String {
    const POINTS: [&str; 8] = ["n", "ne", "e", "se", "s", "sw", "w", "nw"];
    let (a, b) = (street.a, street.b);
    // As far as the legs tell, B lies in this direction.
    let toward = compass(a.leg) - compass(b.leg);
    let upright = toward.y.abs() >= 0.5 * toward.x.abs();
    let a_first = if upright {
        toward.y >= 0.0
    } else {
        toward.x >= 0.0
    };
    let end = |node: usize, leg: u8| match a.node == b.node {
        true => format!("{node}:{}", POINTS[usize::from(leg % 8)]),
        false => node.to_string(),
    };
    let (a, b) = (end(a.node, a.leg), end(b.node, b.leg));
    let (first, second) = if a_first { (a, b) } else { (b, a) };
    let arrow = from_a.map_or(
        "none",
        |from_a| if from_a == a_first { "forward" } else { "back" },
    );
    let level = if upright { "" } else { ", minlen=0, weight=2" };
    format!("{first} -> {second} [dir={arrow}{level}")
}

fn drawn(ink: &Ink) -> String {
    let style = match ink.dashes {
        None => "solid",
        Some((dash, gap)) if dash > gap => "dashed",
        Some(_) => "dotted",
    };
    format!(
        "color=\"{}\", penwidth={:.1}, style={style}",
        ink.colour,
        ink.width * 0.7
    )
}

fn legend(scene: &Scene) -> String {
    let mut out = format!(
        "  subgraph cluster_legend {{\n    label=\"{}\"; fontsize=11; color=\"#BBBBBB\"; node [shape=point, width=0.02];\n",
        scene.legend
    );
    // Graphviz lays parts that are not joined from right to left.
    for (place, ink) in (1..).zip(&scene.inks).collect::<Vec<_>>().into_iter().rev() {
        // Below the title "levels" a number is enough.
        let words = match ink.words.strip_prefix("level ") {
            Some(level) if scene.legend == "levels" => level,
            _ => &ink.words,
        };
        let _ = writeln!(
            out,
            "    from_{place} -> to_{place} [dir=none, {}, label={}];",
            drawn(ink),
            quoted(&format!(" {words}"))
        );
    }
    out + "  }\n"
}

/// A string of DOT.
fn quoted(words: &str) -> String {
    let mut out = String::from("\"");
    for character in words.chars() {
        match character {
            '"' | '\\' => out.extend(['\\', character]),
            '\n' => out.push_str("\\n"),
            // Entities have a meaning there.
            '&' => out.push_str("&amp;"),
            _ => out.push(character),
        }
    }
    out.push('"');
    out
}
