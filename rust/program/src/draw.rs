//! `splicereel draw`: a picture of a town, of a route through it, or of what is
//! reached of it.

use crate::fault::Fault;
use crate::picture::ink::levels;
use crate::picture::scene::{End, Node, Ride, Scene, Sign, Street, Ways};
use crate::picture::shade::{Shades, others};
use crate::picture::{dot, svg};
use crate::reach::Reached;
use crate::route::Asked;
use crate::segment::{A_NODE, B_NODE, Segment, WAYS};
use crate::town::Town;
use splicereel::Direction;

/// The picture of a town.
pub fn town(town: &Town) -> Result<String, Fault> {
    Ok(picture(&scene(town)?))
}

/// The picture of a route, or of a town that has none.
pub fn route(town: &Town, asked: &Asked<'_>) -> Result<String, Fault> {
    let mut scene = scene(town)?;
    scene.caption = Some(asked.caption());
    // A way that ends where it begins begins there.
    for (node, sign) in [(asked.to, Sign::To), (asked.from, Sign::From)] {
        scene.nodes[node].sign = sign;
    }
    let runs = asked.found.iter().flat_map(|(route, _)| route.runs());
    let rides = runs.map(|run| Ride {
        street: run.segment(),
        backward: run.direction() == Direction::BToA,
    });
    scene.route = rides.collect();
    Ok(picture(&scene))
}

/// The picture of what is reached: nodes and streets shaded by length.
pub fn reach(town: &Town, reached: &Reached<'_>) -> Result<String, Fault> {
    let mut scene = scene(town)?;
    scene.caption = Some(reached.caption());
    let shades = Shades::up_to(reached.farthest());
    scene.legend = "legend";
    scene.inks = shades.inks();
    let [not_reached, above] = [0, 1].map(|more| scene.inks.len() + more);
    scene.inks.extend(others(reached.tolerance));
    for (number, node) in scene.nodes.iter_mut().enumerate() {
        let feet = reached.feet_to(number);
        node.note = feet.map(|feet| format!("{feet} ft"));
        let shade = feet.map(|feet| scene.inks[shades.band(feet)].colour);
        node.sign = match shade {
            None => Sign::NotReached,
            Some(shade) if number == reached.from => Sign::Start(shade),
            Some(shade) => Sign::Reached(shade),
        };
    }
    for (number, street) in scene.streets.iter_mut().enumerate() {
        street.ink = match reached.street(number)? {
            Some(feet) => shades.band(feet),
            None if usize::from(street.level) > reached.tolerance.number() => above,
            None => not_reached,
        };
    }
    Ok(picture(&scene))
}

/// SVG where every node has a place on the map, otherwise DOT.
fn picture(scene: &Scene) -> String {
    match scene.nodes.iter().all(|node| node.place.is_some()) {
        true => svg::svg(scene),
        false => dot::dot(scene),
    }
}

/// The town, its streets by level.
fn scene(town: &Town) -> Result<Scene, Fault> {
    let nodes = (0..town.network.nodes()).map(|node| Node {
        name: town
            .place(node)
            .map_or_else(|| node.to_string(), str::to_string),
        note: None,
        place: town.map_place(node),
        sign: Sign::Plain,
    });
    let streets: Result<Vec<Street>, Fault> = (0..town.network.segments())
        .map(|number| street(town, number))
        .collect();
    Ok(Scene {
        name: town.name.clone(),
        caption: None,
        nodes: nodes.collect(),
        streets: streets?,
        inks: levels(),
        legend: "levels",
        route: Vec::new(),
    })
}

fn street(town: &Town, number: usize) -> Result<Street, Fault> {
    let segment = town.segment(number);
    let level = town.judge(number)?.level.number();
    Ok(Street {
        name: town.street(number).map(str::to_string),
        a: end(&segment, A_NODE),
        b: end(&segment, B_NODE),
        ways: match segment.get(WAYS) {
            1 => Ways::AToB,
            2 => Ways::BToA,
            _ => Ways::Both,
        },
        level: level as u8,
        ink: level - 1,
    })
}

fn end(segment: &Segment, node: usize) -> End {
    let (node, leg) = segment.end(node);
    End {
        node: node as usize,
        leg: leg as u8,
    }
}
