//! `splicereel levels`: the edition, whose rules the levels are by, and a row
//! for each segment.

use crate::fault::Fault;
use crate::json::Json;
use crate::page::{Page, Side};
use crate::segment::{A_NODE, B_NODE, LENGTH};
use crate::town::{Town, ways};

/// The rows as a page.
pub fn page(town: &Town) -> Result<String, Fault> {
    let mut page = Page::new(&[
        ("Segment", Side::Right),
        ("Street", Side::Left),
        ("A", Side::Left),
        ("B", Side::Left),
        ("Feet", Side::Right),
        ("Ways", Side::Left),
        ("Level", Side::Right),
        ("Decided by", Side::Left),
    ]);
    for number in 0..town.network.segments() {
        let (segment, judged) = (town.segment(number), town.judge(number)?);
        page.row(vec![
            number.to_string(),
            town.street(number).unwrap_or("-").to_string(),
            town.node_name(segment.get(A_NODE) as usize),
            town.node_name(segment.get(B_NODE) as usize),
            segment.get(LENGTH).to_string(),
            ways(&segment).to_string(),
            judged.level.to_string(),
            judged.measure.to_string(),
        ]);
    }
    let edition = town.network.edition();
    Ok(format!("Edition  {edition:02}\n\n{}", page.lines()))
}

/// The rows for scripts.
pub fn json(town: &Town) -> Result<Vec<(&'static str, Json)>, Fault> {
    let rows: Result<Vec<Json>, Fault> = (0..town.network.segments())
        .map(|number| {
            let (segment, judged) = (town.segment(number), town.judge(number)?);
            Ok(Json::Object(vec![
                ("segment", Json::number(number)),
                ("street", Json::optional(town.street(number))),
                ("a", Json::number(segment.get(A_NODE))),
                ("b", Json::number(segment.get(B_NODE))),
                ("feet", Json::number(segment.get(LENGTH))),
                ("ways", Json::text(ways(&segment))),
                ("level", Json::number(judged.level)),
                ("measure", Json::text(judged.measure)),
            ]))
        })
        .collect();
    Ok(vec![
        ("answer", Json::text("levels")),
        ("segments", Json::List(rows?)),
    ])
}
