//! What the lines and signs of a map mean, below it.

use super::geometry::{Line, Point, Rect, at};
use super::ink::{DARK, Ink};
use super::labels::width;
use super::pieces::{arrow, path, points, text};
use super::scene::{Scene, Ways};

const SIZE: f64 = 12.0;
const ROW: f64 = 24.0;
/// The length of a line that shows an ink or the route.
const LINE: f64 = 40.0;
/// Between a sign and its words, and between words and the next sign.
const NEAR: f64 = 8.0;
const APART: f64 = 22.0;

/// How an ink's streets are drawn.
pub fn stroke(ink: &Ink) -> String {
    let dashes = ink.dashes.map_or_else(String::new, |(dash, gap)| {
        format!(" stroke-dasharray=\"{dash} {gap}\"")
    });
    format!(
        "stroke=\"{}\" stroke-width=\"{}\"{dashes}",
        ink.colour, ink.width
    )
}

/// How the signs of one-way streets are drawn.
pub fn one_way_stroke() -> String {
    format!("fill=\"#FFFFFF\" stroke=\"{DARK}\" stroke-width=\"1.5\"")
}

/// What is drawn, and what it means.
enum Entry<'s> {
    Street(&'s Ink),
    OneWay,
    Route,
    /// So many feet, and their length on paper.
    Scale(u64, f64),
}

impl Entry<'_> {
    fn wide(&self) -> f64 {
        match self {
            Entry::Street(_) | Entry::Route => LINE,
            Entry::OneWay => 16.0,
            Entry::Scale(_, wide) => *wide,
        }
    }

    fn words(&self) -> String {
        match self {
            Entry::Street(ink) => ink.words.clone(),
            Entry::OneWay => "one way".into(),
            Entry::Route => "route".into(),
            Entry::Scale(feet, _) => format!("{feet} ft, north is up"),
        }
    }

    /// The sign, from a point on to the right.
    fn drawn(&self, place: Point) -> String {
        let end = place + at(self.wide(), 0.0);
        let line = Line::straight(place, end);
        let head = |middle: f64, long: f64| arrow(place + at(middle, 0.0), at(1.0, 0.0), long);
        match self {
            Entry::Street(ink) => path(&line, &stroke(ink)),
            Entry::OneWay => format!("<path {} d=\"{}\"/>", one_way_stroke(), head(8.0, 16.0)),
            Entry::Route => {
                let line = path(&line, &format!("stroke=\"{DARK}\" stroke-width=\"3\""));
                format!("{line}<path d=\"{}\"/>", head(26.0, 13.0))
            }
            Entry::Scale(..) => {
                let tick = at(0.0, 4.0);
                let bar = points(
                    'M',
                    &[
                        place - tick,
                        place + tick,
                        place,
                        end,
                        end - tick,
                        end + tick,
                    ],
                );
                format!("<path fill=\"none\" stroke=\"{DARK}\" d=\"{bar}\"/>")
            }
        }
    }
}

fn entries(scene: &Scene, foot: f64) -> Vec<Entry<'_>> {
    let (feet, wide) = scale(foot);
    let mut entries: Vec<Entry<'_>> = scene.inks.iter().map(Entry::Street).collect();
    if scene.streets.iter().any(|street| street.ways != Ways::Both) {
        entries.push(Entry::OneWay);
    }
    if !scene.route.is_empty() {
        entries.push(Entry::Route);
    }
    entries.push(Entry::Scale(feet, wide));
    entries
}

/// A round number of feet, as long on paper as fits, and that length.
fn scale(foot: f64) -> (u64, f64) {
    const MOST: f64 = 130.0;
    let round = (0..8).flat_map(|power| [1, 2, 5].map(|digit| digit * 10_u64.pow(power)));
    let fits = |feet: &u64| *feet as f64 * foot <= MOST;
    let feet = round.take_while(fits).max().unwrap_or(1);
    (feet, feet as f64 * foot)
}

/// The legend of a map in which a foot is so long on paper, in as many rows as
/// it needs below a frame; and the frame round both.
pub fn legend(scene: &Scene, foot: f64, above: Rect, margin: f64) -> (String, Rect) {
    let left = above.low.x + margin;
    let mut place = at(left, above.high.y + ROW * 0.5);
    let mut svg = format!("<g id=\"legend\" font-size=\"{SIZE}\">\n");
    let mut frame = above;
    for entry in entries(scene, foot) {
        let words = entry.words();
        let wide = entry.wide() + NEAR + width(&words, SIZE);
        if place.x > left && place.x + wide > above.high.x - margin {
            place = at(left, place.y + ROW);
        }
        svg += &entry.drawn(place);
        svg += &text(place + at(entry.wide() + NEAR, SIZE * 0.35), "", &words);
        frame = frame.and(Rect {
            low: place,
            high: place + at(wide + margin, ROW),
        });
        place = place + at(wide + APART, 0.0);
    }
    (svg + "</g>\n", frame)
}
