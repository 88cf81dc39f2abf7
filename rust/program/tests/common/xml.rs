//! A picture in SVG, read back: its groups, and what each of them holds.

/// A place on paper.
pub type Point = (f64, f64);

/// What a group of a picture holds.
#[derive(Clone, Debug, Default)]
pub struct Group {
    name: String,
    /// The colour of its lines, where it is theirs alone.
    pub stroke: Option<String>,
    pub paths: Vec<Vec<Point>>,
    pub circles: Vec<Point>,
    /// Its lines of text.
    pub texts: Vec<String>,
    /// The colour of each circle, and of each path that has its own.
    pub fills: Vec<String>,
    pub strokes: Vec<String>,
}

/// A picture's groups.
pub struct Xml {
    groups: Vec<Group>,
}

impl Xml {
    /// Reads XML, which must be well formed: every tag closed in its order, every
    /// attribute in quotes, no bare sign between the tags.
    pub fn read(text: &str) -> Xml {
        let mut xml = Xml { groups: Vec::new() };
        let mut open: Vec<&str> = Vec::new();
        for part in text.trim_end().split('<').skip(1) {
            let (tag, words) = part.split_once('>').expect("the end of a tag");
            assert!(!words.contains('>'), "{words}");
            entities(words);
            if let Some(name) = tag.strip_prefix('/') {
                assert_eq!(open.pop(), Some(name));
                continue;
            }
            let whole = tag.strip_suffix('/');
            let tag = whole.unwrap_or(tag);
            let (name, attributes) = tag.split_once(' ').unwrap_or((tag, ""));
            xml.note(name, &read_attributes(attributes), words);
            if whole.is_none() {
                open.push(name);
            }
        }
        assert_eq!(open, Vec::<&str>::new());
        xml
    }

    /// Notes a tag and the words after it.
    fn note(&mut self, tag: &str, attributes: &[(&str, &str)], words: &str) {
        let some = |name: &str| {
            let found = attributes.iter().find(|(other, _)| *other == name);
            found.map(|(_, value)| value.to_string())
        };
        let value = |name: &str| some(name).expect(name);
        if let ("g", Some(name)) = (tag, some("id")) {
            let stroke = some("stroke");
            self.groups.push(Group {
                name,
                stroke,
                ..Group::default()
            });
        }
        let Some(group) = self.groups.last_mut() else {
            return;
        };
        match tag {
            "path" => {
                group.paths.push(points(&value("d")));
                group.strokes.extend(some("stroke"));
            }
            "circle" => {
                let place = format!("{} {}", value("cx"), value("cy"));
                group.circles.extend(points(&place));
                group.fills.push(value("fill"));
            }
            "text" => group.texts.push(words.to_string()),
            _ => {}
        }
    }

    /// The group of that name; an empty one where there is none.
    pub fn group(&self, name: &str) -> Group {
        let found = self.groups.iter().find(|group| group.name == name);
        found.cloned().unwrap_or_default()
    }
}

/// Each `&` begins an entity.
fn entities(words: &str) {
    for entity in words.split('&').skip(1) {
        let (name, _) = entity.split_once(';').expect("an entity");
        assert!(["amp", "lt", "gt", "quot"].contains(&name), "{name}");
    }
}

/// The points of a path.
fn points(path: &str) -> Vec<Point> {
    let numbers: Vec<f64> = numbers(path);
    let (points, rest) = numbers.as_chunks();
    assert!(!points.is_empty() && rest.is_empty(), "{path}");
    points.iter().map(|[x, y]| (*x, *y)).collect()
}

/// The numbers of an attribute, each of which can be drawn.
fn numbers(value: &str) -> Vec<f64> {
    let parts = value.split(|letter: char| " MLQZ".contains(letter));
    let numbers = parts
        .filter(|part| !part.is_empty())
        .map(|part| part.parse().expect(value));
    let numbers: Vec<f64> = numbers.collect();
    assert!(numbers.iter().all(|number| number.is_finite()), "{value}");
    numbers
}

/// The attributes of a tag.
fn read_attributes(tag: &str) -> Vec<(&str, &str)> {
    let mut rest = tag;
    let mut attributes = Vec::new();
    while let Some((name, after)) = rest.split_once("=\"") {
        let (value, after) = after.split_once('"').expect("the attribute's end");
        let name = name.trim();
        entities(value);
        if ["x", "y", "r", "width", "height", "viewBox"].contains(&name) {
            assert!(!numbers(value).is_empty());
        }
        attributes.push((name, value));
        rest = after;
    }
    assert_eq!(rest.trim(), "");
    attributes
}
