//! Answers for scripts: JSON on one line.

use std::fmt::Write as _;

/// A value.
#[derive(Clone, Debug)]
pub enum Json {
    Null,
    True,
    False,
    /// A number in decimal.
    Number(String),
    Text(String),
    List(Vec<Json>),
    Object(Vec<(&'static str, Json)>),
}

impl Json {
    /// A whole number.
    pub fn number(number: impl ToString) -> Json {
        Json::Number(number.to_string())
    }

    /// Words.
    pub fn text(words: impl ToString) -> Json {
        Json::Text(words.to_string())
    }

    /// Words, or null.
    pub fn optional(words: Option<&str>) -> Json {
        words.map_or(Json::Null, Json::text)
    }

    /// The value in one line.
    pub fn line(&self) -> String {
        let mut line = String::new();
        self.write(&mut line);
        line.push('\n');
        line
    }

    fn write(&self, out: &mut String) {
        match self {
            Json::Null => out.push_str("null"),
            Json::True => out.push_str("true"),
            Json::False => out.push_str("false"),
            Json::Number(digits) => out.push_str(digits),
            Json::Text(words) => write_text(words, out),
            Json::List(items) => {
                let items = items.iter().map(|item| (None, item));
                write_all('[', items, ']', out);
            }
            Json::Object(fields) => {
                let fields = fields.iter().map(|(name, value)| (Some(*name), value));
                write_all('{', fields, '}', out);
            }
        }
    }
}

impl From<bool> for Json {
    fn from(truth: bool) -> Json {
        if truth { Json::True } else { Json::False }
    }
}

fn write_all<'j>(
    open: char,
    items: impl Iterator<Item = (Option<&'static str>, &'j Json)>,
    close: char,
    out: &mut String,
) {
    out.push(open);
    for (place, (name, value)) in items.enumerate() {
        if place > 0 {
            out.push(',');
        }
        if let Some(name) = name {
            write_text(name, out);
            out.push(':');
        }
        value.write(out);
    }
    out.push(close);
}

fn write_text(words: &str, out: &mut String) {
    out.push('"');
    for character in words.chars() {
        match character {
            '"' | '\\' => out.extend(['\\', character]),
            '\n' => out.push_str("\\n"),
            '\u{0}'..='\u{1F}' | '\u{7F}' => {
                // Writing to a string does not fail.
                let _ = write!(out, "\\u{:04X}", u32::from(character));
            }
            _ => out.push(character),
        }
    }
    out.push('"');
}
