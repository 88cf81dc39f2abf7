//! The word that was meant, where one is near.

/// The words that are compared letter by letter are at most so long.
const MOST: usize = 60;

/// The one of the words that is nearest, if it is near enough to be meant: two
/// letters in three are right.
pub fn nearest<'w>(word: &str, words: impl IntoIterator<Item = &'w str>) -> Option<&'w str> {
    let length = word.chars().count();
    if length == 0 || length > MOST {
        return None;
    }
    let near = |wrong: usize| 3 * wrong <= length.max(3);
    words
        .into_iter()
        // As many letters are wrong as the one word has more than the other.
        .filter(|other| near(length.abs_diff(other.chars().count())))
        .map(|other| (distance(word, other), other))
        .filter(|(wrong, _)| near(*wrong))
        .min_by_key(|(wrong, _)| *wrong)
        .map(|(_, other)| other)
}

/// `; did you mean WORD?`, or nothing where none is near.
pub fn meant<'w>(word: &str, words: impl IntoIterator<Item = &'w str>) -> String {
    nearest(word, words).map_or_else(String::new, |near| format!("; did you mean {near}?"))
}

/// Letters to insert, delete or change, small and capital letters alike.
fn distance(one: &str, other: &str) -> usize {
    let letters = |word: &str| word.to_lowercase().chars().collect::<Vec<char>>();
    let (one, other) = (letters(one), letters(other));
    let mut row: Vec<usize> = (0..=other.len()).collect();
    for (i, letter) in one.iter().enumerate() {
        let mut corner = row[0];
        row[0] = i + 1;
        for (j, against) in other.iter().enumerate() {
            let changed = corner + usize::from(letter != against);
            corner = row[j + 1];
            row[j + 1] = changed.min(corner + 1).min(row[j] + 1);
        }
    }
    row[other.len()]
}

#[cfg(test)]
mod tests {
    use super::*;

    #[test]
    fn near_words_are_found_and_far_ones_are_not() {
        let words = ["check", "levels", "route", "draw", "text"];
        for (word, near) in [
            ("rout", Some("route")),
            ("level", Some("levels")),
            ("Draw", Some("draw")),
            ("chekc", None),
            ("cheek", Some("check")),
            ("street", None),
            ("", None),
        ] {
            assert_eq!(nearest(word, words), near, "{word}");
        }
        assert_eq!(nearest(&"x".repeat(100_000), words), None);
        assert_eq!(distance("kitten", "sitting"), 3);
    }
}
