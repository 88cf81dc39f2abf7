//! Lengths as shades, dark for near and light for far, so that readers who do
//! not see colours and prints that have none keep their order. The hue is none
//! of the levels'.

use super::ink::{Colour, GREY_LINE, Ink};
use std::fmt::Display;

/// The shades of the nearest and of the farthest.
const NEAR: [u8; 3] = [0x35, 0x0B, 0x48];
const FAR: [u8; 3] = [0xE2, 0xB8, 0xE5];
/// As many shades as are told apart at a glance.
const MOST: u64 = 6;

/// Lengths in bands of a round number of feet, a shade for each.
#[derive(Debug)]
pub struct Shades {
    step: u64,
    farthest: u64,
}

impl Shades {
    /// The shades of lengths up to the farthest.
    pub fn up_to(farthest: u32) -> Shades {
        let farthest = u64::from(farthest);
        let round = (0..10).flat_map(|power| [1, 2, 5].map(|digit| digit * 10_u64.pow(power)));
        let few = |step: &u64| farthest <= MOST * step;
        Shades {
            step: round.into_iter().find(few).unwrap_or(farthest),
            farthest,
        }
    }

    /// The band of a length. The first goes up to the step, and has the 0.
    pub fn band(&self, feet: u32) -> usize {
        (u64::from(feet).saturating_sub(1) / self.step) as usize
    }

    /// A street's ink for each band, the nearest first.
    pub fn inks(&self) -> Vec<Ink> {
        let ends = (1..=MOST).map(|band| self.step * band);
        let before_last = ends.take_while(|end| *end < self.farthest);
        let ends: Vec<u64> = before_last.chain([self.farthest]).collect();
        let last = ends.len() - 1;
        let inks = ends.iter().enumerate().map(|(band, feet)| Ink {
            name: format!("reached-{}", band + 1),
            words: format!("to {feet} ft"),
            colour: mixed(band, last),
            width: 6.0,
            dashes: None,
        });
        inks.collect()
    }
}

/// The shade of one of several bands.
fn mixed(band: usize, last: usize) -> Colour {
    let part = |part: usize| {
        let (near, far) = (usize::from(NEAR[part]), usize::from(FAR[part]));
        let mixed = (near * (last - band) + far * band).checked_div(last);
        mixed.unwrap_or(near) as u8
    };
    Colour([0, 1, 2].map(part))
}

/// The inks of streets that are not reached, and of those above a tolerance.
pub fn others(tolerance: impl Display) -> [Ink; 2] {
    let grey = |name: &str, words: String, dashes| Ink {
        name: name.into(),
        words,
        colour: GREY_LINE,
        width: 2.0,
        dashes,
    };
    [
        grey("not-reached", "not reached".into(), None),
        grey("above", format!("above level {tolerance}"), Some((2, 4))),
    ]
}

#[cfg(test)]
mod tests {
    use super::*;

    #[test]
    fn bands_end_where_the_legend_says() {
        for (farthest, due) in [
            (0, &[0][..]),
            (1, &[1]),
            (6, &[1, 2, 3, 4, 5, 6]),
            (7, &[2, 4, 6, 7]),
            (2_500, &[500, 1_000, 1_500, 2_000, 2_500]),
            (3_001, &[1_000, 2_000, 3_000, 3_001]),
            (
                u32::MAX,
                &[
                    1_000_000_000,
                    2_000_000_000,
                    3_000_000_000,
                    4_000_000_000,
                    u32::MAX,
                ],
            ),
        ] {
            let shades = Shades::up_to(farthest);
            let words = shades.inks().into_iter().map(|ink| ink.words);
            assert!(
                words.eq(due.iter().map(|feet| format!("to {feet} ft"))),
                "{farthest}"
            );
            for (band, feet) in due.iter().enumerate() {
                assert_eq!(shades.band(*feet), band);
                assert!(*feet == farthest || shades.band(feet + 1) == band + 1);
            }
            assert_eq!(shades.band(0), 0);
        }
    }
}
