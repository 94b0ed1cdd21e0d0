//! The colours and dashes of relations. Colours are told apart by colour-blind readers,
//! and by more than three to one from the page in light and dark. Blue and orange are those
//! of answers alone.

/// Green, purple, olive, pink, teal, grey, wine, leaf: for a light page.
const LIGHT: [&str; 8] =
    ["#0b7d5b", "#8638a8", "#7a6d00", "#c22d86", "#00807e", "#5b6470", "#8a1f4f", "#4d7c1f"];
/// The same for a dark page.
const DARK: [&str; 8] =
    ["#4fd0a5", "#cf9bf0", "#d8cb55", "#f58ac6", "#5fd6cf", "#b3bdca", "#f0869f", "#a5d672"];

/// Which colour a relation has.
pub fn colour(relation: usize) -> usize {
    relation % LIGHT.len()
}

/// How many dashes there are; the first is none.
pub const DASHES: usize = 4;

/// Which dash a relation's lines have.
pub fn dash(relation: usize) -> usize {
    relation % DASHES
}

/// The rules for so many relations.
pub fn style(relations: usize) -> String {
    let values = |colours: [&str; 8]| {
        let value = |(index, colour): (usize, &&str)| format!("--c{index}:{colour};");
        colours.iter().enumerate().map(value).collect::<String>()
    };
    let (light, dark) = (values(LIGHT), values(DARK));
    let mut rules = format!(
        ":root{{{light}}}\n@media screen and (prefers-color-scheme:dark){{:root{{{dark}}}}}\n"
    );
    for index in 0..relations.min(LIGHT.len()) {
        rules.push_str(&format!(".c{index}{{stroke:var(--c{index})}}"));
        rules.push_str(&format!(".a{index}{{fill:var(--c{index})}}\n"));
    }
    rules
}

/// The classes of a relation's lines.
pub fn classes(relation: usize) -> String {
    format!("edge c{} dash{}", colour(relation), dash(relation))
}

#[cfg(test)]
mod tests {
    use super::*;
    use crate::report::COLOURS;

    /// The hue of `#rrggbb`, from 0 to 360, and how far it is from grey.
    fn hue(colour: &str) -> (f64, f64) {
        let part = |at: usize| f64::from(u8::from_str_radix(&colour[at..at + 2], 16).unwrap());
        let (red, green, blue) = (part(1), part(3), part(5));
        let (high, low) = (red.max(green).max(blue), red.min(green).min(blue));
        let range = (high - low).max(1.0);
        let sixth = match high {
            high if high == red => (green - blue) / range,
            high if high == green => 2.0 + (blue - red) / range,
            _ => 4.0 + (red - green) / range,
        };
        ((sixth * 60.0).rem_euclid(360.0), range)
    }

    #[test]
    fn no_relation_has_the_colour_of_an_answer() {
        for answer in ["--granted:", "--denied:"] {
            let colours: Vec<&str> = COLOURS.split(answer).skip(1).map(|rest| &rest[..7]).collect();
            assert_eq!(colours.len(), 2, "light and dark");
            for (own, answer) in
                LIGHT.iter().zip([colours[0]; 8]).chain(DARK.iter().zip([colours[1]; 8]))
            {
                let ((one, far), (other, _)) = (hue(own), hue(answer));
                let apart = (one - other).abs().min(360.0 - (one - other).abs());
                assert!(far < 40.0 || apart >= 20.0, "{own} {answer}: {apart}");
            }
        }
    }
}
