//! The looks of the page: colours for light and dark, and rules for screens, telephones and paper.

/// How many colours streams have before the first comes again.
pub const COLOURS: usize = LIGHT.len();

/// Colours that all kinds of colour vision tell apart: dark ones under white letters on light
/// paper, light ones under black letters on dark paper.
const LIGHT: [&str; 8] =
    ["#0d6bf7", "#62102e", "#477500", "#d4220f", "#127e91", "#3b154c", "#af5656", "#3d56b7"];
const DARK: [&str; 8] =
    ["#80a8ff", "#ea8d27", "#49ecb2", "#d472ae", "#ffe526", "#7f7eff", "#ff776a", "#dae5ff"];

/// A scheme's own colours: paper, writing, faint writing, lines, panels, shared arrows, and the
/// letters on streams' colours.
const ROLES: [&str; 7] = ["paper", "ink", "faint", "line", "panel", "shared", "on"];
const LIGHT_ROLES: [&str; 7] =
    ["#ffffff", "#1b1f23", "#57606a", "#9aa3ad", "#f3f5f7", "#3a4149", "#ffffff"];
const DARK_ROLES: [&str; 7] =
    ["#14171a", "#e8ebee", "#a3adb7", "#5d6771", "#1f2429", "#c3cbd3", "#101214"];

/// The whole style sheet.
pub fn style() -> String {
    let class = |colour: usize| format!(".k{colour}{{--k:var(--k{colour})}}");
    format!(
        ":root{{color-scheme:light dark;{}}}\n\
         @media screen and (prefers-color-scheme:dark){{:root{{{}}}}}\n{}\n{SCREEN}{PAPER}",
        variables(&LIGHT_ROLES, &LIGHT),
        variables(&DARK_ROLES, &DARK),
        (0..COLOURS).map(class).collect::<String>(),
    )
}

fn variables(roles: &[&str], colours: &[&str]) -> String {
    let roles = ROLES.iter().zip(roles).map(|(role, value)| format!("--{role}:{value};"));
    let colours = colours.iter().enumerate().map(|(number, value)| format!("--k{number}:{value};"));
    roles.chain(colours).collect()
}

/// The rules for all readers, and those for paper.
const SCREEN: &str = include_str!("style/screen.css");
const PAPER: &str = include_str!("style/paper.css");

#[cfg(test)]
mod tests {
    use super::*;

    /// The least contrast of letters, and of shapes, by the common rules of the web.
    const LETTERS: f64 = 4.5;
    const SHAPES: f64 = 3.0;

    fn luminance(colour: &str) -> f64 {
        let part =
            |at: usize| f64::from(u8::from_str_radix(&colour[at..at + 2], 16).unwrap()) / 255.0;
        let linear = |part: f64| {
            if part <= 0.04045 {
                part / 12.92
            } else {
                ((part + 0.055) / 1.055).powf(2.4)
            }
        };
        0.2126 * linear(part(1)) + 0.7152 * linear(part(3)) + 0.0722 * linear(part(5))
    }

    fn contrast(a: &str, b: &str) -> f64 {
        let (a, b) = (luminance(a), luminance(b));
        (a.max(b) + 0.05) / (a.min(b) + 0.05)
    }

    #[test]
    fn every_colour_stands_out_in_both_schemes() {
        for (roles, colours) in [(LIGHT_ROLES, LIGHT), (DARK_ROLES, DARK)] {
            let role = |name: &str| roles[ROLES.iter().position(|role| *role == name).unwrap()];
            for colour in colours.into_iter().chain([role("shared")]) {
                assert!(contrast(colour, role("on")) >= LETTERS, "letters on {colour}");
                assert!(contrast(colour, role("paper")) >= SHAPES, "{colour} on paper");
            }
            for writing in [role("ink"), role("faint")] {
                assert!(
                    contrast(writing, role("paper")) >= LETTERS
                        && contrast(writing, role("panel")) >= LETTERS
                );
            }
        }
    }

    #[test]
    fn there_are_rules_for_dark_screens_telephones_and_paper() {
        let style = style();
        for rule in [
            "@media screen and (prefers-color-scheme:dark)",
            "@media (max-width: 30rem)",
            "@media print",
        ] {
            assert!(style.contains(rule), "{rule}");
        }
        assert_eq!(style.matches('{').count(), style.matches('}').count());
    }
}
