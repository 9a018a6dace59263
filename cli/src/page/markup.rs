//! Text as markup: escaping, numbers, and the few elements that every part of the page uses.

/// Text that can stand anywhere in the page; a sign stands for a character that no page may hold.
pub fn escape(text: &str) -> String {
    let mut escaped = String::with_capacity(text.len());
    for character in text.chars() {
        match character {
            '&' => escaped.push_str("&amp;"),
            '<' => escaped.push_str("&lt;"),
            '>' => escaped.push_str("&gt;"),
            '"' => escaped.push_str("&quot;"),
            '\'' => escaped.push_str("&#39;"),
            other => escaped.push(visible(other)),
        }
    }
    escaped
}

/// The character itself, or for a control character the sign that stands for it.
fn visible(character: char) -> char {
    const CONTROL_PICTURES: u32 = 0x2400;
    const DELETE_PICTURE: char = '\u{2421}';
    let picture =
        char::from_u32(CONTROL_PICTURES + character as u32).unwrap_or(char::REPLACEMENT_CHARACTER);
    match character {
        '\0'..='\x1f' => picture,
        '\x7f' => DELETE_PICTURE,
        '\u{80}'..='\u{9f}' | '\u{fdd0}'..='\u{fdef}' => char::REPLACEMENT_CHARACTER,
        other if other as u32 & 0xfffe == 0xfffe => char::REPLACEMENT_CHARACTER,
        other => other,
    }
}

/// A length in the picture, to a tenth.
pub fn length(number: f64) -> String {
    trimmed(format!("{number:.1}"))
}

/// A direction in the picture, to a thousandth.
pub fn direction(number: f64) -> String {
    trimmed(format!("{number:.3}"))
}

/// A number without noughts at its end, and nought without a sign.
fn trimmed(number: String) -> String {
    let short = number.trim_end_matches('0').trim_end_matches('.');
    if short == "-0" {
        "0".to_string()
    } else {
        short.to_string()
    }
}

/// Numbers or names, one after the other.
pub fn joined<T: ToString>(items: impl IntoIterator<Item = T>, between: &str) -> String {
    items.into_iter().map(|item| item.to_string()).collect::<Vec<_>>().join(between)
}

/// A section of the page under its heading.
pub fn section(anchor: &str, heading: &str, body: &str) -> String {
    format!(
        "<section id=\"{anchor}\" aria-labelledby=\"{anchor}-heading\">\n\
         <h2 id=\"{anchor}-heading\">{heading}</h2>\n{body}</section>\n"
    )
}

/// A box that scrolls sideways by itself where its contents are wider than the page.
pub fn scrolling(label: &str, class: &str, body: &str) -> String {
    format!(
        "<div class=\"scroll {class}\" role=\"region\" aria-label=\"{label}\" tabindex=\"0\">\n\
         {body}</div>\n"
    )
}

/// A table with a caption, its columns' headings and its rows.
pub fn table(class: &str, caption: &str, columns: &[&str], rows: &str) -> String {
    let headings =
        joined(columns.iter().map(|column| format!("<th scope=\"col\">{column}</th>")), "");
    format!(
        "<table class=\"{class}\">\n<caption>{caption}</caption>\n\
         <thead><tr>{headings}</tr></thead>\n\
         <tbody>\n{rows}</tbody>\n</table>\n"
    )
}

#[cfg(test)]
mod tests {
    use super::*;

    #[test]
    fn every_sign_of_markup_is_escaped() {
        assert_eq!(escape("<b a=\"1\" c='2'>&"), "&lt;b a=&quot;1&quot; c=&#39;2&#39;&gt;&amp;");
    }

    #[test]
    fn control_characters_become_signs() {
        assert_eq!(escape("a\0b\nc\x1b[31m\x7f\u{9b}\u{ffff}"), "a␀b␊c␛[31m␡\u{fffd}\u{fffd}");
        assert_eq!(escape("høvel 木 🪵"), "høvel 木 🪵");
    }

    #[test]
    fn numbers_are_short() {
        assert_eq!(
            ["104.04", "2.0", "-0.01"].map(|n| length(n.parse().unwrap())),
            ["104", "2", "0"]
        );
        assert_eq!(direction(-std::f64::consts::FRAC_1_SQRT_2), "-0.707");
    }
}
