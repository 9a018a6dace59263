//! A small reader of markup for the tests: tags in turn, and whether they close in order.

use std::collections::BTreeMap;

/// A tag as it stands in the page, with the text behind it.
#[derive(Debug)]
pub struct Tag {
    pub name: String,
    pub attributes: BTreeMap<String, String>,
    pub closes: bool,
    pub is_empty: bool,
    pub text: String,
}

/// Elements that never have an end.
const WITHOUT_END: [&str; 2] = ["!DOCTYPE", "meta"];

impl Tag {
    /// The value of an attribute, or nothing.
    pub fn value(&self, name: &str) -> &str {
        self.attributes.get(name).map_or("", String::as_str)
    }

    /// A number in an attribute, 0 where there is none.
    pub fn number(&self, name: &str) -> usize {
        self.value(name).parse().unwrap_or(0)
    }
}

/// All tags of a page; panics where text or an attribute holds a sign that should be escaped.
pub fn tags(page: &str) -> Vec<Tag> {
    let mut pieces = page.split('<');
    assert_eq!(pieces.next(), Some(""));
    let mut tags = Vec::new();
    for piece in pieces {
        let (inside, text) =
            piece.split_once('>').unwrap_or_else(|| panic!("no end of the tag <{piece}"));
        tags.push(tag(inside, text));
        let is_style = tags.last().is_some_and(|tag: &Tag| tag.name == "style" && !tag.closes);
        assert!(is_style || !text.contains('>'), "a bare > in {text:?}");
        text.split('&').skip(1).for_each(assert_entity);
    }
    tags
}

fn tag(inside: &str, text: &str) -> Tag {
    let (closes, inside) = inside.strip_prefix('/').map_or((false, inside), |rest| (true, rest));
    let (is_empty, inside) = inside.strip_suffix('/').map_or((false, inside), |rest| (true, rest));
    let (name, rest) = inside.split_once(' ').unwrap_or((inside, ""));
    let quotes = rest.split('"').collect::<Vec<_>>();
    let pairs = quotes
        .chunks_exact(2)
        .map(|pair| (pair[0].trim().trim_end_matches('=').to_string(), pair[1].to_string()));
    let attributes = pairs
        .inspect(|(_, value)| value.split('&').skip(1).for_each(assert_entity))
        .collect::<BTreeMap<_, _>>();
    assert_eq!(attributes.len(), quotes.len() / 2, "an attribute twice in <{inside}>");
    let is_empty = is_empty || WITHOUT_END.contains(&name);
    Tag { name: name.to_string(), attributes, closes, is_empty, text: text.to_string() }
}

/// What follows an ampersand is one of the few entities of the page.
fn assert_entity(after: &str) {
    let known = ["amp;", "lt;", "gt;", "quot;", "#39;"];
    assert!(known.iter().any(|entity| after.starts_with(entity)), "a bare & before {after:?}");
}

/// Panics unless tags close in order, names are given once, and references lead to a name.
pub fn assert_well_formed(page: &str) {
    let tags = tags(page);
    let mut open = Vec::new();
    for tag in tags.iter().filter(|tag| !tag.is_empty) {
        if tag.closes {
            assert_eq!(open.pop(), Some(&tag.name), "</{}> closes another", tag.name);
        } else {
            open.push(&tag.name);
        }
    }
    assert!(open.is_empty(), "left open: {open:?}");
    let names = tags.iter().filter_map(|tag| tag.attributes.get("id")).collect::<Vec<_>>();
    for (at, name) in names.iter().enumerate() {
        assert!(!names[..at].contains(name), "the name {name} is given twice");
    }
    for reference in tags.iter().filter_map(|tag| tag.attributes.get("href")) {
        assert!(
            names.iter().any(|name| reference.strip_prefix('#') == Some(name)),
            "nothing is named {reference}"
        );
    }
}
