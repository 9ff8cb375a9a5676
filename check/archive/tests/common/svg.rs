//! A reader of the SVG that the map draws: plain elements with quoted attributes, properly nested.

use std::collections::HashMap;

/// An element, with the text of it and of its children.
#[derive(Debug)]
pub struct Element {
    pub name: String,
    pub attributes: HashMap<String, String>,
    pub text: String,
}

impl Element {
    pub fn attribute(&self, name: &str) -> &str {
        self.attributes.get(name).unwrap_or_else(|| panic!("{} without {name}", self.name))
    }

    pub fn number(&self, name: &str) -> f64 {
        self.attribute(name).parse().unwrap_or_else(|_| panic!("{name} of {} is no number", self.name))
    }

    pub fn has_class(&self, class: &str) -> bool {
        self.attributes.get("class").is_some_and(|classes| classes.split(' ').any(|one| one == class))
    }
}

/// The elements of a document, each after those inside it. Panics where the text is not well formed.
pub fn elements(document: &str) -> Vec<Element> {
    let mut done = Vec::new();
    let mut open: Vec<Element> = Vec::new();
    let mut rest = document.trim();
    while let Some(start) = rest.find('<') {
        let words = &rest[..start];
        assert!(!words.contains('>') && !words.contains('&'), "plain text: {words}");
        open.iter_mut().for_each(|element| element.text.push_str(words));
        let end = rest.find('>').expect("a tag ends");
        let tag = &rest[start + 1..end];
        rest = &rest[end + 1..];
        if let Some(name) = tag.strip_prefix('/') {
            let element = open.pop().expect("an end tag has a start tag");
            assert_eq!(element.name, name, "tags are nested");
            done.push(element);
            continue;
        }
        assert!(!open.is_empty() || done.is_empty(), "one root");
        let element = element(tag.trim_end_matches('/'));
        if tag.ends_with('/') { done.push(element) } else { open.push(element) }
    }
    assert!(open.is_empty() && rest.is_empty(), "the document ends with its root");
    done
}

fn element(tag: &str) -> Element {
    let (name, mut rest) = tag.split_once(' ').unwrap_or((tag, ""));
    let mut attributes = HashMap::new();
    while !rest.trim().is_empty() {
        let (attribute, after) = rest.trim().split_once("=\"").expect("a quoted attribute");
        let (value, after) = after.split_once('"').expect("a closed quote");
        assert!(attributes.insert(attribute.to_string(), value.to_string()).is_none(), "{attribute} stands once");
        rest = after;
    }
    Element { name: name.to_string(), attributes, text: String::new() }
}
