//! A reader of XML that accepts well-formed texts alone.

/// An element with what is directly in it.
#[derive(Debug, Default)]
pub struct Element {
    pub name: String,
    pub attributes: Vec<(String, String)>,
    pub children: Vec<Element>,
    pub text: String,
}

impl Element {
    pub fn attribute(&self, name: &str) -> Option<&str> {
        let found = self.attributes.iter().find(|attribute| attribute.0 == name);
        found.map(|attribute| attribute.1.as_str())
    }

    /// The element and all below it, in their order.
    pub fn all(&self) -> Vec<&Element> {
        let below = self.children.iter().flat_map(Element::all);
        std::iter::once(self).chain(below).collect()
    }
}

/// The root of a document, or a panic where it is not well-formed.
pub fn read(text: &str) -> Element {
    let mut open = vec![Element::default()];
    let mut rest = text;
    while let Some(start) = rest.find('<') {
        let (words, markup) = rest.split_at(start);
        open.last_mut().expect("an element").text += &plain(words);
        rest = markup_read(markup, &mut open);
    }
    assert!(plain(rest).trim().is_empty(), "text behind the root");
    let document = open.pop().expect("a document");
    assert!(open.is_empty() && document.children.len() == 1, "one root, closed");
    assert!(document.text.trim().is_empty(), "text beside the root");
    document.children.into_iter().next().expect("a root")
}

/// Takes one piece of markup off the front; what is behind it comes back.
fn markup_read<'a>(markup: &'a str, open: &mut Vec<Element>) -> &'a str {
    for (start, end) in [("<?", "?>"), ("<!--", "-->"), ("<!DOCTYPE", ">")] {
        if let Some(inside) = markup.strip_prefix(start) {
            return inside.split_once(end).expect("an end of what is no element").1;
        }
    }
    let (tag, rest) = markup[1..].split_once('>').expect("the end of a tag");
    if let Some(name) = tag.strip_prefix('/') {
        let closed = open.pop().expect("an open element");
        assert_eq!(closed.name, name.trim_end());
        open.last_mut().expect("an open element").children.push(closed);
    } else if let Some(tag) = tag.strip_suffix('/') {
        open.last_mut().expect("an open element").children.push(element(tag));
    } else {
        open.push(element(tag));
    }
    rest
}

fn element(tag: &str) -> Element {
    let (name, mut rest) = tag.split_once(char::is_whitespace).unwrap_or((tag, ""));
    assert!(!name.is_empty(), "a name");
    let mut attributes: Vec<(String, String)> = Vec::new();
    while !rest.trim().is_empty() {
        let (name, behind) = rest.split_once("=\"").expect("an attribute");
        let (value, behind) = behind.split_once('"').expect("the end of a value");
        let name = name.trim().to_string();
        assert!(attributes.iter().all(|known| known.0 != name), "{name} twice");
        attributes.push((name, plain(value)));
        rest = behind;
    }
    Element { name: name.to_string(), attributes, ..Element::default() }
}

/// Text with its entities read.
fn plain(text: &str) -> String {
    let mut pieces = text.split('&');
    let mut plain = pieces.next().unwrap_or_default().to_string();
    for piece in pieces {
        let (entity, behind) = piece.split_once(';').expect("the end of an entity");
        plain.push(match entity {
            "amp" => '&',
            "lt" => '<',
            "gt" => '>',
            "quot" => '"',
            _ => {
                let code = entity.strip_prefix('#').expect("a known entity");
                char::from_u32(code.parse().expect("a number")).expect("a character")
            }
        });
        plain += behind;
    }
    plain
}
