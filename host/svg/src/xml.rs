//! A reader of XML: elements with their attributes and where they begin. Comments, instructions and the document type
//! are passed over; of entities only the five of XML itself and those by number are known.

mod cursor;

use crate::problem::{Position, Problem};
use cursor::Cursor;

/// An element of a document.
#[derive(Clone, Debug, Default, PartialEq, Eq)]
pub struct Element {
    /// Without a prefix.
    pub name: String,
    /// Whether it is SVG's own, not an editor's.
    pub is_svg: bool,
    /// With prefixes as they stand.
    pub attributes: Vec<(String, String)>,
    pub children: Vec<Element>,
    /// All text directly within it.
    pub text: String,
    pub at: Position,
}

const SVG_SPACE: &str = "http://www.w3.org/2000/svg";
/// How deep elements stand within each other at most, so that walks over them may be recursive.
const MOST_LEVELS: usize = 200;

impl Element {
    /// An attribute by its name with its prefix.
    pub fn attribute(&self, name: &str) -> Option<&str> {
        self.attributes.iter().find(|(own, _)| own == name).map(|(_, value)| value.as_str())
    }

    /// What another element is named by that this one refers to: the id behind `#`.
    pub fn reference(&self) -> Option<&str> {
        self.attribute("href").or_else(|| self.attribute("xlink:href"))
    }

    /// Its name and its id, for messages.
    pub fn label(&self) -> String {
        match self.attribute("id") {
            Some(id) => format!("{} '{id}'", self.name),
            None => self.name.clone(),
        }
    }

    /// A problem of this element.
    pub fn problem(&self, what: impl Into<String>) -> Problem {
        Problem { at: self.at, element: self.label(), what: what.into() }
    }
}

/// The root element of a document.
pub fn read(document: &[u8]) -> Result<Element, Problem> {
    let text = std::str::from_utf8(document)
        .map_err(|_| document_problem(Position { line: 1, column: 1 }, "is no UTF-8 text"))?;
    let mut reader =
        Reader { cursor: Cursor::new(text.strip_prefix('\u{FEFF}').unwrap_or(text)), open: Vec::new(), root: None };
    while !reader.cursor.is_at_end() {
        reader.step().map_err(|what| document_problem(reader.cursor.position(), what))?;
    }
    let end = reader.cursor.position();
    match (reader.open.last(), reader.root) {
        (Some(open), _) => Err(open.element.problem("is not closed")),
        (None, Some(root)) => Ok(root),
        (None, None) => Err(document_problem(end, "has no element")),
    }
}

fn document_problem(at: Position, what: impl Into<String>) -> Problem {
    Problem { at, element: "document".to_string(), what: what.into() }
}

/// An element that is not closed yet.
struct Open {
    element: Element,
    /// Its name with its prefix.
    tag: String,
    /// The prefixes that it declares, and their spaces.
    spaces: Vec<(String, String)>,
}

struct Reader<'a> {
    cursor: Cursor<'a>,
    open: Vec<Open>,
    root: Option<Element>,
}

impl Reader<'_> {
    /// The next tag, comment, instruction or run of text.
    fn step(&mut self) -> Result<(), String> {
        let cursor = &mut self.cursor;
        if cursor.take("<!--") {
            cursor.until("-->").map(drop)
        } else if cursor.take("<![CDATA[") {
            let text = cursor.until("]]>")?.to_string();
            self.text(&text);
            Ok(())
        } else if cursor.take("<?") {
            cursor.until("?>").map(drop)
        } else if cursor.take("<!") {
            self.document_type()
        } else if cursor.take("</") {
            self.close()
        } else if cursor.rest().starts_with('<') {
            self.begin()
        } else {
            let text = decoded(cursor.until_before('<'))?;
            self.text(&text);
            Ok(())
        }
    }

    fn text(&mut self, text: &str) {
        if let Some(open) = self.open.last_mut() {
            open.element.text.push_str(text);
        }
    }

    /// The rest of a document type, with declarations in brackets.
    fn document_type(&mut self) -> Result<(), String> {
        let before = self.cursor.until(">")?;
        if before.contains('[') && !before.contains(']') {
            self.cursor.until("]")?;
            self.cursor.until(">")?;
        }
        Ok(())
    }

    fn close(&mut self) -> Result<(), String> {
        let tag = self.cursor.until(">")?.trim_end();
        match self.open.pop() {
            Some(open) if open.tag == tag => {
                self.end(open.element);
                Ok(())
            }
            Some(open) => Err(format!("has </{tag}> where {} of line {} is open", open.tag, open.element.at.line)),
            None => Err(format!("has </{tag}> where nothing is open")),
        }
    }

    /// An element that has all its children, to its parent.
    fn end(&mut self, element: Element) {
        match self.open.last_mut() {
            Some(parent) => parent.element.children.push(element),
            None => self.root = Some(element),
        }
    }

    /// A tag that begins an element, or is the whole of it.
    fn begin(&mut self) -> Result<(), String> {
        let at = self.cursor.position();
        if self.open.is_empty() && self.root.is_some() {
            return Err("has a second element behind its root".to_string());
        }
        if self.open.len() == MOST_LEVELS {
            return Err(format!("has elements within each other deeper than {MOST_LEVELS} levels"));
        }
        self.cursor.take("<");
        let tag = self.cursor.name()?.to_string();
        let mut attributes = Vec::new();
        let is_whole = loop {
            self.cursor.skip_space();
            if self.cursor.take("/>") {
                break true;
            }
            if self.cursor.take(">") {
                break false;
            }
            attributes.push(self.attribute()?);
        };
        let open = self.opened(tag, attributes, at);
        if is_whole {
            self.end(open.element);
        } else {
            self.open.push(open);
        }
        Ok(())
    }

    fn attribute(&mut self) -> Result<(String, String), String> {
        let name = self.cursor.name()?.to_string();
        self.cursor.skip_space();
        if !self.cursor.take("=") {
            return Err(format!("has an attribute {name} without a value"));
        }
        self.cursor.skip_space();
        let value = if self.cursor.take("\"") {
            self.cursor.until("\"")
        } else if self.cursor.take("'") {
            self.cursor.until("'")
        } else {
            Err(format!("has an attribute {name} whose value is not quoted"))
        };
        Ok((name, decoded(value?)?))
    }

    fn opened(&self, tag: String, attributes: Vec<(String, String)>, at: Position) -> Open {
        let declared = attributes.iter().filter_map(|(name, value)| {
            let prefix = if name == "xmlns" { Some("") } else { name.strip_prefix("xmlns:") };
            prefix.map(|prefix| (prefix.to_string(), value.clone()))
        });
        let spaces: Vec<(String, String)> = declared.collect();
        let (prefix, name) = tag.split_once(':').unwrap_or(("", &tag));
        let is_svg = self.is_svg(prefix, &spaces);
        let element =
            Element { name: name.to_string(), is_svg, attributes, children: Vec::new(), text: String::new(), at };
        Open { element, tag, spaces }
    }

    /// Whether a prefix stands for SVG's own elements; none does where nothing is declared at all.
    fn is_svg(&self, prefix: &str, own: &[(String, String)]) -> bool {
        let all = std::iter::once(own).chain(self.open.iter().rev().map(|open| &open.spaces[..]));
        let space = all.flatten().find(|(declared, _)| declared == prefix).map(|(_, space)| space.as_str());
        space.map_or(prefix.is_empty(), |space| space == SVG_SPACE)
    }
}

/// A text with its entities replaced.
fn decoded(text: &str) -> Result<String, String> {
    let mut parts = text.split('&');
    let mut decoded = parts.next().unwrap_or("").to_string();
    for part in parts {
        let (entity, rest) = part.split_once(';').ok_or("has an & that is no entity")?;
        decoded.push(entity_letter(entity).ok_or_else(|| format!("has the entity &{entity}; which is not known"))?);
        decoded.push_str(rest);
    }
    Ok(decoded)
}

fn entity_letter(entity: &str) -> Option<char> {
    match entity {
        "lt" => Some('<'),
        "gt" => Some('>'),
        "amp" => Some('&'),
        "quot" => Some('"'),
        "apos" => Some('\''),
        _ => {
            let digits = entity.strip_prefix('#')?;
            let number = match digits.strip_prefix('x') {
                Some(hex) => u32::from_str_radix(hex, 16).ok()?,
                None => digits.parse().ok()?,
            };
            char::from_u32(number)
        }
    }
}

#[cfg(test)]
mod tests {
    use super::*;

    #[test]
    fn elements_with_their_places() {
        let text = "<?xml version='1.0'?>\n<!DOCTYPE svg [ <!ENTITY a 'b'> ]>\n<!-- <a> -->\n<svg xmlns=\"http://www.w3.org/2000/svg\" \
                    xmlns:i='urn:x'>\n é<g id = 'a&amp;&#65;'><i:n/></g>\n<![CDATA[<]]></svg>\n";
        let root = read(text.as_bytes()).expect("a document");
        assert_eq!((root.name.as_str(), root.is_svg, root.at), ("svg", true, Position { line: 4, column: 1 }));
        assert_eq!(root.text, "\n é\n<");
        let group = &root.children[0];
        assert_eq!((group.attribute("id"), group.at), (Some("a&A"), Position { line: 5, column: 3 }));
        assert_eq!((group.children[0].name.as_str(), group.children[0].is_svg), ("n", false));
    }

    #[test]
    fn a_prefix_for_svg() {
        let root = read(b"<s:svg xmlns:s='http://www.w3.org/2000/svg'><s:g/><g/></s:svg>").expect("a document");
        assert!(root.is_svg && root.children[0].is_svg);
        assert!(root.children[1].is_svg, "no space is declared for elements without a prefix");
    }

    #[test]
    fn what_is_no_document() {
        let cases = [
            ("", 1, 1, "has no element"),
            ("<a>", 1, 1, "is not closed"),
            ("<a></b>", 1, 8, "has </b> where a of line 1 is open"),
            ("</b>", 1, 5, "has </b> where nothing is open"),
            ("<a/><a/>", 1, 5, "has a second element behind its root"),
            ("<a b>", 1, 5, "has an attribute b without a value"),
            ("<a b=c>", 1, 6, "has an attribute b whose value is not quoted"),
            ("<a b='&c;'/>", 1, 11, "has the entity &c; which is not known"),
            ("<a>&</a>", 1, 5, "has an & that is no entity"),
            ("<!-- ", 1, 6, "ends before '-->'"),
            ("<a b='", 1, 7, "ends before '''"),
            ("<>", 1, 2, "has no name here"),
        ];
        for (text, line, column, what) in cases {
            let problem = read(text.as_bytes()).expect_err(text);
            assert_eq!((problem.at, problem.what.as_str()), (Position { line, column }, what), "{text}");
        }
        assert!(read(&[0xFF]).is_err());
        assert!(read("<a>".repeat(100_000).as_bytes()).is_err());
    }
}
