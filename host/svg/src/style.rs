//! CSS properties of an element: those of its `style`, those of its attributes, and those it inherits.

use crate::xml::Element;

/// The properties that children inherit, as far as they matter here.
const INHERITED: [&str; 12] = [
    "fill",
    "fill-opacity",
    "fill-rule",
    "color",
    "stroke",
    "stroke-width",
    "stroke-opacity",
    "visibility",
    "clip-rule",
    "marker-start",
    "marker-mid",
    "marker-end",
];

/// The properties that hold for an element.
#[derive(Clone, Debug, Default)]
pub struct Style {
    inherited: Vec<(&'static str, String)>,
    own: Vec<(String, String)>,
}

impl Style {
    /// The style of an element whose parent has this one.
    pub fn of(&self, element: &Element) -> Style {
        let own = declarations(element);
        let mut inherited = self.inherited.clone();
        for name in INHERITED {
            let value = own.iter().find(|(declared, _)| declared == name).map(|(_, value)| value);
            if let Some(value) = value.filter(|value| *value != "inherit") {
                inherited.retain(|(before, _)| *before != name);
                inherited.push((name, value.clone()));
            }
        }
        Style { inherited, own }
    }

    /// A property as it is written here or, if it is inherited, above.
    pub fn get(&self, name: &str) -> Option<&str> {
        if INHERITED.contains(&name) {
            return self.inherited.iter().find(|(own, _)| *own == name).map(|(_, value)| value.as_str());
        }
        self.own.iter().find(|(own, _)| own == name).map(|(_, value)| value.as_str())
    }

    /// A property if it is not the word that does nothing.
    pub fn get_unless(&self, name: &str, nothing: &str) -> Option<&str> {
        self.get(name).filter(|value| *value != nothing)
    }
}

/// The properties of an element's own: of `style` first, then of attributes.
fn declarations(element: &Element) -> Vec<(String, String)> {
    let style = element.attribute("style").unwrap_or("");
    let declared = style.split(';').filter_map(|declaration| declaration.split_once(':')).map(|(name, value)| {
        let value = value.trim();
        (name.trim().to_string(), value.strip_suffix("!important").unwrap_or(value).trim_end().to_string())
    });
    // Of several in a style the last one counts.
    let mut all: Vec<(String, String)> = declared.collect();
    all.reverse();
    let attributes = element.attributes.iter().filter(|(name, _)| name != "transform");
    all.extend(attributes.map(|(name, value)| (name.clone(), value.trim().to_string())));
    all
}

/// The id in url(#id), and what is behind it.
pub fn url(value: &str) -> Option<(&str, &str)> {
    let (address, rest) = value.strip_prefix("url(")?.split_once(')')?;
    let id = address.trim().trim_matches(|letter| letter == '"' || letter == '\'').strip_prefix('#')?;
    Some((id, rest.trim()))
}

#[cfg(test)]
mod tests {
    use super::*;
    use crate::xml;

    #[test]
    fn style_comes_before_attributes_and_both_before_parents() {
        let root = xml::read(
            b"<svg fill='red' opacity='.5' style='fill-rule:evenodd'><g fill='blue' style='fill: green !important; x:y; fill:lime;'/>\
              <g fill='inherit'/></svg>",
        )
        .expect("a document");
        let style = Style::default().of(&root);
        assert_eq!((style.get("fill"), style.get("opacity")), (Some("red"), Some(".5")));
        let first = style.of(&root.children[0]);
        assert_eq!((first.get("fill"), first.get("opacity")), (Some("lime"), None));
        assert_eq!(first.get("fill-rule"), Some("evenodd"));
        assert_eq!(style.of(&root.children[1]).get("fill"), Some("red"));
    }

    #[test]
    fn references() {
        assert_eq!(url("url(#a) red"), Some(("a", "red")));
        assert_eq!(url("url('#a')"), Some(("a", "")));
        assert_eq!([url("#a"), url("url(a)"), url("url(#a")], [None; 3]);
    }
}
