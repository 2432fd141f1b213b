//! Elements by their ids.

use std::collections::HashMap;

use crate::xml::Element;

/// All elements of a document that have an id; of several with one id, the first.
#[derive(Default)]
pub struct Ids<'a>(HashMap<&'a str, &'a Element>);

impl<'a> Ids<'a> {
    pub fn of(root: &'a Element) -> Ids<'a> {
        let mut ids = Ids::default();
        ids.gather(root);
        ids
    }

    fn gather(&mut self, element: &'a Element) {
        if let Some(id) = element.attribute("id") {
            self.0.entry(id).or_insert(element);
        }
        element.children.iter().for_each(|child| self.gather(child));
    }

    pub fn get(&self, id: &str) -> Option<&'a Element> {
        self.0.get(id).copied()
    }
}
