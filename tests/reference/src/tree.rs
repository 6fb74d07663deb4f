//! The tree of a list of events, closed at the cut.

use crate::names::StartTag;
use crate::reader::{Event, What};

#[derive(Clone, Copy, Debug, PartialEq, Eq)]
pub enum Content {
    /// An element, by its number in the tree.
    Element(usize),
    /// A text, by its event.
    Text(usize),
}

#[derive(Clone, Debug)]
pub struct Element {
    pub parent: Option<usize>,
    /// The start's event.
    pub start: usize,
    /// The end's event; none for an end added at the cut.
    pub end: Option<usize>,
    pub content: Vec<Content>,
}

/// Elements stand in document order, the root first.
#[derive(Clone, Debug)]
pub struct Tree<'a> {
    pub events: &'a [Event],
    pub elements: Vec<Element>,
}

impl<'a> Tree<'a> {
    pub fn build(events: &'a [Event]) -> Tree<'a> {
        let mut tree = Tree {
            events,
            elements: Vec::new(),
        };
        let mut inner = None;
        for (index, event) in events.iter().enumerate() {
            inner = match event.what {
                What::Start(_) => Some(tree.start(inner, index)),
                What::Text(_) => tree.text(inner, index),
                What::End(_) => tree.end(inner, index),
            };
        }
        tree
    }

    /// Each of these hands back the innermost open element after the event.
    fn start(&mut self, inner: Option<usize>, event: usize) -> usize {
        let number = self.elements.len();
        self.elements.push(Element {
            parent: inner,
            start: event,
            end: None,
            content: Vec::new(),
        });
        if let Some(parent) = inner {
            self.elements[parent].content.push(Content::Element(number));
        }
        number
    }

    fn text(&mut self, inner: Option<usize>, event: usize) -> Option<usize> {
        let parent = inner.expect("text stands inside the root");
        self.elements[parent].content.push(Content::Text(event));
        inner
    }

    fn end(&mut self, inner: Option<usize>, event: usize) -> Option<usize> {
        let element = &mut self.elements[inner.expect("an end has its start")];
        element.end = Some(event);
        element.parent
    }

    pub fn tag(&self, element: usize) -> &'a StartTag {
        self.events[self.elements[element].start]
            .start_tag()
            .expect("an element's first event is a start")
    }

    /// Whether the root has closed.
    pub fn closed(&self) -> bool {
        self.elements.first().is_some_and(|root| root.end.is_some())
    }

    /// The elements whose ends were added at the cut, outermost first.
    pub fn open_path(&self) -> Vec<usize> {
        (0..self.elements.len())
            .filter(|&element| self.elements[element].end.is_none())
            .collect()
    }
}
