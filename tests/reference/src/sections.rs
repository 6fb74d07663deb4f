//! The tree divided into sections and slots, and each element's attributes likewise.

use crate::names::{Attribute, StartTag};
use crate::table::Table;
use crate::tree::{Content, Tree};

/// What a section is made of, in document order.
#[derive(Clone, Copy, Debug, PartialEq, Eq)]
pub enum Item {
    /// The start of an element of the section.
    Start(usize),
    /// A text, by its event, in an element of the section.
    Text(usize),
    /// The end of an element of the section.
    End(usize),
    /// The slot of a child section.
    Slot(usize),
}

/// The elements that hang together in one namespace.
#[derive(Clone, Debug)]
pub struct Section {
    pub parent: Option<usize>,
    /// The element that starts the section.
    pub head: usize,
    pub class: u8,
    pub items: Vec<Item>,
    /// The child sections, in document order.
    pub slots: Vec<usize>,
}

/// The attributes of one element in one namespace other than the element's own.
#[derive(Clone, Debug)]
pub struct AttributeSection {
    pub class: u8,
    /// By their number in the tag.
    pub members: Vec<usize>,
}

/// An element's attributes: its attribute sections, for each attribute the one it is in, or none
/// if it stays with the element, and for each attribute its class.
#[derive(Clone, Debug, Default)]
pub struct Attributes {
    pub sections: Vec<AttributeSection>,
    pub section_of: Vec<Option<usize>>,
    pub class_of: Vec<u8>,
}

/// Sections stand in the document order of their heads, the root's first.
#[derive(Clone, Debug)]
pub struct Division {
    pub sections: Vec<Section>,
    /// By element.
    pub section_of: Vec<usize>,
    /// By element.
    pub attributes: Vec<Attributes>,
}

pub fn divide(table: &Table, scene: &[u8], tree: &Tree) -> Division {
    let mut divider = Divider {
        table,
        scene,
        tree,
        sections: Vec::new(),
        section_of: Vec::new(),
    };
    divider.elements();
    divider.items();
    Division {
        sections: divider.sections,
        section_of: divider.section_of,
        attributes: attributes(table, scene, tree),
    }
}

struct Divider<'a> {
    table: &'a Table<'a>,
    scene: &'a [u8],
    tree: &'a Tree<'a>,
    sections: Vec<Section>,
    section_of: Vec<usize>,
}

impl Divider<'_> {
    /// Finds the section of every element.
    fn elements(&mut self) {
        for element in 0..self.tree.elements.len() {
            let outer = self.tree.elements[element].parent;
            let section = match outer {
                Some(parent) if self.same_namespace(parent, element) => self.section_of[parent],
                _ => self.new_section(outer, element),
            };
            self.section_of.push(section);
        }
    }

    fn same_namespace(&self, one: usize, other: usize) -> bool {
        let uri = |element| self.tree.tag(element).namespace.uri(self.scene);
        uri(one) == uri(other)
    }

    fn new_section(&mut self, outer: Option<usize>, head: usize) -> usize {
        let number = self.sections.len();
        let parent = outer.map(|element| self.section_of[element]);
        let uri = self.tree.tag(head).namespace.uri(self.scene);
        self.sections.push(Section {
            parent,
            head,
            class: self.table.class_of(uri),
            items: Vec::new(),
            slots: Vec::new(),
        });
        if let Some(parent) = parent {
            self.sections[parent].slots.push(number);
        }
        number
    }

    /// Walks the tree in document order, with the way back instead of a recursion, so that a
    /// scene may be as deep as it likes.
    fn items(&mut self) {
        let mut way = Vec::new();
        if !self.tree.elements.is_empty() {
            self.enter(0, &mut way);
        }
        while let Some((element, next)) = way.pop() {
            match self.tree.elements[element].content.get(next) {
                None => self.add(element, Item::End(element)),
                Some(&Content::Text(event)) => {
                    self.add(element, Item::Text(event));
                    way.push((element, next + 1));
                }
                Some(&Content::Element(child)) => {
                    way.push((element, next + 1));
                    self.enter(child, &mut way);
                }
            }
        }
    }

    fn enter(&mut self, element: usize, way: &mut Vec<(usize, usize)>) {
        let section = self.section_of[element];
        if self.sections[section].head == element {
            if let Some(parent) = self.sections[section].parent {
                self.sections[parent].items.push(Item::Slot(section));
            }
        }
        self.add(element, Item::Start(element));
        way.push((element, 0));
    }

    fn add(&mut self, element: usize, item: Item) {
        self.sections[self.section_of[element]].items.push(item);
    }
}

fn attributes(table: &Table, scene: &[u8], tree: &Tree) -> Vec<Attributes> {
    (0..tree.elements.len())
        .map(|element| attributes_of(table, scene, tree.tag(element)))
        .collect()
}

/// One section per namespace, ordered by first attribute.
pub fn attributes_of(table: &Table, scene: &[u8], tag: &StartTag) -> Attributes {
    let mut found = Attributes::default();
    let mut uris: Vec<&[u8]> = Vec::new();
    for (number, attribute) in tag.attributes.iter().enumerate() {
        let uri = attribute.namespace.uri(scene);
        if stays(scene, tag, attribute) {
            found.section_of.push(None);
            found.class_of.push(table.class_of(uri));
            continue;
        }
        let section = uris.iter().position(|&earlier| earlier == uri);
        let section = section.unwrap_or_else(|| {
            uris.push(uri);
            found.add_section(table.class_of(uri))
        });
        found.sections[section].members.push(number);
        found.section_of.push(Some(section));
        found.class_of.push(found.sections[section].class);
    }
    found
}

impl Attributes {
    fn add_section(&mut self, class: u8) -> usize {
        self.sections.push(AttributeSection {
            class,
            members: Vec::new(),
        });
        self.sections.len() - 1
    }
}

/// Attributes without prefix, or in the element's namespace, stay with it.
fn stays(scene: &[u8], tag: &StartTag, attribute: &Attribute) -> bool {
    !attribute.prefixed || attribute.namespace.uri(scene) == tag.namespace.uri(scene)
}
