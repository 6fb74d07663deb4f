//! The reference model: a recursion over the whole tree's sections and slots.
//!
//! A unit is its section's elements, text and kept attributes, with each child section's slot
//! filled, along that unit's own strand, by the child if attached, by the child's slots'
//! fillings in document order if unwrapped, by nothing if only validated.

use crate::names::Namespace;
use crate::reader::{Event, What};
use crate::records::{self, Draft, List, Rank, Record};
use crate::sections::{self, Division, Item};
use crate::span::Span;
use crate::strands::{self, Strand};
use crate::table::{Action, Table, ANY, VIRTUAL};
use crate::tree::Tree;

/// The model of a list of events: the tree closed at the cut, its sections with their strands,
/// and the list of its records with the added ends struck.
pub struct Model<'a> {
    pub tree: Tree<'a>,
    pub division: Division,
    pub strands: Vec<Vec<Strand>>,
    pub list: List,
}

pub fn model<'a>(table: &Table, scene: &[u8], events: &'a [Event]) -> Model<'a> {
    let tree = Tree::build(events);
    let division = sections::divide(table, scene, &tree);
    of_tree(table, tree, division)
}

/// The model of a tree that is divided already.
pub fn of_tree<'a>(table: &Table, tree: Tree<'a>, division: Division) -> Model<'a> {
    let (strands, names) = strands::assign_all(table, &division);
    let mut validation = Validation {
        table,
        tree: &tree,
        division: &division,
        strands: &strands,
        names,
        drafts: Vec::new(),
    };
    validation.section_units();
    validation.attribute_units();
    let list = records::list(validation.drafts, validation.names);
    Model {
        tree,
        division,
        strands,
        list,
    }
}

struct Validation<'a> {
    table: &'a Table<'a>,
    tree: &'a Tree<'a>,
    division: &'a Division,
    strands: &'a [Vec<Strand>],
    /// Units named so far.
    names: usize,
    drafts: Vec<Draft>,
}

impl Validation<'_> {
    /// Every section validated along one of its strands is a unit.
    fn section_units(&mut self) {
        for section in 0..self.strands.len() {
            for strand in 0..self.strands[section].len() {
                if self.strands[section][strand].validates() {
                    self.section_unit(section, strand);
                }
            }
        }
    }

    fn section_unit(&mut self, section: usize, strand: usize) {
        let validated = &self.strands[section][strand];
        let unit = validated.target.expect("a validate strand has its unit");
        let head = &self.tree.elements[self.division.sections[section].head];
        let at = self.tree.events[head.start].at;
        let open = Rank::section_unit(Some(head.start), strand);
        let close = Rank::section_unit(head.end, strand);
        self.add(open, open_record(unit, validated.schema, at, 0));
        self.section(unit, section, strand);
        self.add(close, plain_record(unit, records::CLOSE));
    }

    /// A section's elements, text and kept attributes, its slots filled.
    fn section(&mut self, unit: usize, section: usize, strand: usize) {
        let division = self.division;
        for &item in &division.sections[section].items {
            match item {
                Item::Start(element) => self.start(unit, element, strand),
                Item::Text(event) => self.text(unit, event, strand),
                Item::End(element) => self.end(unit, element, strand),
                Item::Slot(child) => self.slot(unit, child, strand),
            }
        }
    }

    /// What fills the slot of a child section along the unit's strand of its parent section.
    fn slot(&mut self, unit: usize, child: usize, outer: usize) {
        let Some(strand) = self.kept_along(child, outer) else {
            return;
        };
        match self.strands[child][strand].action {
            Action::Attach => self.section(unit, child, strand),
            _ => {
                let division = self.division;
                for &slot in &division.sections[child].slots {
                    self.slot(unit, slot, strand);
                }
            }
        }
    }

    /// The strand of a section that goes on from an outer one and keeps its target, if any: a
    /// table has at most one attach or unwrap rule for it.
    fn kept_along(&self, section: usize, outer: usize) -> Option<usize> {
        let strands = &self.strands[section];
        let first = strands.partition_point(|strand| strand.from < outer);
        let next = strands.partition_point(|strand| strand.from <= outer);
        (first..next).find(|&strand| !strands[strand].validates())
    }

    fn start(&mut self, unit: usize, element: usize, strand: usize) {
        let event = self.tree.elements[element].start;
        let rank = Rank::section_unit(Some(event), strand);
        let part = self.tree.tag(element).part;
        self.add(rank, self.element(unit, records::START, element, part));
        let section = self.division.section_of[element];
        let mode = self.strands[section][strand].mode;
        let kept = strands::kept(self.table, &self.division.attributes[element], mode);
        for (number, kept) in kept.into_iter().enumerate() {
            if kept {
                self.attribute(rank, unit, element, number);
            }
        }
    }

    /// Name and value of an element's attribute.
    fn attribute(&mut self, rank: Rank, unit: usize, element: usize, number: usize) {
        let attribute = &self.tree.tag(element).attributes[number];
        let class = self.division.attributes[element].class_of[number];
        let name = Record {
            class,
            span: attribute.part,
            uri: uri_span(class, attribute.namespace),
            ..plain_record(unit, records::ATTRIBUTE)
        };
        self.add(rank, name);
        let value = Record {
            span: attribute.value,
            ..plain_record(unit, records::VALUE)
        };
        self.add(rank, value);
    }

    fn text(&mut self, unit: usize, event: usize, strand: usize) {
        if let What::Text(span) = self.tree.events[event].what {
            let record = Record {
                span,
                ..plain_record(unit, records::TEXT)
            };
            self.add(Rank::section_unit(Some(event), strand), record);
        }
    }

    fn end(&mut self, unit: usize, element: usize, strand: usize) {
        let event = self.tree.elements[element].end;
        let part = match event.map(|event| &self.tree.events[event].what) {
            Some(What::End(part)) => *part,
            _ => self.tree.tag(element).part,
        };
        let record = self.element(unit, records::END, element, part);
        self.add(Rank::section_unit(event, strand), record);
    }

    /// A start or an end of an element, whose class is its section's.
    fn element(&self, unit: usize, kind: u8, element: usize, part: Span) -> Record {
        let section = self.division.section_of[element];
        let class = self.division.sections[section].class;
        Record {
            class,
            span: part,
            uri: uri_span(class, self.tree.tag(element).namespace),
            ..plain_record(unit, kind)
        }
    }

    /// Every attribute section is a unit for each validate rule, along each strand.
    fn attribute_units(&mut self) {
        for element in 0..self.tree.elements.len() {
            if !self.division.attributes[element].sections.is_empty() {
                let section = self.division.section_of[element];
                for strand in 0..self.strands[section].len() {
                    let mode = self.strands[section][strand].mode;
                    self.attribute_units_of(element, strand, mode);
                }
            }
        }
    }

    fn attribute_units_of(&mut self, element: usize, strand: usize, mode: u8) {
        let event = self.tree.elements[element].start;
        let (table, division) = (self.table, self.division);
        let sections = &division.attributes[element].sections;
        for (number, section) in sections.iter().enumerate() {
            let schemas = strands::attribute_schemas(table, mode, section.class);
            for (rule, schema) in schemas.enumerate() {
                let rank = Rank::attribute_unit(event, strand, number, rule);
                self.attribute_unit(rank, element, &section.members, schema);
            }
        }
    }

    /// A unit holding a virtual element with these attributes.
    fn attribute_unit(&mut self, rank: Rank, element: usize, members: &[usize], schema: u8) {
        let unit = self.names;
        self.names += 1;
        let at = self.tree.events[self.tree.elements[element].start].at;
        self.add(rank, open_record(unit, schema, at, 1));
        self.add(rank, virtual_record(unit, records::START));
        for &member in members {
            self.attribute(rank, unit, element, member);
        }
        self.add(rank, virtual_record(unit, records::END));
        self.add(rank, plain_record(unit, records::CLOSE));
    }

    fn add(&mut self, rank: Rank, record: Record) {
        self.drafts.push(Draft { rank, record });
    }
}

/// The class of a namespace, and the span of its URI if that is unlisted.
pub fn class_and_uri(table: &Table, scene: &[u8], namespace: Namespace) -> (u8, Span) {
    let class = table.class_of(namespace.uri(scene));
    (class, uri_span(class, namespace))
}

/// The URI span of a record: the value of the declaration in force, only for class 255.
fn uri_span(class: u8, namespace: Namespace) -> Span {
    match namespace {
        Namespace::Uri(uri) if class == ANY => uri,
        _ => Span::ZERO,
    }
}

fn plain_record(unit: usize, kind: u8) -> Record {
    Record {
        unit: unit as u64,
        kind,
        class: 0,
        span: Span::ZERO,
        uri: Span::ZERO,
    }
}

fn open_record(unit: usize, schema: u8, at: u64, attribute_unit: u64) -> Record {
    Record {
        class: schema,
        span: Span::new(at, attribute_unit),
        ..plain_record(unit, records::OPEN)
    }
}

fn virtual_record(unit: usize, kind: u8) -> Record {
    Record {
        class: VIRTUAL,
        ..plain_record(unit, kind)
    }
}
