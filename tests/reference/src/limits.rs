//! The limits of steps on a whole scene: 7, 21 to 24 on the tree, 25 on the list.

use crate::answer::Refusal;
use crate::records::{List, RECORD};
use crate::sections::{Attributes, Division};
use crate::strands::{self, Strand};
use crate::table::Table;
use crate::tree::Tree;

pub const SCENE: usize = 16_777_215;
pub const DEPTH: usize = 64;
pub const BINDINGS: usize = 64;
pub const STRANDS: usize = 16;
pub const UNITS: u64 = 65_536;

pub const TOO_LONG: u8 = 7;
pub const TOO_DEEP: u8 = 21;
pub const TOO_MANY_BINDINGS: u8 = 22;
pub const TOO_MANY_STRANDS: u8 = 23;
pub const TOO_MANY_UNITS: u8 = 24;
pub const OUTPUT_FULL: u8 = 25;

/// The first event that a step refuses, with the number and its place.
#[derive(Clone, Copy, Debug, PartialEq, Eq)]
pub struct Stop {
    pub event: usize,
    pub refusal: Refusal,
}

/// The first start, in document order, that 21, 22, 23 or 24 refuses.
pub fn first(table: &Table, tree: &Tree, division: &Division) -> Option<Stop> {
    let mut counts = Counts::default();
    (0..tree.elements.len()).find_map(|element| {
        let number = counts.count(table, tree, division, element)?;
        let event = tree.elements[element].start;
        Some(Stop {
            event,
            refusal: Refusal::new(number, tree.events[event].at),
        })
    })
}

/// What the limits count, for the elements seen so far.
#[derive(Default)]
struct Counts {
    /// By element.
    depth: Vec<usize>,
    /// By element, open bindings with its own.
    bindings: Vec<usize>,
    /// By section.
    strands: Vec<Vec<Strand>>,
    /// Units opened.
    units: u64,
}

impl Counts {
    /// Counts one element more; the number that refuses it, if any.
    fn count(
        &mut self,
        table: &Table,
        tree: &Tree,
        division: &Division,
        element: usize,
    ) -> Option<u8> {
        let parent = tree.elements[element].parent;
        let depth = 1 + parent.map_or(0, |parent| self.depth[parent]);
        let own = tree.tag(element).declarations.len();
        let bindings = own + parent.map_or(0, |parent| self.bindings[parent]);
        self.depth.push(depth);
        self.bindings.push(bindings);
        if depth > DEPTH {
            return Some(TOO_DEEP);
        }
        if bindings > BINDINGS {
            return Some(TOO_MANY_BINDINGS);
        }
        self.strands_and_units(table, division, element)
    }

    fn strands_and_units(
        &mut self,
        table: &Table,
        division: &Division,
        element: usize,
    ) -> Option<u8> {
        let number = division.section_of[element];
        let section = &division.sections[number];
        let mut opened = 0;
        if section.head == element {
            let outer = strands::outer_strands(&self.strands, section.parent);
            let strands = strands::assign(table, outer, section.class, &mut opened);
            self.strands.push(strands);
        }
        let strands = &self.strands[number];
        if strands.len() > STRANDS {
            return Some(TOO_MANY_STRANDS);
        }
        let attributes = &division.attributes[element];
        self.units += opened as u64 + attribute_units(table, strands, attributes);
        (self.units > UNITS).then_some(TOO_MANY_UNITS)
    }
}

/// How many attribute units an element with these strands opens.
fn attribute_units(table: &Table, strands: &[Strand], attributes: &Attributes) -> u64 {
    let units = |strand: &Strand, class| {
        strands::attribute_schemas(table, strand.mode, class).count() as u64
    };
    let along = |strand: &Strand| -> u64 {
        let sections = attributes.sections.iter();
        sections.map(|section| units(strand, section.class)).sum()
    };
    strands.iter().map(along).sum()
}

/// The first event whose records, joined to those before, exceed the output.
pub fn overflow(list: &List, output: usize) -> Option<usize> {
    list.events.get(output / RECORD).copied()
}

/// The first event whose own records exceed an output that each event has anew.
pub fn overflow_each(list: &List, output: usize) -> Option<usize> {
    let room = output / RECORD;
    let event_of = |record: usize| list.events.get(record).copied();
    (0..list.events.len()).find_map(|first| {
        let event = list.events[first];
        (event_of(first + room) == Some(event)).then_some(event)
    })
}
