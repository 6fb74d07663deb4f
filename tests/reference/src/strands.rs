//! Rules assigned along strands.

use crate::defaults::{Defaults, REJECT};
use crate::sections::{Attributes, Division};
use crate::table::{Action, Table, ATTRIBUTE_SECTION, ELEMENT_SECTION};

/// Far above the step's own limit of 16; the reference stops here rather than fill the memory.
pub const STRANDS_AT_MOST: usize = 1 << 16;

/// One reading of the path from the root to a section.
#[derive(Clone, Copy, Debug, PartialEq, Eq)]
pub struct Strand {
    /// The strand of the parent section that this one goes on from.
    pub from: usize,
    pub mode: u8,
    pub action: Action,
    /// The schema of a validate strand.
    pub schema: u8,
    /// The unit, by its name and not by its number: names are given as sections are met.
    pub target: Option<usize>,
}

impl Strand {
    /// The one strand before the root.
    pub const BEFORE_ROOT: Strand = Strand {
        from: 0,
        mode: 0,
        action: Action::Unwrap,
        schema: 0,
        target: None,
    };

    pub fn validates(&self) -> bool {
        self.action == Action::Validate
    }
}

/// What a strand becomes at a new section: mode, action, schema.
pub struct Successor {
    pub mode: u8,
    pub action: Action,
    pub schema: u8,
}

/// The successors of a strand in this mode at a new section of this class, in table order.
pub fn successors(table: &Table, mode: u8, class: u8) -> Vec<Successor> {
    let mut list: Vec<Successor> = table
        .rules(mode, ELEMENT_SECTION, class)
        .map(|rule| Successor {
            mode: rule.next_mode,
            action: rule.action,
            schema: rule.schema,
        })
        .collect();
    if list.is_empty() {
        list.push(without_rule(table.defaults(), mode));
    }
    list
}

/// No rule: one validate strand against reject, formerly one unwrap strand; the same mode.
fn without_rule(defaults: Defaults, mode: u8) -> Successor {
    let (action, schema) = match defaults {
        Defaults::Standard => (Action::Validate, REJECT),
        Defaults::Former => (Action::Unwrap, 0),
    };
    Successor {
        mode,
        action,
        schema,
    }
}

/// The strands of a new section; `named` counts the units named so far.
pub fn assign(table: &Table, outer: &[Strand], class: u8, named: &mut usize) -> Vec<Strand> {
    let mut strands = Vec::with_capacity(outer.len());
    for (from, strand) in outer.iter().enumerate() {
        for successor in successors(table, strand.mode, class) {
            let target = match successor.action {
                Action::Validate => {
                    *named += 1;
                    Some(*named - 1)
                }
                Action::Attach | Action::Unwrap => strand.target,
            };
            strands.push(Strand {
                from,
                mode: successor.mode,
                action: successor.action,
                schema: successor.schema,
                target,
            });
        }
    }
    strands
}

/// The strands of every section, and how many units they named.
pub fn assign_all(table: &Table, division: &Division) -> (Vec<Vec<Strand>>, usize) {
    let mut all: Vec<Vec<Strand>> = Vec::with_capacity(division.sections.len());
    let mut named = 0;
    for section in &division.sections {
        let outer = outer_strands(&all, section.parent);
        let strands = assign(table, outer, section.class, &mut named);
        assert!(
            strands.len() <= STRANDS_AT_MOST,
            "past the limits (23): cut the scene at accepted_events"
        );
        all.push(strands);
    }
    (all, named)
}

/// The strands that a section's own go on from.
pub fn outer_strands(all: &[Vec<Strand>], parent: Option<usize>) -> &[Strand] {
    match parent {
        Some(section) => &all[section],
        None => &[Strand::BEFORE_ROOT],
    }
}

/// The schemas of the units that an attribute section opens along a strand in this mode.
pub fn attribute_schemas<'a>(
    table: &'a Table,
    mode: u8,
    class: u8,
) -> impl Iterator<Item = u8> + 'a {
    table
        .rules(mode, ATTRIBUTE_SECTION, class)
        .filter(|rule| rule.action == Action::Validate)
        .map(|rule| rule.schema)
}

/// Whether an attribute section is kept with its element along a strand in this mode: by an
/// attach rule, and under the standard's defaults where no rule is taken.
pub fn attribute_kept(table: &Table, mode: u8, class: u8) -> bool {
    let mut rules = table.rules(mode, ATTRIBUTE_SECTION, class).peekable();
    match rules.peek() {
        None => table.defaults() == Defaults::Standard,
        Some(_) => rules.any(|rule| rule.action == Action::Attach),
    }
}

/// By attribute of the element, whether it is kept along a strand in this mode.
pub fn kept(table: &Table, attributes: &Attributes, mode: u8) -> Vec<bool> {
    attributes
        .section_of
        .iter()
        .map(|section| match section {
            None => true,
            Some(section) => attribute_kept(table, mode, attributes.sections[*section].class),
        })
        .collect()
}
