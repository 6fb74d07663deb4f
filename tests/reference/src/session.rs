//! Sessions: their shape, number 20, and the session after some accepted steps.

use crate::defaults::Defaults;
use crate::lexical;
use crate::limits;
use crate::model::{self, Model};
use crate::names;
use crate::reader;
use crate::strands;
use crate::table::{self, Action, Table};

pub use crate::names::Binding;
pub use crate::span::Span;

/// A strand of an open level.
#[derive(Clone, Copy, Debug, PartialEq, Eq, Hash)]
pub struct Strand {
    pub mode: u8,
    pub action: Action,
    pub target: Option<u64>,
    /// Whether the unit opened at this element.
    pub opened_here: bool,
}

impl Strand {
    /// Whether it writes records of the element and its text.
    pub fn delivers_to(&self) -> Option<u64> {
        match self.action {
            Action::Unwrap => None,
            Action::Attach | Action::Validate => self.target,
        }
    }
}

/// An open level.
#[derive(Clone, Debug, PartialEq, Eq, Hash)]
pub struct Level {
    /// The whole name's span.
    pub name: Span,
    /// Class and URI span as a start record has them.
    pub class: u8,
    pub uri: Span,
    /// How many of the open bindings are this level's.
    pub bindings: u64,
    pub strands: Vec<Strand>,
}

#[derive(Clone, Debug, PartialEq, Eq, Hash)]
pub struct Session {
    pub place: u64,
    /// Units opened so far.
    pub units: u64,
    /// Whether the root has closed.
    pub closed: bool,
    /// Whether the end of a /> is awaited.
    pub awaited: bool,
    /// The open bindings, outermost first.
    pub bindings: Vec<Binding>,
    /// The open levels, outermost first.
    pub levels: Vec<Level>,
}

impl Session {
    /// Place 0, no unit opened, nothing open, no root closed.
    pub fn fresh() -> Session {
        Session {
            place: 0,
            units: 0,
            closed: false,
            awaited: false,
            bindings: Vec::new(),
            levels: Vec::new(),
        }
    }
}

/// Whether a session is coherent, that is not refused with 20. With a refused table, which is
/// said before 20, no session is.
pub fn coherent(table: &[u8], scene: &[u8], session: &Session) -> bool {
    match table::read(table) {
        Ok(table) => coherent_with(&table, scene, session),
        Err(_) => false,
    }
}

pub fn coherent_with(table: &Table, scene: &[u8], session: &Session) -> bool {
    let depth = session.levels.len();
    session.place <= scene.len() as u64
        && depth <= limits::DEPTH
        && session.units <= limits::UNITS
        && !(session.awaited && depth == 0)
        && !(session.closed && depth > 0)
        && counts_add_up(session)
        && session.bindings.iter().all(|b| coherent_binding(scene, b))
        && session
            .levels
            .iter()
            .all(|level| coherent_level(table, scene, session.units, level))
}

fn counts_add_up(session: &Session) -> bool {
    let counts = session.levels.iter().map(|level| level.bindings as u128);
    session.bindings.len() <= limits::BINDINGS
        && counts.sum::<u128>() == session.bindings.len() as u128
}

fn coherent_binding(scene: &[u8], binding: &Binding) -> bool {
    if !binding.prefix.inside(scene) || !binding.uri.inside(scene) {
        return false;
    }
    let prefix = binding.prefix.of(scene);
    (binding.prefix == Span::ZERO || lexical::is_part(prefix))
        && !names::refused_binding(prefix, binding.uri.of(scene))
}

fn coherent_level(table: &Table, scene: &[u8], units: u64, level: &Level) -> bool {
    level.name.inside(scene)
        && level.uri.inside(scene)
        && level.name.at != 0
        && lexical::is_name(level.name.of(scene))
        && table.has_class(level.class)
        && (1..=limits::STRANDS).contains(&level.strands.len())
        && level
            .strands
            .iter()
            .all(|strand| coherent_strand(table, units, strand))
}

fn coherent_strand(table: &Table, units: u64, strand: &Strand) -> bool {
    let target_fits = match strand.target {
        Some(target) => target < units,
        None => strand.action != Action::Validate,
    };
    strand.mode < table.modes() && target_fits
}

/// The session after the first k accepted steps from fresh, from the open path of the tree of
/// the first k events. A refused table leaves the fresh session; a k past the scene's events
/// means all of them.
pub fn session_after(table: &[u8], scene: &[u8], k: usize) -> Session {
    session_after_under(Defaults::Standard, table, scene, k)
}

pub fn session_after_under(defaults: Defaults, table: &[u8], scene: &[u8], k: usize) -> Session {
    let Ok(table) = table::read_under(defaults, table) else {
        return Session::fresh();
    };
    let events = reader::events(scene).list;
    let events = &events[..k.min(events.len())];
    let model = model::model(&table, scene, events);
    let path = model.tree.open_path();
    Session {
        place: events.last().map_or(0, |event| event.after),
        units: model.list.units,
        closed: model.tree.closed(),
        awaited: events.last().is_some_and(|event| event.awaits_end()),
        bindings: open_bindings(&model, &path),
        levels: path
            .iter()
            .map(|&element| level(&table, scene, &model, element))
            .collect(),
    }
}

fn open_bindings(model: &Model, path: &[usize]) -> Vec<Binding> {
    path.iter()
        .flat_map(|&element| model.tree.tag(element).declarations.iter().copied())
        .collect()
}

fn level(table: &Table, scene: &[u8], model: &Model, element: usize) -> Level {
    let tag = model.tree.tag(element);
    let (class, uri) = model::class_and_uri(table, scene, tag.namespace);
    let section = model.division.section_of[element];
    let head = model.division.sections[section].head == element;
    Level {
        name: tag.name,
        class,
        uri,
        bindings: tag.declarations.len() as u64,
        strands: model.strands[section]
            .iter()
            .map(|strand| level_strand(model, strand, head))
            .collect(),
    }
}

fn level_strand(model: &Model, strand: &strands::Strand, head: bool) -> Strand {
    Strand {
        mode: strand.mode,
        action: strand.action,
        target: strand.target.map(|name| model.list.numbers[name]),
        opened_here: head && strand.validates(),
    }
}
