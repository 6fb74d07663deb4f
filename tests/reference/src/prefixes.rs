//! The records of a scene's first events, for lists of steps.
//!
//! Events are counted from 0: event k is the one after the first k, so that the records of the
//! first k and those of event k are together the records of the first k + 1. A refused table, or
//! an event that the scene does not have, gives no records.
//!
//! The cut lies where it is asked for, also past 7 and 21 to 24 (see `accepted_events`). There
//! the fields of records keep their last 16 or 24 bits, a section with over 65,536 strands is a
//! panic, and sections nested by the ten thousand are too deep for the recursion.

use crate::defaults::Defaults;
use crate::limits;
use crate::model::{self, Model};
use crate::reader::{self, Event};
use crate::records;
use crate::run;
use crate::sections;
use crate::table::{self, Table};
use crate::tree::Tree;

/// The records of the first k events: tree closed at the cut, added ends struck.
pub fn prefix_records(table: &[u8], scene: &[u8], k: usize) -> Vec<u8> {
    let Ok(table) = table::read(table) else {
        return Vec::new();
    };
    let events = reader::events(scene).list;
    let model = of_prefix(&table, scene, &events, k);
    records::joined(&model.list.records)
}

/// The records of event k, in the model of the first k + 1.
pub fn records_of_event(table: &[u8], scene: &[u8], k: usize) -> Vec<u8> {
    let Ok(table) = table::read(table) else {
        return Vec::new();
    };
    let events = reader::events(scene).list;
    let model = of_prefix(&table, scene, &events, k.saturating_add(1));
    records::joined(model.list.of_event(k))
}

/// By event, the records of all events before the first limit of 21 to 24.
pub fn records_by_event(table: &[u8], scene: &[u8]) -> Vec<Vec<u8>> {
    records_by_event_under(Defaults::Standard, table, scene)
}

pub fn records_by_event_under(defaults: Defaults, table: &[u8], scene: &[u8]) -> Vec<Vec<u8>> {
    let Ok(table) = table::read_under(defaults, table) else {
        return Vec::new();
    };
    let reading = reader::events(scene);
    let (_, model) = run::accepted(&table, scene, &reading);
    (0..model.tree.events.len())
        .map(|event| records::joined(model.list.of_event(event)))
        .collect()
}

/// How many of a scene's events come before the first limit of 21 to 24.
pub fn accepted_events(table: &[u8], scene: &[u8]) -> usize {
    accepted_events_under(Defaults::Standard, table, scene)
}

pub fn accepted_events_under(defaults: Defaults, table: &[u8], scene: &[u8]) -> usize {
    let Ok(table) = table::read_under(defaults, table) else {
        return 0;
    };
    let events = reader::events(scene).list;
    let tree = Tree::build(&events);
    let division = sections::divide(&table, scene, &tree);
    limits::first(&table, &tree, &division).map_or(events.len(), |stop| stop.event)
}

fn of_prefix<'a>(table: &Table, scene: &[u8], events: &'a [Event], k: usize) -> Model<'a> {
    model::model(table, scene, &events[..k.min(events.len())])
}
