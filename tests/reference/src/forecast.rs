//! The forecast of request N2: the figures of a run with an output that suffices, and the bound
//! on its records.

use crate::defaults::Defaults;
use crate::limits;
use crate::model::Model;
use crate::reader::{self, Reading};
use crate::records;
use crate::run;
use crate::sections::Attributes;
use crate::strands::{self, Strand};
use crate::table::{self, Table};
use crate::tree::{Content, Element, Tree};

/// Records of an event at most: for each strand, each attribute unit, each attribute in one.
const BY_STRAND: u64 = 34;
const BY_ATTRIBUTE_UNIT: u64 = 4;
const BY_ATTRIBUTE: u64 = 2;

/// Number and place of the run, its records and units, the most strands of a level that was open
/// at any time, and the most levels open at once.
#[derive(Clone, Copy, Debug, PartialEq, Eq)]
pub struct Forecast {
    pub number: u8,
    pub place: u64,
    pub records: u64,
    pub units: u64,
    pub strands: u64,
    pub depth: u64,
}

/// Of one accepted event: its records, and what bounds them.
#[derive(Clone, Copy, Debug, Default, PartialEq, Eq)]
pub struct EventCounts {
    pub records: u64,
    /// Of the level that a start opens, else of the innermost one open before the event.
    pub strands: u64,
    /// The attribute units that it opens.
    pub attribute_units: u64,
    /// The attributes of each of these units, summed.
    pub unit_attributes: u64,
}

impl EventCounts {
    pub fn bound(&self) -> u64 {
        BY_STRAND * self.strands
            + BY_ATTRIBUTE_UNIT * self.attribute_units
            + BY_ATTRIBUTE * self.unit_attributes
    }
}

pub fn forecast(table: &[u8], scene: &[u8]) -> Forecast {
    forecast_under(Defaults::Standard, table, scene)
}

pub fn forecast_under(defaults: Defaults, table: &[u8], scene: &[u8]) -> Forecast {
    forecast_by_event_under(defaults, table, scene).0
}

/// At most so many records: the events' bounds, summed.
pub fn record_bound(table: &[u8], scene: &[u8]) -> u64 {
    let counts = forecast_by_event(table, scene).1;
    counts.iter().map(EventCounts::bound).sum()
}

/// The forecast, and the counts of every accepted event; none with 10 to 12 and 7.
pub fn forecast_by_event(table: &[u8], scene: &[u8]) -> (Forecast, Vec<EventCounts>) {
    forecast_by_event_under(Defaults::Standard, table, scene)
}

pub fn forecast_by_event_under(
    defaults: Defaults,
    table: &[u8],
    scene: &[u8],
) -> (Forecast, Vec<EventCounts>) {
    let (table, reading) = match read(defaults, table, scene) {
        Ok(read) => read,
        Err(number) => return (Forecast::bare(number), Vec::new()),
    };
    let (refusal, model) = run::accepted(&table, scene, &reading);
    let records = &model.list.records;
    let opens = records.iter().filter(|record| record.kind == records::OPEN);
    let forecast = Forecast {
        number: refusal.number,
        place: refusal.place,
        records: records.len() as u64,
        units: opens.count() as u64,
        strands: most_strands(&model),
        depth: depth(&model.tree),
    };
    (forecast, by_event(&table, &model))
}

impl Forecast {
    /// Of a table or a scene that is not read.
    fn bare(number: u8) -> Forecast {
        Forecast {
            number,
            place: 0,
            records: 0,
            units: 0,
            strands: 0,
            depth: 0,
        }
    }
}

/// The table and the scene's events, or the number that refuses one of them.
fn read<'a>(defaults: Defaults, table: &'a [u8], scene: &[u8]) -> Result<(Table<'a>, Reading), u8> {
    let table = table::read_under(defaults, table)?;
    if scene.len() > limits::SCENE {
        return Err(limits::TOO_LONG);
    }
    Ok((table, reader::events(scene)))
}

/// Every section has an element, so that its strands were those of an open level.
fn most_strands(model: &Model) -> u64 {
    let counts = model.strands.iter().map(Vec::len);
    counts.max().unwrap_or(0) as u64
}

fn depth(tree: &Tree) -> u64 {
    let mut depths: Vec<u64> = Vec::with_capacity(tree.elements.len());
    for element in &tree.elements {
        depths.push(1 + element.parent.map_or(0, |parent| depths[parent]));
    }
    depths.into_iter().max().unwrap_or(0)
}

fn by_event(table: &Table, model: &Model) -> Vec<EventCounts> {
    let mut counts = vec![EventCounts::default(); model.tree.events.len()];
    for &event in &model.list.events {
        counts[event].records += 1;
    }
    for (number, element) in model.tree.elements.iter().enumerate() {
        let strands = &model.strands[model.division.section_of[number]];
        for event in events_of(element) {
            counts[event].strands = strands.len() as u64;
        }
        let start = &mut counts[element.start];
        let attributes = &model.division.attributes[number];
        (start.attribute_units, start.unit_attributes) =
            attribute_units(table, strands, attributes);
    }
    counts
}

/// The start, the texts and the end of an element, without those of its children.
fn events_of(element: &Element) -> impl Iterator<Item = usize> + '_ {
    let texts = element.content.iter().filter_map(|content| match content {
        Content::Text(event) => Some(*event),
        Content::Element(_) => None,
    });
    texts.chain([element.start]).chain(element.end)
}

/// How many attribute units an element with these strands opens, and the attributes of each,
/// summed.
fn attribute_units(table: &Table, strands: &[Strand], attributes: &Attributes) -> (u64, u64) {
    let (mut units, mut members) = (0, 0);
    for strand in strands {
        for section in &attributes.sections {
            let opened = strands::attribute_schemas(table, strand.mode, section.class).count();
            units += opened;
            members += opened * section.members.len();
        }
    }
    (units as u64, members as u64)
}
