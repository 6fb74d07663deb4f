//! Records: their seven fields, their 16 bytes, and the list of a model.

use crate::span::Span;

pub const RECORD: usize = 16;

pub const OPEN: u8 = 0;
pub const START: u8 = 1;
pub const ATTRIBUTE: u8 = 2;
pub const VALUE: u8 = 3;
pub const TEXT: u8 = 4;
pub const END: u8 = 5;
pub const CLOSE: u8 = 6;

#[derive(Clone, Copy, Debug, PartialEq, Eq)]
pub struct Record {
    pub unit: u64,
    pub kind: u8,
    pub class: u8,
    pub span: Span,
    pub uri: Span,
}

impl Record {
    pub fn bytes(&self) -> [u8; RECORD] {
        let bits = (self.unit as u128 & 0xFFFF) << 112
            | (self.kind as u128) << 104
            | (self.class as u128) << 96
            | bits24(self.span.at) << 72
            | bits24(self.span.len) << 48
            | bits24(self.uri.at) << 24
            | bits24(self.uri.len);
        bits.to_be_bytes()
    }

    /// Reads the first 16 bytes.
    pub fn read(bytes: &[u8]) -> Record {
        let number = |from: usize, to: usize| {
            let add = |sum: u64, byte: &u8| sum << 8 | *byte as u64;
            bytes[from..to].iter().fold(0, add)
        };
        Record {
            unit: number(0, 2),
            kind: bytes[2],
            class: bytes[3],
            span: Span::new(number(4, 7), number(7, 10)),
            uri: Span::new(number(10, 13), number(13, 16)),
        }
    }

    /// The program's line: the seven fields.
    pub fn line(&self) -> String {
        format!(
            "{} {} {} {} {} {} {}",
            self.unit,
            self.kind,
            self.class,
            self.span.at,
            self.span.len,
            self.uri.at,
            self.uri.len
        )
    }
}

fn bits24(field: u64) -> u128 {
    field as u128 & 0xFF_FFFF
}

/// The joined bytes of records.
pub fn joined<'a>(records: impl IntoIterator<Item = &'a Record>) -> Vec<u8> {
    records.into_iter().flat_map(Record::bytes).collect()
}

/// Where a record of the model stands: its event (none for an added end), then its rank there.
#[derive(Clone, Copy, Debug, PartialEq, Eq, PartialOrd, Ord)]
pub struct Rank(u64);

/// The event of all ends that were added at the cut: behind every other.
const ADDED: u64 = u32::MAX as u64;

impl Rank {
    /// A record of an attribute unit, in a start event: by strand, section, rule.
    pub fn attribute_unit(event: usize, strand: usize, section: usize, rule: usize) -> Rank {
        Rank((event as u64) << 32 | (strand << 13 | section << 8 | rule) as u64)
    }

    /// A record of a section's element or text: by strand, behind the attribute units.
    pub fn section_unit(event: Option<usize>, strand: usize) -> Rank {
        let event = event.map_or(ADDED, |event| event as u64);
        Rank(event << 32 | 1 << 31 | (strand << 13) as u64)
    }

    fn event(self) -> u64 {
        self.0 >> 32
    }
}

/// A record of the model before units have numbers: its unit field is the unit's name.
#[derive(Clone, Copy, Debug)]
pub struct Draft {
    pub rank: Rank,
    pub record: Record,
}

/// The model's list: records with the events they belong to, in order, and the units' numbers.
#[derive(Clone, Debug)]
pub struct List {
    pub records: Vec<Record>,
    /// By record, its event.
    pub events: Vec<usize>,
    /// By unit name, the unit's number.
    pub numbers: Vec<u64>,
    /// Units opened.
    pub units: u64,
}

/// Lists drafts by event in document order, within an event by rank; records of one rank belong
/// to one unit and keep their order. The added ends are struck. A unit's number is how many
/// opens come before its own.
pub fn list(mut drafts: Vec<Draft>, names: usize) -> List {
    drafts.sort_by_key(|draft| draft.rank);
    let struck = drafts.partition_point(|draft| draft.rank.event() < ADDED);
    drafts.truncate(struck);
    let mut list = List {
        records: Vec::with_capacity(drafts.len()),
        events: Vec::with_capacity(drafts.len()),
        numbers: vec![0; names],
        units: 0,
    };
    for draft in &drafts {
        list.add(draft);
    }
    list
}

impl List {
    fn add(&mut self, draft: &Draft) {
        let mut record = draft.record;
        let name = record.unit as usize;
        if record.kind == OPEN {
            self.numbers[name] = self.units;
            self.units += 1;
        }
        record.unit = self.numbers[name];
        self.records.push(record);
        self.events.push(draft.rank.event() as usize);
    }

    /// The records of one event.
    pub fn of_event(&self, event: usize) -> &[Record] {
        let from = self.events.partition_point(|&other| other < event);
        let to = self.events.partition_point(|&other| other <= event);
        &self.records[from..to]
    }
}
