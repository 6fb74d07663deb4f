//! One step from any session, for sessions that no scene leads to.
//!
//! The model, run and the records of prefixes have nothing of this module in them; it writes
//! the records of one event straight from the innermost level, so that the two can be matched.

use crate::answer::{Answer, Refusal};
use crate::defaults::Defaults;
use crate::lexical::{self, Name, Token, TokenKind, WrittenTag};
use crate::limits;
use crate::model::class_and_uri;
use crate::names::{self, Attribute, StartTag};
use crate::records::{self, Record, RECORD};
use crate::sections::{self, AttributeSection};
use crate::session::{coherent_with, Level, Session, Strand};
use crate::span::Span;
use crate::strands;
use crate::table::{self, Action, Table, ANY, VIRTUAL, XML, XML_URI};

const UNLIKE_NAME: u8 = 4;
const NOT_COHERENT: u8 = 20;

type Stepped = (Session, Vec<Record>, u64);

/// Number, place, events, records; the next session (the same unless the number is 0); the
/// bytes written at the output's start.
pub fn step(
    table: &[u8],
    scene: &[u8],
    session: &Session,
    out_len: usize,
) -> (Answer, Session, Vec<u8>) {
    step_under(Defaults::Standard, table, scene, session, out_len)
}

pub fn step_under(
    defaults: Defaults,
    table: &[u8],
    scene: &[u8],
    session: &Session,
    out_len: usize,
) -> (Answer, Session, Vec<u8>) {
    match attempt(defaults, table, scene, session, out_len) {
        Ok((next, written)) => {
            let answer = Answer {
                number: 0,
                place: next.place,
                events: 1,
                records: written.len() as u64,
            };
            (answer, next, records::joined(&written))
        }
        Err(refusal) => {
            let answer = Answer::bare(refusal.number, refusal.place);
            (answer, session.clone(), Vec::new())
        }
    }
}

fn attempt(
    defaults: Defaults,
    table: &[u8],
    scene: &[u8],
    session: &Session,
    out_len: usize,
) -> Result<(Session, Vec<Record>), Refusal> {
    let refuse = |number| Refusal::new(number, 0);
    let table = table::read_under(defaults, table).map_err(refuse)?;
    if scene.len() > limits::SCENE {
        return Err(refuse(limits::TOO_LONG));
    }
    if !coherent_with(&table, scene, session) {
        return Err(refuse(NOT_COHERENT));
    }
    let stepper = Stepper {
        table: &table,
        scene,
        session,
    };
    let (next, written, at) = stepper.event()?;
    if written.len() > out_len / RECORD {
        return Err(Refusal::new(limits::OUTPUT_FULL, at));
    }
    Ok((next, written))
}

struct Stepper<'a> {
    table: &'a Table<'a>,
    scene: &'a [u8],
    session: &'a Session,
}

impl Stepper<'_> {
    /// The next session, the records, and the place that 25 would have.
    fn event(&self) -> Result<Stepped, Refusal> {
        if let (true, Some(level)) = (self.session.awaited, self.session.levels.last()) {
            let part = lexical::part_of(self.scene, level.name);
            return Ok(self.end(level, part, level.name.at - 1, self.session.place));
        }
        let token = self.token()?;
        match token.kind {
            TokenKind::Start(ref written) => self.start(&token, written),
            TokenKind::Text => Ok(self.text(&token)),
            TokenKind::End(ref name) => self.end_tag(&token, name),
        }
    }

    fn token(&self) -> Result<Token, Refusal> {
        if self.session.closed {
            Err(lexical::after_root(self.scene, self.session.place))
        } else if self.session.levels.is_empty() {
            lexical::before_root(self.scene, self.session.place)
        } else {
            lexical::inside_root(self.scene, self.session.place)
        }
    }

    fn text(&self, token: &Token) -> Stepped {
        let span = Span::new(token.at, token.after - token.at);
        let level = self.session.levels.last();
        let written = level
            .iter()
            .flat_map(|level| &level.strands)
            .filter_map(Strand::delivers_to)
            .map(|unit| record(unit, records::TEXT, 0, span, Span::ZERO))
            .collect();
        let mut next = self.session.clone();
        next.place = token.after;
        (next, written, token.at)
    }

    fn end_tag(&self, token: &Token, name: &Name) -> Result<Stepped, Refusal> {
        let refusal = Refusal::new(UNLIKE_NAME, token.at);
        let level = self.session.levels.last().ok_or(refusal)?;
        if level.name.of(self.scene) != name.whole.of(self.scene) {
            return Err(refusal);
        }
        Ok(self.end(level, name.part, token.at, token.after))
    }

    fn end(&self, level: &Level, part: Span, at: u64, after: u64) -> Stepped {
        let mut written = Vec::new();
        for strand in &level.strands {
            if let Some(unit) = strand.delivers_to() {
                written.push(record(unit, records::END, level.class, part, level.uri));
                if strand.opened_here {
                    written.push(record(unit, records::CLOSE, 0, Span::ZERO, Span::ZERO));
                }
            }
        }
        let mut next = self.session.clone();
        next.levels.pop();
        next.bindings
            .truncate(self.session.bindings.len() - level.bindings as usize);
        next.place = after;
        next.awaited = false;
        next.closed = next.levels.is_empty();
        (next, written, at)
    }

    fn start(&self, token: &Token, written: &WrittenTag) -> Result<Stepped, Refusal> {
        let at = token.at;
        let refuse = |number| Refusal::new(number, at);
        let session = self.session;
        let tag = names::resolve(self.scene, written, &session.bindings).map_err(refuse)?;
        if session.levels.len() + 1 > limits::DEPTH {
            return Err(refuse(limits::TOO_DEEP));
        }
        if session.bindings.len() + tag.declarations.len() > limits::BINDINGS {
            return Err(refuse(limits::TOO_MANY_BINDINGS));
        }
        let mut pending = self.strands(&tag);
        if pending.len() > limits::STRANDS {
            return Err(refuse(limits::TOO_MANY_STRANDS));
        }
        let mut units = session.units;
        let mut written = self.attribute_units(&tag, at, &pending, &mut units);
        written.extend(self.element(&tag, at, &mut pending, &mut units));
        if units > limits::UNITS {
            return Err(refuse(limits::TOO_MANY_UNITS));
        }
        let strands = pending.into_iter().map(|strand| strand.strand).collect();
        let mut next = session.clone();
        next.place = token.after;
        next.units = units;
        next.awaited = tag.empty;
        next.bindings.extend(&tag.declarations);
        next.levels.push(self.level(&tag, strands));
        Ok((next, written, at))
    }

    fn level(&self, tag: &StartTag, strands: Vec<Strand>) -> Level {
        let (class, uri) = class_and_uri(self.table, self.scene, tag.namespace);
        Level {
            name: tag.name,
            class,
            uri,
            bindings: tag.declarations.len() as u64,
            strands,
        }
    }

    /// The strands of the tag's element, new units without a number yet.
    fn strands(&self, tag: &StartTag) -> Vec<Pending> {
        let uri = tag.namespace.uri(self.scene);
        match self.session.levels.last() {
            Some(level) if self.namespace(level) == uri => {
                level.strands.iter().map(Pending::staying).collect()
            }
            Some(level) => self.new_section(&level.strands, uri),
            None => self.new_section(&[BEFORE_ROOT], uri),
        }
    }

    /// A level's namespace: what its class, and for 255 its URI span, say.
    fn namespace(&self, level: &Level) -> &[u8] {
        match level.class {
            XML => XML_URI,
            ANY => level.uri.of(self.scene),
            class => self.table.listed_uri(class).unwrap_or(b""),
        }
    }

    fn new_section(&self, outer: &[Strand], uri: &[u8]) -> Vec<Pending> {
        let class = self.table.class_of(uri);
        let mut list = Vec::new();
        for strand in outer {
            for successor in strands::successors(self.table, strand.mode, class) {
                let new = successor.action == Action::Validate;
                list.push(Pending {
                    schema: new.then_some(successor.schema),
                    strand: Strand {
                        mode: successor.mode,
                        action: successor.action,
                        target: strand.target.filter(|_| !new),
                        opened_here: new,
                    },
                });
            }
        }
        list
    }

    /// The attribute units by strand, section, rule, each open to close.
    fn attribute_units(
        &self,
        tag: &StartTag,
        at: u64,
        strands: &[Pending],
        units: &mut u64,
    ) -> Vec<Record> {
        let attributes = sections::attributes_of(self.table, self.scene, tag);
        let mut written = Vec::new();
        for pending in strands {
            for section in &attributes.sections {
                let mode = pending.strand.mode;
                for schema in strands::attribute_schemas(self.table, mode, section.class) {
                    written.extend(self.attribute_unit(tag, at, section, schema, *units));
                    *units += 1;
                }
            }
        }
        written
    }

    fn attribute_unit(
        &self,
        tag: &StartTag,
        at: u64,
        section: &AttributeSection,
        schema: u8,
        unit: u64,
    ) -> Vec<Record> {
        let virtual_element = |kind| record(unit, kind, VIRTUAL, Span::ZERO, Span::ZERO);
        let mut written = vec![
            record(unit, records::OPEN, schema, Span::new(at, 1), Span::ZERO),
            virtual_element(records::START),
        ];
        for &member in &section.members {
            written.extend(self.attribute(unit, &tag.attributes[member]));
        }
        written.push(virtual_element(records::END));
        written.push(record(unit, records::CLOSE, 0, Span::ZERO, Span::ZERO));
        written
    }

    /// Per strand an open if new, the start, and 2 and 3 per kept attribute.
    fn element(
        &self,
        tag: &StartTag,
        at: u64,
        strands: &mut [Pending],
        units: &mut u64,
    ) -> Vec<Record> {
        let mut written = Vec::new();
        for pending in strands {
            if let Some(schema) = pending.schema {
                let open = Span::new(at, 0);
                written.push(record(*units, records::OPEN, schema, open, Span::ZERO));
                pending.strand.target = Some(*units);
                *units += 1;
            }
            if let Some(unit) = pending.strand.delivers_to() {
                written.extend(self.start_records(tag, unit, pending.strand.mode));
            }
        }
        written
    }

    fn start_records(&self, tag: &StartTag, unit: u64, mode: u8) -> Vec<Record> {
        let (class, uri) = class_and_uri(self.table, self.scene, tag.namespace);
        let mut written = vec![record(unit, records::START, class, tag.part, uri)];
        let attributes = sections::attributes_of(self.table, self.scene, tag);
        let kept = strands::kept(self.table, &attributes, mode);
        for (attribute, kept) in tag.attributes.iter().zip(kept) {
            if kept {
                written.extend(self.attribute(unit, attribute));
            }
        }
        written
    }

    fn attribute(&self, unit: u64, attribute: &Attribute) -> [Record; 2] {
        let (class, uri) = class_and_uri(self.table, self.scene, attribute.namespace);
        [
            record(unit, records::ATTRIBUTE, class, attribute.part, uri),
            record(unit, records::VALUE, 0, attribute.value, Span::ZERO),
        ]
    }
}

const BEFORE_ROOT: Strand = Strand {
    mode: 0,
    action: Action::Unwrap,
    target: None,
    opened_here: false,
};

/// A strand of a new level; with a schema it opens a unit, its target then.
struct Pending {
    schema: Option<u8>,
    strand: Strand,
}

impl Pending {
    /// Inside a section strands stay, and no unit opened at this element.
    fn staying(strand: &Strand) -> Pending {
        Pending {
            schema: None,
            strand: Strand {
                opened_here: false,
                ..*strand
            },
        }
    }
}

fn record(unit: u64, kind: u8, class: u8, span: Span, uri: Span) -> Record {
    Record {
        unit,
        kind,
        class,
        span,
        uri,
    }
}
