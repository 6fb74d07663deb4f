//! The rule table: reading, judging, rule look-up.

use crate::answer::Answer;
use crate::defaults::Defaults;
use crate::span::Span;

/// The namespace of prefix xml.
pub const XML_URI: &[u8] = b"http://www.w3.org/XML/1998/namespace";
/// The namespace of prefix xmlns.
pub const XMLNS_URI: &[u8] = b"http://www.w3.org/2000/xmlns/";

pub const NO_NAMESPACE: u8 = 0;
/// The class of a virtual element.
pub const VIRTUAL: u8 = 253;
pub const XML: u8 = 254;
/// In a rule any class, in a record an unlisted URI.
pub const ANY: u8 = 255;

/// Kinds of sections that a rule speaks of.
pub const ELEMENT_SECTION: u8 = 0;
pub const ATTRIBUTE_SECTION: u8 = 1;

pub const HEADER: usize = 4;
/// Where the header has the count of rules.
pub const RULE_COUNT: usize = 3;
pub const RULE: usize = 4;
pub const RULES_AT_MOST: usize = 128;
const ATTACH_BITS: u32 = 0;
const UNWRAP_BITS: u32 = 1;
const VALIDATE_BITS: u32 = 2;

const SHORT_OR_LONG: u8 = 10;
const OUT_OF_RANGE: u8 = 11;
const REPEATED: u8 = 12;

#[derive(Clone, Copy, Debug, PartialEq, Eq, Hash)]
pub enum Action {
    Attach,
    Unwrap,
    Validate,
}

#[derive(Clone, Copy, Debug, PartialEq, Eq, Hash)]
pub struct Rule {
    pub mode: u8,
    pub kind: u8,
    pub class: u8,
    pub action: Action,
    pub schema: u8,
    pub next_mode: u8,
}

impl Rule {
    /// The rule's 32 bits.
    pub fn word(&self) -> u32 {
        let action = match self.action {
            Action::Attach => ATTACH_BITS,
            Action::Unwrap => UNWRAP_BITS,
            Action::Validate => VALIDATE_BITS,
        };
        (self.mode as u32) << 27
            | (self.kind as u32) << 26
            | (self.class as u32) << 18
            | action << 16
            | (self.schema as u32) << 8
            | (self.next_mode as u32) << 3
    }
}

/// An accepted table, and what holds where it has no rule.
pub struct Table<'a> {
    bytes: &'a [u8],
    defaults: Defaults,
    modes: u8,
    uris: Vec<Span>,
    /// By mode and kind, each in table order.
    rows: Vec<[Vec<Rule>; 2]>,
}

struct Header {
    namespaces: u8,
    modes: u8,
    schemas: u8,
    rules: u8,
}

/// Judge a table: 0 at its length, or 10, 11, 12 at 0.
pub fn judge(table: &[u8]) -> Answer {
    match read(table) {
        Ok(_) => Answer::bare(0, table.len() as u64),
        Err(number) => Answer::bare(number, 0),
    }
}

/// Reads a table, or gives the number that refuses it.
/// Order: 10 short, 11 header, 10, 11, 12.
pub fn read(bytes: &[u8]) -> Result<Table<'_>, u8> {
    read_under(Defaults::Standard, bytes)
}

pub fn read_under(defaults: Defaults, bytes: &[u8]) -> Result<Table<'_>, u8> {
    let header = header(bytes)?;
    let uris = measure(bytes, &header)?;
    let words = words(bytes, header.rules);
    let rules = rules_in_range(&words, &header)?;
    if uris.iter().any(|uri| uri.len == 0) {
        return Err(OUT_OF_RANGE);
    }
    if uri_repeated(bytes, &uris) || word_repeated(&words) || two_that_keep(&rules) {
        return Err(REPEATED);
    }
    Ok(Table {
        bytes,
        defaults,
        modes: header.modes,
        uris,
        rows: rows(&rules, header.modes),
    })
}

fn header(bytes: &[u8]) -> Result<Header, u8> {
    if bytes.len() < HEADER {
        return Err(SHORT_OR_LONG);
    }
    let header = Header {
        namespaces: bytes[0],
        modes: bytes[1],
        schemas: bytes[2],
        rules: bytes[RULE_COUNT],
    };
    let fits = header.namespaces <= 30
        && (1..=32).contains(&header.modes)
        && header.schemas <= 64
        && header.rules as usize <= RULES_AT_MOST;
    if fits {
        Ok(header)
    } else {
        Err(OUT_OF_RANGE)
    }
}

/// The spans of the URIs; the table must end with the last of them.
fn measure(bytes: &[u8], header: &Header) -> Result<Vec<Span>, u8> {
    let mut at = HEADER + RULE * header.rules as usize;
    let mut uris = Vec::with_capacity(header.namespaces as usize);
    for _ in 0..header.namespaces {
        let length = *bytes.get(at).ok_or(SHORT_OR_LONG)? as usize;
        uris.push(Span::between(at + 1, at + 1 + length));
        at += 1 + length;
    }
    if at == bytes.len() {
        Ok(uris)
    } else {
        Err(SHORT_OR_LONG)
    }
}

fn words(bytes: &[u8], rules: u8) -> Vec<u32> {
    bytes[HEADER..][..RULE * rules as usize]
        .chunks(RULE)
        .map(|word| u32::from_be_bytes([word[0], word[1], word[2], word[3]]))
        .collect()
}

fn rules_in_range(words: &[u32], header: &Header) -> Result<Vec<Rule>, u8> {
    words
        .iter()
        .map(|&word| rule_in_range(word, header))
        .collect()
}

fn rule_in_range(word: u32, header: &Header) -> Result<Rule, u8> {
    let rule = Rule {
        mode: (word >> 27) as u8,
        kind: (word >> 26 & 1) as u8,
        class: (word >> 18 & 0xFF) as u8,
        action: action(word >> 16 & 3)?,
        schema: (word >> 8 & 0xFF) as u8,
        next_mode: (word >> 3 & 0x1F) as u8,
    };
    let class_fits = rule.class <= header.namespaces || rule.class >= XML;
    let schema_fits = match rule.action {
        Action::Validate => rule.schema < header.schemas,
        _ => rule.schema == 0,
    };
    let modes_fit = rule.mode < header.modes && rule.next_mode < header.modes;
    if word & 7 == 0 && class_fits && schema_fits && modes_fit {
        Ok(rule)
    } else {
        Err(OUT_OF_RANGE)
    }
}

fn action(bits: u32) -> Result<Action, u8> {
    match bits {
        ATTACH_BITS => Ok(Action::Attach),
        UNWRAP_BITS => Ok(Action::Unwrap),
        VALIDATE_BITS => Ok(Action::Validate),
        _ => Err(OUT_OF_RANGE),
    }
}

fn uri_repeated(bytes: &[u8], uris: &[Span]) -> bool {
    uris.iter().enumerate().any(|(i, uri)| {
        let uri = uri.of(bytes);
        uri == XML_URI || uris[..i].iter().any(|earlier| earlier.of(bytes) == uri)
    })
}

fn word_repeated(words: &[u32]) -> bool {
    words
        .iter()
        .enumerate()
        .any(|(i, word)| words[..i].contains(word))
}

/// Two attach/unwrap rules for one mode, kind, class.
fn two_that_keep(rules: &[Rule]) -> bool {
    let keeps = |rule: &&Rule| rule.action != Action::Validate;
    let key = |rule: &Rule| (rule.mode, rule.kind, rule.class);
    rules.iter().enumerate().any(|(i, rule)| {
        let earlier = &mut rules[..i].iter().filter(keeps);
        keeps(&rule) && earlier.any(|other| key(other) == key(rule))
    })
}

fn rows(rules: &[Rule], modes: u8) -> Vec<[Vec<Rule>; 2]> {
    let mut rows = vec![[Vec::new(), Vec::new()]; modes as usize];
    for rule in rules {
        rows[rule.mode as usize][rule.kind as usize].push(*rule);
    }
    rows
}

impl<'a> Table<'a> {
    pub fn defaults(&self) -> Defaults {
        self.defaults
    }

    pub fn modes(&self) -> u8 {
        self.modes
    }

    pub fn rule_count(&self) -> usize {
        self.rows.iter().flatten().map(Vec::len).sum()
    }

    /// Whether a rule of the mode and kind names any, whatever its action.
    pub fn has_any_rule(&self, mode: u8, kind: u8) -> bool {
        let row = &self.rows[mode as usize][kind as usize];
        row.iter().any(|rule| rule.class == ANY)
    }

    pub fn namespaces(&self) -> u8 {
        self.uris.len() as u8
    }

    /// The span in the table of a listed class's URI.
    pub fn listed(&self, class: u8) -> Option<Span> {
        let index = (class as usize).checked_sub(1)?;
        self.uris.get(index).copied()
    }

    /// The bytes of a listed class's URI.
    pub fn listed_uri(&self, class: u8) -> Option<&'a [u8]> {
        self.listed(class).map(|span| span.of(self.bytes))
    }

    /// The class of a namespace, which is its URI's bytes; the empty one is no namespace.
    pub fn class_of(&self, uri: &[u8]) -> u8 {
        if uri.is_empty() {
            return NO_NAMESPACE;
        }
        if uri == XML_URI {
            return XML;
        }
        match self.uris.iter().position(|span| span.of(self.bytes) == uri) {
            Some(index) => index as u8 + 1,
            None => ANY,
        }
    }

    /// Whether an element or a level may have this class.
    pub fn has_class(&self, class: u8) -> bool {
        class <= self.namespaces() || class == XML || class == ANY
    }

    /// The rules taken for (mode, kind, class) in table order: those naming the class if there is
    /// one, else those naming any.
    pub fn rules(&self, mode: u8, kind: u8, class: u8) -> impl Iterator<Item = &Rule> {
        let row = &self.rows[mode as usize][kind as usize];
        let named = row.iter().any(|rule| rule.class == class);
        let wanted = if named { class } else { ANY };
        row.iter().filter(move |rule| rule.class == wanted)
    }
}
