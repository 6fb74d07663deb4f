//! The bytes of tags and texts: numbers 2, 3, 1 (and 9), and nothing of namespaces.

use crate::answer::Refusal;
use crate::characters::{self, Set};
use crate::span::Span;

pub const PART_LIMIT: usize = 64;
pub const ATTRIBUTE_LIMIT: usize = 16;

const FINISHED: u8 = 9;
const SCENE_ENDS: u8 = 1;
pub(crate) const CANNOT_STAND: u8 = 2;
const TOO_MANY: u8 = 3;

const REFERENCES: [&[u8]; 5] = [b"&lt;", b"&gt;", b"&amp;", b"&quot;", b"&apos;"];

/// A name as written: the whole, its prefix part (zero without one), the part after the colon.
#[derive(Clone, Copy, Debug, PartialEq, Eq)]
pub struct Name {
    pub whole: Span,
    pub prefix: Span,
    pub part: Span,
}

#[derive(Clone, Copy, Debug)]
pub struct WrittenAttribute {
    pub name: Name,
    pub value: Span,
}

/// A whole start tag as written.
#[derive(Debug)]
pub struct WrittenTag {
    pub name: Name,
    pub attributes: Vec<WrittenAttribute>,
    /// Written with />.
    pub empty: bool,
}

#[derive(Debug)]
pub enum TokenKind {
    Start(WrittenTag),
    Text,
    End(Name),
}

/// What stands at a place: its first byte, the byte after it, and its kind.
#[derive(Debug)]
pub struct Token {
    pub at: u64,
    pub after: u64,
    pub kind: TokenKind,
}

pub fn is_space(byte: u8) -> bool {
    matches!(byte, 0x09 | 0x0A | 0x0D | 0x20)
}

/// Whether these bytes are a name part: whole characters, the first of those that may begin one.
pub fn is_part(bytes: &[u8]) -> bool {
    let Ok(part) = std::str::from_utf8(bytes) else {
        return false;
    };
    bytes.len() <= PART_LIMIT
        && part.chars().next().is_some_and(characters::is_name_start)
        && part.chars().all(characters::is_name)
}

/// Whether these bytes are a name: a part, or a prefix part, a colon and a part.
pub fn is_name(bytes: &[u8]) -> bool {
    match bytes.iter().position(|&byte| byte == b':') {
        None => is_part(bytes),
        Some(colon) => is_part(&bytes[..colon]) && is_part(&bytes[colon + 1..]),
    }
}

/// The span of the part after the colon, or of the whole name without one.
pub fn part_of(scene: &[u8], name: Span) -> Span {
    match name.of(scene).iter().position(|&byte| byte == b':') {
        None => name,
        Some(colon) => {
            let skipped = colon as u64 + 1;
            Span::new(name.at + skipped, name.len - skipped)
        }
    }
}

/// Reads before the root: space and misc, then a start tag.
pub fn before_root(scene: &[u8], place: u64) -> Result<Token, Refusal> {
    let mut reader = Bytes::at(scene, place);
    reader.outside_root()?;
    match reader.peek() {
        Some(b'<') => reader.start_tag(),
        _ => Err(reader.refused()),
    }
}

/// Reads inside the root: misc, then a start tag, an end tag or a text.
pub fn inside_root(scene: &[u8], place: u64) -> Result<Token, Refusal> {
    let mut reader = Bytes::at(scene, place);
    reader.miscs()?;
    match (reader.peek(), reader.peek_second()) {
        (None, _) => Err(reader.refused()),
        (Some(b'<'), Some(b'/')) => reader.end_tag(),
        (Some(b'<'), _) => reader.start_tag(),
        _ => reader.text(),
    }
}

/// Reads after the root, where only space and misc may stand: 9, or a refusal.
pub fn after_root(scene: &[u8], place: u64) -> Refusal {
    let mut reader = Bytes::at(scene, place);
    if let Err(refusal) = reader.outside_root() {
        return refusal;
    }
    match reader.peek() {
        None => Refusal::new(FINISHED, scene.len() as u64),
        // A misc might begin, so that the byte behind < is the one refused.
        Some(b'<') => Bytes::at(scene, reader.at as u64 + 1).refused(),
        Some(_) => reader.refused(),
    }
}

pub(crate) struct Bytes<'a> {
    pub(crate) scene: &'a [u8],
    pub(crate) at: usize,
}

impl<'a> Bytes<'a> {
    fn at(scene: &'a [u8], place: u64) -> Bytes<'a> {
        Bytes {
            scene,
            at: place as usize,
        }
    }

    pub(crate) fn peek(&self) -> Option<u8> {
        self.scene.get(self.at).copied()
    }

    pub(crate) fn peek_second(&self) -> Option<u8> {
        self.scene.get(self.at + 1).copied()
    }

    /// The byte here cannot stand, or the scene ends here.
    pub(crate) fn refused(&self) -> Refusal {
        match self.peek() {
            None => Refusal::new(SCENE_ENDS, self.scene.len() as u64),
            Some(_) => Refusal::new(CANNOT_STAND, self.at as u64),
        }
    }

    fn too_many(&self) -> Refusal {
        Refusal::new(TOO_MANY, self.at as u64)
    }

    /// Any run of space; whether there was some.
    pub(crate) fn space(&mut self) -> bool {
        let from = self.at;
        while self.peek().is_some_and(is_space) {
            self.at += 1;
        }
        self.at > from
    }

    pub(crate) fn expect(&mut self, byte: u8) -> Result<(), Refusal> {
        if self.peek() != Some(byte) {
            return Err(self.refused());
        }
        self.at += 1;
        Ok(())
    }

    /// These bytes, one after the other.
    pub(crate) fn word(&mut self, bytes: &[u8]) -> Result<(), Refusal> {
        bytes.iter().try_for_each(|&byte| self.expect(byte))
    }

    /// An opening quote of either kind.
    pub(crate) fn quote(&mut self) -> Result<u8, Refusal> {
        match self.peek() {
            Some(quote @ (b'"' | b'\'')) => {
                self.at += 1;
                Ok(quote)
            }
            _ => Err(self.refused()),
        }
    }

    /// Whether the byte here can begin a character of a set.
    fn at_character(&self, set: &Set) -> bool {
        self.peek().is_some_and(|byte| set.begins(&[byte]))
    }

    /// A whole character of a set: the refused byte is the first with which none of the set can
    /// begin or go on. One that can, but stands at the limit, is one too many.
    fn character(&mut self, set: &Set, limit: usize) -> Result<(), Refusal> {
        let from = self.at;
        while !set.holds(&self.scene[from..self.at]) {
            let so_far = self.scene.get(from..self.at + 1);
            if !so_far.is_some_and(|bytes| set.begins(bytes)) {
                return Err(self.refused());
            }
            if self.at == limit {
                return Err(self.too_many());
            }
            self.at += 1;
        }
        Ok(())
    }

    /// A character of text, of values and of what makes no event.
    pub(crate) fn text_character(&mut self) -> Result<(), Refusal> {
        self.character(characters::texts(), usize::MAX)
    }

    /// A byte that can begin a name character belongs to the part.
    pub(crate) fn part(&mut self) -> Result<Span, Refusal> {
        let from = self.at;
        let limit = from + PART_LIMIT;
        self.character(characters::name_starts(), limit)?;
        while self.at_character(characters::names()) {
            self.character(characters::names(), limit)?;
        }
        Ok(Span::between(from, self.at))
    }

    fn name(&mut self) -> Result<Name, Refusal> {
        let first = self.part()?;
        if self.peek() != Some(b':') {
            return Ok(Name {
                whole: first,
                prefix: Span::ZERO,
                part: first,
            });
        }
        self.at += 1;
        let part = self.part()?;
        Ok(Name {
            whole: Span::new(first.at, first.len + 1 + part.len),
            prefix: first,
            part,
        })
    }

    fn start_tag(&mut self) -> Result<Token, Refusal> {
        let at = self.at as u64;
        self.expect(b'<')?;
        let name = self.name()?;
        let attributes = self.attributes()?;
        let empty = self.peek() == Some(b'/');
        if empty {
            self.at += 1;
        }
        self.expect(b'>')?;
        let tag = WrittenTag {
            name,
            attributes,
            empty,
        };
        Ok(self.token(at, TokenKind::Start(tag)))
    }

    /// The attributes of a tag, up to its > or /.
    fn attributes(&mut self) -> Result<Vec<WrittenAttribute>, Refusal> {
        let mut attributes = Vec::new();
        loop {
            let spaced = self.space();
            match self.peek() {
                Some(b'>' | b'/') => return Ok(attributes),
                Some(_) if spaced && self.at_character(characters::name_starts()) => {
                    if attributes.len() == ATTRIBUTE_LIMIT {
                        return Err(self.too_many());
                    }
                    attributes.push(self.attribute()?);
                }
                _ => return Err(self.refused()),
            }
        }
    }

    fn attribute(&mut self) -> Result<WrittenAttribute, Refusal> {
        let name = self.name()?;
        self.space();
        self.expect(b'=')?;
        self.space();
        let value = self.value()?;
        Ok(WrittenAttribute { name, value })
    }

    fn value(&mut self) -> Result<Span, Refusal> {
        let quote = self.quote()?;
        let from = self.at;
        self.characters(Some(quote))?;
        let value = Span::between(from, self.at);
        self.expect(quote)?;
        Ok(value)
    }

    fn text(&mut self) -> Result<Token, Refusal> {
        let at = self.at as u64;
        self.characters(None)?;
        if self.peek().is_none() {
            return Err(self.refused());
        }
        Ok(self.token(at, TokenKind::Text))
    }

    /// What text and values hold, up to <, the value's own quote, or the scene's end. In text
    /// ]]> is refused at its first byte, known at its last.
    fn characters(&mut self, quote: Option<u8>) -> Result<(), Refusal> {
        let from = self.at;
        while let Some(byte) = self.peek() {
            match byte {
                b'<' => return Ok(()),
                byte if Some(byte) == quote => return Ok(()),
                b'&' => self.reference()?,
                b'>' if quote.is_none() && self.scene[from..self.at].ends_with(b"]]") => {
                    return Err(Refusal::new(CANNOT_STAND, self.at as u64 - 2));
                }
                _ => self.text_character()?,
            }
        }
        Ok(())
    }

    /// One of the five references; the refused byte is the first with which none can go on.
    fn reference(&mut self) -> Result<(), Refusal> {
        let from = self.at;
        loop {
            let so_far = match self.scene.get(from..self.at + 1) {
                Some(bytes) => bytes,
                None => return Err(self.refused()),
            };
            if !REFERENCES.iter().any(|whole| whole.starts_with(so_far)) {
                return Err(self.refused());
            }
            self.at += 1;
            if REFERENCES.contains(&so_far) {
                return Ok(());
            }
        }
    }

    fn end_tag(&mut self) -> Result<Token, Refusal> {
        let at = self.at as u64;
        self.expect(b'<')?;
        self.expect(b'/')?;
        let name = self.name()?;
        self.space();
        self.expect(b'>')?;
        Ok(self.token(at, TokenKind::End(name)))
    }

    fn token(&self, at: u64, kind: TokenKind) -> Token {
        Token {
            at,
            after: self.at as u64,
            kind,
        }
    }
}
