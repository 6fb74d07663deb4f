//! The reader: a scene's events, from its first byte on up to 9 or the first refusal by 1 to 6.

use crate::answer::Refusal;
use crate::lexical::{self, Name, Token, TokenKind, WrittenTag};
use crate::names::{self, Binding, StartTag};
use crate::span::Span;

const UNLIKE_NAME: u8 = 4;

#[derive(Clone, Debug)]
pub enum What {
    Start(Box<StartTag>),
    Text(Span),
    /// With the part of the end tag's name, or of the start's for />.
    End(Span),
}

#[derive(Clone, Debug)]
pub struct Event {
    /// The tag's < (for the end of a /> the same as its start's), or the first text byte.
    pub at: u64,
    /// The place of a session after this event.
    pub after: u64,
    pub what: What,
}

impl Event {
    pub fn start_tag(&self) -> Option<&StartTag> {
        match &self.what {
            What::Start(tag) => Some(tag),
            _ => None,
        }
    }

    /// Whether the end of a /> comes next.
    pub fn awaits_end(&self) -> bool {
        self.start_tag().is_some_and(|tag| tag.empty)
    }
}

/// A scene's events, and the number and place with which reading ends.
#[derive(Clone, Debug)]
pub struct Reading {
    pub list: Vec<Event>,
    pub number: u8,
    pub place: u64,
}

/// Reads a whole scene; 7 is left aside.
pub fn events(scene: &[u8]) -> Reading {
    let mut reader = Reader::new(scene);
    let end = loop {
        if let Err(end) = reader.read() {
            break end;
        }
    };
    Reading {
        list: reader.list,
        number: end.number,
        place: end.place,
    }
}

/// An element that has not ended yet.
struct Open {
    name: Span,
    bindings: usize,
}

struct Reader<'a> {
    scene: &'a [u8],
    place: u64,
    list: Vec<Event>,
    open: Vec<Open>,
    bindings: Vec<Binding>,
}

impl<'a> Reader<'a> {
    fn new(scene: &'a [u8]) -> Reader<'a> {
        Reader {
            scene,
            place: 0,
            list: Vec::new(),
            open: Vec::new(),
            bindings: Vec::new(),
        }
    }

    /// One tag or text; a /> gives two events.
    fn read(&mut self) -> Result<(), Refusal> {
        let token = self.token()?;
        match token.kind {
            TokenKind::Start(ref written) => self.start(&token, written)?,
            TokenKind::Text => self.text(&token),
            TokenKind::End(ref name) => self.end(&token, name)?,
        }
        self.place = token.after;
        Ok(())
    }

    fn token(&self) -> Result<Token, Refusal> {
        if !self.open.is_empty() {
            lexical::inside_root(self.scene, self.place)
        } else if self.list.is_empty() {
            lexical::before_root(self.scene, self.place)
        } else {
            Err(lexical::after_root(self.scene, self.place))
        }
    }

    fn start(&mut self, token: &Token, written: &WrittenTag) -> Result<(), Refusal> {
        let tag = names::resolve(self.scene, written, &self.bindings)
            .map_err(|number| Refusal::new(number, token.at))?;
        let part = tag.part;
        if !tag.empty {
            self.open.push(Open {
                name: tag.name,
                bindings: tag.declarations.len(),
            });
            self.bindings.extend(&tag.declarations);
        }
        self.push(token, What::Start(Box::new(tag)));
        if written.empty {
            self.push(token, What::End(part));
        }
        Ok(())
    }

    fn text(&mut self, token: &Token) {
        let span = Span::new(token.at, token.after - token.at);
        self.push(token, What::Text(span));
    }

    fn end(&mut self, token: &Token, name: &Name) -> Result<(), Refusal> {
        let refusal = Refusal::new(UNLIKE_NAME, token.at);
        let open = self.open.last().ok_or(refusal)?;
        if open.name.of(self.scene) != name.whole.of(self.scene) {
            return Err(refusal);
        }
        self.bindings.truncate(self.bindings.len() - open.bindings);
        self.open.pop();
        self.push(token, What::End(name.part));
        Ok(())
    }

    fn push(&mut self, token: &Token, what: What) {
        self.list.push(Event {
            at: token.at,
            after: token.after,
            what,
        });
    }
}
