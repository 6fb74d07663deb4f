//! What makes no event: comments, processing instructions and the declaration, each a misc
//! (request N1; productions 15, 16 and 23 of XML 1.0, fifth edition).

use crate::answer::Refusal;
use crate::lexical::{is_space, Bytes, CANNOT_STAND};

const DECLARED: &[u8] = b"xml";
const STANDALONE: [&[u8]; 2] = [b"yes", b"no"];

impl Bytes<'_> {
    /// Passes over the misc that stand here, one behind the other.
    pub(crate) fn miscs(&mut self) -> Result<(), Refusal> {
        while self.at_misc() {
            self.misc()?;
        }
        Ok(())
    }

    /// Outside the root: passes over space and misc.
    pub(crate) fn outside_root(&mut self) -> Result<(), Refusal> {
        while self.space() || self.at_misc() {
            self.miscs()?;
        }
        Ok(())
    }

    fn at_misc(&self) -> bool {
        self.peek() == Some(b'<') && matches!(self.peek_second(), Some(b'!' | b'?'))
    }

    fn misc(&mut self) -> Result<(), Refusal> {
        match self.peek_second() {
            Some(b'!') => self.comment(),
            _ => self.instruction(),
        }
    }

    /// Production 15: the first two neighbouring hyphens of the content end it.
    fn comment(&mut self) -> Result<(), Refusal> {
        self.word(b"<!--")?;
        self.content(b"--")?;
        self.expect(b'>')
    }

    /// Production 16, or 23 where the target is xml.
    fn instruction(&mut self) -> Result<(), Refusal> {
        let first = self.at == 0;
        self.word(b"<?")?;
        let target = self.part()?.of(self.scene);
        if first && target == DECLARED {
            return self.declaration();
        }
        if target.eq_ignore_ascii_case(DECLARED) && self.peek().is_some() {
            let target_at = self.at - target.len();
            return Err(Refusal::new(CANNOT_STAND, target_at as u64));
        }
        match self.peek().is_some_and(is_space) {
            true => self.content(b"?>"),
            false => self.word(b"?>"),
        }
    }

    /// Characters as in text, < and & free, up to and with the two that end them.
    fn content(&mut self, end: &[u8]) -> Result<(), Refusal> {
        while !self.scene[self.at..].starts_with(end) {
            self.text_character()?;
        }
        self.at += end.len();
        Ok(())
    }

    /// Production 23, behind its `<?xml`.
    fn declaration(&mut self) -> Result<(), Refusal> {
        if !self.space() {
            return Err(self.refused());
        }
        self.item(b"version", Self::version)?;
        let mut spaced = self.space();
        if spaced && self.peek() == Some(b'e') {
            self.item(b"encoding", Self::encoding)?;
            spaced = self.space();
        }
        if spaced && self.peek() == Some(b's') {
            self.item(b"standalone", Self::standalone)?;
            self.space();
        }
        self.word(b"?>")
    }

    /// A name, =, and a value in quotes of one kind (productions 24, 25, 80 and 32).
    fn item(
        &mut self,
        name: &[u8],
        value: fn(&mut Self) -> Result<(), Refusal>,
    ) -> Result<(), Refusal> {
        self.word(name)?;
        self.space();
        self.expect(b'=')?;
        self.space();
        let quote = self.quote()?;
        value(self)?;
        self.expect(quote)
    }

    /// Production 26.
    fn version(&mut self) -> Result<(), Refusal> {
        self.word(b"1.")?;
        self.run_of(|byte| byte.is_ascii_digit(), |byte| byte.is_ascii_digit())
    }

    /// Production 81.
    fn encoding(&mut self) -> Result<(), Refusal> {
        self.run_of(
            |byte| byte.is_ascii_alphabetic(),
            |byte| byte.is_ascii_alphanumeric() || b"._-".contains(&byte),
        )
    }

    /// Production 32: yes or no.
    fn standalone(&mut self) -> Result<(), Refusal> {
        match self.peek() {
            Some(b'y') => self.word(STANDALONE[0]),
            _ => self.word(STANDALONE[1]),
        }
    }

    /// One byte that may begin, then all that may go on.
    fn run_of(&mut self, begins: fn(u8) -> bool, goes_on: fn(u8) -> bool) -> Result<(), Refusal> {
        if !self.peek().is_some_and(begins) {
            return Err(self.refused());
        }
        while self.peek().is_some_and(goes_on) {
            self.at += 1;
        }
        Ok(())
    }
}
