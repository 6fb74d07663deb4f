//! A part of the scene by offset and length.

#[derive(Clone, Copy, Debug, PartialEq, Eq, Hash, Default)]
pub struct Span {
    pub at: u64,
    pub len: u64,
}

impl Span {
    /// The span of unused fields, and the prefix of the default.
    pub const ZERO: Span = Span { at: 0, len: 0 };

    pub fn new(at: u64, len: u64) -> Span {
        Span { at, len }
    }

    /// From a first byte up to, and without, another.
    pub fn between(from: usize, to: usize) -> Span {
        Span::new(from as u64, (to - from) as u64)
    }

    /// Whether the span lies inside so many bytes; the sum must not wrap.
    pub fn inside(self, bytes: &[u8]) -> bool {
        match self.at.checked_add(self.len) {
            Some(end) => end <= bytes.len() as u64,
            None => false,
        }
    }

    /// The bytes of a span that lies inside.
    pub fn of(self, bytes: &[u8]) -> &[u8] {
        &bytes[self.at as usize..][..self.len as usize]
    }
}
