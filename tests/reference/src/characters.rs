//! The characters of names and of text in UTF-8 (request N4; productions 4, 4a and 2 of XML 1.0,
//! fifth edition, the first two without the colon).
//!
//! A set holds the bytes of every character, each written by `char::encode_utf8`, and with them
//! every beginning of such bytes. What is not well-formed is in no set.

use std::sync::OnceLock;

/// Production 4.
pub fn is_name_start(c: char) -> bool {
    matches!(c,
        'A'..='Z'
        | '_'
        | 'a'..='z'
        | '\u{C0}'..='\u{D6}'
        | '\u{D8}'..='\u{F6}'
        | '\u{F8}'..='\u{2FF}'
        | '\u{370}'..='\u{37D}'
        | '\u{37F}'..='\u{1FFF}'
        | '\u{200C}'..='\u{200D}'
        | '\u{2070}'..='\u{218F}'
        | '\u{2C00}'..='\u{2FEF}'
        | '\u{3001}'..='\u{D7FF}'
        | '\u{F900}'..='\u{FDCF}'
        | '\u{FDF0}'..='\u{FFFD}'
        | '\u{10000}'..='\u{EFFFF}')
}

/// Production 4a.
pub fn is_name(c: char) -> bool {
    is_name_start(c)
        || matches!(c,
            '-'
            | '.'
            | '0'..='9'
            | '\u{B7}'
            | '\u{300}'..='\u{36F}'
            | '\u{203F}'..='\u{2040}')
}

/// Production 2.
pub fn is_text(c: char) -> bool {
    matches!(c,
        '\u{9}'
        | '\u{A}'
        | '\u{D}'
        | '\u{20}'..='\u{D7FF}'
        | '\u{E000}'..='\u{FFFD}'
        | '\u{10000}'..='\u{10FFFF}')
}

pub fn name_starts() -> &'static Set {
    static SET: OnceLock<Set> = OnceLock::new();
    SET.get_or_init(|| Set::of(is_name_start))
}

pub fn names() -> &'static Set {
    static SET: OnceLock<Set> = OnceLock::new();
    SET.get_or_init(|| Set::of(is_name))
}

pub fn texts() -> &'static Set {
    static SET: OnceLock<Set> = OnceLock::new();
    SET.get_or_init(|| Set::of(is_text))
}

/// No character of the set goes on so.
const NONE: u16 = 0;
/// A character of the set ends so; there is no node of this number.
const WHOLE: u16 = u16::MAX;

/// All characters of a set, as a tree of their bytes.
pub struct Set {
    /// By beginning (the first is the empty one) and next byte: the longer beginning's number.
    nodes: Vec<[u16; 256]>,
}

impl Set {
    fn of(belongs: fn(char) -> bool) -> Set {
        let mut set = Set {
            nodes: vec![[NONE; 256]],
        };
        for c in ('\0'..=char::MAX).filter(|&c| belongs(c)) {
            set.add(c.encode_utf8(&mut [0; 4]).as_bytes());
        }
        set
    }

    fn add(&mut self, bytes: &[u8]) {
        let (last, before) = bytes.split_last().expect("a character has bytes");
        let node = before.iter().fold(0, |node, &byte| self.longer(node, byte));
        self.nodes[node][*last as usize] = WHOLE;
    }

    fn longer(&mut self, node: usize, byte: u8) -> usize {
        if self.nodes[node][byte as usize] == NONE {
            self.nodes[node][byte as usize] = self.nodes.len() as u16;
            self.nodes.push([NONE; 256]);
        }
        self.nodes[node][byte as usize] as usize
    }

    /// The number of a beginning, or WHOLE.
    fn find(&self, bytes: &[u8]) -> Option<u16> {
        bytes.iter().try_fold(0, |node, &byte| {
            let next = self.nodes.get(node as usize)?[byte as usize];
            (next != NONE).then_some(next)
        })
    }

    /// Whether some character of the set begins with these bytes, or is them.
    pub fn begins(&self, bytes: &[u8]) -> bool {
        self.find(bytes).is_some()
    }

    /// Whether these bytes are a character of the set.
    pub fn holds(&self, bytes: &[u8]) -> bool {
        self.find(bytes) == Some(WHOLE)
    }
}
