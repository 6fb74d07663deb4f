//! Characters of other scripts, names and texts of them, bytes that are no character, and scenes
//! that consist of little else.

use super::random::Random;

/// May begin a part: of two, three and four bytes, inside the rows and at their ends.
const STARTS: [&str; 28] = [
    "\u{E9}",
    "\u{3C0}",
    "\u{3A9}",
    "\u{436}",
    "\u{C0}",
    "\u{D6}",
    "\u{2FF}",
    "\u{370}",
    "\u{37D}",
    "\u{37F}",
    "\u{3072}",
    "\u{9AA8}",
    "\u{D55C}",
    "\u{E01}",
    "\u{1FFF}",
    "\u{200C}",
    "\u{218F}",
    "\u{2C00}",
    "\u{3001}",
    "\u{D7FF}",
    "\u{FDCF}",
    "\u{FDF0}",
    "\u{FEFF}",
    "\u{FFFD}",
    "\u{10000}",
    "\u{10400}",
    "\u{1FFFE}",
    "\u{EFFFF}",
];
/// May go on in one, and not begin it.
const GO_ON: [&str; 10] = [
    "\u{B7}", "\u{300}", "\u{301}", "\u{36F}", "\u{203F}", "\u{2040}", "-", ".", "0", "9",
];
/// May stand in text alone.
const IN_TEXT: [&str; 16] = [
    "\u{80}",
    "\u{85}",
    "\u{A0}",
    "\u{B8}",
    "\u{D7}",
    "\u{F7}",
    "\u{37E}",
    "\u{2028}",
    "\u{2190}",
    "\u{3000}",
    "\u{E000}",
    "\u{F8FF}",
    "\u{FDD0}",
    "\u{FDEF}",
    "\u{F0000}",
    "\u{10FFFF}",
];
/// Cut short, longer than need be, surrogates, past the last, and those that XML has not.
const BROKEN: [&[u8]; 30] = [
    b"\x80",
    b"\xBF",
    b"\xA9",
    b"\xC0\x80",
    b"\xC1\xBF",
    b"\xC2",
    b"\xC3",
    b"\xC3\xC3",
    b"\xE3",
    b"\xE3\x81",
    b"\xE3\x81\xC3",
    b"\xE0\x80",
    b"\xE0\x9F\xBF",
    b"\xED\xA0\x80",
    b"\xED\xBF\xBF",
    b"\xED",
    b"\xEF\xBF\xBE",
    b"\xEF\xBF\xBF",
    b"\xEF\xBF",
    b"\xF0",
    b"\xF0\x90",
    b"\xF0\x90\x80",
    b"\xF0\x8F\xBF\xBF",
    b"\xF4\x90\x80\x80",
    b"\xF4\x8F\xBF",
    b"\xF5\x80\x80\x80",
    b"\xF8\x88\x80\x80\x80",
    b"\xFE",
    b"\xFF",
    b"\xC3\xA9\xA9",
];
const PART_AT_MOST: usize = 64;

/// The bytes of a number in the form of UTF-8, surrogates too.
pub fn form_of(code: u32) -> Vec<u8> {
    let last = |shift: u32| (0x80 | code >> shift & 0x3F) as u8;
    match code {
        0..=0x7F => vec![code as u8],
        0x80..=0x7FF => vec![(0xC0 | code >> 6) as u8, last(0)],
        0x800..=0xFFFF => vec![(0xE0 | code >> 12) as u8, last(6), last(0)],
        _ => vec![(0xF0 | code >> 18) as u8, last(12), last(6), last(0)],
    }
}

/// A byte of a name part, be it of a character of some bytes.
pub(super) fn in_name(byte: u8) -> bool {
    byte.is_ascii_alphanumeric() || b"_-.".contains(&byte) || byte >= 0x80
}

/// A character with which a part may begin.
fn start(random: &mut Random) -> &'static [u8] {
    match random.percent(20) {
        true => random.pick(&["a", "n", "Z", "_"]).as_bytes(),
        false => random.pick(&STARTS).as_bytes(),
    }
}

/// A character of a part, behind its first.
fn further(random: &mut Random) -> &'static [u8] {
    match random.percent(40) {
        true => random.pick(&GO_ON).as_bytes(),
        false => start(random),
    }
}

/// A character that text may hold, no ASCII.
pub(super) fn character(random: &mut Random) -> &'static [u8] {
    match random.below(4) {
        0 => random.pick(&GO_ON[..6]).as_bytes(),
        1 => random.pick(&IN_TEXT).as_bytes(),
        _ => random.pick(&STARTS).as_bytes(),
    }
}

/// What is no character of XML's in UTF-8, or not alone one.
pub fn broken(random: &mut Random) -> &'static [u8] {
    *random.pick(&BROKEN)
}

/// A part of one to three characters.
pub(super) fn part(random: &mut Random) -> Vec<u8> {
    let mut part = start(random).to_vec();
    for _ in 0..random.below(3) {
        part.extend(further(random));
    }
    part
}

/// A part of so many bytes.
pub(super) fn part_of_length(random: &mut Random, length: usize) -> Vec<u8> {
    let mut part = Vec::new();
    while part.len() < length {
        let next = match part.is_empty() {
            true => start(random),
            false => further(random),
        };
        if part.len() + next.len() <= length {
            part.extend(next);
        }
    }
    part
}

/// A scene in other scripts being put together.
struct Writer<'a> {
    random: &'a mut Random,
    /// How often something is broken.
    spoilt: usize,
    scene: Vec<u8>,
}

impl Writer<'_> {
    /// Bytes, and now and then what is no character before them.
    fn put(&mut self, bytes: &[u8]) {
        if self.random.percent(self.spoilt) {
            self.scene.extend(broken(self.random));
        }
        self.scene.extend(bytes);
    }

    /// A part, one in eight of about 64 bytes.
    fn part(&mut self) -> Vec<u8> {
        match self.random.below(8) {
            0 => {
                let most = PART_AT_MOST + self.spoilt.min(2);
                let length = self.random.between(PART_AT_MOST - 3, most);
                part_of_length(self.random, length)
            }
            _ => part(self.random),
        }
    }

    fn characters(&mut self) -> Vec<u8> {
        let mut list = Vec::new();
        for _ in 0..self.random.below(4) {
            match self.random.below(8) {
                0 => list.extend(
                    self.random
                        .pick(&["&lt;", "]]", "a", " ", "-", "?"])
                        .bytes(),
                ),
                _ => list.extend(character(self.random)),
            }
        }
        list
    }

    fn attribute(&mut self, name: &[u8]) {
        self.put(b" ");
        self.put(name);
        self.put(b"='");
        let value = self.characters();
        self.put(&value);
        self.put(b"'");
    }

    /// A tag with some attributes, or with about 16.
    fn element(&mut self, depth: usize) {
        let (prefix, part) = (self.part(), self.part());
        let prefixed = self.random.percent(40);
        let name = match prefixed {
            true => [&prefix[..], b":", &part].concat(),
            false => part,
        };
        self.put(b"<");
        self.put(&name);
        if prefixed && !self.random.percent(self.spoilt) {
            let uri = part_of_length(self.random, 4);
            self.put(&[b" xmlns:", &prefix[..], b"='", &uri, b"'"].concat());
        }
        self.attributes();
        match self.random.percent(30) {
            true => self.put(b"/>"),
            false => {
                self.put(b">");
                self.content(depth);
                self.put(b"</");
                self.end(&name);
            }
        }
    }

    /// The name again, or another one.
    fn end(&mut self, name: &[u8]) {
        match self.random.percent(self.spoilt) {
            true => self.scene.extend(part(self.random)),
            false => self.put(name),
        }
        self.put(b">");
    }

    fn attributes(&mut self) {
        let many = self.random.percent(8);
        let count = match many {
            true => self.random.between(13, 14 + self.spoilt.min(2)),
            false => self.random.below(3),
        };
        for number in 0..count {
            let mut name = part(self.random);
            name.extend(format!(".{number}").bytes());
            self.attribute(&name);
        }
    }

    fn content(&mut self, depth: usize) {
        for _ in 0..self.random.below(4) {
            match self.random.below(5) {
                0 if depth < 3 => self.element(depth + 1),
                1 => self.misc(),
                _ => {
                    let text = self.characters();
                    self.put(&text);
                }
            }
        }
    }

    fn misc(&mut self) {
        let content = self.random.pick(&IN_TEXT).as_bytes();
        if self.random.percent(50) {
            self.put(&[b"<!--", content].concat());
            return self.put(b"-->");
        }
        let target = match self.random.percent(30) {
            true => [b"xml", further(self.random)].concat(),
            false => self.part(),
        };
        self.put(&[b"<?", &target[..]].concat());
        self.put(&[b" ", content].concat());
        self.put(b"?>");
    }
}

/// A few tags, texts and misc in other scripts, parts of about 64 bytes among them; two in three
/// scenes are spoilt by bytes that are no character, a part that is too long, a prefix that is
/// not bound or an end of another name.
pub fn script_scene(random: &mut Random) -> Vec<u8> {
    let spoilt = *random.pick(&[0, 2, 6]);
    let mut writer = Writer {
        random,
        spoilt,
        scene: Vec::new(),
    };
    if writer.random.percent(20) {
        writer.misc();
    }
    writer.element(1);
    if writer.random.percent(20) {
        writer.misc();
    }
    writer.scene
}

const BEFORE: [&[u8]; 8] = [
    b"",
    b"<r>",
    b"<r>a",
    b"<r><",
    b"<",
    b"<r a='",
    b"<r a='' b='' c='' d='' e='' f='' g='' h='' i='' j='' k='' l='' m='' n='' o='' p=''",
    b"<r/>",
];
const SOUP: [&[u8]; 28] = [
    b"<", b">", b"/>", b"</", b"='", b"'", b" ", b":", b"a", b"&", b"&lt;", b"]]", b"<r>", b"</r>",
    b"<?", b"?>", b"<!--", b"-->", b"-", b"xml", b"\xC3", b"\xA9", b"\x97", b"\xE3", b"\x81",
    b"\x82", b"\xF0", b"\x90",
];

/// Pieces in any order.
pub fn script_soup(random: &mut Random) -> Vec<u8> {
    let mut scene = random.pick(&BEFORE).to_vec();
    for _ in 0..random.between(1, 7) {
        match random.below(12) {
            0..=4 => scene.extend(*random.pick(&SOUP)),
            5 => scene.extend(b"n".repeat(random.between(60, 64))),
            6 => scene.extend(part(random)),
            7 | 8 => scene.extend(broken(random)),
            _ => scene.extend(character(random)),
        }
    }
    scene
}
