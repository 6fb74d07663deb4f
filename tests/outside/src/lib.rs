//! Seeded scenes for parsers of XML: the reference's scenes, whole and damaged, in UTF-8. Where another encoding is declared all bytes are ASCII; in
//! whole scenes it is UTF-8. In four of five scenes every name is one by older editions of XML too, as expat has them.

use reference::generate::{self, Random};

/// What XML has and document 01 has not.
const BEYOND: [&[u8]; 6] = [
    b"<!DOCTYPE r>",
    b"<![CDATA[<c>]]>",
    b"&#65;",
    b"&#x41;",
    b"<x xmlns:k='a&amp;b' k:a=''/>",
    b"<xml:x xmlns:xml='http://www.w3.org/XML/1998/namespace'/>",
];

/// URIs that are one for XML, which makes spaces of white space.
const TABBED: &[u8] = b"<x xmlns:k='K\t' xmlns:l='K ' k:a='' l:a=''/>";

/// Name characters of the fifth edition that older ones have not, and for each one that they have: of as many bytes or fewer, and in no scene else.
const OLDER: [(&str, &str); 21] = [
    ("\u{2FF}", "\u{100}"),
    ("\u{370}", "\u{101}"),
    ("\u{37D}", "\u{102}"),
    ("\u{37F}", "\u{103}"),
    ("\u{1FFF}", "\u{AC00}"),
    ("\u{200C}", "\u{AC01}"),
    ("\u{218F}", "\u{AC02}"),
    ("\u{2C00}", "\u{AC03}"),
    ("\u{3001}", "\u{AC04}"),
    ("\u{D7FF}", "\u{AC05}"),
    ("\u{FDCF}", "\u{AC06}"),
    ("\u{FDF0}", "\u{AC07}"),
    ("\u{FEFF}", "\u{AC08}"),
    ("\u{FFFD}", "\u{AC09}"),
    ("\u{10000}", "\u{AC0A}"),
    ("\u{10400}", "\u{AC0B}"),
    ("\u{1FFFE}", "\u{AC0C}"),
    ("\u{EFFFF}", "\u{AC0D}"),
    ("\u{36F}", "\u{302}"),
    ("\u{203F}", "\u{20D0}"),
    ("\u{2040}", "\u{20D1}"),
];

/// What a scene's file is called by.
#[derive(Clone, Copy, Debug, PartialEq, Eq)]
pub enum Kind {
    Whole,
    Damaged,
    Beyond,
    Dense,
    Scripts,
    Character,
}

impl Kind {
    pub fn word(self) -> &'static str {
        match self {
            Kind::Whole => "whole",
            Kind::Damaged => "damaged",
            Kind::Beyond => "beyond",
            Kind::Dense => "dense",
            Kind::Scripts => "scripts",
            Kind::Character => "character",
        }
    }
}

/// A scene by its seed, the same on every machine: of sixteen, five are whole, four damaged, one has what document 01 leaves out, two are of little
/// but comments, processing instructions and declarations, good and bad, three of little but characters of other scripts and bytes that are none, one
/// has any character, good or bad, somewhere.
pub fn scene(seed: u64) -> (Kind, Vec<u8>) {
    let mut random = Random::new(seed);
    let table = generate::table(&mut random);
    let whole = in_utf8(generate::scene(&mut random, &table));
    let (kind, scene) = match random.below(16) {
        0..=4 => (Kind::Whole, whole),
        5..=8 => (Kind::Damaged, generate::damaged_scene(&mut random, &whole)),
        9 => (Kind::Beyond, beyond(&mut random, &whole)),
        10 => (Kind::Dense, in_utf8(generate::misc_scene(&mut random))),
        11 => (Kind::Dense, generate::soup(&mut random)),
        12 => (Kind::Scripts, generate::script_soup(&mut random)),
        13 => return (Kind::Character, any_character(&mut random)),
        _ => (Kind::Scripts, generate::script_scene(&mut random)),
    };
    (kind, encoded(&mut random, scene))
}

/// Where the name of a declared encoding stands.
fn encoding(scene: &[u8]) -> Option<std::ops::Range<usize>> {
    let quote = |byte: &u8| b"\"'".contains(byte);
    let length = scene.windows(2).position(|two| two == b"?>").filter(|_| scene.starts_with(b"<?xml"))?;
    let at = scene[..length].windows(8).position(|word| word == b"encoding")?;
    let from = at + scene[at..length].iter().position(quote)? + 1;
    let to = from + scene[from..length].iter().position(quote)?;
    Some(from..to)
}

/// Code points at which the productions' rows begin or end.
const BORDERS: [u32; 34] = [
    0x80, 0xB7, 0xC0, 0xD7, 0xF7, 0x300, 0x370, 0x37E, 0x800, 0x2000, 0x200C, 0x200E, 0x203F, 0x2041, 0x2070, 0x2190, 0x2C00, 0x2FF0, 0x3001, 0xD800,
    0xDC00, 0xE000, 0xF900, 0xFDD0, 0xFDF0, 0xFFFE, 0x10000, 0x1FFFE, 0x20000, 0xEFFFE, 0xF0000, 0xFFFFE, 0x100000, 0x10FFFE,
];

/// A character where a name begins, inside one, in text or elsewhere: near the borders of the rows or anywhere; surrogates too.
fn any_character(random: &mut Random) -> Vec<u8> {
    let code = match random.below(4) {
        0 => random.between(0x80, 0x10FFFF) as u32,
        1 => random.between(0x80, 0xFFFF) as u32,
        _ => *random.pick(&BORDERS) - 1 + random.below(3) as u32,
    };
    let places = [
        ("<", "/>"),
        ("<a", "/>"),
        ("<r>", "</r>"),
        ("<r a='", "'/>"),
        ("<r b", "=''/>"),
        ("<r><?p", "?></r>"),
        ("<r><!--", "--></r>"),
    ];
    let (before, behind) = *random.pick(&places);
    [before.as_bytes(), &generate::form_of(code), behind.as_bytes()].concat()
}

/// The same with UTF-8 for the encoding, if one is declared.
fn in_utf8(mut scene: Vec<u8>) -> Vec<u8> {
    if let Some(name) = encoding(&scene) {
        scene.splice(name, *b"UTF-8");
    }
    scene
}

/// A piece behind some tag, or before all, as a byte order mark is.
fn beyond(random: &mut Random, scene: &[u8]) -> Vec<u8> {
    if random.percent(10) {
        return ["\u{FEFF}".as_bytes(), scene].concat();
    }
    let ends: Vec<usize> = (0..scene.len()).filter(|&at| scene[at] == b'>').collect();
    let at = match random.percent(10) || ends.is_empty() {
        true => 0,
        false => *random.pick(&ends) + 1,
    };
    let piece = match random.percent(10) {
        true => TABBED,
        false => *random.pick(&BEYOND),
    };
    [&scene[..at], piece, &scene[at..]].concat()
}

/// A scene that declares another encoding than UTF-8 becomes ASCII; of the others four in five have names of older editions.
fn encoded(random: &mut Random, scene: Vec<u8>) -> Vec<u8> {
    match encoding(&scene) {
        Some(name) if !scene[name.clone()].eq_ignore_ascii_case(b"UTF-8") => {
            scene.into_iter().map(|byte| if byte < 0x80 { byte } else { b'h' }).collect()
        }
        _ if random.percent(80) => older(&scene),
        _ => scene,
    }
}

/// The same with name characters that older editions have; texts are changed likewise.
fn older(scene: &[u8]) -> Vec<u8> {
    let (mut all, mut at) = (Vec::new(), 0);
    while at < scene.len() {
        let found = OLDER.iter().find(|(newer, _)| scene[at..].starts_with(newer.as_bytes()));
        match found {
            Some((newer, older)) => {
                all.extend(older.bytes());
                at += newer.len();
            }
            None => {
                all.push(scene[at]);
                at += 1;
            }
        }
    }
    all
}

#[cfg(test)]
mod tests {
    use super::*;

    const TABLE: [u8; 12] = [0, 1, 1, 2, 0x03, 0xFE, 0, 0, 0x07, 0xFC, 0, 0];

    #[test]
    fn whole_scenes_are_accepted_or_pass_a_limit() {
        for seed in 0..500 {
            let (kind, scene) = scene(seed);
            if kind == Kind::Whole {
                let (answer, _) = reference::run(&TABLE, &scene, 1 << 20);
                assert!([9, 21, 22].contains(&answer.number), "seed {seed}: {answer:?}");
            }
        }
    }

    #[test]
    fn scenes_are_in_the_encoding_that_they_declare() {
        let (mut utf8, mut ascii) = (0, 0);
        for (kind, scene) in (0..2000).map(scene) {
            match encoding(&scene).map(|name| scene[name].eq_ignore_ascii_case(b"UTF-8")) {
                Some(true) => utf8 += 1,
                Some(false) => {
                    assert!(scene.is_ascii() && kind != Kind::Whole);
                    ascii += 1;
                }
                None => {}
            }
        }
        assert!(utf8 > 20 && ascii > 20, "{utf8} {ascii}");
    }

    #[test]
    fn whole_scenes_are_utf8_and_many_are_not_ascii() {
        let whole: Vec<Vec<u8>> = (0..500)
            .map(scene)
            .filter(|(kind, _)| *kind == Kind::Whole)
            .map(|(_, scene)| scene)
            .collect();
        assert!(whole.iter().all(|scene| std::str::from_utf8(scene).is_ok()));
        let ascii = whole.iter().filter(|scene| scene.is_ascii()).count();
        assert!(2 * ascii < whole.len(), "{ascii} of {}", whole.len());
    }

    #[test]
    fn every_kind_is_met() {
        for wanted in [Kind::Whole, Kind::Damaged, Kind::Beyond, Kind::Dense, Kind::Scripts, Kind::Character] {
            assert!((0..100).any(|seed| scene(seed).0 == wanted), "{wanted:?}");
        }
    }
}
