//! Every character, and every short sequence of bytes, where a name begins, inside one, in text, in a value and elsewhere (request N4): a run each, of
//! which every number and every byte of the output is compared. The ignored tests ask every sequence of three bytes; tests/long runs them.

use differential::checked::Runs;
use differential::shapes::k;
use differential::{asked, Pace};
use reference::generate::form_of;

/// An output for the records of any of these scenes.
const ROOM: usize = 1 << 10;

/// What stands before a sequence and behind it.
struct Position {
    before: Vec<u8>,
    behind: &'static [u8],
}

fn position(before: &str, behind: &'static str) -> Position {
    Position {
        before: before.as_bytes().to_vec(),
        behind: behind.as_bytes(),
    }
}

fn name_begins() -> Position {
    position("<", "/>")
}

fn in_name() -> Position {
    position("<a", "/>")
}

fn in_text() -> Position {
    position("<r>", "</r>")
}

fn in_value() -> Position {
    position("<r a='", "'/>")
}

/// The 64th and the 65th byte of a part, and those behind: with so many before the sequence.
fn at_64(before: usize) -> Position {
    position(&format!("<{}", "n".repeat(before)), "/>")
}

/// Wherever else a character may stand, or none but an ASCII one, and at the scene's end.
fn elsewhere() -> Vec<Position> {
    let sixteen: String = (0..16).map(|number| format!(" a{number}=''")).collect();
    vec![
        at_64(63),
        position(&format!("<r{sixteen} "), "=''/>"),
        position("<r ", "=''/>"),
        position("<r></", ">"),
        position("<a:", "/>"),
        position("<r><?", "?></r>"),
        position("<r><?xml", "?></r>"),
        position("<?xml", " version='1.0'?><r/>"),
        position("<r><!--", "--></r>"),
        position("<r><?p ", "?></r>"),
        position("<r>]]", "></r>"),
        position("<r>&", ";</r>"),
        position("<r/>", ""),
        position("<r>a", ""),
        position("<a", ""),
        position("<r a='", ""),
    ]
}

/// Asks one sequence after the other.
struct Sweep {
    pace: Pace,
    runs: Runs,
    scene: Vec<u8>,
}

impl Sweep {
    fn new(name: &'static str) -> Sweep {
        Sweep {
            pace: Pace::new(name, 0),
            runs: Runs::new(&k(), ROOM),
            scene: Vec::new(),
        }
    }

    fn ask(&mut self, position: &Position, sequence: &[u8]) {
        self.scene.clear();
        self.scene.extend(&position.before);
        self.scene.extend(sequence);
        self.scene.extend(position.behind);
        self.pace.met(self.runs.run(&self.scene).number);
    }
}

/// Every number up to the last character's, in the form of UTF-8; surrogates are among them.
fn every_character(name: &'static str, position: Position) {
    let mut sweep = Sweep::new(name);
    for code in 0..=char::MAX as u32 {
        sweep.ask(&position, &form_of(code));
    }
    sweep.pace.finish(&[2, 9]);
}

#[test]
fn every_character_where_a_name_begins() {
    every_character("characters: every one, where a name begins", name_begins());
}

#[test]
fn every_character_inside_a_name() {
    every_character("characters: every one, inside a name", in_name());
}

#[test]
fn every_character_in_text() {
    every_character("characters: every one, in text", in_text());
}

#[test]
fn every_character_in_a_value() {
    every_character("characters: every one, in a value", in_value());
}

#[test]
fn every_two_bytes() {
    let mut sweep = Sweep::new("characters: every two bytes");
    for position in [name_begins(), in_name(), in_text(), in_value()] {
        for pair in 0..=u16::MAX {
            sweep.ask(&position, &pair.to_be_bytes());
        }
    }
    sweep.pace.finish(&[2, 9]);
}

/// The first from 80 on.
#[test]
fn two_bytes_elsewhere() {
    let mut sweep = Sweep::new("characters: two bytes elsewhere");
    for position in elsewhere() {
        for pair in 0x8000..=u16::MAX {
            sweep.ask(&position, &pair.to_be_bytes());
        }
    }
    sweep.pace.finish(&[1, 2, 3, 4, 5, 9]);
}

/// Bytes of every class, and those next to them: below 80 what may end a name, a text or a value.
const LAST: [u8; 22] = [
    0x00, 0x20, 0x22, 0x26, 0x27, 0x2D, 0x3C, 0x3E, 0x3F, 0x41, 0x7F, 0x80, 0x8F, 0x90, 0x9F, 0xA0, 0xBF, 0xC0, 0xC2, 0xE0, 0xF0, 0xFF,
];
/// The same for two bytes in a row.
const LAST_TWO: [u8; 8] = [0x3C, 0x7F, 0x80, 0x8F, 0x90, 0xBF, 0xC0, 0xFF];

/// The first from C0 on, the second any.
fn three_bytes(name: &'static str, position: Position, wanted: &[u8]) {
    let mut sweep = Sweep::new(name);
    for first in 0xC0..=0xFF {
        for second in 0..=255 {
            for last in LAST {
                sweep.ask(&position, &[first, second, last]);
            }
        }
    }
    sweep.pace.finish(wanted);
}

#[test]
fn three_bytes_where_a_name_begins() {
    three_bytes("characters: three bytes, where a name begins", name_begins(), &[2, 9]);
}

#[test]
fn three_bytes_inside_a_name() {
    three_bytes("characters: three bytes, inside a name", in_name(), &[2, 9]);
}

#[test]
fn three_bytes_in_text() {
    three_bytes("characters: three bytes, in text", in_text(), &[2, 9]);
}

/// The third of them is the 65th of the part.
#[test]
fn three_bytes_at_64() {
    three_bytes("characters: three bytes, at 64", at_64(62), &[2, 3]);
}

#[test]
fn four_bytes() {
    let mut sweep = Sweep::new("characters: four bytes");
    for position in [name_begins(), in_name(), in_text(), at_64(61)] {
        for first in 0xEF..=0xF8 {
            for second in 0..=255 {
                for third in LAST_TWO {
                    for last in LAST_TWO {
                        sweep.ask(&position, &[first, second, third, last]);
                    }
                }
            }
        }
    }
    sweep.pace.finish(&[2, 3, 9]);
}

fn every_three_bytes(name: &'static str, position: Position) {
    let mut sweep = Sweep::new(name);
    for first in 0..=255 {
        for pair in 0..=u16::MAX {
            let [second, last] = pair.to_be_bytes();
            sweep.ask(&position, &[first, second, last]);
        }
    }
    sweep.pace.finish(&[2, 9]);
}

#[test]
#[ignore = "for tests/long"]
fn every_three_bytes_where_a_name_begins() {
    every_three_bytes("characters: every three bytes, where a name begins", name_begins());
}

#[test]
#[ignore = "for tests/long"]
fn every_three_bytes_inside_a_name() {
    every_three_bytes("characters: every three bytes, inside a name", in_name());
}

#[test]
#[ignore = "for tests/long"]
fn every_three_bytes_in_text() {
    every_three_bytes("characters: every three bytes, in text", in_text());
}

/// Characters of every length in texts, values and comments that take nearly the whole of the longest scene.
#[test]
fn the_longest_texts() {
    for character in ["\u{E9}", "\u{3042}", "\u{10400}"] {
        for (before, behind) in [("<r>", "</r>"), ("<r a='", "'/>"), ("<r><!--", "--></r>"), ("<r><?p ", "?></r>")] {
            let room = 16_777_215 - before.len() - behind.len();
            let mut scene = [before, &character.repeat(room / character.len())].concat().into_bytes();
            scene.resize(before.len() + room, b'a');
            scene.extend(behind.bytes());
            let answer = asked::run(&k(), &scene, 1 << 10).0;
            assert_eq!((answer.number, answer.place), (9, 16_777_215));
            assert_eq!(asked::run(&k(), &scene, 1 << 10), reference::run(&k(), &scene, 1 << 10));
            let cut = &scene[..before.len() + room / character.len() * character.len() - 1];
            let answer = asked::run(&k(), cut, 1 << 10).0;
            assert_eq!((answer.number, answer.place), (1, cut.len() as u64));
        }
    }
}
