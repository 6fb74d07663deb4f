//! Comments, processing instructions and declarations: whole ones, damaged ones, and scenes
//! that consist of little else.

use super::random::Random;
use super::scripts;

const TARGETS: [&[u8]; 14] = [
    b"p",
    b"q1",
    b"xm",
    b"xmlx",
    b"xml-a",
    b"XMLa",
    b"_x",
    b"x.y-z",
    b"xmlns",
    b"Xm",
    b"l",
    b"ml",
    b"xml\xC3\xA9",
    b"xmL\xC2\xB7",
];
/// What stands in comments and instructions; what would end the one or the other is taken out.
const CONTENT: [&[u8]; 22] = [
    b"a",
    b"b ",
    b" ",
    b"\t\n\r",
    b"-",
    b"- -",
    b"--",
    b"-->",
    b"?",
    b"?>",
    b">",
    b"<",
    b"&",
    b"]]>",
    b"<x/>",
    b"&lt;",
    b"<!--",
    b"<?p?>",
    b"\x7F\xC2\x80",
    b"\xE3\x81\x82",
    b"\xF4\x8F\xBF\xBF",
    b"</r>",
];
const VERSIONS: [&[u8]; 4] = [b"0", b"1", b"15", b"00000000000000000000000000000000"];
const ENCODINGS: [&[u8]; 6] = [b"UTF-8", b"utf-8", b"x-1._", b"a", b"Z9", b"ISO-8859-1"];

/// Refused somewhere, cut short, or good only at some places.
const BAD: [&[u8]; 52] = [
    b"<!",
    b"<!-",
    b"<!--",
    b"<!--a-",
    b"<!--a--",
    b"<!x",
    b"<!-x-->",
    b"<!DOCTYPE r>",
    b"<![CDATA[a]]>",
    b"<!----->",
    b"<!--a--->",
    b"<!--a--b-->",
    b"<!--\x0B-->",
    b"<!--a-\x00-->",
    b"<?",
    b"<? p?>",
    b"<??>",
    b"<?1?>",
    b"<?p",
    b"<?p?",
    b"<?p ",
    b"<?p ?",
    b"<?p??>",
    b"<?p?x?>",
    b"<?p!?>",
    b"<?a:b?>",
    b"<?p \x01?>",
    b"<?xml",
    b"<?xml?>",
    b"<?xml version='1.0'?>",
    b"<?XML a?>",
    b"<?xMl?>",
    b"<?Xml:a?>",
    b"<?xml!",
    b"]]>",
    b"]]]>",
    b"a]]>b",
    b"]]",
    b"]]<!---->>",
    b"<",
    b"<!--\xC3-->",
    b"<!--a-\xE3\x81->",
    b"<!--\xED\xA0\x80-->",
    b"<?\xC2\xB7?>",
    b"<?\xE9\xAA\xA8",
    b"<?p\xC3\x97?>",
    b"<?p \xC3?>",
    b"<?xml\xC3\x97?>",
    b"<?xml\xC3\xA9?>",
    b"<?xml\xC3",
    b"<?XmL\x97",
    b"]]\xC3>",
];

/// A comment or an instruction.
pub fn misc(random: &mut Random) -> Vec<u8> {
    match random.percent(50) {
        true => comment(random),
        false => instruction(random),
    }
}

fn content(random: &mut Random) -> Vec<u8> {
    let count = random.between(0, 4);
    let pieces: Vec<&[u8]> = (0..count).map(|_| *random.pick(&CONTENT)).collect();
    pieces.concat()
}

/// Without these two neighbours.
fn without(mut bytes: Vec<u8>, pair: &[u8]) -> Vec<u8> {
    while let Some(at) = bytes.windows(2).position(|two| two == pair) {
        bytes.remove(at);
    }
    bytes
}

fn comment(random: &mut Random) -> Vec<u8> {
    let mut content = without(content(random), b"--");
    if content.last() == Some(&b'-') {
        content.pop();
    }
    [b"<!--", &content[..], b"-->"].concat()
}

fn target(random: &mut Random) -> Vec<u8> {
    match random.below(12) {
        0 => b"t".repeat(random.between(62, 64)),
        1 => scripts::part(random),
        _ => random.pick(&TARGETS).to_vec(),
    }
}

fn instruction(random: &mut Random) -> Vec<u8> {
    let target = target(random);
    let content = match random.percent(60) {
        true => [&space(random)[..], &without(content(random), b"?>")].concat(),
        false => Vec::new(),
    };
    [b"<?", &target[..], &content, b"?>"].concat()
}

fn space(random: &mut Random) -> Vec<u8> {
    let count = random.between(1, 2);
    (0..count).map(|_| *random.pick(b" \t\n\r")).collect()
}

fn maybe_space(random: &mut Random) -> Vec<u8> {
    match random.percent(20) {
        true => space(random),
        false => Vec::new(),
    }
}

/// A declaration, for the scene's first byte.
pub fn declaration(random: &mut Random) -> Vec<u8> {
    pieces_of_declaration(random).concat()
}

fn pieces_of_declaration(random: &mut Random) -> Vec<Vec<u8>> {
    let mut pieces = vec![b"<?xml".to_vec()];
    let version = random.pick(&VERSIONS).to_vec();
    pieces.extend(item(random, b"version", &[b"1.", &version]));
    if random.percent(50) {
        let encoding = *random.pick(&ENCODINGS);
        pieces.extend(item(random, b"encoding", &[encoding]));
    }
    if random.percent(50) {
        let standalone = *random.pick(&[&b"yes"[..], b"no"]);
        pieces.extend(item(random, b"standalone", &[standalone]));
    }
    pieces.push(maybe_space(random));
    pieces.push(b"?>".to_vec());
    pieces
}

fn item(random: &mut Random, name: &[u8], value: &[&[u8]]) -> Vec<Vec<u8>> {
    let quote = vec![*random.pick(b"\"'")];
    let mut pieces = vec![space(random), name.to_vec(), maybe_space(random)];
    pieces.extend([b"=".to_vec(), maybe_space(random), quote.clone()]);
    pieces.extend(value.iter().map(|piece| piece.to_vec()));
    pieces.push(quote);
    pieces
}

/// A declaration with a piece taken out, put in twice or elsewhere, or with a byte changed.
pub fn damaged_declaration(random: &mut Random) -> Vec<u8> {
    let mut pieces = pieces_of_declaration(random);
    let (at, other) = (random.below(pieces.len()), random.below(pieces.len()));
    match random.below(5) {
        0 => drop(pieces.remove(at)),
        1 => pieces.insert(at, pieces[at].clone()),
        2 => pieces.swap(at, other),
        3 => pieces.insert(at, vec![*random.pick(b"\x00 'a\"=?>1.")]),
        _ => pieces.truncate(at + 1),
    }
    let mut bytes = pieces.concat();
    if random.percent(30) && !bytes.is_empty() {
        let at = random.below(bytes.len());
        bytes[at] = *random.pick(b"\x00 'a\"=?>1._-X<");
    }
    bytes
}

/// What may be refused where it stands.
pub fn bad_misc(random: &mut Random) -> Vec<u8> {
    match random.below(13) {
        0 => [b"<?", &b"t".repeat(random.between(63, 66))[..], b"?>"].concat(),
        1 => [b"<?", &b"t".repeat(64)[..], b":?>"].concat(),
        2 => declaration(random),
        3 => damaged_declaration(random),
        4 => {
            let length = random.between(63, 66);
            let target = scripts::part_of_length(random, length);
            [b"<?", &target[..], b"?>"].concat()
        }
        _ => random.pick(&BAD).to_vec(),
    }
}

/// What stands before, between and behind.
const BEFORE: [&[u8]; 12] = [
    b"", b"", b" ", b"<r>", b"<r>a", b"<r>]]", b"<r>&lt;", b"<r><x/>", b"<r/>", b"<r/> ",
    b"<r></r>", b"<r><x>",
];
const BEHIND: [&[u8]; 9] = [
    b"<r/>",
    b"</r>",
    b"b</r>",
    b">",
    b" ",
    b"",
    b"]]></r>",
    b"</x></r>",
    b"<x/></r>",
];
const SOUP: [&[u8]; 37] = [
    b"<!--",
    b"-->",
    b"--",
    b"-",
    b"<!",
    b"<?",
    b"?>",
    b"?",
    b"<",
    b">",
    b"xml",
    b"XML",
    b"xmL",
    b"p",
    b" ",
    b":",
    b"!",
    b"]",
    b"]]",
    b"]]>",
    b"<r>",
    b"</r>",
    b"<r/>",
    b"a",
    b"&gt;",
    b"\x00",
    b"<?xml",
    b" version",
    b"='1.0'",
    b"=\"1.",
    b" encoding",
    b"='a'",
    b" standalone='no'",
    b"'",
    b"\xC3\xA9",
    b"\xC3",
    b"\x97",
];

/// A few bytes with misc among them, good or bad, wherever something may stand.
pub fn misc_scene(random: &mut Random) -> Vec<u8> {
    let mut scene = match random.below(8) {
        0 => damaged_declaration(random),
        1 | 2 => declaration(random),
        _ => Vec::new(),
    };
    scene.extend(*random.pick(&BEFORE));
    for _ in 0..random.between(1, 3) {
        match random.below(4) {
            0 => scene.extend(bad_misc(random)),
            1 => scene.extend([&misc(random)[..], *random.pick(&BEHIND)].concat()),
            _ => scene.extend(misc(random)),
        }
    }
    scene.extend(*random.pick(&BEHIND));
    scene
}

/// Pieces in any order.
pub fn soup(random: &mut Random) -> Vec<u8> {
    let mut scene = random.pick(&BEFORE).to_vec();
    for _ in 0..random.between(1, 9) {
        scene.extend(*random.pick(&SOUP));
    }
    scene
}
