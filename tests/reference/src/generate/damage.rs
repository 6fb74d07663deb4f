//! Damage to tables and scenes.

use super::miscs::{bad_misc, damaged_declaration};
use super::random::Random;
use super::scripts::{broken, in_name};
use crate::lexical::is_space;
use crate::table::{self, XML_URI};

/// Bytes of every class that the reader tells apart, and some that begin or go on in characters.
const BYTES: &[u8] = b"\x00\x08\x0B\x1F\x7F\x80\xFF \t\n\rabxZ_09-.:<>/=\"'&;!?]\
    \x90\xA0\xB7\xBF\xC2\xC3\xCC\xE0\xE3\xED\xEF\xF0\xF3\xF4";

/// What is put into a start tag, behind its name.
const INSERTED: [&[u8]; 22] = [
    b" a='1' a='2'",
    b" xml:a='' xml:a=\"\"",
    b" xmlns:k='K' xmlns:l='K' k:a='' l:a=''",
    b" xmlns='u' xmlns='v'",
    b" xmlns:p=''",
    b" xmlns=''",
    b" xmlns:xml='http://www.w3.org/XML/1998/namespace'",
    b" xmlns:xmlns='u'",
    b" xmlns='http://www.w3.org/2000/xmlns/'",
    b" xmlns:k='http://www.w3.org/XML/1998/namespace'",
    b" xmlns:k='a&amp;b'",
    b" nowhere:a=''",
    b" a&='",
    b" a='&bad;'",
    b" a='<'",
    b" a=''b=''",
    b" a",
    b" a=",
    b" :a=''",
    b" a:=''",
    b" a:b:c=''",
    b" p:xmlns='v'",
];

/// A scene with one or two damages; now and then it is still a good one.
pub fn damaged_scene(random: &mut Random, scene: &[u8]) -> Vec<u8> {
    let mut damaged = scene.to_vec();
    for _ in 0..random.between(1, 2) {
        match random.below(18) {
            0..=2 => replace(random, &mut damaged),
            3..=4 => insert(random, &mut damaged),
            5..=6 => remove(random, &mut damaged),
            7 => truncate(random, &mut damaged),
            8..=9 => into_tag(random, &mut damaged),
            10 => append(random, &mut damaged),
            11 | 12 => into_misc(random, &mut damaged),
            13 => spoil_text(random, &mut damaged),
            14 => begin(random, &mut damaged),
            15 => into_character(random, &mut damaged),
            16 => insert_broken(random, &mut damaged),
            _ => move_piece(random, &mut damaged),
        }
    }
    damaged
}

/// The classes of bytes that damage is spread over.
fn class(byte: u8) -> usize {
    match byte {
        byte if is_space(byte) => 0,
        byte if byte.is_ascii_alphabetic() || byte == b'_' => 1,
        byte if byte.is_ascii_digit() || b"-.".contains(&byte) => 2,
        b'<' => 3,
        b'>' => 4,
        b'/' => 5,
        b'=' => 6,
        b'"' | b'\'' => 7,
        b'&' | b';' => 8,
        b':' => 9,
        0x80.. => 10,
        _ => 11,
    }
}

/// A place at a byte of a class chosen first, so that rare classes are met as well.
fn place(random: &mut Random, scene: &[u8]) -> usize {
    let wanted = random.below(12);
    let of_class: Vec<usize> = (0..scene.len())
        .filter(|&at| class(scene[at]) == wanted)
        .collect();
    match of_class.is_empty() {
        false => *random.pick(&of_class),
        true => random.below(scene.len() + 1),
    }
}

fn replace(random: &mut Random, scene: &mut [u8]) {
    let at = place(random, scene);
    if let Some(byte) = scene.get_mut(at) {
        *byte = *random.pick(BYTES);
    }
}

fn insert(random: &mut Random, scene: &mut Vec<u8>) {
    let at = place(random, scene);
    scene.insert(at, *random.pick(BYTES));
}

fn remove(random: &mut Random, scene: &mut Vec<u8>) {
    let at = place(random, scene);
    if at < scene.len() {
        scene.remove(at);
    }
}

fn truncate(random: &mut Random, scene: &mut Vec<u8>) {
    let at = place(random, scene);
    scene.truncate(at + random.below(2));
}

fn append(random: &mut Random, scene: &mut Vec<u8>) {
    let ends: [&[u8]; 8] = [
        b" ", b"\n\t\r ", b"<s/>", b"<", b"x", b"</r>", b"\x00", b" &lt;",
    ];
    match random.percent(50) {
        true => scene.extend(*random.pick(&ends)),
        false => scene.extend(bad_misc(random)),
    }
}

/// A byte of a misc changed, put in or taken out, or the scene cut there; without a misc one
/// more that may be refused.
fn into_misc(random: &mut Random, scene: &mut Vec<u8>) {
    let starts: Vec<usize> = (1..scene.len())
        .filter(|&at| scene[at - 1] == b'<' && matches!(scene[at], b'!' | b'?'))
        .collect();
    if starts.is_empty() || random.percent(30) {
        return spoil_text(random, scene);
    }
    let from = *random.pick(&starts);
    let length = scene[from..]
        .iter()
        .take_while(|&&byte| byte != b'>')
        .count();
    let at = (from + random.below(length + 2)).min(scene.len() - 1);
    match random.below(4) {
        0 => scene[at] = *random.pick(BYTES),
        1 => scene.insert(at, *random.pick(BYTES)),
        2 => drop(scene.remove(at)),
        _ => scene.truncate(at),
    }
}

/// What may be refused put before a < or behind a >, where a misc may stand.
fn spoil_text(random: &mut Random, scene: &mut Vec<u8>) {
    let places: Vec<usize> = (0..=scene.len())
        .filter(|&at| scene.get(at) == Some(&b'<') || at > 0 && scene[at - 1] == b'>')
        .collect();
    if !places.is_empty() {
        let at = *random.pick(&places);
        scene.splice(at..at, bad_misc(random));
    }
}

/// A damaged declaration before all.
fn begin(random: &mut Random, scene: &mut Vec<u8>) {
    scene.splice(0..0, damaged_declaration(random));
}

/// Of a character of some bytes one taken out, changed or put in, or the scene cut there.
fn into_character(random: &mut Random, scene: &mut Vec<u8>) {
    let places: Vec<usize> = (0..scene.len()).filter(|&at| scene[at] >= 0x80).collect();
    if places.is_empty() {
        return insert_broken(random, scene);
    }
    let at = *random.pick(&places);
    match random.below(5) {
        0 => drop(scene.remove(at)),
        1 => scene[at] ^= 1 << random.below(8),
        2 => scene[at] = *random.pick(BYTES),
        3 => scene.insert(at, *random.pick(BYTES)),
        _ => scene.truncate(at + 1),
    }
}

/// What is no character, anywhere.
fn insert_broken(random: &mut Random, scene: &mut Vec<u8>) {
    let at = place(random, scene);
    scene.splice(at..at, broken(random).iter().copied());
}

fn move_piece(random: &mut Random, scene: &mut Vec<u8>) {
    let from = place(random, scene).min(scene.len());
    let to = (from + random.below(12)).min(scene.len());
    let piece: Vec<u8> = scene[from..to].to_vec();
    let at = random.below(scene.len() + 1);
    scene.splice(at..at, piece);
}

/// Behind a start tag's name: bad attributes, too many of them, a name of 65 bytes.
fn into_tag(random: &mut Random, scene: &mut Vec<u8>) {
    let Some(at) = behind_name(random, scene) else {
        return;
    };
    let piece = match random.below(30) {
        0 | 1 => many_attributes(random.between(14, 17)),
        2 => b"n".repeat(random.between(62, 65)),
        3 => [b" ", &b"n".repeat(random.between(64, 65))[..], b"=''"].concat(),
        4 => [b":", &b"n".repeat(random.between(64, 65))[..]].concat(),
        _ => random.pick(&INSERTED).to_vec(),
    };
    scene.splice(at..at, piece);
}

fn many_attributes(count: usize) -> Vec<u8> {
    (0..count)
        .flat_map(|number| format!(" m{number}=''").into_bytes())
        .collect()
}

fn behind_name(random: &mut Random, scene: &[u8]) -> Option<usize> {
    let names: Vec<usize> = (1..scene.len())
        .filter(|&at| scene[at - 1] == b'<' && in_name(scene[at]))
        .collect();
    if names.is_empty() {
        return None;
    }
    let from = *random.pick(&names);
    let in_whole = |byte: &&u8| in_name(**byte) || **byte == b':';
    Some(from + scene[from..].iter().take_while(in_whole).count())
}

/// A table with one damage; now and then it is still a good one.
pub fn damaged_table(random: &mut Random, table: &[u8]) -> Vec<u8> {
    let mut damaged = table.to_vec();
    match random.below(10) {
        0 => damaged.truncate(random.below(table.len() + 1)),
        1 => damaged.push(random.below(256) as u8),
        2 => header(random, &mut damaged),
        3..=5 => rule_bits(random, &mut damaged),
        6 => repeat_rule(random, &mut damaged),
        7 => repeat_uri(random, &mut damaged),
        8 => empty_uri(&mut damaged),
        _ => any_byte(random, &mut damaged),
    }
    damaged
}

fn any_byte(random: &mut Random, table: &mut [u8]) {
    if !table.is_empty() {
        table[random.below(table.len())] ^= 1 << random.below(8);
    }
}

fn header(random: &mut Random, table: &mut [u8]) {
    let field = random.below(4);
    if let Some(byte) = table.get_mut(field) {
        *byte = *random.pick(&[0, 1, 30, 31, 32, 33, 64, 65, 128, 129, 255]);
    }
}

fn rules(table: &[u8]) -> usize {
    match table.get(3) {
        Some(&count) if table.len() >= 4 + 4 * count as usize => count as usize,
        _ => 0,
    }
}

fn rule_bits(random: &mut Random, table: &mut [u8]) {
    let rules = rules(table);
    if rules > 0 {
        let at = 4 + random.below(4 * rules);
        table[at] ^= 1 << random.below(8);
    }
}

/// One rule written over another, perhaps with another of the actions attach and unwrap.
fn repeat_rule(random: &mut Random, table: &mut [u8]) {
    let rules = rules(table);
    if rules > 1 {
        let from = 4 + 4 * random.below(rules);
        let to = 4 + 4 * random.below(rules);
        table.copy_within(from..from + 4, to);
        table[to + 1] ^= random.below(2) as u8;
    }
}

/// A URI added that is there already, or that of xml.
fn repeat_uri(random: &mut Random, table: &mut Vec<u8>) {
    let uris: Vec<Vec<u8>> = match table::read(table) {
        Ok(read) => (1..=read.namespaces())
            .filter_map(|class| read.listed_uri(class))
            .map(<[u8]>::to_vec)
            .collect(),
        Err(_) => return,
    };
    let added = match uris.is_empty() || random.percent(30) {
        true => XML_URI.to_vec(),
        false => random.pick(&uris).clone(),
    };
    table[0] += 1;
    table.push(added.len() as u8);
    table.extend(added);
}

fn empty_uri(table: &mut Vec<u8>) {
    if !table.is_empty() {
        table[0] = table[0].saturating_add(1);
        table.push(0);
    }
}
