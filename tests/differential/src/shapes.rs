//! Document 01's tables, and scenes of the shapes at the limits.

use reference::generate::{self, damaged_scene, damaged_table, many_units, misc_scene, soup};
use reference::generate::{pack, rule, scene, scene_of, script_scene, script_soup, Plan, Profile, Random};
use reference::table::{Rule, ANY, ELEMENT_SECTION};
use reference::{plus, Action};

pub const SAMPLE: &[u8] = b"<r xmlns=\"u\">a<x/></r>";

/// The length of the longest scene.
pub const LONGEST: usize = 16_777_215;

/// Document 01's T.
pub fn t() -> Vec<u8> {
    vec![0x01, 0x02, 0x01, 0x01, 0x00, 0x06, 0x00, 0x08, 0x01, 0x75]
}

/// Document 01's T2, its words written out: validate 0 for u; validate 1 and attach for v; unwrap for any.
pub fn t2() -> Vec<u8> {
    let mut table = vec![2, 2, 2, 4];
    table.extend([0x00, 0x06, 0x00, 0x08]);
    table.extend([0x08, 0x0A, 0x01, 0x08]);
    table.extend([0x08, 0x08, 0x00, 0x08]);
    table.extend([0x0B, 0xFD, 0x00, 0x08]);
    table.extend([1, b'u', 1, b'v']);
    table
}

/// The page N1's K: all is kept in unit 0.
pub fn k() -> Vec<u8> {
    let mut table = vec![0, 2, 1, 3];
    table.extend([0x03, 0xFE, 0x00, 0x08]);
    table.extend([0x0B, 0xFC, 0x00, 0x08]);
    table.extend([0x0F, 0xFC, 0x00, 0x08]);
    table
}

/// The table that keeps a table's former results: t+ of page N3. Answers of the time before request N3 are asked of it.
pub fn former(table: &[u8]) -> Vec<u8> {
    plus(table).expect("an accepted table with room for the rules")
}

pub fn table(uris: &[&str], modes: u8, schemas: u8, rules: Vec<Rule>) -> Vec<u8> {
    pack(&Plan {
        namespaces: uris.iter().map(|uri| uri.as_bytes().to_vec()).collect(),
        modes,
        schemas,
        rules,
    })
}

/// So many validate rules for any element.
pub fn validating(rules: u8) -> Vec<u8> {
    let rules = (0..rules).map(|schema| rule(0, ELEMENT_SECTION, ANY, Action::Validate, schema, 0));
    table(&[], 1, 64, rules.collect())
}

/// v and q alternating under a u root, with so many v.
pub fn alternating(vs: usize) -> String {
    let inside = "<x xmlns='v'><w xmlns='q'>".repeat(vs) + &"</w></x>".repeat(vs);
    format!("<r xmlns='u'>{inside}</r>")
}

/// So many levels with so many declarations each, all open.
pub fn bound(levels: usize, each: usize) -> String {
    let names = |level: usize| (0..each).map(move |n| format!(" xmlns:p{level}x{n}='n'")).collect::<String>();
    (0..levels).map(|level| format!("<r{}>", names(level))).collect()
}

const PLAIN: Profile = Profile {
    elements: 40,
    depth: 8,
    deeper: 70,
    children: 5,
    attributes: 3,
    prefixed: 60,
    declarations: 1,
    same: 45,
    declared_anew: 25,
    long: 1,
    text: 40,
    misc: 12,
    scripts: 15,
};

/// The shapes, one after the other by number: deep, wide, many bindings, many strands, many attributes and sections, long names, large.
pub fn shaped(random: &mut Random, table: &[u8], number: u64) -> Vec<u8> {
    let profile = match number % 8 {
        0 => Profile {
            elements: 140,
            depth: random.between(62, 70),
            deeper: 100,
            children: random.between(1, 2),
            attributes: 1,
            declarations: 0,
            same: 90,
            declared_anew: 3,
            ..PLAIN
        },
        1 => Profile {
            elements: random.between(100, 400),
            depth: 3,
            deeper: 95,
            children: 200,
            ..PLAIN
        },
        2 => Profile {
            depth: random.between(4, 20),
            deeper: 100,
            children: 2,
            declarations: random.between(4, 24),
            ..PLAIN
        },
        3 => Profile {
            elements: 80,
            depth: 16,
            deeper: 98,
            children: 2,
            same: 5,
            ..PLAIN
        },
        4 => Profile {
            attributes: 16,
            prefixed: 90,
            declarations: 2,
            ..PLAIN
        },
        5 => Profile {
            attributes: 16,
            prefixed: 100,
            declarations: 0,
            declared_anew: 2,
            elements: 60,
            ..PLAIN
        },
        6 => Profile { long: 60, ..PLAIN },
        _ => Profile {
            elements: random.between(200, 700),
            depth: random.between(5, 30),
            children: 12,
            deeper: 90,
            ..PLAIN
        },
    };
    scene_of(random, table, &profile)
}

/// A scene of a few elements.
pub fn small(random: &mut Random, table: &[u8]) -> Vec<u8> {
    let profile = Profile {
        elements: random.between(1, 5),
        depth: 3,
        attributes: 2,
        ..PLAIN
    };
    scene_of(random, table, &profile)
}

/// A scene of little but characters of other scripts and bytes that are none (request N4).
pub fn scripted(random: &mut Random) -> Vec<u8> {
    match random.percent(60) {
        true => script_scene(random),
        false => script_soup(random),
    }
}

/// A byte of every class that the reader tells apart.
const BYTES: &[u8] = b"\x00\x09\x0B\x1F\x7F\x80\x90\xA0\xB7\xBF\xC0\xC2\xC3\xCC\xE0\xE3\xED\xEE\xEF\xF0\xF3\xF4\xFF \nax:<>/=\"'&;-0_!?]";

/// Every byte replaced by every class, before every byte one of every class put in, every byte taken out, every length.
pub fn every_change(whole: &[u8]) -> Vec<Vec<u8>> {
    let mut list = Vec::new();
    for at in 0..=whole.len() {
        list.push(whole[..at].to_vec());
        for &byte in BYTES {
            list.push([&whole[..at], &[byte], &whole[at..]].concat());
            if at < whole.len() {
                list.push([&whole[..at], &[byte], &whole[at + 1..]].concat());
            }
        }
        if at < whole.len() {
            list.push([&whole[..at], &whole[at + 1..]].concat());
        }
    }
    list
}

/// A scene of any of these kinds, one in seven damaged.
pub fn any_scene(random: &mut Random, table: &[u8], seed: u64) -> Vec<u8> {
    match random.below(7) {
        0 => small(random, table),
        1 | 2 => shaped(random, table, seed % 7),
        3 => {
            let whole = scene(random, table);
            damaged_scene(random, &whole)
        }
        4 => script_scene(random),
        _ => scene(random, table),
    }
}

/// A table and a scene that may meet any number; half of them are damaged. By number 7 the scene is too long, by 24 it has about 65,536 units.
pub fn any_case(random: &mut Random, number: u64) -> (Vec<u8>, Vec<u8>) {
    let table = generate::table(random);
    match number {
        7 => return (table, vec![b' '; LONGEST + random.between(1, 9)]),
        24 => return many_units(&(0..60).map(|_| random.below(20).min(16)).collect::<Vec<usize>>()),
        _ => {}
    }
    let whole = scene(random, &table);
    match random.below(13) {
        0 => (damaged_table(random, &table), whole),
        1..=5 => (table, damaged_scene(random, &whole)),
        6 => (table, misc_scene(random)),
        7 => (table, soup(random)),
        8 => (table, scripted(random)),
        _ => (table, whole),
    }
}
