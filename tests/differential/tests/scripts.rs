//! Scenes of little but characters of other scripts and bytes that are none (request N4): in short outputs, with every byte changed, from every place,
//! their forecasts, parts of about 64 bytes. tests/steps.rs and tests/advances.rs have them in scenes that grow, tests/sessions.rs spans that cut
//! characters, tests/characters.rs every character.

use differential::shapes::{every_change, k, scripted};
use differential::{checked, layout, Case, Pace};
use reference::generate::{broken, form_of, script_scene, table, Random};
use reference::{session_after, Session};

const AMPLE: usize = 1 << 16;

/// In an output that suffices, in every one that is short by whole records, and the forecast.
#[test]
fn scenes_in_other_scripts() {
    let mut pace = Pace::new("scripts: scenes, cut too, every number of records, forecasts", 8);
    while let Some(seed) = pace.next_seed() {
        let mut random = Random::new(seed);
        let table = if random.percent(50) { k() } else { table(&mut random) };
        let scene = scripted(&mut random);
        let cut = &scene[..random.below(scene.len() + 1)];
        for scene in [&scene, cut] {
            let case = Case::new("script", seed, &table, scene);
            let (answer, records) = checked::ample_run(&case);
            pace.met(answer.number);
            for count in 0..records.len() / 16 {
                pace.met(checked::run(&case, 16 * count).number);
            }
            pace.met(checked::forecast(&case).number);
        }
    }
    pace.finish(&[1, 2, 3, 4, 5, 9, 25]);
}

#[test]
fn every_byte_of_scenes_in_other_scripts() {
    let mut pace = Pace::new("scripts: every byte", 8);
    let table = k();
    while let Some(seed) = pace.next_seed() {
        let mut whole = scripted(&mut Random::new(seed));
        whole.truncate(400);
        for changed in every_change(&whole) {
            pace.met(checked::ample_run(&Case::new("every byte", seed, &table, &changed)).0.number);
        }
    }
    pace.finish(&[1, 2, 3, 9]);
}

/// Before, inside and behind the root, from every place: most are inside a character.
#[test]
fn every_place_of_scenes_in_other_scripts() {
    let mut pace = Pace::new("scripts: every place", 4);
    let table = k();
    while let Some(seed) = pace.next_seed() {
        let mut random = Random::new(seed);
        let scene = [&b"<r>"[..], &scripted(&mut random)].concat();
        let case = Case::new("every place", seed, &table, &scene);
        let closed = Session {
            closed: true,
            ..Session::fresh()
        };
        let sessions = [Session::fresh(), closed, session_after(&table, b"<r>", 1)];
        for place in 0..=scene.len() as u64 {
            for session in &sessions {
                let session = Session { place, ..session.clone() };
                let mut bytes = layout::encode(&session).expect("a session that has bytes");
                pace.met(checked::step(&case, &mut bytes, AMPLE).0.number);
            }
        }
    }
    pace.finish(&[0, 1, 2]);
}

/// Parts of 56 to 70 bytes of characters of one length, with what is no character at the end or not, wherever a part may stand.
#[test]
fn parts_of_about_64_bytes() {
    let mut pace = Pace::new("scripts: parts of about 64 bytes", 0);
    let table = k();
    let mut random = Random::new(1);
    for code in [0x6E, 0xE9, 0x3042, 0x10400] {
        let character = form_of(code);
        for length in 56..=70 {
            for lead in 0..character.len() {
                let mut part = b"n".repeat(lead);
                while part.len() + character.len() <= length {
                    part.extend(&character);
                }
                for end in ends(&mut random) {
                    ask_part(&mut pace, &table, &[&part[..], &end].concat());
                }
            }
        }
    }
    pace.finish(&[1, 2, 3, 4, 5, 9]);
}

/// Nothing, characters that may go on in a part and that may not, the first bytes of some, and what is none.
fn ends(random: &mut Random) -> Vec<Vec<u8>> {
    let codes = [0x2D, 0xB7, 0xE9, 0xD7, 0x301, 0x3042, 0x3000, 0xE000, 0x10400, 0xF0000];
    let mut list: Vec<Vec<u8>> = vec![Vec::new()];
    for code in codes {
        let bytes = form_of(code);
        list.extend((1..=bytes.len()).map(|length| bytes[..length].to_vec()));
    }
    list.extend((0..4).map(|_| broken(random).to_vec()));
    list
}

fn ask_part(pace: &mut Pace, table: &[u8], part: &[u8]) {
    for (before, behind) in [
        ("<", "/>"),
        ("<", ""),
        ("<", ":a/>"),
        ("<a:", "/>"),
        ("<r ", "=''/>"),
        ("<r xmlns:", "='u'/>"),
        ("<r></", ">"),
        ("<r><?", "?></r>"),
    ] {
        let scene = [before.as_bytes(), part, behind.as_bytes()].concat();
        pace.met(checked::ample_run(&Case::new("part", 0, table, &scene)).0.number);
    }
}

/// A session goes on over a scene whose bytes have changed: names and prefixes are judged anew.
#[test]
fn scenes_whose_bytes_change() {
    let mut pace = Pace::new("scripts: scenes whose bytes change", 4);
    let table = k();
    while let Some(seed) = pace.next_seed() {
        let mut random = Random::new(seed);
        let scene = script_scene(&mut random);
        let accepted = reference::accepted_events(&table, &scene);
        let session = session_after(&table, &scene, random.below(accepted + 1));
        let bytes = layout::encode(&session).expect("a session that has bytes");
        for _ in 0..16 {
            let mut changed = scene.clone();
            let at = random.below(changed.len());
            match random.percent(50) {
                true => changed[at] = *random.pick(b"\x00an:<&' \x80\xA9\xBF\xC3\xE3\xF0\xFF"),
                false => changed[at] ^= 1 << random.below(8),
            }
            let case = Case::new("changed bytes", seed, &table, &changed);
            pace.met(checked::step(&case, &mut bytes.clone(), AMPLE).0.number);
        }
    }
    pace.finish(&[0, 1, 2, 9, 20]);
}
