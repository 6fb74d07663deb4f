//! Comments, processing instructions, the declaration and ]]> in text (request N1): scenes of little else, whole and damaged, in short outputs, with
//! every byte changed, and from every place. tests/steps.rs and tests/advances.rs have them in scenes that grow.

use differential::shapes::{every_change, former, t, validating};
use differential::{asked, checked, layout, Case, Pace};
use reference::generate::{boundary, boundary_of_25, misc_scene, soup, table, Random, BOUNDARIES};
use reference::{events, session_after, Session};

const AMPLE: usize = 1 << 16;

fn dense(random: &mut Random) -> Vec<u8> {
    match random.percent(60) {
        true => misc_scene(random),
        false => soup(random),
    }
}

/// In an output that suffices, and in every one that is short by whole records.
fn outputs(pace: &mut Pace, case: &Case) {
    let reading = events(case.scene);
    pace.at(boundary(case.scene, &reading));
    let (answer, records) = checked::ample_run(case);
    pace.met(answer.number);
    for count in 0..records.len() / 16 {
        let short = checked::run(case, 16 * count);
        pace.met(short.number);
        pace.at(boundary_of_25(case.scene, &reading, short.events as usize));
    }
}

#[test]
fn dense_scenes() {
    let mut pace = Pace::new("miscs: dense scenes, cut too, every number of records", 10);
    while let Some(seed) = pace.next_seed() {
        let mut random = Random::new(seed);
        let table = if random.percent(50) { validating(1) } else { table(&mut random) };
        let scene = dense(&mut random);
        outputs(&mut pace, &Case::new("dense scene", seed, &table, &scene));
        let cut = &scene[..random.below(scene.len() + 1)];
        outputs(&mut pace, &Case::new("dense scene, cut", seed, &table, cut));
    }
    pace.finish_at(&[1, 2, 9, 25], &BOUNDARIES);
}

#[test]
fn every_byte_of_dense_scenes() {
    let mut pace = Pace::new("miscs: every byte of dense scenes", 10);
    let table = validating(1);
    let without_25: Vec<&str> = BOUNDARIES.into_iter().filter(|label| !label.starts_with("25 ")).collect();
    while let Some(seed) = pace.next_seed() {
        let mut random = Random::new(seed);
        for changed in every_change(&dense(&mut random)) {
            pace.at(boundary(&changed, &events(&changed)));
            pace.met(checked::ample_run(&Case::new("every byte", seed, &table, &changed)).0.number);
        }
    }
    pace.finish_at(&[1, 2], &without_25);
}

/// Before, inside and behind the root, from every place: inside a misc, between the ] of a ]]>, at a declaration at offset 0 and elsewhere.
#[test]
fn every_place_of_dense_scenes() {
    let mut pace = Pace::new("miscs: every place of dense scenes", 6);
    while let Some(seed) = pace.next_seed() {
        let mut random = Random::new(seed);
        let table = validating(1);
        let tail: &[u8] = if random.percent(50) { b"<q>" } else { b"" };
        let scene = [&dense(&mut random)[..], b"<r>", &dense(&mut random), tail].concat();
        let case = Case::new("every place", seed, &table, &scene);
        let sessions = [Session::fresh(), closed(), inside(&table, &scene)];
        for place in 0..=scene.len() as u64 {
            for session in &sessions {
                let session = Session { place, ..session.clone() };
                let mut bytes = layout::encode(&session).expect("a session that has bytes");
                pace.met(checked::step(&case, &mut bytes, AMPLE).0.number);
            }
        }
    }
    pace.finish(&[0, 1, 2]);
}

fn closed() -> Session {
    Session {
        closed: true,
        ..Session::fresh()
    }
}

/// Inside an element whose name is that of the scene's first `<r>`.
fn inside(table: &[u8], scene: &[u8]) -> Session {
    let at = scene.windows(3).position(|three| three == b"<r>").expect("it stands there");
    let mut session = session_after(table, b"<r>", 1);
    session.levels[0].name.at = at as u64 + 1;
    session
}

/// A comment, an instruction, a text of ] and a version that take nearly the whole of the longest scene.
#[test]
fn the_longest_misc() {
    let longest = |before: &str, byte: &str, behind: &str| {
        let count = 16_777_215 - before.len() - behind.len();
        [before, &byte.repeat(count), behind].concat().into_bytes()
    };
    for (scene, events) in [
        (longest("<!--", "a", "--><r/>"), 2),
        (longest("<r><?p ", "?", "?></r>"), 2),
        (longest("<r>", "]", "</r>"), 3),
        (longest("<?xml version='1.", "0", "'?><r/>"), 2),
        (longest("<r/><!---->", " ", "<?p?>"), 2),
    ] {
        for (table, out_len) in [(former(&t()), 0), (t(), 80)] {
            let answer = asked::run(&table, &scene, out_len).0;
            assert_eq!((answer.number, answer.place, answer.events), (9, 16_777_215, events));
            assert_eq!(asked::run(&table, &scene[1..], out_len), reference::run(&table, &scene[1..], out_len));
        }
    }
}
