//! Lists of advances over a scene that grows. Each is held against as many calls of step, which are held against the reference: number, place, counts,
//! every byte of output and session. The whole list is held against run.

use differential::calls::{self, Lent};
use differential::shapes::{k, scripted, shaped, small, t, t2, SAMPLE};
use differential::{asked, checked, Case, Pace};
use reference::generate::{damaged_scene, many_units, misc_scene, numbered_case, scene, soup, table, Random};
use reference::Answer;

const AMPLE: usize = 1 << 16;
const NO_BOUND: u64 = u64::MAX;

/// None, one, some, or more than there are.
fn some_bound(random: &mut Random) -> u64 {
    match random.below(8) {
        0 => random.below(2) as u64,
        1..=4 => random.between(1, 12) as u64,
        5 => 1 << random.between(32, 63),
        _ => NO_BOUND,
    }
}

/// A few records, or room for many, with or without bytes that are no whole record.
fn some_output(random: &mut Random) -> usize {
    match random.below(4) {
        0 => 16 * random.below(20),
        1 => random.below(400),
        2 => random.below(4_000),
        _ => AMPLE,
    }
}

/// A list that goes on over a longer scene on 1 and 9, in another output on 25, until the scene is whole or refused.
fn growing(pace: &mut Pace, random: &mut Random, case: Case) {
    let (mut session, mut joined, mut events, mut come, mut stuck) = (asked::fresh(), Vec::new(), 0, 0, false);
    let pieces = random.between(1, 9);
    let last = loop {
        let part = case.with_scene(&case.scene[..come]);
        let out_len = if stuck { AMPLE } else { some_output(random) };
        let (answer, records) = checked::advance(&part, &mut session, some_bound(random), out_len);
        pace.met(answer.number);
        assert_ne!(answer.number, 20);
        events += answer.events;
        joined.extend(records);
        stuck = answer.number == 25 && answer.events == 0;
        match answer.number {
            0 | 25 => {}
            1 | 9 if come < case.scene.len() => {
                come = (come + 1 + random.below(1 + case.scene.len() / pieces)).min(case.scene.len());
            }
            _ => break answer,
        }
    };
    let records = joined.len() as u64 / 16;
    checked::run_as(&case, joined.len(), Answer { events, records, ..last }, &joined);
}

#[test]
fn random_scenes_that_grow() {
    let mut pace = Pace::new("advances: random scenes that grow", 5);
    while let Some(seed) = pace.next_seed() {
        let (table, scene) = numbered_case(seed);
        growing(
            &mut pace,
            &mut Random::new(seed ^ 0xAD7A),
            Case::new("growing scene", seed, &table, &scene),
        );
    }
    pace.finish(&[0, 1, 2, 9, 25]);
}

#[test]
fn shapes_at_the_limits_that_grow() {
    let mut pace = Pace::new("advances: shapes at the limits that grow", 5);
    while let Some(seed) = pace.next_seed() {
        let mut random = Random::new(seed);
        let table = table(&mut random);
        let scene = shaped(&mut random, &table, seed % 7);
        growing(&mut pace, &mut random, Case::new("growing shape", seed, &table, &scene));
    }
    pace.finish(&[0, 1, 9, 25]);
}

/// Scenes of little but misc, good and bad, by a few bytes at a time.
#[test]
fn scenes_dense_with_misc_that_grow() {
    let mut pace = Pace::new("advances: scenes dense with misc that grow", 4);
    while let Some(seed) = pace.next_seed() {
        let mut random = Random::new(seed);
        let table = if random.percent(50) { t2() } else { table(&mut random) };
        let scene = if random.percent(60) {
            misc_scene(&mut random)
        } else {
            soup(&mut random)
        };
        growing(&mut pace, &mut random, Case::new("growing misc", seed, &table, &scene));
    }
    pace.finish(&[0, 1, 2, 9]);
}

/// Scenes of other scripts, whole and broken, by a few bytes at a time: most cuts are inside a character.
#[test]
fn scenes_in_other_scripts_that_grow() {
    let mut pace = Pace::new("advances: scenes in other scripts that grow", 4);
    while let Some(seed) = pace.next_seed() {
        let mut random = Random::new(seed);
        let table = if random.percent(50) { k() } else { table(&mut random) };
        let scene = scripted(&mut random);
        growing(&mut pace, &mut random, Case::new("growing script", seed, &table, &scene));
    }
    pace.finish(&[0, 1, 2, 3, 9, 25]);
}

/// From fresh and with no bound an advance is a run, in any output.
#[test]
fn run_against_one_advance() {
    let mut pace = Pace::new("advances: run against one", 4);
    while let Some(seed) = pace.next_seed() {
        let mut random = Random::new(seed);
        let table = table(&mut random);
        let mut scene = scene(&mut random, &table);
        if random.percent(25) {
            scene = damaged_scene(&mut random, &scene);
        }
        let needed = reference::run(&table, &scene, usize::MAX).1.len();
        for out_len in [needed + 5, needed, random.below(needed + 1)] {
            pace.met(advance_as_run(&Case::new("run against one advance", seed, &table, &scene), out_len));
        }
    }
    pace.finish(&[1, 2, 9, 25]);
}

fn advance_as_run(case: &Case, out_len: usize) -> u8 {
    let (answer, records) = checked::advance(case, &mut asked::fresh(), NO_BOUND, out_len);
    checked::run_as(case, out_len, answer, &records);
    answer.number
}

/// The same up to the 65,537th unit.
#[test]
fn run_against_one_advance_with_65_536_units() {
    let (table, scene) = many_units(&[&[16; 32][..], &[4, 0, 0, 0, 0]].concat());
    let needed = reference::run(&table, &scene, usize::MAX).1.len();
    assert_eq!(advance_as_run(&Case::new("65,536 units", 0, &table, &scene), needed), 24);
}

/// Every bound and, but for the longer ones, every length of output, from behind every event.
#[test]
fn every_bound_and_output_of_small_scenes() {
    let mut pace = Pace::new("advances: every bound and output", 0);
    let mut random = Random::new(1);
    let mut cases = vec![(t(), SAMPLE.to_vec()), (t2(), b"<r xmlns='u'>a<x xmlns='v'/></r>!".to_vec())];
    for _ in 0..4 {
        let table = table(&mut random);
        let mut scene = small(&mut random, &table);
        scene.truncate(90);
        cases.push((table, scene));
    }
    for (table, scene) in cases {
        let case = Case::new("every bound and output", 0, &table, &scene);
        let (whole, records) = checked::ample_run(&case);
        let mut session = asked::fresh();
        for _ in 0..=whole.events {
            for most in (0..whole.events + 2).chain([NO_BOUND]) {
                for out_len in (0..=records.len() + 17).step_by(if records.len() < 120 { 1 } else { 15 }) {
                    pace.met(checked::advance(&case, &mut session.clone(), most, out_len).0.number);
                }
            }
            checked::advance(&case, &mut session, 1, AMPLE);
        }
    }
    pace.finish(&[0, 1, 2, 9, 25]);
}

/// A scene over 16,777,215 bytes and a refused table: by none they are not looked at.
#[test]
fn by_none_nothing_is_judged() {
    let long = vec![b' '; 16_777_216];
    let (table, fresh) = (t(), asked::fresh());
    let ask = |table: &[u8], scene: &[u8], most: u64| {
        let (mut session, mut out) = (Lent::new(&fresh), Lent::patterned(100));
        let answer = asked::answer(calls::advance(table, scene, &mut session, most, &mut out));
        assert!(session.content() == fresh && out.content() == calls::pattern(100));
        (answer.number, answer.place, answer.events, answer.records)
    };
    for (table, scene, number) in [(&table[..], &long[..], 7), (&table[1..], &long[..], 10), (&table[1..], SAMPLE, 10)] {
        assert_eq!(ask(table, scene, 0), (0, 0, 0, 0));
        for most in [1, 2, NO_BOUND] {
            assert_eq!(ask(table, scene, most), (number, 0, 0, 0));
        }
    }
}

/// Thousands of events a call, in pieces of 64 KB and outputs of 64 KB; against run alone.
#[test]
fn large_scenes_in_pieces() {
    let element = "<a b='1' c=\"22\"><d xmlns='v'>text &amp; more</d><e xmlns='q'/></a>\n";
    let scene = format!("<r xmlns='u'>{}</r>", element.repeat(8_000)).into_bytes();
    for table in [t(), t2()] {
        let case = Case::new("large scene in pieces", 0, &table, &scene);
        let (expected, written) = checked::ample_run(&case);
        let (mut session, mut used, mut events, mut come) = (Lent::new(&asked::fresh()), 0, 0, 0);
        let last = loop {
            let mut out = Lent::patterned(AMPLE);
            let answer = asked::answer(calls::advance(&table, &scene[..come], &mut session, NO_BOUND, &mut out));
            let len = 16 * answer.records as usize;
            assert!(written[used..].starts_with(&out.content()[..len]) && calls::keeps_pattern(out.content(), len));
            events += answer.events;
            used += len;
            match answer.number {
                25 if answer.events > 0 => {}
                1 | 9 if come < scene.len() => come = (come + AMPLE).min(scene.len()),
                _ => break answer,
            }
        };
        let records = used as u64 / 16;
        case.same("last answer and all counts", &expected, &Answer { events, records, ..last }, String::new);
    }
}
