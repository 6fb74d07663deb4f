//! calcivorne_uri on random tables, scenes, classes and spans.

use differential::{checked, Case, Pace};
use reference::generate::{damaged_table, numbered_case, Random};
use reference::Record;

fn number(random: &mut Random, len: usize) -> u64 {
    match random.below(10) {
        0 => u64::MAX - random.below(3) as u64,
        1 => (1 << *random.pick(&[16, 24, 31, 32, 48, 63])) - random.below(2) as u64,
        2 => len as u64 + random.below(3) as u64,
        3 => 0,
        _ => random.below(len + 2) as u64,
    }
}

#[test]
fn random_classes_and_spans() {
    let mut pace = Pace::new("uris: random classes and spans", 5);
    while let Some(seed) = pace.next_seed() {
        let (mut table, scene) = numbered_case(seed);
        let mut random = Random::new(seed ^ 0x0421);
        if random.percent(10) {
            table = damaged_table(&mut random, &table);
        }
        let case = Case::new("uri", seed, &table, &scene);
        for _ in 0..40 {
            let class = *random.pick(&[0, 1, 2, 3, 4, 5, 29, 30, 31, 127, 252, 253, 254, 255, 255, 255, 255]);
            let (at, len) = (number(&mut random, scene.len()), number(&mut random, scene.len() / 2));
            pace.met(checked::uri(&case, class, at, len).0);
        }
    }
    pace.finish(&[0, 1]);
}

/// Every class, and the URIs of all records of a run.
#[test]
fn every_class_and_every_record() {
    let mut pace = Pace::new("uris: every class, every record", 5);
    while let Some(seed) = pace.next_seed() {
        let (table, scene) = numbered_case(seed);
        let case = Case::new("uri of a record", seed, &table, &scene);
        for class in 0..=255 {
            pace.met(checked::uri(&case, class, 1, 2).0);
        }
        for record in checked::ample_run(&case).1.chunks(16).map(Record::read) {
            pace.met(checked::uri(&case, record.class, record.uri.at, record.uri.len).0);
        }
    }
    pace.finish(&[0, 1]);
}

/// Every span of a short scene and some past it.
#[test]
fn every_span() {
    let mut pace = Pace::new("uris: every span", 0);
    let (table, scene) = (differential::shapes::t2(), b"<r xmlns='q'/>");
    for class in [0, 1, 2, 3, 254, 255] {
        for at in 0..=20 {
            for len in 0..=20 {
                pace.met(checked::uri(&Case::new("span", 0, &table, scene), class, at, len).0);
            }
        }
    }
    pace.finish(&[0, 1]);
}
