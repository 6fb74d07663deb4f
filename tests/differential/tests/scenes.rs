//! Run on random tables and scenes: number, place, events, records and every byte of the output.

use differential::shapes::{alternating, bound, every_change, shaped, small, t, t2, validating};
use differential::{checked, Case, Pace};
use reference::generate::{damaged_scene, many_units, numbered_case, scene, table, Random};

/// Ample, exact, short by one byte, short at random and cut at a record.
fn outputs(pace: &mut Pace, random: &mut Random, case: &Case) {
    let (answer, records) = checked::ample_run(case);
    pace.met(answer.number);
    checked::run_as(case, records.len(), answer, &records);
    pace.met(answer.number);
    if !records.is_empty() {
        let count = records.len() / 16;
        for out_len in [
            records.len() - 1,
            random.below(records.len()),
            16 * random.below(count),
            16 * random.below(count) + 15,
        ] {
            pace.met(checked::run(case, out_len).number);
        }
    }
}

#[test]
fn random_scenes() {
    let mut pace = Pace::new("scenes: random, whole or damaged", 12);
    while let Some(seed) = pace.next_seed() {
        let (table, scene) = numbered_case(seed);
        outputs(
            &mut pace,
            &mut Random::new(seed ^ 0x5EED),
            &Case::new("random scene", seed, &table, &scene),
        );
    }
    pace.finish(&[9, 25]);
}

#[test]
fn damaged_scenes() {
    let mut pace = Pace::new("scenes: damaged", 12);
    while let Some(seed) = pace.next_seed() {
        let mut random = Random::new(seed);
        let table = table(&mut random);
        let whole = scene(&mut random, &table);
        for _ in 0..6 {
            let damaged = damaged_scene(&mut random, &whole);
            let case = Case::new("damaged scene", seed, &table, &damaged);
            pace.met(checked::ample_run(&case).0.number);
            pace.met(checked::run(&case, random.below(800)).number);
        }
    }
    pace.finish(&[1, 2, 9, 25]);
}

/// Deep to 70, wide, many bindings, many strands, many attributes and sections, names of 64 bytes, large; then damaged, names of 65 among them.
#[test]
fn shapes_at_the_limits() {
    let mut pace = Pace::new("scenes: shapes at the limits", 12);
    while let Some(seed) = pace.next_seed() {
        let mut random = Random::new(seed);
        let table = table(&mut random);
        let whole = shaped(&mut random, &table, seed);
        outputs(&mut pace, &mut random, &Case::new("shape", seed, &table, &whole));
        let damaged = damaged_scene(&mut random, &whole);
        pace.met(checked::ample_run(&Case::new("damaged shape", seed, &table, &damaged)).0.number);
        if let Some(longer) = longer_name(&mut random, &whole) {
            pace.met(checked::ample_run(&Case::new("longer name", seed, &table, &longer)).0.number);
        }
    }
    pace.finish(&[3, 9, 21, 22, 25]);
}

/// A byte more in a part of 64 bytes, if there is one.
fn longer_name(random: &mut Random, scene: &[u8]) -> Option<Vec<u8>> {
    let in_part = |byte: &u8| byte.is_ascii_alphanumeric() || b"-._".contains(byte) || *byte >= 0x80;
    let long: Vec<usize> = (64..scene.len()).filter(|&at| scene[at - 64..at].iter().all(in_part)).collect();
    if long.is_empty() {
        return None;
    }
    let mut longer = scene.to_vec();
    longer.insert(*random.pick(&long), *random.pick(b"n0-:!\xC3\x80"));
    Some(longer)
}

/// Of a small scene every byte replaced by every class, before every byte one of every class put in, every byte taken out, every length.
#[test]
fn every_byte_of_small_scenes() {
    let mut pace = Pace::new("scenes: every byte of small ones", 12);
    while let Some(seed) = pace.next_seed() {
        let mut random = Random::new(seed);
        let table = table(&mut random);
        let whole = small(&mut random, &table);
        for changed in every_change(&whole) {
            pace.met(checked::ample_run(&Case::new("every byte", seed, &table, &changed)).0.number);
        }
    }
    pace.finish(&[1, 2, 4, 5, 9]);
}

/// Every byte value at every place of a scene that has every kind of place.
#[test]
fn every_byte_value() {
    let mut pace = Pace::new("scenes: every byte value", 0);
    let plain: &[u8] = b" <r xmlns=\"u\" p:a = 'v' xmlns:p='w'>t&amp;<p:x b='&lt;'/>\n</r> ";
    let with_misc: &[u8] = b"<?xml version='1.0' encoding = \"a\" standalone='no' ?><!--a-b--> <r>]]<?xm?>><?p ?a?>\n<!----></r> <?q?>";
    let in_other_scripts: &[u8] =
        b"<?xml\xC3\xA9?><\xE9\xAA\xA8 \xCF\x80:\xC3\xA9='\xE3\x81\x82' xmlns:\xCF\x80=\"\xC3\xA9\">\xF0\x90\x90\x80]\xC2\x80\
        <!--\xEF\xBF\xBD--><?a\xC2\xB7 \xF4\x8F\xBF\xBF?><e\xCC\x81/></\xE9\xAA\xA8>";
    for whole in [plain, with_misc, in_other_scripts] {
        for at in 0..whole.len() {
            for byte in 0..=255 {
                let mut changed = whole.to_vec();
                changed[at] = byte;
                pace.met(checked::ample_run(&Case::new("byte value", 0, &t2(), &changed)).0.number);
            }
        }
    }
    pace.finish(&[1, 2, 4, 5, 9]);
}

/// Every length of output for a few scenes.
#[test]
fn every_output_length() {
    let mut pace = Pace::new("scenes: every output length", 0);
    for seed in 0..12 {
        let mut random = Random::new(seed);
        let table = table(&mut random);
        let scene = small(&mut random, &table);
        let case = Case::new("output length", seed, &table, &scene);
        checked::run_in_every_length(&case, |number| pace.met(number));
    }
    pace.finish(&[9, 25]);
}

#[test]
fn depth_bindings_strands_by_one() {
    let mut pace = Pace::new("scenes: one below, at and past the limits", 0);
    let mut ask = |name: &str, table: &[u8], scene: &str| {
        let answer = checked::ample_run(&Case::new(name, 0, table, scene.as_bytes())).0;
        pace.met(answer.number);
        answer.number
    };
    for depth in 60..=70 {
        let scene = "<r>".repeat(depth) + &"</r>".repeat(depth);
        assert_eq!(ask("depth", &validating(2), &scene), if depth > 64 { 21 } else { 9 });
    }
    for more in 0..=16 {
        let own: String = (0..more).map(|n| format!(" xmlns:o{n}='n'")).collect();
        let scene = format!("{}<x{own}/>{}", bound(4, 14), "</r>".repeat(4));
        assert_eq!(ask("bindings", &validating(1), &scene), if more > 8 { 22 } else { 9 });
    }
    for vs in 1..=6 {
        assert_eq!(ask("strands", &t2(), &alternating(vs)), if vs > 4 { 23 } else { 9 });
    }
    for rules in 1..=64 {
        assert_eq!(ask("root strands", &validating(rules), "<r/>"), if rules > 16 { 23 } else { 9 });
    }
    for attributes in 0..=20 {
        let own: String = (0..attributes).map(|n| format!(" a{n}='{n}'")).collect();
        assert_eq!(
            ask("attributes", &validating(3), &format!("<r{own}/>")),
            if attributes > 16 { 3 } else { 9 }
        );
    }
    pace.finish(&[3, 9, 21, 22, 23]);
}

/// 65,536 units and the one that is too many, on both sides of the limit.
#[test]
fn units_at_the_limit() {
    let mut pace = Pace::new("scenes: 65,536 units", 0);
    for (last, number) in [
        (vec![4, 0, 0], 9),
        (vec![4, 0, 0, 0], 9),
        (vec![4, 0, 0, 0, 0], 24),
        (vec![5], 24),
        (vec![4, 1], 24),
    ] {
        let children: Vec<usize> = [vec![16; 32], last].concat();
        let (table, scene) = many_units(&children);
        let answer = checked::ample_run(&Case::new("many units", 0, &table, &scene)).0;
        assert_eq!(answer.number, number);
        pace.met(answer.number);
    }
    pace.finish(&[9, 24]);
}

/// A scene of some megabytes with records at large offsets.
#[test]
fn a_large_scene() {
    let mut pace = Pace::new("scenes: a large one", 0);
    let element = "<a b='1' c=\"22\"><d xmlns='v'>text &amp; more</d><e xmlns='q'/></a>\n";
    for (table, elements) in [(t(), 20_000), (t2(), 66_000)] {
        let scene = format!("<r xmlns='u'>{}</r>", element.repeat(elements));
        let answer = checked::ample_run(&Case::new("large", 0, &table, scene.as_bytes())).0;
        pace.met(answer.number);
    }
    pace.finish(&[9, 24]);
}
