//! The standard's defaults (request N3): tables that lack rules, often without schemas, on scenes of many namespaces.

use differential::shapes::{any_scene, small, table};
use differential::{asked, checked, layout, Case, Pace};
use reference::generate::{many_rejects, sparse_table, Random};
use reference::{accepted_events, session_after, Record, Session, REJECT};

const AMPLE: usize = 1 << 16;
const UNITS: u64 = 65_536;

/// Whether records open a unit of reject, and whether one while another is open.
fn rejects(records: &[u8]) -> (bool, bool) {
    let (mut open, mut found, mut inside) = (Vec::new(), false, false);
    for record in records.chunks(16).map(Record::read) {
        match record.kind {
            0 if record.class == REJECT => {
                found = true;
                inside |= !open.is_empty();
                open.push(record.unit);
            }
            6 => open.retain(|&unit| unit != record.unit),
            _ => {}
        }
    }
    (found, inside)
}

/// Run in an ample output, in one of just the size and in short ones, and the forecast.
#[test]
fn tables_that_lack_rules() {
    let mut pace = Pace::new("defaults: tables that lack rules", 6);
    let (mut cases, mut found, mut inside) = (0, 0, 0);
    while let Some(seed) = pace.next_seed() {
        let mut random = Random::new(seed);
        let table = sparse_table(&mut random);
        let scene = any_scene(&mut random, &table, seed);
        let case = Case::new("table that lacks rules", seed, &table, &scene);
        let (answer, records) = checked::ample_run(&case);
        pace.met(answer.number);
        for out_len in [records.len(), random.below(records.len() + 1), 16 * random.below(records.len() / 16 + 1)] {
            pace.met(checked::run(&case, out_len).number);
        }
        pace.met(checked::forecast(&case).number);
        let met = rejects(&records);
        (cases, found, inside) = (cases + 1, found + met.0 as u64, inside + met.1 as u64);
    }
    println!("of {cases} cases {found} meet reject, {inside} inside another");
    assert!(cases < 200 || found * 2 > cases && inside * 4 > cases);
    pace.finish(&[1, 2, 9, 25]);
}

/// Steps and advances from sessions inside such scenes, with room for few units more or for none.
#[test]
fn sessions_with_few_units_left() {
    let mut pace = Pace::new("defaults: sessions with few units left", 6);
    while let Some(seed) = pace.next_seed() {
        let mut random = Random::new(seed);
        let table = sparse_table(&mut random);
        let scene = any_scene(&mut random, &table, seed);
        let case = Case::new("few units left", seed, &table, &scene);
        let accepted = accepted_events(&table, &scene);
        let session = session_after(&table, &scene, random.below(accepted + 1));
        for _ in 0..6 {
            let units = match random.percent(80) {
                true => UNITS - random.below(5) as u64,
                false => session.units,
            };
            let from = Session { units, ..session.clone() };
            let mut bytes = layout::encode(&from).expect("a session that has bytes");
            let out_len = *random.pick(&[0, 16, 31, 32, 100, AMPLE, AMPLE]);
            pace.met(checked::step(&case, &mut bytes.clone(), out_len).0.number);
            pace.met(checked::advance(&case, &mut bytes, random.below(30) as u64, out_len).0.number);
        }
    }
    pace.finish(&[0, 1, 9, 24, 25]);
}

/// Every length of output for small scenes.
#[test]
fn every_output_length() {
    let mut pace = Pace::new("defaults: every output length", 0);
    for seed in 0..20 {
        let mut random = Random::new(seed);
        let table = sparse_table(&mut random);
        let scene = small(&mut random, &table);
        let case = Case::new("output length", seed, &table, &scene);
        checked::run_in_every_length(&case, |number| pace.met(number));
    }
    pace.finish(&[9, 25]);
}

/// 65,536 units and the one that is too many: of reject alone, and beside attribute units.
#[test]
fn units_at_the_limit() {
    let mut pace = Pace::new("defaults: 65,536 units", 0);
    let mut ask = |table: &[u8], scene: &[u8], number: u8| {
        let case = Case::new("65,536 units", 0, table, scene);
        let (answer, records) = checked::ample_run(&case);
        assert_eq!(answer.number, number);
        let told = checked::forecast(&case);
        assert!(told.units <= UNITS);
        let mut bytes = asked::fresh();
        if table[3] > 0 {
            assert_eq!(checked::advance(&case, &mut bytes, u64::MAX, records.len()).0, answer);
        }
        pace.met(answer.number);
    };
    let none = table(&[], 1, 0, vec![]);
    for (children, number) in [(65_534, 9), (65_535, 9), (65_536, 24), (65_600, 24)] {
        let scene = format!("<r>{}</r>", "<x xmlns='q'/>".repeat(children));
        ask(&none, scene.as_bytes(), number);
    }
    for (last, number) in [(&[4, 0, 0][..], 9), (&[4, 0, 0, 0], 9), (&[4, 0, 0, 0, 0], 24), (&[5], 24), (&[4, 1], 24)] {
        let (table, scene) = many_rejects(&[&[16; 32], last].concat());
        ask(&table, &scene, number);
    }
    pace.finish(&[9, 24]);
}
