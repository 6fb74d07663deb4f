//! N2: the forecast, and the bound on its records.

use crate::common::*;
use reference::generate::rule;
use reference::table::ANY;
use reference::{forecast, forecast_by_event, judge, plus, record_bound, run, Action, EventCounts};

/// The page's vectors as they stand there, and its tables: table, |scene|, number, place, records, units, strands, depth, | bound.
const VECTORS: &str = r#"
# sample A, and stops by each number
T |<r xmlns="u">a<x/></r>| 9 22 7 1 1 2 | 170
K |<r>a<x/>b</r> <!--c-->| 9 22 8 1 1 2 | 204
K || 1 0 0 0 0 0 | 0
K | <!----> | 1 9 0 0 0 0 | 0
K |<r>a<x>| 1 7 4 1 1 2 | 102
K |<r>a<x>b| 1 8 4 1 1 2 | 102
K |<r>a<x/>]]>| 2 8 5 1 1 2 | 136
K |<r/>x| 2 4 4 1 1 1 | 68
K |<r>a<{65:n}| 3 69 3 1 1 1 | 68
K |<r>a<x></y>| 4 7 4 1 1 2 | 102
K |<r>a<p:x/>| 5 4 3 1 1 1 | 68
K |<r>a<x b='' b=''/>| 6 4 3 1 1 1 | 68
# refused tables: 10, 11, 12
T10 = 01 02 01 01 00 06 00 08 01
T11 = 01 02 01 01 00 07 00 08 01 75
T12 = 02 02 01 01 00 06 00 08 01 75 01 75
T10 |<r/>| 10 0 0 0 0 0 | -
T11 |<r/>| 11 0 0 0 0 0 | -
T12 |<r/>| 12 0 0 0 0 0 | -
# depth: 64 pass, the 65th is refused and not counted
K |<r/>| 9 4 4 1 1 1 | 68
K |{64:<r>}{64:</r>}| 9 448 130 1 1 64 | 4352
K |{65:<r>}| 21 192 65 1 1 64 | 2176
# bindings: 64 are open, the 65th refused
K |{4:<r xmlns:a='u' xmlns:b='u' xmlns:c='u' xmlns:d='u' xmlns:e='u' xmlns:f='u' xmlns:g='u' xmlns:h='u' xmlns:i='u' xmlns:j='u' xmlns:k='u' xmlns:l='u' xmlns:m='u' xmlns:n='u' xmlns:o='u' xmlns:p='u'>}<x>| 1 783 6 1 1 5 | 170
K |{4:<r xmlns:a='u' xmlns:b='u' xmlns:c='u' xmlns:d='u' xmlns:e='u' xmlns:f='u' xmlns:g='u' xmlns:h='u' xmlns:i='u' xmlns:j='u' xmlns:k='u' xmlns:l='u' xmlns:m='u' xmlns:n='u' xmlns:o='u' xmlns:p='u'>}<x xmlns='u'>| 22 780 5 1 1 4 | 136
# strands: 16 at the fourth v; the fifth is refused and not counted
T2 |<r xmlns="u">{3:<v xmlns="v"><q xmlns="q">}{3:</q></v>}</r>| 9 119 46 8 8 7 | 1972
T2 |<r xmlns="u">{4:<v xmlns="v"><q xmlns="q">}{4:</q></v>}</r>| 9 153 94 16 16 9 | 4148
T2 |<r xmlns="u">{5:<v xmlns="v"><q xmlns="q">}| 23 117 47 16 16 9 | 2074
# strands without records: one unwrap strand at each level
T |<r><x/></r>| 9 11 0 0 1 2 | 136  # until N3
# attribute units. Q: any element validate 0; any attribute validate 0, validate 1; one mode
Q = 00 01 02 03 03 FE 00 00 07 FE 00 00 07 FE 01 00
Q |<r xmlns:p='u' p:a='' p:b='' xml:c=''/>| 9 39 32 5 1 1 | 96
Q |<r xmlns:p='u' p:a='' p:b='' xml:c=''>t<x p:a=''/></r>| 9 54 47 7 1 2 | 210
# 34 records of one start: 16 kept attributes
K |<r a='' b='' c='' d='' e='' f='' g='' h='' i='' j='' k='' l='' m='' n='' o='' p=''/>| 9 84 36 1 1 1 | 68
# 65,536 units pass, one more is 24. U: class 1 is u; one mode; any element validate 0; any attribute validate 0 to 7; attribute of u validate 0
U = 01 01 08 0A 03 FE 00 00 07 FE 00 00 07 FE 01 00 07 FE 02 00 07 FE 03 00 07 FE 04 00 07 FE 05 00 07 FE 06 00 07 FE 07 00 04 06 00 00 01 75
U |<e xmlns:p='q' xmlns:u='u'>{8191:<e p:a=''/>}{7:<e u:a=''/>}</e>| 9 90209 409610 65536 1 2 | 950742
U |<e xmlns:p='q' xmlns:u='u'>{8191:<e p:a=''/>}{8:<e u:a=''/>}</e>| 24 90205 409608 65536 1 2 | 950708
"#;

/// More, for what the decisions say and no vector shows.
const MORE: &str = r#"
# N2-4: the deepest level, not the last
K |<r><x><y/></x><z>| 1 17 7 1 1 3 | 204
K |<r><x></x></y>| 4 10 4 1 1 2 | 102
# N2-5: the most strands, not at the deepest level; a strand without a target
T2 |<r xmlns="u"><v xmlns="v"/><q xmlns="q"><a><b/></a></q></r>| 9 59 10 2 2 4 | 408
V = 00 01 01 02 03 FC 00 00 03 FE 00 00
V |<r/>| 9 4 4 1 2 1 | 136
# N2-6: at 24 the refused tag's level is left out too
U |<e xmlns:p='q' xmlns:u='u'>{8191:<e p:a=''/>}{7:<e u:a=''/>}<e><e u:a=''/>| 24 90208 409609 65536 1 2 | 950742
# N2-9: an attribute unit under an unwrap strand; one whose attributes are kept as well; attributes of the element's namespace
A = 00 01 01 01 07 FE 00 00
A |<r xmlns:p='u' p:a='' a=''/>| 9 28 6 1 1 1 | 74  # until N3
B = 00 01 02 03 03 FE 00 00 07 FE 01 00 07 FC 00 00
B |<r xmlns:p='u' p:a=''/>| 9 23 12 2 1 1 | 74
Q |<p:r xmlns:p='u' p:a=''/>| 9 25 6 1 1 1 | 68
"#;

/// The page's vectors as runs: table, |scene|, output, number, place, events, records.
const RUNS: &str = r#"
T |<r xmlns="u">a<x/></r>| 112 | 9 22 5 7
T |<r xmlns="u">a<x/></r>| 111 | 25 18 4 5
K |<r>a<x>| - | 1 7 3 4
K |<r>a<x>| 64 | 1 7 3 4
K |<r>a<x>| 63 | 25 4 2 3
Q |<r xmlns:p='u' p:a='' p:b='' xml:c=''/>| 512 | 9 39 2 32
Q |<r xmlns:p='u' p:a='' p:b='' xml:c=''/>| 511 | 25 0 1 30
"#;

fn table_named(name: &str) -> Vec<u8> {
    table_in(&[VECTORS, MORE], name)
}

fn all_vectors() -> Vec<Forecasted> {
    [VECTORS, MORE]
        .into_iter()
        .flat_map(|block| forecasts(&[VECTORS, MORE], block))
        .collect()
}

/// The tables that a line holds of: t+, and the table itself unless the line is said to hold until
/// N3; a refused table alone.
fn tables_of(vector: &Forecasted) -> Vec<Vec<u8>> {
    let itself = Some(vector.table.clone()).filter(|_| !vector.line.contains("until N3"));
    let kept = plus(&vector.table).filter(|kept| Some(kept) != itself.as_ref());
    kept.into_iter().chain(itself).collect()
}

#[test]
fn the_pages_forecasts() {
    for vector in all_vectors() {
        for table in tables_of(&vector) {
            let got = forecast(&table, &vector.scene);
            assert_eq!(got, vector.forecast, "{}", vector.line);
        }
    }
    let until = |vector: &&Forecasted| vector.line.contains("until N3");
    assert_eq!(all_vectors().len(), 29 + 8);
    assert_eq!(all_vectors().iter().filter(until).count(), 2);
}

#[test]
fn the_pages_bounds() {
    for vector in all_vectors() {
        let refused = judge(&vector.table).number != 0;
        assert_eq!(vector.bound.is_none(), refused, "{}", vector.line);
        for table in tables_of(&vector) {
            let bound = record_bound(&table, &vector.scene);
            assert_eq!(bound, vector.bound.unwrap_or(0), "{}", vector.line);
            let records = forecast(&table, &vector.scene).records;
            assert!(records <= bound, "{}", vector.line);
        }
    }
}

#[test]
fn the_bound_event_by_event() {
    for vector in all_vectors() {
        for table in tables_of(&vector) {
            let counts = forecast_by_event(&table, &vector.scene).1;
            let holds = |event: &EventCounts| event.records <= event.bound();
            assert!(counts.iter().all(holds), "{}", vector.line);
            let records: u64 = counts.iter().map(|event| event.records).sum();
            assert_eq!(records, vector.forecast.records, "{}", vector.line);
        }
    }
}

#[test]
fn the_pages_runs() {
    for line in written(RUNS) {
        let vector = Vector::of(&[VECTORS], line);
        vector.check(&vector.table);
        vector.check(&former(&vector.table));
    }
    assert_eq!(written(RUNS).count(), 7);
}

#[test]
fn n2_2_an_output_of_that_size_and_one_byte_less() {
    for vector in all_vectors() {
        for table in tables_of(&vector) {
            runs_as_told(&vector, &table);
        }
    }
}

fn runs_as_told(vector: &Forecasted, table: &[u8]) {
    let told = vector.forecast;
    let ends = |output| {
        let got = run(table, &vector.scene, output).0;
        (got.number, got.place, got.records)
    };
    let needed = 16 * told.records as usize;
    let expected = (told.number, told.place, told.records);
    assert_eq!(ends(needed), expected, "{}", vector.line);
    assert_eq!(ends(needed + 37), expected, "{}", vector.line);
    if needed > 0 {
        let (number, _, records) = ends(needed - 1);
        assert_eq!(number, 25, "{}", vector.line);
        assert!(records < told.records, "{}", vector.line);
    }
}

/// 17 strands at the root: no level was open.
#[test]
fn n2_6_a_refused_root_counts_for_nothing() {
    let validating = |count: u8| {
        let rules = (0..count).map(|schema| rule(0, ELEMENT, ANY, Action::Validate, schema, 0));
        table(&[], 1, 17, rules.collect())
    };
    let told = |count| forecast(&validating(count), b" <r/>");
    assert_eq!(told(16), figures(&[9, 5, 64, 16, 16, 1]));
    assert_eq!(told(17), figures(&[23, 1, 0, 0, 0, 0]));
}

#[test]
fn n2_7_a_scene_that_is_too_long() {
    let long = vec![b' '; 16_777_216];
    let told = |name| forecast(&table_named(name), &long);
    for accepted in ["T", "T2", "K", "Q", "U"] {
        assert_eq!(told(accepted), figures(&[7, 0, 0, 0, 0, 0]));
    }
    assert_eq!(told("T10"), figures(&[10, 0, 0, 0, 0, 0]));
    assert_eq!(told("T11"), figures(&[11, 0, 0, 0, 0, 0]));
    assert_eq!(told("T12"), figures(&[12, 0, 0, 0, 0, 0]));
    assert_eq!(record_bound(&t(), &long), 0);
    let fits = forecast(&t(), &long[1..]);
    assert_eq!(fits, figures(&[1, 16_777_215, 0, 0, 0, 0]));
}

/// A start with one new unit and 16 kept attributes meets its bound.
#[test]
fn n2_9_34_records_of_one_start() {
    let own: String = ('a'..='p').map(|name| format!(" {name}=''")).collect();
    let scene = format!("<r{own}/>");
    let counts = forecast_by_event(&k(), scene.as_bytes()).1;
    let pairs = counts.iter().map(|event| (event.records, event.bound()));
    assert_eq!(pairs.collect::<Vec<_>>(), [(34, 34), (2, 34)]);
}

/// An attribute in two units counts twice, one that is only kept with its element not at all.
#[test]
fn n2_9_attributes_of_attribute_units() {
    let counts = |table: &[u8], scene: &[u8]| {
        let start = forecast_by_event(table, scene).1[0];
        (start.attribute_units, start.unit_attributes)
    };
    let scene = b"<r xmlns:p='u' p:a='' p:b='' xml:c='' d=''/>";
    assert_eq!(counts(&table_named("Q"), scene), (4, 6));
    assert_eq!(counts(&table_named("B"), scene), (2, 3));
    assert_eq!(counts(&k(), scene), (0, 0));
}
