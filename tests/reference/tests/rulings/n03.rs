//! N3: the standard's defaults, and a table's former results.

use crate::common::*;
use reference::generate::rule;
use reference::table::{Rule, ANY, XML};
use reference::{
    forecast, forecast_by_event, forecast_under, judge, plus, program, program_under, record_bound,
    run, run_under, session_after, session_after_under, step, uri, Action, Defaults, EventCounts,
    Session, Strand,
};

/// The page's vectors as they stand there, and its tables: table, |scene|, output, number, place, events, records.
const VECTORS: &str = r#"
# sample C; an unlisted namespace; no rule at all and S = 0
T |<r/>| - | 9 4 2 4
    0 0 255 0 0 0 0
    0 1 0 1 1 0 0
    0 5 0 1 1 0 0
    0 6 0 0 0 0 0
T |<r xmlns="q"/>| - | 9 14 2 4
    0 0 255 0 0 0 0
    0 1 255 1 1 10 1
    0 5 255 1 1 10 1
    0 6 0 0 0 0 0
E0 = 00 01 00 00
E0 |<r>t<x/><y xmlns="q">s</y></r>| - | 9 30 8 12
    0 0 255 0 0 0 0
    0 1 0 1 1 0 0
    0 4 0 3 1 0 0
    0 1 0 5 1 0 0
    0 5 0 5 1 0 0
    1 0 255 8 0 0 0
    1 1 255 9 1 18 1
    1 4 0 21 1 0 0
    1 5 255 24 1 18 1
    1 6 0 0 0 0 0
    0 5 0 28 1 0 0
    0 6 0 0 0 0 0
# the mode stays: reject inside reject, also for u in mode 1
T |<r xmlns="u"><w xmlns="q"><x xmlns="u"/></w></r>| - | 9 48 6 12
    0 0 0 0 0 0 0
    0 1 1 1 1 0 0
    1 0 255 13 0 0 0
    1 1 255 14 1 23 1
    2 0 255 26 0 0 0
    2 1 1 27 1 0 0
    2 5 1 27 1 0 0
    2 6 0 0 0 0 0
    1 5 255 42 1 23 1
    1 6 0 0 0 0 0
    0 5 1 46 1 0 0
    0 6 0 0 0 0 0
# reject as a target: v is attached to it (one rule: mode 0, v, attach)
A1 = 01 01 00 01 00 04 00 00 01 76
A1 |<r xmlns="u">a<x xmlns="v">b</x></r>| - | 9 36 6 8
    0 0 255 0 0 0 0
    0 1 255 1 1 10 1
    0 4 0 13 1 0 0
    0 1 1 15 1 0 0
    0 4 0 27 1 0 0
    0 5 1 30 1 0 0
    0 5 255 34 1 10 1
    0 6 0 0 0 0 0
# the former target is left, then unwrap passes the reject unit on (mode 0: u validate 0 next 1; mode 1: v unwrap, w attach)
A2 = 03 02 01 03 00 06 00 08 08 09 00 08 08 0C 00 08 01 75 01 76 01 77
A2 |<r xmlns="u"><z><v xmlns="v"><w xmlns="w"/></v></z></r>| - | 9 55 8 8
    0 0 0 0 0 0 0
    0 1 1 1 1 0 0
    0 1 1 14 1 0 0
    0 1 3 30 1 0 0
    0 5 3 30 1 0 0
    0 5 1 49 1 0 0
    0 5 1 53 1 0 0
    0 6 0 0 0 0 0
A2 |<r xmlns="u"><z xmlns="q"><v xmlns="v"><w xmlns="w"/></v></z></r>| - | 9 65 8 10
    0 0 0 0 0 0 0
    0 1 1 1 1 0 0
    1 0 255 13 0 0 0
    1 1 255 14 1 23 1
    1 1 3 40 1 0 0
    1 5 3 40 1 0 0
    1 5 255 59 1 23 1
    1 6 0 0 0 0 0
    0 5 1 63 1 0 0
    0 6 0 0 0 0 0
# two strands, one with rules, one without (any element validate 0 next 0, the same next 1; mode 1 has no rule)
A3 = 00 02 01 02 03 FE 00 00 03 FE 00 08
A3 |<r xmlns="u"><x xmlns="q"/></r>| - | 9 31 4 20
    0 0 0 0 0 0 0
    0 1 255 1 1 10 1
    1 0 0 0 0 0 0
    1 1 255 1 1 10 1
    2 0 0 13 0 0 0
    2 1 255 14 1 23 1
    3 0 0 13 0 0 0
    3 1 255 14 1 23 1
    4 0 255 13 0 0 0
    4 1 255 14 1 23 1
    2 5 255 14 1 23 1
    2 6 0 0 0 0 0
    3 5 255 14 1 23 1
    3 6 0 0 0 0 0
    4 5 255 14 1 23 1
    4 6 0 0 0 0 0
    0 5 255 29 1 10 1
    0 6 0 0 0 0 0
    1 5 255 29 1 10 1
    1 6 0 0 0 0 0
# below an unwrapped section (mode 0 any element unwrap next 1)
A4 = 00 02 00 01 03 FD 00 08
A4 |<r>a<x xmlns="q">b</x></r>| - | 9 26 6 5
    0 0 255 4 0 0 0
    0 1 255 5 1 14 1
    0 4 0 17 1 0 0
    0 5 255 20 1 14 1
    0 6 0 0 0 0 0
# attributes: attached by default; not under unwrap
T |<r xmlns="u" xmlns:p="q" p:a="1" b="2" xml:c="3"/>| - | 9 50 2 10
    0 0 0 0 0 0 0
    0 1 1 1 1 0 0
    0 2 255 27 1 22 1
    0 3 0 30 1 0 0
    0 2 0 33 1 0 0
    0 3 0 36 1 0 0
    0 2 254 43 1 0 0
    0 3 0 46 1 0 0
    0 5 1 1 1 0 0
    0 6 0 0 0 0 0
A5 = 00 01 00 01 03 FD 00 00
A5 |<r xmlns:p="q" p:a=""/>| - | 9 23 2 0
# one rule turns the default off: u validate only, q by default (any element validate 0; attribute u validate 1)
A6 = 01 01 02 02 03 FE 00 00 04 06 01 00 01 75
A6 |<r xmlns:p="u" xmlns:s="q" p:a="" s:b=""/>| - | 9 42 2 12
    0 0 1 0 1 0 0
    0 1 253 0 0 0 0
    0 2 1 29 1 0 0
    0 3 0 32 0 0 0
    0 5 253 0 0 0 0
    0 6 0 0 0 0 0
    1 0 0 0 0 0 0
    1 1 0 1 1 0 0
    1 2 255 36 1 24 1
    1 3 0 39 0 0 0
    1 5 0 1 1 0 0
    1 6 0 0 0 0 0
# attribute any unwrap: not kept
A7 = 00 01 01 02 03 FE 00 00 07 FD 00 00
A7 |<r xml:a=""/>| - | 9 13 2 4
# a rejected element with attribute rules in its mode: attribute units first (any attribute validate 0, and no more)
A8 = 00 01 01 01 07 FE 00 00
A8 |<r xml:a=""/>| - | 9 13 2 10
    0 0 0 0 1 0 0
    0 1 253 0 0 0 0
    0 2 254 7 1 0 0
    0 3 0 10 0 0 0
    0 5 253 0 0 0 0
    0 6 0 0 0 0 0
    1 0 255 0 0 0 0
    1 1 0 1 1 0 0
    1 5 0 1 1 0 0
    1 6 0 0 0 0 0
# kind 1 rules are no rule for an element, kind 0 rules none for attributes
A8 |<r/>| - | 9 4 2 4
# 25 and 24 where they could not come before
T |<r/>| 31 | 25 0 0 0
T |<r/>| 32 | 25 0 1 2
T |<r/>| 63 | 25 0 1 2
T |<r/>| 64 | 9 4 2 4
E0 |<r>{65535:<x xmlns='q'/>}</r>| - | 9 917497 131072 262144
E0 |<r>{65536:<x xmlns='q'/>}</r>| - | 24 917493 131071 262142
# document 01's samples: A, B, D, E as they were; C above; F has two records; G, H; depth 64 and 65
T |<r xmlns="u">a<x/></r>| - | 9 22 5 7
T || - | 1 0 0 0
T2 |<r xmlns="u"><x xmlns="v"/></r>| - | 9 31 4 10
T2 |<r xmlns="u">a<w xmlns="q">b<x xmlns="v"/></w>c</r>| - | 9 51 9 12
T |<r></s>| - | 4 3 1 2
T |<p:r/>| - | 5 0 0 0
T |<r/| - | 1 3 0 0
T |<r/x| - | 2 3 0 0
T |{64:<r>}{64:</r>}| - | 9 448 128 130
T |{65:<r>}| - | 21 192 64 65
T2 |<r xmlns="u">{4:<v xmlns="v"><q xmlns="q">}{4:</q></v>}</r>| - | 9 153 18 94
T2 |<r xmlns="u">{5:<v xmlns="v"><q xmlns="q">}| - | 23 117 9 47
"#;

/// The page's forecasts: table, |scene|, number, place, records, units, strands, depth, | bound.
const FORECASTS: &str = r#"
T |<r/>| 9 4 4 1 1 1 | 68
T |<r xmlns="u"><w xmlns="q"><x xmlns="u"/></w></r>| 9 48 12 3 1 3 | 204
"#;

/// The page's former results: t+, |scene|, output, what it gives now and t gave before; behind # what t gives now.
const FORMER: &str = r#"
T+ = 01 02 01 05 00 06 00 08 03 FD 00 00 07 FD 00 00 0B FD 00 08 0F FD 00 08 01 75
T+ |<r/>| - | 9 4 2 0  # T itself: 9 4 2 4
T+ |<r xmlns="u"><w xmlns="q">b<x xmlns="u"/></w></r>| - | 9 49 7 4  # T itself: 9 49 7 13
T+ |<r xmlns="u" xml:c="3"/>| - | 9 24 2 4  # T itself: 9 24 2 6
T+ |<r xmlns="u" xml:c="3"/>| 31 | 25 0 0 0  # T itself: 25 0 0 0
T2+ = 02 02 02 07 00 06 00 08 08 0A 01 08 08 08 00 08 0B FD 00 08 03 FD 00 00 07 FD 00 00 0F FD 00 08 01 75 01 76
T2+ |<x xmlns="v"><r xmlns="u" xml:a=""/></x>| - | 9 40 4 4  # T2 itself: 9 40 4 10
A6+ = 01 01 02 03 03 FE 00 00 04 06 01 00 07 FD 00 00 01 75
A6+ |<r xmlns:p="u" xmlns:s="q" p:a="" s:b=""/>| - | 9 42 2 10  # A6 itself: 9 42 2 12
A3+ = 00 02 01 05 03 FE 00 00 03 FE 00 08 07 FD 00 00 0B FD 00 08 0F FD 00 08
A3+ |<r xmlns="u"><x xmlns="q"/></r>| - | 9 31 4 16  # A3 itself: 9 31 4 20
"#;

/// A former result: a line of FORMER.
struct Kept {
    /// t+ as the page writes it out.
    plus: Vec<u8>,
    table: Vec<u8>,
    /// What t+ gives.
    vector: Vector,
    /// What t gives now.
    now: reference::Answer,
}

impl Kept {
    fn of(line: &'static str) -> Kept {
        let (written, remark) = line.split_once('#').expect(line);
        let (name, now) = remark.trim().split_once(" itself: ").expect(line);
        Kept {
            plus: table_in(&[FORMER], &format!("{name}+")),
            table: table_in(&[VECTORS], name),
            vector: Vector::of(&[FORMER], written),
            now: four(now),
        }
    }
}

fn kept() -> Vec<Kept> {
    written(FORMER)
        .filter(|line| line.contains('|'))
        .map(Kept::of)
        .collect()
}

#[test]
fn the_pages_vectors() {
    for vector in vectors(VECTORS) {
        vector.check(&vector.table);
    }
    let shown = vectors(VECTORS)
        .iter()
        .filter(|vector| !vector.records.is_empty())
        .count();
    assert_eq!((vectors(VECTORS).len(), shown), (33, 12));
}

/// The program prints a vector's records and its answer.
#[test]
fn the_program_prints_them() {
    for vector in vectors(VECTORS)
        .iter()
        .filter(|vector| !vector.records.is_empty())
    {
        let Vector {
            answer, records, ..
        } = vector;
        let last = format!(
            "{} {} {} {}\n",
            answer.number, answer.place, answer.events, answer.records
        );
        let printed: String = records
            .iter()
            .map(|record| format!("{record}\n"))
            .chain([last])
            .collect();
        assert_eq!(
            program(&vector.table, &vector.scene),
            printed,
            "{}",
            vector.line
        );
    }
}

#[test]
fn the_pages_forecasts() {
    let list = forecasts(&[VECTORS], FORECASTS);
    for vector in &list {
        let (table, scene) = (&vector.table, &vector.scene);
        assert_eq!(forecast(table, scene), vector.forecast, "{}", vector.line);
        assert_eq!(
            Some(record_bound(table, scene)),
            vector.bound,
            "{}",
            vector.line
        );
        let needed = 16 * vector.forecast.records as usize;
        assert_eq!(run(table, scene, needed).0.number, vector.forecast.number);
        assert_eq!(run(table, scene, needed - 1).0.number, 25);
    }
    assert_eq!(list.len(), 2);
}

/// Every vector's forecast is its run's, and within the bound, event by event.
#[test]
fn forecasts_of_the_pages_vectors() {
    for vector in vectors(VECTORS)
        .iter()
        .filter(|vector| vector.output == AMPLE)
    {
        let told = forecast(&vector.table, &vector.scene);
        let four = (told.number, told.place, told.records);
        let expected = (
            vector.answer.number,
            vector.answer.place,
            vector.answer.records,
        );
        assert_eq!(four, expected, "{}", vector.line);
        let counts = forecast_by_event(&vector.table, &vector.scene).1;
        let holds = |event: &EventCounts| event.records <= event.bound();
        assert!(counts.iter().all(holds), "{}", vector.line);
    }
}

#[test]
fn the_pages_former_results() {
    for kept in kept() {
        let Kept {
            plus: written,
            table,
            vector,
            now,
        } = kept;
        let (line, scene, output) = (vector.line, &vector.scene, vector.output);
        assert_eq!(plus(&table), Some(written.clone()), "{line}");
        assert_eq!(
            judge(&written),
            answer(0, written.len() as u64, 0, 0),
            "{line}"
        );
        vector.check(&written);
        assert_eq!(run(&table, scene, output).0, now, "{line}");
        assert_eq!(
            run_under(Defaults::Former, &table, scene, output),
            run(&written, scene, output),
            "{line}"
        );
    }
    assert_eq!(kept().len(), 7);
}

/// t+ gives what t gives under the former defaults: on every vector of the page.
#[test]
fn former_results_of_the_pages_vectors() {
    for vector in vectors(VECTORS) {
        let (table, scene, output) = (&vector.table, &vector.scene, vector.output);
        let kept = former(table);
        assert_eq!(
            run(&kept, scene, output),
            run_under(Defaults::Former, table, scene, output),
            "{}",
            vector.line
        );
        assert_eq!(
            forecast(&kept, scene),
            forecast_under(Defaults::Former, table, scene),
            "{}",
            vector.line
        );
        if vector.answer.events < 20 {
            same_program_and_sessions(&vector, &kept);
        }
    }
}

fn same_program_and_sessions(vector: &Vector, kept: &[u8]) {
    let (table, scene) = (&vector.table, &vector.scene);
    let printed = program_under(Defaults::Former, table, scene);
    assert_eq!(program(kept, scene), printed, "{}", vector.line);
    for events in 0..=run(kept, scene, AMPLE).0.events as usize {
        let session = session_after_under(Defaults::Former, table, scene, events);
        let got = session_after(kept, scene, events);
        assert_eq!(got, session, "{}", vector.line);
    }
}

#[test]
fn former_sessions() {
    let scene = b"<r xmlns='u'><w xmlns='q' xml:a=''><x xmlns='u'>";
    let unwrapped = Strand {
        mode: 1,
        action: Action::Unwrap,
        target: Some(0),
        opened_here: false,
    };
    let strand = |session: Session| session.levels[2].strands[0];
    assert_eq!(strand(session_after(&former(&t()), scene, 3)), unwrapped);
    assert_eq!(
        strand(session_after_under(Defaults::Former, &t(), scene, 3)),
        unwrapped
    );
    let rejected = Strand {
        mode: 1,
        action: Action::Validate,
        target: Some(2),
        opened_here: true,
    };
    assert_eq!(strand(session_after(&t(), scene, 3)), rejected);
}

/// So many rules, none of them for any: by kind, mode and then class.
fn naming(modes: u8, rules: usize) -> Vec<u8> {
    let of = |number: usize| {
        let (kind, mode) = (number % 2, number / 2 % modes as usize);
        let class = [1, 0, XML][number / 2 / modes as usize];
        rule(mode as u8, kind as u8, class, Action::Attach, 0, mode as u8)
    };
    table(&["u"], modes, 0, (0..rules).map(of).collect())
}

#[test]
fn t_plus_of_128_rules() {
    for (modes, rules) in [(32, 64), (32, 63), (31, 66), (16, 96), (1, 6)] {
        let (table, scene) = (
            naming(modes, rules),
            b"<r xmlns='u' xml:a=''><x xmlns='v' xml:a=''/></r>",
        );
        let kept = former(&table);
        assert_eq!(kept[3] as usize, rules + 2 * modes as usize);
        assert_eq!(judge(&kept).number, 0);
        assert_eq!(
            run(&kept, scene, AMPLE),
            run_under(Defaults::Former, &table, scene, AMPLE)
        );
        assert_eq!(run(&kept, scene, 0).0.records, 0);
        assert_eq!(run(&table, scene, AMPLE).0.records, 6);
    }
    for (modes, rules) in [(32, 65), (31, 67), (32, 128)] {
        assert_eq!(judge(&naming(modes, rules)).number, 0);
        assert_eq!(plus(&naming(modes, rules)), None);
    }
}

#[test]
fn t_plus_of_refused_tables_and_of_tables_that_lack_nothing() {
    for refused in [
        &[][..],
        &t()[..9],
        &[0, 0, 0, 0],
        &[2, 1, 0, 0, 1, b'u', 1, b'u'],
    ] {
        assert_ne!(judge(refused).number, 0);
        assert_eq!(plus(refused), None);
    }
    for action in [Action::Attach, Action::Unwrap, Action::Validate] {
        let any = |kind| rule(0, kind, ANY, action, 0, 0);
        let lacks_none = table(&["u"], 1, 1, vec![any(ELEMENT), any(ATTRIBUTE)]);
        assert_eq!(plus(&lacks_none), Some(lacks_none));
        let one = table(&["u"], 1, 1, vec![any(ATTRIBUTE)]);
        let both = table(
            &["u"],
            1,
            1,
            vec![any(ATTRIBUTE), rule(0, ELEMENT, ANY, Action::Unwrap, 0, 0)],
        );
        assert_eq!(plus(&one), Some(both));
    }
    assert_eq!(plus(&former(&t2())), Some(former(&t2())));
}

/// A listed URI stands 4 bytes further on for each rule added.
#[test]
fn uris_of_t_plus() {
    let (table, scene) = (t2(), b"<r xmlns='q'/>");
    let kept = former(&table);
    for class in [1, 2] {
        let (_, at, len) = uri(&table, scene, class, 0, 0);
        assert_eq!(uri(&kept, scene, class, 0, 0), (0, at + 4 * 3, len));
    }
    for class in [0, 3, 253, 254, 255] {
        assert_eq!(
            uri(&kept, scene, class, 10, 1),
            uri(&table, scene, class, 10, 1)
        );
    }
}

fn element(class: u8, action: Action, next: u8) -> Rule {
    rule(0, ELEMENT, class, action, 0, next)
}

/// No rule names the class, and none names any; a rule that unwraps is one.
#[test]
fn n3_1_no_rule_is_taken() {
    let naming = table(&["u"], 1, 1, vec![element(1, Action::Unwrap, 0)]);
    assert_eq!(records(&naming, "<r xmlns='u'/>"), [""; 0]);
    assert_eq!(records(&naming, "<r xmlns='q'/>")[0], "0 0 255 0 0 0 0");
    let any = table(&["u"], 1, 1, vec![element(ANY, Action::Unwrap, 0)]);
    assert_eq!(records(&any, "<r/>"), [""; 0]);
    assert_eq!(records(&any, "<r xmlns='u'><xml:x/></r>"), [""; 0]);
}

/// 65,535 units are opened: one more may be, and no second one.
#[test]
fn n3_3_a_reject_unit_counts_towards_24() {
    let with = |units| Session {
        units,
        ..Session::fresh()
    };
    let scene = b" <r/>";
    for (units, output, expected) in [
        (65_535, AMPLE, answer(0, 5, 1, 2)),
        (65_535, 32, answer(0, 5, 1, 2)),
        (65_535, 31, answer(25, 1, 0, 0)),
        (65_536, AMPLE, answer(24, 1, 0, 0)),
        (65_536, 0, answer(24, 1, 0, 0)),
    ] {
        assert_eq!(step(&t(), scene, &with(units), output).0, expected);
    }
    assert_eq!(step(&t(), scene, &with(65_535), AMPLE).1.units, 65_536);
    assert_eq!(
        step(&former(&t()), scene, &with(65_536), 0).0,
        answer(0, 5, 1, 0)
    );
}

/// D1 before: now w leaves unit 0, and x is attached to w's.
#[test]
fn n3_5_the_former_target_is_left() {
    let rules = vec![
        rule(0, ELEMENT, 1, Action::Validate, 0, 1),
        rule(1, ELEMENT, 2, Action::Attach, 0, 1),
    ];
    let table = table(&["u", "v"], 2, 1, rules);
    let all = records(&table, "<r xmlns='u'><w xmlns='q'>b<x xmlns='v'/></w></r>");
    assert_eq!(
        unit(&all, 0),
        ["0 0 0 0 0 0", "1 1 1 1 0 0", "5 1 47 1 0 0", "6 0 0 0 0 0"]
    );
    let of_w = unit(&all, 1);
    assert_eq!(
        of_w[..3],
        ["0 255 13 0 0 0", "1 255 14 1 23 1", "4 0 26 1 0 0"]
    );
    assert_eq!(of_w[3..5], ["1 2 28 1 0 0", "5 2 28 1 0 0"]);
    assert_eq!(all.len(), 4 + 7);
}

/// The mode of a rejected element is that of its strand, not mode 0.
#[test]
fn n3_6_attributes_of_a_rejected_element() {
    let rules = vec![
        rule(0, ELEMENT, 1, Action::Validate, 0, 1),
        rule(0, ATTRIBUTE, ANY, Action::Validate, 1, 0),
        rule(1, ATTRIBUTE, XML, Action::Validate, 2, 0),
    ];
    let table = table(&["u"], 2, 3, rules);
    let opens = |scene: &str| -> Vec<String> {
        let all = records(&table, scene).into_iter();
        all.filter(|record| record.split(' ').nth(1) == Some("0"))
            .collect()
    };
    assert_eq!(opens("<r xml:a=''/>"), ["0 0 1 0 1 0 0", "1 0 255 0 0 0 0"]);
    let inside = "<r xmlns='u'><x xmlns='q' xml:a=''/></r>";
    assert_eq!(
        opens(inside),
        ["0 0 0 0 0 0 0", "1 0 2 13 1 0 0", "2 0 255 13 0 0 0"]
    );
}

/// An attribute that no rule is taken for is written where the strand delivers.
#[test]
fn n3_7_attached_by_default_is_attach() {
    let scene = "<r xmlns:p='u' p:a='' xml:b='' c=''/>";
    let names = |rules: Vec<Rule>| -> Vec<String> {
        let all = records(&table(&["u"], 1, 1, rules), scene).into_iter();
        all.filter(|record| record.starts_with("0 2 ")).collect()
    };
    let (of_p, of_xml, of_none) = ("0 2 1 17 1 0 0", "0 2 254 26 1 0 0", "0 2 0 31 1 0 0");
    assert_eq!(names(vec![]), [of_p, of_xml, of_none]);
    assert_eq!(
        names(vec![element(ANY, Action::Validate, 0)]),
        [of_p, of_xml, of_none]
    );
    assert_eq!(names(vec![element(ANY, Action::Unwrap, 0)]), [""; 0]);
    assert_eq!(names(vec![element(ANY, Action::Attach, 0)]), [""; 0]);
    let attribute = |class, action| rule(0, ATTRIBUTE, class, action, 0, 0);
    assert_eq!(names(vec![attribute(1, Action::Unwrap)]), [of_xml, of_none]);
    assert_eq!(names(vec![attribute(ANY, Action::Unwrap)]), [of_none]);
    assert_eq!(
        names(vec![
            attribute(ANY, Action::Unwrap),
            attribute(XML, Action::Attach)
        ]),
        [of_xml, of_none]
    );
    assert_eq!(
        names(vec![attribute(0, Action::Unwrap)]),
        [of_p, of_xml, of_none]
    );
}

#[test]
fn n3_8_255_is_no_schema_of_a_rule() {
    let validating = |schema| {
        table(
            &[],
            1,
            64,
            vec![rule(0, ELEMENT, 0, Action::Validate, schema, 0)],
        )
    };
    assert_eq!(judge(&validating(63)).number, 0);
    assert_eq!(judge(&validating(64)).number, 11);
    assert_eq!(judge(&validating(255)).number, 11);
    for schemas in [0, 1, 64] {
        assert_eq!(
            records(&table(&[], 1, schemas, vec![]), "<r/>")[0],
            "0 0 255 0 0 0 0"
        );
    }
}

#[test]
fn n3_9_the_uri_of_a_reject_open() {
    assert_eq!(uri(&t(), b"<r xmlns='q'/>", 255, 0, 0), (1, 0, 0));
}

#[test]
fn n3_10_the_number_of_strands() {
    for (table, scene) in [
        (t(), "<r><x xmlns='q'><y xmlns='v'>"),
        (t2(), "<r xmlns='u'><v xmlns='v'><q xmlns='q'>"),
    ] {
        let counts = |table: &[u8]| -> Vec<usize> {
            let session = session_after(table, scene.as_bytes(), 3);
            session
                .levels
                .iter()
                .map(|level| level.strands.len())
                .collect()
        };
        assert_eq!(counts(&table), counts(&former(&table)));
    }
}

#[test]
fn n3_11_the_session_of_a_reject_unit() {
    let session = session_after(&t(), b"<r><x><y xmlns='q'>", 3);
    let strand = |target, opened_here| {
        [Strand {
            mode: 0,
            action: Action::Validate,
            target: Some(target),
            opened_here,
        }]
    };
    assert_eq!(session.units, 2);
    assert_eq!(session.levels[0].strands, strand(0, true));
    assert_eq!(session.levels[1].strands, strand(0, false));
    assert_eq!(session.levels[2].strands, strand(1, true));
}
