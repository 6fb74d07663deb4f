//! The vectors that document 01 and RULINGS.md give in so many words, with what they say; the reference is asked too. Where request N3 changes one,
//! what stands here is asked of t+; the new answers are in the reference's n03.rs.
//! tests/rulings.rs has the vectors that the reference's author made of the same lines.

use differential::case::Case;
use differential::shapes::{alternating, bound, former, t, t2, table, validating, SAMPLE};
use differential::{asked, calls, checked, layout};
use reference::generate::rule;
use reference::table::{Rule, ANY, ATTRIBUTE_SECTION, ELEMENT_SECTION, XML};
use reference::{Action, Answer, Record, Session};

fn answer(number: u8, place: usize, events: u64, records: u64) -> Answer {
    Answer {
        number,
        place: place as u64,
        events,
        records,
    }
}

/// A run that both make alike, with an ample output.
fn run(name: &str, table: &[u8], scene: &[u8]) -> (Answer, Vec<String>) {
    let (answer, records) = checked::ample_run(&Case::new(name, 0, table, scene));
    (answer, records.chunks(16).map(|record| Record::read(record).line()).collect())
}

fn ends(name: &str, table: &[u8], scene: &[u8]) -> (u8, u64) {
    let answer = run(name, table, scene).0;
    (answer.number, answer.place)
}

#[test]
fn sample_a() {
    let printed = "0 0 0 0 0 0 0\n0 1 1 1 1 0 0\n0 4 0 13 1 0 0\n0 1 1 15 1 0 0\n0 5 1 15 1 0 0\n0 5 1 20 1 0 0\n0 6 0 0 0 0 0\n9 22 5 7\n";
    assert_eq!(asked::program(&t(), SAMPLE), printed);
    let (got, records) = run("A", &t(), SAMPLE);
    assert_eq!(got, answer(9, 22, 5, 7));
    assert_eq!(records.join("\n") + "\n9 22 5 7\n", printed);
}

#[test]
fn samples_b_c_f_g_h() {
    assert_eq!(run("B", &t(), b"").0, answer(1, 0, 0, 0));
    assert_eq!(run("C", &former(&t()), b"<r/>").0, answer(9, 4, 2, 0));
    assert_eq!(ends("F", &t(), b"<r></s>"), (4, 3));
    assert_eq!(ends("G", &t(), b"<p:r/>"), (5, 0));
    assert_eq!(ends("H", &t(), b"<r/"), (1, 3));
    assert_eq!(ends("H", &t(), b"<r/x"), (2, 3));
}

#[test]
fn sample_d() {
    let (got, records) = run("D", &t2(), b"<r xmlns=\"u\"><x xmlns=\"v\"/></r>");
    assert_eq!(got, answer(9, 31, 4, 10));
    let of_x: Vec<&str> = records.iter().filter(|r| r.contains(" 2 14 1 ")).map(|r| &r[..3]).collect();
    assert_eq!(of_x, ["1 1", "0 1", "1 5", "0 5"]);
    assert_eq!(records[2], "1 0 1 13 0 0 0");
}

#[test]
fn sample_e() {
    let (_, records) = run("E", &t2(), b"<r xmlns=\"u\">a<w xmlns=\"q\">b<x xmlns=\"v\"/></w>c</r>");
    let unit: Vec<&str> = records.iter().filter_map(|r| r.strip_prefix("0 ")).collect();
    let expected = [
        "0 0 0 0 0 0",
        "1 1 1 1 0 0",
        "4 0 13 1 0 0",
        "1 2 29 1 0 0",
        "5 2 29 1 0 0",
        "4 0 46 1 0 0",
        "5 1 49 1 0 0",
        "6 0 0 0 0 0",
    ];
    assert_eq!(unit, expected);
}

#[test]
fn run_only_samples() {
    let nested = |depth: usize| ("<r>".repeat(depth) + &"</r>".repeat(depth)).into_bytes();
    assert_eq!(ends("depth 64", &t(), &nested(64)), (9, 64 * 7));
    assert_eq!(ends("depth 65", &t(), &nested(65)), (21, 64 * 3));
    assert_eq!(ends("four v", &t2(), alternating(4).as_bytes()).0, 9);
    assert_eq!(ends("five v", &t2(), alternating(5).as_bytes()), (23, 13 + 4 * 26));
    assert_eq!(asked::run(&t(), SAMPLE, 31).0, answer(25, 0, 0, 0));
    assert_eq!(asked::run(&t(), SAMPLE, 32).0, answer(25, 13, 1, 2));
}

#[test]
fn rulings_a_tables() {
    let judged = |table: &[u8]| checked::judge(&Case::new("A", 0, table, b"")).number;
    for (table, number) in [
        (&[1, 1, 0, 0, 0][..], 11),
        (&[1, 1, 0, 0, 0, 0x75], 10),
        (&[1, 1, 0, 0], 10),
        (&[0, 0, 0, 0, 0xFF], 11),
        (&[], 10),
        (&[0, 1, 0, 0], 0),
    ] {
        assert_eq!(judged(table), number, "A1 {table:?}");
    }
    assert_eq!(judged(&t()), 0);
    assert_eq!(judged(&t2()), 0);
    let with = |schemas, rules: Vec<Rule>| judged(&table(&["u"], 2, schemas, rules));
    let attribute = |next| rule(0, ATTRIBUTE_SECTION, ANY, Action::Validate, 0, next);
    assert_eq!(with(1, vec![attribute(0), attribute(1)]), 0, "A2");
    assert_eq!(with(1, vec![attribute(1), attribute(1)]), 12, "A2");
    assert_eq!(with(1, vec![attribute(2)]), 11, "A3");
    let element = |class, action, schema| rule(0, ELEMENT_SECTION, class, action, schema, 0);
    assert_eq!(with(0, vec![element(1, Action::Validate, 0)]), 11, "A4");
    assert_eq!(with(2, vec![element(1, Action::Attach, 1)]), 11, "A4");
    assert_eq!(with(2, vec![element(1, Action::Unwrap, 1)]), 11, "A4");
    assert_eq!(judged(&table(&["http://www.w3.org/2000/xmlns/"], 1, 0, vec![])), 0, "A5");
    assert_eq!(judged(&table(&["http://www.w3.org/XML/1998/namespace"], 1, 0, vec![])), 12);
    assert_eq!(with(1, vec![element(1, Action::Attach, 0), element(1, Action::Unwrap, 0)]), 12, "A6");
    assert_eq!(with(1, vec![element(0, Action::Attach, 0), element(ANY, Action::Unwrap, 0)]), 0, "A6");
}

#[test]
fn a7_any_and_naming_rules() {
    let element = |class, action| rule(0, ELEMENT_SECTION, class, action, 0, 0);
    let any = table(&["u"], 1, 1, vec![element(ANY, Action::Validate)]);
    assert_eq!(run("A7", &any, b"<r/>").0.records, 4);
    assert_eq!(run("A7", &any, b"<xml:r/>").0.records, 4);
    let hidden = table(&["u"], 1, 1, vec![element(ANY, Action::Validate), element(1, Action::Unwrap)]);
    assert_eq!(run("A7", &hidden, b"<r xmlns='u'/>").0.records, 0);
    let none = rule(0, ATTRIBUTE_SECTION, 0, Action::Validate, 0, 0);
    let never = table(&["u"], 1, 1, vec![element(ANY, Action::Validate), none]);
    assert_eq!(run("A7", &never, b"<r a=''/>").0.records, 6);
}

/// Scenes with T, number and place.
const WITH_T: &[(&str, &[u8], u8, u64)] = &[
    ("B1", b"<r  a = ''\n\t/>", 9, 14),
    ("B2", b"<r>&x</r>", 2, 4),
    ("B2", b"<r>&ampx", 2, 7),
    ("B2", b"<r>&<", 2, 4),
    ("B2", b"<r>&lt", 1, 6),
    ("B5", b"</r>", 2, 1),
    // N1-9 changes B6, N1-8 and N1-19 change B7, N1-21 changes B8 for text: where a misc may begin, the byte with which none goes on is refused.
    ("B6", b"<r/><s/>", 2, 5),
    ("B6", b"<r/><", 1, 5),
    ("B7", b"<?xml?><r/>", 2, 5),
    ("B7", b"<!DOCTYPE r><r/>", 2, 2),
    ("B7", b"\xEF\xBB\xBF<r/>", 2, 0),
    ("B7", b"x<r/>", 2, 0),
    ("B8", b"<r a='\">]]>\x7F\xC3\xBF'>] ]>\"'\x7F\xC3\xBF</r>", 9, 29),
    ("B8", b"<r a='\">]]>\x7F\xC3\xBF'>]]>\"'\x7F\xC3\xBF</r>", 2, 16),
    // N4-2 changes B8: characters in UTF-8.
    ("B8", b"<r a='\">]]>\x7F\xFF'>] ]>\"'\x7F\xFF</r>", 2, 12),
    ("B8", b"<r a='\">]]>\x7F'>] ]>\"'\x7F\xFF</r>", 2, 21),
    ("B8", b"<r>\x0B</r>", 2, 3),
    ("B9", b"<r></s", 1, 6),
    ("B9", b"<r a='' a='' ", 1, 13),
    ("B9", b"<xmlns:r !", 2, 9),
    ("B10", b"<r>abc", 1, 6),
    ("B10", b"<r>abc<", 1, 7),
    ("B12", b"<p:r xmlns:p='u' xmlns:q='u'></q:r>", 4, 29),
    ("B13", b"< r", 2, 1),
    ("B13", b"<r></ r", 2, 5),
    ("B13", b"<r/ >", 2, 3),
    ("B13", b"<a:b:c/>", 2, 4),
    ("B13", b"<r :a=''/>", 2, 3),
    ("B13", b"<r a/>", 2, 4),
    ("B13", b"<r a=''b=''/>", 2, 7),
    ("B13", b"<r a==''/>", 2, 5),
    ("B13", b"<p:/>", 2, 3),
    ("B13", b"<r></>", 2, 5),
    ("B13", b"<r//>", 2, 3),
    ("C2", b"<r xmlns:xml='http://www.w3.org/XML/1998/namespace'/>", 5, 0),
    ("C2", b"<r xmlns:p='http://www.w3.org/XML/1998/namespace'/>", 5, 0),
    ("C2", b"<r xmlns='http://www.w3.org/XML/1998/namespace'/>", 5, 0),
    ("C2", b"<r xmlns:p='http://www.w3.org/2000/xmlns/'/>", 5, 0),
    ("C2", b"<r xmlns='http://www.w3.org/2000/xmlns/'/>", 5, 0),
    ("C3", b"<r xmlns='a&amp;b'/>", 5, 0),
    ("C4", b"<r xmlns='u' xmlns='v'/>", 6, 0),
    ("C4", b"<r xmlns='u' xmlns='v' xmlns:p=''/>", 5, 0),
    ("C5", b"<p:r p:a='' xmlns:p='u'/>", 9, 25),
    ("C5", b"<r q:a=''/>", 5, 0),
    ("C6", b"<p:r xmlns:p='u' a='' p:a=''/>", 9, 30),
    ("C6", b"<r xmlns:p='u' xmlns:q='u' p:a='' q:a=''/>", 6, 0),
    ("C7", b"<xmlns/>", 9, 8),
    ("C7", b"<r xmlns:p='u' p:xmlns='v'/>", 9, 28),
    ("C7", b"<r xmlns:xmlns='u'/>", 5, 0),
    ("E2", b"<r/>  ", 9, 6),
    ("E2", b"  ", 1, 2),
    ("F7", b"<r/>\x00", 2, 4),
];

#[test]
fn rulings_b_c_e_f_with_t() {
    for &(name, scene, number, place) in WITH_T {
        assert_eq!(ends(name, &t(), scene), (number, place), "{name}: {}", scene.escape_ascii());
    }
}

#[test]
fn b3_names_of_64_and_65_bytes() {
    let part = "n".repeat(64);
    for (scene, number, place) in [
        (format!("<{part}:{part} xmlns:{part}='u'/>"), 9, 207),
        (format!("<{part}n/>"), 3, 65),
        (format!("<{part}!"), 2, 65),
        (format!("<{part}/>"), 9, 67),
        (format!("<r {part}n=''/>"), 3, 67),
        (format!("<r xmlns:{part}n=''/>"), 3, 73),
        (format!("<r></{part}n>"), 3, 69),
        (format!("<r></{part}>"), 4, 3),
    ] {
        assert_eq!(ends("B3", &t(), scene.as_bytes()), (number, place), "{scene}");
    }
}

#[test]
fn b4_a_seventeenth_attribute() {
    let open = (0..16).map(|n| format!(" a{n:02}=''")).fold(String::from("<r"), |tag, one| tag + &one);
    let at = open.len() as u64;
    for (more, number, place) in [
        ("/>", 9, at + 2),
        (" b", 3, at + 1),
        (" b=''/>", 3, at + 1),
        (" !", 2, at + 1),
        (" ", 1, at + 1),
        ("b", 2, at),
    ] {
        assert_eq!(ends("B4", &t(), format!("{open}{more}").as_bytes()), (number, place), "{more}");
    }
}

#[test]
fn b10_e1_e2_places_of_sessions() {
    let places = |scene: &[u8]| {
        let (mut session, mut places) = (Session::fresh(), Vec::new());
        loop {
            let (answer, next, _) = asked::step(&t(), scene, &session, 65_536);
            if answer.number != 0 {
                return (places, answer.number, session.place);
            }
            assert_eq!(answer.place, next.place);
            places.push(next.place);
            session = next;
        }
    };
    assert_eq!(places(SAMPLE), (vec![13, 14, 18, 18, 22], 9, 22));
    assert_eq!(places(b"<r>abc"), (vec![3], 1, 3));
    assert_eq!(places(b"<r>abc<"), (vec![3, 6], 1, 6));
    assert_eq!(places(b"<r> </r>"), (vec![3, 4, 8], 9, 8));
    assert_eq!(places(b"<r/>  "), (vec![4, 4], 9, 4));
    assert_eq!(places(b"  "), (vec![], 1, 0));
    assert_eq!(places(b"<r/>\x00"), (vec![4, 4], 2, 4));
}

#[test]
fn rulings_d_records() {
    let element = |class, action, schema| rule(0, ELEMENT_SECTION, class, action, schema, 0);
    let attribute = |class, action, schema| rule(0, ATTRIBUTE_SECTION, class, action, schema, 0);
    let d3 = run("D3", &t(), b"<r xmlns=\"u\" a=\"\"/>").1;
    assert_eq!(d3[2..4], ["0 2 0 13 1 0 0", "0 3 0 16 0 0 0"]);
    let both = vec![
        element(ANY, Action::Validate, 0),
        attribute(ANY, Action::Validate, 1),
        attribute(ANY, Action::Attach, 0),
    ];
    let d5 = run("D5", &table(&[], 1, 2, both), b"<r xmlns:p='x' p:a='1'/>").1;
    let expected = [
        "0 0 1 0 1 0 0",
        "0 1 253 0 0 0 0",
        "0 2 255 17 1 12 1",
        "0 3 0 20 1 0 0",
        "0 5 253 0 0 0 0",
        "0 6 0 0 0 0 0",
        "1 0 0 0 0 0 0",
        "1 1 0 1 1 0 0",
        "1 2 255 17 1 12 1",
        "1 3 0 20 1 0 0",
        "1 5 0 1 1 0 0",
        "1 6 0 0 0 0 0",
    ];
    assert_eq!(d5, expected);
    let any = table(&[], 1, 1, vec![element(ANY, Action::Validate, 0)]);
    let d8 = run("D8", &any, b"<r xmlns=\"P\"><x xmlns=\"P\"/></r>").1;
    assert_eq!(d8[1..3], ["0 1 255 1 1 10 1", "0 1 255 14 1 23 1"]);
    let named = table(&[], 1, 2, vec![element(ANY, Action::Validate, 0), element(XML, Action::Validate, 1)]);
    let d9 = run("D9", &named, b"<xml:r xml:a=''/>").1;
    assert_eq!(d9[..3], ["0 0 1 0 0 0 0", "0 1 254 5 1 0 0", "0 2 254 11 1 0 0"]);
}

#[test]
fn e5_e6_e7_outputs() {
    let (table, kept) = (t(), former(&t()));
    let short = |scene: &[u8], out_len| checked::run(&Case::new("E5", 0, &table, scene), out_len);
    assert_eq!(short(SAMPLE, 47), answer(25, 13, 1, 2));
    assert_eq!(short(SAMPLE, 48), answer(25, 14, 2, 3));
    assert_eq!(short(SAMPLE, 80), answer(25, 18, 4, 5));
    assert_eq!(short(b"<r xmlns=\"u\"/>", 32 + 31), answer(25, 0, 1, 2));
    assert_eq!(short(b"  <r xmlns=\"u\"/>", 0), answer(25, 2, 0, 0));
    let without_records = Case::new("E4", 0, &kept, b"<r>a</r>");
    assert_eq!(checked::run(&without_records, 0), answer(9, 8, 3, 0));
}

#[test]
fn rulings_f_order_and_limits() {
    let deep = "<r>".repeat(64);
    let full = bound(4, 16);
    for (scene, number, place) in [
        (format!("{deep}<x/>"), 21, deep.len()),
        (format!("{deep}<q:x/>"), 5, deep.len()),
        (format!("{deep}<x a='' a=''/>"), 6, deep.len()),
        (format!("{deep}<x !"), 2, deep.len() + 3),
        (format!("{full}{}<x xmlns='u'/>", "<r>".repeat(60)), 21, full.len() + 180),
        (format!("{full}<x xmlns=''/>"), 22, full.len()),
        (format!("{full}<x>"), 1, full.len() + 3),
    ] {
        assert_eq!(ends("F", &t(), scene.as_bytes()), (number, place as u64));
    }
    let step = |rules, units, out_len| {
        let session = Session { units, ..Session::fresh() };
        let mut bytes = layout::encode(&session).expect("it has bytes");
        checked::step(&Case::new("F5", 0, &validating(rules), b" <r/>"), &mut bytes, out_len).0
    };
    assert_eq!(step(17, 0, 999), answer(23, 1, 0, 0));
    assert_eq!(step(17, 65_536, 0), answer(23, 1, 0, 0));
    assert_eq!(step(16, 65_536, 0), answer(24, 1, 0, 0));
    assert_eq!(step(16, 65_521, 0), answer(24, 1, 0, 0));
    assert_eq!(step(16, 65_520, 0), answer(25, 1, 0, 0));
    assert_eq!(step(16, 65_520, 511), answer(25, 1, 0, 0));
    assert_eq!(step(16, 65_520, 512), answer(0, 5, 1, 32));
}

/// 7 stands behind the table and before everything else; one byte less is read.
#[test]
fn seven() {
    let long = vec![b' '; 16_777_216];
    assert_eq!(asked::run(&t(), &long, 0).0, answer(7, 0, 0, 0));
    assert_eq!(asked::run(&t()[..9], &long, 0).0, answer(10, 0, 0, 0));
    assert_eq!(asked::run(&[0, 0, 0, 0], &long, 0).0, answer(11, 0, 0, 0));
    assert_eq!(asked::run(&table(&["u", "u"], 1, 0, vec![]), &long, 0).0, answer(12, 0, 0, 0));
    assert_eq!(asked::run(&t(), &long[1..], 0).0, answer(1, 16_777_215, 0, 0));
    let broken = Session {
        place: u64::MAX,
        awaited: true,
        ..Session::fresh()
    };
    assert_eq!(asked::step(&t(), &long, &broken, 0).0, answer(7, 0, 0, 0));
    assert_eq!(asked::step(&t(), &long[1..], &broken, 0).0, answer(20, 0, 0, 0));
    assert_eq!(asked::uri(&t(), &long, 255, 16_777_215, 1), (1, 16_777_215, 1));
}

/// A text and a name at the very end of the longest scene: fields of 24 bits filled.
#[test]
fn the_longest_scene() {
    let mut scene = b"<r xmlns='u'>".to_vec();
    scene.resize(16_777_215 - 8, b'x');
    scene.extend(b"<y/></r>");
    let (got, records) = run("long", &t(), &scene);
    assert_eq!((got.number, got.place), (9, 16_777_215));
    assert!(
        records.iter().any(|record| record == &format!("0 4 0 13 {} 0 0", 16_777_215 - 8 - 13)),
        "{records:?}"
    );
}

#[test]
fn j3_uris() {
    let (table, scene) = (t2(), b"0123456789");
    let at = table.len() as u64 - 3;
    assert_eq!(asked::uri(&table, scene, 1, 0, 0), (0, at, 1));
    assert_eq!(asked::uri(&table, scene, 2, 99, 99), (0, at + 2, 1));
    for class in [0, 3, 30, 31, 252, 253, 254] {
        assert_eq!(asked::uri(&table, scene, class, 1, 1), (1, 0, 0));
    }
    assert_eq!(asked::uri(&table, scene, 255, 10, 0), (1, 10, 0));
    assert_eq!(asked::uri(&table, scene, 255, 5, 6), (1, 0, 0));
    assert_eq!(asked::uri(&table, scene, 255, u64::MAX, 2), (1, 0, 0));
    assert_eq!(asked::uri(&[], scene, 255, 5, 1), (1, 0, 0));
}

#[test]
fn fresh_sessions() {
    assert_eq!(calls::session_size(), layout::SIZE);
    assert_eq!(layout::decode(&asked::fresh()), Some(Session::fresh()));
}
