//! F: order and limits.

use crate::common::*;
use reference::generate::{many_units, rule};
use reference::table::ANY;
use reference::{accepted_events, run, session_after, step, Action, Session};

fn with_bindings(levels: usize, each: usize) -> String {
    (0..levels)
        .map(|level| {
            let names = (0..each).map(|n| format!(" xmlns:p{level}x{n}='n'"));
            format!("<r{}>", names.collect::<String>())
        })
        .collect()
}

#[test]
fn f1_order_in_a_tag() {
    let deep = "<r>".repeat(64);
    let at = deep.len() as u64;
    assert_eq!(with_t(&format!("{deep}<x/>")), (21, at));
    assert_eq!(with_t(&format!("{deep}<x !")), (2, at + 3));
    assert_eq!(with_t(&format!("{deep}<x ")), (1, at + 3));
    assert_eq!(with_t(&format!("{deep}<q:x/>")), (5, at));
    assert_eq!(with_t(&format!("{deep}<x a='' a=''/>")), (6, at));
    assert_eq!(with_t(&format!("{deep}text</r>")), (1, at + 8));
}

#[test]
fn f1_21_before_22() {
    let open = format!("{}{}", with_bindings(4, 16), "<r>".repeat(60));
    let at = open.len() as u64;
    assert_eq!(with_t(&format!("{open}<x xmlns='u'/>")), (21, at));
    let shallow = with_bindings(4, 16);
    assert_eq!(
        with_t(&format!("{shallow}<x xmlns='u'/>")),
        (22, shallow.len() as u64)
    );
}

#[test]
fn f2_22_counts_all_of_the_tag() {
    let open = with_bindings(6, 10);
    let at = open.len() as u64;
    let four = "<x xmlns:a='n' xmlns:b='n' xmlns:c='n' xmlns='n'/>";
    let five = "<x xmlns:a='n' xmlns:b='n' xmlns:c='n' xmlns:d='n' xmlns=''/>";
    let close = "</r>".repeat(6);
    assert_eq!(with_t(&format!("{open}{four}{close}")).0, 9);
    assert_eq!(
        with_t(&format!("{open}{four}{five}{close}")),
        (22, at + four.len() as u64)
    );
}

#[test]
fn f1_22_before_23() {
    let rules = (0..17).map(|schema| rule(0, ELEMENT, 1, Action::Validate, schema, 0));
    let table = table(&["u"], 1, 17, rules.collect());
    let open = with_bindings(4, 16);
    let at = open.len() as u64;
    assert_eq!(
        ends(&table, format!("{open}<x xmlns='u'/>").as_bytes()),
        (22, at)
    );
}

#[test]
fn f3_24_at_the_65537th_unit() {
    // 1 + 127 * (32 * 16 + 4) + 3 = 65,536
    let mut children = vec![16; 32];
    children.extend([4, 0, 0, 0]);
    let (table, scene) = many_units(&children);
    let (got, bytes) = run(&table, &scene, AMPLE);
    assert_eq!((got.number, got.place), (9, scene.len() as u64));
    let last_unit = bytes.chunks(16).map(|record| &record[..2]).max();
    assert_eq!(last_unit, Some(&[0xFF, 0xFF][..]));
    children.push(0);
    let (table, scene) = many_units(&children);
    let got = run(&table, &scene, AMPLE).0;
    let at = scene.len() as u64 - "<x xmlns='z'/></r>".len() as u64;
    assert_eq!((got.number, got.place), (24, at));
    assert_eq!(got.events, 1 + 2 * 36);
    assert_eq!(accepted_events(&table, &scene), 73);
}

#[test]
fn f4_24_before_25() {
    let mut children = vec![16; 33];
    children.push(0);
    let (table, scene) = many_units(&children);
    let accepted = accepted_events(&table, &scene);
    assert_eq!(accepted, 65);
    let session = session_after(&table, &scene, accepted);
    assert_eq!(session.units, 1 + 127 * 512);
    assert_eq!(step(&table, &scene, &session, 0).0.number, 24);
}

#[test]
fn f5_23_before_24() {
    let rules = (0..17).map(|schema| rule(0, ELEMENT, ANY, Action::Validate, schema, 0));
    let many = table(&[], 1, 17, rules.collect());
    assert_eq!(run(&many, b" <r/>", 0).0, answer(23, 1, 0, 0));
    let rules = (0..16).map(|schema| rule(0, ELEMENT, ANY, Action::Validate, schema, 0));
    let fine = table(&[], 1, 17, rules.collect());
    assert_eq!(run(&fine, b"<r/>", AMPLE).0, answer(9, 4, 2, 64));
    let full = Session {
        units: 65_536,
        ..Session::fresh()
    };
    assert_eq!(step(&many, b" <r/>", &full, 0).0, answer(23, 1, 0, 0));
    assert_eq!(step(&fine, b" <r/>", &full, 0).0, answer(24, 1, 0, 0));
    let room = Session {
        units: 65_520,
        ..Session::fresh()
    };
    assert_eq!(step(&fine, b" <r/>", &room, 0).0, answer(25, 1, 0, 0));
    assert_eq!(step(&fine, b" <r/>", &room, AMPLE).0, answer(0, 5, 1, 32));
}

#[test]
fn f6_f7_awaited_end_reads_nothing() {
    let (table, scene) = (former(&t()), b"<r/>\x00");
    assert_eq!(run(&table, scene, AMPLE).0, answer(2, 4, 2, 0));
    let (first, session, _) = step(&table, scene, &Session::fresh(), 0);
    assert_eq!(first, answer(0, 4, 1, 0));
    let (second, session, _) = step(&table, scene, &session, 0);
    assert_eq!(second, answer(0, 4, 1, 0));
    assert_eq!(step(&table, scene, &session, 0).0, answer(2, 4, 0, 0));
}

#[test]
fn i7_events_go_on_past_the_limits() {
    let deep = nested(70);
    let reading = reference::events(&deep);
    assert_eq!((reading.list.len(), reading.number), (140, 9));
    let table = table(
        &[],
        1,
        1,
        vec![rule(0, ELEMENT, ANY, Action::Validate, 0, 0)],
    );
    assert_eq!(accepted_events(&table, &deep), 64);
    let all = reference::prefix_records(&table, &deep, 140);
    assert_eq!(all.len(), 16 * 142);
    assert_eq!(run(&table, &deep, AMPLE).1, all[..16 * 65]);
}

#[test]
fn a_scene_may_be_as_deep_as_it_likes() {
    let deep = nested(200_000);
    let got = run(&former(&t()), &deep, AMPLE).0;
    assert_eq!(got, answer(21, 64 * 3, 64, 0));
}
