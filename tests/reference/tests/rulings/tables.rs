//! A: the table.

use crate::common::*;
use reference::generate::rule;
use reference::table::{ANY, XML, XMLNS_URI, XML_URI};
use reference::{judge, Action};

fn number(table: &[u8]) -> u8 {
    let judged = judge(table);
    let place = if judged.number == 0 {
        table.len() as u64
    } else {
        0
    };
    assert_eq!(judged, answer(judged.number, place, 0, 0));
    judged.number
}

#[test]
fn a1_measure() {
    assert_eq!(number(&[1, 1, 0, 0, 0]), 11);
    assert_eq!(number(&[1, 1, 0, 0, 0, 0x75]), 10);
    assert_eq!(number(&[1, 1, 0, 0]), 10);
    assert_eq!(number(&[0, 0, 0, 0, 0xFF]), 11);
    assert_eq!(number(&[2, 1, 0, 0, 0, 1, 0x75]), 11);
    assert_eq!(number(&[2, 1, 0, 0, 1, 0x75, 0]), 11);
    assert_eq!(number(&[2, 1, 0, 0, 1, 0x75, 2, 0x75]), 10);
    assert_eq!(number(&[]), 10);
    assert_eq!(number(&[0xFF, 0xFF, 0xFF]), 10);
    assert_eq!(number(&[0, 1, 0, 0]), 0);
    assert_eq!(number(&[0, 1, 0, 1]), 10);
    assert_eq!(number(&[0, 1, 0, 0, 0]), 10);
}

#[test]
fn header_ranges() {
    assert_eq!(number(&[31, 1, 0, 0]), 11);
    assert_eq!(number(&[0, 33, 0, 0]), 11);
    assert_eq!(number(&[0, 32, 64, 0]), 0);
    assert_eq!(number(&[0, 1, 65, 0]), 11);
    assert_eq!(number(&[0, 1, 0, 129]), 11);
    assert_eq!(number(&[0, 1, 0, 128]), 10);
    assert_eq!(number(&[30, 1, 0, 0]), 10);
}

#[test]
fn a2_repeated_rule() {
    let attribute = |next| rule(0, ATTRIBUTE, ANY, Action::Validate, 0, next);
    let two = table(&[], 2, 1, vec![attribute(0), attribute(1)]);
    assert_eq!(number(&two), 0);
    let one = |unit: u64| {
        [
            format!("{unit} 0 0 0 1 0 0"),
            format!("{unit} 1 253 0 0 0 0"),
            format!("{unit} 2 255 17 1 12 1"),
            format!("{unit} 3 0 20 0 0 0"),
            format!("{unit} 5 253 0 0 0 0"),
            format!("{unit} 6 0 0 0 0 0"),
        ]
    };
    let both: Vec<String> = [one(0), one(1)].concat();
    assert_eq!(records(&former(&two), "<r xmlns:p='x' p:a=''/>"), both);
    assert_eq!(
        number(&table(&[], 2, 1, vec![attribute(1), attribute(1)])),
        12
    );
}

#[test]
fn a3_next_mode_of_attribute_rules() {
    let attribute = |next| {
        table(
            &[],
            2,
            1,
            vec![rule(0, ATTRIBUTE, ANY, Action::Attach, 0, next)],
        )
    };
    assert_eq!(number(&attribute(1)), 0);
    assert_eq!(number(&attribute(2)), 11);
}

#[test]
fn a4_schemas() {
    let one = |schemas, action, schema| {
        number(&table(
            &[],
            1,
            schemas,
            vec![rule(0, ELEMENT, 0, action, schema, 0)],
        ))
    };
    assert_eq!(one(0, Action::Validate, 0), 11);
    assert_eq!(one(1, Action::Validate, 0), 0);
    assert_eq!(one(1, Action::Validate, 1), 11);
    assert_eq!(one(2, Action::Attach, 1), 11);
    assert_eq!(one(2, Action::Unwrap, 1), 11);
    assert_eq!(one(0, Action::Unwrap, 0), 0);
}

#[test]
fn fields_out_of_range() {
    let one = |uris: &[&str], mode, class| {
        number(&table(
            uris,
            2,
            1,
            vec![rule(mode, ELEMENT, class, Action::Attach, 0, 0)],
        ))
    };
    assert_eq!(one(&["u"], 1, 1), 0);
    assert_eq!(one(&["u"], 2, 1), 11);
    assert_eq!(one(&["u"], 1, 2), 11);
    assert_eq!(one(&["u"], 1, 253), 11);
    assert_eq!(one(&[], 0, XML), 0);
    let mut bits = t();
    bits[7] |= 1;
    assert_eq!(number(&bits), 11);
    let mut action_three = t();
    action_three[5] |= 1;
    assert_eq!(number(&action_three), 11);
}

#[test]
fn a5_reserved_uris() {
    let with = |uri: &[u8]| number(&table(&[std::str::from_utf8(uri).unwrap()], 1, 0, vec![]));
    assert_eq!(with(XMLNS_URI), 0);
    assert_eq!(with(XML_URI), 12);
    assert_eq!(number(&table(&["u", "v", "u"], 1, 0, vec![])), 12);
    assert_eq!(number(&table(&["u", "U", "uu"], 1, 0, vec![])), 0);
}

#[test]
fn a6_two_that_keep() {
    let pair = |one: (u8, Action), other: (u8, Action), next| {
        let first = rule(0, ELEMENT, one.0, one.1, 0, 0);
        let second = rule(0, ELEMENT, other.0, other.1, 0, next);
        number(&table(&["u"], 2, 1, vec![first, second]))
    };
    assert_eq!(pair((1, Action::Attach), (1, Action::Unwrap), 0), 12);
    assert_eq!(pair((1, Action::Attach), (1, Action::Attach), 1), 12);
    assert_eq!(pair((1, Action::Unwrap), (1, Action::Unwrap), 1), 12);
    assert_eq!(pair((0, Action::Attach), (ANY, Action::Unwrap), 0), 0);
    assert_eq!(pair((1, Action::Attach), (1, Action::Validate), 0), 0);
    let kinds = vec![
        rule(0, ELEMENT, 1, Action::Attach, 0, 0),
        rule(0, ATTRIBUTE, 1, Action::Attach, 0, 0),
        rule(1, ELEMENT, 1, Action::Attach, 0, 0),
    ];
    assert_eq!(number(&table(&["u"], 2, 1, kinds)), 0);
}

#[test]
fn order_of_11_and_12() {
    let twice = rule(0, ELEMENT, 1, Action::Attach, 0, 0);
    let bad = rule(0, ELEMENT, 1, Action::Attach, 1, 0);
    assert_eq!(number(&table(&["u"], 1, 1, vec![twice, twice, bad])), 11);
    assert_eq!(
        number(&table(&["u", "u", ""], 1, 1, vec![twice, twice])),
        11
    );
}

#[test]
fn a7_any_and_naming() {
    let any = table(
        &[],
        1,
        1,
        vec![rule(0, ELEMENT, ANY, Action::Validate, 0, 0)],
    );
    assert_eq!(records(&any, "<r/>").len(), 4);
    assert_eq!(records(&any, "<xml:r/>")[1], "0 1 254 5 1 0 0");
    let hidden = table(
        &["u"],
        1,
        1,
        vec![
            rule(0, ELEMENT, ANY, Action::Validate, 0, 0),
            rule(0, ELEMENT, 1, Action::Unwrap, 0, 0),
        ],
    );
    assert_eq!(records(&hidden, "<r xmlns='u'/>").len(), 0);
    assert_eq!(records(&hidden, "<r xmlns='v'/>").len(), 4);
    let attribute_of_none = table(
        &[],
        1,
        1,
        vec![
            rule(0, ELEMENT, ANY, Action::Validate, 0, 0),
            rule(0, ATTRIBUTE, 0, Action::Validate, 0, 0),
        ],
    );
    assert_eq!(number(&attribute_of_none), 0);
    assert_eq!(records(&attribute_of_none, "<r a=''/>").len(), 6);
}
