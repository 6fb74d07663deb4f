//! D: sections and records. Where a case meets no rule, what stands here is asked of t+.

use crate::common::*;
use reference::generate::rule;
use reference::table::{Rule, ANY, XML};
use reference::{session_after, Action};

fn validate(mode: u8, kind: u8, class: u8, schema: u8, next: u8) -> Rule {
    rule(mode, kind, class, Action::Validate, schema, next)
}

fn attach(mode: u8, kind: u8, class: u8, next: u8) -> Rule {
    rule(mode, kind, class, Action::Attach, 0, next)
}

fn unwrap(mode: u8, kind: u8, class: u8, next: u8) -> Rule {
    rule(mode, kind, class, Action::Unwrap, 0, next)
}

/// D1 is void since N3: the target stays where t+ has its unwrap rule.
#[test]
fn d1_no_rule_keeps_the_target() {
    let rules = vec![validate(0, ELEMENT, 1, 0, 1), attach(1, ELEMENT, 2, 1)];
    let table = former(&table(&["u", "v"], 2, 1, rules));
    let scene = "<r xmlns='u'><w xmlns='q'>b<x xmlns='v'/></w></r>";
    let got = unit(&records(&table, scene), 0);
    assert_eq!(
        got,
        [
            "0 0 0 0 0 0",
            "1 1 1 1 0 0",
            "1 2 28 1 0 0",
            "5 2 28 1 0 0",
            "5 1 47 1 0 0",
            "6 0 0 0 0 0"
        ]
    );
    let session = session_after(&table, scene.as_bytes(), 2);
    let w = session.levels[1].strands[0];
    assert_eq!((w.mode, w.action, w.target), (1, Action::Unwrap, Some(0)));
}

#[test]
fn d2_no_namespace_inside_no_namespace() {
    let table = table(&[], 1, 1, vec![validate(0, ELEMENT, 0, 0, 0)]);
    assert_eq!(records(&table, "<r><x xmlns=''/></r>").len(), 6);
}

#[test]
fn d3_attributes() {
    assert_eq!(
        records(&t(), "<r xmlns=\"u\" a=\"\"/>"),
        [
            "0 0 0 0 0 0 0",
            "0 1 1 1 1 0 0",
            "0 2 0 13 1 0 0",
            "0 3 0 16 0 0 0",
            "0 5 1 1 1 0 0",
            "0 6 0 0 0 0 0"
        ]
    );
}

#[test]
fn d4_open_at_the_tag() {
    let all = records(&t2(), "<r xmlns=\"u\"><x xmlns=\"v\"/></r>");
    assert_eq!(all[2], "1 0 1 13 0 0 0");
}

#[test]
fn d5_validate_and_attach_on_one_attribute_section() {
    let rules = vec![
        validate(0, ELEMENT, ANY, 0, 0),
        validate(0, ATTRIBUTE, ANY, 1, 0),
        attach(0, ATTRIBUTE, ANY, 0),
    ];
    let table = table(&[], 1, 2, rules);
    assert_eq!(
        records(&table, "<r xmlns:p='x' p:a='1' b=''/>"),
        [
            "0 0 1 0 1 0 0",
            "0 1 253 0 0 0 0",
            "0 2 255 17 1 12 1",
            "0 3 0 20 1 0 0",
            "0 5 253 0 0 0 0",
            "0 6 0 0 0 0 0",
            "1 0 0 0 0 0 0",
            "1 1 0 1 1 0 0",
            "1 2 255 17 1 12 1",
            "1 3 0 20 1 0 0",
            "1 2 0 23 1 0 0",
            "1 3 0 26 0 0 0",
            "1 5 0 1 1 0 0",
            "1 6 0 0 0 0 0"
        ]
    );
}

#[test]
fn d6_attributes_under_unwrap() {
    let under = |root: Vec<Rule>| {
        let attributes = vec![
            validate(0, ATTRIBUTE, ANY, 0, 0),
            attach(0, ATTRIBUTE, ANY, 0),
        ];
        let table = table(&[], 1, 1, [root, attributes].concat());
        records(&former(&table), "<r xmlns:p='x' p:a='1'/>")
    };
    let unit_alone = [
        "0 0 0 0 1 0 0",
        "0 1 253 0 0 0 0",
        "0 2 255 17 1 12 1",
        "0 3 0 20 1 0 0",
        "0 5 253 0 0 0 0",
        "0 6 0 0 0 0 0",
    ];
    assert_eq!(under(vec![]), unit_alone);
    assert_eq!(under(vec![unwrap(0, ELEMENT, ANY, 0)]), unit_alone);
    assert_eq!(under(vec![attach(0, ELEMENT, ANY, 0)]), unit_alone);
}

#[test]
fn d7_strand_by_strand() {
    let rules = vec![
        validate(0, ELEMENT, ANY, 0, 0),
        validate(0, ELEMENT, ANY, 1, 0),
    ];
    let table = table(&[], 1, 2, rules);
    assert_eq!(
        records(&table, "<r a='1'/>"),
        [
            "0 0 0 0 0 0 0",
            "0 1 0 1 1 0 0",
            "0 2 0 3 1 0 0",
            "0 3 0 6 1 0 0",
            "1 0 1 0 0 0 0",
            "1 1 0 1 1 0 0",
            "1 2 0 3 1 0 0",
            "1 3 0 6 1 0 0",
            "0 5 0 1 1 0 0",
            "0 6 0 0 0 0 0",
            "1 5 0 1 1 0 0",
            "1 6 0 0 0 0 0"
        ]
    );
}

#[test]
fn d8_uri_span_of_its_own_look_up() {
    let table = table(&[], 1, 1, vec![validate(0, ELEMENT, ANY, 0, 0)]);
    assert_eq!(
        records(&table, "<r xmlns=\"P\"><x xmlns=\"P\"/></r>"),
        [
            "0 0 0 0 0 0 0",
            "0 1 255 1 1 10 1",
            "0 1 255 14 1 23 1",
            "0 5 255 14 1 23 1",
            "0 5 255 29 1 10 1",
            "0 6 0 0 0 0 0"
        ]
    );
}

#[test]
fn d9_xml() {
    let rules = vec![
        validate(0, ELEMENT, ANY, 0, 0),
        validate(0, ELEMENT, XML, 1, 0),
    ];
    let table = table(&[], 1, 2, rules);
    assert_eq!(
        records(&table, "<xml:r xml:a=''/>"),
        [
            "0 0 1 0 0 0 0",
            "0 1 254 5 1 0 0",
            "0 2 254 11 1 0 0",
            "0 3 0 14 0 0 0",
            "0 5 254 5 1 0 0",
            "0 6 0 0 0 0 0"
        ]
    );
}

#[test]
fn d10_a_section_for_each_unlisted_uri() {
    let table = table(&[], 1, 1, vec![validate(0, ATTRIBUTE, ANY, 0, 0)]);
    let scene = "<r xmlns:p='x' xmlns:q='y' xmlns:s='x' q:a='' p:b='' s:c='' q:d=''/>";
    let all = records(&former(&table), scene);
    let names = |number| -> Vec<String> {
        let attributes = unit(&all, number);
        attributes
            .into_iter()
            .filter(|r| r.starts_with("2 "))
            .collect()
    };
    assert_eq!(all.len(), 16);
    assert_eq!(names(0), ["2 255 41 1 24 1", "2 255 62 1 24 1"]);
    assert_eq!(names(1), ["2 255 48 1 12 1", "2 255 55 1 36 1"]);
}

#[test]
fn d11_attach_before_any_target() {
    let rules = vec![attach(0, ELEMENT, 0, 0), validate(0, ELEMENT, 1, 0, 0)];
    let table = table(&["u"], 1, 1, rules);
    assert_eq!(records(&table, "<r>a<x xmlns='u'/>b</r>").len(), 4);
    let root = session_after(&table, b"<r>", 1).levels[0].strands[0];
    assert_eq!((root.action, root.target), (Action::Attach, None));
}

#[test]
fn d12_a_grandchild_in_its_grandparents_namespace() {
    let rules = vec![
        validate(0, ELEMENT, 1, 0, 1),
        attach(1, ELEMENT, 2, 1),
        validate(1, ELEMENT, 1, 0, 1),
    ];
    let table = table(&["u", "v"], 2, 1, rules);
    let scene = "<r xmlns='u'><x xmlns='v'><r xmlns='u'/></x></r>";
    let all = records(&table, scene);
    assert_eq!(unit(&all, 0).len(), 6);
    assert_eq!(unit(&all, 1).len(), 4);
}

#[test]
fn d13_opened_here_inside_a_section() {
    let session = session_after(&t(), b"<r xmlns='u'><x>", 2);
    let opened: Vec<bool> = session
        .levels
        .iter()
        .map(|l| l.strands[0].opened_here)
        .collect();
    assert_eq!(opened, [true, false]);
}

/// Slips that document 01 names.
#[test]
fn attributes_take_the_elements_own_mode() {
    let rules = vec![
        validate(0, ELEMENT, ANY, 0, 1),
        validate(0, ATTRIBUTE, ANY, 0, 0),
    ];
    let table = table(&[], 2, 1, rules);
    let got = records(&former(&table), "<r xmlns:p='x' p:a=''/>");
    assert_eq!(got.len(), 4);
}

#[test]
fn text_of_a_wrapper_is_dropped_and_any_is_not_added() {
    let rules = vec![
        validate(0, ELEMENT, 1, 0, 1),
        validate(1, ELEMENT, 2, 1, 1),
        attach(1, ELEMENT, ANY, 1),
    ];
    let table = table(&["u", "v"], 2, 2, rules);
    let all = records(&table, "<r xmlns='u'><x xmlns='v'>b</x></r>");
    assert_eq!(unit(&all, 0).len(), 4);
    assert_eq!(unit(&all, 1).len(), 5);
}
