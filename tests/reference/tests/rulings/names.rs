//! C: namespaces.

use crate::common::*;
use reference::generate::rule;
use reference::table::{ANY, XMLNS_URI, XML_URI};
use reference::{session_after, Action, Span};

fn any() -> Vec<u8> {
    table(
        &["u"],
        1,
        1,
        vec![rule(0, ELEMENT, ANY, Action::Validate, 0, 0)],
    )
}

/// The class of the start in a scene of one element.
fn class(scene: &str) -> String {
    let start = &records(&any(), scene)[1];
    start.split(' ').nth(2).unwrap().to_string()
}

#[test]
fn c0_classes() {
    assert_eq!(class("<r/>"), "0");
    assert_eq!(class("<r xmlns=''/>"), "0");
    assert_eq!(class("<r xmlns='u'/>"), "1");
    assert_eq!(class("<p:r xmlns:p='u'/>"), "1");
    assert_eq!(class("<r xmlns='U'/>"), "255");
    assert_eq!(class("<xml:r/>"), "254");
}

#[test]
fn c0_equal_by_bytes() {
    let one_section = "<p:r xmlns:p='n'><q:x xmlns:q='n'/></p:r>";
    assert_eq!(records(&any(), one_section).len(), 6);
    let two_sections = "<r xmlns='n1'><x xmlns='n2'/></r>";
    assert_eq!(records(&any(), two_sections).len(), 8);
}

#[test]
fn c1_default_undone_is_a_binding() {
    let session = session_after(&t(), b"<r xmlns='u'><x xmlns=''>", 2);
    assert_eq!(session.levels[1].bindings, 1);
    assert_eq!(session.levels[1].class, 0);
    assert_eq!(session.bindings[1].prefix, Span::ZERO);
    assert_eq!(session.bindings[1].uri, Span::new(23, 0));
    let full: String = (0..4)
        .map(|level| {
            let names = (0..15).map(|n| format!(" xmlns:p{level}x{n}='n'"));
            format!("<r xmlns=''{}>", names.collect::<String>())
        })
        .collect();
    assert_eq!(with_t(&format!("{full}<x>")), (1, full.len() as u64 + 3));
    assert_eq!(
        with_t(&format!("{full}<x xmlns=''>")),
        (22, full.len() as u64)
    );
}

#[test]
fn c2_reserved() {
    let xml = std::str::from_utf8(XML_URI).unwrap();
    let xmlns = std::str::from_utf8(XMLNS_URI).unwrap();
    for scene in [
        format!("<r xmlns:xml='{xml}'/>"),
        "<r xmlns:xml='u'/>".to_string(),
        format!("<r xmlns:p='{xml}'/>"),
        format!("<r xmlns:p='{xmlns}'/>"),
        format!("<r xmlns='{xml}'/>"),
        format!("<r xmlns='{xmlns}'/>"),
        "<r xmlns:p=''/>".to_string(),
        "<r xmlns:xmlns='u'/>".to_string(),
        "<xmlns:r xmlns:p='u'/>".to_string(),
    ] {
        assert_eq!(with_t(&scene), (5, 0), "{scene}");
    }
    assert_eq!(with_t("<r><x xmlns:p=''/></r>"), (5, 3));
    assert_eq!(with_t(&format!("<r a='{xml}'/>")).0, 9);
}

#[test]
fn c3_references_in_declarations() {
    assert_eq!(with_t("<r xmlns='a&amp;b'/>"), (5, 0));
    assert_eq!(with_t("<r xmlns:p='&lt;'/>"), (5, 0));
    assert_eq!(with_t("<r p='&lt;'/>").0, 9);
}

#[test]
fn c4_declarations_are_attributes_for_6() {
    assert_eq!(with_t("<r xmlns='u' xmlns='v'/>"), (6, 0));
    assert_eq!(with_t("<r xmlns:p='u' xmlns:p='u'/>"), (6, 0));
    assert_eq!(with_t("<r xmlns='u' xmlns='v' xmlns:p=''/>"), (5, 0));
    assert_eq!(with_t("<r a='' a='' q:b=''/>"), (5, 0));
}

#[test]
fn c5_scope() {
    assert_eq!(with_t("<p:r p:a='' xmlns:p='u'/>").0, 9);
    assert_eq!(with_t("<r q:a=''/>"), (5, 0));
    assert_eq!(with_t("<r><x xmlns:p='u'/><p:x/></r>"), (5, 19));
    assert_eq!(with_t("<r><x xmlns:p='u'></x><p:x/></r>"), (5, 22));
    assert_eq!(with_t("<r><x xmlns:p='u'></p:x></r>"), (4, 18));
    assert_eq!(class("<r xmlns='u'/>"), "1");
    let inner = "<p:r xmlns:p='u'><p:x xmlns:p='v'/></p:r>";
    let starts: Vec<String> = records(&any(), inner)
        .into_iter()
        .filter(|record| record.split(' ').nth(1) == Some("1"))
        .collect();
    assert_eq!(starts, ["0 1 1 3 1 0 0", "1 1 255 20 1 31 1"]);
}

#[test]
fn c6_attributes() {
    assert_eq!(with_t("<p:r xmlns:p='u' a='' p:a=''/>").0, 9);
    assert_eq!(with_t("<r xmlns='u' xmlns:p='u' a='' p:a=''/>").0, 9);
    assert_eq!(with_t("<r xmlns:p='u' xmlns:q='u' p:a='' q:a=''/>"), (6, 0));
    assert_eq!(with_t("<r xmlns:p='u' xmlns:q='v' p:a='' q:a=''/>").0, 9);
    assert_eq!(with_t("<r xml:a='' xml:a=''/>"), (6, 0));
    assert_eq!(with_t("<r a='' a=''/>"), (6, 0));
}

#[test]
fn c7_ordinary_names() {
    assert_eq!(with_t("<xmlns/>").0, 9);
    assert_eq!(with_t("<r xmlns:p='u' p:xmlns='v'/>").0, 9);
    assert_eq!(with_t("<xml/>").0, 9);
    assert_eq!(with_t("<r xml='' Xmlns=''/>").0, 9);
    assert_eq!(with_t("<r xml:xmlns=''/>").0, 9);
}

#[test]
fn c8_no_normalising() {
    assert_eq!(class("<r xmlns=' u'/>"), "255");
    assert_eq!(class("<r xmlns='u\n'/>"), "255");
    let two = "<r xmlns='n 1'><x xmlns='n\n1'/></r>";
    assert_eq!(records(&any(), two).len(), 8);
}
