//! B: the reader.

use crate::common::*;
use reference::{events, session_after, step, What};

#[test]
fn b1_space() {
    assert_eq!(with_t("<r  a = ''\n\t/>"), (9, 14));
    assert_eq!(with_t(" \t\r\n<r></r \n> "), (9, 14));
}

#[test]
fn b2_references() {
    assert_eq!(with_t("<r>&x</r>"), (2, 4));
    assert_eq!(with_t("<r>&ampx"), (2, 7));
    assert_eq!(with_t("<r>&<"), (2, 4));
    assert_eq!(with_t("<r>&lt"), (1, 6));
    assert_eq!(with_t("<r>&"), (1, 4));
    assert_eq!(with_t("<r>&aq"), (2, 5));
    assert_eq!(with_t("<r a='&q'/>"), (2, 8));
    assert_eq!(with_t("<r a='&#32;'/>"), (2, 7));
    assert_eq!(
        with_t("<r a='&lt;&gt;&amp;&quot;&apos;'>&apos;&lt;</r>"),
        (9, 47)
    );
    assert_eq!(with_t("<r>&&amp;</r>"), (2, 4));
}

#[test]
fn b3_parts_of_64_bytes() {
    let part = "n".repeat(64);
    let scene = format!("<{part}:{part} xmlns:{part}='u'/>");
    assert_eq!(with_t(&scene), (9, scene.len() as u64));
    assert_eq!(with_t(&format!("<{part}n")), (3, 65));
    assert_eq!(with_t(&format!("<{part}9/>")), (3, 65));
    assert_eq!(with_t(&format!("<{part}!")), (2, 65));
    assert_eq!(with_t(&format!("<{part}")), (1, 65));
    assert_eq!(with_t(&format!("<{part}/>")), (9, 67));
    assert_eq!(with_t(&format!("<p:{part}n/>")), (3, 67));
    assert_eq!(with_t(&format!("<p:{part}:n/>")), (2, 67));
    assert_eq!(with_t(&format!("<r {part}-=''/>")), (3, 67));
    assert_eq!(with_t(&format!("<r></{part}n")), (3, 69));
    assert_eq!(with_t(&format!("<r></{part}>")), (4, 3));
}

#[test]
fn b4_attributes() {
    let sixteen: String = (0..16).map(|n| format!(" a{n:02}=''")).collect();
    let open = format!("<r{sixteen}");
    let at = open.len() as u64;
    assert_eq!(with_t(&format!("{open}/>")), (9, at + 2));
    assert_eq!(with_t(&format!("{open} />")), (9, at + 3));
    assert_eq!(with_t(&format!("{open} b")), (3, at + 1));
    assert_eq!(with_t(&format!("{open} b=''/>")), (3, at + 1));
    assert_eq!(with_t(&format!("{open}  _")), (3, at + 2));
    assert_eq!(with_t(&format!("{open} !")), (2, at + 1));
    assert_eq!(with_t(&format!("{open} 1")), (2, at + 1));
    assert_eq!(with_t(&format!("{open} ")), (1, at + 1));
    assert_eq!(with_t(&format!("{open}b=''/>")), (2, at));
}

#[test]
fn b5_b6_b7_where_nothing_is_open() {
    assert_eq!(with_t("</r>"), (2, 1));
    // N1-9: a misc may stand after the root, so < may, and the byte behind it is judged.
    assert_eq!(with_t("<r/><s/>"), (2, 5));
    assert_eq!(with_t("<r/><"), (1, 5));
    assert_eq!(with_t("<r/></r>"), (2, 5));
    assert_eq!(with_t("<r/> x"), (2, 5));
    // N1-8: ! and ? may stand after <, and the first byte with which no misc goes on is refused.
    assert_eq!(with_t("<?xml version='1.0'?><r/>"), (9, 25));
    assert_eq!(with_t("<!-- --><r/>"), (9, 12));
    assert_eq!(with_t("<r><![CDATA[]]></r>"), (2, 5));
    assert_eq!(with_t("<r><?p?></r>"), (9, 12));
    assert_eq!(with_t("\u{FEFF}<r/>"), (2, 0));
    assert_eq!(with_t("x<r/>"), (2, 0));
    assert_eq!(with_t("  "), (1, 2));
    assert_eq!(with_t("<"), (1, 1));
}

#[test]
fn b8_bytes_of_text_and_values() {
    assert_eq!(with_t("<r a='\">' b=\"'\">] ]>'\"</r>"), (9, 26));
    // N1-21, N1-22: ]]> may stand in values only.
    assert_eq!(with_t("<r a=']]>' b=\"]]>\">]]>'\"</r>"), (2, 19));
    assert_eq!(with_t("<r a='\x7F\u{80}'>\x7F\u{FF}\t\r\n</r>"), (9, 21));
    // N4-2: well-formed characters only.
    assert_eq!(ends(&t(), b"<r a='\x7F\xFF'/>"), (2, 7));
    assert_eq!(ends(&t(), b"<r>\x7F\x80</r>"), (2, 4));
    assert_eq!(ends(&t(), b"<r>\x0B</r>"), (2, 3));
    assert_eq!(ends(&t(), b"<r a='\x1F'/>"), (2, 6));
    assert_eq!(ends(&t(), b"<r>\x00"), (2, 3));
    assert_eq!(with_t("<r a='<'/>"), (2, 6));
    assert_eq!(with_t("<r a='"), (1, 6));
}

#[test]
fn b9_only_2_and_3_go_before_1() {
    assert_eq!(with_t("<r></s"), (1, 6));
    assert_eq!(with_t("<r></s "), (1, 7));
    assert_eq!(with_t("<r></s x"), (2, 7));
    assert_eq!(with_t("<r a='' a='' "), (1, 13));
    assert_eq!(with_t("<xmlns:r !"), (2, 9));
    assert_eq!(with_t("<xmlns:r />"), (5, 0));
}

#[test]
fn b10_text_is_complete_at_the_next_tag() {
    assert_eq!(with_t("<r>abc"), (1, 6));
    let open = session_after(&t(), b"<r>abc", 1);
    assert_eq!(open.place, 3);
    let (got, same, _) = step(&t(), b"<r>abc", &open, AMPLE);
    assert_eq!((got, &same), (answer(1, 6, 0, 0), &open));
    let reading = events(b"<r>abc<");
    assert!(matches!(reading.list[1].what, What::Text(_)));
    assert_eq!(reading.list[1].after, 6);
    assert_eq!((reading.number, reading.place), (1, 7));
}

#[test]
fn b11_text_of_space() {
    assert_eq!(events(b"<r> </r>").list.len(), 3);
    assert_eq!(events(b" <r></r> ").list.len(), 2);
}

#[test]
fn b12_whole_names() {
    assert_eq!(with_t("<p:r xmlns:p='u' xmlns:q='u'></q:r>"), (4, 29));
    assert_eq!(with_t("<p:r xmlns:p='u'></r>"), (4, 17));
    assert_eq!(with_t("<r></rr>"), (4, 3));
}

#[test]
fn b13_bytes_that_cannot_stand() {
    assert_eq!(with_t("< r"), (2, 1));
    assert_eq!(with_t("<r></ r"), (2, 5));
    assert_eq!(with_t("<r/ >"), (2, 3));
    assert_eq!(with_t("<a:b:c/>"), (2, 4));
    assert_eq!(with_t("<r :a=''/>"), (2, 3));
    assert_eq!(with_t("<r a/>"), (2, 4));
    assert_eq!(with_t("<r a=''b=''/>"), (2, 7));
    assert_eq!(with_t("<r a==''/>"), (2, 5));
    assert_eq!(with_t("<p:/>"), (2, 3));
    assert_eq!(with_t("<r></>"), (2, 5));
    assert_eq!(with_t("<r//>"), (2, 3));
    assert_eq!(with_t("<r></r/>"), (2, 6));
    assert_eq!(with_t("<r a=b/>"), (2, 5));
    assert_eq!(with_t("<-r/>"), (2, 1));
    assert_eq!(with_t("<r 1a=''/>"), (2, 3));
}
