//! H: odd but coherent sessions; I: lists of steps.

use crate::common::*;
use reference::{session_after, step, Action, Session, Span};

const SCENE: &[u8] = b"<r xmlns='u'>a<x xmlns='v'/></r>";

fn inside() -> Session {
    session_after(&t2(), SCENE, 1)
}

fn stepped(scene: &[u8], session: &Session) -> (u8, Vec<String>, Session) {
    let (answer, next, bytes) = step(&t2(), scene, session, AMPLE);
    assert_eq!(answer.records as usize * 16, bytes.len());
    (answer.number, lines(&bytes), next)
}

#[test]
fn h1_an_end_takes_class_and_uri_as_they_stand() {
    let mut session = session_after(&t2(), SCENE, 4);
    session.levels[0].class = 2;
    session.levels[0].uri = Span::new(3, 5);
    let (number, got, next) = stepped(SCENE, &session);
    assert_eq!(number, 0);
    assert_eq!(got, ["0 5 2 30 1 3 5", "0 6 0 0 0 0 0"]);
    assert!(next.closed);
}

#[test]
fn h2_h3_a_levels_namespace() {
    let child = |class: u8, uri: Span, tag: &str| {
        let scene = format!("<r xmlns='u'>{tag}");
        let mut session = inside();
        session.levels[0].class = class;
        session.levels[0].uri = uri;
        let (number, _, next) = stepped(scene.as_bytes(), &session);
        assert_eq!(number, 0);
        // Inside a section the validate strand stays; a new one has the rules' strands.
        let strands = &next.levels[1].strands;
        strands.len() == 1 && strands[0].action == Action::Validate
    };
    let u = Span::new(10, 1);
    assert!(child(1, Span::ZERO, "<x>"));
    assert!(child(255, u, "<x>"));
    assert!(!child(255, Span::ZERO, "<x>"));
    assert!(child(255, Span::ZERO, "<x xmlns=''>"));
    assert!(child(0, u, "<x xmlns=''>"));
    assert!(!child(0, u, "<x>"));
    assert!(child(254, u, "<xml:x>"));
    assert!(child(2, u, "<x xmlns='v'>"));
    assert!(!child(2, u, "<x>"));
}

#[test]
fn h4_opened_here_closes_whatever_the_action() {
    let scene = b"<r xmlns='u'></r>";
    let with = |action, target, opened_here| {
        let mut session = session_after(&t2(), scene, 1);
        let strand = &mut session.levels[0].strands[0];
        (strand.action, strand.target, strand.opened_here) = (action, target, opened_here);
        stepped(scene, &session).1.len()
    };
    assert_eq!(with(Action::Attach, Some(0), true), 2);
    assert_eq!(with(Action::Attach, Some(0), false), 1);
    assert_eq!(with(Action::Validate, Some(0), false), 1);
    assert_eq!(with(Action::Unwrap, Some(0), true), 0);
    assert_eq!(with(Action::Attach, None, true), 0);
}

#[test]
fn h5_an_awaited_end_ends_the_innermost_level() {
    let mut session = inside();
    session.awaited = true;
    session.place = 2;
    let (number, got, next) = stepped(SCENE, &session);
    assert_eq!(number, 0);
    assert_eq!(got, ["0 5 1 1 1 0 0", "0 6 0 0 0 0 0"]);
    assert_eq!((next.place, next.closed, next.awaited), (2, true, false));
}

#[test]
fn h6_two_strands_with_one_target() {
    let mut session = inside();
    let strand = session.levels[0].strands[0];
    session.levels[0].strands = vec![strand; 2];
    let (_, got, _) = stepped(SCENE, &session);
    assert_eq!(got, ["0 4 0 13 1 0 0", "0 4 0 13 1 0 0"]);
}

#[test]
fn h7_one_prefix_twice() {
    let scene = b"<r xmlns:p='u' xmlns:q='v'><p:x>";
    let mut session = session_after(&t2(), scene, 1);
    session.bindings[1].prefix = session.bindings[0].prefix;
    let (number, _, next) = stepped(scene, &session);
    assert_eq!((number, next.levels[1].class), (0, 2));
}

#[test]
fn h8_a_place_inside_a_tag() {
    let mut session = inside();
    session.place = 3;
    let (number, got, next) = stepped(SCENE, &session);
    assert_eq!((number, next.place), (0, 14));
    assert_eq!(got, ["0 4 0 3 11 0 0"]);
}

#[test]
fn i4_9_is_not_final() {
    let closed = session_after(&t(), b"<r/>", 2);
    assert_eq!(step(&t(), b"<r/>", &closed, 0).0, answer(9, 4, 0, 0));
    assert_eq!(step(&t(), b"<r/> \n", &closed, 0).0, answer(9, 6, 0, 0));
    assert_eq!(step(&t(), b"<r/> x", &closed, 0).0, answer(2, 5, 0, 0));
    // N1-9: < may be a misc's.
    assert_eq!(step(&t(), b"<r/> <", &closed, 0).0, answer(1, 6, 0, 0));
    assert_eq!(step(&t(), b"<r/", &closed, 0).0, answer(20, 0, 0, 0));
}

#[test]
fn i1_steps_go_on_in_a_longer_scene() {
    let table = former(&t());
    let session = session_after(&table, b"<r>abc", 1);
    let got = step(&table, b"<r>abcd<", &session, 0).0;
    assert_eq!(got, answer(0, 7, 1, 0));
}
