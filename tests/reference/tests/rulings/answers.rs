//! E: answers and places.

use crate::common::*;
use reference::{events, run, session_after, step, Session};

#[test]
fn e1_places() {
    let after: Vec<u64> = events(SAMPLE)
        .list
        .iter()
        .map(|event| event.after)
        .collect();
    assert_eq!(after, [13, 14, 18, 18, 22]);
    for (index, place) in after.iter().enumerate() {
        assert_eq!(session_after(&t(), SAMPLE, index + 1).place, *place);
    }
}

#[test]
fn e2_9_and_1_do_not_move_the_place() {
    let scene = b"<r/>  ";
    let closed = session_after(&t(), scene, 2);
    assert_eq!(closed.place, 4);
    let (got, same, _) = step(&t(), scene, &closed, 0);
    assert_eq!((got, same), (answer(9, 6, 0, 0), closed));
    let (got, same, _) = step(&t(), b"  ", &Session::fresh(), 0);
    assert_eq!((got, same), (answer(1, 2, 0, 0), Session::fresh()));
}

#[test]
fn e4_no_records_need_no_output() {
    assert_eq!(run(&former(&t()), b"<r>a</r>", 0).0, answer(9, 8, 3, 0));
}

#[test]
fn e5_output_limits_of_a_run() {
    assert_eq!(run(&t(), SAMPLE, 47).0, answer(25, 13, 1, 2));
    assert_eq!(run(&t(), SAMPLE, 48).0, answer(25, 14, 2, 3));
    assert_eq!(run(&t(), SAMPLE, 64).0, answer(25, 14, 3, 4));
    assert_eq!(run(&t(), SAMPLE, 80).0, answer(25, 18, 4, 5));
    assert_eq!(run(&t(), SAMPLE, 111).0, answer(25, 18, 4, 5));
    assert_eq!(run(&t(), SAMPLE, 112).0, answer(9, 22, 5, 7));
}

#[test]
fn e6_e7_places_of_25() {
    let scene = b"<r xmlns=\"u\"/>";
    let awaiting = session_after(&t(), scene, 1);
    assert!(awaiting.awaited);
    let (got, same, bytes) = step(&t(), scene, &awaiting, 31);
    assert_eq!((got, &same), (answer(25, 0, 0, 0), &awaiting));
    assert!(bytes.is_empty());
    assert_eq!(step(&t(), scene, &awaiting, 32).0, answer(0, 14, 1, 2));
    assert_eq!(run(&t(), scene, 63).0, answer(25, 0, 1, 2));
    assert_eq!(run(&t(), b"  <r xmlns=\"u\"/>", 0).0, answer(25, 2, 0, 0));
    assert_eq!(run(&t(), b"  <r xmlns=\"u\"/>", 32).0, answer(25, 2, 1, 2));
}

#[test]
fn e8_counts_of_a_step() {
    let (got, next, bytes) = step(&t(), SAMPLE, &Session::fresh(), 32);
    assert_eq!(got, answer(0, 13, 1, 2));
    assert_eq!((next.place, bytes.len()), (13, 32));
    assert_eq!(
        step(&t(), SAMPLE, &Session::fresh(), 31).0,
        answer(25, 0, 0, 0)
    );
}

#[test]
fn e9_order_of_bindings() {
    let scene = b"<r xmlns:b='1' xmlns='2' xmlns:a='3'><x xmlns:c='4'>";
    let session = session_after(&t(), scene, 2);
    let uris: Vec<&[u8]> = session.bindings.iter().map(|b| b.uri.of(scene)).collect();
    assert_eq!(uris, [b"1", b"2", b"3", b"4"]);
    let prefixes: Vec<&[u8]> = session
        .bindings
        .iter()
        .map(|b| b.prefix.of(scene))
        .collect();
    assert_eq!(prefixes, [&b"b"[..], b"", b"a", b"c"]);
    let counts: Vec<u64> = session.levels.iter().map(|l| l.bindings).collect();
    assert_eq!(counts, [3, 1]);
}

#[test]
fn e10_after_the_root() {
    let end = session_after(&t(), SAMPLE, 5);
    let expected = Session {
        place: 22,
        units: 1,
        closed: true,
        ..Session::fresh()
    };
    assert_eq!(end, expected);
}

#[test]
fn e11_uri_span_of_a_level() {
    let session = session_after(&t(), b"<r xmlns='u'><x xmlns='v'><xml:y>", 3);
    let uris: Vec<(u8, u64, u64)> = session
        .levels
        .iter()
        .map(|level| (level.class, level.uri.at, level.uri.len))
        .collect();
    assert_eq!(uris, [(1, 0, 0), (255, 23, 1), (254, 0, 0)]);
}

#[test]
fn fresh_session() {
    let scene = b"<r/>";
    assert_eq!(session_after(&t(), scene, 0), Session::fresh());
    assert_eq!(session_after(&[], scene, 1), Session::fresh());
}

#[test]
fn refused_table_before_the_scene() {
    assert_eq!(run(&[], b"<", AMPLE), (answer(10, 0, 0, 0), Vec::new()));
    let long = vec![b' '; 16_777_216];
    assert_eq!(run(&[0, 0, 0, 0], &long, 0).0, answer(11, 0, 0, 0));
    assert_eq!(run(&t(), &long, 0).0, answer(7, 0, 0, 0));
    assert_eq!(run(&t(), &long[1..], 0).0, answer(1, 16_777_215, 0, 0));
    assert_eq!(
        step(&t(), &long, &Session::fresh(), 0).0,
        answer(7, 0, 0, 0)
    );
}
