//! G: number 20.

use crate::common::*;
use reference::generate::rule;
use reference::{coherent, session_after, step, Action, Binding, Session, Span};

const SCENE: &[u8] = b"<p:r xmlns:p='u' xmlns='v'><x a='&amp;' b=''/> xml xmlns ";

/// A session inside the root: two bindings, two levels, one unit.
fn base() -> Session {
    session_after(&two(), SCENE, 2)
}

/// Modes 0 to 2, classes 1 and 2; unwrap where no rule names the class.
fn two() -> Vec<u8> {
    former(&table(
        &["u", "v"],
        3,
        1,
        vec![rule(0, ELEMENT, 1, Action::Validate, 0, 1)],
    ))
}

fn refused(change: impl Fn(&mut Session)) -> bool {
    let mut session = base();
    change(&mut session);
    let refused = !coherent(&two(), SCENE, &session);
    let (got, same, bytes) = step(&two(), SCENE, &session, AMPLE);
    assert_eq!(got.number == 20, refused);
    if refused {
        assert_eq!((got, &same), (answer(20, 0, 0, 0), &session));
        assert!(bytes.is_empty());
    }
    refused
}

fn at(bytes: &[u8]) -> u64 {
    let found = SCENE.windows(bytes.len()).position(|w| w == bytes);
    found.expect("it stands in the scene") as u64
}

fn end() -> u64 {
    SCENE.len() as u64
}

#[test]
fn sessions_of_scenes_are_coherent() {
    assert!(!refused(|_| ()));
    assert!(coherent(&two(), SCENE, &Session::fresh()));
    assert!(coherent(&two(), b"", &Session::fresh()));
    assert!(!coherent(&[], b"", &Session::fresh()));
}

#[test]
fn g1_place() {
    assert!(!refused(|s| s.place = end()));
    assert!(refused(|s| s.place = end() + 1));
    assert!(refused(|s| s.place = u64::MAX));
}

#[test]
fn g2_g3_spans() {
    assert!(!refused(|s| s.levels[0].uri = Span::new(end(), 0)));
    assert!(refused(|s| s.levels[0].uri = Span::new(end() + 1, 0)));
    assert!(refused(|s| s.levels[0].uri = Span::new(end(), 1)));
    assert!(refused(|s| s.levels[0].uri = Span::new(1, u64::MAX)));
    assert!(refused(|s| s.levels[1].uri = Span::new(u64::MAX, u64::MAX)));
    assert!(refused(|s| s.bindings[1].uri = Span::new(end() + 1, 0)));
    assert!(refused(|s| s.bindings[0].uri = Span::new(0, end() + 1)));
    assert!(refused(|s| s.bindings[0].prefix = Span::new(end(), 1)));
    assert!(refused(|s| s.levels[0].name = Span::new(end() - 1, 5)));
    assert!(refused(|s| s.levels[0].name = Span::new(u64::MAX, 2)));
}

#[test]
fn g5_g6_names() {
    assert!(refused(|s| s.levels[0].name = Span::new(0, 1)));
    assert!(refused(|s| s.levels[0].name = Span::new(1, 0)));
    assert!(refused(|s| s.levels[0].name = Span::new(1, 2)));
    assert!(refused(|s| s.levels[0].name = Span::new(2, 2)));
    assert!(refused(|s| s.levels[0].name = Span::new(4, 1)));
    assert!(!refused(|s| s.levels[0].name = Span::new(3, 1)));
    assert!(!refused(|s| s.levels[1].name = Span::new(at(b"xmlns:p"), 7)));
    assert!(!refused(|s| s.levels[1].name = Span::new(at(b"amp"), 3)));
}

#[test]
fn g5_names_of_64_bytes() {
    let coherent_name = |scene: &str| {
        let mut session = session_after(&t(), b"<r>", 1);
        session.levels[0].name = Span::new(1, scene.len() as u64 - 1);
        coherent(&t(), scene.as_bytes(), &session)
    };
    let part = "n".repeat(64);
    assert!(coherent_name(&format!("<{part}")));
    assert!(!coherent_name(&format!("<{part}n")));
    assert!(coherent_name(&format!("<{part}:{part}")));
    assert!(!coherent_name(&format!("<{part}:{part}n")));
    assert!(!coherent_name(&format!("<{part}n:{part}")));
    assert!(!coherent_name("<a:b:c"));
    assert!(!coherent_name("<-a"));
    assert!(!coherent_name("<a b"));
}

#[test]
fn g7_bindings() {
    let xml = Span::new(at(b" xml ") + 1, 3);
    let xmlns = Span::new(at(b" xmlns ") + 1, 5);
    assert!(refused(|s| s.bindings[0].prefix = xml));
    assert!(refused(|s| s.bindings[0].prefix = xmlns));
    assert!(refused(|s| s.bindings[0].uri.len = 0));
    assert!(!refused(|s| s.bindings[1].uri.len = 0));
    assert!(refused(|s| s.bindings[0].uri = Span::new(at(b"&"), 1)));
    assert!(refused(|s| s.bindings[1].uri = Span::new(at(b"'&amp"), 3)));
    assert!(!refused(|s| s.bindings[1].uri = Span::new(0, 5)));
    assert!(!refused(|s| s.bindings[1].uri = xml));
}

#[test]
fn g7_reserved_uris() {
    let with = |uri: &str, prefix: Span| {
        let scene = format!("p{uri}");
        let mut session = session_after(&t(), b"<r xmlns:p='u'>", 1);
        session.place = 0;
        session.bindings = vec![Binding {
            prefix,
            uri: Span::new(1, uri.len() as u64),
        }];
        session.levels[0].name = Span::new(1, 1);
        coherent(&t(), scene.as_bytes(), &session)
    };
    for prefix in [Span::ZERO, Span::new(0, 1)] {
        assert!(!with("http://www.w3.org/XML/1998/namespace", prefix));
        assert!(!with("http://www.w3.org/2000/xmlns/", prefix));
        assert!(with("http://www.w3.org/2000/xmlns", prefix));
    }
}

#[test]
fn g8_zero_prefix() {
    assert!(!refused(|s| s.bindings[0].prefix = Span::ZERO));
    assert!(refused(|s| s.bindings[0].prefix = Span::new(9, 0)));
    assert!(refused(|s| s.bindings[0].prefix = Span::new(0, 1)));
    assert!(refused(|s| s.bindings[0].prefix = Span::new(1, 3)));
    let mut session = session_after(&t(), b"<r xmlns:p='u'>", 1);
    session.bindings[0].prefix = Span::new(0, 1);
    session.levels[0].name = Span::new(1, 1);
    assert!(coherent(&t(), b"ar xmlns:p='u' ", &session));
}

#[test]
fn g9_modes_classes_targets() {
    for level in 0..2 {
        assert!(!refused(|s| s.levels[level].strands[0].mode = 2));
        assert!(refused(|s| s.levels[level].strands[0].mode = 3));
        assert!(refused(|s| s.levels[level].strands[0].target = Some(1)));
        assert!(refused(
            |s| s.levels[level].strands[0].target = Some(u64::MAX)
        ));
        for class in [0, 1, 2, 254, 255] {
            assert!(!refused(|s| s.levels[level].class = class));
        }
        for class in [3, 30, 252, 253] {
            assert!(refused(|s| s.levels[level].class = class));
        }
        for action in [Action::Attach, Action::Unwrap] {
            assert!(!refused(|s| {
                s.levels[level].strands[0].action = action;
                s.levels[level].strands[0].target = None;
            }));
            assert!(refused(|s| {
                s.levels[level].strands[0].action = action;
                s.levels[level].strands[0].target = Some(1);
            }));
        }
        assert!(refused(|s| {
            s.levels[level].strands[0].action = Action::Validate;
            s.levels[level].strands[0].target = None;
        }));
    }
}

#[test]
fn counts_of_strands_levels_units() {
    let strands = |count: usize| {
        move |s: &mut Session| {
            let strand = s.levels[1].strands[0];
            s.levels[1].strands = vec![strand; count];
        }
    };
    assert!(refused(strands(0)));
    assert!(!refused(strands(16)));
    assert!(refused(strands(17)));
    let deep = |depth: usize| {
        move |s: &mut Session| {
            let mut level = s.levels[1].clone();
            level.bindings = 0;
            s.levels.resize(depth, level);
        }
    };
    assert!(!refused(deep(64)));
    assert!(refused(deep(65)));
    assert!(!refused(|s| s.units = 65_536));
    assert!(refused(|s| s.units = 65_537));
    assert!(refused(|s| s.units = 0));
}

#[test]
fn g11_counts_of_bindings() {
    let bound = |count: usize| {
        move |s: &mut Session| {
            let binding = s.bindings[0];
            s.bindings = vec![binding; count];
            s.levels[1].bindings = 0;
            s.levels[0].bindings = count as u64;
        }
    };
    assert!(!refused(bound(64)));
    assert!(refused(bound(65)));
    assert!(refused(|s| s.levels[0].bindings = 1));
    assert!(refused(|s| s.levels[0].bindings = 3));
    assert!(refused(|s| {
        s.levels[0].bindings = u64::MAX;
        s.levels[1].bindings = 3;
    }));
    assert!(!refused(|s| {
        s.levels[0].bindings = 0;
        s.levels[1].bindings = 2;
    }));
    let stray = Session {
        bindings: base().bindings,
        ..Session::fresh()
    };
    assert!(!coherent(&two(), SCENE, &stray));
}

#[test]
fn g12_g13_flags() {
    let fresh = |awaited, closed| Session {
        awaited,
        closed,
        ..Session::fresh()
    };
    assert!(!coherent(&two(), SCENE, &fresh(true, false)));
    assert!(!coherent(&two(), SCENE, &fresh(true, true)));
    assert!(coherent(&two(), SCENE, &fresh(false, true)));
    assert!(refused(|s| s.closed = true));
    assert!(!refused(|s| s.awaited = true));
    assert!(!refused(|s| s.awaited = false));
}

#[test]
fn g15_never_20() {
    assert!(!refused(|s| s.levels[0].strands[0].opened_here = false));
    assert!(!refused(|s| s.levels[1].strands[0].opened_here = true));
    assert!(!refused(|s| {
        s.levels[0].class = 255;
        s.levels[0].uri = Span::ZERO;
    }));
    assert!(!refused(|s| s.levels[0].uri = Span::new(3, 4)));
}

#[test]
fn i1_another_scene() {
    let session = base();
    let shorter = &SCENE[..session.place as usize - 1];
    assert!(!coherent(&two(), shorter, &session));
    let longer = [SCENE, b"<y>"].concat();
    assert!(coherent(&two(), &longer, &session));
    let mut far = session_after(&t(), b"<r><x>", 1);
    far.place = 0;
    assert!(!coherent(&t(), b"<", &far));
}
