//! N1: comments, processing instructions, the declaration, ]]> in text. A misc is one of the first three.

use crate::common::*;
use reference::{events, run, session_after, step, Session};

/// The decisions' own examples, and more where a decision has none: decision, |scene|, number@place.
const DECISIONS: &str = r#"
N1-2 |<r>a<!| 1@6
N1-2 |<r>a<!x| 2@6
N1-3 |<r>a<!---->b</r>| 9@16
N1-5 |<r/><!--x| 1@9
N1-5 |<!--x-->| 1@8
N1-5 |<r/><?p x| 1@9
N1-5 |<?xml version='1.0'?>| 1@21
N1-6 |<r/><!--x-->| 9@12
N1-8 |<!x| 2@2
N1-8 |<!-x| 2@3
N1-8 |<!DOCTYPE r>| 2@2
N1-8 |<![CDATA[| 2@2
N1-8 |<?1| 2@2
N1-8 |<!| 1@2
N1-8 |<?| 1@2
N1-8 |<r><!-| 1@6
N1-8 |<r><!DOCTYPE r>| 2@5
N1-8 |<r/><![CDATA[| 2@6
N1-9 |<r/><s/>| 2@5
N1-9 |<r/></r>| 2@5
N1-9 |<r/><| 1@5
N1-9 |<r/>x| 2@4
N1-9 |<r/><!---->\x00| 2@11
N1-9 |<r/> < | 2@6
N1-9 |</r>| 2@1
N1-9 |<!----></r>| 2@8
N1-10 |<r <!---->/>| 2@3
N1-10 |<r<!---->/>| 2@2
N1-10 |<r a='<!---->'/>| 2@6
N1-10 |<r a=<?p?>''/>| 2@5
N1-10 |<r></r<!---->>| 2@6
N1-11 |\xEF\xBB\xBF<r/>| 2@0
N1-11 |\xEF\xBB\xBF<?xml version='1.0'?><r/>| 2@0
N1-12 |<!-->| 1@5
N1-12 |<!--->| 1@6
N1-12 |<!----><r/>| 9@11
N1-12 |<!----->| 2@6
N1-12 |<!--a--->| 2@7
N1-12 |<!--a--b| 2@7
N1-12 |<!--a--| 1@7
N1-12 |<!--a-| 1@6
N1-13 |<!--\x0B| 2@4
N1-13 |<!--a\x1F-->| 2@5
N1-13 |<!--\x09\x0A\x0D \x7F\xC2\x80--><r/>| 9@18
N1-13 |<r><!--]]>&&amp<x ?>--></r>| 9@27
N1-14 |<?a:b?>| 2@3
N1-14 |<?{64:t}?><r/>| 9@72
N1-14 |<?{65:t}| 3@66
N1-14 |<?{64:t}:| 2@66
N1-14 |<?{64:t}-| 3@66
N1-14 |<?{64:t}| 1@66
N1-14 |<?_a-.9?><r/>| 9@13
N1-14 |<r/><?{65:t}?>| 3@70
N1-15 |<?p??>| 2@4
N1-15 |<?p?x| 2@4
N1-15 |<?p!| 2@3
N1-15 |<?p ??><r/>| 9@11
N1-15 |<?p?| 1@4
N1-15 |<?p ?>?><r/>| 2@6
N1-15 |<?p -- -->?><r/>| 9@16
N1-15 |<?p\x09\x0A\x0D?><r/>| 9@12
N1-15 |<?p \x00| 2@4
N1-16 |<?xmlx?><r/>| 9@12
N1-16 |<r><?xml-a?></r>| 9@16
N1-16 |<r><?xm?></r>| 9@13
N1-16 |<r><?_xml?></r>| 9@15
N1-16 |<?xmL ?>| 2@2
N1-16 |<?xMl?>| 2@2
N1-16 |<r><?Xml ?></r>| 2@5
N1-16 |<r><?XML ?></r>| 2@5
N1-17 |<r><?xml| 1@8
N1-17 |<r><?xml?| 2@5
N1-17 |<r><?xml!| 2@5
N1-17 |<r><?xml:a?>| 2@5
N1-17 |<r><?XML\x00| 2@5
N1-17 |<r/><?xml| 1@9
N1-17 |<r/><?xml | 2@6
N1-18 |<?XML version='1.0'?>| 2@2
N1-18 | <?xml version='1.0'?>| 2@3
N1-18 |<!----><?xml version='1.0'?>| 2@9
N1-18 |<?XML| 1@5
N1-18 |<r><?xml version='1.0'?></r>| 2@5
N1-19 |<?xml?>| 2@5
N1-19 |<?xml:a?>| 2@5
N1-19 |<?xml| 1@5
N1-19 |<?xml!| 2@5
N1-19 |<?xml a?>| 2@6
N1-20 |<?xml version='1.0' encoding='{300:a}'?><r/>| 9@337
N1-20 |<?xml version='1.9999'encoding| 2@22
N1-20 |<?xml version='1.0' encoding="no such-one| 2@32
N1-20 |<?xml version="1.0' | 2@18
N1-20 |<?xml version='1.0' encoding='a" | 2@31
N1-20 |<?xml version='1.0' standalone="yes' | 2@35
N1-20 |<?xml version='1.0' encoding='A-Z.0_9' standalone='no'?><r/>| 9@60
N1-20 |<?xml version='1.0' encoding='a' standalone='yes'  ?><r/>| 9@57
N1-20 |<?xml version='1.0' encoding='a' standalone='yes'| 1@49
N1-20 |<?xml version='1.0' standalone='yes' standalone='yes'?>| 2@37
N1-20 |<?xml version='1.0' version='1.0'?>| 2@20
N1-20 |<?xml version='1.0'?| 1@20
N1-20 |<?xml version='1.0'? >| 2@20
N1-20 |<?xml version='1.0a'?>| 2@18
N1-20 |<?xml version='1.0' Encoding='a'?>| 2@20
N1-20 |<?xml version='1.0' e='a'?>| 2@21
N1-20 |<?xml version='1.0' encoding='9'?>| 2@30
N1-20 |<?xml version='1.0' standalone='yesno'?>| 2@35
N1-20 |<?xml version='1.0' standalone=''?>| 2@32
N1-20 |<?xml version='1.0' standalone='YES'?>| 2@32
N1-21 |<r>a]]| 1@6
N1-21 |<r>a]]>| 2@4
N1-21 |<r>]]]>| 2@4
N1-21 |<r>]]\x00>| 2@5
N1-21 |<r>]]>\x00| 2@3
N1-21 |<r>a<!---->]]>| 2@11
N1-22 |<r>]]<!---->></r>| 9@17
N1-22 |<r>]]&gt;</r>| 9@13
N1-22 |<r a=']]>'/>| 9@12
N1-22 |<r>]]<x/>></r>| 9@14
N1-22 |<r><!--]]>--><?p ]]>?></r>| 9@26
N1-22 |<r>]<?p?>]></r>| 9@15
"#;

/// The page's vectors as they stand there, but for the one that request N4 changes.
const VECTORS: &str = r#"
# misc in every position; records as if they were not there, texts apart
K |<?xml version='1.0'?><!--x--> <?p?><r>a<!--y-->b<?q z?><x/><!----></r> <!--e--><?f?> | - | 9 85 6 8
T |<r xmlns="u">a<!--x-->b<?p?><?q?>c<!----></r>| - | 9 45 5 7
    0 0 0 0 0 0 0
    0 1 1 1 1 0 0
    0 4 0 13 1 0 0
    0 4 0 22 1 0 0
    0 4 0 33 1 0 0
    0 5 1 43 1 0 0
    0 6 0 0 0 0 0
K |<r> <!----> </r>| - | 9 16 4 6
    0 0 0 0 0 0 0
    0 1 0 1 1 0 0
    0 4 0 3 1 0 0
    0 4 0 11 1 0 0
    0 5 0 14 1 0 0
    0 6 0 0 0 0 0
K |<r><!----><?p?></r>| - | 9 19 2 4
T2 |<r xmlns="u"><!--a--><x xmlns="v"/><!--b--></r>| - | 9 47 4 10
K |<r/><!--a--> <?b?>\x0A| - | 9 19 2 4
K |<r/><!--a-->x| - | 2 12 2 4
K |<r/><!--a--><s/>| - | 2 13 2 4
K |<r/><?p| - | 1 7 2 4
K |<r/><?xml?>| - | 2 6 2 4
K | <!----> | - | 1 9 0 0
K |<!---->x<r/>| - | 2 7 0 0
# 25 behind a misc
T |<r xmlns="u"><!--x-->b</r>| 32 | 25 21 1 2
T |<r xmlns="u"><!--x-->b</r>| 48 | 25 22 2 3
K |<!----><r/>| 31 | 25 7 0 0
# comments
K |<!--->--><r/>| - | 9 13 2 4
K |<!-- - - --><r/>| - | 9 16 2 4
K |<!--<&]]>&x;?>--><r/>| - | 9 21 2 4
K |<!--a-\x00| - | 2 6 0 0
K |<!--\xFF--><r/>| - | 2 4 0 0  # by N4; 9 12 2 4 until then
K |<!-| - | 1 3 0 0
# instructions
K |<?p <&]]>-- ?? >?><r/>| - | 9 22 2 4
K |<? p?>| - | 2 2 0 0
K |<??>| - | 2 2 0 0
K |<?p| - | 1 3 0 0
K |<?p ?| - | 1 5 0 0
K |<?p \x01?>| - | 2 4 0 0
# targets
K |<r><?XmL a?></r>| - | 2 5 1 2
K |<r><?xm?></r>| - | 9 13 2 4
K |<?XMLa?><r/>| - | 9 12 2 4
K |<?xml-stylesheet a?><r/>| - | 9 24 2 4
K |<?xml version='1.0'?><?xml version='1.0'?>| - | 2 23 0 0
# declarations
K |<?xml version='1.0'?><r/>| - | 9 25 2 4
K |<?xml\x09version\x0A=\x0D"1.15" encoding = 'x-1._' standalone="yes" ?><r/>| - | 9 65 2 4
K |<?xml version="1.0" standalone='no'?>\x0A<r/>| - | 9 42 2 4
K |<?xml version='1.{70:1}'?><r/>| - | 9 94 2 4
K |<?xml ?>| - | 2 6 0 0
K |<?xml encoding='a'?>| - | 2 6 0 0
K |<?xml version=1.0?>| - | 2 14 0 0
K |<?xml version='2.0'?>| - | 2 15 0 0
K |<?xml version='1'?>| - | 2 16 0 0
K |<?xml version='1.'?>| - | 2 17 0 0
K |<?xml version='1.0"?>| - | 2 18 0 0
K |<?xml version='1.0'encoding='a'?>| - | 2 19 0 0
K |<?xml version='1.0' encoding=''?>| - | 2 30 0 0
K |<?xml version='1.0' encoding='_a'?>| - | 2 30 0 0
K |<?xml version='1.0' encoding='a+'?>| - | 2 31 0 0
K |<?xml version='1.0' encoding='a'standalone='no'?>| - | 2 32 0 0
K |<?xml version='1.0' standalone='no' encoding='a'?>| - | 2 36 0 0
K |<?xml version='1.0' encoding='a' encoding='a'?>| - | 2 33 0 0
K |<?xml version='1.0' standalone='yo'?>| - | 2 33 0 0
K |<?xml version='1.0' standalone='no '?>| - | 2 34 0 0
K |<?xml version='1.0' a='b'?>| - | 2 20 0 0
K |<?xml version='1.0' ? >| - | 2 21 0 0
K |<?xml version='1.0' ?| - | 1 21 0 0
# ]]>
K |<r>]]></r>| - | 2 3 1 2
K |<r>&quot;]]></r>| - | 2 9 1 2
K |<r>] ]>]&amp;]></r>| - | 9 19 3 5
"#;

/// Scenes stepped in turn, each from the session that the one before left, until a number is not 0.
const STEPS: &str = r#"
T |<r xmlns="u">a<!--x-->b</r>| 0@13 0@14 0@23 0@27 9@27
K |<?xml version='1.0'?> <r/><!--c--> | 0@26 0@26 9@35
K |<r>a| 0@3 1@4  |<r>a<| 0@4 1@5  |<r>a<!--c-| 1@10  |<r>a<!--c-->| 1@12  |<r>a<!--c-->b</r>| 0@13 0@17 9@17
K |<r>]]| 0@3 1@5  |<r>]]>| 2@3
K |<r>]]| 0@3 1@5  |<r>]]<| 0@5 1@6
K |<r/>| 0@4 0@4 9@4  |<r/><!--| 1@8  |<r/><!---->| 9@11  |<r/><!----><?p?>x| 2@16
K |<r><?xml| 0@3 1@8  |<r><?xml-| 1@9  |<r><?xml-?></r>| 0@15 9@15
"#;

#[test]
fn the_decisions_examples() {
    for (line, scene, expected) in decided(DECISIONS) {
        assert_eq!(ends(&k(), &scene), expected, "{line}");
    }
    assert_eq!(decided(DECISIONS).len(), 119);
}

/// They meet no section without a rule, so that both tables give them.
#[test]
fn the_pages_vectors() {
    for vector in vectors(VECTORS) {
        vector.check(&vector.table);
        vector.check(&former(&vector.table));
    }
    assert_eq!(vectors(VECTORS).len(), 58);
}

#[test]
fn the_pages_steps() {
    written(STEPS).for_each(check_steps);
    assert_eq!(written(STEPS).count(), 7);
}

/// The places of the sessions after each event.
fn places(scene: &[u8]) -> Vec<u64> {
    let count = events(scene).list.len();
    let after = |count| session_after(&k(), scene, count).place;
    (1..=count).map(after).collect()
}

#[test]
fn n1_1_a_misc_moves_no_place() {
    assert_eq!(
        places(b"<!--x--> <r><!--y-->a<?p?><!--z--></r><?q?>"),
        [12, 21, 38]
    );
    assert_eq!(places(b"<?xml version='1.0'?><r/><!---->"), [25, 25]);
    assert_eq!(places(b"<r><x><!----></x><?p?></r>"), [3, 6, 17, 26]);
    for scene in [
        &b"<!--x--> <"[..],
        b"<?xml version='1.0'?>",
        b"<?p?><!--",
        b"<!----><?xml?>",
    ] {
        let (got, same, _) = step(&k(), scene, &Session::fresh(), AMPLE);
        assert_ne!(got.number, 0);
        assert_eq!(same, Session::fresh());
    }
}

#[test]
fn n1_2_the_text_before_a_misc_is_an_event_whatever_comes_of_it() {
    for scene in [
        "<r>a<!",
        "<r>a<!x",
        "<r>a<",
        "<r>a<?",
        "<r>a<?xml?>",
        "<r>a<!--\x00",
        "<r>a<!--",
    ] {
        let got = run(&k(), scene.as_bytes(), AMPLE).0;
        assert_eq!((got.events, got.records), (2, 3), "{scene}");
    }
}

#[test]
fn n1_3_texts_apart() {
    let texts = |scene: &str| {
        let all = records(&k(), scene);
        all.into_iter()
            .filter(|record| record.starts_with("0 4 "))
            .collect::<Vec<String>>()
    };
    assert_eq!(texts("<r><!----><?p?></r>"), [""; 0]);
    assert_eq!(texts("<r><!---->\n<?p?></r>"), ["0 4 0 10 1 0 0"]);
    assert_eq!(
        texts("<r>ab<!---->cd</r>"),
        ["0 4 0 3 2 0 0", "0 4 0 12 2 0 0"]
    );
    assert_eq!(
        texts("<r>a<?p?>b<?q?></r>"),
        ["0 4 0 3 1 0 0", "0 4 0 9 1 0 0"]
    );
}

#[test]
fn n1_4_places_of_25() {
    let short = |scene: &str, output| run(&k(), scene.as_bytes(), output).0;
    assert_eq!(short("<r><!----> </r>", 32), answer(25, 10, 1, 2));
    assert_eq!(short("<r><!----><x/></r>", 32), answer(25, 10, 1, 2));
    assert_eq!(short("<r><!----><x/></r>", 48), answer(25, 10, 2, 3));
    assert_eq!(short("<r>a<?p?></r>", 48), answer(25, 9, 2, 3));
    assert_eq!(
        short("<?xml version='1.0'?>\n<r/>", 0),
        answer(25, 22, 0, 0)
    );
}

#[test]
fn n1_6_no_byte_is_read_while_an_end_is_awaited() {
    for scene in [&b"<r/><!--"[..], b"<r/><!x", b"<r/><?xml?>"] {
        let awaiting = session_after(&k(), scene, 1);
        assert!(awaiting.awaited);
        let (got, next, _) = step(&k(), scene, &awaiting, AMPLE);
        assert_eq!((got, next.place), (answer(0, 4, 1, 2), 4));
        assert_ne!(step(&k(), scene, &next, AMPLE).0.number, 0);
    }
}

/// A cut inside a misc adds no event and takes none away.
#[test]
fn n1_7_cuts_inside_a_misc() {
    for (before, misc, behind) in [
        ("", "<?xml version='1.0' encoding='a'?>", "<r/>"),
        ("", "<!-- - -->", "<r/>"),
        ("<r>", "<!--<x>-->", "</r>"),
        ("<r>a", "<?p ?x <x/>?>", "b</r>"),
        ("<r>a<x/>", "<!---->", "</r>"),
        ("<r/>", "<?p?>", " "),
    ] {
        let whole = [before, misc, behind].concat();
        let at_the_misc = run(&k(), [before, "<"].concat().as_bytes(), AMPLE);
        for cut in 1..misc.len() {
            let scene = &whole.as_bytes()[..before.len() + cut];
            let (got, written) = run(&k(), scene, AMPLE);
            assert_eq!((got.number, got.place), (1, scene.len() as u64));
            assert_eq!(
                (got.events, &written),
                (at_the_misc.0.events, &at_the_misc.1)
            );
        }
        assert_eq!(ends(&k(), whole.as_bytes()), (9, whole.len() as u64));
    }
}

/// An odd session's place is by its offset alone: a declaration at offset 0, wherever the reader thinks that it is.
#[test]
fn n1_18_the_declaration_by_its_offset() {
    let scene = b"<?xml version='1.0'?><r>a</r>";
    let mut inside = session_after(&k(), scene, 1);
    inside.place = 0;
    assert_eq!(step(&k(), scene, &inside, AMPLE).0, answer(0, 24, 1, 1));
    let mut closed = session_after(&k(), scene, 3);
    closed.place = 0;
    assert_eq!(step(&k(), scene, &closed, AMPLE).0, answer(2, 22, 0, 0));
    let alone = &scene[..21];
    assert_eq!(step(&k(), alone, &closed, AMPLE).0, answer(9, 21, 0, 0));
    assert_eq!(
        step(&k(), &alone[..20], &closed, AMPLE).0,
        answer(1, 20, 0, 0)
    );
}

/// A place inside a misc, or between the ] of a ]]>, is read as what stands there.
#[test]
fn n1_23_odd_places() {
    let scene = b"<r><!--a--><?p ?>]]></r>";
    let inside = session_after(&k(), scene, 1);
    let from = |place: u64| {
        let odd = Session {
            place,
            ..inside.clone()
        };
        let (got, _, written) = step(&k(), scene, &odd, AMPLE);
        (got.number, got.place, lines(&written))
    };
    let text = |at: u64, after: u64| (0, after, vec![format!("0 4 0 {at} {} 0 0", after - at)]);
    assert_eq!(from(4), text(4, 11));
    assert_eq!(from(10), text(10, 11));
    assert_eq!(from(11), (2, 17, vec![]));
    assert_eq!(from(12), (2, 17, vec![]));
    assert_eq!(from(17), (2, 17, vec![]));
    assert_eq!(from(18), text(18, 20));
    assert_eq!(from(19), text(19, 20));
    let nested = b"<r><!--<?p?><x/>--></r>";
    let odd = Session {
        place: 7,
        ..session_after(&k(), nested, 1)
    };
    assert_eq!(step(&k(), nested, &odd, AMPLE).0, answer(0, 16, 1, 1));
}

#[test]
fn laws_of_the_refused_byte() {
    let pages = vectors(VECTORS).into_iter().map(|vector| vector.scene);
    let examples = decided(DECISIONS).into_iter().map(|decision| decision.1);
    pages
        .chain(examples)
        .for_each(|scene| check_refused_byte(&scene));
}
