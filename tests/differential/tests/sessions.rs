//! Sessions that no call handed back: one change for each clause of 20, flipped bits, bytes that hold no session, odd but coherent ones, sessions
//! given to another table or scene, slices of another length, spans that cut characters; given to step and to advance.

use differential::asked::encoded;
use differential::calls::{self, Lent, NO_ANSWER};
use differential::held::{change_past_counts, held, no_session};
use differential::layout::{self, declaration, level, put4, put8, strand};
use differential::shapes::{bound, former, k, t, t2, table, validating};
use differential::{asked, checked, Case, Pace};
use reference::generate::{damaged_scene, damaged_table, numbered_case, odd_session, rule, script_scene, Random};
use reference::{session_after, Action, Session, Span};

const AMPLE: usize = 1 << 16;
const SCENE: &[u8] =
    b"<p:r xmlns:p='u' xmlns='v'><x a='&amp;' b=''/> xml xmlns http://www.w3.org/XML/1998/namespace http://www.w3.org/2000/xmlns/ a:b:c 9 \
    nnnnnnnnnnnnnnnnnnnnnnnnnnnnnnnnnnnnnnnnnnnnnnnnnnnnnnnnnnnnnnnnn ";

/// Modes 0 to 2, classes 1 and 2; unwrap where no rule names the class.
fn two() -> Vec<u8> {
    former(&table(&["u", "v"], 3, 1, vec![rule(0, 0, 1, Action::Validate, 0, 1)]))
}

/// Inside the root's child: two declarations, two levels, one unit.
fn base() -> Vec<u8> {
    encoded(&session_after(&two(), SCENE, 2))
}

/// Offset in SCENE, and length.
fn span_of(text: &str) -> (u64, u64) {
    let found = SCENE.windows(text.len()).position(|window| window == text.as_bytes());
    (found.expect("it stands in the scene") as u64, text.len() as u64)
}

fn put_span(bytes: &mut [u8], at: usize, (offset, length): (u64, u64)) {
    put4(bytes, at, offset);
    put4(bytes, at + 4, length);
}

/// What both answer to a step from the changed base.
fn number(change: impl Fn(&mut Vec<u8>)) -> u8 {
    let mut bytes = base();
    change(&mut bytes);
    let mut again = bytes.clone();
    let table = two();
    let case = Case::new("clause of 20", 0, &table, SCENE);
    checked::step(&case, &mut again, 0);
    checked::step(&case, &mut bytes, AMPLE).0.number
}

fn refused(change: impl Fn(&mut Vec<u8>)) -> bool {
    number(change) == 20
}

const END: u64 = SCENE.len() as u64;

#[test]
fn clause_place_outside_the_scene() {
    assert!(!refused(|_| ()));
    assert!(!refused(|s| put8(s, layout::PLACE, END)));
    for place in [END + 1, 1 << 24, 1 << 32, 1 << 63, u64::MAX] {
        assert!(refused(|s| put8(s, layout::PLACE, place)), "{place}");
    }
}

#[test]
fn clause_span_outside_the_scene() {
    let fields = [
        declaration(0),
        declaration(0) + 8,
        declaration(1),
        declaration(1) + 8,
        level(0),
        level(0) + layout::LEVEL_URI,
        level(1),
        level(1) + layout::LEVEL_URI,
    ];
    let largest = u32::MAX as u64;
    for field in fields {
        for span in [
            (END, 1),
            (END + 1, 0),
            (1, END),
            (largest, 0),
            (largest, 1),
            (largest, 2),
            (1, largest),
            (largest, largest),
            (1 << 31, 1 << 31),
        ] {
            assert!(refused(|s| put_span(s, field, span)), "{field} {span:?}");
        }
    }
    for field in [level(0) + layout::LEVEL_URI, declaration(1) + 8] {
        assert!(!refused(|s| put_span(s, field, (END, 0))));
    }
}

#[test]
fn clause_names_of_levels() {
    for index in 0..2 {
        let name = |span| number(|s| put_span(s, level(index), span));
        assert_eq!(name((0, 1)), 20);
        assert_eq!(name((0, 0)), 20);
        assert_eq!(name((1, 0)), 20);
        assert_eq!(name((1, 2)), 20);
        assert_eq!(name((2, 2)), 20);
        assert_eq!(name(span_of("9")), 20);
        assert_eq!(name(span_of("a:b:c")), 20);
        assert_eq!(name(span_of(&"n".repeat(65))), 20);
        assert_ne!(name(span_of(&"n".repeat(64))), 20);
        assert_ne!(name(span_of("a:b")), 20);
        assert_ne!(name(span_of("xmlns:p")), 20);
    }
}

/// Every span of a scene in other scripts, as a level's name and as a prefix: whole characters make a name, cut ones 20.
#[test]
fn clause_names_in_other_scripts() {
    let mut pace = Pace::new("sessions: every span of names in other scripts", 0);
    let (table, start) = (k(), "<\u{3C0}:\u{9AA8} xmlns:\u{3C0}='\u{E9}'>".as_bytes());
    let session = session_after(&table, start, 1);
    let names = "e\u{301}\u{B7}-:\u{10400} \u{D7} \u{3072}\u{3000} \u{FEFF}\u{E000}\u{EFFFF}".as_bytes();
    let broken = [
        &b"\xC3 a\xE3\x81 \xED\xA0\x80 \xEF\xBF\xBE "[..],
        &"\u{3042}".repeat(21).into_bytes(),
        b"nn",
    ]
    .concat();
    let scene = [start, names, &broken].concat();
    let case = Case::new("every span", 0, &table, &scene);
    for at in 0..=scene.len() {
        for len in 0..=(scene.len() - at).min(70) {
            let span = Span::new(at as u64, len as u64);
            let (mut named, mut prefixed) = (session.clone(), session.clone());
            named.levels[0].name = span;
            prefixed.bindings[0].prefix = span;
            for odd in [named, prefixed] {
                pace.met(checked::step(&case, &mut encoded(&odd), AMPLE).0.number);
            }
        }
    }
    pace.finish(&[2, 20]);
}

/// Of names and prefixes a few bytes more or less at the ends, and places inside characters.
#[test]
fn spans_that_cut_characters() {
    let mut pace = Pace::new("sessions: spans that cut characters", 6);
    while let Some(seed) = pace.next_seed() {
        let mut random = Random::new(seed);
        let (table, scene) = (k(), script_scene(&mut random));
        let accepted = reference::accepted_events(&table, &scene);
        let session = session_after(&table, &scene, random.below(accepted + 1));
        let case = Case::new("cut span", seed, &table, &scene);
        for _ in 0..24 {
            let mut odd = session.clone();
            for level in &mut odd.levels {
                moved(&mut random, &mut level.name);
            }
            for binding in &mut odd.bindings {
                moved(&mut random, &mut binding.prefix);
                moved(&mut random, &mut binding.uri);
            }
            if random.percent(40) {
                odd.place = random.below(scene.len() + 1) as u64;
            }
            go_on(&mut pace, &mut random, &case, encoded(&odd));
        }
    }
    pace.finish(&[0, 1, 2, 20]);
}

/// One in eight spans begins or ends elsewhere, by up to three bytes.
fn moved(random: &mut Random, span: &mut Span) {
    let by = random.below(4) as u64;
    match random.below(32) {
        0 => span.at += by,
        1 => span.len = span.len.saturating_sub(by),
        2 => span.len += by,
        3 => {
            span.at += by;
            span.len = span.len.saturating_sub(by);
        }
        _ => {}
    }
}

/// A name at offset 0 is refused though its bytes are a name; a prefix may stand there.
#[test]
fn clause_name_at_offset_0() {
    let table = two();
    let number = |index: usize, name, prefix| {
        let mut bytes = base();
        bytes[layout::AWAITED] = 0;
        put_span(&mut bytes, level(index), name);
        put_span(&mut bytes, declaration(0), prefix);
        let mut scene = SCENE.to_vec();
        scene[..4].copy_from_slice(b"nnnn");
        checked::step(&Case::new("offset 0", 0, &table, &scene), &mut bytes, AMPLE).0.number
    };
    for index in 0..2 {
        for len in [1, 2, 3] {
            assert_eq!(number(index, (0, len), (0, 0)), 20);
            assert_eq!(number(index, (0, len), (1, 2)), 20);
        }
        assert_ne!(number(index, (1, 1), (0, 0)), 20);
        assert_ne!(number(index, (1, 2), (0, 3)), 20);
        assert_ne!(number(index, (2, 1), (0, 1)), 20);
        assert_eq!(number(index, (1, 2), (0, 5)), 20);
    }
}

#[test]
fn clause_bindings_that_5_would_refuse() {
    let xml = span_of("xml");
    let reserved = [span_of("http://www.w3.org/XML/1998/namespace"), span_of("http://www.w3.org/2000/xmlns/")];
    for index in 0..2 {
        let prefix = |span| refused(|s| put_span(s, declaration(index), span));
        let uri = |span| refused(|s| put_span(s, declaration(index) + 8, span));
        assert!(prefix(span_of("xmlns")));
        assert!(prefix(xml));
        assert!(prefix((9, 0)));
        assert!(prefix((1, 3)));
        assert!(prefix(span_of("9")));
        assert!(prefix(span_of(&"n".repeat(65))));
        assert!(!prefix((0, 0)));
        assert!(!prefix(span_of(&"n".repeat(64))));
        for (at, len) in reserved {
            assert!(uri((at, len)));
            assert!(!uri((at, len - 1)));
        }
        assert!(uri(span_of("&")));
        assert!(uri(span_of("'&amp;'")));
        assert!(!uri(xml));
        assert_eq!(uri((5, 0)), index == 0);
    }
}

#[test]
fn clause_depth_and_strands() {
    for depth in [0, 3, 63, 64, 65, 66, 255, 256, 1 << 16, 1 << 32, (1 << 32) + 2, 1 << 63, u64::MAX] {
        assert!(refused(|s| put8(s, layout::DEPTH, depth)), "{depth}");
    }
    for index in 0..2 {
        for count in [0, 17, 18, 255, 256, 257, (1 << 16) + 1, 1 << 31, u32::MAX as u64] {
            assert!(refused(|s| put4(s, level(index) + layout::LEVEL_STRANDS, count)), "{count}");
        }
        assert!(!refused(|s| put4(s, level(index) + layout::LEVEL_STRANDS, 16)));
    }
}

#[test]
fn clause_modes_classes_units() {
    for index in 0..2 {
        let word = |word| number(|s| put4(s, strand(index, 0), word));
        let class = |class| number(|s| put4(s, level(index) + layout::LEVEL_CLASS, class));
        let targeted = |mode: u64, action: u64, target: u64| word(mode | action << 5 | 1 << 8 | target << 9);
        for mode in 0..32 {
            assert_eq!(word(mode | 1 << 5) == 20, mode >= 3, "{mode}");
            assert_eq!(targeted(mode, 2, 0) == 20, mode >= 3, "{mode}");
        }
        for action in 0..3 {
            assert_ne!(targeted(0, action, 0), 20);
            assert_eq!(targeted(0, action, 1), 20);
            assert_eq!(targeted(0, action, 65_535), 20);
            assert_eq!(word(action << 5) == 20, action == 2, "a validate strand without a target");
        }
        for known in [0, 1, 2, 254, 255] {
            assert_ne!(class(known), 20, "{known}");
            assert_eq!(class(known + 256), 20, "{known} + 256");
            assert_eq!(class(known + (1 << 16)), 20);
            assert_eq!(class(known + (1 << 24)), 20);
        }
        for unknown in 3..254 {
            assert_eq!(class(unknown), 20, "{unknown}");
        }
    }
    assert!(refused(|s| put8(s, layout::UNITS, 0)));
    assert!(!refused(|s| put8(s, layout::UNITS, 65_536)));
    for units in [65_537, 1 << 32, (1 << 32) + 1, 1 << 63, u64::MAX] {
        assert!(refused(|s| put8(s, layout::UNITS, units)), "{units}");
    }
}

#[test]
fn clause_counts_of_bindings() {
    for bound in [0, 1, 3, 64, 65, 255, 256, 1 << 16, 1 << 32, (1 << 32) + 2, u64::MAX] {
        assert!(refused(|s| put8(s, layout::BOUND, bound)), "{bound}");
    }
    let counts = |first: u64, second: u64| {
        number(|s| {
            put4(s, level(0) + layout::LEVEL_BINDINGS, first);
            put4(s, level(1) + layout::LEVEL_BINDINGS, second);
        })
    };
    assert_ne!(counts(2, 0), 20);
    assert_ne!(counts(0, 2), 20);
    assert_ne!(counts(1, 1), 20);
    for (first, second) in [
        (2, 1),
        (1, 0),
        (0, 0),
        (3, u32::MAX as u64),
        (u32::MAX as u64, 3),
        (1 << 31, (1 << 31) + 2),
        (256, 2),
        (2, 256),
    ] {
        assert_eq!(counts(first, second), 20, "{first} {second}");
    }
}

#[test]
fn clause_flags() {
    assert!(refused(|s| s[layout::CLOSED] = 1));
    assert!(!refused(|s| s[layout::AWAITED] = 1));
    assert!(!refused(|s| s[layout::AWAITED] = 0));
    let fresh = |closed: u8, awaited: u8| {
        let mut bytes = asked::fresh();
        (bytes[layout::CLOSED], bytes[layout::AWAITED]) = (closed, awaited);
        checked::step(&Case::new("flags", 0, &two(), SCENE), &mut bytes, AMPLE).0.number
    };
    assert_eq!(fresh(0, 1), 20);
    assert_eq!(fresh(1, 1), 20);
    assert_eq!(fresh(1, 0), 2);
    assert_eq!(fresh(0, 0), 0);
}

/// Each kind of them at open and at closed levels.
#[test]
fn every_form_that_holds_no_session() {
    let mut pace = Pace::new("sessions: every form that holds none", 0);
    let fine = encoded(&session_after(&t2(), b"<r xmlns='u'><x xmlns='v'>", 2));
    let (table, scene) = (t2(), b"<r xmlns='u'><x xmlns='v'>a<");
    let mut ask = |change: &dyn Fn(&mut Vec<u8>)| {
        let mut bytes = fine.clone();
        change(&mut bytes);
        assert_eq!(layout::decode(&bytes), None);
        let answer = checked::step(&Case::new("no session", 0, &table, scene), &mut bytes, AMPLE).0;
        assert_eq!(answer.number, 20);
        pace.met(answer.number);
    };
    for version in (0..=255).filter(|&version| version != 1) {
        ask(&|s| s[layout::VERSION] = version);
    }
    for truth in 2..=255 {
        ask(&|s| s[layout::CLOSED] = truth);
        ask(&|s| s[layout::AWAITED] = truth);
    }
    for bit in 0..40 {
        ask(&|s| s[layout::RESERVED + bit / 8] |= 1 << (bit % 8));
    }
    for index in 0..64 {
        for bit in 0..32 {
            ask(&|s| s[level(index) + layout::LEVEL_RESERVED + bit / 8] |= 1 << (bit % 8));
        }
        for number in 0..16 {
            ask(&|s| s[strand(index, number)] |= 3 << 5);
            for bit in 25..32 {
                ask(&|s| s[strand(index, number) + 3] |= 1 << (bit - 24));
            }
            for bit in 9..25 {
                ask(&|s| put4(s, strand(index, number), 1 << 5 | 1 << bit));
            }
        }
    }
    pace.finish(&[20]);
}

/// 20 for bytes that hold no session stands behind 10, 11, 12 and 7, and before everything else.
#[test]
fn bytes_that_hold_no_session() {
    let mut pace = Pace::new("sessions: bytes that hold none", 12);
    while let Some(seed) = pace.next_seed() {
        let (table, scene) = numbered_case(seed);
        let mut random = Random::new(seed ^ 0x2020);
        let accepted = reference::accepted_events(&table, &scene);
        let valid = encoded(&session_after(&table, &scene, random.below(accepted + 1)));
        let spoilt = damaged_table(&mut random, &table);
        let cut = random.below(scene.len() + 1);
        for _ in 0..12 {
            let mut bytes = valid.clone();
            no_session(&mut bytes, &mut random);
            let case = Case::new("no session", seed, &table, &scene);
            for case in [case, case.with_table(&spoilt), case.with_scene(&scene[..cut])] {
                let out_len = random.below(100);
                pace.met(checked::step(&case, &mut bytes, out_len).0.number);
                pace.met(checked::advance(&case, &mut bytes, random.below(3) as u64, out_len).0.number);
            }
        }
    }
    pace.finish(&[10, 11, 12, 20]);
}

#[test]
fn no_session_behind_seven() {
    let long = vec![b' '; 16_777_216];
    let mut random = Random::new(7);
    for _ in 0..30 {
        let mut bytes = asked::fresh();
        no_session(&mut bytes, &mut random);
        let case = Case::new("no session, long scene", 0, b"", b"");
        let (table, refused) = (t(), [0, 0, 0, 0]);
        let ask = |table: &[u8], scene: &[u8]| {
            let mut lent = Lent::new(&bytes);
            let answer = asked::answer(calls::step(table, scene, &mut lent, &mut Lent::patterned(9)));
            for most in [0, 1, 2, u64::MAX] {
                assert_eq!(
                    asked::answer(calls::advance(table, scene, &mut lent, most, &mut Lent::patterned(9))),
                    answer
                );
            }
            case.same_bytes("session", &bytes, lent.content(), String::new);
            (answer.number, answer.place, answer.events, answer.records)
        };
        assert_eq!(ask(&table, &long), (7, 0, 0, 0));
        assert_eq!(ask(&refused, &long), (11, 0, 0, 0));
        assert_eq!(ask(&table, &long[1..]), (20, 0, 0, 0));
    }
}

/// A step and some more behind it, as long as they are accepted; half of the calls are advances by up to three.
fn go_on(pace: &mut Pace, random: &mut Random, case: &Case, mut bytes: Vec<u8>) {
    for _ in 0..4 {
        let out_len = if random.percent(20) { random.below(200) } else { AMPLE / 4 };
        let answer = match random.percent(50) {
            true => checked::advance(case, &mut bytes, random.below(4) as u64, out_len).0,
            false => checked::step(case, &mut bytes, out_len).0,
        };
        pace.met(answer.number);
        if answer.number != 0 {
            break;
        }
    }
}

#[test]
fn odd_sessions() {
    let mut pace = Pace::new("sessions: odd ones", 12);
    while let Some(seed) = pace.next_seed() {
        let (mut random, table, mut scene, session) = held(seed);
        if random.percent(25) {
            // So that a name may stand at offset 0.
            scene[..3].fill(b'n');
        }
        for _ in 0..16 {
            let odd = odd_session(&mut random, &scene, &session);
            if let Some(bytes) = layout::encode(&odd) {
                go_on(&mut pace, &mut random, &Case::new("odd session", seed, &table, &scene), bytes);
            }
        }
    }
    pace.finish(&[0, 1, 2, 4, 20, 24, 25]);
}

/// A place in the bytes: of the header, of open or closed declarations and levels, or any.
fn some_byte(random: &mut Random, session: &Session) -> usize {
    let (bound, depth) = (session.bindings.len(), session.levels.len());
    match random.below(8) {
        0 | 1 => random.below(40),
        2 => declaration(random.below(bound.max(1)).min(63)) + random.below(16),
        3 | 4 => level(random.below(depth.max(1)).min(63)) + random.below(36),
        5 => level(random.below(depth.max(1)).min(63)) + random.below(96),
        6 => level(depth.saturating_sub(1)) + random.below(40),
        _ => random.below(layout::SIZE),
    }
}

#[test]
fn flipped_bytes() {
    let mut pace = Pace::new("sessions: flipped bytes", 12);
    while let Some(seed) = pace.next_seed() {
        let (mut random, table, scene, session) = held(seed);
        let valid = encoded(&session);
        for _ in 0..16 {
            let mut bytes = valid.clone();
            for _ in 0..random.between(1, 3) {
                let at = some_byte(&mut random, &session);
                match random.below(4) {
                    0 => bytes[at] = random.below(256) as u8,
                    1 => bytes[at] = bytes[at].wrapping_add(1),
                    2 => bytes[at] = bytes[at].wrapping_sub(1),
                    _ => bytes[at] ^= 1 << random.below(8),
                }
            }
            go_on(&mut pace, &mut random, &Case::new("flipped bytes", seed, &table, &scene), bytes);
        }
    }
    pace.finish(&[0, 20]);
}

/// A session given to another scene or another table: judged with this step's.
#[test]
fn another_scene_or_table() {
    let mut pace = Pace::new("sessions: another scene or table", 12);
    while let Some(seed) = pace.next_seed() {
        let (mut random, table, scene, session) = held(seed);
        let bytes = encoded(&session);
        for _ in 0..4 {
            let cut = random.below(scene.len() + 1);
            let near = (session.place as usize + 2).saturating_sub(random.below(5)).min(scene.len());
            let damaged = damaged_scene(&mut random, &scene);
            let spoilt = damaged_table(&mut random, &table);
            let other = reference::generate::table(&mut random);
            let case = Case::new("another scene or table", seed, &table, &scene);
            for case in [
                case.with_scene(&scene[..cut]),
                case.with_scene(&scene[..near]),
                case.with_scene(&damaged),
                case.with_table(&spoilt),
                case.with_table(&other),
            ] {
                go_on(&mut pace, &mut random, &case, bytes.clone());
            }
        }
    }
    pace.finish(&[0, 1, 2, 10, 11, 12, 20]);
}

/// Every bit of a small session, and every fifth of one with 64 levels, 64 declarations and levels of 16 strands.
#[test]
fn every_bit() {
    let mut pace = Pace::new("sessions: every bit", 0);
    let full = format!("{}{}<x>", bound(4, 16), "<r>".repeat(59));
    let full_table = validating(16);
    let deep = encoded(&session_after(&full_table, full.as_bytes(), 64));
    for (table, scene, valid, each) in [(&two(), SCENE, base(), 1), (&full_table, full.as_bytes(), deep, 5)] {
        for bit in (0..8 * layout::SIZE).step_by(each) {
            let mut bytes = valid.clone();
            bytes[bit / 8] ^= 1 << (bit % 8);
            pace.met(
                checked::step(&Case::new("every bit", bit as u64, table, scene), &mut bytes, 4_200)
                    .0
                    .number,
            );
        }
    }
    pace.finish(&[0, 1, 20]);
}

/// What stands past the counts is no part of a session.
#[test]
fn bytes_past_the_counts() {
    let mut pace = Pace::new("sessions: bytes past the counts", 0);
    for seed in 0..300 {
        let (mut random, table, scene, session) = held(seed);
        let mut bytes = encoded(&session);
        change_past_counts(&mut random, &mut bytes, &session);
        assert_eq!(layout::decode(&bytes), Some(session));
        go_on(&mut pace, &mut random, &Case::new("past the counts", seed, &table, &scene), bytes);
    }
    pace.finish(&[0, 9]);
}

/// A slice that is too short: 255, and nothing is written, not even the answer.
#[test]
fn slices_that_are_too_short() {
    let fresh = asked::fresh();
    for len in (0..200).chain((200..layout::SIZE).step_by(97)).chain(layout::SIZE - 3..layout::SIZE) {
        for table in [&t()[..], &[]] {
            let mut session = Lent::new(&fresh[..len]);
            let mut out = Lent::patterned(100);
            assert_eq!(calls::step(table, b"<r xmlns='u'/>", &mut session, &mut out), (255, NO_ANSWER));
            for most in [0, 1, u64::MAX] {
                assert_eq!(calls::advance(table, b"<r xmlns='u'/>", &mut session, most, &mut out), (255, NO_ANSWER));
            }
            assert!(session.content() == &fresh[..len] && out.content() == calls::pattern(100), "{len}");
        }
        let mut session = Lent::patterned(len);
        assert_eq!(calls::fresh(&mut session), 255);
        assert!(session.content() == calls::pattern(len), "{len}");
    }
    let long = vec![b' '; 16_777_216];
    assert_eq!(
        calls::step(&[], &long, &mut Lent::new(&fresh[1..]), &mut Lent::patterned(0)),
        (255, NO_ANSWER)
    );
}

/// A longer one: the further bytes are neither read nor written.
#[test]
fn slices_that_are_longer() {
    for more in [0, 1, 2, 7, 8, 95, 96, 4096] {
        let mut session = Lent::patterned(layout::SIZE + more);
        assert_eq!(calls::fresh(&mut session), 0);
        let bytes = session.content();
        assert_eq!(layout::decode(&bytes[..layout::SIZE]), Some(Session::fresh()));
        assert!(bytes[layout::SIZE..] == calls::pattern(layout::SIZE + more)[layout::SIZE..]);
        let mut bytes = bytes.to_vec();
        let table = t2();
        let case = Case::new("longer slice", 0, &table, b"<r xmlns='u'>a<w xmlns='q'>b<x xmlns='v'/></w>c</r>");
        let mut events = checked::advance(&case, &mut bytes, 3, AMPLE).0.events;
        while checked::step(&case, &mut bytes, AMPLE).0.number == 0 {
            events += 1;
        }
        assert_eq!(events, 9);
        assert!(bytes[layout::SIZE..] == calls::pattern(layout::SIZE + more)[layout::SIZE..]);
    }
}

/// Sessions to bytes and back.
#[test]
fn layout_there_and_back() {
    for seed in 0..300 {
        let session = held(seed).3;
        assert_eq!(layout::decode(&encoded(&session)), Some(session));
    }
}
