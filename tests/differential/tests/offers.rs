//! Ask and commit (request N6): both against the reference, with tables, scenes, sessions and offers of every kind; the page's theorems on the
//! dispatcher's own calls; every byte of every slice.

use differential::asked::{self, encoded};
use differential::calls::{self, pattern, Four, Lent, NO_ANSWER};
use differential::held::{change_past_counts, held, no_offer, no_session};
use differential::layout::{self, declaration, level, put8, OFFER_LENGTH, OFFER_RESERVED, OFFER_SESSION, OFFER_SIZE};
use differential::shapes::{alternating, any_case, bound, small, t, t2, validating, LONGEST, SAMPLE};
use differential::{checked, Case, Pace};
use reference::generate::{damaged_table, held_things, numbered_case, odd_session, table, Random};
use reference::{accepted_events, session_after, Answer, Session};

const AMPLE: usize = 1 << 16;
const UNITS: u64 = 65_536;
/// They go before 30.
const BEFORE: [u8; 5] = [7, 10, 11, 12, 20];
const EVERY: [u8; 20] = [0, 1, 2, 3, 4, 5, 6, 7, 9, 10, 11, 12, 20, 21, 22, 23, 24, 25, 30, 255];

/// None, one byte too few, just enough, a few more.
fn outputs(records: u64) -> Vec<usize> {
    let needed = 16 * records as usize;
    let short = needed.checked_sub(1);
    [0, needed, needed + 5].into_iter().chain(short).collect()
}

/// Behind some of the events, often behind all, with few units left now and then; or one that no scene leads to.
fn some_session(random: &mut Random, table: &[u8], scene: &[u8]) -> Session {
    if scene.len() > LONGEST {
        return Session::fresh();
    }
    let accepted = accepted_events(table, scene);
    let events = if random.percent(40) { accepted } else { random.below(accepted + 1) };
    let session = session_after(table, scene, events);
    match random.below(8) {
        0 | 1 => odd_session(random, scene, &session),
        2 => Session {
            units: UNITS - random.below(3) as u64,
            ..session
        },
        _ => session,
    }
}

/// Its bytes, now and then with others past the counts; a few hold no session.
fn some_bytes(random: &mut Random, table: &[u8], scene: &[u8]) -> Vec<u8> {
    let session = some_session(random, table, scene);
    let mut bytes = encoded(&session);
    match random.below(20) {
        0 => no_session(&mut bytes, random),
        1..=4 => change_past_counts(random, &mut bytes, &session),
        _ => {}
    }
    bytes
}

/// The same with one thing changed that the session holds.
fn another_session(random: &mut Random, bytes: &[u8]) -> Vec<u8> {
    let mut session = layout::decode(bytes).unwrap_or(Session::fresh());
    let things = held_things(&session);
    random.pick(&things).1(&mut session);
    encoded(&session)
}

/// An offer that differs in one thing, or holds none.
fn another_offer(random: &mut Random, offer: &[u8]) -> Vec<u8> {
    let mut other = offer.to_vec();
    match random.below(4) {
        0 => no_offer(&mut other, random),
        1 => other[OFFER_LENGTH + random.below(8)] ^= 1 << random.below(8),
        _ => {
            let session = another_session(random, &offer[OFFER_SESSION..]);
            other[OFFER_SESSION..].copy_from_slice(&session);
        }
    }
    other
}

/// An offer of the same length and of a session that holds the same, in other bytes; none where there is no session.
fn same_offer(random: &mut Random, offer: &[u8]) -> Option<Vec<u8>> {
    let session = layout::decode(&offer[OFFER_SESSION..])?;
    let mut other = offer.to_vec();
    change_past_counts(random, &mut other[OFFER_SESSION..], &session);
    assert_eq!(layout::decode_offer(&other), layout::decode_offer(offer));
    Some(other)
}

/// Slices of which one is too short: 255, and nothing is written, not even the answer.
fn too_short(case: &Case, session: &[u8], offer: &[u8]) -> u8 {
    let (mut lent, mut offered, mut out) = (Lent::new(session), Lent::new(offer), Lent::patterned(100));
    assert_eq!(calls::ask(case.table, case.scene, &mut lent, &mut offered), (255, NO_ANSWER));
    let committed = calls::commit(&mut offered, &mut lent, case.table, case.scene, &mut out);
    assert_eq!(committed, (255, NO_ANSWER));
    assert!(lent.content() == session && offered.content() == offer && out.content() == pattern(100));
    255
}

/// An ask, and commits of its offer and of others in every output.
fn ask_and_commit(pace: &mut Pace, random: &mut Random, case: &Case, session: &[u8]) {
    let (told, offer) = checked::ask(case, session);
    pace.met(told.number);
    let others = [Some(another_offer(random, &offer)), same_offer(random, &offer)];
    for out_len in outputs(told.records) {
        for offer in others.iter().flatten().chain([&offer]) {
            pace.met(checked::commit(case, offer, &mut session.to_vec(), out_len).0.number);
        }
    }
    let short = random.below(layout::SIZE);
    pace.met(too_short(case, &session[..short], &offer));
    pace.met(too_short(case, session, &offer[..OFFER_SESSION + short]));
}

/// By number 7 the scene is too long.
fn random_case(pace: &mut Pace, seed: u64, number: u64) {
    let mut random = Random::new(seed);
    let (table, scene) = any_case(&mut random, number);
    let case = Case::new("ask and commit", seed, &table, &scene);
    for _ in 0..3 {
        let session = some_bytes(&mut random, &table, &scene);
        ask_and_commit(pace, &mut random, &case, &session);
    }
}

#[test]
fn random_cases() {
    let mut pace = Pace::new("offers: random", 6);
    while let Some(seed) = pace.next_seed() {
        random_case(&mut pace, seed, 0);
    }
    pace.finish(&[0, 1, 2, 9, 20, 25, 30, 255]);
}

#[test]
fn random_cases_of_every_number() {
    let mut pace = Pace::new("offers: random, every number", 0);
    (0..400).for_each(|seed| random_case(&mut pace, seed, seed));
    pace.finish(&EVERY);
}

/// The offer is kept, and another session, scene or table handed in: what a step on these gives, or 30.
#[test]
fn other_things_than_were_asked_about() {
    let mut pace = Pace::new("offers: other things than were asked about", 5);
    while let Some(seed) = pace.next_seed() {
        let (table, scene) = numbered_case(seed);
        let mut random = Random::new(seed ^ 0x0FFE);
        let session = some_bytes(&mut random, &table, &scene);
        let case = Case::new("other things", seed, &table, &scene);
        let (told, offer) = checked::ask(&case, &session);
        let mut changed = scene.clone();
        if let Some(at) = scene.len().checked_sub(1).map(|most| random.between(0, most)) {
            changed[at] = *random.pick(b"<>/=' ax\x00\xC3\xA9");
        }
        let longer = [&scene[..], b" "].concat();
        let spoilt = damaged_table(&mut random, &table);
        let another = reference::generate::table(&mut random);
        let other = another_session(&mut random, &session);
        for case in [
            case,
            case.with_scene(&changed),
            case.with_scene(&longer),
            case.with_scene(&scene[..random.below(scene.len() + 1)]),
            case.with_table(&spoilt),
            case.with_table(&another),
        ] {
            let out_len = *random.pick(&[16 * told.records as usize, 48, AMPLE]);
            pace.met(checked::commit(&case, &offer, &mut session.clone(), out_len).0.number);
            pace.met(checked::commit(&case, &offer, &mut other.clone(), out_len).0.number);
        }
    }
    pace.finish(&[0, 2, 9, 10, 11, 12, 20, 25, 30]);
}

/// A list over a scene that grows, some of whose steps are commits, now and then of an offer that was held: its records are the run's.
fn growing(pace: &mut Pace, random: &mut Random, case: Case) {
    let (mut session, mut joined, mut events, mut come) = (asked::fresh(), Vec::new(), 0, 0);
    let mut former = Vec::new();
    let last = loop {
        let part = case.with_scene(&case.scene[..come]);
        let (told, offer) = checked::ask(&part, &session);
        let out_len = *random.pick(&outputs(told.records));
        let (answer, records) = match random.below(4) {
            0 => checked::step(&part, &mut session, out_len),
            1 if !former.is_empty() => checked::commit(&part, &former, &mut session, out_len),
            _ => checked::commit(&part, &offer, &mut session, out_len),
        };
        pace.met(answer.number);
        events += answer.events;
        joined.extend(records);
        former = offer;
        match answer.number {
            0 | 25 | 30 => {}
            1 | 9 if come < case.scene.len() => come = (come + random.between(1, 200)).min(case.scene.len()),
            _ => break answer,
        }
    };
    let records = joined.len() as u64 / 16;
    checked::run_as(&case, joined.len(), Answer { events, records, ..last }, &joined);
}

#[test]
fn lists_in_which_some_steps_are_commits() {
    let mut pace = Pace::new("offers: lists in which some steps are commits", 4);
    while let Some(seed) = pace.next_seed() {
        let (table, scene) = numbered_case(seed);
        growing(
            &mut pace,
            &mut Random::new(seed ^ 0x11575),
            Case::new("growing scene", seed, &table, &scene),
        );
    }
    pace.finish(&[0, 1, 9, 25, 30]);
}

/// What a call leaves: the answer, the session, the output.
struct Left {
    answer: Answer,
    session: Vec<u8>,
    output: Vec<u8>,
}

impl Left {
    fn of(session: &[u8], out_len: usize, call: impl FnOnce(&mut Lent, &mut Lent) -> (u8, Four)) -> Left {
        let (mut session, mut out) = (Lent::new(session), Lent::patterned(out_len));
        let answer = asked::answer(call(&mut session, &mut out));
        Left {
            answer,
            session: session.content().to_vec(),
            output: out.content().to_vec(),
        }
    }

    fn by_step(case: &Case, session: &[u8], out_len: usize) -> Left {
        Left::of(session, out_len, |session, out| calls::step(case.table, case.scene, session, out))
    }

    fn by_commit(case: &Case, offer: &[u8], session: &[u8], out_len: usize) -> Left {
        let mut lent = Lent::new(offer);
        let left = Left::of(session, out_len, |session, out| {
            calls::commit(&mut lent, session, case.table, case.scene, out)
        });
        case.same_bytes("offer", offer, lent.content(), String::new);
        left
    }

    /// A refusal: session and output are as lent.
    fn unwritten(answer: Answer, session: &[u8], out_len: usize) -> Left {
        Left {
            answer,
            session: session.to_vec(),
            output: pattern(out_len),
        }
    }

    fn same(&self, case: &Case, what: &str, other: &Left) {
        case.same(what, &self.answer, &other.answer, String::new);
        case.same_bytes(what, &self.session, &other.session, || "session".into());
        case.same_bytes(what, &self.output, &other.output, || "output".into());
    }
}

/// Theorem 1: the step has the ask's figures, or 25 where the output is too short for them.
fn as_asked(case: &Case, told: &Answer, session: &[u8], stepped: &Left) {
    let out_len = stepped.output.len();
    if told.number == 0 && 16 * told.records as usize > out_len {
        let short = Answer::bare(25, stepped.answer.place);
        stepped.same(case, "theorem 1, output too short", &Left::unwritten(short, session, out_len));
    } else {
        let events = (told.number == 0) as u64;
        case.same("theorem 1", &Answer { events, ..*told }, &stepped.answer, String::new);
    }
}

/// Theorem 2 for an offer that differs.
fn as_refused(case: &Case, offer: &[u8], session: &[u8], stepped: &Left) {
    let out_len = stepped.output.len();
    let refused = Left::unwritten(Answer::bare(30, 0), session, out_len);
    let expected = if BEFORE.contains(&stepped.answer.number) { stepped } else { &refused };
    expected.same(case, "theorem 2", &Left::by_commit(case, offer, session, out_len));
}

#[test]
fn the_pages_theorems() {
    let mut pace = Pace::new("offers: the page's theorems", 5);
    while let Some(seed) = pace.next_seed() {
        let mut random = Random::new(seed);
        let (table, scene) = any_case(&mut random, 0);
        let case = Case::new("theorems", seed, &table, &scene);
        let session = some_bytes(&mut random, &table, &scene);
        let mut offer = Lent::patterned(OFFER_SIZE);
        let told = asked::answer(calls::ask(&table, &scene, &mut Lent::new(&session), &mut offer));
        let offer = offer.content();
        for out_len in outputs(told.records) {
            let stepped = Left::by_step(&case, &session, out_len);
            as_asked(&case, &told, &session, &stepped);
            as_refused(&case, &another_offer(&mut random, offer), &session, &stepped);
            for offer in [Some(offer.to_vec()), same_offer(&mut random, offer), Some(offer.to_vec())]
                .iter()
                .flatten()
            {
                stepped.same(&case, "theorem 3", &Left::by_commit(&case, offer, &session, out_len));
            }
            pace.met(stepped.answer.number);
        }
    }
    pace.finish(&[0, 1, 2, 9, 10, 11, 20, 25]);
}

/// A table, a scene, a session and the number that a step gives of them in an output that suffices.
type Numbered = (Vec<u8>, Vec<u8>, Session, u8);

fn every_step() -> Vec<Numbered> {
    let long = vec![b' '; LONGEST + 1];
    let twice = vec![2, 1, 0, 0, 1, b'u', 1, b'u'];
    let fresh = |table: Vec<u8>, scene: &[u8], number| (table, scene.to_vec(), Session::fresh(), number);
    let behind_all = |table: Vec<u8>, scene: String, number| {
        let scene = scene.into_bytes();
        let session = session_after(&table, &scene, accepted_events(&table, &scene));
        (table, scene, session, number)
    };
    let mut outside = fresh(t(), SAMPLE, 20);
    outside.2.place = 99;
    let mut full = fresh(t(), b"<r/>", 24);
    full.2.units = UNITS;
    vec![
        fresh(t(), SAMPLE, 0),
        fresh(t(), b"", 1),
        fresh(t(), b"\x00", 2),
        fresh(t(), &long, 7),
        fresh(t()[..9].to_vec(), SAMPLE, 10),
        fresh(t()[..9].to_vec(), &long, 10),
        fresh(vec![0; 4], SAMPLE, 11),
        fresh(twice, SAMPLE, 12),
        outside,
        full,
        behind_all(t(), format!("<{}", "n".repeat(65)), 3),
        behind_all(t(), "<r></s>".into(), 4),
        behind_all(t(), "<p:r/>".into(), 5),
        behind_all(t(), "<r a='' a=''/>".into(), 6),
        behind_all(t(), "<r/> ".into(), 9),
        behind_all(t(), "<r>".repeat(65), 21),
        behind_all(validating(1), bound(5, 13), 22),
        behind_all(t2(), alternating(5), 23),
    ]
}

/// Each number, and 20 and 30 in their rank: before them stand the table and 7, and 20 before 30.
#[test]
fn every_number_in_its_rank() {
    let mut pace = Pace::new("offers: every number in its rank", 0);
    let mut random = Random::new(6);
    for (table, scene, session, number) in every_step() {
        let case = Case::new("every number", number as u64, &table, &scene);
        let session = encoded(&session);
        ask_and_commit(&mut pace, &mut random, &case, &session);
        let (told, offer) = checked::ask(&case, &session);
        assert_eq!(told.number, number);
        assert_eq!(checked::commit(&case, &offer, &mut session.clone(), AMPLE).0.number, number);
        let (mut none, mut other) = (session.clone(), offer.clone());
        no_session(&mut none, &mut random);
        put8(&mut other, OFFER_LENGTH, 1 << 40);
        let early = BEFORE.contains(&number);
        let refused = checked::commit(&case, &other, &mut session.clone(), 0).0.number;
        assert_eq!(refused, if early { number } else { 30 });
        let (refused, of_none) = checked::ask(&case, &none);
        assert_eq!(refused.number, if early { number } else { 20 });
        for offer in [offer, other, of_none] {
            assert_eq!(checked::commit(&case, &offer, &mut none.clone(), 0).0, refused);
        }
    }
    pace.finish(&EVERY);
}

/// Every thing that the session holds, changed in the offer and, by itself, in the session handed in.
#[test]
fn every_thing_that_a_session_holds() {
    let mut pace = Pace::new("offers: every thing that a session holds", 0);
    let mut names = std::collections::BTreeSet::new();
    for seed in 0..60 {
        let (_, table, scene, session) = held(seed);
        let case = Case::new("every thing", seed, &table, &scene);
        let (bytes, things) = (encoded(&session), held_things(&session));
        let offer = checked::ask(&case, &bytes).1;
        for (name, change) in things.iter().step_by(1 + things.len() / 200) {
            let mut other = session.clone();
            change(&mut other);
            let mut other = encoded(&other);
            let other_offer = layout::offer_of(&other, scene.len());
            let refused = checked::commit(&case, &other_offer, &mut bytes.clone(), AMPLE).0.number;
            assert_eq!(refused, 30, "{name}");
            pace.met(checked::commit(&case, &offer, &mut other, AMPLE).0.number);
            pace.met(checked::commit(&case, &other_offer, &mut other, AMPLE).0.number);
            names.insert(*name);
        }
    }
    assert_eq!(names.len(), 18, "{names:?}");
    pace.finish(&[0, 20, 30]);
}

/// Every bit of an offer's head, of its first declarations and levels, and some of the others.
fn bits() -> impl Iterator<Item = usize> {
    let head = 0..OFFER_SESSION + declaration(3);
    let levels = OFFER_SESSION + level(0)..OFFER_SESSION + level(3);
    let first = head.chain(levels).flat_map(|byte| 8 * byte..8 * byte + 8);
    first.chain((0..8 * OFFER_SIZE).step_by(11))
}

/// A small session, and one with 64 levels, 64 declarations and levels of 16 strands: 30 but past the counts.
#[test]
fn every_bit_of_an_offer() {
    let mut pace = Pace::new("offers: every bit", 0);
    let small = b"<r xmlns='u'><p:x xmlns:p='v' xmlns='q'>a<";
    let full = format!("{}{}<x>", bound(4, 16), "<r>".repeat(59));
    for (table, scene, events) in [(t2(), &small[..], 2), (validating(16), full.as_bytes(), 64)] {
        let case = Case::new("every bit", 0, &table, scene);
        let session = encoded(&session_after(&table, scene, events));
        let offer = checked::ask(&case, &session).1;
        for bit in bits() {
            let mut other = offer.clone();
            other[bit / 8] ^= 1 << (bit % 8);
            pace.met(checked::commit(&case, &other, &mut session.clone(), 64).0.number);
        }
    }
    pace.finish(&[0, 30]);
}

/// What stands past the counts, in the offer, in the session or in both, is no part of them.
#[test]
fn bytes_past_the_counts() {
    let mut pace = Pace::new("offers: bytes past the counts", 0);
    for seed in 0..200 {
        let (mut random, table, scene, session) = held(seed);
        let case = Case::new("past the counts", seed, &table, &scene);
        let mut bytes = encoded(&session);
        let offer = checked::ask(&case, &bytes).1;
        let other = same_offer(&mut random, &offer).expect("a session");
        assert_ne!(offer, other);
        change_past_counts(&mut random, &mut bytes, &session);
        let told = checked::ask(&case, &bytes).0;
        for (offer, handed) in [(&other, encoded(&session)), (&offer, bytes.clone()), (&other, bytes)] {
            let answer = checked::commit(&case, offer, &mut handed.clone(), 16 * told.records as usize).0;
            assert_eq!((answer.number, answer.place, answer.records), (told.number, told.place, told.records));
            pace.met(answer.number);
        }
    }
    pace.finish(&[0, 9]);
}

/// Another version, a padding byte, and session bytes of no session, a number without a target among them.
#[test]
fn bytes_that_hold_no_offer() {
    let mut pace = Pace::new("offers: bytes that hold none", 0);
    let (table, scene, mut random) = (t2(), b"<r xmlns='u'><x xmlns='v'>a<", Random::new(30));
    let case = Case::new("no offer", 0, &table, scene);
    let session = encoded(&session_after(&table, scene, 2));
    let offer = checked::ask(&case, &session).1;
    let mut ask = |change: &mut dyn FnMut(&mut Vec<u8>)| {
        let mut other = offer.clone();
        change(&mut other);
        assert_eq!(layout::decode_offer(&other), None);
        let answer = checked::commit(&case, &other, &mut session.clone(), AMPLE).0;
        assert_eq!(answer, Answer::bare(30, 0));
        pace.met(answer.number);
    };
    for version in (0..=255).filter(|&version| version != 1) {
        ask(&mut |offer| offer[layout::VERSION] = version);
        ask(&mut |offer| offer[OFFER_SESSION + layout::VERSION] = version);
    }
    for bit in 0..56 {
        ask(&mut |offer| offer[OFFER_RESERVED + bit / 8] |= 1 << (bit % 8));
    }
    for _ in 0..3_000 {
        ask(&mut |offer| no_offer(offer, &mut random));
    }
    pace.finish(&[30]);
}

/// Every other length of a scene and of an offer: 30 also where the event would be the same.
#[test]
fn every_length() {
    let mut pace = Pace::new("offers: every length", 0);
    let table = t2();
    let whole = b"<r xmlns='u'>a<x xmlns='v'/></r>  ";
    for events in 0..=accepted_events(&table, whole) {
        let session = encoded(&session_after(&table, whole, events));
        for (asked_of, handed_in) in (0..=whole.len()).flat_map(|one| (0..=whole.len()).map(move |other| (one, other))) {
            let case = Case::new("every length", events as u64, &table, &whole[..handed_in]);
            let offer = layout::offer_of(&session, asked_of);
            let number = checked::commit(&case, &offer, &mut session.clone(), 160).0.number;
            assert_eq!(number == 30, asked_of != handed_in && number != 20);
            pace.met(number);
        }
    }
    pace.finish(&[0, 1, 9, 20, 30]);
}

#[test]
fn slices_that_are_too_short() {
    let (fresh, table) = (asked::fresh(), t());
    let offer = layout::offer_of(&fresh, SAMPLE.len());
    let long = vec![b' '; LONGEST + 1];
    let lengths = |size: usize| (0..100).chain((100..size).step_by(97)).chain(size - 20..size);
    for (table, scene) in [(&table[..], SAMPLE), (&[], SAMPLE), (&table, &long)] {
        let case = Case::new("too short", 0, table, scene);
        for len in lengths(layout::SIZE) {
            too_short(&case, &fresh[..len], &offer);
            too_short(&case, &fresh[..len], &offer[..len]);
        }
        for len in lengths(OFFER_SIZE) {
            too_short(&case, &fresh, &offer[..len]);
        }
    }
}

/// The further bytes are neither read nor written.
#[test]
fn slices_that_are_longer() {
    let mut pace = Pace::new("offers: longer slices", 0);
    for (seed, more) in [0, 1, 2, 7, 8, 16, 95, 4096].into_iter().enumerate() {
        let mut random = Random::new(seed as u64);
        let table = table(&mut random);
        let scene = small(&mut random, &table);
        let case = Case::new("longer slice", seed as u64, &table, &scene);
        let mut session = [asked::fresh(), pattern(more)].concat();
        loop {
            let offer = [checked::ask(&case, &session).1, pattern(more + 3)].concat();
            let number = checked::commit(&case, &offer, &mut session, AMPLE).0.number;
            assert!(session[layout::SIZE..] == pattern(more));
            pace.met(number);
            if number != 0 {
                break;
            }
        }
    }
    pace.finish(&[0, 9]);
}
