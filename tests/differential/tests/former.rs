//! Former results (request N3): by t+ the dispatcher gives what the reference gives by t under the former defaults. Tables of up to 128 rules with the
//! added ones, 32 modes among them; outputs that are too short, sessions that were stepped to and odd ones.

use differential::calls::{self, Lent};
use differential::case::session_text;
use differential::shapes::{self, any_scene, former, t, t2};
use differential::{asked, checked, layout, Case, Pace};
use reference::generate::{many_rejects, nearly_full_table, odd_session, rule, sparse_table, table, Random};
use reference::table::{ANY, ATTRIBUTE_SECTION};
use reference::{accepted_events_under, forecast_under, plus, program_under, run_under, session_after_under, step_under, uri};
use reference::{Action, Answer, Defaults, Record, Session};

const AMPLE: usize = 1 << 16;
const UNITS: u64 = 65_536;

/// A table t, and a case of its t+ and a scene.
struct Kept<'a> {
    table: &'a [u8],
    case: Case<'a>,
}

impl Kept<'_> {
    fn run(&self, out_len: usize) -> u8 {
        let (expected, records) = run_under(Defaults::Former, self.table, self.case.scene, out_len);
        checked::run_as(&self.case, out_len, expected, &records);
        expected.number
    }

    /// How many bytes a run needs.
    fn needed(&self) -> usize {
        run_under(Defaults::Former, self.table, self.case.scene, usize::MAX).1.len()
    }

    fn forecast(&self) -> u8 {
        let expected = forecast_under(Defaults::Former, self.table, self.case.scene);
        let told = asked::forecast(self.case.table, self.case.scene);
        self.case.same("forecast", &expected, &told, String::new);
        told.number
    }

    /// The session behind some of the events that are accepted.
    fn session(&self, random: &mut Random) -> Session {
        let accepted = accepted_events_under(Defaults::Former, self.table, self.case.scene);
        session_after_under(Defaults::Former, self.table, self.case.scene, random.below(accepted + 1))
    }

    /// One step from bytes that hold a session; they become those of the next one.
    fn step(&self, bytes: &mut Vec<u8>, out_len: usize) -> (Answer, Vec<u8>) {
        let held = layout::decode(bytes).expect("the bytes hold a session");
        let (expected, next, records) = step_under(Defaults::Former, self.table, self.case.scene, &held, out_len);
        checked::step_as(&self.case, bytes, out_len, expected, Some(&next), &records);
        (expected, records)
    }

    /// One advance: what as many steps give, and every byte that they leave.
    fn advance(&self, bytes: &mut Vec<u8>, most: u64, out_len: usize) -> Answer {
        let (mut lent, mut out) = (Lent::new(bytes), Lent::patterned(out_len));
        let before = session_text(bytes);
        let more = || format!("advance by {most} with an output of {out_len} bytes, {before}");
        let answer = asked::answer(calls::advance(self.case.table, self.case.scene, &mut lent, most, &mut out));
        let (mut last, mut joined, mut events) = (Answer::bare(0, layout::place(bytes)), Vec::new(), 0);
        while last.number == 0 && events < most {
            let (answer, records) = self.step(bytes, out_len - joined.len());
            events += answer.events;
            joined.extend(records);
            last = answer;
        }
        let records = joined.len() as u64 / 16;
        self.case
            .same("number, place, events, records", &Answer { events, records, ..last }, &answer, more);
        self.case.same_bytes("records", &joined, &out.content()[..joined.len()], more);
        assert!(calls::keeps_pattern(out.content(), joined.len()));
        self.case.same_bytes("session", bytes, lent.content(), more);
        answer
    }

    /// The same bytes by t and by t+, a listed URI 4 bytes further on for each rule added.
    fn uri(&self, class: u8, at: u64, len: u64) -> u8 {
        let expected = uri(self.table, self.case.scene, class, at, len);
        let before = asked::uri(self.table, self.case.scene, class, at, len);
        let (slice, at, len) = asked::uri(self.case.table, self.case.scene, class, at, len);
        let added = (self.case.table.len() - self.table.len()) as u64;
        let moved = if slice == 0 { at - added } else { at };
        let more = || format!("class {class}");
        self.case.same("uri by t", &expected, &before, more);
        self.case.same("uri by t+", &expected, &(slice, moved, len), more);
        slice
    }
}

/// A table that has a t+, with it.
fn some_table(random: &mut Random) -> (Vec<u8>, Vec<u8>) {
    loop {
        let table = match random.below(4) {
            0 | 1 => nearly_full_table(random),
            2 => sparse_table(random),
            _ => table(random),
        };
        if let Some(kept) = plus(&table) {
            return (table, kept);
        }
    }
}

/// Run and program, in ample, exact and short outputs; the forecast; the URIs of the records.
#[test]
fn runs_and_forecasts() {
    let mut pace = Pace::new("former: runs and forecasts", 8);
    let (mut cases, mut full, mut wide) = (0, 0, 0);
    while let Some(seed) = pace.next_seed() {
        let mut random = Random::new(seed);
        let (table, plus) = some_table(&mut random);
        let scene = any_scene(&mut random, &table, seed);
        let case = Case::new("former run", seed, &plus, &scene);
        assert_eq!(checked::judge(&case).number, 0);
        let kept = Kept { table: &table, case };
        let needed = kept.needed();
        for out_len in [needed + 37, needed, random.below(needed + 1), 16 * random.below(needed / 16 + 1)] {
            pace.met(kept.run(out_len));
        }
        pace.met(kept.forecast());
        let expected = program_under(Defaults::Former, &table, &scene);
        case.same("program", &expected, &asked::program(&plus, &scene), String::new);
        uris(&mut pace, &mut random, &kept);
        (cases, full, wide) = (cases + 1, full + (plus[3] >= 126) as u64, wide + (plus[1] == 32) as u64);
    }
    println!("of {cases} tables {full} have 126 to 128 rules, {wide} have 32 modes");
    assert!(cases < 200 || full * 20 > cases && wide * 10 > cases);
    pace.finish(&[0, 1, 2, 9, 23, 25]);
}

/// Those of a run's first records and of random classes and spans.
fn uris(pace: &mut Pace, random: &mut Random, kept: &Kept) {
    let records = run_under(Defaults::Former, kept.table, kept.case.scene, usize::MAX).1;
    for record in records.chunks(16).take(40).map(Record::read) {
        pace.met(kept.uri(record.class, record.uri.at, record.uri.len));
    }
    for _ in 0..10 {
        let class = *random.pick(&[0, 1, 2, 3, 29, 30, 31, 253, 254, 255, 255]);
        let (at, len) = (random.below(kept.case.scene.len() + 2), random.below(9));
        pace.met(kept.uri(class, at as u64, len as u64));
    }
}

/// Steps and advances behind some events, from odd sessions too and with few units left.
#[test]
fn steps_and_advances() {
    let mut pace = Pace::new("former: steps and advances", 8);
    while let Some(seed) = pace.next_seed() {
        let mut random = Random::new(seed);
        let (table, plus) = some_table(&mut random);
        let scene = any_scene(&mut random, &table, seed);
        let kept = Kept {
            table: &table,
            case: Case::new("former steps", seed, &plus, &scene),
        };
        let session = kept.session(&mut random);
        for number in 0..8 {
            let mut from = match number % 2 {
                0 => session.clone(),
                _ => odd_session(&mut random, &scene, &session),
            };
            if random.percent(15) {
                from.units = UNITS - random.below(3) as u64;
            }
            let Some(mut bytes) = layout::encode(&from) else { continue };
            let out_len = *random.pick(&[0, 16, 31, 64, 200, AMPLE, AMPLE]);
            if layout::decode(&bytes).is_some() {
                pace.met(kept.step(&mut bytes.clone(), out_len).0.number);
                pace.met(kept.advance(&mut bytes, random.below(20) as u64, out_len).number);
            }
        }
    }
    pace.finish(&[0, 1, 2, 9, 20, 23, 24, 25]);
}

/// From fresh on, step by step and over a scene that grows.
#[test]
fn whole_lists_of_steps() {
    let mut pace = Pace::new("former: whole lists of steps", 5);
    while let Some(seed) = pace.next_seed() {
        let mut random = Random::new(seed);
        let (table, plus) = some_table(&mut random);
        let scene = any_scene(&mut random, &table, seed);
        let case = Case::new("former list", seed, &plus, &scene);
        let (mut bytes, mut come) = (asked::fresh(), 0);
        loop {
            let part = case.with_scene(&scene[..come]);
            let number = Kept { table: &table, case: part }.step(&mut bytes, AMPLE).0.number;
            pace.met(number);
            match number {
                0 => {}
                1 | 9 if come < scene.len() => come = (come + random.between(1, 200)).min(scene.len()),
                _ => break,
            }
        }
    }
    pace.finish(&[0, 1, 2, 9]);
}

/// 7; and 65,536 units of attributes, beside elements that are not rejected.
#[test]
fn seven_and_24() {
    let long = vec![b' '; 16_777_216];
    for table in [t(), t2()] {
        let plus = former(&table);
        let kept = Kept {
            table: &table,
            case: Case::new("former, too long", 0, &plus, &long),
        };
        assert_eq!((kept.run(9), kept.forecast()), (7, 7));
        assert_eq!(kept.step(&mut asked::fresh(), 9).0.number, 7);
    }
    let attributes = (0..64).map(|schema| rule(0, ATTRIBUTE_SECTION, ANY, Action::Validate, schema, 0));
    let table = shapes::table(&[], 1, 64, attributes.collect());
    let plus = former(&table);
    for (last, number) in [(&[][..], 9), (&[0, 0], 9), (&[0, 1], 24)] {
        let scene = many_rejects(&[&[16; 64], last].concat()).1;
        let kept = Kept {
            table: &table,
            case: Case::new("former, many units", 0, &plus, &scene),
        };
        assert_eq!((kept.run(kept.needed()), kept.forecast()), (number, number));
        assert_eq!(kept.advance(&mut asked::fresh(), u64::MAX, kept.needed()).number, number);
    }
}
