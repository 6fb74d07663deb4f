//! Self-checks over random tables, scenes and sessions.

mod common;

use common::*;
use reference::characters::{self, Set};
use reference::generate::{
    boundary, boundary_of_25, case, damaged_scene, damaged_table, many_rejects, many_units, misc,
    misc_scene, nearly_full_table, odd_session, rule, scene, scene_of, script_scene, script_soup,
    soup, sparse_table, table, Profile, Random, BOUNDARIES,
};
use reference::table::{self, ANY};
use reference::{
    accepted_events, accepted_events_under, coherent, commit, events, forecast_by_event,
    forecast_by_event_under, judge, plus, prefix_records, program, program_under, records_by_event,
    records_by_event_under, records_of_event, run, run_under, session_after, session_after_under,
    step, step_under, Action, Answer, Defaults, EventCounts, Forecast, Offer, Record, Session,
    REJECT,
};
use std::collections::BTreeMap;

const CASES: u64 = 1500;

fn cases(count: u64) -> impl Iterator<Item = (Random, Vec<u8>, Vec<u8>)> {
    (0..count).map(|seed| {
        let mut random = Random::new(seed);
        let (table, scene) = case(&mut random);
        (random, table, scene)
    })
}

#[test]
fn tables_are_accepted() {
    for seed in 0..4000 {
        let mut random = Random::new(seed);
        for table in [table, sparse_table, nearly_full_table] {
            let table = table(&mut random);
            assert_eq!(judge(&table), answer(0, table.len() as u64, 0, 0), "{seed}");
        }
    }
}

#[test]
fn damaged_tables_meet_every_number() {
    let mut met = BTreeMap::new();
    for seed in 0..4000 {
        let mut random = Random::new(seed);
        let table = table(&mut random);
        let damaged = damaged_table(&mut random, &table);
        *met.entry(judge(&damaged).number).or_insert(0) += 1;
    }
    assert!(met.keys().copied().eq([0, 10, 11, 12]), "{met:?}");
    assert!(met.values().all(|&count| count > 200), "{met:?}");
}

#[test]
fn scenes_are_read_whole() {
    for seed in 0..4000 {
        let mut random = Random::new(seed);
        let table = table(&mut random);
        let scene = scene(&mut random, &table);
        let reading = events(&scene);
        let end = (reading.number, reading.place);
        assert_eq!(end, (9, scene.len() as u64), "{seed}");
    }
}

#[test]
fn every_number_of_a_scene_is_met() {
    let mut met = BTreeMap::new();
    for seed in 0..6000 {
        let mut random = Random::new(seed);
        let table = table(&mut random);
        let whole = scene(&mut random, &table);
        let damaged = damaged_scene(&mut random, &whole);
        let output = random.below(4000);
        for (scene, output) in [(&whole, AMPLE), (&whole, output), (&damaged, AMPLE)] {
            *met.entry(run(&table, scene, output).0.number).or_insert(0) += 1;
        }
    }
    let wanted = [1, 2, 3, 4, 5, 6, 9, 21, 22, 23, 25];
    assert!(met.keys().copied().eq(wanted), "{met:?}");
    assert!(met.values().all(|&count| count > 20), "{met:?}");
}

#[test]
fn accepted_scenes_with_many_records_are_common() {
    let (mut accepted, mut rich, mut units, mut attributes) = (0, 0, 0, 0);
    for (_, table, scene) in cases(CASES) {
        let (answer, bytes) = run(&table, &scene, AMPLE);
        if answer.number == 9 {
            accepted += 1;
            rich += (answer.records >= 50) as u64;
            units += bytes.chunks(16).any(|r| Record::read(r).unit >= 4) as u64;
            attributes += bytes.chunks(16).any(|r| Record::read(r).class == 253) as u64;
        }
    }
    assert!(accepted * 2 > CASES, "{accepted}");
    assert!(rich * 4 > CASES, "{rich}");
    assert!(units * 5 > CASES, "{units}");
    assert!(attributes * 8 > CASES, "{attributes}");
}

#[test]
fn prefixes_grow() {
    for (_, table, scene) in cases(250) {
        let each = records_by_event(&table, &scene);
        let mut joined = Vec::new();
        for (k, records) in each.iter().enumerate() {
            assert_eq!(prefix_records(&table, &scene, k), joined);
            assert_eq!(&records_of_event(&table, &scene, k), records);
            joined.extend(records);
        }
        assert_eq!(prefix_records(&table, &scene, each.len()), joined);
        if judge(&table).number == 0 {
            assert_eq!(each.len(), accepted_events(&table, &scene));
        }
        assert_eq!(run(&table, &scene, AMPLE).1, joined);
    }
}

#[test]
fn units_are_numbered_as_they_open_and_close_once() {
    for (_, table, scene) in cases(CASES) {
        let (answer, bytes) = run(&table, &scene, AMPLE);
        let mut open: Vec<bool> = Vec::new();
        for record in bytes.chunks(16).map(Record::read) {
            match record.kind {
                0 => {
                    assert_eq!(record.unit, open.len() as u64);
                    open.push(true);
                }
                6 => assert!(std::mem::take(&mut open[record.unit as usize])),
                _ => assert!(open[record.unit as usize]),
            }
        }
        if answer.number == 9 {
            assert!(open.iter().all(|open| !open));
        }
    }
}

#[test]
fn units_are_well_formed() {
    for (_, table, scene) in cases(CASES) {
        let (_, bytes) = run(&table, &scene, AMPLE);
        let mut names: BTreeMap<u64, Vec<Vec<u8>>> = BTreeMap::new();
        for record in bytes.chunks(16).map(Record::read) {
            let open = names.entry(record.unit).or_default();
            let name = record.span.of(&scene).to_vec();
            match record.kind {
                1 => open.push(name),
                5 => assert_eq!(open.pop(), Some(name)),
                6 => assert!(open.is_empty()),
                _ => (),
            }
        }
    }
}

#[test]
fn steps_agree_with_the_model() {
    for (_, table, scene) in cases(CASES) {
        let (whole, bytes) = run(&table, &scene, AMPLE);
        let (mut session, mut joined, mut count) = (Session::fresh(), Vec::new(), 0);
        let last = loop {
            let (answer, next, written) = step(&table, &scene, &session, AMPLE);
            if answer.number != 0 {
                assert_eq!(next, session);
                break answer;
            }
            count += 1;
            assert_eq!(answer.place, next.place);
            assert_eq!(answer.records as usize * 16, written.len());
            joined.extend(written);
            session = next;
        };
        let got = answer(last.number, last.place, count, joined.len() as u64 / 16);
        assert_eq!((got, joined), (whole, bytes));
    }
}

/// What a step from one session to the next says of its event.
fn counts_of_step(before: &Session, after: &Session, written: &[u8]) -> EventCounts {
    let records: Vec<Record> = written.chunks(16).map(Record::read).collect();
    let of_attributes = |open: &&Record| open.kind == 0 && open.span.len == 1;
    let units: Vec<u64> = records
        .iter()
        .filter(of_attributes)
        .map(|open| open.unit)
        .collect();
    let in_unit = |record: &&Record| record.kind == 2 && units.contains(&record.unit);
    let opened = after.levels.len() > before.levels.len();
    let levels = if opened { after } else { before };
    EventCounts {
        records: records.len() as u64,
        strands: levels.levels.last().map_or(0, |l| l.strands.len()) as u64,
        attribute_units: units.len() as u64,
        unit_attributes: records.iter().filter(in_unit).count() as u64,
    }
}

/// The forecast by steps alone: their records, and what their sessions hold.
fn forecast_by_steps(table: &[u8], scene: &[u8]) -> (Forecast, Vec<EventCounts>) {
    let (mut session, mut counts) = (Session::fresh(), Vec::new());
    let (mut strands, mut depth) = (0, 0);
    loop {
        let (answer, next, written) = step(table, scene, &session, AMPLE);
        if answer.number != 0 {
            let told = Forecast {
                number: answer.number,
                place: answer.place,
                records: counts.iter().map(|event: &EventCounts| event.records).sum(),
                units: session.units,
                strands: strands as u64,
                depth: depth as u64,
            };
            return (told, counts);
        }
        let held = next.levels.iter().map(|level| level.strands.len());
        strands = strands.max(held.max().unwrap_or(0));
        depth = depth.max(next.levels.len());
        counts.push(counts_of_step(&session, &next, &written));
        session = next;
    }
}

#[test]
fn forecasts_agree_with_steps() {
    let mut met = BTreeMap::new();
    for (_, table, scene) in cases(CASES) {
        let (told, counts) = forecast_by_event(&table, &scene);
        assert_eq!((told, counts.clone()), forecast_by_steps(&table, &scene));
        assert!(counts.iter().all(|event| event.records <= event.bound()));
        *met.entry(told.number).or_insert(0) += 1;
    }
    for never in [0, 20, 25] {
        assert!(!met.contains_key(&never), "{met:?}");
    }
}

#[test]
fn sessions_agree_with_the_open_path() {
    for (_, table, scene) in cases(300) {
        let mut session = Session::fresh();
        for k in 0..accepted_events(&table, &scene) {
            assert_eq!(session, session_after(&table, &scene, k));
            assert!(coherent(&table, &scene, &session));
            session = step(&table, &scene, &session, AMPLE).1;
        }
    }
}

#[test]
fn outputs_of_any_length() {
    for (mut random, table, scene) in cases(CASES) {
        let (whole, bytes) = run(&table, &scene, AMPLE);
        let output = random.below(bytes.len() + 20);
        let (cut, written) = run(&table, &scene, output);
        assert_eq!(written, bytes[..written.len()]);
        assert_eq!(cut.records as usize * 16, written.len());
        if output >= bytes.len() {
            assert_eq!((cut, written), (whole, bytes));
        } else {
            assert_eq!(cut.number, 25);
            let next = records_of_event(&table, &scene, cut.events as usize);
            assert!(written.len() + next.len() > output && written.len() <= output);
            assert_eq!(events(&scene).list[cut.events as usize].at, cut.place);
        }
    }
}

#[test]
fn odd_sessions() {
    let (mut asked, mut fine, mut went_on) = (0, 0, 0);
    for (mut random, table, scene) in cases(CASES) {
        let accepted = accepted_events(&table, &scene);
        if judge(&table).number != 0 {
            continue;
        }
        let session = session_after(&table, &scene, random.below(accepted + 1));
        for _ in 0..8 {
            let odd = odd_session(&mut random, &scene, &session);
            let (answer, next, written) = step(&table, &scene, &odd, AMPLE);
            let is_coherent = coherent(&table, &scene, &odd);
            assert_eq!(answer.number == 20, !is_coherent);
            asked += 1;
            fine += is_coherent as u64;
            if answer.number == 0 {
                went_on += 1;
                assert!(coherent(&table, &scene, &next));
            } else {
                assert!(next == odd && written.is_empty());
            }
        }
    }
    assert!(
        fine * 3 > asked && fine * 10 < asked * 9,
        "{fine} of {asked}"
    );
    assert!(went_on * 4 > asked, "{went_on} of {asked}");
}

/// A commit is the step where that is refused before 30 or where the offer is as it should be.
#[test]
fn commits_are_steps_or_refused() {
    let mut met = BTreeMap::new();
    for (mut random, table, scene) in cases(CASES) {
        let accepted = accepted_events(&table, &scene);
        let reached = session_after(&table, &scene, random.below(accepted + 1));
        for _ in 0..8 {
            let mut some = |session: &Session| match random.percent(40) {
                true => odd_session(&mut random, &scene, session),
                false => session.clone(),
            };
            let from = some(&reached);
            let offer = Offer {
                session: some(&from),
                length: scene.len() + random.percent(10) as usize,
            };
            let output = *random.pick(&[0, 16, 31, 32, 100, AMPLE]);
            let stepped = step(&table, &scene, &from, output);
            let expected = match stepped.0.number {
                10 | 11 | 12 | 20 => stepped,
                _ if offer.session == from && offer.length == scene.len() => stepped,
                _ => (answer(30, 0, 0, 0), from.clone(), Vec::new()),
            };
            *met.entry(expected.0.number).or_insert(0) += 1;
            assert_eq!(commit(&offer, &from, &table, &scene, output), expected);
        }
    }
    for wanted in [0, 1, 2, 9, 10, 11, 12, 20, 23, 24, 25, 30] {
        assert!(met.contains_key(&wanted), "{met:?}");
    }
}

#[test]
fn many_units_meet_24() {
    let mut random = Random::new(24);
    for many in [
        many_units,
        many_units,
        many_units,
        many_rejects,
        many_rejects,
    ] {
        let children: Vec<usize> = (0..60).map(|_| random.below(17)).collect();
        let (table, scene) = many(&children);
        let mut units = 1;
        let fits = children.iter().take_while(|&&count| {
            units += if count == 0 { 1 } else { 127 * count };
            units <= 65_536
        });
        let expected = 1 + 2 * fits.count() as u64;
        let answer = run(&table, &scene, AMPLE).0;
        if answer.number == 24 {
            assert_eq!(answer.events, expected);
        } else {
            assert_eq!((answer.number, answer.events), (9, expected + 1));
        }
    }
}

/// What the scenes reach, below the limits and at them.
#[derive(Default, Debug)]
struct Reached {
    sixteen_strands: u64,
    depth_64: u64,
    sixty_bindings: u64,
    attribute_units: u64,
    eight_attribute_sections: u64,
    names_of_64: u64,
    in_xml: u64,
}

impl Reached {
    fn session(&mut self, session: &Session) {
        let strands = session.levels.iter().any(|l| l.strands.len() == 16);
        let long = session.levels.iter().any(|l| l.name.len >= 64);
        self.sixteen_strands += strands as u64;
        self.depth_64 += (session.levels.len() == 64) as u64;
        self.sixty_bindings += (session.bindings.len() >= 60) as u64;
        self.names_of_64 += long as u64;
        self.in_xml += session.levels.iter().any(|l| l.class == 254) as u64;
    }

    fn event(&mut self, records: &[u8]) {
        let opens = records.chunks(16).map(Record::read).filter(|r| r.kind == 0);
        let attribute_units = opens.filter(|r| r.span.len == 1).count();
        self.attribute_units += (attribute_units > 0) as u64;
        self.eight_attribute_sections += (attribute_units >= 8) as u64;
    }

    fn least(&self) -> u64 {
        let counts = [
            self.sixteen_strands,
            self.depth_64,
            self.sixty_bindings,
            self.attribute_units,
            self.eight_attribute_sections,
            self.names_of_64,
            self.in_xml,
        ];
        counts.into_iter().min().unwrap()
    }
}

#[test]
fn scenes_reach_the_limits() {
    let mut reached = Reached::default();
    for (_, table, scene) in cases(2 * CASES) {
        let mut session = Session::fresh();
        for records in records_by_event(&table, &scene) {
            reached.event(&records);
            session = step(&table, &scene, &session, AMPLE).1;
            reached.session(&session);
        }
    }
    assert!(reached.least() >= 50, "{reached:?}");
}

/// Whether the byte at a place may be refused by so many bytes more: a ]]> is known at its >, a
/// target xml behind it, every other byte by itself.
fn may_decide(scene: &[u8], place: usize, more: usize) -> bool {
    let (before, from) = scene.split_at(place);
    match more {
        0 => true,
        2 => from.starts_with(b"]]>"),
        3 => before.ends_with(b"<?") && from[..3].eq_ignore_ascii_case(b"xml"),
        _ => false,
    }
}

/// 2 and 3 are said of a byte once the one that decides is there, whatever follows; before that
/// the scene only ends too early.
fn first_refused(random: &mut Random, scene: &[u8]) {
    let reading = events(scene);
    let place = reading.place as usize;
    if matches!(reading.number, 2 | 3) {
        let mut cut = place;
        let upto = loop {
            let upto = events(&scene[..cut]);
            assert_eq!(upto.list.len(), reading.list.len());
            if !(upto.number == 1 || upto.number == 9 && cut == place) {
                break upto;
            }
            assert_eq!(upto.place, cut as u64);
            cut += 1;
        };
        assert_eq!((upto.number, upto.place), (reading.number, reading.place));
        assert!(may_decide(scene, place, cut - place - 1));
    }
    let cut = events(&scene[..random.below(place + 1)]);
    assert!(matches!(cut.number, 1 | 9) && cut.list.len() <= reading.list.len());
}

#[test]
fn the_refused_byte_is_the_first() {
    for seed in 0..6000 {
        let mut random = Random::new(seed);
        let table = table(&mut random);
        let whole = scene(&mut random, &table);
        let damaged = damaged_scene(&mut random, &whole);
        first_refused(&mut random, &damaged);
        for _ in 0..4 {
            let (dense, mixed) = (misc_scene(&mut random), soup(&mut random));
            first_refused(&mut random, &dense);
            first_refused(&mut random, &mixed);
        }
    }
}

/// 2 at each kind of place, 1 inside each kind, 3 in a target, 9 and 25 behind a misc.
#[test]
fn every_boundary_of_misc_is_met() {
    let mut met = BTreeMap::new();
    for seed in 0..20_000 {
        let mut random = Random::new(seed);
        for scene in [misc_scene(&mut random), soup(&mut random)] {
            let reading = events(&scene);
            let cut = &scene[..random.below(scene.len() + 1)];
            let short = run(&validating(), &scene, 16 * random.below(6)).0;
            let found = [
                boundary(&scene, &reading),
                boundary(cut, &events(cut)),
                (short.number == 25)
                    .then(|| boundary_of_25(&scene, &reading, short.events as usize))
                    .flatten(),
            ];
            for label in found.into_iter().flatten() {
                *met.entry(label).or_insert(0) += 1;
            }
        }
    }
    let missed: Vec<&str> = BOUNDARIES
        .into_iter()
        .filter(|label| met.get(label).copied().unwrap_or(0) < 20)
        .collect();
    assert!(missed.is_empty(), "{missed:?} of {met:?}");
}

/// A table under which every element and text is delivered.
fn validating() -> Vec<u8> {
    let any = rule(0, ELEMENT, ANY, Action::Validate, 0, 0);
    common::table(&[], 1, 1, vec![any])
}

/// A misc put between two events changes nothing but the offsets behind it.
#[test]
fn a_misc_between_events_only_shifts() {
    for seed in 0..1500 {
        let mut random = Random::new(seed);
        let table = table(&mut random);
        let profile = Profile {
            misc: 0,
            ..Profile::some(&mut random)
        };
        let scene = scene_of(&mut random, &table, &profile);
        let list = events(&scene).list;
        let at = match random.below(list.len() + 1) {
            0 => 0,
            event => list[event - 1].after,
        };
        let misc = misc(&mut random);
        let (before, behind) = scene.split_at(at as usize);
        let longer = [before, &misc, behind].concat();
        let shift = |place: u64, added: bool| place + if added { misc.len() as u64 } else { 0 };
        let (whole, records) = run(&table, &scene, AMPLE);
        let (got, shifted) = run(&table, &longer, AMPLE);
        let end = shift(whole.place, whole.place >= at);
        let events = (whole.number, end, whole.events, whole.records);
        assert_eq!((got.number, got.place, got.events, got.records), events);
        for (one, other) in records.chunks(16).zip(shifted.chunks(16)) {
            let (mut one, other) = (Record::read(one), Record::read(other));
            // Only an open may stand at 0; else a 0 is an unused field.
            let used = |place: u64| place >= at && (place > 0 || one.kind == 0);
            (one.span.at, one.uri.at) = (
                shift(one.span.at, used(one.span.at)),
                shift(one.uri.at, used(one.uri.at) && one.uri.len > 0),
            );
            assert_eq!(one, other, "{seed}");
        }
    }
}

/// Steps agree with the model and with the sessions of the open path, at every cut.
#[test]
fn steps_over_scenes_dense_with_misc() {
    for seed in 0..1500 {
        let mut random = Random::new(seed);
        match random.percent(50) {
            true => steps_at_every_cut(&misc_scene(&mut random)),
            false => steps_at_every_cut(&soup(&mut random)),
        }
    }
}

/// The same where most cuts are inside a character.
#[test]
fn steps_over_scenes_in_other_scripts() {
    for seed in 0..500 {
        let mut random = Random::new(seed);
        match random.percent(50) {
            true => steps_at_every_cut(&script_scene(&mut random)),
            false => steps_at_every_cut(&script_soup(&mut random)),
        }
    }
}

fn steps_at_every_cut(scene: &[u8]) {
    let table = validating();
    let (mut session, mut joined, mut count) = (Session::fresh(), Vec::new(), 0);
    for cut in 0..=scene.len() {
        let part = &scene[..cut];
        let last = loop {
            let (answer, next, written) = step(&table, part, &session, AMPLE);
            if answer.number != 0 {
                break answer;
            }
            count += 1;
            joined.extend(written);
            session = next;
        };
        let got = answer(last.number, last.place, count, joined.len() as u64 / 16);
        assert_eq!((got, joined.clone()), run(&table, part, AMPLE));
        assert_eq!(session, session_after(&table, part, count as usize));
    }
}

/// Whether bytes are a character of these, by the standard library's own reading.
fn is_one(bytes: &[u8], belongs: fn(char) -> bool) -> bool {
    let text = std::str::from_utf8(bytes).unwrap_or_default();
    text.chars().count() == 1 && text.chars().all(belongs)
}

/// Every sequence of two bytes, and of three whose last is one of 80 to BF, as the sets have it
/// and as the standard library reads it: what is one of a set's characters, and what begins one.
#[test]
fn sets_of_characters() {
    let check = |set: &Set, belongs: fn(char) -> bool| {
        for first in 0..=255u8 {
            let mut begins = is_one(&[first], belongs);
            for second in 0..=255u8 {
                let mut goes_on = is_one(&[first, second], belongs);
                for third in 0x80..=0xBFu8 {
                    let three = [first, second, third];
                    let whole = is_one(&three, belongs);
                    assert_eq!(set.holds(&three), whole, "{three:X?}");
                    let four = |last| is_one(&[first, second, third, last], belongs);
                    let more = whole || first >= 0xF0 && (0x80..=0xBF).any(four);
                    assert_eq!(set.begins(&three), more, "{three:X?}");
                    goes_on |= more;
                }
                assert_eq!(set.begins(&[first, second]), goes_on);
                begins |= goes_on;
            }
            assert_eq!(set.begins(&[first]), begins, "{first:X}");
        }
    };
    check(characters::name_starts(), characters::is_name_start);
    check(characters::names(), characters::is_name);
    check(characters::texts(), characters::is_text);
}

/// How many characters the sets have, by the productions' rows.
#[test]
fn sizes_of_the_sets() {
    let count = |belongs: fn(char) -> bool| ('\0'..=char::MAX).filter(|&c| belongs(c)).count();
    assert_eq!(count(characters::is_name_start), 971_505);
    assert_eq!(count(characters::is_name), 971_505 + 12 + 1 + 112 + 2);
    assert_eq!(count(characters::is_text), 1_112_064 - 29 - 2);
}

/// Where scenes in other scripts end: how often a number was met at a whole character, inside one
/// that is broken off, and inside one that the scene's end cuts.
#[test]
fn ends_of_scenes_in_other_scripts() {
    let mut met: BTreeMap<(u8, bool), u64> = BTreeMap::new();
    let mut named = 0;
    for seed in 0..3000 {
        let mut random = Random::new(seed);
        for scene in [script_scene(&mut random), script_soup(&mut random)] {
            let cut = &scene[..random.below(scene.len() + 1)];
            for scene in [&scene, cut] {
                let got = run(&validating(), scene, AMPLE).0;
                let before = &scene[..got.place as usize];
                let inside = std::str::from_utf8(before).is_err();
                *met.entry((got.number, inside)).or_insert(0) += 1;
                named += (got.number == 9 && !scene.is_ascii()) as u64;
            }
        }
    }
    for wanted in [
        (1, false),
        (1, true),
        (2, false),
        (2, true),
        (3, false),
        (3, true),
    ] {
        assert!(met.get(&wanted) > Some(&50), "{wanted:?} of {met:?}");
    }
    for wanted in [4, 5] {
        assert!(met.get(&(wanted, false)) > Some(&10), "{wanted} of {met:?}");
    }
    assert!(named > 500, "{named} {met:?}");
}

/// Names and texts of other scripts, and names of about 64 bytes of them, are common in the others.
#[test]
fn other_scripts_are_common() {
    let (mut names, mut texts, mut long) = (0, 0, 0);
    for (_, table, scene) in cases(CASES) {
        let (_, bytes) = run(&table, &scene, AMPLE);
        let records: Vec<Record> = bytes.chunks(16).map(Record::read).collect();
        let has = |kinds: &[u8], least: u64| {
            let fits = |record: &Record| {
                kinds.contains(&record.kind)
                    && record.span.len >= least
                    && !record.span.of(&scene).is_ascii()
            };
            records.iter().any(fits) as u64
        };
        names += has(&[1, 2, 5], 2);
        texts += has(&[3, 4], 2);
        long += has(&[1, 2, 5], 62);
    }
    assert!(names * 3 > CASES, "{names}");
    assert!(texts * 3 > CASES, "{texts}");
    assert!(long * 20 > CASES, "{long}");
}

/// Every scene of a few bytes: steps agree with the model, and reading always ends.
#[test]
fn all_short_scenes() {
    let pieces: [&[u8]; 11] = [
        b"<", b"/", b">", b"r", b":", b" ", b"=''", b"x", b"</r>", b"<r>", b"&lt;",
    ];
    let met = short_scenes(b"<r", &pieces, 5);
    assert!(met.keys().copied().eq([1, 2, 4, 5, 9]), "{met:?}");
}

/// The same with misc, inside the root and before it.
#[test]
fn all_short_scenes_with_misc() {
    let pieces: [&[u8]; 14] = [
        b"<!--", b"-->", b"-", b"<?", b"?>", b"?", b"xml", b" ", b"]]", b">", b"a", b"<r>",
        b"</r>", b"<",
    ];
    for start in [&b"<r>"[..], b"<?xml version='1.0'", b"<r/>", b""] {
        let met = short_scenes(start, &pieces, 4);
        assert!(met.keys().all(|number| [1, 2, 4, 9].contains(number)));
        assert!(met.len() >= 3, "{met:?}");
    }
}

/// How often each number ends the scenes of a start and so many pieces; steps agree with run.
fn short_scenes(start: &[u8], pieces: &[&[u8]], count: u32) -> BTreeMap<u8, u64> {
    let table = t();
    let mut met = BTreeMap::new();
    for number in 0..pieces.len().pow(count) {
        let mut rest = number;
        let mut scene = start.to_vec();
        for _ in 0..count {
            scene.extend(pieces[rest % pieces.len()]);
            rest /= pieces.len();
        }
        let (whole, _) = run(&table, &scene, AMPLE);
        let mut session = Session::fresh();
        let mut count = 0;
        let last = loop {
            let (answer, next, _) = step(&table, &scene, &session, AMPLE);
            if answer.number != 0 {
                break answer;
            }
            session = next;
            count += 1;
        };
        assert_eq!(
            (last.number, last.place, count),
            (whole.number, whole.place, whole.events)
        );
        *met.entry(whole.number).or_insert(0) += 1;
    }
    met
}

/// What a scene meets of request N3, by the steps over it.
#[derive(Default, Debug)]
struct Defaulted {
    rejected: bool,
    /// A reject unit opened inside another one.
    inside: bool,
    /// Two strands at one section, of which one met rules and the other none.
    beside: bool,
    /// An element attached to a reject unit.
    attached_to: bool,
    /// An attribute unit of a rejected element.
    with_attribute_unit: bool,
    /// An attribute kept for want of a rule.
    kept: bool,
}

impl Defaulted {
    fn any(&self) -> bool {
        self.rejected || self.kept
    }

    fn of(table: &[u8], scene: &[u8]) -> Defaulted {
        let (mut met, mut session, mut schemas) =
            (Defaulted::default(), Session::fresh(), Vec::new());
        loop {
            let (answer, next, written) = step(table, scene, &session, AMPLE);
            if answer.number != 0 {
                return met;
            }
            let records: Vec<Record> = written.chunks(16).map(Record::read).collect();
            let opens = records.iter().filter(|record| record.kind == 0);
            schemas.extend(opens.map(|open| open.class));
            if next.levels.len() > session.levels.len() {
                met.start(&session, &next, &records, &schemas);
                met.attributes(table, scene, &next, &records);
            }
            session = next;
        }
    }

    fn start(&mut self, before: &Session, after: &Session, records: &[Record], schemas: &[u8]) {
        let rejects = |target: Option<u64>| target.is_some_and(|t| schemas[t as usize] == REJECT);
        let opens = |record: &&Record| record.kind == 0 && record.span.len == 0;
        let opened: Vec<bool> = records
            .iter()
            .filter(opens)
            .map(|open| open.class == REJECT)
            .collect();
        let strands = &after.levels.last().expect("a level").strands;
        let rejected = opened.contains(&true);
        let outer = before.levels.last().map_or(&[][..], |level| &level.strands);
        self.rejected |= rejected;
        self.inside |= rejected && outer.iter().any(|strand| rejects(strand.target));
        self.beside |= rejected && opened.len() > 1 && opened.contains(&false);
        self.attached_to |= strands
            .iter()
            .any(|strand| strand.action == Action::Attach && rejects(strand.target));
        self.with_attribute_unit |= rejected && records.iter().any(|record| record.class == 253);
    }

    fn attributes(&mut self, table: &[u8], scene: &[u8], after: &Session, records: &[Record]) {
        let table = table::read(table).expect("an accepted table");
        let level = after.levels.last().expect("a level");
        for strand in &level.strands {
            let without_rule = |record: &Record| {
                let own = (level.class, level.uri.of(scene));
                let stays = record.class == 0 || (record.class, record.uri.of(scene)) == own;
                !stays && table.rules(strand.mode, 1, record.class).count() == 0
            };
            let unit = strand.delivers_to();
            self.kept |= records.iter().any(|record| {
                record.kind == 2 && Some(record.unit) == unit && without_rule(record)
            });
        }
    }
}

#[test]
fn sections_without_a_rule_are_common() {
    let mut met = [0; 7];
    for (_, table, scene) in cases(CASES) {
        let of = Defaulted::of(&table, &scene);
        let without_schemas = of.rejected && table[2] == 0;
        let each = [
            of.rejected,
            of.inside,
            of.beside,
            of.attached_to,
            of.with_attribute_unit,
            of.kept,
            without_schemas,
        ];
        met.iter_mut()
            .zip(each)
            .for_each(|(sum, one)| *sum += one as u64);
    }
    let least = [3, 5, 40, 12, 15, 5, 15];
    let common = met.iter().zip(least).all(|(&met, part)| met * part > CASES);
    assert!(common, "{met:?} of {CASES}");
}

/// Number, place and events are what they were, but that 24 may come earlier; and t+ of a table
/// that lacks nothing is the table.
#[test]
fn what_the_defaults_do_not_change() {
    for (_, table, scene) in cases(CASES) {
        let now = run(&table, &scene, AMPLE).0;
        let before = run_under(Defaults::Former, &table, &scene, AMPLE).0;
        let ends = |answer: Answer| (answer.number, answer.place, answer.events);
        assert!(now.number == 24 || ends(now) == ends(before));
        assert!(now.records >= before.records);
        if !Defaulted::of(&table, &scene).any() {
            assert_eq!(now, before);
        }
    }
}

/// Random tables with a t+, and how many there are of just so many rules.
#[test]
fn tables_of_nearly_128_rules_are_common() {
    let (mut with, mut without, mut near, mut wide) = (0, 0, 0, 0);
    for seed in 0..2000 {
        let table = nearly_full_table(&mut Random::new(seed));
        match plus(&table) {
            Some(kept) => {
                with += 1;
                near += (kept[3] >= 126) as u64;
                wide += (kept[3] >= 126 && table[1] == 32) as u64;
            }
            None => without += 1,
        }
    }
    let enough = with > 900 && without > 300 && near > 200 && wide > 60;
    assert!(enough, "{with} {without} {near} {wide}");
}

/// A table that has a t+, with it; scenes are whole or damaged.
fn kept_cases(count: u64) -> impl Iterator<Item = (Random, Vec<u8>, Vec<u8>, Vec<u8>)> {
    (0..count).filter_map(|seed| {
        let mut random = Random::new(seed);
        let table = match random.below(3) {
            0 => nearly_full_table(&mut random),
            1 => sparse_table(&mut random),
            _ => table(&mut random),
        };
        let kept = plus(&table)?;
        let whole = scene(&mut random, &table);
        let scene = match random.percent(20) {
            true => damaged_scene(&mut random, &whole),
            false => whole,
        };
        Some((random, table, kept, scene))
    })
}

/// t+ gives what t gives under the former defaults: run, program, forecast, the model's list.
#[test]
fn former_results() {
    let mut asked = 0;
    for (mut random, table, kept, scene) in kept_cases(3 * CASES / 2) {
        asked += 1;
        assert_eq!(judge(&kept), answer(0, kept.len() as u64, 0, 0));
        let (whole, bytes) = run(&kept, &scene, AMPLE);
        for output in [AMPLE, random.below(bytes.len() + 20)] {
            let former = run_under(Defaults::Former, &table, &scene, output);
            assert_eq!(run(&kept, &scene, output), former);
        }
        let former = forecast_by_event_under(Defaults::Former, &table, &scene);
        assert_eq!(forecast_by_event(&kept, &scene), former);
        let former = records_by_event_under(Defaults::Former, &table, &scene);
        assert_eq!(records_by_event(&kept, &scene), former);
        assert_eq!(former.len() as u64, whole.events);
        let former = accepted_events_under(Defaults::Former, &table, &scene);
        assert_eq!(accepted_events(&kept, &scene), former);
        let former = program_under(Defaults::Former, &table, &scene);
        assert_eq!(program(&kept, &scene), former);
    }
    assert!(asked > CASES, "{asked}");
}

/// The same for sessions and steps, from odd sessions too.
#[test]
fn former_results_of_steps() {
    let mut met = BTreeMap::new();
    for (mut random, table, kept, scene) in kept_cases(CASES) {
        let accepted = accepted_events(&kept, &scene);
        let events = random.below(accepted + 1);
        let session = session_after(&kept, &scene, events);
        let former = session_after_under(Defaults::Former, &table, &scene, events);
        assert_eq!(session, former);
        for number in 0..8 {
            let from = match number {
                0 => session.clone(),
                _ => odd_session(&mut random, &scene, &session),
            };
            let output = *random.pick(&[0, 16, 31, 32, 100, AMPLE]);
            let got = step(&kept, &scene, &from, output);
            let former = step_under(Defaults::Former, &table, &scene, &from, output);
            assert_eq!(got, former);
            *met.entry(got.0.number).or_insert(0) += 1;
        }
    }
    for wanted in [0, 1, 20, 21, 22, 23, 24, 25] {
        assert!(met.contains_key(&wanted), "{met:?}");
    }
}

/// Not a check: `cargo test --release -- --ignored --nocapture time` prints times per run.
#[test]
#[ignore]
fn time_per_run() {
    let mut random = Random::new(1);
    let (mut bytes, mut records, mut runs) = (0, 0, 0);
    let mut spent = std::time::Duration::ZERO;
    for _ in 0..2000 {
        let table = table(&mut random);
        let profile = Profile {
            elements: 150,
            children: 12,
            ..Profile::some(&mut random)
        };
        let scene = scene_of(&mut random, &table, &profile);
        let start = std::time::Instant::now();
        let answer = run(&table, &scene, AMPLE).0;
        spent += start.elapsed();
        bytes += scene.len();
        records += answer.records;
        runs += 1;
    }
    println!(
        "{runs} runs, {} bytes and {} records each, {:?} per run",
        bytes / runs,
        records / runs as u64,
        spent / runs as u32
    );
}
