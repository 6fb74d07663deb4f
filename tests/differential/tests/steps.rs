//! Lists of steps over a scene that grows, against the model: no session and no step of the reference comes into it.
//!
//! After every accepted step the joined records are `prefix_records` of the number of accepted steps, and the session is `session_after`. Steps that
//! are refused, by a short output, an event that has not come in yet, a bad byte behind it or a refused table, change nothing, and none is refused
//! with 20.

use differential::shapes::{k, scripted, shaped, small, t, t2, validating, SAMPLE};
use differential::{asked, checked, layout, Case, Pace};
use reference::generate::{boundary, damaged_scene, many_units, misc_scene, numbered_case, scene, soup, table, Random};
use reference::{Answer, Session};

const AMPLE: usize = 1 << 16;

/// What the model says of a scene as far as it has come in.
struct Model {
    reading: reference::Reading,
    /// By accepted event, its records.
    records: Vec<Vec<u8>>,
    /// What refuses the event behind the accepted ones.
    last: Answer,
}

impl Model {
    fn of(case: &Case) -> Model {
        Model {
            reading: reference::events(case.scene),
            records: reference::records_by_event(case.table, case.scene),
            last: reference::run(case.table, case.scene, usize::MAX).0,
        }
    }

    /// An output that the next event's records fit in.
    fn ample(&self, accepted: usize) -> usize {
        self.records.get(accepted).map_or(0, Vec::len) + 21
    }

    /// What a step behind so many accepted ones gives.
    fn step(&self, accepted: usize, out_len: usize) -> (Answer, &[u8]) {
        match self.records.get(accepted) {
            None => (Answer::bare(self.last.number, self.last.place), &[]),
            Some(records) if records.len() > out_len => (Answer::bare(25, self.reading.list[accepted].at), &[]),
            Some(records) => {
                let place = self.reading.list[accepted].after;
                (
                    Answer {
                        number: 0,
                        place,
                        events: 1,
                        records: records.len() as u64 / 16,
                    },
                    records,
                )
            }
        }
    }
}

/// A list of steps so far.
struct Steps {
    session: Vec<u8>,
    accepted: usize,
    joined: Vec<u8>,
}

impl Steps {
    fn new() -> Steps {
        Steps {
            session: asked::fresh(),
            accepted: 0,
            joined: Vec::new(),
        }
    }

    /// One step, compared with the model; its number.
    fn step(&mut self, pace: &mut Pace, case: &Case, model: &Model, out_len: usize) -> u8 {
        let (expected, records) = model.step(self.accepted, out_len);
        let next: Option<Session> = (expected.number == 0).then(|| reference::session_after(case.table, case.scene, self.accepted + 1));
        checked::step_as(case, &mut self.session, out_len, expected, next.as_ref(), records);
        if expected.number == 0 {
            self.accepted += 1;
            self.joined.extend(records);
        }
        assert_ne!(expected.number, 20);
        pace.met(expected.number);
        expected.number
    }

    /// Ample steps until one does not give 0.
    fn all(&mut self, pace: &mut Pace, case: &Case, model: &Model) -> u8 {
        loop {
            let number = self.step(pace, case, model, model.ample(self.accepted));
            if number != 0 {
                return number;
            }
        }
    }

    /// The claim about the whole list.
    fn check(&self, case: &Case) {
        let expected = reference::prefix_records(case.table, case.scene, self.accepted);
        case.same_bytes("joined records", &expected, &self.joined, || format!("{} accepted steps", self.accepted));
        let session = reference::session_after(case.table, case.scene, self.accepted);
        case.same("session", &Some(session), &layout::decode(&self.session), || {
            format!("{} accepted steps", self.accepted)
        });
    }
}

/// Steps up to a cut, then on over the whole scene; and one list that grows byte by byte.
fn every_cut(pace: &mut Pace, case: Case) {
    let whole = Model::of(&case);
    let mut growing = Steps::new();
    for cut in 0..=case.scene.len() {
        let part = case.with_scene(&case.scene[..cut]);
        let model = Model::of(&part);
        growing.all(pace, &part, &model);
        growing.check(&part);
        let mut once = Steps::new();
        once.all(pace, &part, &model);
        once.all(pace, &case, &whole);
        once.check(&case);
    }
}

#[test]
fn every_cut_of_small_scenes() {
    let mut pace = Pace::new("steps: every cut of small scenes", 10);
    while let Some(seed) = pace.next_seed() {
        let mut random = Random::new(seed);
        let table = table(&mut random);
        let mut scene = small(&mut random, &table);
        if random.percent(30) {
            scene = damaged_scene(&mut random, &scene);
        }
        scene.truncate(400);
        every_cut(&mut pace, Case::new("every cut", seed, &table, &scene));
    }
    pace.finish(&[0, 1, 9]);
}

#[test]
fn every_cut_of_the_samples() {
    let mut pace = Pace::new("steps: every cut of the samples", 0);
    let samples: [&[u8]; 18] = [
        SAMPLE,
        b"",
        b"<r/>",
        b"<r xmlns=\"u\"><x xmlns=\"v\"/></r>",
        b"<r xmlns=\"u\">a<w xmlns=\"q\">b<x xmlns=\"v\"/></w>c</r>",
        b"<r></s>",
        b"<p:r/>",
        b"<r/x",
        b" <r xmlns='u' a='1' xml:b=''>\n<x xmlns:p='v' p:c='&amp;'>t</x></r>\n",
        b"<?xml version='1.0' encoding=\"x\" standalone = 'no'?>\n<!--c--><r xmlns='u'>a<!-- - -->b<?p ??>]]<x xmlns='v'/><!----></r> <?q?>\n<!--e-->",
        b"<r xmlns='u'>]]]<!---->></r><!--a--b-->",
        b"<r xmlns='u'>a]]></r>",
        b"<r xmlns='u'>a<?xml-a?><?xMl?></r>",
        b"<r xmlns='u'>a</r><!DOCTYPE r>",
        b"<\xCF\x80:\xE9\xAA\xA8 xmlns:\xCF\x80='u' \xCF\x80:\xC3\xA9='\xE3\x81\x82'>\xF0\x90\x90\x80<!--\xC3\xA9-->\xEF\xBF\xBD<?xml\xC3\xA9 \xC2\x80?></\xCF\x80:\xE9\xAA\xA8>\n",
        b"<r xmlns='u'>\xE3\x81\x82<a\xCC\x81/>\xE3\x81</r>",
        b"<r xmlns='u'>\xC3\xA9<a\xC3\x97/></r>",
        b"<r xmlns='u'>\xC3\xA9<?XML\xEE?></r>",
    ];
    for scene in samples {
        for table in [t(), t2()] {
            every_cut(&mut pace, Case::new("sample", 0, &table, scene));
        }
    }
    pace.finish(&[0, 1, 2, 4, 5, 9]);
}

/// The same for scenes of little but misc, good and bad: most cuts are inside one.
#[test]
fn every_cut_of_scenes_dense_with_misc() {
    let mut pace = Pace::new("steps: every cut of scenes dense with misc", 8);
    while let Some(seed) = pace.next_seed() {
        let mut random = Random::new(seed);
        let table = if random.percent(50) { validating(2) } else { table(&mut random) };
        let scene = if random.percent(60) {
            misc_scene(&mut random)
        } else {
            soup(&mut random)
        };
        for cut in 0..=scene.len() {
            pace.at(boundary(&scene[..cut], &reference::events(&scene[..cut])));
        }
        every_cut(&mut pace, Case::new("every cut", seed, &table, &scene));
    }
    pace.finish_at(
        &[0, 1, 2],
        &[
            "1 comment",
            "1 target xml",
            "1 version",
            "1 ]]",
            "2 target xml",
            "2 ]]>",
            "3 target",
            "9 behind misc",
        ],
    );
}

/// The same for scenes of other scripts, whole and broken: most cuts are inside a character.
#[test]
fn every_cut_of_scenes_in_other_scripts() {
    let mut pace = Pace::new("steps: every cut of scenes in other scripts", 8);
    while let Some(seed) = pace.next_seed() {
        let mut random = Random::new(seed);
        let table = if random.percent(50) { k() } else { table(&mut random) };
        let mut scene = scripted(&mut random);
        scene.truncate(300);
        every_cut(&mut pace, Case::new("every cut", seed, &table, &scene));
    }
    pace.finish(&[0, 1, 2, 3, 9]);
}

/// A list with random cuts, outputs that are short by a byte or at random, and refused steps in between.
fn random_list(pace: &mut Pace, random: &mut Random, case: Case) {
    let mut steps = Steps::new();
    let mut cut = 0;
    while cut < case.scene.len() || case.scene.is_empty() {
        let most = case.scene.len() / random.between(1, 8);
        cut = (cut + 1 + random.below(1 + most)).min(case.scene.len());
        let part = case.with_scene(&case.scene[..cut]);
        let model = Model::of(&part);
        loop {
            refused_steps(pace, random, &part, &model, &mut steps);
            let out_len = model.ample(steps.accepted);
            if steps.step(pace, &part, &model, out_len) != 0 {
                break;
            }
            if steps.accepted % 8 == 0 {
                steps.check(&part);
            }
        }
        steps.check(&part);
        if case.scene.is_empty() {
            break;
        }
    }
}

/// Now and then steps that cannot be accepted, or only with the same event.
fn refused_steps(pace: &mut Pace, random: &mut Random, case: &Case, model: &Model, steps: &mut Steps) {
    let needed = model.records.get(steps.accepted).map_or(0, Vec::len);
    if needed > 0 && random.percent(40) {
        let out_len = if random.percent(50) { needed - 1 } else { random.below(needed) };
        assert_eq!(steps.step(pace, case, model, out_len), 25);
    }
    if random.percent(5) {
        let short = case.with_table(&case.table[..random.below(case.table.len())]);
        let expected = reference::judge(short.table).number;
        if expected != 0 {
            checked::step_as(&short, &mut steps.session, 64, Answer::bare(expected, 0), None, &[]);
            pace.met(expected);
        }
    }
    if random.percent(5) {
        let spoilt = [case.scene, b"\x00"].concat();
        let spoilt = case.with_scene(&spoilt);
        let model = Model::of(&spoilt);
        let out_len = model.ample(steps.accepted);
        steps.step(pace, &spoilt, &model, out_len);
    }
}

#[test]
fn random_cuts_with_refused_steps_in_between() {
    let mut pace = Pace::new("steps: random cuts, refused steps in between", 10);
    while let Some(seed) = pace.next_seed() {
        let (table, scene) = numbered_case(seed);
        if reference::judge(&table).number == 0 {
            random_list(&mut pace, &mut Random::new(seed ^ 0xC07), Case::new("random cuts", seed, &table, &scene));
        }
    }
    pace.finish(&[0, 1, 2, 9, 10, 25]);
}

#[test]
fn random_cuts_of_shapes_at_the_limits() {
    let mut pace = Pace::new("steps: shapes at the limits", 10);
    while let Some(seed) = pace.next_seed() {
        let mut random = Random::new(seed);
        let table = table(&mut random);
        // Number 7, the largest scenes, would take the reference seconds each.
        let scene = shaped(&mut random, &table, seed % 7);
        random_list(&mut pace, &mut random, Case::new("shape", seed, &table, &scene));
    }
    pace.finish(&[0, 1, 9, 25]);
}

/// Run is steps from fresh that are lent the rest of the output, until one does not give 0.
#[test]
fn run_against_steps() {
    let mut pace = Pace::new("steps: run against them", 10);
    while let Some(seed) = pace.next_seed() {
        let mut random = Random::new(seed);
        let table = table(&mut random);
        let mut scene = scene(&mut random, &table);
        if random.percent(25) {
            scene = damaged_scene(&mut random, &scene);
        }
        let needed = reference::run(&table, &scene, usize::MAX).1.len();
        for out_len in [needed + 5, needed, random.below(needed + 1)] {
            let number = steps_as_run(&mut pace, &Case::new("run against steps", seed, &table, &scene), out_len);
            pace.met(number);
        }
    }
    pace.finish(&[1, 2, 9, 25]);
}

fn steps_as_run(pace: &mut Pace, case: &Case, out_len: usize) -> u8 {
    let (mut session, mut joined, mut events) = (asked::fresh(), Vec::new(), 0);
    loop {
        let (answer, records) = checked::step(case, &mut session, out_len - joined.len());
        pace.met(answer.number);
        if answer.number != 0 {
            let whole = Answer {
                events,
                records: joined.len() as u64 / 16,
                ..answer
            };
            checked::run_as(case, out_len, whole, &joined);
            return answer.number;
        }
        joined.extend(records);
        events += 1;
    }
}

/// The same up to the 65,537th unit.
#[test]
fn run_against_steps_with_65_536_units() {
    let mut pace = Pace::new("steps: 65,536 units", 0);
    for last in [&[4, 0, 0, 0][..], &[4, 0, 0, 0, 0]] {
        let (table, scene) = many_units(&[&[16; 32], last].concat());
        let needed = reference::run(&table, &scene, usize::MAX).1.len();
        let number = steps_as_run(&mut pace, &Case::new("65,536 units", 0, &table, &scene), needed);
        pace.met(number);
    }
    pace.finish(&[0, 9, 24]);
}

/// A host may go back to a copy of a session, and go on from it in another process: the bytes alone count.
#[test]
fn copies_of_sessions() {
    let mut pace = Pace::new("steps: copies of sessions", 0);
    for seed in 0..60 {
        let mut random = Random::new(seed);
        let table = table(&mut random);
        let scene = small(&mut random, &table);
        let case = Case::new("copies", seed, &table, &scene);
        let (mut session, mut copies) = (asked::fresh(), Vec::new());
        loop {
            copies.push(session.clone());
            if checked::step(&case, &mut session, AMPLE).0.number != 0 {
                break;
            }
        }
        random.shuffle(&mut copies);
        for mut copy in copies {
            pace.met(checked::step(&case, &mut copy, AMPLE).0.number);
        }
    }
    pace.finish(&[0, 9]);
}
