//! N6: ask first, then commit.

use crate::common::*;
use reference::generate::held_things;
use reference::{accepted_events, ask, commit, session_after, step, Answer, Asked, Offer, Session};

/// The page's vectors as they stand there: table, session, |scene|, number, place, records.
const ASKS: &str = r#"
# the first event of A
V1 ask T fresh |<r xmlns="u">a<x/></r>| = 0 13 2
# a text
V2 ask T after1 |<r xmlns="u">a<x/></r>| = 0 14 1
# an awaited end
V3 ask T after3 |<r xmlns="u">a<x/></r>| = 0 18 1
# finished
V4 ask T after5 |<r xmlns="u">a<x/></r>| = 9 22 0
# nothing there
V5 ask T fresh || = 1 0 0
# a byte that cannot stand
V6 ask T fresh |\x00| = 2 0 0
# N3's reject unit is counted
V7 ask T fresh |<r/>| = 0 4 2
# a refused table: an offer all the same
V8 ask 010201010006000801 fresh |<r xmlns="u">a<x/></r>| = 10 0 0
# scene too long
V9 ask T fresh LONG = 7 0 0
# the session's place lies outside
V10 ask T after1 |<r/>| = 20 0 0
# a limit of the step
V11 ask T2 after9* |<r xmlns="u"><x xmlns="v"><x xmlns="q"><x xmlns="v"><x xmlns="q"><x xmlns="v"><x xmlns="q"><x xmlns="v"><x xmlns="q"><x xmlns="v">| = 23 117 0
# no unit left (fresh, but units 65,536)
V12 ask T fresh[units=65536] |<r/>| = 24 0 0
"#;

/// Offer, session, table, |scene|, output, number, place, events, records, session; below it the records written.
const COMMITS: &str = r#"
# as asked, output exact
V13 commit (fresh, 22) fresh T |<r xmlns="u">a<x/></r>| 32 = 0 13 1 2 after1
    0 0 0 0 0 0 0; 0 1 1 1 1 0 0
# bytes past the records are kept
V14 commit (fresh, 22) fresh T |<r xmlns="u">a<x/></r>| 37 = 0 13 1 2 after1
    0 0 0 0 0 0 0; 0 1 1 1 1 0 0
# output one byte short: 25, not 30
V15 commit (fresh, 22) fresh T |<r xmlns="u">a<x/></r>| 31 = 25 0 0 0 same
# another session
V16 commit (fresh, 22) after1 T |<r xmlns="u">a<x/></r>| 64 = 30 0 0 0 same
# a longer scene
V17 commit (fresh, 22) fresh T |<r xmlns="u">a<x/></r> | 64 = 30 0 0 0 same
# another length in the offer
V18 commit (fresh, 21) fresh T |<r xmlns="u">a<x/></r>| 64 = 30 0 0 0 same
# sessions that differ in one strand's opened-here
V19 commit (after1[here=false], 22) after1 T |<r xmlns="u">a<x/></r>| 64 = 30 0 0 0 same
# other bytes, same length: not noticed
V20 commit (fresh, 22) fresh T |\x00\x00\x00\x00\x00\x00\x00\x00\x00\x00\x00\x00\x00\x00\x00\x00\x00\x00\x00\x00\x00\x00| 64 = 2 0 0 0 same
# another table: not noticed, a step with it
V21 commit (fresh, 22) fresh T2 |<r xmlns="u">a<x/></r>| 64 = 0 13 1 2 after1*
    0 0 0 0 0 0 0; 0 1 1 1 1 0 0
# finished
V22 commit (after5, 22) after5 T |<r xmlns="u">a<x/></r>| 0 = 9 22 0 0 same
# 10 before 30
V23 commit (fresh, 22) after1 010201010006000801 |<r xmlns="u">a<x/></r>| 64 = 10 0 0 0 same
# 7 before 30
V24 commit (fresh, 22) fresh T LONG 64 = 7 0 0 0 same
# 20 before 30
V25 commit (fresh, 22) after1 T |<r/>| 64 = 20 0 0 0 same
# equal to the offer's, but not coherent
V26 commit (fresh[place=99], 22) fresh[place=99] T |<r xmlns="u">a<x/></r>| 64 = 20 0 0 0 same
# the offer's session is compared, not judged
V27 commit (fresh[place=99], 22) fresh T |<r xmlns="u">a<x/></r>| 64 = 30 0 0 0 same
# 30 before reading
V28 commit (fresh, 22) fresh T |\x00| 64 = 30 0 0 0 same
# 30 before an awaited end
V29 commit (after3, 23) after3 T |<r xmlns="u">a<x/></r>| 64 = 30 0 0 0 same
"#;

/// The page's LONG, in bytes.
const LONG: usize = 16_777_216;

/// A line of the page: its words before the scene, the scene, the output, what is given.
struct Line {
    line: &'static str,
    words: Vec<&'static str>,
    table: Vec<u8>,
    scene: Vec<u8>,
    output: &'static str,
    given: &'static str,
    records: Vec<&'static str>,
}

impl Line {
    /// The table is the word of this index.
    fn of(line: &'static str, table: usize) -> Line {
        let (head, scene, tail) = match line.split('|').collect::<Vec<_>>()[..] {
            [head, scene, tail] => (head, bytes(scene), tail),
            _ => {
                let (head, tail) = line.split_once("LONG").expect(line);
                (head, vec![0; LONG], tail)
            }
        };
        let words: Vec<&str> = head.split_whitespace().collect();
        let (output, given) = tail.split_once('=').expect(line);
        Line {
            line,
            table: table_of(words[table]),
            words,
            scene,
            output,
            given,
            records: Vec::new(),
        }
    }

    /// fresh, afterK or afterK*, and what was changed in it.
    fn session(&self, word: &str) -> Session {
        let (name, change) = word.split_once('[').unwrap_or((word, ""));
        let mut session = match name.strip_prefix("after") {
            Some(count) => self.session_after(count),
            None if name == "fresh" => Session::fresh(),
            None => panic!("no session {word}"),
        };
        match change.trim_end_matches(']').split_once('=') {
            Some(("place", place)) => session.place = place.parse().expect(word),
            Some(("units", units)) => session.units = units.parse().expect(word),
            Some(("here", here)) => {
                session.levels[0].strands[0].opened_here = here.parse().expect(word);
            }
            _ => assert!(change.is_empty(), "{word}"),
        }
        session
    }

    fn session_after(&self, count: &str) -> Session {
        match count.strip_suffix('*') {
            Some(own) => session_after(&self.table, &self.scene, own.parse().expect(own)),
            None => session_after(&t(), SAMPLE, count.parse().expect(count)),
        }
    }

    fn check_ask(&self) {
        let session = self.session(self.words[3]);
        let [number, place, records] = numbers(self.given)[..] else {
            panic!("{}", self.line)
        };
        let expected = Asked {
            number: number as u8,
            place,
            records,
            offer: offer(&session, self.scene.len()),
        };
        let asked = ask(&self.table, &self.scene, &session);
        assert_eq!(asked, expected, "{}", self.line);
    }

    /// What is written is all that is handed back; the rest of the output keeps its values.
    fn check_commit(&self) {
        let within = |word: &'static str| word.trim_matches(|byte| "(,)".contains(byte));
        let length = within(self.words[3]).parse().expect(self.line);
        let offer = offer(&self.session(within(self.words[2])), length);
        let session = self.session(self.words[4]);
        let output = self.output.trim().parse().expect(self.line);
        let (expected, next) = self.given.rsplit_once(' ').expect(self.line);
        let next = match next {
            "same" => session.clone(),
            other => self.session(other),
        };
        let got = commit(&offer, &session, &self.table, &self.scene, output);
        assert_eq!((got.0, &got.1), (four(expected), &next), "{}", self.line);
        assert_eq!(got.2.len() as u64, 16 * got.0.records, "{}", self.line);
        assert_eq!(lines(&got.2), self.records, "{}", self.line);
    }
}

fn table_of(word: &str) -> Vec<u8> {
    let byte = |at| u8::from_str_radix(&word[at..at + 2], 16).expect(word);
    match word.starts_with('T') {
        true => named(word),
        false => (0..word.len()).step_by(2).map(byte).collect(),
    }
}

fn offer(session: &Session, length: usize) -> Offer {
    Offer {
        session: session.clone(),
        length,
    }
}

#[test]
fn the_pages_asks() {
    let asks: Vec<Line> = written(ASKS).map(|line| Line::of(line, 2)).collect();
    asks.iter().for_each(Line::check_ask);
    assert_eq!(asks.len(), 12);
}

#[test]
fn the_pages_commits() {
    let mut commits: Vec<Line> = Vec::new();
    for line in written(COMMITS) {
        match line.strip_prefix("    ") {
            Some(records) => {
                commits.last_mut().expect(line).records = records.split("; ").collect()
            }
            None => commits.push(Line::of(line, 5)),
        }
    }
    commits.iter().for_each(Line::check_commit);
    assert_eq!(commits.len(), 17);
}

/// Scenes with every session that steps lead to, T and T2.
fn reached() -> Vec<(Vec<u8>, &'static [u8], Session)> {
    let scenes: [&[u8]; 5] = [
        SAMPLE,
        b"<r xmlns='u'><p:x xmlns:p='v' xmlns='q' p:a='1'>t<y/></p:x></r> ",
        b"<r xmlns='u'>a<w xmlns='q'>b<x xmlns='v'/></w>c</s>",
        b"<r/>x",
        b"<r xmlns='u'><x",
    ];
    let mut list = Vec::new();
    for scene in scenes {
        for table in [t(), t2()] {
            let sessions = 0..=accepted_events(&table, scene);
            list.extend(sessions.map(|k| (table.clone(), scene, session_after(&table, scene, k))));
        }
    }
    list
}

/// None, one byte too few, just enough, a few more.
fn outputs(asked: &Asked) -> [usize; 4] {
    let needed = 16 * asked.records as usize;
    [0, needed.saturating_sub(1), needed, needed + 5]
}

/// Theorem 1: what a step gives unless its output is too short, which then gives 25.
#[test]
fn n6_1_ask_is_a_step_with_an_output_that_suffices() {
    for (table, scene, session) in reached() {
        let asked = ask(&table, scene, &session);
        assert_eq!(asked.offer, offer(&session, scene.len()));
        for output in outputs(&asked) {
            let (got, next, written) = step(&table, scene, &session, output);
            if output < 16 * asked.records as usize {
                assert_eq!((got.number, got.events, got.records), (25, 0, 0));
                assert_eq!((next, written.len()), (session.clone(), 0));
            } else {
                let figures = (got.number, got.place, got.records);
                assert_eq!(figures, (asked.number, asked.place, asked.records));
            }
        }
    }
}

/// Theorem 3, and the same twice.
#[test]
fn n6_10_commit_of_the_offer_is_the_step() {
    for (table, scene, session) in reached() {
        let asked = ask(&table, scene, &session);
        for output in outputs(&asked) {
            let stepped = step(&table, scene, &session, output);
            for _ in 0..2 {
                let committed = commit(&asked.offer, &session, &table, scene, output);
                assert_eq!(committed, stepped);
            }
        }
    }
}

fn refused(session: &Session) -> (Answer, Session, Vec<u8>) {
    (answer(30, 0, 0, 0), session.clone(), Vec::new())
}

/// Each thing that a session holds, changed in the offer.
#[test]
fn n6_4_every_thing_that_a_session_holds() {
    let mut names: Vec<&str> = Vec::new();
    for (table, scene, session) in reached() {
        for (name, change) in held_things(&session) {
            let mut other = session.clone();
            change(&mut other);
            assert_ne!(other, session, "{name}");
            let offer = offer(&other, scene.len());
            let got = commit(&offer, &session, &table, scene, ROOM);
            assert_eq!(got, refused(&session), "{name}");
            names.push(name);
        }
    }
    names.sort();
    names.dedup();
    assert_eq!(names.len(), 18, "{names:?}");
}

/// The same bytes under another span.
#[test]
fn n6_4_spans_are_numbers() {
    let scene = b"<a><a>";
    let session = session_after(&t(), scene, 2);
    let mut other = session.clone();
    other.levels[1].name = session.levels[0].name;
    for (held, handed) in [(&session, &other), (&other, &session)] {
        let got = commit(&offer(held, scene.len()), handed, &t(), scene, ROOM);
        assert_eq!(got, refused(handed));
    }
}

/// Before 1, 2, 4, 9, 25 and an awaited end.
#[test]
fn n6_7_before_reading() {
    for (table, scene, session) in reached() {
        for length in [0, scene.len() - 1, scene.len() + 1, LONG, usize::MAX] {
            for output in [0, ROOM] {
                let got = commit(&offer(&session, length), &session, &table, scene, output);
                assert_eq!(got, refused(&session));
            }
        }
    }
}

/// Counts above the limits: compared, and not judged.
#[test]
fn n6_6_the_offers_session_may_hold_anything() {
    let session = session_after(&t2(), SAMPLE, 2);
    let first = session.levels[0].clone();
    let mut others = vec![session.clone(); 5];
    others[0].levels.resize(65, first.clone());
    others[1].bindings.resize(65, session.bindings[0]);
    others[2].levels[0].strands.resize(17, first.strands[0]);
    others[3].units = 65_537;
    others[4].place = u64::MAX;
    for other in others {
        let offered = offer(&other, SAMPLE.len());
        let got = commit(&offered, &session, &t2(), SAMPLE, ROOM);
        assert_eq!(got, refused(&session));
        for offered in [offered, offer(&session, SAMPLE.len())] {
            let (got, next, _) = commit(&offered, &other, &t2(), SAMPLE, ROOM);
            assert_eq!((got, next), (answer(20, 0, 0, 0), other.clone()));
        }
    }
}
