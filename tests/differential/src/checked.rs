//! Both asked, everything compared. Each function hands back what both said.

use crate::asked;
use crate::calls::{self, Four, Lent};
use crate::case::{offer_text, session_text, Case};
use crate::layout;
use reference::limits;
use reference::{Answer, EventCounts, Forecast, Offer, Session};

pub fn judge(case: &Case) -> Answer {
    let answer = asked::judge(case.table);
    case.same("judge", &reference::judge(case.table), &answer, String::new);
    answer
}

pub fn run(case: &Case, out_len: usize) -> Answer {
    let (expected, records) = reference::run(case.table, case.scene, out_len);
    run_as(case, out_len, expected, &records);
    expected
}

/// Run with an output that is a little longer than needed; the records too.
pub fn ample_run(case: &Case) -> (Answer, Vec<u8>) {
    let (expected, records) = reference::run(case.table, case.scene, usize::MAX);
    run_as(case, records.len() + 37, expected, &records);
    (expected, records)
}

/// Run with every length of output, up to a little more than needed; what to do with each number.
pub fn run_in_every_length(case: &Case, mut met: impl FnMut(u8)) {
    for out_len in 0..=ample_run(case).1.len() + 17 {
        met(run(case, out_len).number);
    }
}

/// The dispatcher's run against an answer and its records; every byte of the output is compared.
pub fn run_as(case: &Case, out_len: usize, expected: Answer, records: &[u8]) {
    let more = || format!("run with an output of {out_len} bytes");
    let mut out = Lent::patterned(out_len);
    let answer = asked::answer(calls::run(case.table, case.scene, &mut out));
    case.same("number, place, events, records", &expected, &answer, more);
    case.same_bytes("output", &filled(out_len, records), out.content(), more);
}

/// Runs of small scenes by one table, all in one output: for sweeps of a million.
pub struct Runs {
    table: Vec<u8>,
    out: Lent,
    /// What the output holds before each.
    clean: Vec<u8>,
}

impl Runs {
    pub fn new(table: &[u8], out_len: usize) -> Runs {
        Runs {
            table: table.to_vec(),
            out: Lent::patterned(out_len),
            clean: calls::pattern(out_len),
        }
    }

    pub fn run(&mut self, scene: &[u8]) -> Answer {
        let (expected, records) = reference::run(&self.table, scene, self.clean.len());
        let answer = asked::answer(calls::run(&self.table, scene, &mut self.out));
        let (written, rest) = self.out.content().split_at(records.len());
        if answer != expected || written != records || rest != &self.clean[records.len()..] {
            run_as(&Case::new("sweep", 0, &self.table, scene), self.clean.len(), expected, &records);
            panic!("the dispatcher gave {answer:?} of {}, and then {expected:?}", scene.escape_ascii());
        }
        self.out.slice()[..records.len()].copy_from_slice(&self.clean[..records.len()]);
        expected
    }
}

/// One step from bytes, which become those of the next session: what the reference's step says of the session that they hold.
pub fn step(case: &Case, session: &mut Vec<u8>, out_len: usize) -> (Answer, Vec<u8>) {
    let (expected, next, records) = expected_step(case, session, out_len);
    step_as(case, session, out_len, expected, next.as_ref(), &records);
    (expected, records)
}

/// The dispatcher's step against an answer, the next session (with number 0) and the records.
pub fn step_as(case: &Case, session: &mut Vec<u8>, out_len: usize, expected: Answer, next: Option<&Session>, records: &[u8]) {
    let call = |session: &mut Lent, out: &mut Lent| calls::step(case.table, case.scene, session, out);
    called_as(case, || "step".into(), session, out_len, (expected, next, records), call);
}

/// A step, or a commit that is one.
fn called_as(
    case: &Case,
    name: impl Fn() -> String,
    session: &mut Vec<u8>,
    out_len: usize,
    (expected, next, records): (Answer, Option<&Session>, &[u8]),
    call: impl FnOnce(&mut Lent, &mut Lent) -> (u8, Four),
) {
    let before = session.clone();
    let more = || format!("{} with an output of {out_len} bytes, {}", name(), session_text(&before));
    let mut lent = Lent::new(session);
    let mut out = Lent::patterned(out_len);
    let answer = asked::answer(call(&mut lent, &mut out));
    case.same("number, place, events, records", &expected, &answer, more);
    case.same_bytes("output", &filled(out_len, records), out.content(), more);
    let after = lent.content();
    match answer.number {
        0 => {
            case.same("next session", &next.cloned(), &layout::decode(after), more);
            case.same_bytes("bytes behind the session", &before[layout::SIZE..], &after[layout::SIZE..], more);
        }
        _ => case.same_bytes("session of a refused call", &before, after, more),
    }
    *session = after.to_vec();
}

/// More than an offer, to see what stands behind it.
const OFFER_SLICE: usize = layout::OFFER_SIZE + 9;

/// An ask about bytes, and the bytes of its offer: those of the session and the scene's length, whatever the number.
pub fn ask(case: &Case, session: &[u8]) -> (Answer, Vec<u8>) {
    let more = || format!("ask, {}", session_text(session));
    let (mut lent, mut offer) = (Lent::new(session), Lent::patterned(OFFER_SLICE));
    let answer = asked::answer(calls::ask(case.table, case.scene, &mut lent, &mut offer));
    let (expected, offered) = expected_ask(case, session);
    case.same("number, place, 0, records", &expected, &answer, more);
    case.same("offer", &offered, &layout::decode_offer(offer.content()), more);
    let bytes = layout::offer_of(session, case.scene.len());
    case.same_bytes("offer", &filled(OFFER_SLICE, &bytes), offer.content(), more);
    case.same_bytes("session of an ask", session, lent.content(), more);
    (expected, bytes)
}

fn expected_ask(case: &Case, session: &[u8]) -> (Answer, Option<Offer>) {
    let Some(held) = layout::decode(session) else {
        return (refused(case), None);
    };
    let asked = reference::ask(case.table, case.scene, &held);
    let bare = Answer::bare(asked.number, asked.place);
    let records = asked.records;
    (Answer { records, ..bare }, Some(asked.offer))
}

/// A commit of an offer's bytes from those of a session, which become those of the next one: what the reference's commit says of what they hold.
pub fn commit(case: &Case, offer: &[u8], session: &mut Vec<u8>, out_len: usize) -> (Answer, Vec<u8>) {
    let (expected, next, records) = expected_commit(case, offer, session, out_len);
    let mut lent = Lent::new(offer);
    let call = |session: &mut Lent, out: &mut Lent| calls::commit(&mut lent, session, case.table, case.scene, out);
    let name = || format!("commit, {}\n ", offer_text(offer));
    called_as(case, name, session, out_len, (expected, next.as_ref(), &records), call);
    case.same_bytes("offer of a commit", offer, lent.content(), name);
    (expected, records)
}

/// Bytes that hold no offer are answered 30, in its rank, as one is that differs.
fn expected_commit(case: &Case, offer: &[u8], session: &[u8], out_len: usize) -> (Answer, Option<Session>, Vec<u8>) {
    let Some(held) = layout::decode(session) else {
        return (refused(case), None, Vec::new());
    };
    let offer = layout::decode_offer(offer).unwrap_or(Offer {
        session: held.clone(),
        length: case.scene.len() + 1,
    });
    let (answer, next, records) = reference::commit(&offer, &held, case.table, case.scene, out_len);
    (answer, Some(next), records)
}

/// One advance from bytes, which become those of the next session: what as many calls of `step` say, and every byte that they leave.
pub fn advance(case: &Case, session: &mut Vec<u8>, most: u64, out_len: usize) -> (Answer, Vec<u8>) {
    let mut lent = Lent::new(session);
    let mut out = Lent::patterned(out_len);
    let before = session.clone();
    let more = || format!("advance by {most} with an output of {out_len} bytes, {}", session_text(&before));
    let answer = asked::answer(calls::advance(case.table, case.scene, &mut lent, most, &mut out));
    let (expected, records) = steps(case, session, most, out_len);
    case.same("number, place, events, records", &expected, &answer, more);
    case.same_bytes("output", &filled(out_len, &records), out.content(), more);
    case.same_bytes("session", session, lent.content(), more);
    (expected, records)
}

/// Steps until one does not give 0 or so many were taken, each lent the rest of the output. By none nothing is judged but whether there is a session.
fn steps(case: &Case, session: &mut Vec<u8>, most: u64, out_len: usize) -> (Answer, Vec<u8>) {
    if most == 0 && !layout::holds(session) {
        return (refused(case), Vec::new());
    }
    let (mut last, mut joined, mut events) = (Answer::bare(0, layout::place(session)), Vec::new(), 0);
    while last.number == 0 && events < most {
        let (answer, records) = step(case, session, out_len - joined.len());
        events += answer.events;
        joined.extend(records);
        last = answer;
    }
    let records = joined.len() as u64 / 16;
    (Answer { events, records, ..last }, joined)
}

/// Bytes that hold no session are answered 20, behind 10, 11, 12 and 7.
fn expected_step(case: &Case, session: &[u8], out_len: usize) -> (Answer, Option<Session>, Vec<u8>) {
    match layout::decode(session) {
        Some(held) => {
            let (answer, next, records) = reference::step(case.table, case.scene, &held, out_len);
            (answer, Some(next), records)
        }
        None => (refused(case), None, Vec::new()),
    }
}

fn refused(case: &Case) -> Answer {
    let judged = reference::judge(case.table).number;
    match judged {
        0 if case.scene.len() > limits::SCENE => Answer::bare(limits::TOO_LONG, 0),
        0 => Answer::bare(20, 0),
        _ => Answer::bare(judged, 0),
    }
}

/// The forecast: what the reference says, within the bound, and what the dispatcher's own runs give.
pub fn forecast(case: &Case) -> Forecast {
    let (expected, counts) = reference::forecast_by_event(case.table, case.scene);
    let told = asked::forecast(case.table, case.scene);
    case.same("forecast", &expected, &told, String::new);
    case.same("forecast of 0, 20 or 25", &false, &[0, 20, 25].contains(&told.number), String::new);
    let bound: u64 = counts.iter().map(EventCounts::bound).sum();
    case.same("records within the bound", &true, &(told.records <= bound), || {
        format!("{told:?}, {bound}")
    });
    let past = counts.iter().position(|event| event.records > event.bound());
    case.same("event past its bound", &None, &past, || format!("{counts:?}"));
    runs_as_forecast(case, &told);
    told
}

/// In an output of just the forecast's size the run gives its number, place and records; in one byte less 25.
fn runs_as_forecast(case: &Case, told: &Forecast) {
    let needed = 16 * told.records as usize;
    let answer = asked::run(case.table, case.scene, needed).0;
    let ends = (answer.number, answer.place, answer.records);
    let more = || format!("forecast against run, {told:?}");
    case.same("run in an output of that size", &(told.number, told.place, told.records), &ends, more);
    if needed > 0 {
        let short = asked::run(case.table, case.scene, needed - 1).0;
        case.same("run in one byte less", &25, &short.number, more);
        case.same("fewer records then", &true, &(short.records < told.records), more);
    }
}

pub fn uri(case: &Case, class: u8, at: u64, len: u64) -> (u8, u64, u64) {
    let expected = reference::uri(case.table, case.scene, class, at, len);
    let given = asked::uri(case.table, case.scene, class, at, len);
    case.same("uri", &expected, &given, || format!("class {class}, offset {at}, length {len}"));
    given
}

/// An output as it stands after a call.
fn filled(out_len: usize, records: &[u8]) -> Vec<u8> {
    let mut out = calls::pattern(out_len);
    out[..records.len()].copy_from_slice(records);
    out
}
