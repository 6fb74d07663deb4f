//! The dispatcher asked with the reference's types. What a call must keep is looked at here; what it hands back is for the caller to compare.

use crate::calls::{self, Four, Lent};
use crate::layout;
use reference::{Answer, Asked, Forecast, Offer, Record, Session};

/// An output for the records of any event of the vectors.
const LARGE: usize = 1 << 20;

pub fn judge(table: &[u8]) -> Answer {
    answer(calls::judge(table))
}

/// The answer and the bytes of the records that it counts. The rest of the output has kept its values.
pub fn run(table: &[u8], scene: &[u8], out_len: usize) -> (Answer, Vec<u8>) {
    let mut out = Lent::patterned(out_len);
    let answer = answer(calls::run(table, scene, &mut out));
    let written = written(&answer, &out, calls::keeps_pattern);
    (answer, written)
}

/// One step from a session that has bytes; with another number than 0 they have kept their values.
pub fn step(table: &[u8], scene: &[u8], session: &Session, out_len: usize) -> (Answer, Session, Vec<u8>) {
    let call = |session: &mut Lent, out: &mut Lent| calls::step(table, scene, session, out);
    stepped(session, Lent::patterned(out_len), calls::keeps_pattern, call)
}

/// What a step, or a commit that is one, makes of a session and an output; `kept` tells whether that is as it was from an offset on.
fn stepped(
    session: &Session,
    mut out: Lent,
    kept: impl Fn(&[u8], usize) -> bool,
    call: impl FnOnce(&mut Lent, &mut Lent) -> (u8, Four),
) -> (Answer, Session, Vec<u8>) {
    let bytes = encoded(session);
    let mut lent = Lent::new(&bytes);
    let answer = answer(call(&mut lent, &mut out));
    let written = written(&answer, &out, kept);
    if answer.number != 0 {
        assert!(lent.content() == bytes, "a refused call changed the session");
        return (answer, session.clone(), written);
    }
    let next = layout::decode(lent.content()).expect("the bytes hold a session");
    (answer, next, written)
}

/// Number, place, records and the offer; the session's bytes have kept their values.
pub fn ask(table: &[u8], scene: &[u8], session: &Session) -> Asked {
    let bytes = encoded(session);
    let mut lent = Lent::new(&bytes);
    let mut offer = Lent::patterned(calls::offer_size());
    let answer = answer(calls::ask(table, scene, &mut lent, &mut offer));
    assert!(lent.content() == bytes, "an ask changed the session");
    assert_eq!(answer.events, 0, "the third number of an ask");
    Asked {
        number: answer.number,
        place: answer.place,
        records: answer.records,
        offer: layout::decode_offer(offer.content()).expect("the bytes hold an offer"),
    }
}

/// What page N6's outputs hold before a call.
const LENT: u8 = 0xEE;

/// A commit of an offer and from a session that have bytes; the offer's have kept their values, and the session's as with a step.
pub fn commit(offer: &Offer, session: &Session, table: &[u8], scene: &[u8], out_len: usize) -> (Answer, Session, Vec<u8>) {
    let bytes = layout::encode_offer(offer).expect("an offer that has bytes");
    let mut lent = Lent::new(&bytes);
    let kept = |out: &[u8], from: usize| out[from..].iter().all(|&byte| byte == LENT);
    let call = |session: &mut Lent, out: &mut Lent| calls::commit(&mut lent, session, table, scene, out);
    let given = stepped(session, Lent::new(&vec![LENT; out_len]), kept, call);
    assert!(lent.content() == bytes, "a commit changed the offer");
    given
}

/// Whether a step with an accepted table does not answer 20.
pub fn coherent(table: &[u8], scene: &[u8], session: &Session) -> bool {
    judge(table).number == 0 && step(table, scene, session, 0).0.number != 20
}

/// The session behind the first so many events that steps from fresh accept.
pub fn session_after(table: &[u8], scene: &[u8], events: usize) -> Session {
    let mut session = Session::fresh();
    for _ in 0..events {
        session = step(table, scene, &session, LARGE).1;
    }
    session
}

/// What document 01's program prints, by steps with 65,536 bytes of output each.
pub fn program(table: &[u8], scene: &[u8]) -> String {
    let (mut session, mut printed, mut events, mut records) = (Session::fresh(), String::new(), 0, 0);
    loop {
        let (answer, next, written) = step(table, scene, &session, 65_536);
        if answer.number != 0 {
            return format!("{printed}{} {} {events} {records}\n", answer.number, answer.place);
        }
        for record in written.chunks(16) {
            printed += &format!("{}\n", Record::read(record).line());
        }
        (session, events, records) = (next, events + 1, records + answer.records);
    }
}

/// Which of the two (0 table, 1 scene), offset and length there.
pub fn uri(table: &[u8], scene: &[u8], class: u8, at: u64, len: u64) -> (u8, u64, u64) {
    let (number, [slice, offset, length]) = calls::uri(table, scene, class, at, len);
    assert_eq!(number, 0, "what calcivorne_uri returns");
    (u8::try_from(slice).expect("0 or 1"), offset, length)
}

/// The six figures; the first is the number that the call returned.
pub fn forecast(table: &[u8], scene: &[u8]) -> Forecast {
    let (number, [first, place, records, units, strands, depth]) = calls::forecast(table, scene);
    assert_eq!(first, number as u64, "figures[0] and what the call returned");
    Forecast {
        number,
        place,
        records,
        units,
        strands,
        depth,
    }
}

/// The bytes of a session that has some.
pub fn encoded(session: &Session) -> Vec<u8> {
    layout::encode(session).expect("a session that has bytes")
}

/// A fresh session's bytes.
pub fn fresh() -> Vec<u8> {
    let mut session = Lent::patterned(calls::session_size());
    assert_eq!(calls::fresh(&mut session), 0);
    session.content().to_vec()
}

/// The four numbers; the first is the one that the call returned.
pub fn answer((number, four): (u8, Four)) -> Answer {
    assert_eq!(four[0], number as u64, "answer[0] and what the call returned");
    Answer {
        number,
        place: four[1],
        events: four[2],
        records: four[3],
    }
}

fn written(answer: &Answer, out: &Lent, kept: impl Fn(&[u8], usize) -> bool) -> Vec<u8> {
    let out = out.content();
    let len = 16 * answer.records as usize;
    assert!(len <= out.len(), "{answer:?} counts more records than the output holds");
    assert!(kept(out, len), "output behind the records was written");
    out[..len].to_vec()
}
