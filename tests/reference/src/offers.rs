//! Ask and Commit of request N6.

use crate::answer::Answer;
use crate::limits;
use crate::session::{coherent, Session};
use crate::step::step;

const NOT_AS_OFFERED: u8 = 30;
/// More than the records of any event take.
const SUFFICES: usize = usize::MAX;

/// A session and a scene's length; a plain value that any caller may make.
#[derive(Clone, Debug, PartialEq, Eq)]
pub struct Offer {
    pub session: Session,
    pub length: usize,
}

/// Number, place and records of a step with an output that suffices, and the offer.
#[derive(Clone, Debug, PartialEq, Eq)]
pub struct Asked {
    pub number: u8,
    pub place: u64,
    pub records: u64,
    pub offer: Offer,
}

/// At every number there is an offer: the session as given and the scene's length.
pub fn ask(table: &[u8], scene: &[u8], session: &Session) -> Asked {
    let answer = step(table, scene, session, SUFFICES).0;
    Asked {
        number: answer.number,
        place: answer.place,
        records: answer.records,
        offer: Offer {
            session: session.clone(),
            length: scene.len(),
        },
    }
}

/// What a step gives, unless session or length differ from the offer's.
pub fn commit(
    offer: &Offer,
    session: &Session,
    table: &[u8],
    scene: &[u8],
    out_len: usize,
) -> (Answer, Session, Vec<u8>) {
    if may_be_read(table, scene, session) && !as_offered(offer, session, scene) {
        let refused = Answer::bare(NOT_AS_OFFERED, 0);
        return (refused, session.clone(), Vec::new());
    }
    step(table, scene, session, out_len)
}

/// Whether none of the numbers before 30 is due: 10 to 12, 7 and 20.
fn may_be_read(table: &[u8], scene: &[u8], session: &Session) -> bool {
    scene.len() <= limits::SCENE && coherent(table, scene, session)
}

fn as_offered(offer: &Offer, session: &Session, scene: &[u8]) -> bool {
    holds_the_same(&offer.session, session) && offer.length == scene.len()
}

/// N6-4. Plain equality: the fields of `Session`, `Binding`, `Level` and `Strand` are what the
/// decision lists and no more. Their lists end with the count, so that nothing stands past it;
/// where there is no target no number is stored; a span is two numbers and no bytes.
fn holds_the_same(one: &Session, other: &Session) -> bool {
    one == other
}
