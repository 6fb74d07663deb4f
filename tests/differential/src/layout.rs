//! A session in bytes, as include/calcivorne.h and docs/SESSION.md lay it out; and an offer.

use reference::{Action, Binding, Level, Offer, Session, Span, Strand};

pub const SIZE: usize = 7_208;
pub const VERSION: usize = 0;
pub const CLOSED: usize = 1;
pub const AWAITED: usize = 2;
pub const RESERVED: usize = 3;
pub const PLACE: usize = 8;
pub const UNITS: usize = 16;
pub const DEPTH: usize = 24;
pub const BOUND: usize = 32;

pub const DECLARATIONS: usize = 64;
pub const LEVELS: usize = 64;
pub const STRANDS: usize = 16;

/// Where an offer has what; its version is its first byte.
pub const OFFER_RESERVED: usize = 1;
pub const OFFER_LENGTH: usize = 8;
pub const OFFER_SESSION: usize = 16;
pub const OFFER_SIZE: usize = OFFER_SESSION + SIZE;

/// Where a level has what.
pub const LEVEL_NAME: usize = 0;
pub const LEVEL_BINDINGS: usize = 8;
pub const LEVEL_CLASS: usize = 12;
pub const LEVEL_URI: usize = 16;
pub const LEVEL_STRANDS: usize = 24;
pub const LEVEL_RESERVED: usize = 28;

pub fn declaration(index: usize) -> usize {
    40 + 16 * index
}

pub fn level(index: usize) -> usize {
    1064 + 96 * index
}

pub fn strand(in_level: usize, index: usize) -> usize {
    level(in_level) + 32 + 4 * index
}

/// The bytes of a session, zero where nothing stands. A number too large for its field becomes one that is refused as well: a span's the largest
/// of four bytes, a target one with a bit above 24. Of levels, declarations and strands over the limit only the count is written. A mode over 31
/// has no bytes.
pub fn encode(session: &Session) -> Option<Vec<u8>> {
    let mut bytes = vec![0; SIZE];
    bytes[VERSION] = 1;
    bytes[CLOSED] = session.closed as u8;
    bytes[AWAITED] = session.awaited as u8;
    put8(&mut bytes, PLACE, session.place);
    put8(&mut bytes, UNITS, session.units);
    put8(&mut bytes, DEPTH, session.levels.len() as u64);
    put8(&mut bytes, BOUND, session.bindings.len() as u64);
    for (index, binding) in session.bindings.iter().take(DECLARATIONS).enumerate() {
        put_span(&mut bytes, declaration(index), binding.prefix);
        put_span(&mut bytes, declaration(index) + 8, binding.uri);
    }
    for (index, open) in session.levels.iter().take(LEVELS).enumerate() {
        put_level(&mut bytes, index, open)?;
    }
    Some(bytes)
}

fn put_level(bytes: &mut [u8], index: usize, open: &Level) -> Option<()> {
    let at = level(index);
    put_span(bytes, at + LEVEL_NAME, open.name);
    put4(bytes, at + LEVEL_BINDINGS, open.bindings);
    put4(bytes, at + LEVEL_CLASS, open.class as u64);
    put_span(bytes, at + LEVEL_URI, open.uri);
    put4(bytes, at + LEVEL_STRANDS, open.strands.len() as u64);
    for (number, one) in open.strands.iter().take(STRANDS).enumerate() {
        put4(bytes, strand(index, number), strand_word(one)?);
    }
    Some(())
}

fn strand_word(strand: &Strand) -> Option<u64> {
    let action = match strand.action {
        Action::Attach => 0,
        Action::Unwrap => 1,
        Action::Validate => 2,
    };
    let target = match strand.target {
        Some(target) => 1 << 8 | target.min(0x7F_FFFF) << 9,
        None => 0,
    };
    (strand.mode < 32).then_some(strand.mode as u64 | action << 5 | (strand.opened_here as u64) << 7 | target)
}

/// Whether bytes hold a session, be it one that no step accepts.
pub fn holds(bytes: &[u8]) -> bool {
    bytes.len() >= SIZE && bytes[VERSION] == 1 && bytes[CLOSED] < 2 && bytes[AWAITED] < 2 && zero(&bytes[RESERVED..PLACE]) && form_of_levels(bytes)
}

/// The place that stands in bytes.
pub fn place(bytes: &[u8]) -> u64 {
    get8(bytes, PLACE)
}

/// The session of bytes, if they hold one. None too where a count is past the places, which is refused with 20 like bytes that hold none.
pub fn decode(bytes: &[u8]) -> Option<Session> {
    if !holds(bytes) {
        return None;
    }
    let depth = count(get8(bytes, DEPTH), LEVELS)?;
    let bound = count(get8(bytes, BOUND), DECLARATIONS)?;
    Some(Session {
        place: place(bytes),
        units: get8(bytes, UNITS),
        closed: bytes[CLOSED] == 1,
        awaited: bytes[AWAITED] == 1,
        bindings: (0..bound).map(|index| get_binding(bytes, index)).collect(),
        levels: (0..depth).map(|index| get_level(bytes, index)).collect::<Option<_>>()?,
    })
}

/// The bytes of an offer of these bytes of a session, whatever they hold.
pub fn offer_of(session: &[u8], length: usize) -> Vec<u8> {
    let mut bytes = vec![0; OFFER_SESSION];
    bytes[VERSION] = 1;
    put8(&mut bytes, OFFER_LENGTH, length as u64);
    bytes.extend(&session[..SIZE]);
    bytes
}

pub fn encode_offer(offer: &Offer) -> Option<Vec<u8>> {
    Some(offer_of(&encode(&offer.session)?, offer.length))
}

/// The offer of bytes, if they hold one. None too where its session is none that `decode` gives: no session that 20 lets pass is like that.
pub fn decode_offer(bytes: &[u8]) -> Option<Offer> {
    if bytes.len() < OFFER_SIZE || bytes[VERSION] != 1 || !zero(&bytes[OFFER_RESERVED..OFFER_LENGTH]) {
        return None;
    }
    Some(Offer {
        session: decode(&bytes[OFFER_SESSION..])?,
        length: get8(bytes, OFFER_LENGTH) as usize,
    })
}

/// What is asked of every level, open or not.
fn form_of_levels(bytes: &[u8]) -> bool {
    (0..LEVELS).all(|index| {
        let reserved = level(index) + LEVEL_RESERVED;
        zero(&bytes[reserved..reserved + 4]) && (0..STRANDS).all(|number| get_strand(bytes, index, number).is_some())
    })
}

fn get_binding(bytes: &[u8], index: usize) -> Binding {
    Binding {
        prefix: get_span(bytes, declaration(index)),
        uri: get_span(bytes, declaration(index) + 8),
    }
}

fn get_level(bytes: &[u8], index: usize) -> Option<Level> {
    let at = level(index);
    let strands = count(get4(bytes, at + LEVEL_STRANDS), STRANDS)?;
    Some(Level {
        name: get_span(bytes, at + LEVEL_NAME),
        class: u8::try_from(get4(bytes, at + LEVEL_CLASS)).ok()?,
        uri: get_span(bytes, at + LEVEL_URI),
        bindings: get4(bytes, at + LEVEL_BINDINGS),
        strands: (0..strands).map(|number| get_strand(bytes, index, number)).collect::<Option<_>>()?,
    })
}

fn get_strand(bytes: &[u8], in_level: usize, index: usize) -> Option<Strand> {
    let word = get4(bytes, strand(in_level, index));
    let action = match word >> 5 & 3 {
        0 => Action::Attach,
        1 => Action::Unwrap,
        2 => Action::Validate,
        _ => return None,
    };
    let has_target = word >> 8 & 1 == 1;
    let target = word >> 9 & 0xFFFF;
    if word >> 25 != 0 || (!has_target && target != 0) {
        return None;
    }
    Some(Strand {
        mode: (word & 31) as u8,
        action,
        target: has_target.then_some(target),
        opened_here: word >> 7 & 1 == 1,
    })
}

fn zero(bytes: &[u8]) -> bool {
    bytes.iter().all(|&byte| byte == 0)
}

fn count(number: u64, at_most: usize) -> Option<usize> {
    (number <= at_most as u64).then_some(number as usize)
}

fn get_span(bytes: &[u8], at: usize) -> Span {
    Span::new(get4(bytes, at), get4(bytes, at + 4))
}

fn get4(bytes: &[u8], at: usize) -> u64 {
    (0..4).map(|index| (bytes[at + index] as u64) << (8 * index)).sum()
}

fn get8(bytes: &[u8], at: usize) -> u64 {
    get4(bytes, at) | get4(bytes, at + 4) << 32
}

fn put_span(bytes: &mut [u8], at: usize, span: Span) {
    put4(bytes, at, span.at);
    put4(bytes, at + 4, span.len);
}

/// Four bytes; of a larger number the largest that they hold.
pub fn put4(bytes: &mut [u8], at: usize, number: u64) {
    bytes[at..at + 4].copy_from_slice(&(number.min(u32::MAX as u64) as u32).to_le_bytes());
}

pub fn put8(bytes: &mut [u8], at: usize, number: u64) {
    bytes[at..at + 8].copy_from_slice(&number.to_le_bytes());
}
