//! Sessions inside scenes, and changes to their bytes and to those of offers.

use crate::layout::{self, declaration, level, put4, strand};
use crate::shapes::shaped;
use reference::generate::{self, scene, script_scene, Random};
use reference::{session_after, Session};

/// A table, a scene and a session behind some of its events; half of them of the shapes at the limits, some in other scripts.
pub fn held(seed: u64) -> (Random, Vec<u8>, Vec<u8>, Session) {
    let mut random = Random::new(seed);
    let table = generate::table(&mut random);
    let scene = match seed % 4 {
        0 | 2 => shaped(&mut random, &table, seed / 2 % 7),
        1 => script_scene(&mut random),
        _ => scene(&mut random, &table),
    };
    let accepted = reference::accepted_events(&table, &scene);
    let session = session_after(&table, &scene, random.below(accepted + 1));
    (random, table, scene, session)
}

/// Other bytes where a session holds nothing: behind its declarations, levels and strands.
pub fn change_past_counts(random: &mut Random, bytes: &mut [u8], session: &Session) {
    for index in session.bindings.len()..64 {
        (0..16).for_each(|at| bytes[declaration(index) + at] = random.below(256) as u8);
    }
    for index in 0..64 {
        let used = session.levels.get(index).map_or(0, |level| level.strands.len());
        if index >= session.levels.len() {
            (0..28).for_each(|at| bytes[level(index) + at] = random.below(256) as u8);
        }
        for number in used..16 {
            let word = random.below(32) | random.below(3) << 5 | 1 << 8 | random.below(65_536) << 9;
            put4(bytes, strand(index, number), word as u64);
        }
    }
}

/// Changes after which bytes hold no session, wherever the level stands.
pub fn no_session(bytes: &mut [u8], random: &mut Random) {
    let (index, number) = (random.below(64), random.below(16));
    let word = strand(index, number);
    match random.below(9) {
        0 => bytes[layout::VERSION] = *random.pick(&[0, 2, 3, 129, 255]),
        1 => bytes[layout::CLOSED] = random.between(2, 255) as u8,
        2 => bytes[layout::AWAITED] = random.between(2, 255) as u8,
        3 => bytes[random.between(layout::RESERVED, 7)] = random.between(1, 255) as u8,
        4 => bytes[level(index) + layout::LEVEL_RESERVED + random.below(4)] = random.between(1, 255) as u8,
        5 => bytes[word] |= 3 << 5,
        6 => put4(bytes, word, (random.below(3) << 5 | random.between(1, 0xFFFF) << 9) as u64),
        7 => bytes[word + 3] |= 2 << random.below(7),
        _ => put4(bytes, word, u32::MAX as u64),
    }
}

/// And no offer.
pub fn no_offer(bytes: &mut [u8], random: &mut Random) {
    match random.below(3) {
        0 => bytes[layout::VERSION] = *random.pick(&[0, 2, 3, 129, 255]),
        1 => bytes[random.between(layout::OFFER_RESERVED, 7)] = random.between(1, 255) as u8,
        _ => no_session(&mut bytes[layout::OFFER_SESSION..], random),
    }
}
