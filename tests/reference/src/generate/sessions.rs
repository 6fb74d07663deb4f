//! Sessions that no scene leads to, from one that a scene does lead to.

use super::random::Random;
use crate::limits::UNITS;
use crate::session::{Binding, Level, Session, Strand};
use crate::span::Span;
use crate::table::Action;

/// A session with one to three changes. Many are still coherent, so that a step from them can
/// be matched; the others are refused with 20.
pub fn odd_session(random: &mut Random, scene: &[u8], session: &Session) -> Session {
    let mut odd = session.clone();
    for _ in 0..random.between(1, 3) {
        match random.below(12) {
            0..=2 => odd.place = number(random, odd.place, scene.len() as u64),
            3 => odd.units = units(random, odd.units),
            4 => flag(random, &mut odd),
            5 | 6 => change_binding(random, scene, &mut odd),
            7 => add_or_remove(random, &mut odd),
            _ => change_level(random, scene, &mut odd),
        }
    }
    odd
}

/// A number near the old one, near a bound, or far off.
fn number(random: &mut Random, old: u64, bound: u64) -> u64 {
    match random.below(12) {
        0 => bound,
        1 => bound + 1,
        2 => u64::MAX - random.below(2) as u64,
        3 => 0,
        4 | 5 => old.saturating_sub(1),
        6 | 7 => old.saturating_add(1),
        _ => random.below(bound as usize + 1) as u64,
    }
}

/// Often the last few that may be opened, for 24.
fn units(random: &mut Random, old: u64) -> u64 {
    match random.percent(50) {
        true => UNITS - random.below(4) as u64,
        false => number(random, old, UNITS),
    }
}

fn span(random: &mut Random, scene: &[u8], old: Span) -> Span {
    let length = scene.len() as u64;
    match random.below(7) {
        0 => Span::new(number(random, old.at, length), old.len),
        1 => {
            let rest = length.saturating_sub(old.at);
            Span::new(old.at, number(random, old.len, rest))
        }
        2 => Span::new(old.at, 0),
        3 => Span::ZERO,
        4 => short_span(random, scene),
        5 => inner(random, old),
        _ => word(random, scene),
    }
}

/// A few bytes less at one of the ends or at both, so that characters are cut.
fn inner(random: &mut Random, old: Span) -> Span {
    let before = (random.below(4) as u64).min(old.len);
    let behind = (random.below(4) as u64).min(old.len - before);
    Span::new(old.at.saturating_add(before), old.len - before - behind)
}

fn short_span(random: &mut Random, scene: &[u8]) -> Span {
    let at = random.below(scene.len() + 1);
    let len = random.below(4).min(scene.len() - at);
    Span::new(at as u64, len as u64)
}

/// Letters that stand in the scene, or their last bytes.
fn word(random: &mut Random, scene: &[u8]) -> Span {
    let at = random.below(scene.len() + 1);
    let letters = |byte: &&u8| byte.is_ascii_alphabetic() || **byte >= 0x80;
    let skipped = scene[at..].iter().take_while(|byte| !letters(byte)).count();
    let from = at + skipped;
    let len = scene[from..].iter().take_while(letters).count();
    Span::new(from as u64, len as u64)
}

fn flag(random: &mut Random, session: &mut Session) {
    match random.percent(50) {
        true => session.closed = !session.closed,
        false => session.awaited = !session.awaited,
    }
}

fn change_binding(random: &mut Random, scene: &[u8], session: &mut Session) {
    if session.bindings.is_empty() {
        return;
    }
    let index = random.below(session.bindings.len());
    let binding = &mut session.bindings[index];
    match random.percent(50) {
        true => binding.prefix = span(random, scene, binding.prefix),
        false => binding.uri = span(random, scene, binding.uri),
    }
}

fn change_level(random: &mut Random, scene: &[u8], session: &mut Session) {
    if session.levels.is_empty() {
        return;
    }
    let units = session.units.min(UNITS);
    let last = session.levels.len() - 1;
    let index = if random.percent(60) {
        last
    } else {
        random.below(last + 1)
    };
    let level = &mut session.levels[index];
    match random.below(8) {
        0 => level.name = span(random, scene, level.name),
        1 | 2 => level.class = *random.pick(&[0, 1, 2, 3, 30, 31, 252, 253, 254, 255]),
        3 => level.uri = span(random, scene, level.uri),
        4 => level.bindings = number(random, level.bindings, 64),
        5 => strand_count(random, level),
        _ => change_strand(random, units, level),
    }
}

fn strand_count(random: &mut Random, level: &mut Level) {
    match level.strands.last().copied() {
        Some(last) => level.strands.resize(random.between(0, 17), last),
        None => level.strands.clear(),
    }
}

fn change_strand(random: &mut Random, units: u64, level: &mut Level) {
    if level.strands.is_empty() {
        return;
    }
    let index = random.below(level.strands.len());
    let strand: &mut Strand = &mut level.strands[index];
    match random.below(5) {
        0 => strand.mode = *random.pick(&[0, 0, 1, 1, 2, 3, 31]),
        1 => strand.action = *random.pick(&[Action::Attach, Action::Unwrap, Action::Validate]),
        2 => strand.target = random.percent(60).then(|| number(random, 0, units)),
        3 => strand.target = Some(random.below(units as usize + 1) as u64),
        _ => strand.opened_here = !strand.opened_here,
    }
}

/// A level or a binding more or less, the counts kept right or not.
fn add_or_remove(random: &mut Random, session: &mut Session) {
    match random.below(5) {
        0 => drop(session.levels.pop()),
        1 => drop(session.bindings.pop()),
        2 => deepen(random, session),
        3 => move_count(session),
        _ => repeat_binding(random, session),
    }
}

fn deepen(random: &mut Random, session: &mut Session) {
    let Some(last) = session.levels.last().cloned() else {
        return;
    };
    let depth = *random.pick(&[1, 2, 62, 63, 64, 65]);
    while session.levels.len() < depth {
        session.levels.push(Level {
            bindings: 0,
            ..last.clone()
        });
    }
}

fn move_count(session: &mut Session) {
    let moved = session
        .levels
        .last_mut()
        .map_or(0, |level| std::mem::take(&mut level.bindings));
    if let Some(first) = session.levels.first_mut() {
        first.bindings = first.bindings.saturating_add(moved);
    }
}

fn repeat_binding(random: &mut Random, session: &mut Session) {
    let Some(binding) = session.bindings.last().copied() else {
        return;
    };
    let wanted = *random.pick(&[1, 2, 63, 64, 65]);
    while session.bindings.len() < wanted {
        let Binding { prefix, uri } = binding;
        session.bindings.push(Binding { prefix, uri });
        if let Some(level) = session.levels.last_mut() {
            level.bindings = level.bindings.saturating_add(1);
        }
    }
}
