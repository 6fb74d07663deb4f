//! Which of request N1's boundaries a reading ends at, for counts of what was met.

use super::scripts::in_name;
use crate::lexical::is_space;
use crate::reader::{Reading, What};

/// Every boundary: number, and where.
pub const BOUNDARIES: [&str; 45] = [
    "1 <",
    "1 <!",
    "1 <!-",
    "1 comment",
    "1 comment --",
    "1 <?",
    "1 target",
    "1 target ?",
    "1 instruction",
    "1 target xml",
    "1 ]]",
    "1 declaration",
    "1 declaration ?",
    "1 name",
    "1 before =",
    "1 before a quote",
    "1 version",
    "1 encoding",
    "1 standalone",
    "1 behind a value",
    "1 behind misc",
    "2 <",
    "2 <!",
    "2 <!-",
    "2 comment",
    "2 comment --",
    "2 <?",
    "2 target",
    "2 target ?",
    "2 instruction",
    "2 target xml",
    "2 ]]>",
    "2 declaration",
    "2 declaration ?",
    "2 name",
    "2 before =",
    "2 before a quote",
    "2 version",
    "2 encoding",
    "2 standalone",
    "2 behind a value",
    "2 behind misc",
    "3 target",
    "9 behind misc",
    "25 behind misc",
];

const ITEMS: [&str; 3] = ["version", "encoding", "standalone"];

/// The boundary of request N1 at which a reading ends, if it is one.
pub fn boundary(scene: &[u8], reading: &Reading) -> Option<&'static str> {
    let place = reading.place as usize;
    let from = reading.list.last().map_or(0, |event| event.after as usize);
    let at = begun(scene, from, place, outside(reading));
    let seen = &scene[at..place];
    let found = match seen {
        _ if scene[at..].starts_with(b"<?") && seen.len() == 2 => Some(behind_question(scene, at)),
        [] if scene[from..at].contains(&b'<') && !refused_text(scene, reading) => {
            Some("behind misc")
        }
        [b'<', ..] => markup(seen, at == 0),
        _ if refused_text(scene, reading) => Some("]]>"),
        _ => seen.ends_with(b"]]").then_some("]]"),
    };
    known(reading.number, found?)
}

/// Of 25, at the event's own first byte: whether a misc was passed over before it.
pub fn boundary_of_25(scene: &[u8], reading: &Reading, event: usize) -> Option<&'static str> {
    let before = event.checked_sub(1).map(|before| &reading.list[before]);
    let from = before.map_or(0, |before| before.after);
    let at = reading.list[event].at;
    let passed = from < at && scene[from as usize..at as usize].contains(&b'<');
    known(25, passed.then_some("behind misc")?)
}

fn known(number: u8, found: &str) -> Option<&'static str> {
    let label = format!("{number} {found}");
    BOUNDARIES.into_iter().find(|known| *known == label)
}

/// Whether the root is not open.
fn outside(reading: &Reading) -> bool {
    let count = |wanted: fn(&What) -> bool| reading.list.iter().filter(|e| wanted(&e.what)).count();
    count(|what| matches!(what, What::Start(_))) == count(|what| matches!(what, What::End(_)))
}

fn refused_text(scene: &[u8], reading: &Reading) -> bool {
    let here = &scene[reading.place as usize..];
    reading.number == 2 && !outside(reading) && here.starts_with(b"]]>")
}

/// Behind the whole misc, and outside the root the space, that stand before the place.
fn begun(scene: &[u8], from: usize, place: usize, outside: bool) -> usize {
    let mut at = from;
    while at < place {
        match whole(&scene[at..]) {
            Some(length) if at + length <= place => at += length,
            None if outside && is_space(scene[at]) => at += 1,
            _ => break,
        }
    }
    at
}

/// The length of what may be a misc, by its first and last bytes alone.
fn whole(bytes: &[u8]) -> Option<usize> {
    let (skipped, end): (usize, &[u8]) = match bytes {
        [b'<', b'!', b'-', b'-', ..] => (4, b"-->"),
        [b'<', b'?', ..] => (2, b"?>"),
        _ => return None,
    };
    let inside = bytes[skipped..].windows(end.len());
    let found = inside.into_iter().position(|window| window == end)?;
    Some(skipped + found + end.len())
}

fn behind_question(scene: &[u8], at: usize) -> &'static str {
    let in_ascii = |byte: &&u8| byte.is_ascii() && in_name(**byte);
    let target = scene[at + 2..].iter().take_while(in_ascii);
    let target: Vec<u8> = target.copied().collect();
    match target.eq_ignore_ascii_case(b"xml") {
        true => "target xml",
        false => "<?",
    }
}

/// Where in a misc its seen bytes end.
fn markup(seen: &[u8], first: bool) -> Option<&'static str> {
    match seen {
        b"<" => Some("<"),
        b"<!" => Some("<!"),
        b"<!-" => Some("<!-"),
        [b'<', b'!', ..] if seen.len() > 5 && seen.ends_with(b"--") => Some("comment --"),
        [b'<', b'!', ..] => Some("comment"),
        [b'<', b'?', rest @ ..] => Some(instruction(rest, first)),
        _ => None,
    }
}

fn instruction(rest: &[u8], first: bool) -> &'static str {
    let length = rest.iter().take_while(|byte| in_name(**byte)).count();
    let (target, behind) = rest.split_at(length);
    match behind {
        _ if first && target == b"xml" => declaration(behind),
        b"" if target.eq_ignore_ascii_case(b"xml") => "target xml",
        b"" => "target",
        b"?" => "target ?",
        _ => "instruction",
    }
}

/// The same in a declaration, behind its `<?xml`.
fn declaration(behind: &[u8]) -> &'static str {
    let text = String::from_utf8_lossy(behind);
    let parts: Vec<&str> = text.split(['"', '\'']).collect();
    let last = parts[parts.len() - 1];
    if parts.len() % 2 == 0 {
        let name = parts[parts.len() - 2].trim().trim_end_matches('=').trim();
        return ITEMS
            .into_iter()
            .find(|item| *item == name)
            .unwrap_or("name");
    }
    match last.trim() {
        "" if parts.len() == 1 => "declaration",
        "" => "behind a value",
        "?" => "declaration ?",
        name if name.ends_with('=') => "before a quote",
        name if ITEMS.contains(&name) => "before =",
        _ => "name",
    }
}
