//! The call that gives the URI of a record's class and span.

use crate::span::Span;
use crate::table::{self, ANY};

pub const IN_TABLE: u8 = 0;
pub const IN_SCENE: u8 = 1;

/// The empty part at the scene's start.
const EMPTY: (u8, u64, u64) = (IN_SCENE, 0, 0);

/// Which of the two (0 table, 1 scene), offset and length there.
pub fn uri(table: &[u8], scene: &[u8], class: u8, at: u64, len: u64) -> (u8, u64, u64) {
    let Ok(table) = table::read(table) else {
        return EMPTY;
    };
    let span = Span::new(at, len);
    match table.listed(class) {
        Some(uri) => (IN_TABLE, uri.at, uri.len),
        None if class == ANY && span.inside(scene) => (IN_SCENE, at, len),
        None => EMPTY,
    }
}
