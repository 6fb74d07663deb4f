//! What was asked, for the message when the two differ.

use std::fmt::{Debug, Write};

#[derive(Clone, Copy)]
pub struct Case<'a> {
    pub name: &'a str,
    pub seed: u64,
    pub table: &'a [u8],
    pub scene: &'a [u8],
}

impl<'a> Case<'a> {
    pub fn new(name: &'a str, seed: u64, table: &'a [u8], scene: &'a [u8]) -> Case<'a> {
        Case { name, seed, table, scene }
    }

    /// The same with another scene, as a cut gives.
    pub fn with_scene(self, scene: &'a [u8]) -> Case<'a> {
        Case { scene, ..self }
    }

    pub fn with_table(self, table: &'a [u8]) -> Case<'a> {
        Case { table, ..self }
    }

    /// Compares, and fails with the whole case; `more` tells of the output's length, the session and the like.
    pub fn same<T: PartialEq + Debug>(&self, what: &str, reference: &T, dispatcher: &T, more: impl Fn() -> String) {
        if reference != dispatcher {
            self.differ(what, &format!("{reference:?}"), &format!("{dispatcher:?}"), &more());
        }
    }

    /// The same for bytes, shown from the first that differs on.
    pub fn same_bytes(&self, what: &str, reference: &[u8], dispatcher: &[u8], more: impl Fn() -> String) {
        if reference != dispatcher {
            let shared = reference.iter().zip(dispatcher).take_while(|(one, other)| one == other).count();
            let show = |bytes: &[u8]| {
                format!(
                    "{} bytes, from {shared} on: {}",
                    bytes.len(),
                    hex(&bytes[shared..bytes.len().min(shared + 64)])
                )
            };
            self.differ(what, &show(reference), &show(dispatcher), &more());
        }
    }

    pub fn differ(&self, what: &str, reference: &str, dispatcher: &str, more: &str) -> ! {
        let mut text = format!("\nDIFFERENCE in {}: {what}\n", self.name);
        let _ = writeln!(text, "  reference:  {reference}\n  dispatcher: {dispatcher}\n  {more}");
        let _ = writeln!(text, "  table, {} bytes: {}", self.table.len(), hex(self.table));
        let _ = writeln!(text, "  scene, {} bytes: b\"{}\"", self.scene.len(), self.scene.escape_ascii());
        let _ = writeln!(text, "  seed {0}; CALCIVORNE_TEST_SEED={0} asks it first", self.seed);
        panic!("{text}")
    }
}

pub fn hex(bytes: &[u8]) -> String {
    let mut text = String::new();
    for byte in bytes {
        let _ = write!(text, "{byte:02X} ");
    }
    text
}

pub fn session_text(bytes: &[u8]) -> String {
    pieces("session", bytes)
}

pub fn offer_text(bytes: &[u8]) -> String {
    pieces("offer", bytes)
}

/// Bytes without the zeros: pieces as offset and hexadecimal.
fn pieces(name: &str, bytes: &[u8]) -> String {
    let mut text = format!("{name}:");
    for (index, piece) in bytes.chunks(16).enumerate().filter(|(_, piece)| piece.iter().any(|&byte| byte != 0)) {
        let _ = write!(text, "\n    {:5}: {}", 16 * index, hex(piece));
    }
    text
}
