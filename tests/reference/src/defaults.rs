//! Request N3: what holds where a mode has no rule for a section, and a table's former results.

use crate::table::{self, Action, Rule, Table, ANY, ATTRIBUTE_SECTION, ELEMENT_SECTION};

/// The schema of a unit that no rule asks for, whatever the table's count of schemas is.
pub const REJECT: u8 = 255;

/// What holds where no rule is taken for a section: none of the mode and kind names the class,
/// and none names any.
#[derive(Clone, Copy, Debug, Default, PartialEq, Eq)]
pub enum Defaults {
    /// The standard's: an element section is validated against reject, an attribute section is
    /// attached.
    #[default]
    Standard,
    /// Document 01's: an element section is unwrapped, an attribute section is not kept.
    Former,
}

/// The table that has under the standard's defaults the results of a table under the former
/// ones: with an unwrap rule for any, the next mode its own, for each mode and kind that has no
/// any rule. None where the table is refused, or where it would have over 128 rules.
pub fn plus(table: &[u8]) -> Option<Vec<u8>> {
    let read = table::read(table).ok()?;
    let mut added: Vec<u8> = Vec::new();
    for mode in 0..read.modes() {
        for kind in [ELEMENT_SECTION, ATTRIBUTE_SECTION] {
            if !read.has_any_rule(mode, kind) {
                added.extend(unwrap_any(mode, kind).word().to_be_bytes());
            }
        }
    }
    let count = read.rule_count() + added.len() / table::RULE;
    if count > table::RULES_AT_MOST {
        return None;
    }
    Some(with_rules(&read, table, &added, count))
}

fn unwrap_any(mode: u8, kind: u8) -> Rule {
    Rule {
        mode,
        kind,
        class: ANY,
        action: Action::Unwrap,
        schema: 0,
        next_mode: mode,
    }
}

/// The bytes of a table with more rules behind its own.
fn with_rules(read: &Table, table: &[u8], added: &[u8], count: usize) -> Vec<u8> {
    let end = table::HEADER + table::RULE * read.rule_count();
    let (before, uris) = table.split_at(end);
    let mut longer = [before, added, uris].concat();
    longer[table::RULE_COUNT] = count as u8;
    longer
}
