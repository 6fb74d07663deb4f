//! What the program prints for two files that it can read.

use crate::defaults::Defaults;
use crate::limits;
use crate::records::List;
use crate::run;

const OUTPUT: usize = 65_536;

/// A line per record, its seven fields, then number, place, events, records. Every step has
/// 65,536 bytes of output of its own.
pub fn program(table: &[u8], scene: &[u8]) -> String {
    program_under(Defaults::Standard, table, scene)
}

pub fn program_under(defaults: Defaults, table: &[u8], scene: &[u8]) -> String {
    let overflow = |list: &List| limits::overflow_each(list, OUTPUT);
    let (answer, list) = run::listed(defaults, table, scene, overflow);
    let mut printed = String::new();
    for record in list.iter().flat_map(|list| &list.records) {
        printed.push_str(&record.line());
        printed.push('\n');
    }
    printed.push_str(&format!(
        "{} {} {} {}\n",
        answer.number, answer.place, answer.events, answer.records
    ));
    printed
}
