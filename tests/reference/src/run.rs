//! Run: what steps from fresh hand back for a whole scene, with one output or a new one each.

use crate::answer::{Answer, Refusal};
use crate::defaults::Defaults;
use crate::limits;
use crate::model::{self, Model};
use crate::reader::{self, Reading};
use crate::records::{self, List};
use crate::sections;
use crate::table::{self, Table};
use crate::tree::Tree;

/// Number, place, events, records, and the joined records' bytes; the output past them keeps
/// its values.
pub fn run(table: &[u8], scene: &[u8], out_len: usize) -> (Answer, Vec<u8>) {
    run_under(Defaults::Standard, table, scene, out_len)
}

pub fn run_under(
    defaults: Defaults,
    table: &[u8],
    scene: &[u8],
    out_len: usize,
) -> (Answer, Vec<u8>) {
    let overflow = |list: &List| limits::overflow(list, out_len);
    let (answer, list) = listed(defaults, table, scene, overflow);
    let bytes = list.map_or(Vec::new(), |list| records::joined(&list.records));
    (answer, bytes)
}

/// The same for an output rule of its own: `overflow` gives the first event that 25 refuses.
pub fn listed(
    defaults: Defaults,
    table: &[u8],
    scene: &[u8],
    overflow: impl Fn(&List) -> Option<usize>,
) -> (Answer, Option<List>) {
    let table = match table::read_under(defaults, table) {
        Ok(table) => table,
        Err(number) => return (Answer::bare(number, 0), None),
    };
    if scene.len() > limits::SCENE {
        return (Answer::bare(limits::TOO_LONG, 0), None);
    }
    let reading = reader::events(scene);
    let (mut refusal, mut model) = accepted(&table, scene, &reading);
    let mut events = model.tree.events.len();
    if let Some(event) = overflow(&model.list) {
        events = event;
        refusal = Refusal::new(limits::OUTPUT_FULL, reading.list[event].at);
        model = model::model(&table, scene, &reading.list[..event]);
    }
    let answer = Answer {
        number: refusal.number,
        place: refusal.place,
        events: events as u64,
        records: model.list.records.len() as u64,
    };
    (answer, Some(model.list))
}

/// The model of the events before the first limit of 21 to 24, and what refuses the next.
pub fn accepted<'a>(table: &Table, scene: &[u8], reading: &'a Reading) -> (Refusal, Model<'a>) {
    let tree = Tree::build(&reading.list);
    let division = sections::divide(table, scene, &tree);
    match limits::first(table, &tree, &division) {
        Some(stop) => {
            let events = &reading.list[..stop.event];
            (stop.refusal, model::model(table, scene, events))
        }
        None => {
            let end = Refusal::new(reading.number, reading.place);
            (end, model::of_tree(table, tree, division))
        }
    }
}
