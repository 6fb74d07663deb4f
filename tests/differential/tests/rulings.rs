//! The reference's own vectors, unchanged, asked of the dispatcher: judge, run, step, uri, forecast, ask, commit, coherent, session_after and program
//! are those of `differential` here.
//! rustfmt must leave the reference's files alone.

extern crate differential as reference;

#[path = "../../reference/tests/rulings/answers.rs"]
#[rustfmt::skip]
mod answers;
#[path = "../../reference/tests/rulings/calls.rs"]
#[rustfmt::skip]
mod calls;
#[path = "../../reference/tests/common/mod.rs"]
#[rustfmt::skip]
mod common;
#[path = "../../reference/tests/rulings/limits.rs"]
#[rustfmt::skip]
mod limits;
#[path = "../../reference/tests/rulings/n01.rs"]
#[rustfmt::skip]
mod n01;
#[path = "../../reference/tests/rulings/n02.rs"]
#[rustfmt::skip]
mod n02;
#[path = "../../reference/tests/rulings/n03.rs"]
#[rustfmt::skip]
mod n03;
#[path = "../../reference/tests/rulings/n04.rs"]
#[rustfmt::skip]
mod n04;
#[path = "../../reference/tests/rulings/n06.rs"]
#[rustfmt::skip]
mod n06;
#[path = "../../reference/tests/rulings/names.rs"]
#[rustfmt::skip]
mod names;
#[path = "../../reference/tests/rulings/odd.rs"]
#[rustfmt::skip]
mod odd;
#[path = "../../reference/tests/rulings/reader.rs"]
#[rustfmt::skip]
mod reader;
#[path = "../../reference/tests/rulings/records.rs"]
#[rustfmt::skip]
mod records;
#[path = "../../reference/tests/samples.rs"]
#[rustfmt::skip]
mod samples;
#[path = "../../reference/tests/rulings/session.rs"]
#[rustfmt::skip]
mod session;
#[path = "../../reference/tests/rulings/tables.rs"]
#[rustfmt::skip]
mod tables;

/// The name `reference` is that of `differential` in all of these.
#[test]
fn the_dispatcher_is_asked() {
    assert_eq!(reference::calls::session_size(), reference::layout::SIZE);
    assert_eq!(reference::calls::offer_size(), reference::layout::OFFER_SIZE);
}
