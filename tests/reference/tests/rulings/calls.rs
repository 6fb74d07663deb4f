//! J: the program and the URI call.

use crate::common::*;
use reference::generate::{rule, Plan};
use reference::table::ANY;
use reference::{program, uri, Action};

#[test]
fn j2_a_refused_table_prints_its_last_line() {
    assert_eq!(program(&[], b"<r/>"), "10 0 0 0\n");
    assert_eq!(program(&[0, 0, 0, 0], b"<r/>"), "11 0 0 0\n");
}

#[test]
fn each_step_of_the_program_has_its_own_output() {
    // A start of 16 sections with 43 units each: 688 units, 4,128 records. 42 each: 4,032.
    let printed = |rules: u8| {
        let rules = (0..rules).map(|n| rule(0, ATTRIBUTE, ANY, Action::Validate, n, 0));
        let table = reference::generate::pack(&Plan {
            namespaces: Vec::new(),
            modes: 1,
            schemas: 64,
            rules: rules.collect(),
        });
        let scene = reference::generate::many_units(&[16, 16]).1;
        program(&former(&table), &scene)
    };
    let fits = printed(42);
    assert_eq!(fits.lines().count(), 2 * 42 * 16 * 6 + 1);
    assert!(fits.lines().last().unwrap().starts_with("9 "));
    let last = printed(43);
    assert_eq!(last.lines().count(), 1);
    assert!(last.starts_with("25 "));
    assert!(last.ends_with(" 1 0\n"));
}

#[test]
fn j3_uri_call() {
    let table = t2();
    let scene = b"0123456789";
    let u = table.len() as u64 - 3;
    assert_eq!(uri(&table, scene, 1, 0, 0), (0, u, 1));
    assert_eq!(uri(&table, scene, 2, 99, 99), (0, u + 2, 1));
    for class in [0, 3, 30, 31, 252, 253, 254] {
        assert_eq!(uri(&table, scene, class, 1, 1), (1, 0, 0));
    }
    assert_eq!(uri(&table, scene, 255, 2, 3), (1, 2, 3));
    assert_eq!(uri(&table, scene, 255, 4, 0), (1, 4, 0));
    assert_eq!(uri(&table, scene, 255, 10, 0), (1, 10, 0));
    assert_eq!(uri(&table, scene, 255, 0, 10), (1, 0, 10));
    assert_eq!(uri(&table, scene, 255, 11, 0), (1, 0, 0));
    assert_eq!(uri(&table, scene, 255, 5, 6), (1, 0, 0));
    assert_eq!(uri(&table, scene, 255, 5, u64::MAX), (1, 0, 0));
    assert_eq!(uri(&[], scene, 255, 5, 1), (1, 0, 0));
    assert_eq!(uri(&[], scene, 1, 5, 1), (1, 0, 0));
    let long = vec![b' '; 16_777_216];
    assert_eq!(uri(&table, &long, 255, 16_777_215, 1), (1, 16_777_215, 1));
}
