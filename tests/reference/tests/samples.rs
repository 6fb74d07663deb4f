//! The samples A to H and the run-only ones of document 01; where request N3 changes one, what
//! stands here is asked of t+, and rulings/n03.rs has the new answer.

mod common;

use common::*;
use reference::{events, judge, program, run};

const A: &str = "0 0 0 0 0 0 0
0 1 1 1 1 0 0
0 4 0 13 1 0 0
0 1 1 15 1 0 0
0 5 1 15 1 0 0
0 5 1 20 1 0 0
0 6 0 0 0 0 0
9 22 5 7
";

#[test]
fn sample_a() {
    assert_eq!(program(&t(), SAMPLE), A);
    let (got, bytes) = run(&t(), SAMPLE, AMPLE);
    assert_eq!(got, answer(9, 22, 5, 7));
    assert_eq!(bytes.len(), 7 * 16);
    assert_eq!(bytes[..16], [0; 16]);
    let start = [0, 0, 1, 1, 0, 0, 1, 0, 0, 1, 0, 0, 0, 0, 0, 0];
    assert_eq!(bytes[16..32], start);
}

#[test]
fn sample_b() {
    assert_eq!(run(&t(), b"", AMPLE).0, answer(1, 0, 0, 0));
}

#[test]
fn sample_c() {
    assert_eq!(run(&former(&t()), b"<r/>", AMPLE).0, answer(9, 4, 2, 0));
}

#[test]
fn sample_d() {
    let scene = "<r xmlns=\"u\"><x xmlns=\"v\"/></r>";
    let expected = [
        "0 0 0 0 0 0 0",
        "0 1 1 1 1 0 0",
        "1 0 1 13 0 0 0",
        "1 1 2 14 1 0 0",
        "0 1 2 14 1 0 0",
        "1 5 2 14 1 0 0",
        "1 6 0 0 0 0 0",
        "0 5 2 14 1 0 0",
        "0 5 1 29 1 0 0",
        "0 6 0 0 0 0 0",
    ];
    assert_eq!(records(&t2(), scene), expected);
    assert_eq!(run(&t2(), scene.as_bytes(), AMPLE).0, answer(9, 31, 4, 10));
}

#[test]
fn sample_e() {
    let scene = "<r xmlns=\"u\">a<w xmlns=\"q\">b<x xmlns=\"v\"/></w>c</r>";
    let all = records(&t2(), scene);
    let expected = [
        "0 0 0 0 0 0",
        "1 1 1 1 0 0",
        "4 0 13 1 0 0",
        "1 2 29 1 0 0",
        "5 2 29 1 0 0",
        "4 0 46 1 0 0",
        "5 1 49 1 0 0",
        "6 0 0 0 0 0",
    ];
    assert_eq!(unit(&all, 0), expected);
    let x_alone = [
        "0 1 28 0 0 0",
        "1 2 29 1 0 0",
        "5 2 29 1 0 0",
        "6 0 0 0 0 0",
    ];
    assert_eq!(unit(&all, 1), x_alone);
    assert_eq!(all.len(), 12);
}

#[test]
fn samples_f_g_h() {
    assert_eq!(with_t("<r></s>"), (4, 3));
    assert_eq!(with_t("<p:r/>"), (5, 0));
    assert_eq!(with_t("<r/"), (1, 3));
    assert_eq!(with_t("<r/x"), (2, 3));
}

#[test]
fn depth_64_passes_and_65_gives_21() {
    let whole = run(&former(&t()), &nested(64), AMPLE).0;
    assert_eq!(whole, answer(9, 64 * 7, 128, 0));
    let cut = run(&former(&t()), &nested(65), AMPLE).0;
    assert_eq!(cut, answer(21, 64 * 3, 64, 0));
    assert_eq!(events(&nested(65)).list.len(), 130);
}

#[test]
fn the_fifth_v_gives_23() {
    let four = alternating(4);
    assert_eq!(ends(&t2(), four.as_bytes()), (9, four.len() as u64));
    let five = alternating(5);
    let fifth = 13 + 4 * 26;
    let (got, bytes) = run(&t2(), five.as_bytes(), AMPLE);
    assert_eq!((got.number, got.place, got.events), (23, fifth, 9));
    // r: 2; the n-th v: opens for half of its strands, starts for all of them.
    assert_eq!(got.records, 2 + (1 + 2) + (2 + 4) + (4 + 8) + (8 + 16));
    assert_eq!(bytes.len() as u64, got.records * 16);
}

#[test]
fn sixteen_strands_at_the_fourth_v() {
    let four = alternating(4);
    let session = reference::session_after(&t2(), four.as_bytes(), 8);
    let counts: Vec<usize> = session.levels.iter().map(|l| l.strands.len()).collect();
    assert_eq!(counts, [1, 2, 2, 4, 4, 8, 8, 16]);
}

#[test]
fn start_of_a_needs_32_bytes() {
    assert_eq!(run(&t(), SAMPLE, 31), (answer(25, 0, 0, 0), Vec::new()));
    let (got, bytes) = run(&t(), SAMPLE, 32);
    assert_eq!(got, answer(25, 13, 1, 2));
    assert_eq!(bytes, run(&t(), SAMPLE, AMPLE).1[..32]);
}

#[test]
fn t_and_t2_are_accepted() {
    assert_eq!(judge(&t()), answer(0, 10, 0, 0));
    assert_eq!(judge(&t2()), answer(0, t2().len() as u64, 0, 0));
}
