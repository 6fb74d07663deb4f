//! The forecast (request N2) on random tables and scenes, whole and damaged: the six figures against the reference's, the bound on the records, and
//! the dispatcher's own runs in an output of just that size and in one byte less.

use differential::calls::{self, Lent};
use differential::layout;
use differential::shapes::{alternating, any_case, bound, every_change, shaped, small, t, t2, validating, LONGEST};
use differential::{asked, checked, Case, Pace};
use reference::generate::{damaged_scene, many_units, numbered_case, table, Random};
use reference::Forecast;

/// Far less than the longest scenes take.
const SMALL_STACK: usize = 1 << 18;

fn figures(number: u8, place: usize, [records, units, strands, depth]: [u64; 4]) -> Forecast {
    Forecast {
        number,
        place: place as u64,
        records,
        units,
        strands,
        depth,
    }
}

#[test]
fn random_scenes_of_every_number() {
    let mut pace = Pace::new("forecasts: random, every number", 6);
    while let Some(seed) = pace.next_seed() {
        let (table, scene) = any_case(&mut Random::new(seed), seed % 1_000);
        pace.met(checked::forecast(&Case::new("random forecast", seed, &table, &scene)).number);
    }
    pace.finish(&[1, 2, 3, 4, 5, 6, 7, 9, 10, 11, 12, 21, 22, 23, 24]);
}

#[test]
fn shapes_at_the_limits() {
    let mut pace = Pace::new("forecasts: shapes at the limits", 4);
    while let Some(seed) = pace.next_seed() {
        let mut random = Random::new(seed);
        let table = table(&mut random);
        let whole = shaped(&mut random, &table, seed);
        pace.met(checked::forecast(&Case::new("shape", seed, &table, &whole)).number);
        let damaged = damaged_scene(&mut random, &whole);
        pace.met(checked::forecast(&Case::new("damaged shape", seed, &table, &damaged)).number);
    }
    pace.finish(&[2, 9, 21, 22, 23]);
}

#[test]
fn every_byte_of_small_scenes() {
    let mut pace = Pace::new("forecasts: every byte of small ones", 3);
    while let Some(seed) = pace.next_seed() {
        let mut random = Random::new(seed);
        let table = table(&mut random);
        let whole = small(&mut random, &table);
        for changed in every_change(&whole) {
            pace.met(checked::forecast(&Case::new("every byte", seed, &table, &changed)).number);
        }
    }
    pace.finish(&[1, 2, 4, 5, 9]);
}

/// What the dispatcher's own sessions hold, step by step: units, and the most strands and levels of any.
fn figures_of_steps(case: &Case, out_len: usize) -> Forecast {
    let (mut session, mut out) = (Lent::new(&asked::fresh()), Lent::patterned(out_len));
    let mut seen = figures(0, 0, [0; 4]);
    loop {
        let answer = asked::answer(calls::step(case.table, case.scene, &mut session, &mut out));
        if answer.number != 0 {
            let (number, place) = (answer.number, answer.place);
            return Forecast { number, place, ..seen };
        }
        let held = layout::decode(session.content()).expect("the bytes hold a session");
        let strands = held.levels.iter().map(|level| level.strands.len() as u64);
        seen.records += answer.records;
        seen.units = held.units;
        seen.strands = strands.fold(seen.strands, u64::max);
        seen.depth = seen.depth.max(held.levels.len() as u64);
    }
}

#[test]
fn against_the_sessions_of_steps() {
    let mut pace = Pace::new("forecasts: against steps", 4);
    while let Some(seed) = pace.next_seed() {
        let (table, scene) = numbered_case(seed);
        let case = Case::new("forecast against steps", seed, &table, &scene);
        let told = asked::forecast(&table, &scene);
        let seen = figures_of_steps(&case, 16 * told.records as usize);
        case.same("figures of the steps", &seen, &told, String::new);
        pace.met(told.number);
    }
    pace.finish(&[1, 2, 9, 23]);
}

/// Below, at and past depth 64, 64 bindings, 16 strands: what is refused is not counted.
#[test]
fn limits_by_one() {
    let ask = |name: &str, table: &[u8], scene: &str| checked::forecast(&Case::new(name, 0, table, scene.as_bytes()));
    for depth in 1..=70 {
        let scene = "<r>".repeat(depth) + &"</r>".repeat(depth);
        let told = ask("depth", &validating(2), &scene);
        assert_eq!((told.number, told.depth), if depth > 64 { (21, 64) } else { (9, depth as u64) });
        assert_eq!((told.units, told.strands), (2, 2));
    }
    for more in 0..=16 {
        let own: String = (0..more).map(|n| format!(" xmlns:o{n}='n'")).collect();
        let told = ask("bindings", &validating(1), &format!("{}<x{own}/>", bound(4, 14)));
        assert_eq!((told.number, told.depth), if more > 8 { (22, 4) } else { (1, 5) });
    }
    for vs in 1..=6 {
        let told = ask("strands", &t2(), &alternating(vs));
        assert_eq!((told.number, told.strands), if vs > 4 { (23, 16) } else { (9, 1 << vs) });
    }
    for rules in 1..=64 {
        let each = rules as u64;
        let expected = match rules {
            17.. => figures(23, 0, [0; 4]),
            _ => figures(9, 4, [4 * each, each, each, 1]),
        };
        assert_eq!(ask("root strands", &validating(rules), "<r/>"), expected);
    }
}

/// 65,536 units and the one that is too many: the refused tag's are left out, those of its attributes too.
#[test]
fn units_at_the_limit() {
    let before = 1 + 127 * 16 * 32;
    for (last, number, units) in [
        (vec![4, 0, 0], 9, 65_535),
        (vec![4, 0, 0, 0], 9, 65_536),
        (vec![4, 0, 0, 0, 0], 24, 65_536),
        (vec![5], 24, before),
        (vec![4, 1], 24, before + 4 * 127),
    ] {
        let (table, scene) = many_units(&[vec![16; 32], last].concat());
        let told = checked::forecast(&Case::new("many units", 0, &table, &scene));
        assert_eq!((told.number, told.units), (number, units));
    }
}

/// The forecast, asked in a thread of its own.
fn in_a_small_stack(scene: Vec<u8>) -> Forecast {
    let thread = std::thread::Builder::new().stack_size(SMALL_STACK);
    let asked = thread.spawn(move || asked::forecast(&validating(1), &scene));
    asked.expect("a thread").join().expect("a forecast")
}

/// Scenes of the greatest length, made so that their figures are known. What a forecast needs does not grow with them.
#[test]
fn the_longest_scenes() {
    let longest = |before: &str, repeated: &str, behind: &str| {
        let count = (LONGEST - before.len() - behind.len()) / repeated.len();
        let mut scene = [before, &repeated.repeat(count), behind].concat().into_bytes();
        scene.resize(LONGEST, b' ');
        (scene, count as u64)
    };
    let (many, elements) = longest("<r>", "<x/>", "</r>");
    let (broken, texts) = longest("<r>", "a<?p?>", "</r>");
    for (scene, expected) in [
        (many, figures(9, LONGEST, [4 + 2 * elements, 1, 1, 2])),
        (broken, figures(9, LONGEST, [4 + texts, 1, 1, 1])),
        (longest("<r>", "a", "</r>").0, figures(9, LONGEST, [5, 1, 1, 1])),
        (longest("<r>", "\u{3042}", "</r>").0, figures(9, LONGEST, [5, 1, 1, 1])),
        (longest("<!--", "a", "--><r/>").0, figures(9, LONGEST, [4, 1, 1, 1])),
        (longest("", "<r>", "").0, figures(21, 192, [65, 1, 1, 64])),
        (vec![b' '; LONGEST], figures(1, LONGEST, [0; 4])),
    ] {
        assert_eq!(in_a_small_stack(scene), expected);
    }
}

/// 7 stands behind the table and before everything else.
#[test]
fn a_scene_that_is_too_long() {
    let mut long = b"<r/>".to_vec();
    long.resize(LONGEST + 1, b' ');
    let twice = [2, 1, 0, 0, 1, b'u', 1, b'u'];
    for (table, number) in [(&t()[..], 7), (&t2(), 7), (&t()[..9], 10), (&[0; 4], 11), (&twice, 12)] {
        let told = checked::forecast(&Case::new("too long", 0, table, &long));
        assert_eq!(told, figures(number, 0, [0; 4]));
    }
    let fits = checked::forecast(&Case::new("fits", 0, &validating(1), &long[..LONGEST]));
    assert_eq!(fits, figures(9, LONGEST, [4, 1, 1, 1]));
}
