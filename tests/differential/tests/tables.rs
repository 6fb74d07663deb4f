//! Judge on random and damaged tables.

use differential::shapes::{t, t2};
use differential::{checked, Case, Pace};
use reference::generate::{damaged_table, table, Random};

/// Judge, and what a refused table makes of the other calls.
fn judge(pace: &mut Pace, case: &Case) {
    let judged = checked::judge(case).number;
    pace.met(judged);
    if judged != 0 {
        pace.met(checked::run(case, 16).number);
        pace.met(checked::forecast(case).number);
        let mut session = differential::asked::fresh();
        pace.met(checked::step(case, &mut session, 16).0.number);
        checked::uri(case, 1, 0, 1);
        checked::uri(case, 255, 0, 1);
    }
}

#[test]
fn random_tables_and_one_to_three_damages() {
    let mut pace = Pace::new("tables: random and damaged", 6);
    while let Some(seed) = pace.next_seed() {
        let mut random = Random::new(seed);
        let mut table = table(&mut random);
        judge(&mut pace, &Case::new("random table", seed, &table, b"<r/>"));
        for _ in 0..3 {
            table = damaged_table(&mut random, &table);
            judge(&mut pace, &Case::new("damaged table", seed, &table, b"<r/>"));
        }
    }
    pace.finish(&[0, 10, 11, 12]);
}

/// Small numbers, so that the length often fits.
#[test]
fn any_bytes_as_a_table() {
    let mut pace = Pace::new("tables: any bytes", 4);
    while let Some(seed) = pace.next_seed() {
        let mut random = Random::new(seed);
        for _ in 0..20 {
            let table = any_bytes(&mut random);
            judge(&mut pace, &Case::new("any bytes", seed, &table, b"<r/>"));
        }
    }
    pace.finish(&[0, 10, 11, 12]);
}

fn any_bytes(random: &mut Random) -> Vec<u8> {
    let header = [random.below(4), random.below(5), random.below(4), random.below(5)];
    let mut bytes = header.map(|field| field as u8).to_vec();
    if random.percent(10) {
        bytes[random.below(4)] = random.below(256) as u8;
    }
    for _ in 0..4 * header[3] {
        bytes.push(*random.pick(&[0, 0, 0, 1, 2, 4, 6, 8, 16, 24, 255, 252, 253, 254, 33]));
    }
    for _ in 0..header[0] {
        let len = random.below(3);
        bytes.push(len as u8);
        (0..len).for_each(|_| bytes.push(*random.pick(b"uv")));
    }
    if random.percent(10) {
        bytes.truncate(random.below(bytes.len() + 1));
    }
    bytes
}

#[test]
fn every_bit_and_every_length() {
    let mut tables = vec![t(), t2()];
    tables.extend((0..12).map(|seed| table(&mut Random::new(seed))));
    let mut pace = Pace::new("tables: every bit, every length", 0);
    for (number, whole) in tables.iter().enumerate() {
        for bit in 0..8 * whole.len() {
            let mut flipped = whole.clone();
            flipped[bit / 8] ^= 1 << (bit % 8);
            judge(&mut pace, &Case::new("flipped bit", number as u64, &flipped, b"<r/>"));
        }
        for len in 0..whole.len() {
            judge(&mut pace, &Case::new("truncated", number as u64, &whole[..len], b"<r/>"));
        }
        for more in 0..=255 {
            let longer = [&whole[..], &[more]].concat();
            judge(&mut pace, &Case::new("longer", number as u64, &longer, b"<r/>"));
        }
    }
    pace.finish(&[0, 10, 11, 12]);
}

/// Every value of each field of the header, with all lengths from 0 to 8 and a tail of the length that it needs.
#[test]
fn every_header() {
    let mut pace = Pace::new("tables: headers", 0);
    for field in 0..4 {
        for value in 0..=255 {
            let mut table = vec![0, 1, 0, 0];
            table[field] = value;
            table.extend((0..table[3]).flat_map(|n| [0, 0, 0, n << 3]));
            table.extend((0..table[0]).flat_map(|n| [1, n]));
            judge(&mut pace, &Case::new("header", value as u64, &table, b""));
            for len in 0..=8.min(table.len()) {
                judge(&mut pace, &Case::new("header cut", value as u64, &table[..len], b""));
            }
        }
    }
    pace.finish(&[0, 10, 11]);
}
