//! Random loops: their time, seeds and counts.
//!
//! CALCIVORNE_TEST_SECONDS is about how long all of them take together on two cores, two tests at a time. CALCIVORNE_TEST_SEED is the first seed.

use std::collections::BTreeMap;
use std::time::{Duration, Instant};

const SECONDS: u64 = 40;
const FIRST_SEED: u64 = 1;
/// So many cases are asked even where the time is over.
const AT_LEAST: u64 = 10;
/// A loop of fewer calls may miss a number.
const ENOUGH: u64 = 2_000;
/// And of fewer than these a boundary, of which some are rare.
const ENOUGH_FOR_BOUNDARIES: u64 = 200_000;

pub struct Pace {
    name: &'static str,
    started: Instant,
    time: Duration,
    seed: u64,
    cases: u64,
    asked: u64,
    met: BTreeMap<u8, u64>,
    boundaries: BTreeMap<&'static str, u64>,
}

impl Pace {
    /// A loop with so many hundredths of the time.
    pub fn new(name: &'static str, hundredths: u64) -> Pace {
        Pace {
            name,
            started: Instant::now(),
            time: Duration::from_millis(variable("CALCIVORNE_TEST_SECONDS", SECONDS) * 10 * hundredths),
            seed: variable("CALCIVORNE_TEST_SEED", FIRST_SEED),
            cases: 0,
            asked: 0,
            met: BTreeMap::new(),
            boundaries: BTreeMap::new(),
        }
    }

    /// The next case's seed, until the time is over.
    pub fn next_seed(&mut self) -> Option<u64> {
        if self.cases >= AT_LEAST && self.started.elapsed() >= self.time {
            return None;
        }
        let seed = self.seed.wrapping_add(self.cases);
        self.cases += 1;
        Some(seed)
    }

    /// One more call was asked of both, and both gave this number.
    pub fn met(&mut self, number: u8) {
        self.asked += 1;
        *self.met.entry(number).or_insert(0) += 1;
    }

    /// A scene that was asked ends at this boundary of request N1, if at one.
    pub fn at(&mut self, boundary: Option<&'static str>) {
        if let Some(label) = boundary {
            *self.boundaries.entry(label).or_insert(0) += 1;
        }
    }

    /// Says what was done; the numbers that a test is there to meet must have been met, unless its loop was too short for that.
    pub fn finish(self, wanted: &[u8]) {
        println!(
            "{}: {} cases, {} calls without a difference in {:.1} s; numbers {:?}",
            self.name,
            self.cases,
            self.asked,
            self.started.elapsed().as_secs_f64(),
            self.met
        );
        if !self.boundaries.is_empty() {
            println!("{}: at boundaries {:?}", self.name, self.boundaries);
        }
        if self.cases > 0 && self.asked < ENOUGH {
            return;
        }
        let missed: Vec<u8> = wanted.iter().copied().filter(|number| !self.met.contains_key(number)).collect();
        assert!(missed.is_empty(), "{}: never met {missed:?}", self.name);
    }

    /// The same with boundaries that must have been met.
    pub fn finish_at(self, wanted: &[u8], boundaries: &[&str]) {
        let missed: Vec<&str> = boundaries.iter().copied().filter(|label| !self.boundaries.contains_key(label)).collect();
        let (name, enough) = (self.name, self.asked >= ENOUGH_FOR_BOUNDARIES);
        self.finish(wanted);
        assert!(missed.is_empty() || !enough, "{name}: never met {missed:?}");
    }
}

fn variable(name: &str, default: u64) -> u64 {
    match std::env::var(name) {
        Ok(text) => text.parse().unwrap_or_else(|_| panic!("{name} must be a number, not {text:?}")),
        Err(_) => default,
    }
}
