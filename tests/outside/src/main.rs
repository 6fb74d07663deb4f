//! scenes FOLDER COUNT SEED: writes that many scenes into the folder, from that seed on, and their names to standard output.

use std::path::Path;
use std::process::exit;

fn main() {
    let words: Vec<String> = std::env::args().collect();
    let numbers: Vec<u64> = words.iter().skip(2).filter_map(|word| word.parse().ok()).collect();
    let (Some(folder), [count, seed]) = (words.get(1), &numbers[..]) else {
        eprintln!("usage: scenes FOLDER COUNT SEED");
        exit(2);
    };
    for seed in (0..*count).map(|number| seed.wrapping_add(number)) {
        let (kind, scene) = outside::scene(seed);
        let file = Path::new(folder).join(format!("{seed}-{}.xml", kind.word()));
        if let Err(error) = std::fs::write(&file, scene) {
            eprintln!("scenes: {}: {error}", file.display());
            exit(1);
        }
        println!("{}", file.display());
    }
}
