//! Seeded random tables, scenes and sessions that fit each other.

mod boundaries;
mod damage;
mod held;
mod miscs;
mod random;
mod scenes;
mod scripts;
mod sessions;
mod tables;

pub use boundaries::{boundary, boundary_of_25, BOUNDARIES};
pub use damage::{damaged_scene, damaged_table};
pub use held::{held_things, Change};
pub use miscs::{misc, misc_scene, soup};
pub use random::Random;
pub use scenes::{scene, scene_of, Profile};
pub use scripts::{broken, form_of, script_scene, script_soup};
pub use sessions::odd_session;
pub use tables::{many_rejects, many_units, pack, rule, Plan};
pub use tables::{nearly_full_table, sparse_table, table};

/// A table and a scene that fit each other. Of sixteen, about twelve are whole, three have a
/// damaged scene and one a damaged table; a whole scene may still meet 21 to 23.
pub fn case(random: &mut Random) -> (Vec<u8>, Vec<u8>) {
    let table = table(random);
    let scene = scene(random, &table);
    match random.below(16) {
        0 => (damaged_table(random, &table), scene),
        1..=3 => {
            let damaged = damaged_scene(random, &scene);
            (table, damaged)
        }
        _ => (table, scene),
    }
}

/// A case by its number, the same on every machine.
pub fn numbered_case(number: u64) -> (Vec<u8>, Vec<u8>) {
    case(&mut Random::new(number))
}
