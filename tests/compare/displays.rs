//! The display normal.

use crate::call::Call;
use crate::chance::Chance;

/// All normals with parts within 15.
pub fn small(_: &mut Chance, index: u64) -> Vec<Call> {
    let parts = || -15..=15;
    let x = index as i32 - 15;
    parts().flat_map(|y| parts().map(move |z| Call::Display([x, y, z]))).collect()
}

const ENDS: [i32; 16] = [
    i32::MIN,
    i32::MIN + 1,
    -65536,
    -32768,
    -1025,
    -1024,
    -1023,
    -1022,
    1022,
    1023,
    1024,
    1025,
    32768,
    65536,
    i32::MAX - 1,
    i32::MAX,
];

fn part(chance: &mut Chance) -> i32 {
    match chance.below(20) {
        0 => 0,
        1 => chance.one_of(&ENDS),
        2..=4 => chance.one_of(&[-1023, -1022, 1022, 1023]),
        5..=7 => chance.between(-3, 3) as i32,
        _ => chance.between(-1023, 1023) as i32,
    }
}

pub fn any(chance: &mut Chance, _: u64) -> Vec<Call> {
    vec![Call::Display([part(chance), part(chance), part(chance)])]
}
