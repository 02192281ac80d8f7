//! The writer.

use crate::call::{Call, Lent};
use crate::chance::Chance;
use second::p4;
use second::solid::Sizes;

fn size(chance: &mut Chance) -> i64 {
    match chance.below(40) {
        0 => 256,
        1 => chance.between(1, 256),
        2..=5 => chance.one_of(&[1, 7, 8, 9, 10, 15, 16, 17]),
        6 => chance.one_of(&[99, 100, 101]),
        _ => chance.between(1, 12),
    }
}

const ENDS: [i64; 12] = [
    i32::MIN as i64,
    -257,
    -256,
    -1,
    0,
    257,
    258,
    512,
    65_536,
    16_777_216,
    i32::MAX as i64 - 1,
    i32::MAX as i64,
];

fn sizes(chance: &mut Chance) -> Sizes {
    let mut three = [size(chance), size(chance), size(chance)];
    // No more than one large size, so that the bytes stay few.
    if three.iter().product::<i64>() > 200_000 {
        three = [256, chance.between(1, 9), chance.between(1, 9)];
        three.rotate_left(chance.below(3) as usize);
    }
    let [width, height, depth] = three;
    Sizes { width, height, depth }
}

pub fn any(chance: &mut Chance, _: u64) -> Vec<Call> {
    let sizes = sizes(chance);
    let needed = match p4::write(sizes, &vec![0; sizes.stack_bytes()], &mut []) {
        Err(p4::Refusal { number: 27, value }) => value as usize,
        other => panic!("{sizes:?} gave {other:?}"),
    };
    let enough = sizes.stack_bytes();
    let few = chance.len_to(enough);
    let bytes = match chance.below(12) {
        0 => chance.bytes(enough - 1),
        1 => chance.bytes(few),
        2..=4 => chance.bytes(enough + 19),
        _ => chance.bytes(enough),
    };
    let short = chance.len_to(needed);
    let len = match chance.below(10) {
        0 => short,
        1 => needed - 1,
        2 => 0,
        3..=5 => needed,
        6 => needed + 1,
        _ => needed + 29,
    };
    let mut asked = [sizes.width, sizes.height, sizes.depth];
    if chance.percent(5) {
        asked[chance.below(3) as usize] = chance.one_of(&ENDS);
    }
    let lent = Lent::new(chance, len);
    vec![Call::Write { sizes: asked.map(|size| size as i32), bytes, lent }]
}
