//! The second program gives the listed values. Each check panics where it does not.

use crate::bounds;
use crate::display::display;
use crate::firm::firm;
use crate::lean::known_lean;
use crate::listed::*;
use crate::p4;
use crate::pick::pick;
use crate::point::{dot, lay, plus, signs, Point};
use crate::ready::{check, walk_from, Ready};
use crate::session::{
    asked_by, check_of, firm_of, numbers, pick_of, session, told, told_check, told_firm, told_lean,
    told_touch, touch_of, walk_of, MOST_BYTES,
};
use crate::solid::{Sizes, Solid, Stack, Wedge};
use crate::touch::{touch, Guess};
use crate::walk::{Record, Refusal};

pub fn all() {
    lines();
    triangles();
    touches();
    touch_triangles();
    first_empty_level();
    starts();
    walks();
    stack_walks();
    listed_rows();
    slope_rows();
    stack_rows();
    footings();
    leans();
    firms();
    bounds::all();
    sessions();
    a_line_cut_at_the_last_byte_read();
    sum_above_reach();
    stacks();
    reads();
    images_256_and_257();
    writes();
    displays();
}

fn as_sizes([width, height, depth]: [i64; 3]) -> Sizes {
    Sizes { width, height, depth }
}

#[cfg_attr(test, test)]
pub fn lines() {
    for (input, output) in LINES.iter().chain(LEANING) {
        assert_eq!(session(input.as_bytes()), format!("{output}\n").as_bytes(), "{input:?}");
    }
}

#[cfg_attr(test, test)]
pub fn triangles() {
    for (input, vectors) in TRIANGLES {
        let record = pick_of(numbers(input.as_bytes()).unwrap()).unwrap();
        assert_eq!(record.vectors, *vectors, "{input}");
    }
}

#[cfg_attr(test, test)]
pub fn touches() {
    for (input, output) in TOUCHES {
        let answer = touch_of(numbers(input.as_bytes()).unwrap());
        assert_eq!(told_touch(answer), format!("{output}\n"), "{input}");
    }
}

#[cfg_attr(test, test)]
pub fn touch_triangles() {
    for (input, vectors) in TOUCH_TRIANGLES {
        let Guess(record) = touch_of(numbers(input.as_bytes()).unwrap()).unwrap();
        assert_eq!(record.vectors, *vectors, "{input}");
    }
}

/// "With q exactly on the plane's first empty level, an accepted quick touch gives the normal and
/// triangle of an accepted long walk."
#[cfg_attr(test, test)]
pub fn first_empty_level() {
    let parts = || 0..=4;
    for frame in 0..8 {
        for a in parts() {
            for [b, c] in parts().flat_map(|b| parts().map(move |c| [b, c])) {
                on_first_empty_level([a, b, c], frame);
            }
        }
    }
}

/// In the middle of the box a pick is accepted; a touch too, unless a part is 0.
fn on_first_empty_level(parts: Point, frame: i64) {
    let start = [511; 3];
    let normal = lay(signs(frame), parts);
    let wedge = Wedge { abc: normal, h: dot(normal, plus(start, signs(frame))) };
    let reach = parts.iter().sum::<i64>().max(1);
    match touch(&wedge, start, frame, reach) {
        Ok(Guess(touched)) => {
            assert!(!parts.contains(&0), "a level face was accepted");
            let picked = pick(&wedge, start, frame, reach).unwrap();
            assert_eq!(touched, Record { looks: touched.looks, ..picked });
        }
        Err(refusal) if parts == [0; 3] => assert_eq!(refusal.number, 5),
        Err(refusal) => {
            let level = parts.iter().position(|&part| part == 0);
            assert_eq!((refusal.number, refusal.looks), (11, level.unwrap() as u32 + 3));
        }
    }
}

#[cfg_attr(test, test)]
pub fn starts() {
    for (input, output) in CHECKS {
        let nine @ [_, _, _, _, x, y, z, ..] = numbers(input.as_bytes()).unwrap();
        let answer = check_of(nine);
        assert_eq!(told_check(answer), format!("{output}\n"), "{input}");
        assert!(answer.map_or(true, |ready| ready.start == [x, y, z]), "{input}");
    }
}

#[cfg_attr(test, test)]
pub fn walks() {
    for (input, handed, output) in WALKS {
        let answer = walk_of(numbers(input.as_bytes()).unwrap(), *handed);
        assert_eq!(told(answer), format!("{output}\n"), "{input} {handed:?}");
    }
}

#[cfg_attr(test, test)]
pub fn stack_walks() {
    for &(places, reach, handed, output) in STACK_WALKS {
        let (sizes, bytes) = few_stack(8, places);
        let ready = Ready { start: [3; 3], handed };
        let answer = walk_from(&Stack { sizes, bytes: &bytes }, ready, 0, reach);
        assert_eq!(told(answer), format!("{output}\n"), "{handed:?}");
    }
}

/// "After a check of the same solid, frame, reach and start, the two in a row give the old answer
/// and counts."
fn row_as_pick<S: Solid>(solid: &S, start: Point, frame: i64, reach: i64) {
    let checked = check(solid, start, frame, reach);
    let row = checked.and_then(|ready| walk_from(solid, ready, frame, reach));
    assert_eq!(row, pick(solid, start, frame, reach), "{start:?} {frame} {reach}");
}

#[cfg_attr(test, test)]
pub fn listed_rows() {
    let inputs = LINES.iter().chain(TOUCHES).chain(CHECKS).map(|(input, _)| input.as_bytes());
    for nine in inputs.filter_map(numbers) {
        asked_by(nine, row_as_pick);
    }
}

/// Every small normal, level along an axis or two or not, at every height of q, in the middle and
/// by a wall.
#[cfg_attr(test, test)]
pub fn slope_rows() {
    let parts = || 0..=3;
    for [a, b] in parts().flat_map(|a| parts().map(move |b| [a, b])) {
        for (c, frame) in parts().flat_map(|c| (0..8).map(move |frame| (c, frame))) {
            slope_rows_of(lay(signs(frame), [a, b, c]), frame);
        }
    }
}

fn slope_rows_of(abc: Point, frame: i64) {
    for start in [[511; 3], [3, 1020, 511]] {
        let level = dot(abc, plus(start, signs(frame)));
        for h in level - 10..=level + 1 {
            for reach in [1, 2, 5, 9] {
                row_as_pick(&Wedge { abc, h }, start, frame, reach);
            }
        }
    }
}

/// Voxels as if by chance, p filled and q empty among them.
#[cfg_attr(test, test)]
pub fn stack_rows() {
    let start = [6; 3];
    for seed in 0..200 {
        let frame = seed % 8;
        let mixed = |[x, y, z]: Point| (x * 31 + y * 57 + z * 83 + seed * 7919).pow(2) / 64 % 101;
        let filled = |point| point == start || mixed(point) < seed / 2;
        let apex = plus(start, signs(frame));
        let (sizes, bytes) = stack_where(14, |point| point != apex && filled(point));
        for reach in 1..=6 {
            row_as_pick(&Stack { sizes, bytes: &bytes }, start, frame, reach);
        }
    }
}

#[cfg_attr(test, test)]
pub fn footings() {
    for (input, lean, firm) in FOOTINGS {
        let nine = numbers(input.as_bytes()).unwrap();
        let answer = pick_of(nine);
        assert_eq!(told_lean(known_lean(answer, nine[8])), format!("{lean}\n"), "{input}");
        assert_eq!(told_firm(firm_of(nine, answer)), format!("{firm}\n"), "{input}");
    }
}

#[cfg_attr(test, test)]
pub fn leans() {
    for (answer, reach, output) in LEANS {
        let lean = known_lean(*answer, *reach);
        assert_eq!(told_lean(lean), format!("{output}\n"), "{answer:?} {reach}");
    }
}

#[cfg_attr(test, test)]
pub fn firms() {
    for (input, answer, output) in FIRMS {
        let firm = firm_of(numbers(input.as_bytes()).unwrap(), *answer);
        assert_eq!(told_firm(firm), format!("{output}\n"), "{input} {answer:?}");
    }
}

#[cfg_attr(test, test)]
pub fn sessions() {
    for (input, output) in SESSIONS {
        assert_eq!(session(input), *output);
    }
}

#[cfg_attr(test, test)]
pub fn a_line_cut_at_the_last_byte_read() {
    let line = b"1 1 1 303 100 100 100 0 3\n";
    let mut input = line.repeat(3000);
    input.truncate(MOST_BYTES / line.len() * line.len());
    let whole_lines = MOST_BYTES / line.len();
    input.extend(b"1 1 1 303 100 100 100 0 3");
    // 65,536 = 2520 lines of 26 bytes and 16 bytes "1 1 1 303 100 10".
    assert_eq!((whole_lines, MOST_BYTES % line.len()), (2520, 16));
    let mut expected = b"N 1 1 1 0 23\n".repeat(2520);
    expected.extend(b"B\n");
    assert_eq!(session(&input), expected);
    // The cut may also make a good line of a longer one.
    let mut input = vec![b'\n'; MOST_BYTES - 25];
    input.extend(b"1 1 1 303 100 100 100 0 37\n");
    let mut expected = b"B\n".repeat(MOST_BYTES - 25);
    expected.extend(b"N 1 1 1 0 23\n");
    assert_eq!(session(&input), expected);
}

#[cfg_attr(test, test)]
pub fn sum_above_reach() {
    let (sizes, bytes) = sum_above_reach_stack();
    let stack = Stack { sizes, bytes: &bytes };
    let answer = pick(&stack, [31, 31, 31], 0, 5);
    let Refusal { number, place, steps, looks } = answer.unwrap_err();
    assert_eq!((number, place, steps, looks), (10, [32, 32, 32], 2, 71));
    let answer = pick(&stack, [31, 31, 31], 0, 6);
    assert_eq!(answer.map(|record| record.normal), Ok([3, 2, 1]));
    // What is filled is at power 1, so a touch takes the same steps: three rounds.
    assert_eq!(told_touch(touch(&stack, [31, 31, 31], 0, 5)), "R 10 32 32 32 2 23\n");
    assert_eq!(told_touch(touch(&stack, [31, 31, 31], 0, 6)), "G 3 2 1 2 23\n");
    row_as_pick(&stack, [31, 31, 31], 0, 5);
    row_as_pick(&stack, [31, 31, 31], 0, 6);
}

#[cfg_attr(test, test)]
pub fn stacks() {
    for case in STACKS {
        let (sizes, bytes) = case.stack();
        let stack = Stack { sizes, bytes: &bytes };
        let answer = pick(&stack, case.start, 0, case.reach);
        let picked = told(answer);
        let footed = told_firm(firm(&stack, answer, 0, case.reach));
        let touched = told_touch(touch(&stack, case.start, 0, case.reach));
        let checked = told_check(check(&stack, case.start, 0, case.reach));
        let Told { pick, touch, check, firm } = case.told;
        assert_eq!(
            [picked, touched, checked, footed],
            [pick, touch, check, firm].map(|told| format!("{told}\n"))
        );
        row_as_pick(&stack, case.start, 0, case.reach);
    }
}

#[cfg_attr(test, test)]
pub fn reads() {
    for case in READS {
        let mut rows = vec![0xaa; case.rows.len()];
        let answer = p4::read(case.input, &mut rows);
        let expected =
            case.answer.map(as_sizes).map_err(|(number, value)| p4::Refusal { number, value });
        assert_eq!(answer, expected, "{}", case.input.escape_ascii());
        assert_eq!(rows, case.rows, "{}", case.input.escape_ascii());
    }
}

#[cfg_attr(test, test)]
pub fn images_256_and_257() {
    let one = b"P4 1 1\n\x80";
    let mut rows = [0; 256];
    assert_eq!(p4::read(&one.repeat(256), &mut rows), Ok(as_sizes([1, 1, 256])));
    assert_eq!(rows, [128; 256]);
    let mut input = one.repeat(256);
    input.push(b'x');
    let refused = |number, value| Err(p4::Refusal { number, value });
    assert_eq!(p4::read(&input, &mut rows), refused(26, 2048));
    assert_eq!(p4::read(&one.repeat(257), &mut rows), refused(26, 2048));
    assert_eq!(p4::read(&one.repeat(256), &mut rows[..255]), refused(27, 256));
}

#[cfg_attr(test, test)]
pub fn writes() {
    for case in WRITES {
        let mut out = vec![0xaa; case.out.len()];
        let answer = p4::write(as_sizes(case.sizes), case.bytes, &mut out);
        let expected = case.answer.map_err(|(number, value)| p4::Refusal { number, value });
        assert_eq!(answer, expected);
        assert_eq!(out, case.out);
    }
}

#[cfg_attr(test, test)]
pub fn displays() {
    for (normal, sizes) in DISPLAYS {
        let expected = sizes.map(|parts| parts.map(|m| m as f32 / 32768.0));
        let bits = |floats: [f32; 3]| floats.map(f32::to_bits);
        assert_eq!(display(*normal).map(bits), expected.map(bits), "{normal:?}");
    }
}
