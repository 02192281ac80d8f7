//! The cases that document 01 lists, those of document 02's landed requests, their readings, those
//! of known lean and firm footing, and the lines of docs/LIMITS.md, with every expected value
//! written out. The unit checks hold the second program to them, and the comparison holds the
//! library to them.

use crate::pick::Pick;
use crate::ready::Handed;
use crate::solid::Sizes;
use crate::walk::{Record, Refusal};

/// A line of a wedge session and what is printed for it.
pub const LINES: &[(&str, &str)] = &[
    // W1 to W8, W6 as 2026-01 changes it.
    ("1 2 5 808 100 100 100 0 8", "N 1 2 5 5 116"),
    ("1 2 5 801 100 100 100 0 8", "N 1 2 5 5 144"),
    ("1 2 5 808 100 100 100 0 7", "R 9 101 101 101 4 92"),
    ("1 1 1 303 100 100 100 0 3", "N 1 1 1 0 23"),
    ("1 2 5 808 1 1 1 0 8", "R 6 2 2 2 0 2"),
    ("0 1 1 202 100 100 100 0 8", "N 0 1 1 0 20"),
    ("1 1 1 3 0 0 0 0 3", "R 8 -1 3 1 0 6"),
    ("-1 2 5 608 100 100 100 1 8", "N -1 2 5 5 116"),
    // Reach 0 and 257 give 1; 1, 2 and 256 pass. Frame 8 gives 2. The apex outside gives 4.
    ("1 1 1 303 100 100 100 0 0", "R 1 0 0 0 0 0"),
    ("1 1 1 303 100 100 100 0 -1", "R 1 0 0 0 0 0"),
    ("1 1 1 303 100 100 100 0 257", "R 1 0 0 0 0 0"),
    ("0 0 1 101 100 100 100 0 1", "N 0 0 1 0 7"),
    ("1 1 1 303 100 100 100 0 2", "R 10 101 101 101 0 17"),
    ("1 1 1 1536 511 511 511 0 3", "N 1 1 1 0 23"),
    ("1 1 1 1536 511 511 511 0 256", "N 1 1 1 0 59"),
    ("1 1 1 303 100 100 100 8 8", "R 2 0 0 0 0 0"),
    ("1 1 1 303 100 100 100 -1 8", "R 2 0 0 0 0 0"),
    ("1 1 1 303 1023 5 5 0 8", "R 4 1024 6 6 0 0"),
    ("1 1 1 303 0 5 5 1 8", "R 4 -1 6 6 0 0"),
    ("1 1 1 303 1024 5 5 0 8", "R 4 1024 5 5 0 0"),
    ("1 1 1 303 2147483647 5 5 0 8", "R 4 2147483647 5 5 0 0"),
    ("1 1 1 303 5 -2147483648 5 7 8", "R 4 5 -2147483648 5 0 0"),
    // The order of 1, 2, 3 and 4; the ends of a wedge's numbers.
    ("1001 1 1 303 -1 5 5 8 0", "R 1 0 0 0 0 0"),
    ("1001 1 1 303 -1 5 5 8 1", "R 2 0 0 0 0 0"),
    ("1001 1 1 303 -1 5 5 7 3", "R 3 0 0 0 0 0"),
    ("1000 1 1 303 -1 5 5 7 3", "R 4 -1 5 5 0 0"),
    ("1 -1001 1 303 5 5 5 0 3", "R 3 0 0 0 0 0"),
    ("1 1 1 4000001 5 5 5 0 3", "R 3 0 0 0 0 0"),
    ("1 1 1 4000000 5 5 5 0 3", "R 6 6 6 6 0 2"),
    ("1 1 1 -4000000 5 5 5 0 3", "R 5 5 5 5 0 1"),
    ("0 0 0 0 5 5 5 0 3", "R 5 5 5 5 0 1"),
    ("0 0 0 1 5 5 5 0 3", "R 6 6 6 6 0 2"),
    // Looking only at power 1 would stop at (1,1,4). (The counts are the second program's.)
    ("2 3 9 1413 100 100 100 0 16", "N 2 3 9 7 178"),
    // Asking fewer pairs once an opposite has fallen shows here.
    ("5 2 1 808 100 100 100 0 8", "N 5 2 1 4 95"),
    // The sharp bound on looks is reached: 2 + K(6w - 9) with no level axis, 2 + K(2w + 2) with
    // one. (With two it is 2 + 5K: reach 1 above.)
    ("1 1 1 301 100 100 100 0 3", "N 1 1 1 0 29"),
    ("0 1 1 201 100 100 100 0 2", "N 0 1 1 0 14"),
    // One level axis. 10 is by the normal with its zero.
    ("0 1 1 202 100 100 100 0 2", "N 0 1 1 0 12"),
    ("0 1 1 202 100 100 100 0 1", "R 10 101 101 101 0 8"),
    ("0 2 5 707 100 100 100 0 7", "N 0 2 5 3 35"),
    ("0 2 5 707 100 100 100 0 6", "R 10 101 101 101 3 35"),
    ("5 0 3 808 100 100 100 0 8", "N 5 0 3 3 35"),
    ("-3 0 5 202 100 100 100 1 8", "N -3 0 5 3 46"),
    ("-3 0 5 202 100 100 100 3 8", "N -3 0 5 3 46"),
    ("2 4 0 601 100 100 100 0 3", "N 1 2 0 1 25"),
    // No step is allowed where the reach is below the number of remaining axes.
    ("0 1 2 303 100 100 100 0 1", "R 9 101 101 101 0 8"),
    ("1 2 5 808 100 100 100 0 1", "R 9 101 101 101 0 11"),
    // 7: axis 1's opposite falls; all three are level.
    ("0 -1 2 101 100 100 100 0 8", "R 7 101 100 101 0 15"),
    ("1 1 1 301 100 100 100 0 1", "R 7 100 101 101 0 8"),
    // 8 at minus a level axis's vector, at its opposite, and there before the next axis is asked.
    ("0 1 1 202 0 100 100 0 8", "R 8 -1 101 101 0 3"),
    ("0 1 1 202 1020 100 100 0 8", "R 8 1025 101 101 0 8"),
    ("0 1 1 101 1020 0 100 0 8", "R 8 1025 1 101 0 8"),
    // Limits: a slope above the reach may be accepted with another normal.
    ("5 6 7 1801 100 100 100 0 8", "N 1 1 1 0 35"),
    ("5 6 7 9216 511 511 511 0 18", "N 5 6 7 7 208"),
    ("1 1 5 705 100 100 100 0 1", "N 0 0 1 0 7"),
    // Limits: the reach and the box decide "edge", in the middle of the box too.
    ("1 1 2 2048 511 511 511 0 4", "N 1 1 2 1 37"),
    ("1 1 2 2048 511 511 511 0 128", "N 1 1 2 1 87"),
    ("1 1 2 2048 511 511 511 0 256", "R 8 1024 512 256 1 87"),
    ("3 5 7 7680 511 511 511 0 15", "N 3 5 7 6 155"),
    ("3 5 7 7680 511 511 511 0 128", "R 8 1024 384 384 6 219"),
    ("3 5 7 150 11 9 9 0 15", "R 8 -4 26 10 0 12"),
    ("0 0 1 512 511 511 511 0 256", "N 0 0 1 0 39"),
    ("0 1 2 1536 511 511 511 0 128", "N 0 1 2 1 45"),
    ("0 1 2 1536 511 511 511 0 256", "R 8 512 1024 256 1 49"),
    ("0 0 1 101 3 100 100 0 8", "R 8 -4 101 101 0 5"),
    // Limits: the most looks of a wedge that a search has found.
    ("11 754 698 670469 575 703 191 0 64", "R 9 576 704 192 61 2072"),
    // What the line's form allows and refuses.
    ("-0 0000000001 1 202 100 100 100 0 8", "N 0 1 1 0 20"),
    ("1 2 5 808 100 100 100 0 00000000008", "B"),
    ("1 2 5 808 100 100 100 0 +8", "B"),
    ("1 2 5 808 100 100 100 0", "B"),
    ("1 2 5 808 100 100 100 0 8 8", "B"),
    ("1 2 5  808 100 100 100 0 8", "B"),
    (" 1 2 5 808 100 100 100 0 8", "B"),
    ("1 2 5 808 100 100 100 0 8 ", "B"),
    ("1 2 5 808 100 100 100 0 8\r", "B"),
    ("1 2 5 808 100 100 100 0 8\0", "B"),
    ("1 2 5 808 100 100 100 0 -", "B"),
    ("1 2 5 808 100 100 100 0 --8", "B"),
    ("1 2 5 808 100 100 100 0 2147483648", "B"),
    ("1 2 5 808 100 100 100 0 2147483647", "R 1 0 0 0 0 0"),
    ("1 2 5 808 100 100 100 0 -2147483648", "R 1 0 0 0 0 0"),
    ("1 2 5 808 100 100 100 0 -2147483649", "B"),
];

/// Limits: lines whose answers lean nearly as far as the known lean has it, with no level axis, two
/// and one. (The steps and looks of the first are the second program's.) No session has them.
pub const LEANING: &[(&str, &str)] = &[
    ("20 31 22 7301 100 100 100 0 5", "N 1 2 2 2 83"),
    ("15 7 7 2901 100 100 100 0 3", "N 1 0 0 0 16"),
    ("18 35 17 7002 100 100 100 0 4", "N 1 1 0 0 19"),
];

/// Lines whose triangle is listed, with the vectors laid in.
pub const TRIANGLES: &[(&str, [[i64; 3]; 3])] = &[
    ("1 2 5 808 100 100 100 0 8", [[1, 0, 0], [-1, 1, 0], [-2, -1, 1]]),
    ("1 2 5 801 100 100 100 0 8", [[1, 0, 0], [-1, 1, 0], [-2, -1, 1]]),
    ("-1 2 5 608 100 100 100 1 8", [[-1, 0, 0], [1, 1, 0], [2, -1, 1]]),
    ("1 1 1 303 100 100 100 0 3", [[1, 0, 0], [0, 1, 0], [0, 0, 1]]),
    // A level axis's vector stays the unit vector, with the frame's sign.
    ("5 0 3 808 100 100 100 0 8", [[2, 0, -3], [0, 1, 0], [-1, 0, 2]]),
    ("-3 0 5 202 100 100 100 1 8", [[-2, 0, -1], [0, 1, 0], [3, 0, 2]]),
    ("-3 0 5 202 100 100 100 3 8", [[-2, 0, -1], [0, -1, 0], [3, 0, 2]]),
];

/// A touch of a wedge, asked as a line asks a pick, and its answer as a session would tell it, "G"
/// for a guess. Where no corner is empty a round takes 6 looks: 5 + 6 times the rounds in all, and
/// an accepted touch has one round more than steps.
pub const TOUCHES: &[(&str, &str)] = &[
    // W1 to W8. W2 and W6 have an empty corner; W7, which the long walk leaves, is accepted.
    ("1 2 5 808 100 100 100 0 8", "G 1 2 5 5 41"),
    ("1 2 5 801 100 100 100 0 8", "R 11 100 101 101 0 3"),
    ("1 2 5 808 100 100 100 0 7", "R 9 101 101 101 4 35"),
    ("1 1 1 303 100 100 100 0 3", "G 1 1 1 0 11"),
    ("1 2 5 808 1 1 1 0 8", "R 6 2 2 2 0 2"),
    ("0 1 1 202 100 100 100 0 8", "R 11 100 101 101 0 3"),
    ("1 1 1 3 0 0 0 0 3", "G 1 1 1 0 11"),
    ("-1 2 5 608 100 100 100 1 8", "G -1 2 5 5 41"),
    // W1's mirror images in the other frames.
    ("1 -2 5 408 100 100 100 2 8", "G 1 -2 5 5 41"),
    ("-1 -2 5 208 100 100 100 3 8", "G -1 -2 5 5 41"),
    ("1 2 -5 -192 100 100 100 4 8", "G 1 2 -5 5 41"),
    ("-1 2 -5 -392 100 100 100 5 8", "G -1 2 -5 5 41"),
    ("1 -2 -5 -592 100 100 100 6 8", "G 1 -2 -5 5 41"),
    ("-1 -2 -5 -792 100 100 100 7 8", "G -1 -2 -5 5 41"),
    // 1 to 6 are the pick's, in its order.
    ("1 2 5 808 100 100 100 0 0", "R 1 0 0 0 0 0"),
    ("1 2 5 808 100 100 100 0 257", "R 1 0 0 0 0 0"),
    ("1001 1 1 303 -1 5 5 8 -1", "R 1 0 0 0 0 0"),
    ("1001 1 1 303 -1 5 5 8 1", "R 2 0 0 0 0 0"),
    ("1 1 1 303 100 100 100 -1 8", "R 2 0 0 0 0 0"),
    ("1001 1 1 303 -1 5 5 7 3", "R 3 0 0 0 0 0"),
    ("1 1 1 4000001 5 5 5 0 3", "R 3 0 0 0 0 0"),
    ("1000 1 1 303 -1 5 5 7 3", "R 4 -1 5 5 0 0"),
    ("1 1 1 303 1023 5 5 0 8", "R 4 1024 6 6 0 0"),
    ("1 1 1 303 5 -2147483648 5 7 8", "R 4 5 -2147483648 5 0 0"),
    ("0 0 0 0 5 5 5 0 3", "R 5 5 5 5 0 1"),
    ("0 0 0 1 5 5 5 0 3", "R 6 6 6 6 0 2"),
    // 11, the lowest empty corner: a level axis or two, and no question of 7 or of the reach.
    ("0 1 1 202 100 100 100 0 1", "R 11 100 101 101 0 3"),
    ("1 0 1 202 100 100 100 0 8", "R 11 101 100 101 0 4"),
    ("1 1 0 202 100 100 100 0 8", "R 11 101 101 100 0 5"),
    ("0 0 1 101 100 100 100 0 1", "R 11 100 101 101 0 3"),
    ("0 1 0 101 100 100 100 0 8", "R 11 100 101 101 0 3"),
    ("1 0 0 101 100 100 100 0 8", "R 11 101 100 101 0 4"),
    ("1 0 -1 2 100 100 100 4 8", "R 11 101 100 99 0 4"),
    ("0 -1 -1 -198 100 100 100 7 8", "R 11 100 99 99 0 3"),
    ("-1 -1 0 -198 100 100 100 7 8", "R 11 99 99 100 0 5"),
    // 11 off the level: q is as high above the plane as one part of the normal is long, or higher.
    ("1 2 5 807 100 100 100 0 8", "R 11 100 101 101 0 3"),
    ("5 2 1 806 100 100 100 0 8", "R 11 101 100 101 0 4"),
    ("5 2 1 807 100 100 100 0 8", "R 11 101 101 100 0 5"),
    ("1 1 1 301 100 100 100 0 1", "R 11 100 101 101 0 3"),
    // 11 where a part is against the frame: a pick gives 7 there.
    ("1 -1 2 202 100 100 100 0 8", "R 11 101 100 101 0 4"),
    ("0 -1 2 101 100 100 100 0 8", "R 11 100 101 101 0 3"),
    // No step where the reach is at most 3; one, with a second round, where it is 4.
    ("1 2 5 808 100 100 100 0 1", "R 9 101 101 101 0 11"),
    ("1 2 5 808 100 100 100 0 2", "R 9 101 101 101 0 11"),
    ("1 2 5 808 100 100 100 0 3", "R 9 101 101 101 0 11"),
    ("1 2 5 808 100 100 100 0 4", "R 9 101 101 101 1 17"),
    // 10 is by the reach, with no step and after the seven that (5,6,7) takes, as a pick there.
    ("1 1 1 303 100 100 100 0 2", "R 10 101 101 101 0 11"),
    ("1 1 1 303 100 100 100 0 1", "R 10 101 101 101 0 11"),
    ("5 6 7 9216 511 511 511 0 18", "G 5 6 7 7 53"),
    ("5 6 7 9216 511 511 511 0 17", "R 10 512 512 512 7 53"),
    ("5 6 7 9216 511 511 511 0 10", "R 10 512 512 512 7 53"),
    ("5 6 7 9216 511 511 511 0 9", "R 9 512 512 512 6 47"),
    // 8 only at power 1, beside a wall: at once, after a step. In the middle a long reach is free,
    // and the steps are those of the picks above.
    ("1 1 1 3069 1022 1022 1022 0 3", "R 8 1022 1024 1023 0 5"),
    ("1 2 5 8 0 0 0 0 8", "R 8 -1 2 1 1 11"),
    ("1 1 2 2048 511 511 511 0 256", "G 1 1 2 1 17"),
    ("3 5 7 7680 511 511 511 0 128", "G 3 5 7 6 47"),
    ("1 1 1 1536 511 511 511 0 256", "G 1 1 1 0 11"),
    // The most steps and looks: m2 comes down by one at each step, from 254 to 1.
    ("1 1 254 131072 511 511 511 0 256", "G 1 1 254 253 1529"),
    ("1 1 254 131072 511 511 511 0 255", "R 9 512 512 512 252 1523"),
    // A common divisor, on the first level.
    ("2 2 4 808 100 100 100 0 8", "G 1 1 2 1 17"),
    // Off the level it may be wrong: no more than power 1 is looked at. (The steps of (2,3,9) are
    // the second program's.)
    ("2 2 3 707 100 100 100 0 7", "G 2 2 3 3 29"),
    ("2 2 3 706 100 100 100 0 7", "G 1 1 1 0 11"),
    ("2 3 9 1413 100 100 100 0 14", "G 1 1 4 3 29"),
    ("2 3 9 1414 100 100 100 0 14", "G 2 3 9 7 53"),
];

/// Touches whose triangle is listed, with the vectors laid in: W1's, in frames with no, one, two
/// and three minus signs.
pub const TOUCH_TRIANGLES: &[(&str, [[i64; 3]; 3])] = &[
    ("1 2 5 808 100 100 100 0 8", [[1, 0, 0], [-1, 1, 0], [-2, -1, 1]]),
    ("-1 2 5 608 100 100 100 1 8", [[-1, 0, 0], [1, 1, 0], [2, -1, 1]]),
    ("-1 2 -5 -392 100 100 100 5 8", [[-1, 0, 0], [1, 1, 0], [2, -1, -1]]),
    ("-1 -2 -5 -792 100 100 100 7 8", [[-1, 0, 0], [1, -1, 0], [2, 1, -1]]),
    ("1 1 1 3 0 0 0 0 3", [[1, 0, 0], [0, 1, 0], [0, 0, 1]]),
];

/// A start check of a wedge, asked as a line asks a pick, and its answer as a session would tell it,
/// "S" for a ready start: its apex, its level axes (bit 0, 1, 2 for axis 0, 1, 2) and its looks.
pub const CHECKS: &[(&str, &str)] = &[
    // W1 to W8: W3 is 9 and W7 is 8 only in the walk.
    ("1 2 5 808 100 100 100 0 8", "S 101 101 101 0 5"),
    ("1 2 5 801 100 100 100 0 8", "S 101 101 101 0 11"),
    ("1 2 5 808 100 100 100 0 7", "S 101 101 101 0 5"),
    ("1 1 1 303 100 100 100 0 3", "S 101 101 101 0 5"),
    ("1 2 5 808 1 1 1 0 8", "R 6 2 2 2 0 2"),
    ("0 1 1 202 100 100 100 0 8", "S 101 101 101 1 12"),
    ("1 1 1 3 0 0 0 0 3", "S 1 1 1 0 5"),
    ("-1 2 5 608 100 100 100 1 8", "S 99 101 101 0 5"),
    // 1 to 8 are the pick's, in its order.
    ("1 2 5 808 100 100 100 0 0", "R 1 0 0 0 0 0"),
    ("1 2 5 808 100 100 100 0 257", "R 1 0 0 0 0 0"),
    ("1001 1 1 303 -1 5 5 8 0", "R 1 0 0 0 0 0"),
    ("1001 1 1 303 -1 5 5 8 1", "R 2 0 0 0 0 0"),
    ("1 1 1 303 100 100 100 -1 8", "R 2 0 0 0 0 0"),
    ("1001 1 1 303 -1 5 5 7 3", "R 3 0 0 0 0 0"),
    ("1 1 1 4000001 5 5 5 0 3", "R 3 0 0 0 0 0"),
    ("1000 1 1 303 -1 5 5 7 3", "R 4 -1 5 5 0 0"),
    ("1 1 1 303 1023 5 5 0 8", "R 4 1024 6 6 0 0"),
    ("1 1 1 303 2147483647 5 5 0 8", "R 4 2147483647 5 5 0 0"),
    ("1 1 1 303 5 -2147483648 5 7 8", "R 4 5 -2147483648 5 0 0"),
    ("0 0 0 0 5 5 5 0 3", "R 5 5 5 5 0 1"),
    ("0 0 0 1 5 5 5 0 3", "R 6 6 6 6 0 2"),
    ("0 -1 2 101 100 100 100 0 8", "R 7 101 100 101 0 15"),
    ("1 1 1 301 100 100 100 0 1", "R 7 100 101 101 0 8"),
    ("0 1 1 202 0 100 100 0 8", "R 8 -1 101 101 0 3"),
    ("0 1 1 202 1020 100 100 0 8", "R 8 1025 101 101 0 8"),
    // 9, 10 and the 8 of a round are not met: no pair is asked.
    ("1 2 5 808 100 100 100 0 1", "S 101 101 101 0 5"),
    ("1 1 1 303 100 100 100 0 2", "S 101 101 101 0 5"),
    ("1 1 2 2048 511 511 511 0 256", "S 512 512 512 0 5"),
    // One level axis: 2K looks, and the other two fall at power 1.
    ("0 1 1 202 100 100 100 0 1", "S 101 101 101 1 6"),
    ("1 0 1 202 100 100 100 0 8", "S 101 101 101 2 12"),
    ("1 1 0 202 100 100 100 0 8", "S 101 101 101 4 12"),
    ("1 0 -1 2 100 100 100 4 8", "S 101 101 99 2 12"),
    // Two: 4K looks. Reach 1 has 2 + 5K in all, the most that a check makes.
    ("0 0 1 101 100 100 100 0 8", "S 101 101 101 3 19"),
    ("0 1 0 101 100 100 100 0 8", "S 101 101 101 5 19"),
    ("1 0 0 101 100 100 100 0 8", "S 101 101 101 6 19"),
    ("0 0 1 101 100 100 100 0 1", "S 101 101 101 3 7"),
    ("0 0 1 512 511 511 511 0 256", "S 512 512 512 3 39"),
    ("1 1 8 1003 100 100 100 0 7", "S 101 101 101 0 11"),
    ("1 1 9 1101 100 100 100 0 8", "S 101 101 101 3 20"),
];

const fn handed(apex: [i64; 3], level: u32, looks: u32) -> Handed {
    Handed { apex, level, looks }
}

/// A walk on a wedge: a line whose p is the ready start's, what else is handed, and the answer as a
/// session would tell it.
pub const WALKS: &[(&str, Handed, &str)] = &[
    // W1 to W8 from what their checks hand back; that of W5 is refused.
    ("1 2 5 808 100 100 100 0 8", handed([101; 3], 0, 5), "N 1 2 5 5 116"),
    ("1 2 5 801 100 100 100 0 8", handed([101; 3], 0, 11), "N 1 2 5 5 144"),
    ("1 2 5 808 100 100 100 0 7", handed([101; 3], 0, 5), "R 9 101 101 101 4 92"),
    ("1 1 1 303 100 100 100 0 3", handed([101; 3], 0, 5), "N 1 1 1 0 23"),
    ("0 1 1 202 100 100 100 0 8", handed([101; 3], 1, 12), "N 0 1 1 0 20"),
    ("1 1 1 3 0 0 0 0 3", handed([1; 3], 0, 5), "R 8 -1 3 1 0 6"),
    ("-1 2 5 608 100 100 100 1 8", handed([99, 101, 101], 0, 5), "N -1 2 5 5 116"),
    // Looks are counted on from those handed, whatever they are, where a refusal is met too.
    ("1 2 5 808 100 100 100 0 8", handed([101; 3], 0, 0), "N 1 2 5 5 111"),
    ("1 2 5 808 100 100 100 0 8", handed([101; 3], 0, 26), "N 1 2 5 5 137"),
    ("1 2 5 808 100 100 100 0 7", handed([101; 3], 0, 26), "R 9 101 101 101 4 113"),
    ("1 1 1 303 100 100 100 0 2", handed([101; 3], 0, 14), "R 10 101 101 101 0 26"),
    ("1 1 1 3 0 0 0 0 3", handed([1; 3], 0, 0), "R 8 -1 3 1 0 1"),
    // 13: more than 2 + 6K of them.
    ("1 2 5 808 100 100 100 0 8", handed([101; 3], 0, 27), "R 13 0 0 0 0 0"),
    ("1 2 5 808 100 100 100 0 8", handed([101; 3], 0, 2147483648), "R 13 0 0 0 0 0"),
    ("1 2 5 808 100 100 100 0 8", handed([101; 3], 0, 4294967295), "R 13 0 0 0 0 0"),
    ("1 2 5 808 0 0 0 0 1", handed([0; 3], 5, 8), "N 0 1 0 0 8"),
    ("1 2 5 808 0 0 0 0 1", handed([0; 3], 5, 9), "R 13 0 0 0 0 0"),
    ("1 1 1 303 100 100 100 0 2", handed([101; 3], 0, 15), "R 13 0 0 0 0 0"),
    ("1 1 1 303 100 100 100 0 3", handed([101; 3], 0, 20), "N 1 1 1 0 38"),
    ("1 1 1 303 100 100 100 0 3", handed([101; 3], 0, 21), "R 13 0 0 0 0 0"),
    ("1 1 1 303 100 100 100 0 4", handed([101; 3], 0, 21), "R 13 0 0 0 0 0"),
    ("1 1 1 303 100 100 100 0 5", handed([101; 3], 0, 21), "N 1 1 1 0 45"),
    ("0 0 1 512 511 511 511 0 64", handed([512; 3], 3, 44), "N 0 0 1 0 44"),
    ("0 0 1 512 511 511 511 0 64", handed([512; 3], 3, 45), "R 13 0 0 0 0 0"),
    ("0 0 1 512 511 511 511 0 65", handed([512; 3], 3, 50), "N 0 0 1 0 50"),
    ("0 0 1 512 511 511 511 0 65", handed([512; 3], 3, 51), "R 13 0 0 0 0 0"),
    ("1 1 1 1536 511 511 511 0 256", handed([512; 3], 0, 56), "N 1 1 1 0 110"),
    ("1 1 1 1536 511 511 511 0 256", handed([512; 3], 0, 57), "R 13 0 0 0 0 0"),
    // 13: all three level. Bits above the third say nothing.
    ("1 2 5 808 100 100 100 0 8", handed([101; 3], 7, 5), "R 13 0 0 0 0 0"),
    ("1 2 5 808 100 100 100 0 8", handed([101; 3], 15, 5), "R 13 0 0 0 0 0"),
    ("1 2 5 808 100 100 100 0 8", handed([101; 3], 7, 900), "R 13 0 0 0 0 0"),
    ("1 2 5 808 100 100 100 0 8", handed([101; 3], 4294967295, 0), "R 13 0 0 0 0 0"),
    ("1 2 5 808 100 100 100 0 8", handed([101; 3], 8, 5), "N 1 2 5 5 116"),
    ("1 2 5 808 100 100 100 0 8", handed([101; 3], 4294967288, 5), "N 1 2 5 5 116"),
    ("1 2 5 808 100 100 100 0 8", handed([101; 3], 4294967289, 5), "N 0 2 5 3 28"),
    // 1, 2, 3, 4 and 13, in this order; 4 on the handed start, else on the handed apex.
    ("1001 2 5 808 -1 0 0 8 257", handed([1024; 3], 7, 900), "R 1 0 0 0 0 0"),
    ("1001 2 5 808 -1 0 0 8 0", handed([1024; 3], 7, 900), "R 1 0 0 0 0 0"),
    ("1001 2 5 808 -1 0 0 8 8", handed([1024; 3], 7, 900), "R 2 0 0 0 0 0"),
    ("1 2 5 808 100 100 100 8 8", handed([101; 3], 7, 900), "R 2 0 0 0 0 0"),
    ("1 2 5 808 100 100 100 -1 8", handed([101; 3], 0, 5), "R 2 0 0 0 0 0"),
    ("1001 2 5 808 -1 0 0 7 8", handed([1024; 3], 7, 900), "R 3 0 0 0 0 0"),
    ("1 2 5 4000001 100 100 100 0 8", handed([101; 3], 0, 5), "R 3 0 0 0 0 0"),
    ("1000 2 5 808 -1 0 0 7 8", handed([1024; 3], 7, 900), "R 4 -1 0 0 0 0"),
    ("1 2 5 808 -1 0 0 0 8", handed([101; 3], 0, 99), "R 4 -1 0 0 0 0"),
    ("1 2 5 808 100 100 100 0 8", handed([101, 1024, 101], 0, 5), "R 4 101 1024 101 0 0"),
    ("1 2 5 808 100 100 100 0 8", handed([101, 101, -1], 7, 900), "R 4 101 101 -1 0 0"),
    (
        "1 2 5 808 2147483647 -2147483648 5 0 8",
        handed([101; 3], 0, 5),
        "R 4 2147483647 -2147483648 5 0 0",
    ),
    (
        "1 2 5 808 100 100 100 7 8",
        handed([-2147483648, 101, 2147483647], 0, 5),
        "R 4 -2147483648 101 2147483647 0 0",
    ),
    // p is asked no more: it may be anywhere, at a wall and empty too.
    ("1 2 5 808 0 0 0 0 8", handed([101; 3], 0, 5), "N 1 2 5 5 116"),
    ("1 2 5 808 1023 1023 1023 0 8", handed([101; 3], 0, 5), "N 1 2 5 5 116"),
    ("1 2 5 2800 0 1023 0 0 8", handed([200, 300, 400], 0, 5), "N 1 2 5 5 116"),
    // Nor is q: where it is filled all around, all six pairs fall at power 1 in every round.
    ("1 2 5 808 100 100 100 0 8", handed([50; 3], 0, 5), "R 9 50 50 50 5 41"),
    ("0 0 0 1 100 100 100 0 8", handed([101; 3], 0, 5), "R 9 101 101 101 5 41"),
    ("0 0 0 1 100 100 100 0 3", handed([101; 3], 0, 5), "R 9 101 101 101 0 11"),
    // Where it is empty all around, none falls.
    ("1 2 5 808 100 100 100 0 8", handed([900; 3], 0, 5), "N 1 1 1 0 29"),
    ("0 0 0 0 100 100 100 0 8", handed([101; 3], 0, 5), "N 1 1 1 0 29"),
    ("0 0 0 0 100 100 100 0 2", handed([101; 3], 0, 5), "R 10 101 101 101 0 17"),
    // Nor are the axes: those handed as level take no part, those not handed walk. R less the
    // remaining axes in steps, and 10 by the normal with its zeros.
    ("1 2 5 808 100 100 100 0 8", handed([101; 3], 1, 5), "N 0 2 5 3 28"),
    ("1 2 5 808 100 100 100 0 8", handed([101; 3], 2, 5), "N 1 0 5 4 33"),
    ("1 2 5 808 100 100 100 0 8", handed([101; 3], 4, 5), "N 1 2 0 1 18"),
    ("1 2 5 808 100 100 100 0 8", handed([101; 3], 3, 5), "N 0 0 1 0 5"),
    ("1 2 5 808 100 100 100 0 8", handed([101; 3], 5, 5), "N 0 1 0 0 5"),
    ("1 2 5 808 100 100 100 0 8", handed([101; 3], 6, 5), "N 1 0 0 0 5"),
    ("1 2 5 808 100 100 100 7 8", handed([101; 3], 6, 5), "N -1 0 0 0 5"),
    ("1 2 5 808 100 100 100 0 7", handed([101; 3], 1, 5), "N 0 2 5 3 28"),
    ("1 2 5 808 100 100 100 0 5", handed([101; 3], 1, 5), "R 10 101 101 101 3 28"),
    ("1 2 5 808 100 100 100 0 4", handed([101; 3], 1, 5), "R 9 101 101 101 2 17"),
    ("0 1 1 202 100 100 100 0 8", handed([101; 3], 0, 12), "R 9 101 101 101 5 120"),
    ("0 0 1 101 100 100 100 0 1", handed([101; 3], 4, 7), "R 10 101 101 101 0 9"),
    // 8 beside a wall, at the first look; with two level axes there is none.
    ("1 2 5 808 100 100 100 0 8", handed([0; 3], 0, 5), "R 8 -1 1 0 0 5"),
    ("1 2 5 808 100 100 100 7 8", handed([1023; 3], 0, 5), "R 8 1024 1022 1023 0 5"),
    ("1 2 5 808 100 100 100 0 256", handed([0; 3], 3, 5), "N 0 0 1 0 5"),
    // Another frame than the check's turns every way about. (The counts are the second program's.)
    ("1 2 5 808 100 100 100 1 8", handed([101; 3], 0, 5), "R 9 101 101 101 5 101"),
];

const R35: &str = "R 35 0 0 0 0 0";

/// A pick of a wedge, asked as a line asks it, and of its answer the known lean ("L", part and whole)
/// and, on the same wedge in the same frame and reach, the firm footing ("F", power, looks, part and
/// whole). Where all stand there are 2 looks and as many a power as there are ways: six, or four
/// where an axis or two are level.
pub const FOOTINGS: &[(&str, &str, &str)] = &[
    // W1 to W8. The sides of W1's triangle are (-2,1,0), (-3,-1,1) and (-1,-2,1): S is 11.
    ("1 2 5 808 100 100 100 0 8", "L 33 1920", "F 8 26 33 1920"),
    ("1 2 5 801 100 100 100 0 8", "L 33 1920", "F 8 26 33 1920"),
    ("1 2 5 808 100 100 100 0 7", "R 35", R35),
    ("1 1 1 303 100 100 100 0 3", "L 6 48", "F 4 20 6 48"),
    ("1 2 5 808 1 1 1 0 8", "R 35", R35),
    ("0 1 1 202 100 100 100 0 8", "L 9 128", "F 8 18 9 128"),
    ("1 1 1 3 0 0 0 0 3", "R 35", R35),
    ("-1 2 5 608 100 100 100 1 8", "L 33 1920", "F 8 26 33 1920"),
    // W1's mirror images in the other frames.
    ("1 -2 5 408 100 100 100 2 8", "L 33 1920", "F 8 26 33 1920"),
    ("-1 -2 5 208 100 100 100 3 8", "L 33 1920", "F 8 26 33 1920"),
    ("1 2 -5 -192 100 100 100 4 8", "L 33 1920", "F 8 26 33 1920"),
    ("-1 2 -5 -392 100 100 100 5 8", "L 33 1920", "F 8 26 33 1920"),
    ("1 -2 -5 -592 100 100 100 6 8", "L 33 1920", "F 8 26 33 1920"),
    ("-1 -2 -5 -792 100 100 100 7 8", "L 33 1920", "F 8 26 33 1920"),
    // A refused pick is 35; 1, 2 and 3 come before it, 4 to 10 do not.
    ("1 1 1 303 100 100 100 0 0", "R 35", "R 1 0 0 0 0 0"),
    ("1 1 1 303 100 100 100 0 257", "R 35", "R 1 0 0 0 0 0"),
    ("1 1 1 303 100 100 100 8 8", "R 35", "R 2 0 0 0 0 0"),
    ("1001 1 1 303 5 5 5 7 3", "R 35", "R 3 0 0 0 0 0"),
    ("1 1 1 303 1023 5 5 0 8", "R 35", R35),
    ("0 0 0 0 5 5 5 0 3", "R 35", R35),
    ("0 0 0 1 5 5 5 0 3", "R 35", R35),
    ("1 1 1 301 100 100 100 0 1", "R 35", R35),
    ("1 1 1 303 100 100 100 0 2", "R 35", R35),
    // The shortest reach says nothing, the longest nearly all.
    ("0 0 1 101 100 100 100 0 1", "L 6 1", "F 1 6 6 1"),
    ("0 1 1 202 100 100 100 0 2", "L 9 8", "F 2 10 9 8"),
    ("0 0 1 512 511 511 511 0 256", "L 6 65536", "F 256 38 6 65536"),
    ("1 1 1 1536 511 511 511 0 256", "L 6 196608", "F 256 56 6 196608"),
    // Level axes: (5,0,3) ends with the side (-3,0,5).
    ("5 0 3 808 100 100 100 0 8", "L 105 2176", "F 8 18 105 2176"),
    ("-3 0 5 202 100 100 100 3 8", "L 105 2176", "F 8 18 105 2176"),
    ("1 1 0 202 100 100 100 0 8", "L 9 128", "F 8 18 9 128"),
    ("1 0 0 101 100 100 100 0 8", "L 6 64", "F 8 18 6 64"),
    ("0 -1 0 -99 100 100 100 2 8", "L 6 64", "F 8 18 6 64"),
    // Slopes above the reach. On (1,1,5) all stand at power 1, which is the last. On (5,6,7) p is 1
    // below the plane, or 2, and the ways rise by 1, then 2.
    ("1 1 5 705 100 100 100 0 1", "L 6 1", "F 1 6 6 1"),
    ("5 6 7 1801 100 100 100 0 8", "L 6 192", "F 0 3 6 0"),
    ("5 6 7 1802 100 100 100 0 8", "L 6 192", "F 0 4 6 0"),
    // Those that lean: the first has the sides (-2,1,0), (0,-1,1) and (2,-2,1), which rise by -9, -9
    // and 0.
    ("20 31 22 7301 100 100 100 0 5", "L 27 576", "F 0 5 27 0"),
    ("15 7 7 2901 100 100 100 0 3", "L 6 16", "F 0 3 6 0"),
    ("18 35 17 7002 100 100 100 0 4", "L 9 32", "F 0 3 9 0"),
    // p is 13, 5, 3 and 1 below the plane, and the ways rise by 1, 2, -1, 1, -2, -1.
    ("10 11 12 3313 100 100 100 0 4", "L 6 48", "F 4 20 6 48"),
    ("10 11 12 3305 100 100 100 0 4", "L 6 48", "F 2 16 6 12"),
    ("10 11 12 3303 100 100 100 0 4", "L 6 48", "F 1 10 6 3"),
    ("10 11 12 3301 100 100 100 0 4", "L 6 48", "F 0 3 6 0"),
    // p is one nearer to the wall than q: the last power leaves the box, and is no look.
    ("1 1 1 206 3 100 100 0 3", "L 6 48", "F 2 14 6 12"),
    ("1 1 1 206 100 3 100 0 3", "L 6 48", "F 2 16 6 12"),
    ("1 1 1 206 100 100 3 0 3", "L 6 48", "F 2 18 6 12"),
    ("0 1 1 202 7 100 100 0 8", "L 9 128", "F 4 17 9 32"),
    ("0 1 1 202 1016 100 100 1 8", "L 9 128", "F 4 17 9 32"),
    ("0 0 1 101 7 100 100 0 8", "L 6 64", "F 4 15 6 16"),
    ("0 0 1 101 100 7 100 0 8", "L 6 64", "F 4 17 6 16"),
    ("0 0 1 101 0 100 100 0 1", "L 6 1", "F 0 3 6 0"),
];

const UNIT_VECTORS: [[i64; 3]; 3] = [[1, 0, 0], [0, 1, 0], [0, 0, 1]];
const LEAST: i64 = i32::MIN as i64;
const MOST: i64 = i32::MAX as i64;

/// An accepted answer as a host may hand it. Its steps and looks say nothing here.
const fn answer(normal: [i64; 3], vectors: [[i64; 3]; 3], apex: [i64; 3]) -> Pick {
    Ok(Record { normal, vectors, apex, steps: 0, looks: 0 })
}

const fn with_normal(normal: [i64; 3]) -> Pick {
    answer(normal, UNIT_VECTORS, [101; 3])
}

const fn with_vectors(normal: [i64; 3], vectors: [[i64; 3]; 3]) -> Pick {
    answer(normal, vectors, [101; 3])
}

const fn with_apex(apex: [i64; 3]) -> Pick {
    answer([1, 1, 1], UNIT_VECTORS, apex)
}

const fn refused_pick(number: u32) -> Pick {
    Err(Refusal { number, place: [0; 3], steps: 0, looks: 0 })
}

const W1: Pick = with_vectors([1, 2, 5], [[1, 0, 0], [-1, 1, 0], [-2, -1, 1]]);
/// Sides of squared length 9, 16 and 25.
const SIDES: [[i64; 3]; 3] = [[0, 0, 0], [3, 0, 0], [0, 4, 0]];

/// Known leans of answers that a host hands, with the reach.
pub const LEANS: &[(Pick, i64, &str)] = &[
    // W1's answer by the reach: 30 times the last power squared.
    (W1, 1, "L 33 30"),
    (W1, 2, "L 33 120"),
    (W1, 3, "L 33 480"),
    (W1, 4, "L 33 480"),
    (W1, 5, "L 33 1920"),
    (W1, 128, "L 33 491520"),
    (W1, 129, "L 33 1966080"),
    (W1, 256, "L 33 1966080"),
    // 35: the reach; a refused pick.
    (W1, 0, "R 35"),
    (W1, -1, "R 35"),
    (W1, 257, "R 35"),
    (W1, LEAST, "R 35"),
    (W1, MOST, "R 35"),
    (refused_pick(1), 8, "R 35"),
    (refused_pick(10), 8, "R 35"),
    (refused_pick(4294967295), 8, "R 35"),
    // The normal's ends, and zeros.
    (with_normal([256, -256, 256]), 256, "L 6 12884901888"),
    (with_normal([257, 1, 1]), 8, "R 35"),
    (with_normal([1, 257, 1]), 8, "R 35"),
    (with_normal([1, 1, 257]), 8, "R 35"),
    (with_normal([-257, 0, 0]), 8, "R 35"),
    (with_normal([0, LEAST, 0]), 8, "R 35"),
    (with_normal([0, 0, MOST]), 8, "R 35"),
    (with_normal([0, 0, 0]), 8, "R 35"),
    // The vectors' ends.
    (with_vectors([1, 1, 1], [[2046; 3], [-2046; 3], [0; 3]]), 1, "L 150700176 3"),
    (with_vectors([1, 1, 1], [[2047, 0, 0], [0, 1, 0], [0, 0, 1]]), 1, "R 35"),
    (with_vectors([1, 1, 1], [[1, 0, 0], [0, -2047, 0], [0, 0, 1]]), 1, "R 35"),
    (with_vectors([1, 1, 1], [[1, 0, 0], [0, 1, 0], [0, 0, 2047]]), 1, "R 35"),
    (with_vectors([1, 1, 1], [[1, LEAST, 0], [0, 1, 0], [0, 0, 1]]), 1, "R 35"),
    (with_vectors([1, 1, 1], [[MOST; 3], [LEAST; 3], [MOST; 3]]), 1, "R 35"),
    // The longest side, of those between corners that are not level.
    (with_vectors([1, 1, 1], SIDES), 1, "L 75 3"),
    (with_vectors([0, 1, 1], SIDES), 1, "L 78 2"),
    (with_vectors([1, 0, 1], SIDES), 1, "L 51 2"),
    (with_vectors([1, 1, 0], SIDES), 1, "L 30 2"),
    (with_vectors([0, 0, -256], SIDES), 4, "L 6 1048576"),
    (with_vectors([0, 7, 0], SIDES), 1, "L 6 49"),
    (with_vectors([1, 1, 1], [[9; 3]; 3]), 1, "L 0 3"),
    // A level axis's vector is judged all the same.
    (with_vectors([0, 1, 1], [[2046, -2046, 7], [0, 1, 0], [0, 0, 1]]), 2, "L 9 8"),
    (with_vectors([0, 1, 1], [[2047, 0, 0], [0, 1, 0], [0, 0, 1]]), 2, "R 35"),
];

/// Firm footings of such answers on wedges. A line's p is not asked about.
pub const FIRMS: &[(&str, Pick, &str)] = &[
    // W1's answer in another frame or with another reach; 64 leaves the box at once.
    ("1 2 5 808 0 0 0 0 8", W1, "F 8 26 33 1920"),
    ("1 2 5 808 0 0 0 1 8", W1, "F 8 26 33 1920"),
    ("1 2 5 808 0 0 0 7 8", W1, "R 5 102 102 102 0 1"),
    ("1 2 5 808 0 0 0 0 1", W1, "F 1 8 33 30"),
    ("1 2 5 808 0 0 0 0 16", W1, "F 16 32 33 7680"),
    ("1 2 5 808 0 0 0 0 256", W1, "F 32 38 33 30720"),
    // On another wedge: its ways rise by -1, -3, 1, -2 and 3 on (1,1,1), p is 3 below.
    ("1 1 1 303 0 0 0 0 8", W1, "F 0 7 33 0"),
    ("0 0 0 0 0 0 0 0 8", W1, "R 5 100 100 100 0 1"),
    ("0 0 0 1 0 0 0 0 8", W1, "R 6 101 101 101 0 2"),
    // 1, 2, 3, 35, 4, in this order.
    ("1001 2 5 808 0 0 0 8 0", refused_pick(9), "R 1 0 0 0 0 0"),
    ("1001 2 5 808 0 0 0 8 257", with_apex([-1; 3]), "R 1 0 0 0 0 0"),
    ("1001 2 5 808 0 0 0 8 8", refused_pick(9), "R 2 0 0 0 0 0"),
    ("1 2 5 808 0 0 0 -1 8", W1, "R 2 0 0 0 0 0"),
    ("1001 2 5 808 0 0 0 7 8", refused_pick(9), "R 3 0 0 0 0 0"),
    ("1 2 5 4000001 0 0 0 0 8", W1, "R 3 0 0 0 0 0"),
    ("1 2 5 808 0 0 0 0 8", refused_pick(9), R35),
    ("1 2 5 808 0 0 0 0 8", refused_pick(4294967295), R35),
    ("1 2 5 808 0 0 0 0 8", answer([0; 3], UNIT_VECTORS, [-5; 3]), R35),
    ("1 2 5 808 0 0 0 0 8", answer([257, 0, 0], UNIT_VECTORS, [-5; 3]), R35),
    ("1 2 5 808 0 0 0 0 8", answer([1; 3], [[2047, 0, 0]; 3], [-5; 3]), R35),
    ("1 2 5 808 0 0 0 0 8", with_normal([1, 1, LEAST]), R35),
    // 4 with p, else with the apex.
    ("1 2 5 808 0 0 0 0 8", with_apex([0, 5, 5]), "R 4 -1 4 4 0 0"),
    ("1 2 5 808 0 0 0 0 8", with_apex([1024, 5, 5]), "R 4 1024 5 5 0 0"),
    ("1 2 5 808 0 0 0 1 8", with_apex([-1, 5, 5]), "R 4 -1 5 5 0 0"),
    ("1 2 5 808 0 0 0 0 8", with_apex([0, 1024, 5]), "R 4 -1 1023 4 0 0"),
    // p is held to 32 bits.
    ("1 2 5 808 0 0 0 0 8", with_apex([LEAST, 5, 5]), "R 4 -2147483648 4 4 0 0"),
    ("1 2 5 808 0 0 0 7 8", with_apex([5, 5, MOST]), "R 4 6 6 2147483647 0 0"),
    ("1 2 5 808 0 0 0 0 8", with_apex([MOST, 5, LEAST]), "R 4 2147483646 4 -2147483648 0 0"),
    (
        "1 2 5 808 0 0 0 5 8",
        with_apex([MOST, LEAST, LEAST]),
        "R 4 2147483647 -2147483648 -2147483647 0 0",
    ),
    // 5 and 6 elsewhere.
    ("1 2 5 808 0 0 0 0 8", with_apex([200; 3]), "R 5 199 199 199 0 1"),
    ("1 2 5 808 0 0 0 0 8", with_apex([50; 3]), "R 6 50 50 50 0 2"),
    // In two opposite corners of the box.
    ("1 1 1 3 0 0 0 0 8", with_apex([1; 3]), "F 0 2 6 0"),
    (
        "-1 -1 -1 -3066 0 0 0 7 8",
        answer([-1; 3], [[-1, 0, 0], [0, -1, 0], [0, 0, -1]], [1022; 3]),
        "F 0 2 6 0",
    ),
    // The longest vectors leave the box at once; those of no length never.
    (
        "1 2 5 808 0 0 0 0 256",
        with_vectors([1, 1, 1], [[2046, 0, 0], [0, 2046, 0], [0, 0, 2046]]),
        "F 0 2 25116696 0",
    ),
    ("1 2 5 808 0 0 0 0 8", with_vectors([1, 1, 1], [[0; 3]; 3]), "F 8 26 0 192"),
    // Level axes are those of the handed normal, plus the frame's sign before minus it: the third way
    // rises by 2 in frame 0, the fourth in frame 2. p is 8 and 4 below the plane.
    ("1 2 5 808 0 0 0 0 8", with_vectors([0, 0, 1], SIDES), "F 2 13 6 4"),
    ("1 2 5 808 0 0 0 2 8", with_vectors([0, 0, 1], SIDES), "F 1 10 6 1"),
];

/// A whole session and its output.
pub const SESSIONS: &[(&[u8], &[u8])] = &[
    (b"", b""),
    (b"\n", b"B\n"),
    (b"\n\n", b"B\nB\n"),
    (b"x", b"B\n"),
    (b"1 1 1 303 100 100 100 0 3", b"N 1 1 1 0 23\n"),
    (b"1 1 1 303 100 100 100 0 3\n", b"N 1 1 1 0 23\n"),
    (b"1 1 1 303 100 100 100 0 3\n\n1 1 1 3 0 0 0 0 3", b"N 1 1 1 0 23\nB\nR 8 -1 3 1 0 6\n"),
];

/// What a listed stack has filled.
pub enum Filled {
    /// Exactly where ax + by + cz < h.
    Slope([i64; 4]),
    /// There, but only where x is below this.
    Ledge([i64; 4], i64),
    /// These places only.
    Only(&'static [[i64; 3]]),
}

/// A stack, what is asked of it in frame 0, and the answers as a session tells them.
pub struct StackCase {
    pub side: i64,
    pub filled: Filled,
    pub start: [i64; 3],
    pub reach: i64,
    pub told: Told,
}

/// What a pick, what a touch and what a check answers, and how firm that pick is.
pub struct Told {
    pub pick: &'static str,
    pub touch: &'static str,
    pub check: &'static str,
    pub firm: &'static str,
}

/// Of a refused pick.
const fn told(pick: &'static str, touch: &'static str, check: &'static str) -> Told {
    Told { pick, touch, check, firm: R35 }
}

impl Told {
    const fn firm(self, firm: &'static str) -> Told {
        Told { firm, ..self }
    }
}

const fn slope_case(slope: [i64; 4], reach: i64, told: Told) -> StackCase {
    StackCase { side: 256, filled: Filled::Slope(slope), start: [127; 3], reach, told }
}

const fn ledge_case(slope: [i64; 4], end: i64, told: Told) -> StackCase {
    StackCase { side: 256, filled: Filled::Ledge(slope, end), start: [127; 3], reach: 64, told }
}

const fn few_case(only: &'static [[i64; 3]], reach: i64, told: Told) -> StackCase {
    StackCase { side: 8, filled: Filled::Only(only), start: [3; 3], reach, told }
}

pub const STACKS: &[StackCase] = &[
    // Limits: a stack offers at most 64 to a pick.
    slope_case(
        DIAGONAL,
        64,
        told("N 1 1 1 0 47", "G 1 1 1 0 11", "S 128 128 128 0 5").firm("F 64 44 6 12288"),
    ),
    slope_case(DIAGONAL, 65, told("R 8 0 256 128 0 12", "G 1 1 1 0 11", "S 128 128 128 0 5")),
    slope_case(
        FLAT,
        64,
        told("N 0 0 1 0 31", "R 11 127 128 128 0 3", "S 128 128 128 3 31").firm("F 64 30 6 4096"),
    ),
    slope_case(
        FLAT,
        65,
        told("R 8 256 128 128 0 17", "R 11 127 128 128 0 3", "R 8 256 128 128 0 17"),
    ),
    // Limits: where the face ends beyond q the pick is the same, and not as firm.
    ledge_case(
        DIAGONAL,
        132,
        told("N 1 1 1 0 47", "G 1 1 1 0 11", "S 128 128 128 0 5").firm("F 4 23 6 48"),
    ),
    ledge_case(
        FLAT,
        132,
        told("N 0 0 1 0 31", "R 11 127 128 128 0 3", "S 128 128 128 3 31").firm("F 4 15 6 16"),
    ),
    // Limits: where it ends at q the pick may have the normal of the other face.
    ledge_case(
        DIAGONAL,
        128,
        told("N 1 0 0 0 31", "R 11 128 127 128 0 4", "S 128 128 128 6 31").firm("F 2 11 6 4"),
    ),
    // p alone filled; beside it the voxel opposite on axis 0; two on the other axes instead.
    few_case(&[[3, 3, 3]], 1, told("R 7 3 4 4 0 8", "R 11 3 4 4 0 3", "R 7 3 4 4 0 8")),
    few_case(&[[3, 3, 3]], 2, told("R 7 3 4 4 0 14", "R 11 3 4 4 0 3", "R 7 3 4 4 0 14")),
    few_case(&[[3, 3, 3]], 3, told("R 8 8 4 4 0 7", "R 11 3 4 4 0 3", "R 8 8 4 4 0 7")),
    few_case(OPPOSITE, 2, told("R 7 3 4 4 0 5", "R 11 3 4 4 0 3", "R 7 3 4 4 0 5")),
    few_case(
        CORNERS_1_2,
        2,
        told("N 0 1 1 0 12", "R 11 3 4 4 0 3", "S 4 4 4 1 8").firm("F 0 3 9 0"),
    ),
    // Two corners; all three, and the box is too small for a pick's last power.
    few_case(
        CORNERS_0_2,
        2,
        told("N 1 0 1 0 12", "R 11 4 3 4 0 4", "S 4 4 4 2 8").firm("F 0 3 9 0"),
    ),
    few_case(
        CORNERS_0_1,
        2,
        told("N 1 1 0 0 12", "R 11 4 4 3 0 5", "S 4 4 4 4 8").firm("F 0 3 9 0"),
    ),
    few_case(CORNERS, 3, told("R 8 0 8 4 0 7", "G 1 1 1 0 11", "S 4 4 4 0 5")),
    few_case(CORNERS, 2, told("R 10 4 4 4 0 17", "R 10 4 4 4 0 11", "S 4 4 4 0 5")),
    // A corner that is empty, while the voxel at power 2 is filled.
    few_case(TWO_BELOW, 2, told("R 10 4 4 4 0 18", "R 11 3 4 4 0 3", "S 4 4 4 0 6")),
];

/// Walks on such stacks 8 a side: the places filled, the reach, what is handed beside the start
/// (3,3,3), and the answer.
pub const STACK_WALKS: &[(&[[i64; 3]], i64, Handed, &str)] = &[
    // From what the checks above hand back.
    (CORNERS_1_2, 2, handed([4; 3], 1, 8), "N 0 1 1 0 12"),
    (CORNERS, 3, handed([4; 3], 0, 5), "R 8 0 8 4 0 7"),
    (CORNERS, 2, handed([4; 3], 0, 5), "R 10 4 4 4 0 17"),
    // With other level axes; with two at any reach, since no voxel is looked at.
    (CORNERS_1_2, 2, handed([4; 3], 2, 8), "N 1 0 1 0 12"),
    (CORNERS, 65, handed([4; 3], 1, 12), "R 8 4 0 8 0 14"),
    (CORNERS, 65, handed([4; 3], 3, 50), "N 0 0 1 0 50"),
    (CORNERS, 65, handed([4; 3], 3, 51), "R 13 0 0 0 0 0"),
    (CORNERS, 256, handed([4; 3], 6, 56), "N 1 0 0 0 56"),
    (CORNERS, 256, handed([4; 3], 7, 56), "R 13 0 0 0 0 0"),
    // The apex filled, by a wall, and outside this box.
    (CORNERS, 2, handed([3; 3], 0, 5), "R 10 3 3 3 0 17"),
    (CORNERS, 2, handed([4, 7, 4], 0, 5), "R 8 3 8 4 0 5"),
    (CORNERS, 2, handed([4, 8, 4], 0, 5), "R 4 4 8 4 0 0"),
];

/// The slopes (1,1,1) and (0,0,1), q = (128,128,128) on their first empty level.
const DIAGONAL: [i64; 4] = [1, 1, 1, 384];
const FLAT: [i64; 4] = [0, 0, 1, 128];

/// p and the three corners, or the corners of two axes.
const CORNERS: &[[i64; 3]] = &[[3, 3, 3], [3, 4, 4], [4, 3, 4], [4, 4, 3]];
const CORNERS_0_1: &[[i64; 3]] = &[[3, 3, 3], [3, 4, 4], [4, 3, 4]];
const CORNERS_0_2: &[[i64; 3]] = &[[3, 3, 3], [3, 4, 4], [4, 4, 3]];
const CORNERS_1_2: &[[i64; 3]] = &[[3, 3, 3], [4, 3, 4], [4, 4, 3]];

/// p and the voxel one above q on axis 0.
const OPPOSITE: &[[i64; 3]] = &[[3, 3, 3], [5, 4, 4]];

/// p, the voxel two below q on axis 0, and the other two corners.
const TWO_BELOW: &[[i64; 3]] = &[[3, 3, 3], [2, 4, 4], [4, 3, 4], [4, 4, 3]];

impl StackCase {
    pub fn stack(&self) -> (Sizes, Vec<u8>) {
        match self.filled {
            Filled::Slope(slope) => slope_stack(self.side, slope),
            Filled::Ledge([a, b, c, h], end) => {
                stack_where(self.side, |[x, y, z]| x < end && a * x + b * y + c * z < h)
            }
            Filled::Only(places) => few_stack(self.side, places),
        }
    }
}

pub fn stack_where(side: i64, filled: impl Fn([i64; 3]) -> bool) -> (Sizes, Vec<u8>) {
    let sizes = Sizes { width: side, height: side, depth: side };
    let mut bytes = vec![0; sizes.stack_bytes()];
    for z in 0..side {
        for y in 0..side {
            for x in (0..side).filter(|&x| filled([x, y, z])) {
                let (byte, bit) = sizes.bit_place([x, y, z]);
                bytes[byte] |= bit;
            }
        }
    }
    (sizes, bytes)
}

/// A stack with these places filled only.
pub fn few_stack(side: i64, places: &[[i64; 3]]) -> (Sizes, Vec<u8>) {
    stack_where(side, |point| places.contains(&point))
}

/// The stack of a slope: filled exactly where ax + by + cz < h.
pub fn slope_stack(side: i64, [a, b, c, h]: [i64; 4]) -> (Sizes, Vec<u8>) {
    stack_where(side, |[x, y, z]| a * x + b * y + c * z < h)
}

/// "Filled only" places about q = (32,32,32) of a stack 64 a side: two steps, then refusal 10.
pub const SUM_ABOVE_REACH: [[i64; 3]; 6] =
    [[-1, -1, -1], [-1, 0, 0], [0, -1, 0], [0, 0, -1], [-1, 1, 0], [1, -2, 0]];

pub fn sum_above_reach_stack() -> (Sizes, Vec<u8>) {
    let sizes = Sizes { width: 64, height: 64, depth: 64 };
    let mut bytes = vec![0; 64 * 64 * 8];
    for [x, y, z] in SUM_ABOVE_REACH {
        let (x, y, z) = ((32 + x) as usize, (32 + y) as usize, (32 + z) as usize);
        bytes[(z * 64 + y) * 8 + x / 8] |= [128, 64, 32, 16, 8, 4, 2, 1][x % 8];
    }
    (sizes, bytes)
}

/// One call of the reader. The lent buffer holds 0xAA all over before it.
pub struct ReadCase {
    pub input: &'static [u8],
    /// Width, height and depth, or the refusal number and the number returned.
    pub answer: Result<[i64; 3], (u32, u64)>,
    /// The whole lent buffer after the call.
    pub rows: &'static [u8],
}

const fn refused(input: &'static [u8], number: u32, value: u64) -> ReadCase {
    ReadCase { input, answer: Err((number, value)), rows: &[0xaa; 3] }
}

const fn read(input: &'static [u8], sizes: [i64; 3], rows: &'static [u8]) -> ReadCase {
    ReadCase { input, answer: Ok(sizes), rows }
}

/// Width 3, height 2 and the rows A0 40.
const fn read_3_by_2(input: &'static [u8]) -> ReadCase {
    read(input, [3, 2, 1], &[0xa0, 0x40, 0xaa])
}

pub const READS: &[ReadCase] = &[
    // Listed by document 01.
    refused(b"", 21, 0),
    refused(b"P41 1", 22, 2),
    refused(b"P4\n0 1\n", 23, 3),
    refused(b"P4\n257 1\n", 23, 3),
    refused(b"P4\n1 0\n", 23, 5),
    refused(b"P4\n1 257\n", 23, 5),
    refused(b"P4\n256 1\n", 25, 9),
    refused(b"P4\n1 256\n", 25, 9),
    refused(b"P4\n1 1\n", 25, 7),
    read(b"P4\n1 1\n\xff", [1, 1, 1], &[128, 0xaa, 0xaa]),
    refused(b"P4\n1 1\n\xff\n", 21, 8),
    read(
        b"P4\n256 1\n0123456789abcdef0123456789abcdef",
        [256, 1, 1],
        b"0123456789abcdef0123456789abcdef\xaa",
    ),
    // A number is judged once the white space after it was seen.
    refused(b"P4 0x", 22, 4),
    refused(b"P4 0", 22, 4),
    refused(b"P4 300 ", 23, 3),
    refused(b"P4 300", 22, 6),
    refused(b"P4 1 1", 22, 6),
    refused(b"P4 18446744073709551617 1\n\0", 23, 3),
    refused(b"P4 1 4294967297\n\0", 23, 5),
    read(b"P4 00000000000000000000001 01\n\x80", [1, 1, 1], &[128, 0xaa, 0xaa]),
    // Gaps and comments. Four of them touch, and are as 2026-02 changes them.
    refused(b"P", 21, 0),
    refused(b"p4 1 1\n\0", 21, 0),
    refused(b"P4", 22, 2),
    read(b"P4#\n1 1\n\0", [1, 1, 1], &[0, 0xaa, 0xaa]),
    refused(b"P4 #", 22, 4),
    refused(b"P4 # 1 1 ", 22, 9),
    read(b"P4 1#\n1\n\0", [1, 1, 1], &[0, 0xaa, 0xaa]),
    read(b"P4 1 1#\n\0", [1, 1, 1], &[0, 0xaa, 0xaa]),
    refused(b"P4 -1 1\n\0", 22, 3),
    refused(b"P4\t#a\r#b\n\r\n2#", 22, 13),
    read(b"P4\t#a\r#b\n\r\n2 #\n 2\t\xff\x7f", [2, 2, 1], &[0xc0, 0x40, 0xaa]),
    // CR LF after the height: the LF is row data.
    read(b"P4\r\n1 1\r\n", [1, 1, 1], &[0, 0xaa]),
    refused(b"P4\r\n1 1\r\n\xff", 21, 9),
    // Several images: sizes compared after the height, the buffer judged last.
    read(b"P4 3 1\n\xffP4\n3 1 \x5f", [3, 1, 2], &[0xe0, 0x40]),
    refused(b"P4 1 1\n\xffP4\n2 1 \xff", 24, 8),
    refused(b"P4 1 1\n\xffP4\n1 2 \xff\xff", 24, 8),
    refused(b"P4 1 1\n\xffP4\n2 0 \xff", 23, 13),
    refused(b"P4 1 1\n\xffP4\n2 1", 22, 14),
    refused(b"P4 1 1\n\xffP4\n1 1 ", 25, 15),
    ReadCase { input: b"P4 9 2\n1234", answer: Err((27, 4)), rows: &[0xaa; 3] },
    ReadCase { input: b"P4 9 2\n1234P", answer: Err((21, 11)), rows: &[] },
    read(b"P4 9 2\n1234", [9, 2, 1], b"1\x003\x00"),
    // Comments that touch (2026-02): after the magic, the width, the height.
    read_3_by_2(b"P4#c\n3 2\n\xa0\x40"),
    read_3_by_2(b"P4#c\r3 2\n\xa0\x40"),
    read_3_by_2(b"P4\n3#w\n2\n\xa0\x40"),
    read_3_by_2(b"P4\n3#w\r2\n\xa0\x40"),
    read_3_by_2(b"P4\n3 2#h\n\xa0\x40"),
    read_3_by_2(b"P4\n3 2#h\r\xa0\x40"),
    // The rest of a gap may follow.
    read_3_by_2(b"P4\n3#w\n#x\n 2#h\n\xa0\x40"),
    read_3_by_2(b"P4#a\n#b\n\t3 2\n\xa0\x40"),
    read_3_by_2(b"P4#c\r\n3#w\r\n2\n\xa0\x40"),
    // No text, # again, digits, the magic and bytes that close nothing in a comment; leading zeros.
    read_3_by_2(b"P4\n3 2##\n\xa0\x40"),
    read_3_by_2(b"P4\n3#2\n2#\n\xa0\x40"),
    read_3_by_2(b"P4#7 7\t\n003#P4\n02#\0\x0b\x0c\xff 7\n\xa0\x40"),
    // After the height the next byte is the first row byte, be it LF, # or a space.
    read(b"P4\n3 2#h\r\n\x40", [3, 2, 1], &[0, 0x40, 0xaa]),
    read(b"P4\n3 2#\n#\n", [3, 2, 1], &[0x20, 0, 0xaa]),
    read(b"P4\n3 2#\n \x40", [3, 2, 1], &[0x20, 0x40, 0xaa]),
    refused(b"P4\n3 2 #h\n", 21, 9),
    refused(b"P4\n3 2#h\n\xa0", 25, 10),
    refused(b"P4\n3 2#h\r\n", 25, 10),
    refused(b"P4\n3 2#h\n\xa0\x40\n", 21, 11),
    // One that never ends: a space or TAB does not close it, and no number is judged.
    refused(b"P4#", 22, 3),
    refused(b"P4#c", 22, 4),
    refused(b"P4\n3#w", 22, 6),
    refused(b"P4\n3#w 2\t\xa0\x40", 22, 11),
    refused(b"P4\n3 2#h", 22, 8),
    refused(b"P4\n3 2#\xa0\x40", 22, 9),
    refused(b"P4\n0#w", 22, 6),
    refused(b"P4\n3 300#h", 22, 10),
    // A number is judged once the line end was seen, before the rest of the gap.
    refused(b"P4\n0#w\n", 23, 3),
    refused(b"P4\n300#w\n2#h\n", 23, 3),
    refused(b"P4\n0#w\r#", 23, 3),
    refused(b"P4\n3 0#h\r", 23, 5),
    // Wrong bytes beside a comment; the magic is two bytes.
    refused(b"P4x", 22, 2),
    refused(b"P4x#\n3 2\n\xa0\x40", 22, 2),
    refused(b"P#\n4 3 2\n\xa0\x40", 21, 0),
    refused(b"P4#a\nx", 22, 5),
    refused(b"P4#a\n#b", 22, 7),
    refused(b"P4\n3x#w\n", 22, 4),
    refused(b"P4\n3#w\n", 22, 7),
    // Several images with them.
    read(b"P4\n3 2#h\n\xa0\x40P4#z\n3#\n2#\n\x20\xc0", [3, 2, 2], &[0xa0, 0x40, 0x20, 0xc0]),
    refused(b"P4 1 1\n\xffP4#\n2#\n1#\n\xff", 24, 8),
    refused(b"P4#\n1 1\n\xffP4 1 2#h\n\xff\xff", 24, 9),
    refused(b"P4 1 1\n\xffP4\n2 1#", 22, 15),
    refused(b"P4 1 1\n\xffP4#\n0#\n", 23, 12),
    refused(b"P4 1 1\n\xffP4#\n1#\n1#\n", 25, 18),
    refused(b"P4#\n1#\n1#\n\xff\n", 21, 11),
    refused(b"P4#\n9#\n2#\n1234", 27, 4),
];

/// One call of the writer. The lent buffer holds 0xAA all over before it.
pub struct WriteCase {
    pub sizes: [i64; 3],
    pub bytes: &'static [u8],
    /// Bytes written, or the refusal number and the number returned.
    pub answer: Result<u64, (u32, u64)>,
    /// The whole lent buffer after the call.
    pub out: &'static [u8],
}

pub const WRITES: &[WriteCase] = &[
    WriteCase { sizes: [1, 1, 1], bytes: b"\xff", answer: Ok(8), out: b"P4\n1 1\n\x80\xaa" },
    WriteCase { sizes: [1, 1, 1], bytes: b"\xff", answer: Err((27, 8)), out: &[0xaa; 7] },
    WriteCase { sizes: [1, 1, 1], bytes: b"", answer: Err((3, 0)), out: b"" },
    WriteCase { sizes: [0, 1, 1], bytes: b"\xff", answer: Err((3, 0)), out: &[0xaa; 9] },
    WriteCase { sizes: [1, 257, 1], bytes: &[0; 300], answer: Err((3, 0)), out: &[0xaa; 9] },
    WriteCase { sizes: [1, 1, -1], bytes: b"\xff", answer: Err((3, 0)), out: &[0xaa; 9] },
    WriteCase { sizes: [9, 1, 1], bytes: b"\xff", answer: Err((3, 0)), out: &[0xaa; 9] },
    WriteCase {
        sizes: [10, 1, 2],
        bytes: b"\x01\xff\x02\x7f\x03",
        answer: Ok(20),
        out: b"P4\n10 1\n\x01\xc0P4\n10 1\n\x02\x40\xaa\xaa\xaa",
    },
];

/// Sizes over 32768 with their signs, or the refusal number.
pub type Displayed = Result<[i64; 3], u32>;

pub const DISPLAYS: &[([i64; 3], Displayed)] = &[
    ([1, 2, 5], Ok([5982, 11965, 29912])),
    ([1, 1, 1], Ok([18918, 18918, 18918])),
    ([-1, 2, -5], Ok([-5982, 11965, -29912])),
    ([0, 0, 1], Ok([0, 0, 32768])),
    ([0, -1023, 0], Ok([0, -32768, 0])),
    ([3, 4, 0], Ok([19660, 26214, 0])),
    ([0, 0, 0], Err(30)),
    ([1024, 1, 1], Err(30)),
    ([1, -1024, 1], Err(30)),
    ([0, 0, -2147483648], Err(30)),
    ([2147483647, 0, 0], Err(30)),
];
