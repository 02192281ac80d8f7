//! The panel's library as include/ulgenzhir.h tells it.

use crate::answers::{Check, Firm, Lean, Lit, Pick, Read, Ready, Touch, Written};

// Safe: a Rust slice's pointer is never null, and a `&mut` slice overlaps no other.

/// A pick, a touch and a check are called alike.
macro_rules! walk {
    ($answer:ty, $wedge:ident calls $c_wedge:ident, $stack:ident calls $c_stack:ident) => {
        extern "C" {
            fn $c_wedge(
                a: i32,
                b: i32,
                c: i32,
                h: i32,
                px: i32,
                py: i32,
                pz: i32,
                frame: i32,
                reach: i32,
            ) -> $answer;
            fn $c_stack(
                width: i32,
                height: i32,
                depth: i32,
                bytes: *const u8,
                len: usize,
                px: i32,
                py: i32,
                pz: i32,
                frame: i32,
                reach: i32,
            ) -> $answer;
        }

        pub fn $wedge([a, b, c, h, x, y, z, frame, reach]: [i32; 9]) -> $answer {
            unsafe { $c_wedge(a, b, c, h, x, y, z, frame, reach) }
        }

        pub fn $stack(
            [width, height, depth]: [i32; 3],
            bytes: &[u8],
            [x, y, z]: [i32; 3],
            frame: i32,
            reach: i32,
        ) -> $answer {
            let (pointer, len) = (bytes.as_ptr(), bytes.len());
            unsafe { $c_stack(width, height, depth, pointer, len, x, y, z, frame, reach) }
        }
    };
}

walk!(Pick, pick_wedge calls ulgenzhir_pick_wedge, pick_stack calls ulgenzhir_pick_stack);
walk!(Touch, touch_wedge calls ulgenzhir_touch_wedge, touch_stack calls ulgenzhir_touch_stack);
walk!(Check, check_wedge calls ulgenzhir_check_wedge, check_stack calls ulgenzhir_check_stack);

extern "C" {
    fn ulgenzhir_walk_wedge(
        a: i32,
        b: i32,
        c: i32,
        h: i32,
        ready: Ready,
        frame: i32,
        reach: i32,
    ) -> Pick;
    fn ulgenzhir_walk_stack(
        width: i32,
        height: i32,
        depth: i32,
        bytes: *const u8,
        len: usize,
        ready: Ready,
        frame: i32,
        reach: i32,
    ) -> Pick;
    fn ulgenzhir_known_lean(pick: Pick, reach: i32) -> Lean;
    fn ulgenzhir_firm_wedge(
        a: i32,
        b: i32,
        c: i32,
        h: i32,
        pick: Pick,
        frame: i32,
        reach: i32,
    ) -> Firm;
    fn ulgenzhir_firm_stack(
        width: i32,
        height: i32,
        depth: i32,
        bytes: *const u8,
        len: usize,
        pick: Pick,
        frame: i32,
        reach: i32,
    ) -> Firm;
    fn ulgenzhir_read_p4(
        input: *const u8,
        input_len: usize,
        rows: *mut u8,
        rows_len: usize,
    ) -> Read;
    fn ulgenzhir_write_p4(
        width: i32,
        height: i32,
        depth: i32,
        bytes: *const u8,
        len: usize,
        out: *mut u8,
        out_len: usize,
    ) -> Written;
    fn ulgenzhir_display(nx: i32, ny: i32, nz: i32) -> Lit;
}

pub fn walk_wedge([a, b, c, h]: [i32; 4], ready: Ready, frame: i32, reach: i32) -> Pick {
    unsafe { ulgenzhir_walk_wedge(a, b, c, h, ready, frame, reach) }
}

pub fn walk_stack(
    [width, height, depth]: [i32; 3],
    bytes: &[u8],
    ready: Ready,
    frame: i32,
    reach: i32,
) -> Pick {
    let (pointer, len) = (bytes.as_ptr(), bytes.len());
    unsafe { ulgenzhir_walk_stack(width, height, depth, pointer, len, ready, frame, reach) }
}

pub fn known_lean(pick: &Pick, reach: i32) -> Lean {
    unsafe { ulgenzhir_known_lean(*pick, reach) }
}

pub fn firm_wedge([a, b, c, h]: [i32; 4], pick: &Pick, frame: i32, reach: i32) -> Firm {
    unsafe { ulgenzhir_firm_wedge(a, b, c, h, *pick, frame, reach) }
}

pub fn firm_stack(
    [width, height, depth]: [i32; 3],
    bytes: &[u8],
    pick: &Pick,
    frame: i32,
    reach: i32,
) -> Firm {
    let (pointer, len) = (bytes.as_ptr(), bytes.len());
    unsafe { ulgenzhir_firm_stack(width, height, depth, pointer, len, *pick, frame, reach) }
}

pub fn read_p4(input: &[u8], rows: &mut [u8]) -> Read {
    unsafe { ulgenzhir_read_p4(input.as_ptr(), input.len(), rows.as_mut_ptr(), rows.len()) }
}

pub fn write_p4([width, height, depth]: [i32; 3], bytes: &[u8], out: &mut [u8]) -> Written {
    let (pointer, len) = (bytes.as_ptr(), bytes.len());
    unsafe { ulgenzhir_write_p4(width, height, depth, pointer, len, out.as_mut_ptr(), out.len()) }
}

pub fn display([x, y, z]: [i32; 3]) -> Lit {
    unsafe { ulgenzhir_display(x, y, z) }
}
