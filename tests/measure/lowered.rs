//! The panel's library from its own LLVM module, compiled for a machine that is no x86-64 (see
//! tests/measure/here). The module is lowered for x86-64, so the calls are written as they look
//! there: a large struct is stored through a first pointer, a small one comes back as a pair, and
//! one that is handed lies on the stack. This is for Arm, whose first eight numbers are in registers:
//! what follows them lies there.

use crate::answers::{Check, Firm, Lean, Lit, Pick, Read, Ready, Touch, Written};
use std::mem::{size_of, size_of_val};

/// A pick, a touch and a check are called alike.
macro_rules! walk {
    ($answer:ty, $wedge:ident calls $c_wedge:ident, $stack:ident calls $c_stack:ident) => {
        extern "C" {
            fn $c_wedge(
                answer: *mut $answer,
                a: i32,
                b: i32,
                c: i32,
                h: i32,
                px: i32,
                py: i32,
                pz: i32,
                frame: i32,
                reach: i32,
            ) -> *mut $answer;
            fn $c_stack(
                answer: *mut $answer,
                width: i32,
                height: i32,
                depth: i32,
                bytes: *const u8,
                len: usize,
                px: i32,
                py: i32,
                pz: i32,
                frame: i32,
                reach: i32,
            ) -> *mut $answer;
        }

        pub fn $wedge([a, b, c, h, x, y, z, frame, reach]: [i32; 9]) -> $answer {
            let mut answer = <$answer>::default();
            unsafe { $c_wedge(&mut answer, a, b, c, h, x, y, z, frame, reach) };
            answer
        }

        pub fn $stack(
            [w, h, d]: [i32; 3],
            bytes: &[u8],
            [x, y, z]: [i32; 3],
            frame: i32,
            reach: i32,
        ) -> $answer {
            let mut answer = <$answer>::default();
            let (from, len) = (bytes.as_ptr(), bytes.len());
            unsafe { $c_stack(&mut answer, w, h, d, from, len, x, y, z, frame, reach) };
            answer
        }
    };
}

walk!(Pick, pick_wedge calls ulgenzhir_pick_wedge, pick_stack calls ulgenzhir_pick_stack);
walk!(Touch, touch_wedge calls ulgenzhir_touch_wedge, touch_stack calls ulgenzhir_touch_stack);
walk!(Check, check_wedge calls ulgenzhir_check_wedge, check_stack calls ulgenzhir_check_stack);

extern "C" {
    fn ulgenzhir_walk_wedge(
        answer: *mut Pick,
        a: i32,
        b: i32,
        c: i32,
        h: i32,
        frame: i32,
        reach: i32,
        eighth: u64,
        ready0: u64,
        ready1: u64,
        ready2: u64,
        ready3: u64,
    ) -> *mut Pick;
    fn ulgenzhir_walk_stack(
        answer: *mut Pick,
        width: i32,
        height: i32,
        depth: i32,
        bytes: *const u8,
        len: usize,
        frame: i32,
        reach: i32,
        ready0: u64,
        ready1: u64,
        ready2: u64,
        ready3: u64,
    ) -> *mut Pick;
    fn ulgenzhir_read_p4(
        answer: *mut Read,
        input: *const u8,
        input_len: usize,
        rows: *mut u8,
        rows_len: usize,
    ) -> *mut Read;
    fn ulgenzhir_write_p4(
        width: i32,
        height: i32,
        depth: i32,
        bytes: *const u8,
        len: usize,
        out: *mut u8,
        out_len: usize,
    ) -> Written;
}

extern "Rust" {
    /// Number and x, then y and z, in one register of each kind.
    fn ulgenzhir_display(nx: i32, ny: i32, nz: i32) -> (u64, f64);
}

/// A struct that is handed, as its bytes lie on the stack.
fn words<T, const N: usize>(handed: &T) -> [u64; N] {
    let mut words = [0; N];
    let (from, len) = (handed as *const T as *const u8, size_of::<T>());
    assert!(len <= size_of_val(&words));
    unsafe { from.copy_to_nonoverlapping(words.as_mut_ptr().cast(), len) };
    words
}

pub fn walk_wedge([a, b, c, h]: [i32; 4], ready: Ready, frame: i32, reach: i32) -> Pick {
    let mut answer = Pick::default();
    let [r0, r1, r2, r3] = words(&ready);
    unsafe { ulgenzhir_walk_wedge(&mut answer, a, b, c, h, frame, reach, 0, r0, r1, r2, r3) };
    answer
}

pub fn walk_stack([w, h, d]: [i32; 3], bytes: &[u8], ready: Ready, frame: i32, reach: i32) -> Pick {
    let mut answer = Pick::default();
    let (from, len) = (bytes.as_ptr(), bytes.len());
    let [r0, r1, r2, r3] = words(&ready);
    unsafe { ulgenzhir_walk_stack(&mut answer, w, h, d, from, len, frame, reach, r0, r1, r2, r3) };
    answer
}

/// A call with a pick, whose numbers fill the registers behind the answer's.
macro_rules! with_pick {
    ($answer:ty, $call:ident calls $c_call:ident($($number:ident: $kind:ty),*)) => {
        fn $call(pick: &Pick, $($number: $kind),*) -> $answer {
            extern "C" {
                fn $c_call(
                    answer: *mut $answer,
                    $($number: $kind,)*
                    pick0: u64,
                    pick1: u64,
                    pick2: u64,
                    pick3: u64,
                    pick4: u64,
                    pick5: u64,
                    pick6: u64,
                    pick7: u64,
                    pick8: u64,
                    pick9: u64,
                    pick10: u64,
                ) -> *mut $answer;
            }
            let mut answer = <$answer>::default();
            let [p0, p1, p2, p3, p4, p5, p6, p7, p8, p9, p10] = words(pick);
            unsafe {
                $c_call(&mut answer, $($number,)* p0, p1, p2, p3, p4, p5, p6, p7, p8, p9, p10)
            };
            answer
        }
    };
}

with_pick!(Lean, lean calls ulgenzhir_known_lean(
    reach: i32, third: u64, fourth: u64, fifth: u64, sixth: u64, seventh: u64, eighth: u64
));
with_pick!(Firm, on_wedge calls ulgenzhir_firm_wedge(
    a: i32, b: i32, c: i32, h: i32, frame: i32, reach: i32, eighth: u64
));
with_pick!(Firm, on_stack calls ulgenzhir_firm_stack(
    width: i32, height: i32, depth: i32, bytes: *const u8, len: usize, frame: i32, reach: i32
));

pub fn known_lean(pick: &Pick, reach: i32) -> Lean {
    lean(pick, reach, 0, 0, 0, 0, 0, 0)
}

pub fn firm_wedge([a, b, c, h]: [i32; 4], pick: &Pick, frame: i32, reach: i32) -> Firm {
    on_wedge(pick, a, b, c, h, frame, reach, 0)
}

pub fn firm_stack([w, h, d]: [i32; 3], bytes: &[u8], pick: &Pick, frame: i32, reach: i32) -> Firm {
    on_stack(pick, w, h, d, bytes.as_ptr(), bytes.len(), frame, reach)
}

pub fn read_p4(input: &[u8], rows: &mut [u8]) -> Read {
    let mut answer = Read::default();
    let (from, len) = (input.as_ptr(), input.len());
    unsafe { ulgenzhir_read_p4(&mut answer, from, len, rows.as_mut_ptr(), rows.len()) };
    answer
}

pub fn write_p4([width, height, depth]: [i32; 3], bytes: &[u8], out: &mut [u8]) -> Written {
    let (from, len) = (bytes.as_ptr(), bytes.len());
    unsafe { ulgenzhir_write_p4(width, height, depth, from, len, out.as_mut_ptr(), out.len()) }
}

pub fn display([x, y, z]: [i32; 3]) -> Lit {
    let (front, back) = unsafe { ulgenzhir_display(x, y, z) };
    let float = |bits: u64| f32::from_bits(bits as u32);
    let (y, z) = (float(back.to_bits()), float(back.to_bits() >> 32));
    Lit { number: front as u32, x: float(front >> 32), y, z }
}
