//! The reader and the writer: headers judged first, slices copied whole and forward.

use super::walk::{row_bytes, sizes_permitted};
use crate::answers::{Read, Written};

fn read_refused(number: u32, value: usize) -> Read {
    Read { number, value: value as u64, ..Default::default() }
}

fn is_white(byte: u8) -> bool {
    matches!(byte, b' ' | b'\t' | b'\r' | b'\n')
}

/// The place after a comment that begins here.
fn comment(input: &[u8], at: usize) -> Result<usize, Read> {
    let end = input[at..].iter().position(|&byte| byte == b'\r' || byte == b'\n');
    Ok(at + end.ok_or(read_refused(22, input.len()))? + 1)
}

/// The place after the white space required here, or after a comment that begins here.
fn required_white(input: &[u8], at: usize) -> Result<usize, Read> {
    match input.get(at) {
        Some(b'#') => comment(input, at),
        Some(&byte) if is_white(byte) => Ok(at + 1),
        _ => Err(read_refused(22, at)),
    }
}

/// The place after the rest of a gap.
fn rest_of_gap(input: &[u8], mut at: usize) -> Result<usize, Read> {
    loop {
        match input.get(at) {
            Some(b'#') => at = comment(input, at)?,
            Some(&byte) if is_white(byte) => at += 1,
            _ => return Ok(at),
        }
    }
}

/// A size and the place after the white space behind it.
fn size(input: &[u8], first: usize) -> Result<(usize, usize), Read> {
    let mut at = first;
    let mut value = 0;
    while let Some(digit) = input.get(at).filter(|byte| byte.is_ascii_digit()) {
        value = (value * 10 + usize::from(digit - b'0')).min(1000);
        at += 1;
    }
    if at == first {
        return Err(read_refused(22, at));
    }
    let behind = required_white(input, at)?;
    if !(1..=256).contains(&value) {
        return Err(read_refused(23, first));
    }
    Ok((value, behind))
}

/// Width, height and the place of the rows.
fn header(input: &[u8], at: usize) -> Result<(usize, usize, usize), Read> {
    if !input[at..].starts_with(b"P4") {
        return Err(read_refused(21, at));
    }
    let at = required_white(input, at + 2)?;
    let (width, at) = size(input, rest_of_gap(input, at)?)?;
    let (height, at) = size(input, rest_of_gap(input, at)?)?;
    Ok((width, height, at))
}

/// Where the rows of each image begin, and the sizes.
fn judged(input: &[u8], places: &mut [usize; 256]) -> Result<[usize; 3], Read> {
    let (width, height, _) = header(input, 0)?;
    let slice = ((width + 7) >> 3) * height;
    let mut at = 0;
    let mut depth = 0;
    loop {
        let (w, h, rows) = header(input, at)?;
        if (w, h) != (width, height) {
            return Err(read_refused(24, at));
        }
        if input.len() - rows < slice {
            return Err(read_refused(25, input.len()));
        }
        places[depth] = rows;
        depth += 1;
        at = rows + slice;
        if at == input.len() {
            return Ok([width, height, depth]);
        }
        if depth == 256 {
            return Err(read_refused(26, at));
        }
    }
}

/// Rows copied with their padding bits zero.
fn copy_rows(to: &mut [u8], from: &[u8], width: usize) {
    to.copy_from_slice(from);
    if width % 8 != 0 {
        let row = (width + 7) / 8;
        let mask = 0xffu8 << (8 - width % 8);
        to.iter_mut().skip(row - 1).step_by(row).for_each(|last| *last &= mask);
    }
}

#[inline(never)]
pub fn read_p4(input: &[u8], rows: &mut [u8]) -> Read {
    let mut places = [0; 256];
    let [width, height, depth] = match judged(input, &mut places) {
        Ok(sizes) => sizes,
        Err(refusal) => return refusal,
    };
    let slice = (width + 7) / 8 * height;
    if rows.len() < slice * depth {
        return read_refused(27, slice * depth);
    }
    for (to, &from) in rows.chunks_exact_mut(slice).zip(&places[..depth]) {
        copy_rows(to, &input[from..from + slice], width);
    }
    let [width, height, depth] = [width, height, depth].map(|size| size as u32);
    Read { number: 0, value: 0, width, height, depth }
}

/// "P4", LF, width, space, height, LF, and its length.
fn plain_header(width: i32, height: i32) -> ([u8; 11], usize) {
    let mut text = *b"P4\n        ";
    let mut at = 3;
    for (size, end) in [(width, b' '), (height, b'\n')] {
        for unit in [100, 10, 1] {
            if size >= unit {
                text[at] = b'0' + (size / unit % 10) as u8;
                at += 1;
            }
        }
        text[at] = end;
        at += 1;
    }
    (text, at)
}

#[inline(never)]
pub fn write_p4(sizes: [i32; 3], bytes: &[u8], out: &mut [u8]) -> Written {
    if !sizes_permitted(sizes, bytes.len()) {
        return Written { number: 3, value: 0 };
    }
    let [width, height, depth] = sizes;
    let slice = row_bytes(width) * height as usize;
    let (text, head) = plain_header(width, height);
    let needed = (head + slice) * depth as usize;
    if out.len() < needed {
        return Written { number: 27, value: needed as u64 };
    }
    for (image, rows) in out[..needed].chunks_exact_mut(head + slice).zip(bytes.chunks(slice)) {
        image[..head].copy_from_slice(&text[..head]);
        copy_rows(&mut image[head..], rows, width as usize);
    }
    Written { number: 0, value: needed as u64 }
}
