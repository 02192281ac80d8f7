//! P4 stacks: the reader and the writer.

use crate::solid::Sizes;

#[derive(Clone, Copy, Debug, PartialEq, Eq)]
pub struct Refusal {
    pub number: u32,
    /// The "number returned" of document 01's table.
    pub value: u64,
}

fn refusal(number: u32, value: usize) -> Refusal {
    Refusal { number, value: value as u64 }
}

fn white_space(byte: u8) -> bool {
    matches!(byte, b' ' | b'\t' | b'\r' | b'\n')
}

fn ends_comment(byte: u8) -> bool {
    matches!(byte, b'\r' | b'\n')
}

struct Reader<'a> {
    input: &'a [u8],
    at: usize,
}

impl<'a> Reader<'a> {
    fn next(&self) -> Option<u8> {
        self.input.get(self.at).copied()
    }

    /// Refusal 22 at the place reached: the first wrong byte, or the input's length.
    fn wrong<T>(&self) -> Result<T, Refusal> {
        Err(refusal(22, self.at))
    }

    fn magic(&mut self) -> Result<(), Refusal> {
        if !self.input[self.at..].starts_with(b"P4") {
            return Err(refusal(21, self.at));
        }
        self.at += 2;
        Ok(())
    }

    /// The white space required here: one byte of it, or a comment that begins here, whose line
    /// end counts as that byte.
    fn required_white_space(&mut self) -> Result<(), Refusal> {
        match self.next() {
            Some(b'#') => self.comment(),
            Some(byte) if white_space(byte) => {
                self.at += 1;
                Ok(())
            }
            _ => self.wrong(),
        }
    }

    /// Any mix of white space and comments.
    fn rest_of_gap(&mut self) -> Result<(), Refusal> {
        while let Some(byte) = self.next() {
            if byte == b'#' {
                self.comment()?;
            } else if white_space(byte) {
                self.at += 1;
            } else {
                break;
            }
        }
        Ok(())
    }

    /// From # through the next CR or LF.
    fn comment(&mut self) -> Result<(), Refusal> {
        while let Some(byte) = self.next() {
            self.at += 1;
            if ends_comment(byte) {
                return Ok(());
            }
        }
        self.wrong()
    }

    /// Digits and the white space after them; judged once that was seen.
    fn number(&mut self) -> Result<i64, Refusal> {
        let first = self.at;
        while self.next().map_or(false, |byte| byte.is_ascii_digit()) {
            self.at += 1;
        }
        let digits = &self.input[first..self.at];
        if digits.is_empty() {
            return self.wrong();
        }
        self.required_white_space()?;
        size_of_digits(digits).ok_or(refusal(23, first))
    }

    /// Width and height of one image; the rows are next.
    fn header(&mut self) -> Result<(i64, i64), Refusal> {
        self.magic()?;
        self.required_white_space()?;
        self.rest_of_gap()?;
        let width = self.number()?;
        self.rest_of_gap()?;
        let height = self.number()?;
        Ok((width, height))
    }

    fn rows(&mut self, length: usize) -> Result<&'a [u8], Refusal> {
        let rest = &self.input[self.at..];
        if rest.len() < length {
            return Err(refusal(25, self.input.len()));
        }
        self.at += length;
        Ok(&rest[..length])
    }

    /// The sizes and each image's rows.
    fn images(&mut self) -> Result<(Sizes, Vec<&'a [u8]>), Refusal> {
        let mut images = Vec::new();
        let mut first = None;
        loop {
            let offset = self.at;
            let size = self.header()?;
            if *first.get_or_insert(size) != size {
                return Err(refusal(24, offset));
            }
            let (width, height) = size;
            let one = Sizes { width, height, depth: 1 };
            images.push(self.rows(one.slice_bytes())?);
            if self.at == self.input.len() {
                let depth = images.len() as i64;
                return Ok((Sizes { width, height, depth }, images));
            }
            if images.len() == 256 {
                return Err(refusal(26, self.at));
            }
        }
    }
}

/// The value if it is 1 to 256, however many digits there are.
fn size_of_digits(digits: &[u8]) -> Option<i64> {
    let zeros = digits.iter().take_while(|&&digit| digit == b'0').count();
    let shown = std::str::from_utf8(&digits[zeros..]).ok()?;
    let value = shown.parse::<i64>().ok().filter(|_| shown.len() <= 3)?;
    (1..=256).contains(&value).then_some(value)
}

/// Every row's padding bits made zero.
fn clear_padding(rows: &mut [u8], sizes: Sizes) {
    let padding = 8 * sizes.row_bytes() - sizes.width as usize;
    for row in rows.chunks_exact_mut(sizes.row_bytes()) {
        row[sizes.row_bytes() - 1] &= 0xff << padding;
    }
}

pub fn read(input: &[u8], rows: &mut [u8]) -> Result<Sizes, Refusal> {
    let (sizes, images) = Reader { input, at: 0 }.images()?;
    let needed = sizes.stack_bytes();
    if rows.len() < needed {
        return Err(refusal(27, needed));
    }
    rows[..needed].copy_from_slice(&images.concat());
    clear_padding(&mut rows[..needed], sizes);
    Ok(sizes)
}

/// The plain form of a stack whose bytes suffice.
fn plain_form(sizes: Sizes, bytes: &[u8]) -> Vec<u8> {
    let mut rows = bytes[..sizes.stack_bytes()].to_vec();
    clear_padding(&mut rows, sizes);
    let mut text = Vec::new();
    for slice in rows.chunks_exact(sizes.slice_bytes()) {
        text.extend(format!("P4\n{} {}\n", sizes.width, sizes.height).bytes());
        text.extend(slice);
    }
    text
}

pub fn write(sizes: Sizes, bytes: &[u8], out: &mut [u8]) -> Result<u64, Refusal> {
    if !sizes.fit(bytes.len()) {
        return Err(refusal(3, 0));
    }
    let text = plain_form(sizes, bytes);
    if out.len() < text.len() {
        return Err(refusal(27, text.len()));
    }
    out[..text.len()].copy_from_slice(&text);
    Ok(text.len() as u64)
}
