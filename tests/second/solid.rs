//! The two solids and their boxes.

use crate::point::{dot, Point};

/// What the walk asks of a solid.
pub trait Solid {
    /// Refusal 3 is for a solid that is not permitted.
    fn permitted(&self) -> bool;
    fn inside(&self, point: Point) -> bool;
    /// Asked only of points inside.
    fn filled(&self, point: Point) -> bool;
}

pub fn in_box(point: Point, sides: Point) -> bool {
    (0..3).all(|axis| 0 <= point[axis] && point[axis] < sides[axis])
}

#[derive(Clone, Copy, Debug)]
pub struct Wedge {
    pub abc: Point,
    pub h: i64,
}

pub const WEDGE_SIDE: i64 = 1024;

impl Solid for Wedge {
    fn permitted(&self) -> bool {
        let slope_fits = self.abc.iter().all(|part| (-1000..=1000).contains(part));
        slope_fits && (-4_000_000..=4_000_000).contains(&self.h)
    }

    fn inside(&self, point: Point) -> bool {
        in_box(point, [WEDGE_SIDE; 3])
    }

    fn filled(&self, point: Point) -> bool {
        dot(self.abc, point) < self.h
    }
}

#[derive(Clone, Copy, Debug, PartialEq, Eq)]
pub struct Sizes {
    pub width: i64,
    pub height: i64,
    pub depth: i64,
}

impl Sizes {
    pub fn permitted(&self) -> bool {
        let allowed = 1..=256;
        [self.width, self.height, self.depth].iter().all(|size| allowed.contains(size))
    }

    /// Bytes of one row: width/8 rounded up.
    pub fn row_bytes(&self) -> usize {
        (self.width as usize + 7) / 8
    }

    pub fn slice_bytes(&self) -> usize {
        self.row_bytes() * self.height as usize
    }

    pub fn stack_bytes(&self) -> usize {
        self.slice_bytes() * self.depth as usize
    }

    /// Is there a stack of these sizes in so many bytes? (Judged before any product is taken.)
    pub fn fit(&self, len: usize) -> bool {
        self.permitted() && self.stack_bytes() <= len
    }

    /// The byte of a voxel and its bit there, the highest bit leftmost.
    pub fn bit_place(&self, [x, y, z]: Point) -> (usize, u8) {
        let row = z * self.height + y;
        let byte = row as usize * self.row_bytes() + x as usize / 8;
        (byte, 0x80 >> (x % 8))
    }
}

#[derive(Clone, Copy)]
pub struct Stack<'a> {
    pub sizes: Sizes,
    pub bytes: &'a [u8],
}

impl Solid for Stack<'_> {
    fn permitted(&self) -> bool {
        self.sizes.fit(self.bytes.len())
    }

    fn inside(&self, point: Point) -> bool {
        let Sizes { width, height, depth } = self.sizes;
        in_box(point, [width, height, depth])
    }

    fn filled(&self, point: Point) -> bool {
        let (byte, bit) = self.sizes.bit_place(point);
        self.bytes[byte] & bit != 0
    }
}
