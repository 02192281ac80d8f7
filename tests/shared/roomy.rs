//! A solid whose box is laid as late as possible: a point is inside as long as it and all points
//! asked about so far fit in a box of the given side. What a walk meets depends on places from q
//! alone, so a walk that such a box does not stop has a start in the true box where it is not
//! stopped, and one that such a box stops is stopped everywhere.

use second::point::{times, Point};
use second::solid::Solid;
use std::cell::Cell;

pub struct Roomy<F> {
    side: i64,
    low: Cell<Point>,
    high: Cell<Point>,
    filled: F,
}

impl<F: Fn(Point) -> bool> Roomy<F> {
    pub fn new(side: i64, start: Point, filled: F) -> Roomy<F> {
        Roomy { side, low: Cell::new(start), high: Cell::new(start), filled }
    }

    /// What brings every point that was inside into the box from 0 on.
    pub fn shift(&self) -> Point {
        times(-1, self.low.get())
    }
}

impl<F: Fn(Point) -> bool> Solid for Roomy<F> {
    fn permitted(&self) -> bool {
        true
    }

    fn inside(&self, point: Point) -> bool {
        let (low, high) = (self.low.get(), self.high.get());
        let low = [0, 1, 2].map(|axis| low[axis].min(point[axis]));
        let high = [0, 1, 2].map(|axis| high[axis].max(point[axis]));
        let fits = (0..3).all(|axis| high[axis] - low[axis] < self.side);
        if fits {
            self.low.set(low);
            self.high.set(high);
        }
        fits
    }

    fn filled(&self, point: Point) -> bool {
        (self.filled)(point)
    }
}
