//! Points of the plane, and the sums that a picture needs; no angle is taken, so that every machine
//! gets the same digits.

/// A point, or the way from one point to another.
#[derive(Clone, Copy, Debug, PartialEq)]
pub struct Point {
    pub x: f64,
    pub y: f64,
}

impl Point {
    pub const ORIGIN: Point = Point { x: 0.0, y: 0.0 };

    pub fn new(x: f64, y: f64) -> Point {
        Point { x, y }
    }

    pub fn plus(self, other: Point) -> Point {
        Point::new(self.x + other.x, self.y + other.y)
    }

    pub fn less(self, other: Point) -> Point {
        Point::new(self.x - other.x, self.y - other.y)
    }

    pub fn times(self, factor: f64) -> Point {
        Point::new(self.x * factor, self.y * factor)
    }

    pub fn length(self) -> f64 {
        (self.x * self.x + self.y * self.y).sqrt()
    }

    /// The same way, 1 long; a way of no length goes rightwards.
    pub fn unit(self) -> Point {
        let length = self.length();
        if length > 0.0 {
            self.times(1.0 / length)
        } else {
            Point::new(1.0, 0.0)
        }
    }

    /// The way to the right hand of one who goes this way, on a page whose y grows downwards.
    pub fn right_hand(self) -> Point {
        Point::new(-self.y, self.x)
    }

    /// How far two ways go together.
    pub fn dot(self, other: Point) -> f64 {
        self.x * other.x + self.y * other.y
    }

    /// One way turned by the other: the product of complex numbers.
    pub fn turned(self, by: Point) -> Point {
        Point::new(self.x * by.x - self.y * by.y, self.x * by.y + self.y * by.x)
    }

    /// A way of length 1 at half the angle.
    pub fn half_turn(self) -> Point {
        let unit = self.unit();
        let (x, y) =
            (((1.0 + unit.x) / 2.0).max(0.0).sqrt(), ((1.0 - unit.x) / 2.0).max(0.0).sqrt());
        Point::new(x, if unit.y < 0.0 { -y } else { y })
    }
}
