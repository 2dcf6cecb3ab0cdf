//! Points and directions, their normal forms and their limits.

use crate::conic::Triple;
use crate::number::binary_gcd;

/// The largest size of a number of a base or target point.
pub const POINT_LIMIT: i64 = 160_000_000;

/// The largest size of u and v handed in.
pub const DIRECTION_LIMIT: i64 = 10_000;

/// A point as a triple of whole numbers.
#[derive(Clone, Copy, Debug, PartialEq, Eq)]
pub struct Point {
    pub x: i64,
    pub y: i64,
    pub z: i64,
}

/// A direction (u, v).
#[derive(Clone, Copy, Debug, PartialEq, Eq)]
pub struct Direction {
    pub u: i64,
    pub v: i64,
}

impl Point {
    pub const fn new(x: i64, y: i64, z: i64) -> Point {
        Point { x, y, z }
    }

    /// The point of a triple that fits 64 bits.
    pub fn narrow(triple: Triple) -> Point {
        let [x, y, z] = triple.map(|n| i64::try_from(n).expect("a point fits 64 bits"));
        Point { x, y, z }
    }

    pub fn triple(self) -> Triple {
        [self.x, self.y, self.z].map(i128::from)
    }

    fn in_limit(self) -> bool {
        [self.x, self.y, self.z]
            .iter()
            .all(|n| (-POINT_LIMIT..=POINT_LIMIT).contains(n))
    }

    /// Within the limit and in normal form; the zero triple is in none.
    pub fn is_legal_target(self) -> bool {
        self.in_limit() && self.triple() != [0, 0, 0] && normal_form(self.triple()) == self.triple()
    }

    /// A legal target that isn't at infinity.
    pub fn is_legal_base(self) -> bool {
        self.z > 0 && self.is_legal_target()
    }
}

impl Direction {
    pub const fn new(u: i64, v: i64) -> Direction {
        Direction { u, v }
    }

    /// The direction of a pair that fits 64 bits.
    pub fn narrow(pair: [i128; 2]) -> Direction {
        let [u, v] = pair.map(|n| i64::try_from(n).expect("a direction fits 64 bits"));
        Direction { u, v }
    }

    /// Not (0, 0), and within the limit for directions handed in.
    pub fn is_legal(self) -> bool {
        let limit = -DIRECTION_LIMIT..=DIRECTION_LIMIT;
        (self.u, self.v) != (0, 0) && limit.contains(&self.u) && limit.contains(&self.v)
    }
}

/// The normal form of a triple that isn't zero: no common factor, and the first
/// nonzero of z, x, y (in this order) positive.
pub fn normal_form(triple: Triple) -> Triple {
    let [x, y, z] = triple;
    let leading = [z, x, y]
        .into_iter()
        .find(|n| *n != 0)
        .expect("a point isn't zero");
    let common = binary_gcd(
        binary_gcd(x.unsigned_abs(), y.unsigned_abs()),
        z.unsigned_abs(),
    ) as i128;
    triple.map(|n| n / common * leading.signum())
}

/// The normal form of a direction that isn't (0, 0).
pub fn normal_direction(pair: [i128; 2]) -> [i128; 2] {
    let leading = pair
        .into_iter()
        .find(|n| *n != 0)
        .expect("a direction isn't zero");
    let common = binary_gcd(pair[0].unsigned_abs(), pair[1].unsigned_abs()) as i128;
    pair.map(|n| n / common * leading.signum())
}

#[cfg(test)]
mod tests {
    use super::*;

    #[test]
    fn normal_forms() {
        assert_eq!(normal_form([6, -9, -3]), [-2, 3, 1]);
        assert_eq!(normal_form([-4, 6, 0]), [2, -3, 0]);
        assert_eq!(normal_form([0, -7, 0]), [0, 1, 0]);
        assert_eq!(normal_form([0, 0, -7]), [0, 0, 1]);
        assert_eq!(normal_direction([-4, 6]), [2, -3]);
        assert_eq!(normal_direction([0, -6]), [0, 1]);
        assert_eq!(normal_direction([-5, 0]), [1, 0]);
    }

    #[test]
    fn legal_bases_and_targets() {
        let top = POINT_LIMIT;
        for (point, base, target) in [
            (Point::new(0, 0, 1), true, true),
            (Point::new(0, 0, 2), false, false),
            (Point::new(0, 0, 0), false, false),
            (Point::new(0, 0, -1), false, false),
            (Point::new(1, 0, 0), false, true),
            (Point::new(0, 1, 0), false, true),
            (Point::new(0, -1, 0), false, false),
            (Point::new(-1, 5, 0), false, false),
            (Point::new(2, 4, 0), false, false),
            (Point::new(2, 4, 6), false, false),
            (Point::new(6, 10, 15), true, true),
            (Point::new(top, -top, 1), true, true),
            (Point::new(top + 1, 0, 1), false, false),
            (Point::new(0, -top - 1, 1), false, false),
            (Point::new(1, 0, top + 1), false, false),
            (Point::new(i64::MIN, i64::MIN, i64::MIN), false, false),
        ] {
            assert_eq!(point.is_legal_base(), base, "{point:?}");
            assert_eq!(point.is_legal_target(), target, "{point:?}");
        }
    }
}
