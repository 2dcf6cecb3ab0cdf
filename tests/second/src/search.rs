//! The point of the levelled equation: a plain walk through the whole box.

use crate::number::{exact_root, floor_root};

/// A solution X, Y, W of pX^2 + gY^2 + qW^2 = 0.
#[derive(Clone, Copy, Debug, PartialEq, Eq)]
pub struct Solution {
    pub x: i64,
    pub y: i64,
    pub w: i64,
}

/// The box X^2 <= g|q|, Y^2 <= |pq|, W^2 <= |p|g with its equation.
#[derive(Clone, Copy, Debug)]
pub struct SearchBox {
    p: i64,
    g: i64,
    q: i64,
    x_end: i64,
    y_end: i64,
    w_end: i64,
}

/// Boxes of at most so many triples are walked in all three numbers.
const SMALL_BOX: i64 = 2_000;

impl SearchBox {
    /// The box of the equation with coefficients p, g, q.
    pub fn new(p: i128, g: i128, q: i128) -> SearchBox {
        let end = |m: i128, n: i128| {
            let square = u64::try_from((m * n).unsigned_abs()).expect("bound fits 64 bits");
            floor_root(square) as i64
        };
        let narrow = |n: i128| i64::try_from(n).expect("coefficient fits 64 bits");
        SearchBox {
            p: narrow(p),
            g: narrow(g),
            q: narrow(q),
            x_end: end(g, q),
            y_end: end(p, q),
            w_end: end(p, g),
        }
    }

    /// The solution in the box with the least W, then the least X.
    pub fn least(&self) -> Option<Solution> {
        let triples = (self.x_end + 1)
            .saturating_mul(self.y_end + 1)
            .saturating_mul(self.w_end + 1);
        if triples <= SMALL_BOX {
            self.least_by_three_loops()
        } else {
            self.least_by_two_loops()
        }
    }

    /// All three numbers by loop.
    pub fn least_by_three_loops(&self) -> Option<Solution> {
        for w in 0..=self.w_end {
            for x in 0..=self.x_end {
                for y in 0..=self.y_end {
                    let sum = self.p * x * x + self.g * y * y + self.q * w * w;
                    if sum == 0 && (x, y, w) != (0, 0, 0) {
                        return Some(Solution { x, y, w });
                    }
                }
            }
        }
        None
    }

    /// W and X by loop, Y by testing.
    pub fn least_by_two_loops(&self) -> Option<Solution> {
        for w in 0..=self.w_end {
            for x in 0..=self.x_end {
                if let Some(y) = self.y_for(w, x) {
                    return Some(Solution { x, y, w });
                }
            }
        }
        None
    }

    /// The Y in the box that goes with W and X, not all three 0.
    fn y_for(&self, w: i64, x: i64) -> Option<i64> {
        let rest = -(self.p * x * x + self.q * w * w);
        if rest < 0 || rest % self.g != 0 || (w == 0 && x == 0) {
            return None;
        }
        let root = exact_root((rest / self.g) as u64)? as i64;
        (root <= self.y_end).then_some(root)
    }
}

#[cfg(test)]
mod tests {
    use super::*;

    #[test]
    fn both_walks_agree() {
        for p in -12..=12i128 {
            for q in -12..=12i128 {
                for g in 1..=12i128 {
                    let walked = SearchBox::new(p, g, q);
                    let three = walked.least_by_three_loops();
                    assert_eq!(walked.least_by_two_loops(), three, "{p} {g} {q}");
                    assert_eq!(walked.least(), three);
                }
            }
        }
    }

    #[test]
    fn the_bound_on_y_counts() {
        // p, q both negative: X = 4, Y = 15, W = 1 solves the first, but 225 > 221.
        let first = SearchBox::new(-13, 1, -17).least();
        assert_eq!(first, Some(Solution { x: 1, y: 9, w: 2 }));
        // Here X = 5, Y = 12, W = 1 would come first, but 144 > 143.
        let second = SearchBox::new(-11, 2, -13).least();
        assert_eq!(second, Some(Solution { x: 1, y: 8, w: 3 }));
    }
}
