//! The conic: its six numbers, its form G, the partial derivatives, D, delta, k,
//! and the judgement of its sign over the reals.

/// The largest size of a coefficient.
pub const COEFFICIENT_LIMIT: i64 = 40;

/// A triple of whole numbers, wide enough for every step.
pub type Triple = [i128; 3];

/// The conic ax^2 + bxy + cy^2 + dxz + eyz + fz^2 = 0.
#[derive(Clone, Copy, Debug, PartialEq, Eq)]
pub struct Conic {
    pub a: i128,
    pub b: i128,
    pub c: i128,
    pub d: i128,
    pub e: i128,
    pub f: i128,
}

impl Conic {
    /// The conic of six numbers, whatever their size.
    pub fn new(six: [i64; 6]) -> Conic {
        let [a, b, c, d, e, f] = six.map(i128::from);
        Conic { a, b, c, d, e, f }
    }

    /// The conic, or refusal 1 (a coefficient out of range) or 2 (degenerate).
    pub fn judged(six: [i64; 6]) -> Result<Conic, u32> {
        if !in_range(six) {
            return Err(1);
        }
        let conic = Conic::new(six);
        if conic.delta() == 0 {
            return Err(2);
        }
        Ok(conic)
    }

    /// The symmetric matrix of second derivatives: 2G is its form.
    pub fn matrix(&self) -> [[i128; 3]; 3] {
        [
            [2 * self.a, self.b, self.d],
            [self.b, 2 * self.c, self.e],
            [self.d, self.e, 2 * self.f],
        ]
    }

    /// The three partial derivatives of G at a triple.
    pub fn partials(&self, at: Triple) -> Triple {
        self.matrix()
            .map(|line| line[0] * at[0] + line[1] * at[1] + line[2] * at[2])
    }

    /// L(S, T): T's three numbers times the partial derivatives at S.
    pub fn polar(&self, s: Triple, t: Triple) -> i128 {
        let partials = self.partials(s);
        (0..3).map(|i| t[i] * partials[i]).sum()
    }

    /// G at a triple: half of L(T, T), by Euler's rule.
    pub fn value(&self, t: Triple) -> i128 {
        self.polar(t, t) / 2
    }

    /// The minor of the matrix on two of its lines, 0, 1 or 2.
    fn principal_minor(&self, i: usize, j: usize) -> i128 {
        let m = self.matrix();
        m[i][i] * m[j][j] - m[i][j] * m[j][i]
    }

    /// D = 4ac - b^2.
    pub fn d_number(&self) -> i128 {
        self.principal_minor(0, 1)
    }

    /// delta: half the determinant of the matrix.
    pub fn delta(&self) -> i128 {
        let m = self.matrix();
        let by_column = |i: usize, j: usize| m[1][i] * m[2][j] - m[1][j] * m[2][i];
        (m[0][0] * by_column(1, 2) - m[0][1] * by_column(0, 2) + m[0][2] * by_column(0, 1)) / 2
    }

    /// k = 2ae - bd.
    pub fn k_number(&self) -> i128 {
        2 * self.a * self.e - self.b * self.d
    }

    /// Has G one and the same sign at all real triples but zero?
    ///
    /// All eigenvalues of the matrix are real, so Descartes' rule counts their signs
    /// exactly from the characteristic polynomial r^3 - trace r^2 + middle r - det.
    pub fn is_definite(&self) -> bool {
        let trace = 2 * (self.a + self.c + self.f);
        let middle =
            self.principal_minor(0, 1) + self.principal_minor(0, 2) + self.principal_minor(1, 2);
        let det = 2 * self.delta();
        let all_positive = trace > 0 && middle > 0 && det > 0;
        let all_negative = trace < 0 && middle > 0 && det < 0;
        all_positive || all_negative
    }
}

/// Are all six numbers coefficients in range?
pub fn in_range(six: [i64; 6]) -> bool {
    six.iter()
        .all(|n| (-COEFFICIENT_LIMIT..=COEFFICIENT_LIMIT).contains(n))
}

#[cfg(test)]
mod tests {
    use super::*;
    use crate::prng::Prng;

    #[test]
    fn the_papers_formulas_agree() {
        let mut prng = Prng::new(5);
        for _ in 0..20_000 {
            let six: [i64; 6] = std::array::from_fn(|_| prng.between(-40, 40));
            let [a, b, c, d, e, f] = six.map(i128::from);
            let conic = Conic::new(six);
            assert_eq!(conic.d_number(), 4 * a * c - b * b);
            let delta = 4 * a * c * f + b * d * e - a * e * e - c * d * d - f * b * b;
            assert_eq!(conic.delta(), delta);
            let [x, y, z] = std::array::from_fn(|_| prng.between(-1000, 1000) as i128);
            let g = a * x * x + b * x * y + c * y * y + d * x * z + e * y * z + f * z * z;
            assert_eq!(conic.value([x, y, z]), g);
        }
    }

    #[test]
    fn the_ranges_ends() {
        assert!(in_range([40, -40, 0, 40, -40, 0]));
        assert!(!in_range([0, 0, 0, 0, 0, 41]) && !in_range([-41, 0, 0, 0, 0, 0]));
        assert!(!in_range([0, 0, i64::MIN, 0, 0, 0]) && !in_range([0, i64::MAX, 0, 0, 0, 0]));
    }
}
