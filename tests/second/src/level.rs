//! The levelled equation pX^2 + gY^2 + qW^2 = 0 and Legendre's condition on it.

use crate::conic::Conic;
use crate::factor::squarefree;
use crate::number::{binary_gcd, is_square_mod};

/// The levelled equation with the two roots s, t that lead back.
#[derive(Clone, Debug, PartialEq, Eq)]
pub struct Levelled {
    pub p: i128,
    pub g: i128,
    pub q: i128,
    pub s: i128,
    pub t: i128,
    /// All primes of p, g and q, rising.
    pub primes: Vec<u64>,
}

/// Levels a conic with D and a*delta not 0.
pub fn level(conic: &Conic) -> Levelled {
    let of_d = squarefree(conic.d_number());
    let of_a_delta = squarefree(conic.a * conic.delta());
    let g = binary_gcd(of_d.part.unsigned_abs(), of_a_delta.part.unsigned_abs()) as i128;
    let mut primes = [of_d.primes, of_a_delta.primes].concat();
    primes.sort_unstable();
    primes.dedup();
    Levelled {
        p: of_d.part / g,
        g,
        q: of_a_delta.part / g,
        s: of_d.root,
        t: of_a_delta.root,
        primes,
    }
}

impl Levelled {
    /// The least prime that divides one coefficient while minus the product of the
    /// other two is no square modulo it.
    pub fn least_failing_prime(&self) -> Option<u64> {
        self.primes
            .iter()
            .copied()
            .find(|prime| self.fails_at(*prime))
    }

    fn fails_at(&self, prime: u64) -> bool {
        let Levelled { p, g, q, .. } = *self;
        [(p, g, q), (g, p, q), (q, p, g)]
            .into_iter()
            .any(|(one, m, n)| one % prime as i128 == 0 && !is_square_mod(-m * n, prime))
    }
}

#[cfg(test)]
mod tests {
    use super::*;
    use crate::prng::Prng;

    #[test]
    fn levelled_coefficients_are_coprime_and_squarefree() {
        let mut prng = Prng::new(11);
        for _ in 0..20_000 {
            let six: [i64; 6] = std::array::from_fn(|_| prng.between(-40, 40));
            let conic = Conic::new(six);
            if conic.d_number() == 0 || conic.a * conic.delta() == 0 {
                continue;
            }
            let Levelled {
                p,
                g,
                q,
                s,
                t,
                primes,
            } = level(&conic);
            assert_eq!(p * g * s * s, conic.d_number());
            assert_eq!(q * g * t * t, conic.a * conic.delta());
            assert!(g > 0 && s >= 1 && t >= 1);
            // p g q has each prime once: squarefree and pairwise coprime.
            let product: i128 = primes.iter().map(|prime| *prime as i128).product();
            assert_eq!((p * g * q).abs(), product);
            assert_eq!(conic.is_definite(), p > 0 && q > 0, "{six:?}");
        }
    }

    #[test]
    fn the_third_condition_is_on_minus_pq() {
        let failing = |six| level(&Conic::new(six)).least_failing_prime();
        assert_eq!(failing([3, 0, 3, 0, 0, -1]), Some(3));
        assert_eq!(failing([2, 0, 3, 0, 0, -1]), Some(3));
        assert_eq!(failing([1, 0, 1, 0, 0, -21]), Some(3));
        assert_eq!(failing([1, 0, 1, 0, 0, 3]), Some(3));
        assert_eq!(failing([1, 0, -3, 0, 0, 1]), Some(3));
    }
}
