//! Factoring by Miller-Rabin and Pollard's rho, and squarefree parts.

use crate::number::{binary_gcd, exact_root, power_mod, times_mod};

/// Enough bases to judge every number below 2^64.
const BASES: [u64; 12] = [2, 3, 5, 7, 11, 13, 17, 19, 23, 29, 31, 37];

/// Is `n` prime?
pub fn is_prime(n: u64) -> bool {
    if n < 2 {
        return false;
    }
    for base in BASES {
        if n.is_multiple_of(base) {
            return n == base;
        }
    }
    BASES.iter().all(|base| passes(n, *base))
}

/// Does the odd number `n` pass the strong test to this base?
fn passes(n: u64, base: u64) -> bool {
    let twos = (n - 1).trailing_zeros();
    let mut power = power_mod(base, (n - 1) >> twos, n);
    if power == 1 || power == n - 1 {
        return true;
    }
    for _ in 1..twos {
        power = times_mod(power, power, n);
        if power == n - 1 {
            return true;
        }
    }
    false
}

/// A factor of the composite number `n`, neither 1 nor `n`.
fn proper_factor(n: u64) -> u64 {
    if n.is_multiple_of(2) {
        return 2;
    }
    if let Some(root) = exact_root(n) {
        return root;
    }
    (1..n)
        .flat_map(|add| [2, 3, 5].map(|start| walk(n, start, add)))
        .find(|found| 1 < *found && *found < n)
        .expect("a composite number splits")
}

/// Pollard's rho with the step r -> r^2 + add: the first common factor met.
fn walk(n: u64, start: u64, add: u64) -> u64 {
    let step = |r: u64| ((r as u128 * r as u128 + add as u128) % n as u128) as u64;
    let (mut slow, mut fast) = (start, start);
    loop {
        slow = step(slow);
        fast = step(step(fast));
        let met = binary_gcd(slow.abs_diff(fast) as u128, n as u128) as u64;
        if met != 1 {
            return met;
        }
    }
}

/// The primes of `n` (not 0) in rising order, each as often as it divides.
pub fn primes_of(n: u64) -> Vec<u64> {
    assert!(n != 0, "0 has no factors to list");
    let mut found = Vec::new();
    let mut waiting = vec![n];
    while let Some(part) = waiting.pop() {
        if part == 1 {
            continue;
        }
        if is_prime(part) {
            found.push(part);
        } else {
            let factor = proper_factor(part);
            waiting.push(factor);
            waiting.push(part / factor);
        }
    }
    found.sort_unstable();
    found
}

/// A number as squarefree part (sign kept) times the square of `root`.
#[derive(Clone, Debug, PartialEq, Eq)]
pub struct Squarefree {
    pub part: i128,
    pub root: i128,
    /// The primes of the squarefree part, rising.
    pub primes: Vec<u64>,
}

/// The squarefree part of `n` (not 0).
pub fn squarefree(n: i128) -> Squarefree {
    let size = u64::try_from(n.unsigned_abs()).expect("number fits 64 bits");
    let (mut root, mut part) = (1, n.signum());
    let mut primes: Vec<u64> = Vec::new();
    for prime in primes_of(size) {
        // A second copy of a waiting prime makes a square with it.
        if primes.last() == Some(&prime) {
            primes.pop();
            root *= prime as i128;
            part /= prime as i128;
        } else {
            primes.push(prime);
            part *= prime as i128;
        }
    }
    Squarefree { part, root, primes }
}

#[cfg(test)]
mod tests {
    use super::*;

    #[test]
    fn small_numbers_factor() {
        let mut composite = vec![false; 60_001];
        for n in 2..=60_000u64 {
            assert_eq!(is_prime(n), !composite[n as usize], "{n}");
            if is_prime(n) {
                (2 * n..=60_000)
                    .step_by(n as usize)
                    .for_each(|m| composite[m as usize] = true);
            }
            let primes = primes_of(n);
            assert_eq!(primes.iter().product::<u64>(), n);
            assert!(primes.iter().all(|p| is_prime(*p)));
            assert!(primes.is_sorted());
        }
    }

    #[test]
    fn large_numbers_factor() {
        assert_eq!(primes_of(20_479_999u64 * 19), {
            let mut all = primes_of(20_479_999);
            all.push(19);
            all.sort_unstable();
            all
        });
        assert_eq!(primes_of(1_000_003 * 1_000_033), [1_000_003, 1_000_033]);
        assert!(is_prime(18_446_744_073_709_551_557));
        assert!(!is_prime(3_215_031_751) && !is_prime(3_825_123_056_546_413_051));
    }

    #[test]
    fn squarefree_parts() {
        for n in (-20_000i128..=20_000).filter(|n| *n != 0) {
            let got = squarefree(n);
            assert_eq!(got.part * got.root * got.root, n);
            assert!(got.root >= 1);
            assert!((2..150).all(|m| got.part % (m * m) != 0), "{n}");
            assert_eq!(
                got.primes.iter().product::<u64>() as u128,
                got.part.unsigned_abs()
            );
        }
    }
}
