//! Small arithmetic: binary gcd, integer roots, powers and residues.

/// Greatest common divisor by halving and subtracting; gcd(0, 0) = 0.
pub fn binary_gcd(first: u128, second: u128) -> u128 {
    if first == 0 || second == 0 {
        return first | second;
    }
    let twos = (first | second).trailing_zeros();
    let mut low = first >> first.trailing_zeros();
    let mut high = second;
    while high != 0 {
        high >>= high.trailing_zeros();
        if low > high {
            (low, high) = (high, low);
        }
        high -= low;
    }
    low << twos
}

/// The greatest whole number whose square is at most `n`.
pub fn floor_root(n: u64) -> u64 {
    let wide = n as u128;
    let mut root = (n as f64).sqrt() as u128;
    while root * root > wide {
        root -= 1;
    }
    while (root + 1) * (root + 1) <= wide {
        root += 1;
    }
    root as u64
}

/// The root of `n` if `n` is a square.
pub fn exact_root(n: u64) -> Option<u64> {
    // Squares leave only 0, 1, 4 or 9 modulo 16.
    if !matches!(n & 15, 0 | 1 | 4 | 9) {
        return None;
    }
    let root = floor_root(n);
    (root * root == n).then_some(root)
}

/// Product modulo `modulus`.
pub fn times_mod(left: u64, right: u64, modulus: u64) -> u64 {
    (left as u128 * right as u128 % modulus as u128) as u64
}

/// Power modulo `modulus`.
pub fn power_mod(base: u64, exponent: u64, modulus: u64) -> u64 {
    let mut result = 1 % modulus;
    let mut square = base % modulus;
    let mut rest = exponent;
    while rest > 0 {
        if rest & 1 == 1 {
            result = times_mod(result, square, modulus);
        }
        square = times_mod(square, square, modulus);
        rest >>= 1;
    }
    result
}

/// Below this the squares modulo a prime are simply listed.
const LISTED: u64 = 64;

/// Is `value` a square modulo `prime`? 0 counts as one.
pub fn is_square_mod(value: i128, prime: u64) -> bool {
    let least = value.rem_euclid(prime as i128) as u64;
    if prime < LISTED {
        return is_listed_square(least, prime);
    }
    least == 0 || power_mod(least, (prime - 1) / 2, prime) == 1
}

/// The same from the list of all squares.
pub fn is_listed_square(least: u64, prime: u64) -> bool {
    (0..prime).any(|r| r * r % prime == least)
}

#[cfg(test)]
mod tests {
    use super::*;

    #[test]
    fn gcd_divides_and_is_greatest() {
        for a in 0..80u128 {
            for b in 0..80u128 {
                let greatest = (1..80).rev().find(|m| a % m == 0 && b % m == 0);
                let expected = if a == 0 && b == 0 {
                    0
                } else {
                    greatest.unwrap()
                };
                assert_eq!(binary_gcd(a, b), expected);
            }
        }
        assert_eq!(binary_gcd(1 << 100, 3 << 90), 1 << 90);
    }

    #[test]
    fn roots_are_exact() {
        for n in 0..100_000u64 {
            let root = floor_root(n);
            assert!(root * root <= n && (root + 1) * (root + 1) > n);
            assert_eq!(exact_root(n), (root * root == n).then_some(root));
        }
        let top = u32::MAX as u64;
        assert_eq!(exact_root(top * top), Some(top));
        assert_eq!(exact_root(top * top - 1), None);
        assert_eq!(floor_root(u64::MAX), top);
    }

    #[test]
    fn powers_and_lists_agree() {
        for prime in [67u64, 71, 73, 97, 101, 499, 1009] {
            for value in 0..prime {
                let listed = is_listed_square(value, prime);
                assert_eq!(is_square_mod(value as i128, prime), listed);
                assert_eq!(
                    is_square_mod(value as i128 - 5 * prime as i128, prime),
                    listed
                );
            }
        }
        assert!(is_square_mod(0, 2) && is_square_mod(1, 2) && is_square_mod(-1, 2));
        assert!(!is_square_mod(-1, 3) && is_square_mod(-1, 5) && is_square_mod(3, 3));
    }
}
