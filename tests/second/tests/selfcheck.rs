//! Self-checks over many conics: points are on them, "none" is cross-checked by
//! brute force over small rationals and by Hilbert's symbol at every odd prime.

use second::generate::{conic, small_conic, Kind};
use second::point::normal_form;
use second::prng::Prng;
use second::{solve, Answer, Conic, Reason};

/// G by its six terms.
fn value([a, b, c, d, e, f]: [i64; 6], x: i64, y: i64, z: i64) -> i64 {
    a * x * x + b * x * y + c * y * y + d * x * z + e * y * z + f * z * z
}

/// All signs that G takes at small triples other than zero.
fn signs_at_small_triples(six: [i64; 6], end: i64) -> Vec<i64> {
    let mut signs = Vec::new();
    for z in 0..=end {
        for x in -end..=end {
            for y in -end..=end {
                let sign = value(six, x, y, z).signum();
                if (x, y, z) != (0, 0, 0) && !signs.contains(&sign) {
                    signs.push(sign);
                }
            }
        }
    }
    signs
}

/// Is there a pair of rationals x/z, y/z on the conic with small numbers?
fn has_small_point(six: [i64; 6], end: i64) -> bool {
    (1..=end).any(|z| (-end..=end).any(|x| (-end..=end).any(|y| value(six, x, y, z) == 0)))
}

/// Euler's criterion by repeated multiplication.
fn legendre(value: i128, prime: i128) -> i32 {
    let least = value.rem_euclid(prime);
    let (mut power, mut square, mut rest) = (1, least, (prime - 1) / 2);
    while rest > 0 {
        if rest % 2 == 1 {
            power = power * square % prime;
        }
        square = square * square % prime;
        rest /= 2;
    }
    if power == 1 {
        1
    } else {
        -1
    }
}

/// Hilbert's symbol of m and n (not 0) at an odd prime.
fn hilbert(mut m: i128, mut n: i128, prime: i128) -> i32 {
    let (mut in_m, mut in_n) = (0, 0);
    while m % prime == 0 {
        m /= prime;
        in_m += 1;
    }
    while n % prime == 0 {
        n /= prime;
        in_n += 1;
    }
    let mut symbol = 1;
    if in_m % 2 == 1 && in_n % 2 == 1 {
        symbol *= legendre(-1, prime);
    }
    if in_n % 2 == 1 {
        symbol *= legendre(m, prime);
    }
    if in_m % 2 == 1 {
        symbol *= legendre(n, prime);
    }
    symbol
}

/// The least odd prime at which Hilbert's symbol of m and n is -1.
fn least_odd_failure(m: i128, n: i128) -> Option<u64> {
    let mut left = (m.abs(), n.abs());
    let mut prime = 2;
    while left != (1, 1) {
        if prime * prime > left.0.max(left.1) {
            // Only primes are left: the lesser first.
            prime = [left.0, left.1]
                .into_iter()
                .filter(|n| *n > 1)
                .min()
                .expect("not both 1");
        }
        if left.0 % prime == 0 || left.1 % prime == 0 {
            while left.0 % prime == 0 {
                left.0 /= prime;
            }
            while left.1 % prime == 0 {
                left.1 /= prime;
            }
            if prime != 2 && hilbert(m, n, prime) == -1 {
                return Some(prime as u64);
            }
        }
        prime += 1;
    }
    None
}

/// Every way of taking G apart into squares: pairs whose symbol tells of points.
fn symbol_pairs(six: [i64; 6]) -> Vec<(i128, i128)> {
    let [a, b, c, d, e, f] = six.map(i128::from);
    let delta = 4 * a * c * f + b * d * e - a * e * e - c * d * d - f * b * b;
    let (xy, xz, yz) = (4 * a * c - b * b, 4 * a * f - d * d, 4 * c * f - e * e);
    [(xy, a), (xy, c), (xz, a), (xz, f), (yz, c), (yz, f)]
        .into_iter()
        .filter(|(minor, pivot)| minor * pivot * delta != 0)
        .map(|(minor, pivot)| (-minor, -pivot * delta))
        .collect()
}

/// One conic, looked at from all sides.
fn check(six: [i64; 6], end: i64) {
    let failures: Vec<Option<u64>> = symbol_pairs(six)
        .into_iter()
        .map(|(m, n)| least_odd_failure(m, n))
        .collect();
    match solve(six) {
        Answer::Point(point) => {
            assert_eq!(Conic::new(six).value(point.triple()), 0, "{six:?}");
            assert!(point.is_legal_base(), "{six:?} {point:?}");
            assert_eq!(normal_form(point.triple()), point.triple());
            assert!(failures.iter().all(|failure| failure.is_none()), "{six:?}");
        }
        Answer::None(Reason::Sign) => {
            let signs = signs_at_small_triples(six, end);
            assert!(signs == [1] || signs == [-1], "{six:?}");
        }
        Answer::None(Reason::Prime(prime)) => {
            assert!(!has_small_point(six, end), "{six:?}");
            assert!(!failures.is_empty());
            assert!(
                failures.iter().all(|failure| *failure == Some(prime)),
                "{six:?}"
            );
        }
        Answer::Refusal(number) => {
            assert_eq!((number, Conic::new(six).delta()), (2, 0), "{six:?}");
        }
    }
}

#[test]
fn all_small_conics() {
    (0..15_625).for_each(|place| check(small_conic(place), 6));
}

#[test]
fn random_conics_of_every_kind() {
    let mut prng = Prng::new(77);
    for kind in [
        Kind::Random,
        Kind::Circle,
        Kind::Parabola,
        Kind::Hyperbola,
        Kind::Diagonal,
        Kind::Degenerate,
    ] {
        for _ in 0..3_000 {
            check(conic(kind, &mut prng), 9);
        }
    }
}

#[test]
fn kinds_are_what_they_say() {
    let mut prng = Prng::new(78);
    for _ in 0..3_000 {
        assert_eq!(Conic::new(conic(Kind::Degenerate, &mut prng)).delta(), 0);
        assert_eq!(Conic::new(conic(Kind::Parabola, &mut prng)).d_number(), 0);
        let minus_d = -Conic::new(conic(Kind::Hyperbola, &mut prng)).d_number();
        let root = (minus_d as f64).sqrt() as i128;
        assert_eq!(root * root, minus_d);
        assert_eq!(solve(conic(Kind::Outside, &mut prng)), Answer::Refusal(1));
    }
}
