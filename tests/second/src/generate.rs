//! Test rows of several kinds from a fixed seed.

use crate::conic::in_range;
use crate::faults::faulty_row;
use crate::prng::Prng;

/// The kinds of rows.
#[derive(Clone, Copy, Debug, PartialEq, Eq)]
pub enum Kind {
    /// Coefficients -2 to 2.
    Small,
    /// In range, a mixture of sizes, zeros frequent.
    Random,
    /// a = c, b = 0.
    Circle,
    /// D = 0.
    Parabola,
    /// -D a square.
    Hyperbola,
    /// b = d = e = 0: Legendre's equation itself.
    Diagonal,
    /// delta = 0.
    Degenerate,
    /// Some coefficient out of range.
    Outside,
    /// Rows with faults, and some with unusual spelling.
    Malformed,
    /// All the others but the first, by lot.
    Mixed,
}

/// The kinds that Mixed draws from.
const MIXTURE: [Kind; 10] = [
    Kind::Random,
    Kind::Random,
    Kind::Random,
    Kind::Circle,
    Kind::Parabola,
    Kind::Hyperbola,
    Kind::Diagonal,
    Kind::Degenerate,
    Kind::Outside,
    Kind::Malformed,
];

/// `count` rows of a kind, each with its line feed.
pub fn rows(kind: Kind, count: usize, seed: u64) -> Vec<u8> {
    let mut prng = Prng::new(seed);
    let mut text = Vec::new();
    for _ in 0..count {
        text.extend(row(kind, &mut prng));
        text.push(b'\n');
    }
    text
}

/// One row of a kind, without its line feed.
pub fn row(kind: Kind, prng: &mut Prng) -> Vec<u8> {
    let kind = if kind == Kind::Mixed {
        prng.pick(&MIXTURE)
    } else {
        kind
    };
    if kind == Kind::Malformed {
        return faulty_row(prng);
    }
    spelled(conic(kind, prng))
}

/// The row of six numbers in the plain spelling.
pub fn spelled(six: [i64; 6]) -> Vec<u8> {
    six.map(|n| n.to_string()).join(" ").into_bytes()
}

/// The conic of a place among all with coefficients -2 to 2.
pub fn small_conic(place: u64) -> [i64; 6] {
    std::array::from_fn(|i| (place / 5u64.pow(5 - i as u32) % 5) as i64 - 2)
}

/// Six numbers of a kind; Malformed and Mixed give Random ones.
pub fn conic(kind: Kind, prng: &mut Prng) -> [i64; 6] {
    match kind {
        Kind::Small => small_conic(prng.below(15_625)),
        Kind::Random | Kind::Malformed | Kind::Mixed => random(prng),
        Kind::Circle => circle(prng),
        Kind::Parabola => until_in_range(prng, parabola),
        Kind::Hyperbola => until_in_range(prng, hyperbola),
        Kind::Diagonal => diagonal(prng),
        Kind::Degenerate => until_in_range(prng, degenerate),
        Kind::Outside => outside(prng),
    }
}

fn until_in_range(prng: &mut Prng, draw: fn(&mut Prng) -> [i64; 6]) -> [i64; 6] {
    loop {
        let six = draw(prng);
        if in_range(six) {
            return six;
        }
    }
}

fn random(prng: &mut Prng) -> [i64; 6] {
    let mixture = prng.below(6);
    std::array::from_fn(|_| match mixture {
        0 | 1 => prng.between(-40, 40),
        2 => prng.between(-3, 3),
        3 => prng.between(-40, 40) * prng.between(0, 1),
        4 => prng.between(31, 40) * prng.pick(&[-1, 1]),
        _ => {
            let end = prng.pick(&[0, 1, 5, 40]);
            prng.between(-end, end)
        }
    })
}

fn circle(prng: &mut Prng) -> [i64; 6] {
    let end = prng.pick(&[1, 5, 40]);
    let a = prng.between(1, end) * prng.pick(&[-1, 1]);
    let [d, e, f] = std::array::from_fn(|_| prng.between(-40, 40) * prng.between(0, 1));
    [a, 0, a, d, e, f]
}

/// m times the square of (ux + vy), and any d, e, f.
fn parabola(prng: &mut Prng) -> [i64; 6] {
    let m = prng.between(1, 10) * prng.pick(&[-1, 1]);
    let (u, v) = (prng.between(-6, 6), prng.between(-6, 6));
    let [d, e, f] = std::array::from_fn(|_| prng.between(-40, 40) * prng.between(0, 1));
    [m * u * u, 2 * m * u * v, m * v * v, d, e, f]
}

/// The product of two forms in x and y, and any d, e, f.
fn hyperbola(prng: &mut Prng) -> [i64; 6] {
    let [u, v, s, t] = std::array::from_fn(|_| prng.between(-7, 7));
    let [d, e, f] = std::array::from_fn(|_| prng.between(-40, 40) * prng.between(0, 1));
    [u * s, u * t + v * s, v * t, d, e, f]
}

fn diagonal(prng: &mut Prng) -> [i64; 6] {
    let [a, c, f] = std::array::from_fn(|_| prng.between(1, 40) * prng.pick(&[-1, 1]));
    [a, 0, c, 0, 0, f]
}

/// Two lines, a double line, a lone point or a single line.
fn degenerate(prng: &mut Prng) -> [i64; 6] {
    let first: [i64; 3] = std::array::from_fn(|_| prng.between(-6, 6));
    let second: [i64; 3] = std::array::from_fn(|_| prng.between(-6, 6));
    match prng.below(4) {
        0 => product(first, second),
        1 => product(first, first),
        2 => {
            let (one, two) = (product(first, first), product(second, second));
            let (m, n) = (prng.between(-4, 4), prng.between(-4, 4));
            std::array::from_fn(|i| m * one[i] + n * two[i])
        }
        _ => [
            0,
            0,
            0,
            prng.between(-40, 40),
            prng.between(-40, 40),
            prng.between(-40, 40),
        ],
    }
}

/// The six coefficients of a product of two forms in x, y, z.
fn product(one: [i64; 3], two: [i64; 3]) -> [i64; 6] {
    let both = |i: usize, j: usize| one[i] * two[j] + one[j] * two[i];
    let square = |i: usize| one[i] * two[i];
    [
        square(0),
        both(0, 1),
        square(1),
        both(0, 2),
        both(1, 2),
        square(2),
    ]
}

fn outside(prng: &mut Prng) -> [i64; 6] {
    let mut six = random(prng);
    for _ in 0..prng.between(1, 3) {
        let size = prng.pick(&[41, 42, 100, 128, 256, 65_536, 99_999, 999_999]);
        let place = prng.below(6) as usize;
        six[place] = size * prng.pick(&[-1, 1]);
    }
    six
}
