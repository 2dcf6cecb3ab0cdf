//! Solve: conic to a point, or none with its reason, or a refusal.

use crate::conic::{Conic, Triple};
use crate::level::level;
use crate::number::exact_root;
use crate::point::{normal_form, Point};
use crate::search::SearchBox;

/// Why a conic has no point.
#[derive(Clone, Copy, Debug, PartialEq, Eq)]
pub enum Reason {
    Sign,
    Prime(u64),
}

/// What solve gives.
#[derive(Clone, Copy, Debug, PartialEq, Eq)]
pub enum Answer {
    Point(Point),
    None(Reason),
    Refusal(u32),
}

/// The three trial lines, in their order.
const TRIAL_LINES: [Triple; 3] = [[0, 0, 1], [1, 0, 1], [0, 1, 1]];

/// Solves a row of six numbers.
pub fn solve(six: [i64; 6]) -> Answer {
    match Conic::judged(six) {
        Err(number) => Answer::Refusal(number),
        Ok(conic) => match root_of_minus_d(&conic) {
            Some(root) => Answer::Point(from_infinity(&conic, root)),
            None => by_levelling(&conic),
        },
    }
}

/// The r >= 0 with r^2 = -D, if there is one.
fn root_of_minus_d(conic: &Conic) -> Option<i128> {
    let minus_d = u64::try_from(-conic.d_number()).ok()?;
    exact_root(minus_d).map(i128::from)
}

/// The second point of a trial line through the point S at infinity.
fn from_infinity(conic: &Conic, root: i128) -> Point {
    let s = if conic.a == 0 {
        [1, 0, 0]
    } else {
        [root - conic.b, 2 * conic.a, 0]
    };
    let t = TRIAL_LINES
        .into_iter()
        .find(|t| conic.polar(s, *t) != 0)
        .expect("some trial line leaves the tangent");
    Point::narrow(second_point(conic, s, t))
}

/// G(T) times S minus L(S, T) times T, in normal form.
pub fn second_point(conic: &Conic, s: Triple, t: Triple) -> Triple {
    let (value, polar) = (conic.value(t), conic.polar(s, t));
    normal_form(std::array::from_fn(|i| value * s[i] - polar * t[i]))
}

/// The kinds that need the levelled equation.
fn by_levelling(conic: &Conic) -> Answer {
    if conic.is_definite() {
        return Answer::None(Reason::Sign);
    }
    let levelled = level(conic);
    if let Some(prime) = levelled.least_failing_prime() {
        return Answer::None(Reason::Prime(prime));
    }
    let found = SearchBox::new(levelled.p, levelled.g, levelled.q)
        .least()
        .expect("the box holds a solution when no prime fails");
    let x = levelled.t * i128::from(found.x);
    let y = levelled.s * levelled.t * levelled.g * i128::from(found.y);
    let w = levelled.s * i128::from(found.w);
    Answer::Point(carried_back(conic, x, y, w))
}

/// The conic's point of the numbers X', Y', W'.
fn carried_back(conic: &Conic, x: i128, y: i128, w: i128) -> Point {
    let (d_number, k) = (conic.d_number(), conic.k_number());
    Point::narrow(normal_form([
        2 * d_number * x - 2 * conic.b * y + conic.b * k * w - conic.d * d_number * w,
        4 * conic.a * y - 2 * conic.a * k * w,
        2 * conic.a * d_number * w,
    ]))
}
