//! The paper's bench examples, and rows where a near miss of a rule would show.

use second::{solve, Answer, Point, Reason};

fn point(x: i64, y: i64, z: i64) -> Answer {
    Answer::Point(Point::new(x, y, z))
}

fn prime(n: u64) -> Answer {
    Answer::None(Reason::Prime(n))
}

#[test]
fn bench_examples() {
    for (six, answer) in [
        ([1, 0, 1, 0, 0, -1], point(0, 1, 1)),
        ([40, 0, 40, 0, 0, -40], point(0, 1, 1)),
        ([1, 0, 1, 0, 0, -21], prime(3)),
        ([1, 0, 1, 0, 0, 3], Answer::None(Reason::Sign)),
        ([2, 0, 3, 0, 0, -1], prime(3)),
        ([1, 0, -2, 0, 0, -3], prime(3)),
        ([1, 1, 1, 0, 0, -7], point(1, 2, 1)),
        ([1, 1, 1, 1, 0, -1], point(-4, 5, 3)),
        ([1, 2, 1, 1, 2, -2], point(-2, 2, 1)),
        ([0, 1, 0, 0, 0, -1], point(1, 1, 1)),
        ([1, 0, 0, 0, -1, 0], point(0, 0, 1)),
        ([1, 0, 1, 0, 0, 0], Answer::Refusal(2)),
    ] {
        assert_eq!(solve(six), answer, "{six:?}");
    }
}

#[test]
fn text_examples() {
    assert_eq!(solve([1, 0, 1, 0, 0, -3]), prime(3));
    assert_eq!(solve([41, 0, 0, 0, 0, 0]), Answer::Refusal(1));
}

#[test]
fn near_misses() {
    for (six, answer) in [
        // The bound on Y is a condition of its own.
        ([-13, 0, 1, 0, 0, -17], point(-1, -9, 2)),
        ([-11, 0, 2, 0, 0, -13], point(-1, -8, 3)),
        // The third condition is about -pq, not -pqg.
        ([3, 0, 3, 0, 0, -1], prime(3)),
        ([1, 0, -3, 0, 0, 1], prime(3)),
        ([2, 0, 3, 0, 0, -1], prime(3)),
        // Sign comes before primes, and both signs count.
        ([-1, 0, -1, 0, 0, -3], Answer::None(Reason::Sign)),
        // No point modulo powers of 2 either, but 2 never fails.
        ([1, 0, 1, 0, 0, -3], prime(3)),
    ] {
        assert_eq!(solve(six), answer, "{six:?}");
    }
}

#[test]
fn refusals_in_order() {
    for (six, number) in [
        ([0, 0, 0, 0, 0, 0], 2),
        ([0, 0, 0, 1, 1, 1], 2),
        ([0, 0, 0, 0, 0, 41], 1),
        ([0, 0, 0, 0, -41, 0], 1),
        ([i64::MIN, 0, 0, 0, 0, 0], 1),
        ([1, i64::MIN, 1, 0, 0, -1], 1),
        ([1, 0, 1, 0, 0, i64::MAX], 1),
        ([i64::MIN; 6], 1),
    ] {
        assert_eq!(solve(six), Answer::Refusal(number), "{six:?}");
    }
}
