//! Direction to point and point to direction: examples, refusals and round trips.

use second::direction::{direction_step, point_step};
use second::generate::{conic, Kind};
use second::point::{normal_direction, normal_form};
use second::prng::Prng;
use second::{direction_to_point, point_to_direction, solve, Answer, Conic, Direction, Point};

const CIRCLE: [i64; 6] = [1, 0, 1, 0, 0, -1];
const HYPERBOLA: [i64; 6] = [0, 1, 0, 0, 0, -1];

#[test]
fn the_papers_examples() {
    let base = Point::new(1, 0, 1);
    for (u, v, x, y, z) in [(1, -2, 3, 4, 5), (1, 0, -1, 0, 1), (0, 1, 1, 0, 1)] {
        let (direction, point) = (Direction::new(u, v), Point::new(x, y, z));
        assert_eq!(direction_to_point(CIRCLE, base, direction), Ok(point));
        assert_eq!(point_to_direction(CIRCLE, base, point), Ok(direction));
        let multiple = Direction::new(-7 * u, -7 * v);
        assert_eq!(direction_to_point(CIRCLE, base, multiple), Ok(point));
    }
    let (base, far) = (Point::new(1, 1, 1), Point::new(1, 0, 0));
    assert_eq!(
        direction_to_point(HYPERBOLA, base, Direction::new(1, 0)),
        Ok(far)
    );
    assert_eq!(
        point_to_direction(HYPERBOLA, base, far),
        Ok(Direction::new(1, 0))
    );
}

const BASE: Point = Point::new(1, 0, 1);
const OFF: Point = Point::new(1, 1, 1);
const DOUBLED: Point = Point::new(2, 0, 2);

#[test]
fn refusals_of_the_conic_and_the_base() {
    let (zero, origin) = (Direction::new(0, 0), Point::new(0, 0, 0));
    for (six, base, number) in [
        ([1, 0, 1, 0, 0, -41], DOUBLED, 1),
        ([i64::MIN; 6], DOUBLED, 1),
        ([1, 0, 1, 0, 0, 0], DOUBLED, 2),
        (CIRCLE, DOUBLED, 5),
        (CIRCLE, origin, 5),
        (CIRCLE, Point::new(1, 0, 0), 5),
        (CIRCLE, Point::new(-1, 0, -1), 5),
        (CIRCLE, Point::new(160_000_001, 0, 1), 5),
        (CIRCLE, Point::new(i64::MIN, i64::MIN, i64::MIN), 5),
        (CIRCLE, OFF, 6),
    ] {
        assert_eq!(direction_to_point(six, base, zero), Err(number));
        assert_eq!(point_to_direction(six, base, origin), Err(number));
    }
}

#[test]
fn refusals_of_directions() {
    for (u, v) in [(0, 0), (10_001, 1), (1, -10_001), (i64::MIN, 0)] {
        let direction = Direction::new(u, v);
        assert_eq!(direction_to_point(CIRCLE, BASE, direction), Err(7));
    }
}

#[test]
fn refusals_of_targets() {
    for (target, number) in [
        (DOUBLED, 8),
        (Point::new(0, 0, 0), 8),
        (Point::new(0, -1, 0), 8),
        (Point::new(0, 1, -1), 8),
        (Point::new(1, 0, 160_000_001), 8),
        (Point::new(i64::MIN, 0, 1), 8),
        (OFF, 9),
        (Point::new(1, 0, 0), 9),
    ] {
        let given = point_to_direction(CIRCLE, BASE, target);
        assert_eq!(given, Err(number), "{target:?}");
    }
}

#[test]
fn bases_and_directions_at_the_limits() {
    let parabola = [1, 0, 0, 0, -1, 0];
    let base = Point::new(12_649, 159_997_201, 1);
    for (u, v) in [
        (10_000, 10_000),
        (-10_000, 9_999),
        (9_999, -10_000),
        (1, -10_000),
    ] {
        let target = direction_to_point(parabola, base, Direction::new(u, v)).expect("a point");
        assert!(is_on(parabola, target.triple()));
        let back = direction_step(&Conic::new(parabola), base.triple(), target.triple());
        assert_eq!(back, normal_direction([u, v].map(i128::from)));
    }
    let far = Point::new(-12_649, 159_997_201, 1);
    assert_eq!(
        point_to_direction(parabola, base, far),
        Ok(Direction::new(1, 0))
    );
    let tangent = Ok(Direction::new(1, 25_298));
    assert_eq!(point_to_direction(parabola, base, base), tangent);
}

/// Is the triple on the conic? Exact for sizes past 128 bits: the value stays below
/// 2^140, and is looked at modulo 2^128 and modulo a prime of 31 bits.
fn is_on(six: [i64; 6], [x, y, z]: [i128; 3]) -> bool {
    let powers = [(x, x), (x, y), (y, y), (x, z), (y, z), (z, z)];
    let mut low = 0i128;
    let mut left = 0i128;
    let prime = 2_147_483_647;
    for (coefficient, (m, n)) in six.into_iter().zip(powers) {
        let c = i128::from(coefficient);
        low = low.wrapping_add(c.wrapping_mul(m).wrapping_mul(n));
        left = (left + c * (m % prime) % prime * (n % prime)) % prime;
    }
    low == 0 && left == 0
}

#[test]
fn round_trips_from_random_bases() {
    let mut prng = Prng::new(21);
    let kinds = [
        Kind::Random,
        Kind::Circle,
        Kind::Parabola,
        Kind::Hyperbola,
        Kind::Small,
    ];
    let (mut tried, mut legal_targets) = (0, 0);
    while tried < 3_000 {
        let six = conic(prng.pick(&kinds), &mut prng);
        let Answer::Point(base) = solve(six) else {
            continue;
        };
        tried += 1;
        legal_targets += trips_from(six, base, &mut prng);
    }
    assert!(legal_targets > 3_000);
}

/// Several trips from one base; how many came to a legal target.
fn trips_from(six: [i64; 6], base: Point, prng: &mut Prng) -> usize {
    let whole = Conic::new(six);
    let mut legal = 0;
    let tangent = point_to_direction(six, base, base).expect("the base has a tangent");
    let pair = [tangent.u, tangent.v].map(i128::from);
    assert_eq!(point_step(&whole, base.triple(), pair), base.triple());
    for end in [1, 1, 3, 100, 10_000, 10_000] {
        let (u, v) = (prng.between(-end, end), prng.between(-end, end));
        let direction = Direction::new(u, v);
        if (u, v) == (0, 0) {
            assert_eq!(direction_to_point(six, base, direction), Err(7));
            continue;
        }
        let target = direction_to_point(six, base, direction).expect("a point");
        assert!(
            is_on(six, target.triple()),
            "{six:?} {base:?} {direction:?}"
        );
        assert_eq!(normal_form(target.triple()), target.triple());
        let normal = normal_direction([u, v].map(i128::from));
        assert_eq!(
            direction_step(&whole, base.triple(), target.triple()),
            normal
        );
        match point_to_direction(six, base, target) {
            Ok(back) => {
                legal += 1;
                assert_eq!([back.u, back.v].map(i128::from), normal);
            }
            Err(number) => assert!(number == 8 && !target.is_legal_target()),
        }
    }
    legal
}

#[test]
fn all_small_points_are_reached() {
    for six in [CIRCLE, HYPERBOLA, [1, 1, 1, 0, 0, -7], [1, 2, 1, 1, 2, -2]] {
        let Answer::Point(base) = solve(six) else {
            panic!("a point");
        };
        let mut met = 0;
        for x in -30..=30 {
            for y in -30..=30 {
                for z in 0..=30 {
                    let target = Point::new(x, y, z);
                    let Ok(direction) = point_to_direction(six, base, target) else {
                        continue;
                    };
                    met += 1;
                    assert_eq!(direction_to_point(six, base, direction), Ok(target));
                }
            }
        }
        assert!(met > 5);
    }
}
