//! The two direction steps: legal and illegal bases, directions and targets; every rational point of small conics.

use crate::conics::EDGES;
use crate::library;
use crate::tally::Tally;
use second::generate::{conic, small_conic, Kind};
use second::prng::Prng;
use second::{Answer, Direction, Point};

const KINDS: [Kind; 6] = [Kind::Random, Kind::Circle, Kind::Parabola, Kind::Hyperbola, Kind::Diagonal, Kind::Outside];

pub fn random(tally: &mut Tally, count: u64, seed: u64) {
    let mut prng = Prng::new(seed);
    for _ in 0..count {
        let kind = prng.pick(&KINDS);
        let six = conic(kind, &mut prng);
        let base = some_base(six, &mut prng);
        let to = some_direction(&mut prng);
        both(tally, six, base, to);
        both(tally, six, base, spoilt_direction(to, &mut prng));
        let target = some_target(six, base, &mut prng);
        target_of(tally, six, base, target);
        target_of(tally, six, base, spoilt(target, &mut prng));
        both(tally, six, spoilt(base, &mut prng), to);
        target_of(tally, six, spoilt(base, &mut prng), target);
    }
    tally.report(&format!("directions and targets, seed {seed}"));
}

fn both(tally: &mut Tally, six: [i64; 6], base: Point, to: Direction) {
    let theirs = second::direction_to_point(six, base, to);
    tally.same(&(six, base, to), library::point(six, base, to), theirs);
    if let Ok(target) = theirs {
        target_of(tally, six, base, target);
    }
}

fn target_of(tally: &mut Tally, six: [i64; 6], base: Point, target: Point) {
    let ours = library::direction(six, base, target);
    tally.same(&(six, base, target), ours, second::point_to_direction(six, base, target));
}

fn some_base(six: [i64; 6], prng: &mut Prng) -> Point {
    match second::solve(six) {
        Answer::Point(p) => p,
        _ => Point::new(prng.between(-9, 9), prng.between(-9, 9), prng.between(-2, 9)),
    }
}

fn some_direction(prng: &mut Prng) -> Direction {
    let most = prng.pick(&[2, 10, 10_000]);
    Direction::new(prng.between(-most, most), prng.between(-most, most))
}

/// Another point of the conic where there is one.
fn some_target(six: [i64; 6], base: Point, prng: &mut Prng) -> Point {
    let most = prng.pick(&[1, 3, 20]);
    let to = Direction::new(prng.between(-most, most), prng.between(-most, most));
    second::direction_to_point(six, base, to).unwrap_or(base)
}

fn spoilt_direction(to: Direction, prng: &mut Prng) -> Direction {
    match prng.below(4) {
        0 => Direction::new(0, 0),
        1 => Direction::new(prng.pick(&EDGES), to.v),
        2 => Direction::new(to.u, prng.pick(&EDGES)),
        _ => Direction::new(10_001, to.v),
    }
}

fn spoilt(p: Point, prng: &mut Prng) -> Point {
    match prng.below(7) {
        0 => Point::new(0, 0, 0),
        1 => Point::new(p.x, p.y, 0),
        2 => Point::new(p.x.wrapping_neg(), p.y.wrapping_neg(), p.z.wrapping_neg()),
        3 => Point::new(p.x.wrapping_mul(2), p.y.wrapping_mul(2), p.z.wrapping_mul(2)),
        4 => Point::new(prng.pick(&EDGES), p.y, p.z),
        5 => Point::new(p.x, prng.pick(&EDGES), p.z),
        _ => Point::new(p.x, p.y, prng.pick(&EDGES)),
    }
}

/// Every triple of small numbers handed in as a target, and every small direction, from each small conic's own point.
pub fn every_point(tally: &mut Tally, step: usize) {
    for place in (0..15_625).step_by(step) {
        let six = small_conic(place);
        if let Answer::Point(base) = second::solve(six) {
            small_targets(tally, six, base);
        }
    }
    tally.report("every small point of small conics");
}

fn small_targets(tally: &mut Tally, six: [i64; 6], base: Point) {
    for x in -3..=3 {
        for y in -3..=3 {
            both(tally, six, base, Direction::new(x, y));
            for z in 0..=3 {
                target_of(tally, six, base, Point::new(x, y, z));
            }
        }
    }
}
