//! Direction to point and point to direction, from a base point.

use crate::conic::{Conic, Triple};
use crate::point::{normal_direction, Direction, Point};
use crate::solve::second_point;

/// The point of a direction, or the first refusal of 1, 2, 5, 6, 7.
pub fn direction_to_point(six: [i64; 6], base: Point, direction: Direction) -> Result<Point, u32> {
    let conic = conic_with_base(six, base)?;
    if !direction.is_legal() {
        return Err(7);
    }
    let pair = [direction.u, direction.v].map(i128::from);
    Ok(Point::narrow(point_step(&conic, base.triple(), pair)))
}

/// The direction of a target, or the first refusal of 1, 2, 5, 6, 8, 9.
pub fn point_to_direction(six: [i64; 6], base: Point, target: Point) -> Result<Direction, u32> {
    let conic = conic_with_base(six, base)?;
    if !target.is_legal_target() {
        return Err(8);
    }
    if conic.value(target.triple()) != 0 {
        return Err(9);
    }
    let pair = direction_step(&conic, base.triple(), target.triple());
    Ok(Direction::narrow(pair))
}

/// The conic with a base on it, or the first refusal of 1, 2, 5, 6.
fn conic_with_base(six: [i64; 6], base: Point) -> Result<Conic, u32> {
    let conic = Conic::judged(six)?;
    if !base.is_legal_base() {
        return Err(5);
    }
    if conic.value(base.triple()) != 0 {
        return Err(6);
    }
    Ok(conic)
}

/// The step from a direction to its point, without limits.
pub fn point_step(conic: &Conic, base: Triple, pair: [i128; 2]) -> Triple {
    second_point(conic, base, [pair[0], pair[1], 0])
}

/// The step from a target to its direction, without limits; the base's own
/// direction is the tangent.
pub fn direction_step(conic: &Conic, base: Triple, target: Triple) -> [i128; 2] {
    if base == target {
        let [by_x, by_y, _] = conic.partials(base);
        return normal_direction([by_y, -by_x]);
    }
    let [px, py, pz] = base;
    let [qx, qy, qz] = target;
    normal_direction([qx * pz - px * qz, qy * pz - py * qz])
}
