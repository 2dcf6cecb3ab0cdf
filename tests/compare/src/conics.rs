//! Solve: small conics, conics in range of every kind, conics out of range, extreme numbers.

use crate::library;
use crate::tally::Tally;
use second::generate::{conic, small_conic, Kind};
use second::prng::Prng;

/// Numbers at the edges of ranges and types.
pub const EDGES: [i64; 14] = [
    0, 1, -1, 40, -40, 41, -41, 127, -128, 160_000_000, 4_294_967_296, -4_294_967_297, i64::MAX, i64::MIN,
];

pub fn small(tally: &mut Tally) {
    for place in 0..15_625 {
        one(tally, small_conic(place));
    }
    tally.report("all conics with coefficients -2 to 2");
}

pub fn of_kind(tally: &mut Tally, name: &str, kind: Kind, count: u64, seed: u64) {
    let mut prng = Prng::new(seed);
    for _ in 0..count {
        one(tally, conic(kind, &mut prng));
    }
    tally.report(&format!("conics, {name}, seed {seed}"));
}

pub fn extreme(tally: &mut Tally, count: u64, seed: u64) {
    let mut prng = Prng::new(seed);
    for place in 0..6 {
        for edge in EDGES {
            let mut six = [1, 0, 1, 0, 0, -1];
            six[place] = edge;
            one(tally, six);
        }
    }
    for _ in 0..count {
        one(tally, std::array::from_fn(|_| prng.pick(&EDGES)));
    }
    tally.report(&format!("extreme conics, seed {seed}"));
}

fn one(tally: &mut Tally, six: [i64; 6]) {
    tally.same(&six, library::solve(six), second::solve(six));
}
