//! Prints a point, a none with its prime, and a refusal.
use conic::{solve, Answer, Conic, Reason};

fn show([a, b, c, d, e, f]: [i64; 6]) {
    match solve(Conic { a, b, c, d, e, f }) {
        Ok(Answer::Point(p)) => println!("point {} {} {}", p.x, p.y, p.z),
        Ok(Answer::None(Reason::Sign)) => println!("none, by sign"),
        Ok(Answer::None(Reason::Prime(prime))) => println!("none, by the prime {prime}"),
        Err(refusal) => println!("refusal {}", refusal.number),
    }
}

fn main() {
    show([1, 1, 1, 1, 0, -1]);
    show([1, 0, 1, 0, 0, -3]);
    show([41, 0, 0, 0, 0, 0]);
}
