//! Compares the proved library and program with the second program, on fixed seeds. Any difference ends the
//! run with its input.

mod books;
mod conics;
mod directions;
mod library;
mod rows;
mod tally;

use second::generate::Kind;
use tally::Tally;

fn main() {
    let program = std::env::args().nth(1).expect("the program's path");
    let mut tally = Tally::default();
    conics::small(&mut tally);
    conics::of_kind(&mut tally, "random", Kind::Random, 100_000, 1);
    conics::of_kind(&mut tally, "circles", Kind::Circle, 10_000, 2);
    conics::of_kind(&mut tally, "parabolas", Kind::Parabola, 10_000, 3);
    conics::of_kind(&mut tally, "hyperbolas", Kind::Hyperbola, 10_000, 4);
    conics::of_kind(&mut tally, "diagonal", Kind::Diagonal, 20_000, 5);
    conics::of_kind(&mut tally, "degenerate", Kind::Degenerate, 5_000, 6);
    conics::of_kind(&mut tally, "out of range", Kind::Outside, 20_000, 7);
    conics::extreme(&mut tally, 20_000, 8);
    directions::random(&mut tally, 12_000, 9);
    directions::every_point(&mut tally, 7);
    rows::through_library(&mut tally, "mixed", Kind::Mixed, 100_000, 10);
    rows::through_library(&mut tally, "malformed", Kind::Malformed, 20_000, 11);
    rows::through_program(&mut tally, &program, "random", Kind::Random, 200_000, 12);
    rows::through_program(&mut tally, &program, "malformed", Kind::Malformed, 20_000, 13);
    rows::whole(&mut tally, &program, 14);
    books::written(&mut tally, 1_000, 15);
    books::damaged(&mut tally);
    books::random(&mut tally, 400, 16);
    books::large(&mut tally, 17);
    println!("{} compared, no difference", tally.total());
}
