//! The second program: the paper's rules for conics, written once more from the
//! paper alone and by other means than the proved library, to be compared with it.
//!
//! - numbers: binary gcd, Miller-Rabin, Pollard's rho, residues by powers;
//! - sign: by the signs of the eigenvalues of the form's matrix;
//! - the point: by a plain walk through the whole box.

#![forbid(unsafe_code)]

pub mod book;
pub mod conic;
pub mod direction;
pub mod factor;
pub mod faults;
pub mod generate;
pub mod level;
pub mod number;
pub mod point;
pub mod prng;
pub mod row;
pub mod search;
pub mod solve;

pub use book::{read_book, write_book, Stored, StoredAnswer};
pub use conic::Conic;
pub use direction::{direction_to_point, point_to_direction};
pub use point::{Direction, Point};
pub use row::{row_into_buffer, row_text, whole_output};
pub use solve::{solve, Answer, Reason};
