//! The proved library, called through its C form. Every lent place is filled with a mark first, and each
//! call looks that exactly the places named for its code were written.

use second::{Answer, Direction, Point, Reason, Stored, StoredAnswer};

extern "C" {
    #[rustfmt::skip]
    fn conic_solve(a: i64, b: i64, c: i64, d: i64, e: i64, f: i64, point: *mut [i64; 3], prime: *mut u64) -> i64;
    #[rustfmt::skip]
    fn conic_point(a: i64, b: i64, c: i64, d: i64, e: i64, f: i64, px: i64, py: i64, pz: i64,
        u: i64, v: i64, point: *mut [i64; 3]) -> i64;
    #[rustfmt::skip]
    fn conic_direction(a: i64, b: i64, c: i64, d: i64, e: i64, f: i64, px: i64, py: i64, pz: i64,
        qx: i64, qy: i64, qz: i64, direction: *mut [i64; 2]) -> i64;
    fn conic_row(text: *const u8, text_length: usize, out: *mut u8, out_length: usize) -> i64;
    fn conic_book_write(list: *const u8, list_length: usize, book: *mut u8, book_length: usize) -> i64;
    #[rustfmt::skip]
    fn conic_book_read(book: *const u8, length: usize, number: u64, conic: *mut [i64; 6],
        point: *mut [i64; 3], prime: *mut u64) -> i64;
}

const MARK: i64 = 0x5a5a_a5a5_1234_4321;
const MARKED: u64 = 0xa5a5_5a5a_4321_1234;

/// What a call wrote, or how it broke its promise.
pub type Called<T> = Result<T, String>;

fn untouched<const N: usize>(place: &[i64; N], name: &str) -> Called<()> {
    if place.iter().all(|n| *n == MARK) {
        return Ok(());
    }
    Err(format!("{name} was written: {place:?}"))
}

fn unnamed(prime: u64) -> Called<()> {
    if prime == MARKED {
        return Ok(());
    }
    Err(format!("prime was written: {prime}"))
}

fn point_of(place: [i64; 3]) -> Point {
    Point::new(place[0], place[1], place[2])
}

pub fn solve(six: [i64; 6]) -> Called<Answer> {
    let [a, b, c, d, e, f] = six;
    let (mut point, mut prime) = ([MARK; 3], MARKED);
    // The places are valid, apart, and live through the call.
    let code = unsafe { conic_solve(a, b, c, d, e, f, &mut point, &mut prime) };
    if code != 1 {
        untouched(&point, "point")?;
    }
    if code != 3 {
        unnamed(prime)?;
    }
    match code {
        1 => Ok(Answer::Point(point_of(point))),
        2 => Ok(Answer::None(Reason::Sign)),
        3 => Ok(Answer::None(Reason::Prime(prime))),
        _ => Ok(Answer::Refusal(refusal(code)?)),
    }
}

fn refusal(code: i64) -> Called<u32> {
    if (-16..0).contains(&code) {
        return Ok(-code as u32);
    }
    Err(format!("no refusal: {code}"))
}

pub fn point(six: [i64; 6], base: Point, direction: Direction) -> Called<Result<Point, u32>> {
    let [a, b, c, d, e, f] = six;
    let (Point { x, y, z }, Direction { u, v }) = (base, direction);
    let mut point = [MARK; 3];
    let code = unsafe { conic_point(a, b, c, d, e, f, x, y, z, u, v, &mut point) };
    if code == 0 {
        return Ok(Ok(point_of(point)));
    }
    untouched(&point, "point")?;
    Ok(Err(refusal(code)?))
}

pub fn direction(six: [i64; 6], base: Point, target: Point) -> Called<Result<Direction, u32>> {
    let [a, b, c, d, e, f] = six;
    let (p, q) = (base, target);
    let mut to = [MARK; 2];
    let code = unsafe { conic_direction(a, b, c, d, e, f, p.x, p.y, p.z, q.x, q.y, q.z, &mut to) };
    if code == 0 {
        return Ok(Ok(Direction::new(to[0], to[1])));
    }
    untouched(&to, "direction")?;
    Ok(Err(refusal(code)?))
}

/// The length or the refusal; `out` is left to the caller to look at.
pub fn row(text: &[u8], out: &mut [u8]) -> Called<Result<usize, u32>> {
    let code = unsafe { conic_row(text.as_ptr(), text.len(), out.as_mut_ptr(), out.len()) };
    length(code)
}

pub fn write_book(list: &[u8], book: &mut [u8]) -> Called<Result<usize, u32>> {
    let code = unsafe { conic_book_write(list.as_ptr(), list.len(), book.as_mut_ptr(), book.len()) };
    length(code)
}

fn length(code: i64) -> Called<Result<usize, u32>> {
    if code >= 0 {
        return Ok(Ok(code as usize));
    }
    Ok(Err(refusal(code)?))
}

pub fn read_book(book: &[u8], number: u64) -> Called<Result<Stored, u32>> {
    let (mut six, mut point, mut prime) = ([MARK; 6], [MARK; 3], MARKED);
    let (bytes, length) = (book.as_ptr(), book.len());
    let code = unsafe { conic_book_read(bytes, length, number, &mut six, &mut point, &mut prime) };
    if code != 1 {
        untouched(&point, "point")?;
    }
    if code != 3 {
        unnamed(prime)?;
    }
    let answer = match code {
        1 => StoredAnswer::Point(point_of(point)),
        2 => StoredAnswer::None(Reason::Sign),
        3 => StoredAnswer::None(Reason::Prime(prime)),
        4 => StoredAnswer::Degenerate,
        _ => {
            untouched(&six, "conic")?;
            return Ok(Err(refusal(code)?));
        }
    };
    Ok(Ok(Stored { six, answer }))
}
