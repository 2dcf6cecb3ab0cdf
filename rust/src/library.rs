//! The library's six functions, as c/conic.h declares them.

#[link(name = "conic_c", kind = "static")]
extern "C" {
    pub fn conic_solve(
        a: i64,
        b: i64,
        c: i64,
        d: i64,
        e: i64,
        f: i64,
        point: *mut [i64; 3],
        prime: *mut u64,
    ) -> i64;

    pub fn conic_point(
        a: i64,
        b: i64,
        c: i64,
        d: i64,
        e: i64,
        f: i64,
        px: i64,
        py: i64,
        pz: i64,
        u: i64,
        v: i64,
        point: *mut [i64; 3],
    ) -> i64;

    pub fn conic_direction(
        a: i64,
        b: i64,
        c: i64,
        d: i64,
        e: i64,
        f: i64,
        px: i64,
        py: i64,
        pz: i64,
        qx: i64,
        qy: i64,
        qz: i64,
        direction: *mut [i64; 2],
    ) -> i64;

    pub fn conic_row(text: *const u8, text_length: usize, out: *mut u8, out_length: usize) -> i64;

    pub fn conic_book_write(
        list: *const u8,
        list_length: usize,
        book: *mut u8,
        book_length: usize,
    ) -> i64;

    pub fn conic_book_read(
        book: *const u8,
        book_length: usize,
        number: u64,
        conic: *mut [i64; 6],
        point: *mut [i64; 3],
        prime: *mut u64,
    ) -> i64;
}
