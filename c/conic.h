/* Points on conics with whole coefficients.
 *
 * A conic is six numbers a, b, c, d, e, f, read as ax² + bxy + cy² + dxz + eyz + fz² = 0; a point is three numbers x, y, z.
 *
 * Every function returns a code. An answer is 0 or more; a refusal is negative, minus its number. Look at the code first: exactly the
 * places named for it are written, and every other place stays as it was. A none has no coordinates: for codes 2 and 3 the place of a
 * point still holds what the caller left there, and that is no point.
 *
 * Every number is taken: one that is out of range is refused. The caller owes only valid pointers: each place is the caller's to write
 * and has the size that is declared here, each slice is a pointer to as many bytes as its length says, and no two of them overlap. A
 * slice of length 0 may be null.
 *
 * Refusals: 1 a coefficient is out of range; 2 the conic is degenerate; 5 the base is out of limit or not in normal form with z > 0;
 * 6 the base is not on the conic; 7 the direction is (0, 0) or out of limit; 8 the target is out of limit or not in normal form; 9 the
 * target is not on the conic; 10 (only as the content of a row) the text is not a row of six numbers; 11 the buffer for a row is shorter
 * than 40 bytes; 12 a book's layout is broken; 13 a body in a book is not right; 14 the book needs more bytes than the buffer has; 15 the
 * list is not a multiple of 6 bytes, or is above 12,000; 16 the book has no conic of that number.
 */
#ifndef CONIC_H
#define CONIC_H

#include <stddef.h>
#include <stdint.h>

#ifdef __cplusplus
extern "C" {
#endif

enum {
    CONIC_POINT = 1,
    CONIC_NONE_BY_SIGN = 2,
    CONIC_NONE_BY_PRIME = 3,
    CONIC_DEGENERATE = 4
};

/* A point with z > 0, or none. CONIC_POINT: point is written. CONIC_NONE_BY_SIGN: nothing is. CONIC_NONE_BY_PRIME: prime is.
 * Refusals 1, 2. */
int64_t conic_solve(int64_t a, int64_t b, int64_t c, int64_t d, int64_t e, int64_t f, int64_t point[3], uint64_t *prime);

/* The point to which the direction (u, v) leads from the base (px, py, pz). 0: point is written. Refusals 1, 2, 5, 6, 7. */
int64_t conic_point(int64_t a, int64_t b, int64_t c, int64_t d, int64_t e, int64_t f, int64_t px, int64_t py, int64_t pz,
                    int64_t u, int64_t v, int64_t point[3]);

/* The direction that leads from the base (px, py, pz) to the target (qx, qy, qz). 0: direction is written. Refusals 1, 2, 5, 6, 8, 9. */
int64_t conic_direction(int64_t a, int64_t b, int64_t c, int64_t d, int64_t e, int64_t f, int64_t px, int64_t py, int64_t pz,
                        int64_t qx, int64_t qy, int64_t qz, int64_t direction[2]);

/* The row that answers a text row, "P x y z", "N sign", "N prime n" or "R n", with its line feed. The length: so many bytes of out are
 * written. Refusal 11 only: 10, 1 and 2 are the content of a row. */
int64_t conic_row(const uint8_t *text, size_t text_length, uint8_t *out, size_t out_length);

/* The book of a list of conics, six signed bytes each. The length: so many bytes of book are written. Refusals 15, 1, 14. */
int64_t conic_book_write(const uint8_t *list, size_t list_length, uint8_t *book, size_t book_length);

/* The conic of a number, from 0, with its stored answer. CONIC_POINT: conic and point are written. CONIC_NONE_BY_SIGN and
 * CONIC_DEGENERATE: conic is. CONIC_NONE_BY_PRIME: conic and prime are. Refusals 12, 13, 16. */
int64_t conic_book_read(const uint8_t *book, size_t book_length, uint64_t number, int64_t conic[6], int64_t point[3],
                        uint64_t *prime);

#ifdef __cplusplus
}
#endif

#endif
