/* Calls each function once for each kind of code and prints the code with every place: 77 stands where nothing was written. */
#include <inttypes.h>
#include <stdio.h>
#include <string.h>

#include "conic.h"

static int64_t conic[6], point[3], direction[2];
static uint64_t prime;
static uint8_t bytes[64];

static void fresh(void)
{
    for (int i = 0; i < 6; i++)
        conic[i] = 77;
    for (int i = 0; i < 3; i++)
        point[i] = 77;
    direction[0] = direction[1] = 77;
    prime = 77;
    memset(bytes, 77, sizeof bytes);
}

static void numbers(const char *name, const int64_t *n, int count)
{
    printf(" %s", name);
    for (int i = 0; i < count; i++)
        printf(" %" PRId64, n[i]);
}

static void solve(int64_t a, int64_t c, int64_t f)
{
    fresh();
    printf("solve %" PRId64, conic_solve(a, 0, c, 0, 0, f, point, &prime));
    numbers("point", point, 3);
    printf(" prime %" PRIu64 "\n", prime);
}

/* On the unit circle, from (1, 0, 1). */
static void point_to(int64_t u, int64_t v)
{
    fresh();
    printf("point %" PRId64, conic_point(1, 0, 1, 0, 0, -1, 1, 0, 1, u, v, point));
    numbers("point", point, 3);
    printf("\n");
}

static void direction_to(int64_t x, int64_t y, int64_t z)
{
    fresh();
    printf("direction %" PRId64, conic_direction(1, 0, 1, 0, 0, -1, 1, 0, 1, x, y, z, direction));
    numbers("direction", direction, 2);
    printf("\n");
}

static void row(const char *text, size_t room)
{
    fresh();
    printf("row %" PRId64 " ", conic_row((const uint8_t *)text, strlen(text), bytes, room));
    for (int i = 0; i < 12; i++)
        printf("%02x", bytes[i]);
    printf("\n");
}

static void book_write(const int8_t *list, size_t length, size_t room)
{
    fresh();
    printf("book_write %" PRId64 " ", conic_book_write((const uint8_t *)list, length, bytes, room));
    for (int i = 0; i < 12; i++)
        printf("%02x", bytes[i]);
    printf("\n");
}

static void book_read(const uint8_t *book, size_t length, uint64_t number)
{
    fresh();
    printf("book_read %" PRId64, conic_book_read(book, length, number, conic, point, &prime));
    numbers("conic", conic, 6);
    numbers("point", point, 3);
    printf(" prime %" PRIu64 "\n", prime);
}

int main(void)
{
    static const int8_t list[] = {1, 0, 1, 0, 0, -1, 1, 0, 1, 0, 0, 3, 1, 0, 1, 0, 0, -3, 1, 0, 1, 0, 0, 0};
    static uint8_t book[64];

    solve(1, 1, -1);
    solve(1, 1, 3);
    solve(1, 1, -3);
    solve(41, 0, 0);
    solve(INT64_MIN, 0, 0);
    solve(1, 1, 0);
    point_to(1, -2);
    point_to(0, 0);
    direction_to(3, 4, 5);
    direction_to(1, 0, 1);
    direction_to(3, 4, 6);
    row("1 1 1 1 0 -1", sizeof bytes);
    row("1 0 1", sizeof bytes);
    row("1 1 1 1 0 -1", 39);
    book_write(list + 6, 6, sizeof bytes);
    book_write(NULL, 0, sizeof bytes);
    book_write(list, 6, 22);
    book_write(list, 5, sizeof bytes);
    size_t length = (size_t)conic_book_write((const uint8_t *)list, sizeof list, book, sizeof book);
    for (uint64_t number = 0; number < 5; number++)
        book_read(book, length, number);
    book_read(book, length - 1, 0);
    book_read(NULL, 0, 0);
    return 0;
}
