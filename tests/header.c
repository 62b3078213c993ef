/*
 * Every constant of canon.h at its edge: were one another number, some call below would give another answer than the
 * header says. Written in what C and C++ have in common, and compiled as both (tests/run). ENOUGH, which the compiler is
 * handed, is the room that the library itself calls enough for every printed answer.
 */
#include "../include/canon.h"

#include <stdio.h>

#ifdef __cplusplus
#define LANGUAGE "C++"
#else
#define LANGUAGE "C"
#endif

#define ABOVE (CANON_ROWS + 1)
#define LABEL 8

static int16_t table[ABOVE * ABOVE], read_table[CANON_PLACES];
static uint32_t given[2], adds[ABOVE], stars[ABOVE];
static int32_t heads[ABOVE], sum;
static uint8_t rows[CANON_LABELS], cols[CANON_LABELS], long_sheet[CANON_SHEET + 1], page[CANON_PRINTED];
static size_t n_read, line, length;
static int failed;

static const uint8_t small_sheet[] = "rows 1\na\ncols 1\nb\norders 0\n";
#define SMALL small_sheet, sizeof small_sheet - 1

static void expect(const char *call, uint32_t gave, uint32_t wanted) {
    if (gave == wanted) return;
    printf("header: %s: %u, where canon.h says %u\n", call, (unsigned)gave, (unsigned)wanted);
    failed = 1;
}

/* The table of 2 rows a b / c d. */
static void set_table(int16_t a, int16_t b, int16_t c, int16_t d) {
    table[0] = a;
    table[1] = b;
    table[2] = c;
    table[3] = d;
}

static uint32_t solve(size_t n) {
    return canon_solve(n, table, n * n, adds, n, stars, n, heads, n, &sum);
}

static uint32_t from_canon(uint32_t first, uint32_t second) {
    given[0] = first;
    given[1] = second;
    return canon_from_canon(2, table, 4, given, 2, adds, 2, stars, 2, heads, 2, &sum);
}

static uint32_t from_stars(uint32_t first, uint32_t second) {
    given[0] = first;
    given[1] = second;
    return canon_from_stars(2, table, 4, given, 2, adds, 2, stars, 2, heads, 2, &sum);
}

static uint32_t column_heads(uint32_t first, uint32_t second) {
    given[0] = first;
    given[1] = second;
    return canon_column_heads(2, table, 4, given, 2, heads, 2, adds, 2, stars, 2);
}

static uint32_t read_small(size_t places, size_t labels) {
    return canon_read_sheet(SMALL, read_table, places, rows, labels, cols, labels, &n_read, &line);
}

static uint32_t write_small(size_t room) {
    return canon_write_sheet(1, table, 1, rows, LABEL, cols, LABEL, page, room, &length);
}

static uint32_t read_long(size_t bytes) {
    return canon_read_sheet(long_sheet, bytes, read_table, CANON_PLACES, rows, CANON_LABELS, cols, CANON_LABELS, &n_read, &line);
}

static void check_tables(void) {
    expect("as many rows as may be", solve(CANON_ROWS), 0);
    expect("one row more", solve(CANON_ROWS + 1), CANON_SIZE);
    expect("a list too short", canon_solve(1, table, 1, adds, 0, stars, 1, heads, 1, &sum), CANON_LENGTH);
    set_table(0, 0, 101, 0);
    expect("an entry of 101", solve(2), CANON_ENTRY);
    expect("the same for the heads of columns", column_heads(0, 0), CANON_ENTRY);
    set_table(CANON_ABSENT, CANON_ABSENT, 0, 0);
    expect("a row with all absent", solve(2), CANON_NO_TRANSVERSAL);
    expect("the same for the heads of columns", column_heads(10000, 10000), 0);
    expect("with an addition of 10,001", column_heads(0, 10001), CANON_ADDITION);
    set_table(5, 0, 0, 5);
    expect("an addition of 10,001", from_canon(10001, 0), CANON_ADDITION);
    expect("additions 9 0 to 5 0 / 0 5", from_canon(9, 0), CANON_NO_CANON);
    expect("stars 1 1", from_stars(1, 1), CANON_STAR_LIST);
    expect("stars 2 1 in 5 0 / 0 5", from_stars(2, 1), CANON_NOT_GREATEST);
}

static void check_sheets(void) {
    expect("writing with no labels", write_small(CANON_PRINTED), CANON_LABEL);
    expect("the table and the label buffers that the reader wants", read_small(CANON_PLACES, CANON_LABELS), 0);
    expect("a table one entry shorter", read_small(CANON_PLACES - 1, CANON_LABELS), CANON_LENGTH);
    expect("label buffers one byte shorter", read_small(CANON_PLACES, CANON_LABELS - 1), CANON_LENGTH);
    expect("writing into no room", write_small(0), CANON_ROOM);
    expect("a wrong sheet as long as may be", read_long(CANON_SHEET), CANON_LINE);
    expect("one byte more", read_long(CANON_SHEET + 1), CANON_TOO_LONG);
    expect("the room that is enough", ENOUGH, CANON_PRINTED);
    expect("an answer printed into it", canon_print(SMALL, page, CANON_PRINTED, &length), 0);
}

int main(void) {
    check_tables();
    check_sheets();
    if (!failed) printf("header: every constant of canon.h stands, in " LANGUAGE "\n");
    return failed;
}
