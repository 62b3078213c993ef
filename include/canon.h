/*
 * canon.h: Jacobi's simplest canon of a square table of orders, for C and C++.
 *
 * The calls are those of the proved library; link them from the archive that `rt lib` makes in crates/exports
 * (crates/exports/out/libexports.a, for x86-64 Linux and processors of level x86-64-v2, as made since about 2009). They
 * keep no state, allocate nothing, call nothing outside the archive but memcpy and memset, and may be used from several
 * threads at once.
 *
 * THE TABLE. Rows are equations and columns unknowns, both numbered from 1. A table of N rows is N * N numbers, row by
 * row. CANON_ABSENT says that the unknown does not occur in the equation; every other number is an order.
 *
 * THE ANSWER. The additions (one for each row, zero or more) are the simplest canon: no canon has a smaller addition in
 * any row. The stars (one column for each row, from 1) are the first complete transversal of column maxima. The heads
 * (one for each column) are the largest raised orders. The ties (one for each column) say how many rows hold the head.
 * The sum is the total of the starred orders as they stand in the table: the count of starting values. The index figure,
 * which canon_print prints, is Pryce's structural index: the largest addition, plus one when some head is 0; in a table
 * with a negative order it is the largest addition.
 *
 * SLICES AND SINGLE RESULTS. Each slice is two arguments: a pointer, then the number of its elements (not of its bytes).
 * A single result is a pointer alone. A pointer is never NULL and is aligned for its type, also where the number is 0.
 * No slice and no single result that a call writes may overlap anything else handed over, other single results among
 * them. Nothing else is asked of a caller: sizes, lengths and contents are tested by the calls themselves.
 *
 * RESULTS. A call returns 0, or the number of a refusal from the table below. On 0 the slices that are not const and
 * the single results are written (but for `line` of canon_read_sheet); on a refusal every lent slice and every single
 * result holds what it held before (but for that `line`, which refusal 10 alone writes). The lowest number that applies
 * is returned.
 *
 *   No.  name                      given exactly when
 *    1   CANON_SIZE                N is 0 or above 32
 *    2   CANON_LENGTH              a lent slice is not of the wanted length
 *    3   CANON_ENTRY               an entry is neither absent nor -100 to 100
 *    4   CANON_ADDITION            an addition handed in is above 10,000
 *    5   CANON_STAR_LIST           a star list has a number outside 1 to N, or one twice
 *    6   CANON_NO_TRANSVERSAL      no complete transversal exists
 *    7   CANON_NO_CANON            additions handed in are no canon, though a transversal exists
 *    8   CANON_NOT_GREATEST        a star lies on an absent place, or the stars' sum is not the greatest
 *    9   CANON_TOO_LONG            a sheet is longer than 12,288 bytes
 *   10   CANON_LINE                a line of a sheet is wrong
 *   11   CANON_LABEL               a label handed to the writer is malformed or repeated
 *   12   CANON_ROOM                the sheet, or the printed answer, does not fit the lent room
 *
 *   thing                          limit
 *   rows N                         1 to 32
 *   order                          -100 to 100
 *   addition handed in             0 to 10,000
 *   addition found                 at most (N - 1) * 200, so 6,200
 *   head found                     -100 to 6,300
 *   sum                            -3,200 to 3,200
 *   sheet                          12,288 bytes
 */
#ifndef CANON_H
#define CANON_H

#include <stddef.h>
#include <stdint.h>

#ifdef __cplusplus
extern "C" {
#endif

#define CANON_ABSENT (-32768) /* an unknown that does not occur: not 0, and not a small order */

#define CANON_ROWS 32        /* the most rows */
#define CANON_PLACES 1024    /* the table that the reader wants lent */
#define CANON_LABELS 256     /* each label buffer that the reader wants lent: 8 bytes a label */
#define CANON_SHEET 12288    /* the longest sheet, in bytes */
#define CANON_PRINTED 4000   /* room enough for every printed answer */

#define CANON_SIZE 1
#define CANON_LENGTH 2
#define CANON_ENTRY 3
#define CANON_ADDITION 4
#define CANON_STAR_LIST 5
#define CANON_NO_TRANSVERSAL 6
#define CANON_NO_CANON 7
#define CANON_NOT_GREATEST 8
#define CANON_TOO_LONG 9
#define CANON_LINE 10
#define CANON_LABEL 11
#define CANON_ROOM 12

/* Route 1: from the table alone. table has n * n elements; adds, stars and heads n each.
 * Returns 0, 1, 2, 3 or 6. */
uint32_t canon_solve(size_t n,
                     const int16_t *table, size_t table_len,
                     uint32_t *adds, size_t adds_len,
                     uint32_t *stars, size_t stars_len,
                     int32_t *heads, size_t heads_len,
                     int32_t *sum);

/* Route 2: from the table and n additions that are a canon; any canon gives route 1's answer.
 * Returns 0, 1, 2, 3, 4, 6 or 7. */
uint32_t canon_from_canon(size_t n,
                          const int16_t *table, size_t table_len,
                          const uint32_t *given, size_t given_len,
                          uint32_t *adds, size_t adds_len,
                          uint32_t *stars, size_t stars_len,
                          int32_t *heads, size_t heads_len,
                          int32_t *sum);

/* Route 3: from the table and the n columns (from 1) of a transversal of greatest sum; any such gives route 1's answer.
 * Returns 0, 1, 2, 3, 5, 6 or 8. */
uint32_t canon_from_stars(size_t n,
                          const int16_t *table, size_t table_len,
                          const uint32_t *given, size_t given_len,
                          uint32_t *adds, size_t adds_len,
                          uint32_t *stars, size_t stars_len,
                          int32_t *heads, size_t heads_len,
                          int32_t *sum);

/* Are the n additions given, which are a canon, the simplest one? Writes 1 or 0 to yes.
 * Returns 0, 1, 2, 3, 4, 6 or 7. */
uint32_t canon_is_simplest(size_t n,
                           const int16_t *table, size_t table_len,
                           const uint32_t *given, size_t given_len,
                           uint8_t *yes);

/* Which rows share a maximum: for each column, under any n additions given (zeros: the table as it stands), its head, the
 * lowest row (from 1) that holds it, and how many rows do; 0, 0 and 0 in a column with no present order. table has n * n
 * elements; given, heads, rows and counts n each. Whether a complete transversal exists is not asked. Heads are -100 to
 * 10,100 here. Returns 0, 1, 2, 3 or 4. */
uint32_t canon_column_heads(size_t n,
                            const int16_t *table, size_t table_len,
                            const uint32_t *given, size_t given_len,
                            int32_t *heads, size_t heads_len,
                            uint32_t *rows, size_t rows_len,
                            uint32_t *counts, size_t counts_len);

/* Reads a sheet. table has CANON_PLACES elements, rows and cols have CANON_LABELS bytes each. Writes N to n, the first
 * N * N entries of table, and the first 8 * N bytes of rows and cols: a label is 8 bytes, filled up with zero bytes.
 * Later entries and bytes stay. Returns 0, 2, 9 or 10; with 10, and only then, the number of the first wrong line
 * (from 1) is written to line. */
uint32_t canon_read_sheet(const uint8_t *sheet, size_t sheet_len,
                          int16_t *table, size_t table_len,
                          uint8_t *rows, size_t rows_len,
                          uint8_t *cols, size_t cols_len,
                          size_t *n, size_t *line);

/* Writes the one sheet of a labelled table. table has n * n elements, rows and cols have 8 * n bytes each, in the form
 * in which the reader leaves them. Writes the sheet to the front of out, which has any length, and the sheet's length to
 * length; the bytes of out after the sheet stay. CANON_SHEET bytes are always room enough.
 * Returns 0, 1, 2, 3, 11 or 12. */
uint32_t canon_write_sheet(size_t n,
                           const int16_t *table, size_t table_len,
                           const uint8_t *rows, size_t rows_len,
                           const uint8_t *cols, size_t cols_len,
                           uint8_t *out, size_t out_len,
                           size_t *length);

/* The program's whole answer to a sheet: the sections adds, stars, heads, ties, sum and index, or one line such as
 * `refused 6` or `refused 10 7`. Writes the text to the front of out and its length to length; the bytes of out after
 * the text stay. A refusal of the sheet or of the table is such a text, and the call returns 0; it returns 12 when the
 * text does not fit out. CANON_PRINTED bytes are always room enough. */
uint32_t canon_print(const uint8_t *sheet, size_t sheet_len,
                     uint8_t *out, size_t out_len,
                     size_t *length);

#ifdef __cplusplus
}
#endif

#endif
