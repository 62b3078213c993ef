/* The rod pendulum, solved through include/canon.h, and the ties that a drawing screen would mark:
 *   cc -Iinclude examples/solve.c crates/exports/out/libexports.a -o solve && ./solve */
#include "canon.h"

#include <stdio.h>
#include <string.h>

#define N 3

/* Equations down, unknowns across; each label has 8 bytes, filled up with zero bytes. */
static const int16_t table[N * N] = {
    2, CANON_ABSENT, 0,
    CANON_ABSENT, 2, 0,
    0, 0, CANON_ABSENT,
};
static const char equations[N][8] = {"fx", "fy", "rod"}, unknowns[N][8] = {"x", "y", "pull"};

/* Prints the section `index` as it stands in the printed answer of the table's sheet. */
static uint32_t print_index(void) {
    uint8_t sheet[CANON_SHEET], text[CANON_PRINTED + 1];
    const char *section;
    size_t length;
    uint32_t refused = canon_write_sheet(N, table, N * N, (const uint8_t *)equations, sizeof equations,
                                         (const uint8_t *)unknowns, sizeof unknowns, sheet, sizeof sheet, &length);
    if (!refused) refused = canon_print(sheet, length, text, CANON_PRINTED, &length);
    if (refused) return refused;
    text[length] = '\0';
    section = strstr((const char *)text, "index 1\n");
    if (section) printf("index 1\n%.*s\n", (int)strcspn(section + 8, "\n"), section + 8);
    return 0;
}

int main(void) {
    uint32_t adds[N], stars[N], rows[N], counts[N];
    int32_t heads[N], sum;
    uint32_t refused = canon_solve(N, table, N * N, adds, N, stars, N, heads, N, &sum);
    /* Under the additions found: the heads again, with the lowest row that holds each and how many rows do. */
    if (!refused) refused = canon_column_heads(N, table, N * N, adds, N, heads, N, rows, N, counts, N);
    if (refused) {
        printf("refused %u\n", (unsigned)refused);
        return 1;
    }
    printf("adds %d\n", N);
    for (int i = 0; i < N; i++) printf("%u\n", (unsigned)adds[i]);
    printf("stars %d\n", N);
    for (int i = 0; i < N; i++) printf("%u\n", (unsigned)stars[i]);
    printf("heads %d\n", N);
    for (int j = 0; j < N; j++) printf("%d\n", (int)heads[j]);
    printf("ties %d\n", N);
    for (int j = 0; j < N; j++) printf("%u\n", (unsigned)counts[j]);
    printf("sum 1\n%d\n", (int)sum);
    refused = print_index();
    if (refused) {
        printf("refused %u\n", (unsigned)refused);
        return 1;
    }
    for (int j = 0; j < N; j++)
        if (counts[j] > 1) printf("column %d: %u rows share %d, the lowest is row %u\n", j + 1, (unsigned)counts[j], (int)heads[j], (unsigned)rows[j]);
    return 0;
}
