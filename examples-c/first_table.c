/* The README's first table through the library: the whole sheet by one call, and then its first two rows by one call for each column.
 *
 *   (cd crates/c_api && rt lib)
 *   cc -Iinclude examples-c/first_table.c crates/c_api/out/libc_api.a -o first_table && ./first_table
 */
#include "gomurin.h"

#include <stdio.h>
#include <stdlib.h>
#include <string.h>

static const char SHEET[] =
    "shape a b c\n"
    "chain 4 0 0\n"
    "word k0 k1 k2\n"
    "XIII 1 0 0\n"
    "XIXI 1 0 0\n"
    "XIXI -2 0 0\n";

/* What every call writes: the values that a broken rule names. */
static size_t values[GOMURIN_VALUES];

/* Ends the program if a call was refused. */
static void accept(const char *call, size_t rule)
{
    if (rule == 0)
        return;
    fprintf(stderr, "%s: refused %zu, values %zu %zu %zu\n", call, rule, values[0], values[1], values[2]);
    exit(1);
}

static void whole_sheet(void)
{
    static uint8_t table[GOMURIN_MAX_TABLE];
    size_t length;
    accept("sheet", gomurin_sheet((const uint8_t *)SHEET, strlen(SHEET), table, sizeof table, &length, values));
    fwrite(table, 1, length, stdout);
}

/* The row of a word of 4 letters under a mode. */
static void one_row(const char *letters, int32_t mode)
{
    /* A ring of 4 sites. */
    size_t sites, generators;
    uint32_t orders[GOMURIN_MAX_GENERATORS];
    uint16_t targets[GOMURIN_TARGETS];
    accept("chain_1d", gomurin_chain_1d(4, &sites, &generators, orders, targets, values));

    /* The word and its weight. */
    size_t n, weight;
    uint8_t word[GOMURIN_WORD_BYTES];
    accept("from_text", gomurin_from_text((const uint8_t *)letters, 4, &n, word, values));
    accept("weight", gomurin_weight(n, word, sizeof word, &weight, values));

    /* The least word of its orbit, and the index that leads from there back to the word. */
    uint8_t least[GOMURIN_WORD_BYTES];
    size_t index;
    accept("canonicalize_with_index",
           gomurin_canonicalize_with_index(sites, generators, orders, targets, n, word, sizeof word, least, &index, values));

    /* Whether the mode keeps the word, and then how many words its orbit has, or else the index of the symmetry that rules it out. */
    uint32_t counter[1];
    size_t size, dropped_by;
    bool kept;
    accept("canonicalize_in_sector",
           gomurin_canonicalize_in_sector(sites, generators, orders, targets, n, word, sizeof word, &mode, 1, least, counter, 1, &size,
                                          &kept, &dropped_by, values));
    if (!kept) {
        printf("%s - %zu - %zu 0\n", letters, dropped_by, weight);
        return;
    }

    size_t length;
    uint8_t text[GOMURIN_MAX_SITES];
    accept("to_text", gomurin_to_text(n, least, sizeof least, &length, text, values));
    printf("%s %.*s %zu %zu %zu 1\n", letters, (int)length, (const char *)text, index, size, weight);
}

int main(void)
{
    whole_sheet();
    one_row("XIII", 1);
    one_row("XIXI", 1);
    return 0;
}
