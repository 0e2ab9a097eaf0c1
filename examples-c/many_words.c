/* Many words in one call: the least word of each one's orbit on a ring of 4 sites, and the index that leads from there back to it. Then, by one call
 * more, which of the words a mode keeps.
 *
 *   (cd crates/c_api && rt lib)
 *   cc -Iinclude examples-c/many_words.c crates/c_api/out/libc_api.a -o many_words && ./many_words
 */
#include "gomurin.h"

#include <stdio.h>
#include <stdlib.h>

#define SITES 4
#define ROWS 5

static const char LETTERS[ROWS][SITES + 1] = {"XIII", "IIZX", "XIXI", "YIIX", "IIII"};

/* What every call writes: the values that a broken rule names. */
static size_t values[GOMURIN_VALUES];

/* Ends the program if a call was refused. */
static void accept(const char *call, size_t rule)
{
    if (rule == 0)
        return;
    fprintf(stderr, "%s: refused %zu, values %zu %zu %zu\n", call, rule, values[0], values[1], values[2]);
    exit(1);
}

/* Prints a word in full. */
static void print_word(const uint8_t *word)
{
    size_t length;
    uint8_t text[GOMURIN_MAX_SITES];
    accept("to_text", gomurin_to_text(SITES, word, GOMURIN_WORD_BYTES, &length, text, values));
    printf("%.*s", (int)length, (const char *)text);
}

int main(void)
{
    size_t sites, generators;
    uint32_t orders[GOMURIN_MAX_GENERATORS];
    static uint16_t targets[GOMURIN_TARGETS];
    accept("chain_1d", gomurin_chain_1d(SITES, &sites, &generators, orders, targets, values));

    /* The rows: word after word. */
    static uint8_t words[ROWS * GOMURIN_WORD_BYTES];
    for (size_t i = 0; i < ROWS; i++) {
        size_t n;
        accept("from_text", gomurin_from_text((const uint8_t *)LETTERS[i], SITES, &n, words + i * GOMURIN_WORD_BYTES, values));
    }

    /* The least words and the indices. */
    static uint8_t least[ROWS * GOMURIN_WORD_BYTES];
    size_t indices[ROWS];
    accept("canonicalize_words",
           gomurin_canonicalize_words(sites, generators, orders, targets, words, sizeof words, least, sizeof least, indices, ROWS, values));
    for (size_t i = 0; i < ROWS; i++) {
        printf("%s ", LETTERS[i]);
        print_word(least + i * GOMURIN_WORD_BYTES);
        printf(" %zu\n", indices[i]);
    }

    /* The same under mode 1: a row with size 0 is dropped, by the index that it has. */
    size_t sizes[ROWS];
    int32_t mode = 1;
    accept("sector_words",
           gomurin_sector_words(sites, generators, orders, targets, &mode, 1, words, sizeof words, least, sizeof least, indices, ROWS,
                                sizes, ROWS, values));
    for (size_t i = 0; i < ROWS; i++) {
        if (sizes[i] == 0) {
            printf("%s dropped by %zu\n", LETTERS[i], indices[i]);
            continue;
        }
        printf("%s ", LETTERS[i]);
        print_word(least + i * GOMURIN_WORD_BYTES);
        printf(" %zu, %zu words\n", indices[i], sizes[i]);
    }
    return 0;
}
