/* Gomurin for C: symmetry tables of spin lattices, every answer proved. The library is built by `rt lib` in crates/c_api, which writes
 * out/libc_api.a there; link it and include this file.
 *
 * How things are passed. A slice is two parameters, the address of its first element and the number of its elements; the address of an empty slice
 * may be any that is not null and is aligned. An array of fixed length is the address of its first element, and the caller has all of its elements
 * there. A list that a call writes overlaps nothing else that the call is handed.
 *
 * A group is four parts: the number of sites, the number of generators, their orders (GOMURIN_MAX_GENERATORS places) and their targets
 * (GOMURIN_TARGETS places, those of generator g from GOMURIN_MAX_SITES * g on); unused places are 0. Generator g moves the letter of site q to site
 * targets[GOMURIN_MAX_SITES * g + q]. An index stands for digits, one below each order, generator 0 fastest. A walk over an orbit is a group, the word
 * that its next step gives and that step's index.
 *
 * A word is GOMURIN_WORD_BYTES bytes, the X plane and then the Z plane; site q is bit q mod 8 of a plane's byte q div 8, least significant first. The
 * letters by (X bit, Z bit): I 00, Z 01, X 10, Y 11. A call that takes a word takes one of GOMURIN_OLD_WORD_BYTES bytes too, for at most
 * GOMURIN_OLD_SITES sites: half of them a plane, and the bytes that a plane lacks are 0. The words of rows all have one of the two lengths. What a
 * call hands back is always GOMURIN_WORD_BYTES bytes.
 *
 * A phase table is two arrays of GOMURIN_PHASES numbers, the cosines and the sines of the steps of a turn, in units of 2^-30.
 *
 * Every call but gomurin_phase_table, which takes nothing that could be refused, returns 0 for an answer, else the number of the first rule that its input
 * breaks (below), and writes GOMURIN_VALUES numbers: what the rule names, and zeros after it; zeros beside an answer. A refused call leaves lists (slices)
 * as they were, but for 25; what else a call hands back is then zeros, or a group or a walk that every call refuses, or the constant phase table. No call
 * asks anything of its caller but that addresses and lengths are true.
 *
 *   1 more than 2,048 sites                        17 a word bit at or above the site count (of rows: the row)
 *   2 the generator list ends inside a generator   18 not one mode for each generator
 *   3 more than 4 generators                       19 an index not below the group order
 *   4 counts of permutations and orders (both)     20 not one digit for each generator
 *   5 a permutation's length (generator, length)   21 a list of another length than needed
 *   6 a target out of range (generator, target)    22 lists that disagree in rows
 *   7 a target twice (generator, target)           23 more than 4,096 rows
 *   8 order 0 (generator)                          24 a coefficient that is not finite (row)
 *   9 an exact order above 32 bits (generator)     25 a running sum that is not finite (row); the lists are then zeros
 *  10 declared and exact order (generator, both)   26 a lattice side 0
 *  11 two generators do not commute (both)         27 sides of more than 2,048 sites
 *  12 a group order above 64 bits                  28 a text word of more than 2,048 letters
 *  13 a group order above 1,048,576                29 a letter other than I, X, Y, Z (position)
 *  14 no group value, or no walk value             30 a sheet of more than 65,536 bytes
 *  15 a word of other than 512 or 64 bytes         31 a sheet line of another form
 *  16 a word's site count is not the group's       32 a phase modulus that does not divide 720
 *                                                  33 a whole coefficient out of its range (row)
 *                                                  34 a file of a phase table that is too long or of another form
 *                                                  35 a phase table with a number out of its range or a broken rule
 *                                                  36 a word of 64 bytes and of more than 256 sites
 *                                                  37 a digit not below its generator's order
 */
#ifndef GOMURIN_H
#define GOMURIN_H

#include <stdbool.h>
#include <stddef.h>
#include <stdint.h>

#define GOMURIN_MAX_SITES 2048
#define GOMURIN_WORD_BYTES 512
#define GOMURIN_OLD_SITES 256
#define GOMURIN_OLD_WORD_BYTES 64
#define GOMURIN_MAX_GENERATORS 4
#define GOMURIN_TARGETS 8192
#define GOMURIN_MAX_ROWS 4096
#define GOMURIN_MAX_COEFFICIENT 1048576
#define GOMURIN_PHASES 720
#define GOMURIN_MAX_FILE 65536
#define GOMURIN_MAX_TABLE 262208
#define GOMURIN_VALUES 4

#ifdef __cplusplus
extern "C" {
#endif

/* ---- words */

/* The word that a text writes, a letter a byte, and its site count. */
size_t gomurin_from_text(const uint8_t *text, size_t text_length, size_t *sites, uint8_t word[GOMURIN_WORD_BYTES],
                         size_t values[GOMURIN_VALUES]);

/* The text of a word of n sites, a letter a byte and zeros after it, and how many letters. */
size_t gomurin_to_text(size_t n, const uint8_t *word, size_t word_length, size_t *letters, uint8_t text[GOMURIN_MAX_SITES],
                       size_t values[GOMURIN_VALUES]);

/* The weight of a word of n sites: the number of sites whose letter is other than I. */
size_t gomurin_weight(size_t n, const uint8_t *word, size_t word_length, size_t *weight, size_t values[GOMURIN_VALUES]);

/* How word a stands to word b, both of n sites: -1 less, 0 the same, 1 greater. At the first bit that differs, reading the X plane from site 0 and
 * then the Z plane, the lesser has 0. */
size_t gomurin_compare(size_t n, const uint8_t *a, size_t a_length, const uint8_t *b, size_t b_length, int32_t *order,
                       size_t values[GOMURIN_VALUES]);

/* ---- level 1: groups */

/* The group of n sites by a buyer's generators, in one list, each its length and then its targets, and their declared orders. */
size_t gomurin_try_from_generators(size_t n, const uint32_t *list, size_t list_length, const uint32_t *declared, size_t declared_length,
                                   size_t *sites, size_t *generators, uint32_t orders[GOMURIN_MAX_GENERATORS],
                                   uint16_t targets[GOMURIN_TARGETS], size_t values[GOMURIN_VALUES]);

/* A ring of n sites: site q moves to q + 1, round at the end. */
size_t gomurin_chain_1d(size_t n, size_t *sites, size_t *generators, uint32_t orders[GOMURIN_MAX_GENERATORS],
                        uint16_t targets[GOMURIN_TARGETS], size_t values[GOMURIN_VALUES]);

/* Legs of l sites each, site j of a leg at leg * l + j: all legs shift together along their length. */
size_t gomurin_ladder(size_t l, size_t legs, size_t *sites, size_t *generators, uint32_t orders[GOMURIN_MAX_GENERATORS],
                      uint16_t targets[GOMURIN_TARGETS], size_t values[GOMURIN_VALUES]);

/* A torus of lx by ly sites, (i, j) at j * lx + i: the shifts of i and of j. */
size_t gomurin_torus_2d(size_t lx, size_t ly, size_t *sites, size_t *generators, uint32_t orders[GOMURIN_MAX_GENERATORS],
                        uint16_t targets[GOMURIN_TARGETS], size_t values[GOMURIN_VALUES]);

/* A torus of lx by ly by lz sites, (i, j, k) at k * lx * ly + j * lx + i: the shifts of i, of j and of k. */
size_t gomurin_torus_3d(size_t lx, size_t ly, size_t lz, size_t *sites, size_t *generators,
                        uint32_t orders[GOMURIN_MAX_GENERATORS], uint16_t targets[GOMURIN_TARGETS],
                        size_t values[GOMURIN_VALUES]);

/* The group order: the product of the orders, so that two equal generators count as two. */
size_t gomurin_order(size_t sites, size_t generators, const uint32_t orders[GOMURIN_MAX_GENERATORS],
                     const uint16_t targets[GOMURIN_TARGETS], size_t *order, size_t values[GOMURIN_VALUES]);

/* The phase modulus: the least common multiple of the orders. */
size_t gomurin_phase_modulus(size_t sites, size_t generators, const uint32_t orders[GOMURIN_MAX_GENERATORS],
                             const uint16_t targets[GOMURIN_TARGETS], size_t *modulus, size_t values[GOMURIN_VALUES]);

/* The digits of an index, generator 0 first, into a list with a place for each generator. */
size_t gomurin_counter_from_index(size_t sites, size_t generators, const uint32_t orders[GOMURIN_MAX_GENERATORS],
                                  const uint16_t targets[GOMURIN_TARGETS], size_t index, uint32_t *counter, size_t counter_length,
                                  size_t values[GOMURIN_VALUES]);

/* The index of a counter: a digit for each generator, generator 0 first, each below its generator's order. */
size_t gomurin_index_from_counter(size_t sites, size_t generators, const uint32_t orders[GOMURIN_MAX_GENERATORS],
                                  const uint16_t targets[GOMURIN_TARGETS], const uint32_t *counter, size_t counter_length,
                                  size_t *index, size_t values[GOMURIN_VALUES]);

/* The index of the inverse element. */
size_t gomurin_invert_index(size_t sites, size_t generators, const uint32_t orders[GOMURIN_MAX_GENERATORS],
                            const uint16_t targets[GOMURIN_TARGETS], size_t index, size_t *inverse, size_t values[GOMURIN_VALUES]);

/* ---- level 1: orbits */

/* The least word of a word's orbit. */
size_t gomurin_canonicalize(size_t sites, size_t generators, const uint32_t orders[GOMURIN_MAX_GENERATORS],
                            const uint16_t targets[GOMURIN_TARGETS], size_t n, const uint8_t *word, size_t word_length,
                            uint8_t least[GOMURIN_WORD_BYTES], size_t values[GOMURIN_VALUES]);

/* The same, and the index that leads from the least word back to the word: the inverse of the smallest one that reaches it. */
size_t gomurin_canonicalize_with_index(size_t sites, size_t generators, const uint32_t orders[GOMURIN_MAX_GENERATORS],
                                       const uint16_t targets[GOMURIN_TARGETS], size_t n, const uint8_t *word,
                                       size_t word_length, uint8_t least[GOMURIN_WORD_BYTES], size_t *index,
                                       size_t values[GOMURIN_VALUES]);

/* The same with the counter of that index, into a list with a place for each generator. */
size_t gomurin_canonicalize_with_shift(size_t sites, size_t generators, const uint32_t orders[GOMURIN_MAX_GENERATORS],
                                       const uint16_t targets[GOMURIN_TARGETS], size_t n, const uint8_t *word,
                                       size_t word_length, uint8_t least[GOMURIN_WORD_BYTES], uint32_t *counter,
                                       size_t counter_length, size_t values[GOMURIN_VALUES]);

/* The word that an index makes of a word: moved by each generator as often as its digit of the index says. Of the least word that
 * gomurin_canonicalize_with_index gives, the index beside it makes the word again. */
size_t gomurin_word_at_index(size_t sites, size_t generators, const uint32_t orders[GOMURIN_MAX_GENERATORS],
                             const uint16_t targets[GOMURIN_TARGETS], size_t n, const uint8_t *word, size_t word_length, size_t index,
                             uint8_t made[GOMURIN_WORD_BYTES], size_t values[GOMURIN_VALUES]);

/* The same as gomurin_canonicalize_with_index of many words: rows of a word each, of the group's sites, all of GOMURIN_WORD_BYTES or all of
 * GOMURIN_OLD_WORD_BYTES bytes, at most GOMURIN_MAX_ROWS. `indices` has a place for each row, and its length says how many rows there are;
 * `representatives` has GOMURIN_WORD_BYTES bytes for each. Row i of the two takes the least word of the orbit of row i, and the index that leads from
 * there back to the word. Refusals, in this order: 1, 14, 22, 23, 36, and then row by row 17, with the row in values[0]; both lists then stay as they
 * were. */
size_t gomurin_canonicalize_words(size_t sites, size_t generators, const uint32_t orders[GOMURIN_MAX_GENERATORS],
                                  const uint16_t targets[GOMURIN_TARGETS], const uint8_t *words, size_t words_length,
                                  uint8_t *representatives, size_t representatives_length, size_t *indices,
                                  size_t indices_length, size_t values[GOMURIN_VALUES]);

/* The orbit list: the bytes of one entry for each index, repeats included, into a list of GOMURIN_WORD_BYTES times the order. */
size_t gomurin_orbit_list(size_t sites, size_t generators, const uint32_t orders[GOMURIN_MAX_GENERATORS],
                          const uint16_t targets[GOMURIN_TARGETS], size_t n, const uint8_t *word, size_t word_length, uint8_t *list,
                          size_t list_length, size_t values[GOMURIN_VALUES]);

/* Begins a walk over a word's orbit, from the group and the word: the word and the index of its next step. */
size_t gomurin_orbit(size_t sites, size_t generators, const uint32_t orders[GOMURIN_MAX_GENERATORS],
                     const uint16_t targets[GOMURIN_TARGETS], size_t n, const uint8_t *word, size_t word_length,
                     uint8_t at[GOMURIN_WORD_BYTES], size_t *index, size_t values[GOMURIN_VALUES]);

/* A step of a walk: the entry's word and index, and the walk after it. After the last entry it answers finished and changes nothing of the walk. */
size_t gomurin_next(size_t sites, size_t generators, const uint32_t orders[GOMURIN_MAX_GENERATORS],
                    const uint16_t targets[GOMURIN_TARGETS], uint8_t at[GOMURIN_WORD_BYTES], size_t *index,
                    uint8_t word[GOMURIN_WORD_BYTES], size_t *entry, bool *finished, size_t values[GOMURIN_VALUES]);

/* ---- level 2: sectors */

/* The numerator of a counter: the sum of (k c mod o) (M / o) over the generators, mod M, with M the phase modulus. Modes and digits may be any;
 * they are reduced. */
size_t gomurin_character_numerator(size_t sites, size_t generators, const uint32_t orders[GOMURIN_MAX_GENERATORS],
                                   const uint16_t targets[GOMURIN_TARGETS], const int32_t *modes, size_t modes_length,
                                   const uint32_t *counter, size_t counter_length, size_t *numerator,
                                   size_t values[GOMURIN_VALUES]);

/* The numerators of all indices, generator 0 fastest, into a list with an entry for each. */
size_t gomurin_character_table(size_t sites, size_t generators, const uint32_t orders[GOMURIN_MAX_GENERATORS],
                               const uint16_t targets[GOMURIN_TARGETS], const int32_t *modes, size_t modes_length, size_t *list,
                               size_t list_length, size_t values[GOMURIN_VALUES]);

/* Whether modes keep a word. A kept word comes with the least word of its orbit, the counter of the index that leads from there back to the word, into
 * a list with a place for each generator, and the orbit size. A dropped one comes with the smallest index that fixes it with a numerator other than 0,
 * in `dropped_by`, which is 0 of a kept word; its least word and size are zeros, and the counter stays. */
size_t gomurin_canonicalize_in_sector(size_t sites, size_t generators, const uint32_t orders[GOMURIN_MAX_GENERATORS],
                                      const uint16_t targets[GOMURIN_TARGETS], size_t n, const uint8_t *word,
                                      size_t word_length, const int32_t *modes, size_t modes_length,
                                      uint8_t least[GOMURIN_WORD_BYTES], uint32_t *counter, size_t counter_length, size_t *size,
                                      bool *kept, size_t *dropped_by, size_t values[GOMURIN_VALUES]);

/* Whether modes keep the words of rows, at most GOMURIN_MAX_ROWS: rows of a word each, as in gomurin_canonicalize_words. `indices` and `sizes` have a
 * place for each row, and the length of `indices` says how many rows there are; `representatives` has GOMURIN_WORD_BYTES bytes for each. Row i of the
 * three takes, if the modes keep row i, the least word of its orbit, the index that leads from there back to the word, and the orbit size; of a dropped
 * row a word of zeros, the smallest index that fixes the word with a numerator other than 0, and size 0. A kept row has a size of at least 1. Refusals,
 * in this order: 1, 14, 18, 22, 23, 36, and then row by row 17, with the row in values[0]; the three lists then stay as they were. */
size_t gomurin_sector_words(size_t sites, size_t generators, const uint32_t orders[GOMURIN_MAX_GENERATORS],
                            const uint16_t targets[GOMURIN_TARGETS], const int32_t *modes, size_t modes_length,
                            const uint8_t *words, size_t words_length, uint8_t *representatives, size_t representatives_length,
                            size_t *indices, size_t indices_length, size_t *sizes, size_t sizes_length,
                            size_t values[GOMURIN_VALUES]);

/* ---- phase tables */

/* The constant table: the cosine and the sine of each step of a turn, each rounded to the nearest whole number. */
void gomurin_phase_table(int64_t cosines[GOMURIN_PHASES], int64_t sines[GOMURIN_PHASES]);

/* The table that a file writes: the line `cos sin`, and a line `COS SIN` for each step, whole numbers in decimal parted by one space, with byte 10 after
 * each line and nothing after the last. 34 is a file of more than GOMURIN_MAX_FILE bytes or of another form. 35 is a table with a number out of
 * -2^30 .. 2^30, or one that breaks a rule: entry 0 is (2^30, 0); the entry a quarter turn on is the entry turned; in the first quarter the cosine falls
 * and the sine rises; each entry times entry 1 is within 2^31 of 2^30 times the next one, and its squared length within 2^31 of 2^60. Beside a refusal the
 * constant table is handed back, so that the two arrays are those of a table that every sum takes. */
size_t gomurin_read_phase_table(const uint8_t *file, size_t file_length, int64_t cosines[GOMURIN_PHASES],
                                int64_t sines[GOMURIN_PHASES], size_t values[GOMURIN_VALUES]);

/* ---- level 3: sums */

/* Folds a sum onto representatives: rows of a word and a coefficient each, the words all of GOMURIN_WORD_BYTES or all of GOMURIN_OLD_WORD_BYTES bytes. The
 * three output lists have as many rows, GOMURIN_WORD_BYTES bytes a word; each output row is a representative, the sum of the coefficients of the rows that
 * have it, added to 0.0 in input order, and how many rows these are, in rising order of the words, with zeros after the last row. `rows` takes how many
 * there are. */
size_t gomurin_canonicalize_pauli_sum(size_t sites, size_t generators, const uint32_t orders[GOMURIN_MAX_GENERATORS],
                                      const uint16_t targets[GOMURIN_TARGETS], const uint8_t *words, size_t words_length,
                                      const double *coefficients, size_t coefficients_length, uint8_t *representatives,
                                      size_t representatives_length, double *sums, size_t sums_length, uint32_t *counts,
                                      size_t counts_length, size_t *rows, size_t values[GOMURIN_VALUES]);

/* Projects a sum onto the sector of a mode list, by a phase table: the constant one or one's own; one that breaks a rule is refused, 35, after 32 and
 * before 22. Rows of a word, as in the sum above, and a whole coefficient each, from -GOMURIN_MAX_COEFFICIENT to GOMURIN_MAX_COEFFICIENT. The three output
 * lists have as many rows; each output row is the representative of a kept orbit, and the sums over the rows that have it of the coefficient times the
 * cosine, and times the sine, of the row's phase: numerator / M of a turn, with M the phase modulus, for an index that carries the representative to the
 * row's word. Cosine and sine are the table's, in units of 2^-30; the sums are exact. Output rows stand in rising order of the words, zero sums stay, and
 * zeros come after the last row. `kept` and `dropped` take how many input rows have a kept orbit and how many a dropped one. If one is kept there is an
 * output row; after the first, each has a word other than zeros. */
size_t gomurin_project_pauli_sum(const int64_t table_cosines[GOMURIN_PHASES], const int64_t table_sines[GOMURIN_PHASES],
                                 size_t sites, size_t generators, const uint32_t orders[GOMURIN_MAX_GENERATORS],
                                 const uint16_t targets[GOMURIN_TARGETS], const int32_t *modes, size_t modes_length,
                                 const uint8_t *words, size_t words_length, const int64_t *coefficients,
                                 size_t coefficients_length, uint8_t *representatives, size_t representatives_length,
                                 int64_t *cosines, size_t cosines_length, int64_t *sines, size_t sines_length, size_t *kept,
                                 size_t *dropped, size_t values[GOMURIN_VALUES]);

/* ---- the sheet */

/* What a sheet prints, at the front of a list, and how many bytes that is; the rest of the list stays. GOMURIN_MAX_TABLE bytes suffice for any sheet. Of a refused
 * sheet that is the one line that says so; its values are the line of the sheet, 0 for the sheet as a whole, and then what the rule names. 21 is a list
 * that is too short; it stays, and nothing is written. */
size_t gomurin_sheet(const uint8_t *input, size_t input_length, uint8_t *list, size_t list_length, size_t *written,
                     size_t values[GOMURIN_VALUES]);

#ifdef __cplusplus
}
#endif

#endif
