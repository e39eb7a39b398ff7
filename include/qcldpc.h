/* Quasi-cyclic LDPC plans: the seventeen functions of libqcldpc.a (`rt lib` in crates/qcldpc), for C99 on x86-64. A program is
 * linked with them by `-L crates/qcldpc/out -lqcldpc`.
 *
 * A plan is rows x cols numbers, row by row: -1 is a zero (empty) block, e from 0 to 32,767 the identity with its rows
 * shifted right by the remainder of e by the lift; below -1 there is no block (refusal 6). A word is cols x lift bytes: 0 or
 * 1 for a known bit, 2 for an erasure. Bit z of column j is number j * lift + z, check y of row i is number i * lift + y; all
 * numbers and places count from 0.
 *
 * Beside a plan lie its weights, two lists: how many filled blocks (entries from 0 on) each row has, `rows` numbers, and how
 * many each column has, `cols` numbers. The calls that build a table or triple plan fill them, qcldpc_change keeps them true,
 * and the calls for alist text read them; no other call takes them. Those of the first plan are those of a joined one.
 *
 * Every function returns 0 for a result, or the number of a refusal (README.md, "Refusals"): the lowest that applies, and
 * then nothing lent is changed but the refusal's values, which stand in `out` from out[0] on:
 *     6, 9, 18, 19  the first place        10  i, k, r, t        17  the length needed        21  the place in the text
 * The other refusals have no values. Where only the new entry of qcldpc_change is below -1, the place of 6 is rows x cols, one
 * past the plan's last; of the two plans of qcldpc_join it is a place of the first, or of the second where only that has an
 * entry below -1. 24 is a row or column outside the plan; 25, looked at last, a list of weights of the wrong length or, unless
 * the call builds the plan, with a wrong count; 26, looked at last, a work list with too few places; 27 to 29, of two valid
 * plans to be joined, lifts with a common divisor above 1, plans that differ in rows, columns or empty blocks, and a place for
 * the joined plan that is not as long as each plan; 30, of a valid plan by which data are to be encoded, another shape than the
 * bi-diagonal one; 31 data of the wrong length or with a byte above 1; 32, looked at last, of a plan by which bits are to be
 * turned, a column that has not exactly three filled blocks. Places of `out` that are not named for an answer keep what was
 * in them. `out` needs QCLDPC_OUT places; with fewer, every function returns QCLDPC_NO_ROOM and changes nothing.
 *
 * Nothing is asked of numbers and bytes. Each pointer points to as many elements as the length behind it says (none are
 * read or written where that is 0), and memory that a function writes overlaps no other memory lent in the same call.
 * Stack is asked for: every function returns within 1 MiB of it, also where it refuses (README.md has the figure of each); a
 * thread with less than a function needs is ended by the system. The library keeps no state and allocates nothing, so
 * several threads may call at once, where none writes memory that another one has lent.
 */
#ifndef QCLDPC_H
#define QCLDPC_H

#include <stddef.h>
#include <stdint.h>

#ifdef __cplusplus
extern "C" {
#endif

#define QCLDPC_OUT 32
#define QCLDPC_NO_ROOM UINT64_MAX

/* Whether a plan may be used. Refusals 1 to 6. */
uint64_t qcldpc_check(const int16_t *plan, size_t plan_len, uint64_t rows, uint64_t cols, uint64_t lift,
                      uint64_t *out, size_t out_len);

/* The girth test: whether no simple cycle has fewer edges than the target (6, 8, 10, 12, 14, 16 or 18). Refusals 1 to 6, 14.
 * out[0] is 0 where the plan passes. Else it is n, from 2 to 8, of a shortest cycle, so that 2n is the girth: out[1 + k] is
 * its check k and out[9 + k] its bit k; check k joins bit k, bit k joins check k + 1, the last bit joins check 0. Which of
 * the shortest is shown is free. All eight places of checks and of bits are written, those not used with 0. */
uint64_t qcldpc_girth(const int16_t *plan, size_t plan_len, uint64_t rows, uint64_t cols, uint64_t lift,
                      uint64_t target, uint64_t *out, size_t out_len);

/* The girth test by sorted pairs: whether no simple cycle has fewer edges than the target, and no more. It
 * agrees with qcldpc_girth wherever it gives a verdict. Refusals 1 to 6, 14, 26. out[0] is 0 where the plan passes, else 1.
 * The tree of a column j is all walks of 0 to target / 2 - 1 edges from bit j * lift that never step back, the root included.
 * Where columns have c and rows r filled blocks, or fewer, it has at most 1 + c + c (r - 1) + c (r - 1)(c - 1) + ... nodes,
 * target / 2 terms. 26, looked at last, where the tree of some column has more nodes than `work` has places, whatever the
 * other trees show. After a verdict, what `work` holds is free; after a refusal it is as lent. */
uint64_t qcldpc_girth_pairs(const int16_t *plan, size_t plan_len, uint64_t rows, uint64_t cols, uint64_t lift,
                            uint64_t target, uint64_t *work, size_t work_len, uint64_t *out, size_t out_len);

/* The syndrome check of a word without erasures. Refusals 1 to 6, 16, 18, 19.
 * out[0] is 0 where every check is even, else 1, and out[1] is the lowest odd check. */
uint64_t qcldpc_syndrome(const int16_t *plan, size_t plan_len, uint64_t rows, uint64_t cols, uint64_t lift,
                         const uint8_t *word, size_t word_len, uint64_t *out, size_t out_len);

/* The decoder: fills, in place, every erasure outside the largest stopping set. Refusals 1 to 6, 16, 18, 20.
 * out[0] erasures were filled, out[1] are left. */
uint64_t qcldpc_fill(const int16_t *plan, size_t plan_len, uint64_t rows, uint64_t cols, uint64_t lift,
                     uint8_t *word, size_t word_len, uint64_t *out, size_t out_len);

/* The preview of filling: for every word what qcldpc_fill would answer for a copy of it; the word itself is only read.
 * Refusals 1 to 6, 16, 18, 20. out[0] erasures would be filled, out[1] left. */
uint64_t qcldpc_preview(const int16_t *plan, size_t plan_len, uint64_t rows, uint64_t cols, uint64_t lift,
                        const uint8_t *word, size_t word_len, uint64_t *out, size_t out_len);

/* A round of bit flipping by Gallager's hard rule, of a word without erasures and by a plan with exactly three filled blocks
 * in each column: exactly the bits with two or more odd checks are turned in place, all judged on the word before the round.
 * A codeword stays as it is. Where the plan passes at 6 and exactly one bit of a codeword is wrong, a round turns that bit back
 * and no other. Refusals 1 to 6, 16, 18, 19, 32. out[0] bits were turned. */
uint64_t qcldpc_flip(const int16_t *plan, size_t plan_len, uint64_t rows, uint64_t cols, uint64_t lift,
                     uint8_t *word, size_t word_len, uint64_t *out, size_t out_len);

/* Counts the erasures of a word: out[0] is how many of its bytes are 2. Refuses nothing: a word of any length is counted, and
 * bytes above 2 are not. */
uint64_t qcldpc_count_erasures(const uint8_t *word, size_t word_len, uint64_t *out, size_t out_len);

/* The array table of an order from 4 to 7, in order x order numbers. Refusals 7, 8. */
uint64_t qcldpc_array_table(uint64_t order, int16_t *table, size_t table_len, uint64_t *out, size_t out_len);

/* The cyclic table of an order from 4 to 7, in order x order numbers. Refusals 7, 8. */
uint64_t qcldpc_cyclic_table(uint64_t order, int16_t *table, size_t table_len, uint64_t *out, size_t out_len);

/* The plan of a table and a mask of order x order bytes, 0 or 1, with L ones in each row and column (L from 4): it has
 * 3 * L * order rows and order * L * L columns, and `plan` exactly these places. The plan and its weights are filled in,
 * whatever stood there. Refusals 3, 7 to 13, 15, 25. out[0] is the number of rows, out[1] of columns. */
uint64_t qcldpc_build(uint64_t order, uint64_t lift, const int16_t *table, size_t table_len, const uint8_t *mask,
                      size_t mask_len, int16_t *plan, size_t plan_len, uint16_t *row_weights, size_t row_weights_len,
                      uint16_t *col_weights, size_t col_weights_len, uint64_t *out, size_t out_len);

/* The plan of the supplied Steiner triple system of an order v: 7, 9, 13, 15 or 19. Rows are its points from 0, columns its
 * v * (v - 1) / 6 triples, rising by first, second and third point. There is one voltage for each point of each triple,
 * points rising within a triple, so three for each column; an entry is its voltage's remainder by the lift, or -1 where the
 * point is not in the triple. `plan` has exactly order x columns places. The plan and its weights are filled in, whatever stood
 * there. Refusals 3, 4 (of the five orders), 6 with the first place of a voltage below 0, 22, 23, 25.
 * out[0] is the number of rows, out[1] of columns. */
uint64_t qcldpc_steiner(uint64_t order, uint64_t lift, const int16_t *voltages, size_t voltages_len,
                        int16_t *plan, size_t plan_len, uint16_t *row_weights, size_t row_weights_len,
                        uint16_t *col_weights, size_t col_weights_len, uint64_t *out, size_t out_len);

/* Changes one block of a plan: the entry at `row` and `col` becomes `entry`, stored as it is given, and the weights stay
 * true: nothing but that entry, row_weights[row] and col_weights[col] moves. Refusals 1 to 5; 6 for the first bad entry of the
 * plan, or else for the new one; 24; 25 where the weights are not those of the plan before the change. A result puts nothing
 * into `out`. */
uint64_t qcldpc_change(int16_t *plan, size_t plan_len, uint64_t rows, uint64_t cols, uint64_t lift,
                       uint64_t row, uint64_t col, int16_t entry, uint16_t *row_weights, size_t row_weights_len,
                       uint16_t *col_weights, size_t col_weights_len, uint64_t *out, size_t out_len);

/* Joins two plans that have the same rows, columns and empty blocks, and lifts P and Q without a common divisor above 1, into
 * the plan of lift P * Q: a filled entry is the only number from 0 to P * Q - 1 that leaves by P the remainder of the first
 * plan's entry and by Q that of the second's, and an empty block is -1. Where either plan passes at a target of the girth test,
 * the joined plan passes there too. It has the filled blocks of each plan, so the first plan's lists of weights are its lists
 * too. `joined` has exactly as many places as each plan; it is filled in, whatever stood there. Refusals 1 to 6, the lowest
 * that applies to either plan, and 3 also where P * Q is above 4,096, 4 also where cols * P * Q is above 65,536, with the first
 * plan's columns; 27, 28, 29. out[0] is the joined lift, P * Q. */
uint64_t qcldpc_join(const int16_t *first, size_t first_len, uint64_t rows, uint64_t cols, uint64_t lift,
                     const int16_t *second, size_t second_len, uint64_t rows2, uint64_t cols2, uint64_t lift2,
                     int16_t *joined, size_t joined_len, uint64_t *out, size_t out_len);

/* Encodes data bits by a bi-diagonal plan. Such a plan has m rows, m at least 3, and at least m + 1 columns. Column k, for k
 * from 0 to m - 2, has the remainder 0 by the lift in rows k and k + 1 and no other filled block; column m - 1 has exactly
 * three filled blocks, of which at least two have the same remainder. The other columns may have any blocks. They carry the
 * data: (cols - m) * lift bytes, each 0 or 1, which become the bits from number m * lift on, in the same order. `word` has
 * exactly cols x lift bytes; it is filled in, whatever stood there, with the only codeword that has those data bits. Refusals
 * 1 to 6, 16, 30 where the plan has not this shape, 31 where `data` has another length or a byte above 1. A result puts nothing
 * into `out`. */
uint64_t qcldpc_encode(const int16_t *plan, size_t plan_len, uint64_t rows, uint64_t cols, uint64_t lift,
                       const uint8_t *data, size_t data_len, uint8_t *word, size_t word_len, uint64_t *out, size_t out_len);

/* Writes the alist text of a plan, padded; bytes past it stay. Refusals 1 to 6, 17 (so an empty place asks for the length,
 * whatever the weights are), 25. out[0] is the text's length. */
uint64_t qcldpc_alist_write(const int16_t *plan, size_t plan_len, uint64_t rows, uint64_t cols, uint64_t lift,
                            const uint16_t *row_weights, size_t row_weights_len, const uint16_t *col_weights,
                            size_t col_weights_len, uint8_t *text, size_t text_len, uint64_t *out, size_t out_len);

/* Compares a text with the alist of a plan, token by token. A text agrees when it is either form of the alist, whole:
 * padded, with short lists filled up with 0, where line feeds are blanks as space, tab and CR are; or unpadded, with every
 * short list ended by its line, where each line feed is a token, those of blank lines and the last one included. A text
 * with some short lists padded and others not agrees with neither form. Refusals 1 to 6, 21, 25. 21 shows, where a text
 * agrees with neither, the later of the two places at which it first departs from them, each the first byte of a wrong or
 * extra token, or the text's length where it ends early (so an unpadded text without its last line feed shows its length). */
uint64_t qcldpc_alist_compare(const int16_t *plan, size_t plan_len, uint64_t rows, uint64_t cols, uint64_t lift,
                              const uint16_t *row_weights, size_t row_weights_len, const uint16_t *col_weights,
                              size_t col_weights_len, const uint8_t *text, size_t text_len, uint64_t *out, size_t out_len);

#ifdef __cplusplus
}
#endif

#endif
