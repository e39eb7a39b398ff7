/* Calls each of the seventeen functions from C. Says which line is wrong, or "c: 17 functions answer". */
#include "qcldpc.h"

#include <stdio.h>
#include <string.h>

static int wrong;

#define EXPECT(holds) \
    do { \
        if (!(holds)) { \
            printf("try.c:%d: %s does not hold\n", __LINE__, #holds); \
            wrong = 1; \
        } \
    } while (0)

/* The plan of one row with the shifts 0 and 1, at lift 2: four bits, two checks; and its weights. */
static const int16_t plan[2] = {0, 1};
static const uint16_t row_weights[1] = {2}, col_weights[2] = {1, 1};
static uint64_t out[QCLDPC_OUT];

/* Whether all numbers of a list are one number. */
static int all(const uint16_t *list, size_t length, uint16_t number)
{
    for (size_t k = 0; k < length; k++)
        if (list[k] != number)
            return 0;
    return 1;
}

static void plans(void)
{
    const int16_t bad[2] = {0, -2};
    const int16_t printed[4] = {2, 32766, 4, 3};
    const int16_t zeros[4] = {0, 0, 0, 0};
    const int16_t two_lengths[6] = {0, 0, 0, 0, 1, 1};
    EXPECT(qcldpc_check(plan, 2, 1, 2, 2, out, QCLDPC_OUT) == 0);
    EXPECT(qcldpc_check(bad, 2, 1, 2, 2, out, QCLDPC_OUT) == 6 && out[0] == 1);
    EXPECT(qcldpc_check(plan, 2, 1, 2, 4097, out, QCLDPC_OUT) == 3);
    /* by 2 the remainders are 0 0 / 0 1, which closes on the second round */
    EXPECT(qcldpc_girth(printed, 4, 2, 2, 2, 12, out, QCLDPC_OUT) == 0 && 2 * out[0] == 8);
    EXPECT(qcldpc_girth(plan, 2, 1, 2, 2, 12, out, QCLDPC_OUT) == 0 && out[0] == 0);
    EXPECT(qcldpc_girth(zeros, 4, 2, 2, 1, 6, out, QCLDPC_OUT) == 0 && out[0] == 2);
    EXPECT(out[1] + out[2] == 1 && out[9] + out[10] == 1);
    /* columns 0 and 1 have a cycle of 8 edges, columns 1 and 2 one of 4: the girth is 4 */
    EXPECT(qcldpc_girth(two_lengths, 6, 2, 3, 2, 12, out, QCLDPC_OUT) == 0 && 2 * out[0] == 4);
    EXPECT(qcldpc_girth(plan, 2, 1, 2, 2, 20, out, QCLDPC_OUT) == 14);
}

/* By 4 the plan 0 0 / 0 1 closes on the fourth round, over all eight checks and bits. A short cycle fills the rest with 0. */
static void longest_cycle(void)
{
    const int16_t turning[4] = {0, 0, 0, 1}, zeros[4] = {0, 0, 0, 0};
    uint64_t checks = 0, bits = 0;
    EXPECT(qcldpc_girth(turning, 4, 2, 2, 4, 16, out, QCLDPC_OUT) == 0 && out[0] == 0);
    EXPECT(qcldpc_girth(turning, 4, 2, 2, 4, 18, out, QCLDPC_OUT) == 0 && 2 * out[0] == 16);
    for (int k = 0; k < 8; k++) {
        checks |= UINT64_C(1) << out[1 + k];
        bits |= UINT64_C(1) << out[9 + k];
    }
    EXPECT(checks == 255 && bits == 255);
    EXPECT(qcldpc_girth(zeros, 4, 2, 2, 4, 18, out, QCLDPC_OUT) == 0 && out[0] == 2);
    for (int k = 2; k < 8; k++)
        EXPECT(out[1 + k] == 0 && out[9 + k] == 0);
}

/* The girth test by sorted pairs, in a work list of so many places that holds 0, 1, 2, ... before the call. */
static uint64_t work[17];

static uint64_t pairs(const int16_t *entries, uint64_t lift, uint64_t target, size_t places)
{
    for (size_t k = 0; k < 17; k++)
        work[k] = k;
    return qcldpc_girth_pairs(entries, 4, 2, 2, lift, target, work, places, out, QCLDPC_OUT);
}

/* Whether the work list is as it was before the call. */
static int as_lent(void)
{
    for (size_t k = 0; k < 17; k++)
        if (work[k] != k)
            return 0;
    return 1;
}

/* From each column of the plans here two walks of every length lead away: at 18 a tree has 1 + 8 * 2 nodes, at 6 it has 5. */
static void sorted_pairs(void)
{
    const int16_t turning[4] = {0, 0, 0, 1}, zeros[4] = {0, 0, 0, 0}, bad[4] = {0, 0, 0, -2};
    EXPECT(pairs(turning, 4, 18, 17) == 0 && out[0] == 1);
    EXPECT(pairs(turning, 4, 16, 17) == 0 && out[0] == 0);
    EXPECT(pairs(turning, 4, 16, 15) == 0 && out[0] == 0);
    EXPECT(pairs(zeros, 1, 6, 5) == 0 && out[0] == 1);
    EXPECT(pairs(turning, 4, 18, 16) == 26 && as_lent());
    EXPECT(pairs(zeros, 1, 6, 4) == 26 && as_lent());
    EXPECT(pairs(zeros, 1, 6, 0) == 26 && as_lent());
    EXPECT(pairs(zeros, 1, 20, 17) == 14 && as_lent());
    EXPECT(pairs(zeros, 1, 7, 0) == 14 && as_lent());
    EXPECT(pairs(bad, 1, 7, 0) == 6 && out[0] == 3 && as_lent());
    EXPECT(qcldpc_girth_pairs(plan, 2, 1, 2, 2, 12, NULL, 0, out, QCLDPC_OUT) == 26);
}

static void words(void)
{
    uint8_t odd[4] = {1, 0, 1, 1}, lost[4] = {1, 0, 0, 2}, clash[4] = {1, 2, 2, 0};
    EXPECT(qcldpc_syndrome(plan, 2, 1, 2, 2, odd, 4, out, QCLDPC_OUT) == 0 && out[0] == 1 && out[1] == 1);
    EXPECT(qcldpc_syndrome(plan, 2, 1, 2, 2, lost, 4, out, QCLDPC_OUT) == 19 && out[0] == 3);
    EXPECT(qcldpc_fill(plan, 2, 1, 2, 2, lost, 4, out, QCLDPC_OUT) == 0 && out[0] == 1 && out[1] == 0);
    EXPECT(memcmp(lost, "\1\0\0\1", 4) == 0);
    EXPECT(qcldpc_fill(plan, 2, 1, 2, 2, clash, 4, out, QCLDPC_OUT) == 20);
    EXPECT(memcmp(clash, "\1\2\2\0", 4) == 0);
}

/* What filling would report, of words that stay as they are: one bit comes back, two are stuck, no values fit. */
static void previews(void)
{
    const uint8_t lost[4] = {1, 0, 0, 2}, stuck[4] = {2, 0, 0, 2}, clash[4] = {1, 2, 2, 0};
    EXPECT(qcldpc_preview(plan, 2, 1, 2, 2, lost, 4, out, QCLDPC_OUT) == 0 && out[0] == 1 && out[1] == 0);
    EXPECT(qcldpc_preview(plan, 2, 1, 2, 2, stuck, 4, out, QCLDPC_OUT) == 0 && out[0] == 0 && out[1] == 2);
    EXPECT(qcldpc_preview(plan, 2, 1, 2, 2, clash, 4, out, QCLDPC_OUT) == 20);
    EXPECT(qcldpc_preview(plan, 2, 1, 2, 2, lost, 3, out, QCLDPC_OUT) == 16);
}

/* The plan 0 0 0 / 0 1 2 / 0 2 1 at lift 3, with voltages above the lift, and a codeword of it. */
static const int16_t three_blocks[9] = {0, 3, 6, 9, 1, 32765, 0, 32, 4};
static const uint8_t codeword[9] = {1, 1, 1, 0, 0, 0, 1, 1, 1};

/* A round on the codeword with one byte changed, of three columns at lift 3; behind the codeword stands a byte more. */
static uint8_t flipped[10];

static uint64_t flip(const int16_t *entries, uint64_t rows, size_t place, uint8_t byte, size_t word_len)
{
    memcpy(flipped, codeword, sizeof codeword);
    flipped[9] = 7;
    flipped[place] = byte;
    return qcldpc_flip(entries, 3 * rows, rows, 3, 3, flipped, word_len, out, QCLDPC_OUT);
}

/* Whether the word is the codeword with one byte changed. */
static int flipped_is(size_t place, uint8_t byte)
{
    uint8_t wanted[10];
    memcpy(wanted, codeword, sizeof codeword);
    wanted[9] = 7;
    wanted[place] = byte;
    return memcmp(flipped, wanted, sizeof wanted) == 0;
}

/* By a plan that passes at 6 each wrong bit comes back. */
static void flips(void)
{
    EXPECT(qcldpc_girth(three_blocks, 9, 3, 3, 3, 6, out, QCLDPC_OUT) == 0 && out[0] == 0);
    out[1] = 5;
    EXPECT(flip(three_blocks, 3, 9, 7, 9) == 0 && out[0] == 0 && out[1] == 5 && flipped_is(9, 7));
    for (size_t bit = 0; bit < 9; bit++)
        EXPECT(flip(three_blocks, 3, bit, 1 - codeword[bit], 9) == 0 && out[0] == 1 && out[1] == 5 && flipped_is(9, 7));
}

static void many_flips(void)
{
    const int16_t four_rows[12] = {0, 0, -1, 0, 1, 0, 0, -1, 2, -1, 0, 0}, zeros[6] = {0, 0, 0, 0, 0, 0};
    uint8_t any[9] = {0, 0, 0, 0, 0, 0, 0, 1, 1}, two[2] = {1, 0};
    /* of the checks of the nine bits 1 1 2 1 1 2 0 3 3 are odd */
    EXPECT(qcldpc_flip(four_rows, 12, 4, 3, 3, any, 9, out, QCLDPC_OUT) == 0 && out[0] == 4);
    EXPECT(memcmp(any, "\0\0\1\0\0\1\0\0\0", 9) == 0);
    /* both bits have the same three checks */
    EXPECT(qcldpc_flip(zeros, 6, 3, 2, 1, two, 2, out, QCLDPC_OUT) == 0 && out[0] == 2 && two[0] == 0 && two[1] == 1);
}

/* Columns with two blocks, with four and with one; all else goes before that. */
static void other_weights(void)
{
    const int16_t two[9] = {0, 0, 0, 0, 1, 2, 0, 2, -1}, four[12] = {0, 0, 0, 0, 1, 2, 0, 2, 1, -1, 0, -1};
    const int16_t bad[9] = {0, 0, 0, 0, -1, 2, 0, 2, -2};
    EXPECT(flip(two, 3, 8, 0, 9) == 32 && flipped_is(8, 0) && flip(four, 4, 8, 0, 9) == 32 && flipped_is(8, 0));
    EXPECT(flip(two, 3, 8, 2, 9) == 19 && out[0] == 8 && flipped_is(8, 2));
    EXPECT(flip(two, 3, 8, 3, 9) == 18 && out[0] == 8 && flipped_is(8, 3));
    EXPECT(flip(two, 3, 4, 3, 8) == 16 && flipped_is(4, 3) && flip(three_blocks, 3, 0, 2, 10) == 16 && flipped_is(0, 2));
    EXPECT(flip(bad, 3, 4, 3, 8) == 6 && out[0] == 8 && flipped_is(4, 3));
    EXPECT(qcldpc_flip(plan, 2, 1, 2, 2, flipped, 4, out, QCLDPC_OUT) == 32 && flipped_is(4, 3));
    EXPECT(qcldpc_flip(plan, 2, 1, 2, 2, NULL, 0, out, QCLDPC_OUT) == 16);
}

static void erasures(void)
{
    /* eight bytes and three more; 131 and 130 have the low bits of 3 and 2 */
    const uint8_t any[11] = {131, 2, 0, 130, 3, 255, 1, 2, 2, 34, 2};
    EXPECT(qcldpc_count_erasures(any, 11, out, QCLDPC_OUT) == 0 && out[0] == 4);
    EXPECT(qcldpc_count_erasures(any, 8, out, QCLDPC_OUT) == 0 && out[0] == 2);
    EXPECT(qcldpc_count_erasures(NULL, 0, out, QCLDPC_OUT) == 0 && out[0] == 0);
}

/* The cyclic table of order 4 and the full mask, in places of some lengths: 48 rows and 64 columns are needed. */
static int16_t table[16], built[48 * 64];
static uint16_t built_rows[49], built_cols[65];

static uint64_t build(uint64_t lift, size_t places, size_t rows, size_t cols)
{
    uint8_t mask[16];
    memset(mask, 1, sizeof mask);
    return qcldpc_build(4, lift, table, 16, mask, 16, built, places, built_rows, rows, built_cols, cols, out, QCLDPC_OUT);
}

static void tables(void)
{
    EXPECT(qcldpc_array_table(4, table, 16, out, QCLDPC_OUT) == 0 && table[15] == 9 % 4);
    EXPECT(qcldpc_cyclic_table(4, table, 16, out, QCLDPC_OUT) == 0 && table[3] == 3);
    EXPECT(build(6, 48 * 64, 47, 64) == 10);
    EXPECT(out[0] == 0 && out[1] == 2 && out[2] == 1 && out[3] == 3);
    EXPECT(build(7, 48 * 63, 47, 64) == 15);
    EXPECT(build(7, 48 * 64, 47, 64) == 25 && build(7, 48 * 64, 49, 64) == 25);
    EXPECT(build(7, 48 * 64, 48, 63) == 25 && build(7, 48 * 64, 48, 65) == 25);
    EXPECT(built[0] == 0 && all(built_rows, 49, 0) && all(built_cols, 65, 0));
    /* what the lists hold is not read */
    built_rows[5] = built_cols[7] = 9;
    EXPECT(build(7, 48 * 64, 48, 64) == 0);
    EXPECT(out[0] == 48 && out[1] == 64);
    EXPECT(built[5 * 64 + 23] == 1 && built[23 * 64 + 23] == 0 && built[39 * 64 + 23] == 3);
    EXPECT(all(built_rows, 48, 4) && all(built_cols, 64, 3) && built_rows[48] == 0 && built_cols[64] == 0);
}

/* A Steiner triple plan, in places for 7 rows and some columns. */
static int16_t voltages[21], triple_plan[49];
static uint16_t triple_rows[7], triple_cols[7];

static uint64_t triples_of(uint64_t order, uint64_t lift, size_t voltages_len, size_t places, size_t cols)
{
    return qcldpc_steiner(order, lift, voltages, voltages_len, triple_plan, places, triple_rows, 7, triple_cols, cols,
                          out, QCLDPC_OUT);
}

/* The triples of order 7 are 0 1 3, 0 2 6, 0 4 5, 1 2 4, 1 5 6, 2 3 5 and 3 4 6; by 16 the voltages 16 to 20 are 0 to 4. */
static void triples(void)
{
    static const int16_t wanted[49] = {
        0, 3, 6, -1, -1, -1, -1,
        1, -1, -1, 9, 12, -1, -1,
        -1, 4, -1, 10, -1, 15, -1,
        2, -1, -1, -1, -1, 0, 2,
        -1, -1, 7, 11, -1, -1, 3,
        -1, -1, 8, -1, 13, 1, -1,
        -1, 5, -1, -1, 14, -1, 4,
    };
    for (int k = 0; k < 21; k++)
        voltages[k] = (int16_t)k;
    EXPECT(triples_of(7, 16, 21, 49, 7) == 0 && out[0] == 7 && out[1] == 7);
    EXPECT(memcmp(triple_plan, wanted, sizeof wanted) == 0 && all(triple_rows, 7, 3) && all(triple_cols, 7, 3));
    EXPECT(qcldpc_girth(triple_plan, 49, 7, 7, 16, 6, out, QCLDPC_OUT) == 0 && out[0] == 0);
    EXPECT(triples_of(7, 4097, 21, 49, 7) == 3);
    EXPECT(triples_of(19, 1150, 21, 49, 7) == 4);
    EXPECT(triples_of(8, 1150, 21, 49, 6) == 22);
    EXPECT(triples_of(9, 16, 21, 49, 7) == 23);
    EXPECT(triples_of(7, 16, 20, 49, 7) == 23);
    EXPECT(triples_of(7, 16, 21, 48, 6) == 23);
    EXPECT(triples_of(7, 15, 21, 49, 6) == 25);
    voltages[5] = voltages[20] = -1;
    EXPECT(triples_of(8, 16, 21, 48, 7) == 6 && out[0] == 5);
    EXPECT(memcmp(triple_plan, wanted, sizeof wanted) == 0 && all(triple_rows, 7, 3) && all(triple_cols, 7, 3));
}

/* The plan 0 0 / 0 1 at lift 4, whose last block is changed, and its weights. */
static int16_t changing[4] = {0, 0, 0, 1};
static uint16_t changing_rows[2] = {2, 2}, changing_cols[2] = {2, 2};

static uint64_t change_in(size_t rows, size_t cols, uint64_t row, uint64_t col, int16_t entry)
{
    return qcldpc_change(changing, 4, 2, 2, 4, row, col, entry, changing_rows, rows, changing_cols, cols, out, QCLDPC_OUT);
}

static uint64_t change(uint64_t row, uint64_t col, int16_t entry)
{
    return change_in(2, 2, row, col, entry);
}

/* Whether the last entry and the last weights are these, and the others as at first. */
static int last_are(int16_t entry, uint16_t row_weight, uint16_t col_weight)
{
    return changing[0] == 0 && changing[1] == 0 && changing[2] == 0 && changing[3] == entry
        && changing_rows[0] == 2 && changing_rows[1] == row_weight && changing_cols[0] == 2 && changing_cols[1] == col_weight;
}

static void changes(void)
{
    out[0] = 5;
    EXPECT(change(1, 1, 6) == 0 && last_are(6, 2, 2) && out[0] == 5);
    EXPECT(qcldpc_girth(changing, 4, 2, 2, 4, 18, out, QCLDPC_OUT) == 0 && 2 * out[0] == 8);
    EXPECT(change(1, 1, -1) == 0 && last_are(-1, 1, 1));
    EXPECT(qcldpc_girth(changing, 4, 2, 2, 4, 18, out, QCLDPC_OUT) == 0 && out[0] == 0);
    EXPECT(change(1, 1, 32767) == 0 && last_are(32767, 2, 2));
    EXPECT(change(0, 0, -2) == 6 && out[0] == 4);
    EXPECT(change(2, 0, 1) == 24 && change(0, 2, 1) == 24 && change(UINT64_MAX, UINT64_MAX, 1) == 24);
    EXPECT(change_in(1, 2, 0, 0, 1) == 25 && change_in(2, 1, 0, 0, 1) == 25);
    changing_cols[1] = 3;
    EXPECT(change(0, 0, 1) == 25 && change(0, 2, 1) == 24 && change(0, 2, -2) == 6);
    EXPECT(last_are(32767, 2, 3));
    changing[3] = -2;
    EXPECT(change(2, 0, -3) == 6 && out[0] == 3);
}

/* The plan 0 1 / -1 2 at lift 3 joined with another of four entries, in a place of so many numbers that holds 5 before. */
static int16_t joined[5];

static uint64_t join(const int16_t *second, uint64_t rows2, uint64_t cols2, uint64_t lift2, size_t places)
{
    static const int16_t first[4] = {0, 1, -1, 2};
    for (size_t k = 0; k < 5; k++)
        joined[k] = 5;
    return qcldpc_join(first, 4, 2, 2, 3, second, 4, rows2, cols2, lift2, joined, places, out, QCLDPC_OUT);
}

/* Whether the place is as it was before the call. */
static int still_five(void)
{
    for (size_t k = 0; k < 5; k++)
        if (joined[k] != 5)
            return 0;
    return 1;
}

/* 9 leaves 0 by 3 and 1 by 4, 4 leaves 1 and 0, 11 leaves 2 and 3; 7 leaves 3 by 4 too. */
static void joins(void)
{
    static const int16_t second[4] = {1, 0, -1, 7}, full[4] = {1, 0, 5, 7}, bad[4] = {1, -2, -1, -3}, wide[17];
    static const int16_t wanted[5] = {9, 4, -1, 11, 5}, first_again[5] = {0, 1, -1, 2, 5};
    int16_t wide_joined[17];
    out[1] = 7;
    EXPECT(join(second, 2, 2, 4, 4) == 0 && out[0] == 12 && out[1] == 7);
    EXPECT(memcmp(joined, wanted, sizeof wanted) == 0);
    EXPECT(join(second, 2, 2, 1, 4) == 0 && out[0] == 3 && memcmp(joined, first_again, sizeof first_again) == 0);
    EXPECT(join(second, 2, 2, 1366, 4) == 3 && join(second, 2, 2, UINT64_MAX, 4) == 3 && still_five());
    EXPECT(join(second, 0, 2, 0, 4) == 1 && join(second, 2, 3, 4, 4) == 5 && still_five());
    EXPECT(join(bad, 2, 2, 6, 3) == 6 && out[0] == 1 && still_five());
    EXPECT(join(full, 2, 2, 6, 3) == 27 && join(second, 2, 2, 9, 4) == 27 && still_five());
    EXPECT(join(full, 2, 2, 4, 3) == 28 && join(second, 4, 1, 4, 4) == 28 && join(full, 2, 2, 4, 4) == 28 && still_five());
    EXPECT(join(second, 2, 2, 4, 3) == 29 && join(second, 2, 2, 4, 5) == 29 && join(second, 2, 2, 4, 0) == 29 && still_five());
    /* 17 columns at lift 15 * 257 have 65,535 bits, at lift 16 * 241 they have 65,552; both plans may be one */
    EXPECT(qcldpc_join(wide, 17, 1, 17, 15, wide, 17, 1, 17, 257, wide_joined, 17, out, QCLDPC_OUT) == 0 && out[0] == 3855);
    EXPECT(qcldpc_join(wide, 17, 1, 17, 16, wide, 17, 1, 17, 241, wide_joined, 17, out, QCLDPC_OUT) == 4);
    /* where both plans have bad entries, the first plan's place is shown */
    EXPECT(qcldpc_join(bad, 4, 2, 2, 3, bad + 1, 3, 1, 3, 4, joined, 4, out, QCLDPC_OUT) == 6 && out[0] == 1);
    EXPECT(qcldpc_join(bad + 1, 3, 1, 3, 3, bad, 4, 2, 2, 4, joined, 4, out, QCLDPC_OUT) == 6 && out[0] == 0);
}

/* A bi-diagonal plan: of column 2, rows 0 and 2 have the remainder 1 by 3, and row 1 has 0; 3 and 9 leave 0, and 7 leaves 1. */
static const int16_t bidiagonal[12] = {
    0, -1, 1, 0,
    3, 9, 0, -1,
    -1, 0, 7, 2,
};

/* A plan of three rows, at lift 3, and data bits; the word, of so many bytes, holds 7 before the call. */
static uint8_t frame[13];

static uint64_t encode(const int16_t *entries, uint64_t cols, const uint8_t *data, size_t data_len, size_t word_len)
{
    memset(frame, 7, sizeof frame);
    return qcldpc_encode(entries, 3 * cols, 3, cols, 3, data, data_len, frame, word_len, out, QCLDPC_OUT);
}

/* Whether the word is as it was before the call. */
static int still_seven(void)
{
    for (size_t k = 0; k < sizeof frame; k++)
        if (frame[k] != 7)
            return 0;
    return 1;
}

static void encodings(void)
{
    const uint8_t first[3] = {1, 0, 0}, both[3] = {1, 1, 0}, two[3] = {1, 0, 2};
    out[0] = 5;
    EXPECT(encode(bidiagonal, 4, first, 3, 12) == 0 && memcmp(frame, "\0\0\1\1\1\1\1\1\0\1\0\0\7", 13) == 0 && out[0] == 5);
    EXPECT(qcldpc_syndrome(bidiagonal, 12, 3, 4, 3, frame, 12, out, QCLDPC_OUT) == 0 && out[0] == 0);
    EXPECT(encode(bidiagonal, 4, both, 3, 12) == 0 && memcmp(frame, "\1\0\1\0\0\0\1\0\1\1\1\0\7", 13) == 0);
    EXPECT(encode(bidiagonal, 4, first, 3, 11) == 16 && encode(bidiagonal, 4, two, 3, 13) == 16 && still_seven());
    EXPECT(encode(bidiagonal, 4, first, 2, 12) == 31 && encode(bidiagonal, 4, NULL, 0, 12) == 31 && still_seven());
    EXPECT(encode(bidiagonal, 4, two, 3, 12) == 31 && still_seven());
}

/* One entry of the bi-diagonal plan is another; the last data byte is this. */
static uint64_t encode_with(size_t place, int16_t entry, uint8_t last)
{
    const uint8_t data[3] = {1, 0, last};
    int16_t changed[12];
    memcpy(changed, bidiagonal, sizeof changed);
    changed[place] = entry;
    return encode(changed, 4, data, 3, 12);
}

static void other_shapes(void)
{
    const int16_t no_data[9] = {0, -1, 1, 0, 0, 0, -1, 0, 1};
    const uint8_t bits[2] = {1, 0};
    /* on the two diagonals: a block that leaves 1, none, one beside them; and one that leaves 0 */
    EXPECT(encode_with(4, 4, 0) == 30 && encode_with(9, -1, 2) == 30 && encode_with(1, 0, 0) == 30 && still_seven());
    EXPECT(encode_with(9, 32766, 2) == 31 && still_seven() && encode_with(9, 32766, 0) == 0);
    /* in column 2: three remainders, two blocks; and two other blocks that leave the same */
    EXPECT(encode_with(10, 5, 0) == 30 && encode_with(6, -1, 0) == 30 && still_seven() && encode_with(10, 3, 0) == 0);
    EXPECT(encode_with(4, -2, 2) == 6 && out[0] == 4 && still_seven());
    /* no column of data, and one row */
    EXPECT(encode(no_data, 3, NULL, 0, 9) == 30 && still_seven());
    EXPECT(qcldpc_encode(plan, 2, 1, 2, 2, bits, 2, frame, 4, out, QCLDPC_OUT) == 30 && still_seven());
}

/* The plan's alist, in a place of 64 bytes; with its first so many row and column weights. */
static uint8_t text[64];

static uint64_t write_text(size_t rows, size_t cols, size_t length)
{
    return qcldpc_alist_write(plan, 2, 1, 2, 2, row_weights, rows, col_weights, cols, text, length, out, QCLDPC_OUT);
}

static uint64_t compare_text(size_t rows, size_t cols, size_t length)
{
    return qcldpc_alist_compare(plan, 2, 1, 2, 2, row_weights, rows, col_weights, cols, text, length, out, QCLDPC_OUT);
}

static void texts(void)
{
    static const char alist[] = "4 2\n1 2\n1 1 1 1\n2 2\n1\n2\n2\n1\n1 4\n2 3\n";
    const size_t length = sizeof alist - 1;
    memset(text, 'x', sizeof text);
    EXPECT(write_text(1, 2, 0) == 17 && out[0] == length);
    EXPECT(write_text(0, 2, length - 1) == 17 && out[0] == length);
    EXPECT(write_text(0, 2, sizeof text) == 25 && write_text(1, 1, sizeof text) == 25 && text[0] == 'x');
    EXPECT(write_text(1, 2, sizeof text) == 0 && out[0] == length);
    EXPECT(memcmp(text, alist, length) == 0 && text[length] == 'x');
    EXPECT(compare_text(1, 2, length) == 0);
    EXPECT(compare_text(1, 2, length + 1) == 21 && out[0] == length);
    EXPECT(compare_text(0, 2, length + 1) == 21 && out[0] == length);
    EXPECT(compare_text(0, 2, length) == 25 && compare_text(1, 1, length) == 25);
}

/* Compares a text with the plan of one row with the shift 0 and a zero block, at lift 1: the second bit has no check. */
static uint64_t compare_short(const char *short_text, size_t length)
{
    const int16_t irregular[2] = {0, -1};
    const uint16_t rows[1] = {1}, cols[2] = {1, 0};
    return qcldpc_alist_compare(irregular, 2, 1, 2, 1, rows, 1, cols, 2, (const uint8_t *)short_text, length, out, QCLDPC_OUT);
}

static void unpadded_texts(void)
{
    static const char padded[] = "2 1\n1 1\n1 0\n1\n1\n0\n1\n";
    static const char unpadded[] = "2 1\n1 1\n1 0\n1\n1\n\n1\n";
    EXPECT(compare_short(padded, 20) == 0);
    EXPECT(compare_short(padded, 19) == 0);
    EXPECT(compare_short(unpadded, 19) == 0);
    /* the padded form lacks a 0 at 17; in the unpadded form the text ends early */
    EXPECT(compare_short(unpadded, 18) == 21 && out[0] == 18);
    /* the unpadded form has no 0 at 16; the padded form has no number behind the last */
    EXPECT(compare_short("2 1\n1 1\n1 0\n1\n1\n0\n1\n2\n", 22) == 21 && out[0] == 20);
    /* one line feed too many, and one too few */
    EXPECT(compare_short("2 1\n1 1\n1 0\n1\n1\n\n1\n\n", 20) == 21 && out[0] == 19);
    EXPECT(compare_short("2 1\n1 1\n1 0\n1\n1\n1\n", 18) == 21 && out[0] == 16);
}

static void too_small_an_out(void)
{
    uint8_t word[4] = {1, 0, 0, 2}, encoded[12] = {7}, one_wrong[9] = {1};
    const uint8_t data[3] = {1, 0, 0};
    int16_t place[2] = {5, 5};
    out[0] = 5;
    EXPECT(qcldpc_fill(plan, 2, 1, 2, 2, word, 4, out, QCLDPC_OUT - 1) == QCLDPC_NO_ROOM);
    EXPECT(qcldpc_join(plan, 2, 1, 2, 2, plan, 2, 1, 2, 3, place, 2, out, QCLDPC_OUT - 1) == QCLDPC_NO_ROOM);
    EXPECT(qcldpc_encode(bidiagonal, 12, 3, 4, 3, data, 3, encoded, 12, out, QCLDPC_OUT - 1) == QCLDPC_NO_ROOM);
    EXPECT(qcldpc_flip(three_blocks, 9, 3, 3, 3, one_wrong, 9, out, QCLDPC_OUT - 1) == QCLDPC_NO_ROOM);
    EXPECT(out[0] == 5 && word[3] == 2 && place[0] == 5 && place[1] == 5 && encoded[0] == 7 && one_wrong[0] == 1);
}

int main(void)
{
    plans();
    longest_cycle();
    sorted_pairs();
    words();
    previews();
    flips();
    many_flips();
    other_weights();
    erasures();
    tables();
    triples();
    changes();
    joins();
    encodings();
    other_shapes();
    texts();
    unpadded_texts();
    too_small_an_out();
    if (!wrong)
        puts("c: 17 functions answer");
    return wrong;
}
