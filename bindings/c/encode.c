/* The reference of `bindings/rust/run bench encode`: data encoded by a bi-diagonal plan as plain C, compiled at -O3. Plan, word
 * length, shape and data are judged as in the library. The parity is found block by block: a filled block adds one column of
 * the word, turned, to another run of bytes, which is two plain sums of bytes. */
#include <stddef.h>
#include <stdint.h>
#include <string.h>

enum { ROWS = 192, COLS = 512, LIFT = 4096, BITS = 65536 };

/* A plan as it is handed in. */
struct plan {
    const int16_t *entries;
    size_t len, rows, cols, lift;
};

/* Refusals 1 to 6 of a plan, or 0. */
static unsigned judge(const struct plan *plan)
{
    if (plan->rows < 1 || plan->rows > ROWS)
        return 1;
    if (plan->cols < 1 || plan->cols > COLS)
        return 2;
    if (plan->lift < 1 || plan->lift > LIFT)
        return 3;
    if (plan->cols * plan->lift > BITS)
        return 4;
    if (plan->len != plan->rows * plan->cols)
        return 5;
    for (size_t k = 0; k < plan->len; k++)
        if (plan->entries[k] < -1)
            return 6;
    return 0;
}

/* A number's remainder by the lift, without a division where it is below. */
static size_t reduced(int16_t entry, size_t lift)
{
    return (size_t)entry < lift ? (size_t)entry : (size_t)entry % lift;
}

/* Whether columns 0 to rows - 2 have the remainder 0 in two rows, and no other block. */
static int has_diagonals(const struct plan *plan)
{
    for (size_t i = 0; i < plan->rows; i++) {
        const int16_t *row = plan->entries + i * plan->cols;
        for (size_t j = 0; j + 1 < plan->rows; j++) {
            const int on = j == i || j + 1 == i;
            if (on ? row[j] < 0 || reduced(row[j], plan->lift) != 0 : row[j] >= 0)
                return 0;
        }
    }
    return 1;
}

/* Of the three blocks of column rows - 1 two have the same remainder: that of the third. -1 where there is no such. */
static int third(const struct plan *plan)
{
    size_t found[3], count = 0;
    for (size_t i = 0; i < plan->rows; i++) {
        const int16_t entry = plan->entries[i * plan->cols + plan->rows - 1];
        if (entry < 0)
            continue;
        if (count == 3)
            return -1;
        found[count++] = reduced(entry, plan->lift);
    }
    if (count != 3)
        return -1;
    if (found[0] == found[1])
        return (int)found[2];
    if (found[0] == found[2])
        return (int)found[1];
    return found[1] == found[2] ? (int)found[0] : -1;
}

static int are_bits(const uint8_t *data, size_t len)
{
    uint8_t all = 0;
    for (size_t k = 0; k < len; k++)
        all |= data[k];
    return all <= 1;
}

static void add(uint8_t *restrict sum, const uint8_t *restrict bits, size_t len)
{
    for (size_t k = 0; k < len; k++)
        sum[k] ^= bits[k];
}

/* Adds a column of the word to the sums of a row's checks: check y has its bit (y + shift) mod lift. */
static void add_turned(uint8_t *sums, const uint8_t *column, size_t shift, size_t lift)
{
    add(sums, column + shift, lift - shift);
    add(sums + (lift - shift), column, shift);
}

/* Adds to the sums of a row's checks all that its data columns hold. */
static void add_data(const struct plan *plan, size_t i, uint8_t *sums, const uint8_t *word)
{
    const int16_t *row = plan->entries + i * plan->cols;
    for (size_t j = plan->rows; j < plan->cols; j++)
        if (row[j] >= 0)
            add_turned(sums, word + j * plan->lift, reduced(row[j], plan->lift), plan->lift);
}

/* The parity bits of a word that has its data. Column i first takes the data's sums of row i, for all rows but the last; all
 * sums together are column rows - 1, turned; then each column takes what else its row has. */
static void fill_parity(const struct plan *plan, size_t shift, uint8_t *word)
{
    const size_t lift = plan->lift, m = plan->rows;
    uint8_t all[LIFT], *last = word + (m - 1) * lift;
    memset(word, 0, (m - 1) * lift);
    memset(all, 0, lift);
    for (size_t i = 0; i + 1 < m; i++) {
        add_data(plan, i, word + i * lift, word);
        add(all, word + i * lift, lift);
    }
    add_data(plan, m - 1, all, word);
    memcpy(last + shift, all, lift - shift);
    memcpy(last, all + (lift - shift), shift);
    for (size_t i = 0; i + 1 < m; i++) {
        const int16_t entry = plan->entries[i * plan->cols + m - 1];
        if (entry >= 0)
            add_turned(word + i * lift, last, reduced(entry, lift), lift);
        if (i > 0)
            add(word + i * lift, word + (i - 1) * lift, lift);
    }
}

/* A refusal, or 0 and the word. */
unsigned plain_encode(const int16_t *entries, size_t len, size_t rows, size_t cols, size_t lift,
                      const uint8_t *data, size_t data_len, uint8_t *word, size_t word_len)
{
    const struct plan plan = {entries, len, rows, cols, lift};
    const unsigned refused = judge(&plan);
    if (refused)
        return refused;
    if (word_len != cols * lift)
        return 16;
    if (rows < 3 || cols <= rows || !has_diagonals(&plan))
        return 30;
    const int shift = third(&plan);
    if (shift < 0)
        return 30;
    if (data_len != (cols - rows) * lift || !are_bits(data, data_len))
        return 31;
    memcpy(word + rows * lift, data, data_len);
    fill_parity(&plan, (size_t)shift, word);
    return 0;
}
