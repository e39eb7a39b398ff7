/* The references of `bindings/rust/run bench flip`: a round of turned bits as plain C, compiled at -O3. Plan, word and column
 * weights are judged as in the library. As there, each odd check adds 2 to the bytes of its bits, which leaves all parities as
 * they are; a byte above 3 is then turned. One goes from check to check, the other over whole runs of bytes. */
#include <stddef.h>
#include <stdint.h>
#include <string.h>

enum { ROWS = 192, COLS = 512, LIFT = 4096, BITS = 65536 };

/* A plan as it is handed in. */
struct plan {
    const int16_t *entries;
    size_t len, rows, cols, lift;
};

/* The filled blocks of a row: where each column's bits begin in the word, and the shift. */
struct row {
    size_t blocks, first[COLS], shift[COLS];
};

/* Refusals 1 to 6 of a plan, or 0. */
static unsigned judge(const struct plan *plan)
{
    if (plan->rows < 1 || plan->rows > ROWS)
        return 1;
    if (plan->cols < 1 || plan->cols > COLS)
        return 2;
    if (plan->lift < 1 || plan->lift > LIFT)
        return 3;
    if (plan->cols * plan->lift > BITS)
        return 4;
    if (plan->len != plan->rows * plan->cols)
        return 5;
    for (size_t k = 0; k < plan->len; k++)
        if (plan->entries[k] < -1)
            return 6;
    return 0;
}

/* Refusals 16, 18 and 19 of a word, or 0. */
static unsigned judge_word(const struct plan *plan, const uint8_t *word, size_t len)
{
    uint8_t most = 0;
    if (len != plan->cols * plan->lift)
        return 16;
    for (size_t k = 0; k < len; k++)
        most = word[k] > most ? word[k] : most;
    return most > 2 ? 18 : most == 2 ? 19 : 0;
}

/* Whether each column has three filled blocks. */
static int has_threes(const struct plan *plan)
{
    uint16_t weights[COLS] = {0};
    for (size_t i = 0; i < plan->rows; i++)
        for (size_t j = 0; j < plan->cols; j++)
            weights[j] += plan->entries[i * plan->cols + j] >= 0;
    for (size_t j = 0; j < plan->cols; j++)
        if (weights[j] != 3)
            return 0;
    return 1;
}

/* The refusal of an input, or 0. */
static unsigned judge_all(const struct plan *plan, const uint8_t *word, size_t len)
{
    const unsigned refused = judge(plan);
    if (refused)
        return refused;
    const unsigned bad = judge_word(plan, word, len);
    return bad ? bad : has_threes(plan) ? 0 : 32;
}

static void read_row(const struct plan *plan, size_t i, struct row *row)
{
    row->blocks = 0;
    for (size_t j = 0; j < plan->cols; j++) {
        const int16_t entry = plan->entries[i * plan->cols + j];
        if (entry < 0)
            continue;
        row->first[row->blocks] = j * plan->lift;
        row->shift[row->blocks++] = (size_t)entry < plan->lift ? (size_t)entry : (size_t)entry % plan->lift;
    }
}

/* The bit of check y in a block. */
static size_t bit_of(const struct row *row, size_t k, size_t y, size_t lift)
{
    const size_t z = y + row->shift[k];
    return row->first[k] + (z < lift ? z : z - lift);
}

/* Marks the bits of the odd checks of a row, check by check. */
static void mark_checks(const struct row *row, size_t lift, uint8_t *word)
{
    for (size_t y = 0; y < lift; y++) {
        uint8_t sum = 0;
        for (size_t k = 0; k < row->blocks; k++)
            sum ^= word[bit_of(row, k, y, lift)];
        if (sum & 1)
            for (size_t k = 0; k < row->blocks; k++)
                word[bit_of(row, k, y, lift)] += 2;
    }
}

static void add(uint8_t *restrict sums, const uint8_t *restrict bits, size_t len)
{
    for (size_t k = 0; k < len; k++)
        sums[k] ^= bits[k];
}

static void mark(uint8_t *restrict bits, const uint8_t *restrict sums, size_t len)
{
    for (size_t k = 0; k < len; k++)
        bits[k] += (sums[k] & 1) << 1;
}

/* The same over whole runs: check y has bit (y + shift) mod lift of each block. */
static void mark_runs(const struct row *row, size_t lift, uint8_t *word)
{
    uint8_t sums[LIFT];
    memset(sums, 0, lift);
    for (size_t k = 0; k < row->blocks; k++) {
        const size_t shift = row->shift[k];
        add(sums, word + row->first[k] + shift, lift - shift);
        add(sums + (lift - shift), word + row->first[k], shift);
    }
    for (size_t k = 0; k < row->blocks; k++) {
        const size_t shift = row->shift[k];
        mark(word + row->first[k] + shift, sums, lift - shift);
        mark(word + row->first[k], sums + (lift - shift), shift);
    }
}

/* Turns the bits with two marks or more, and takes all marks off. How many were turned. */
static size_t flip_marked(uint8_t *word, size_t len)
{
    size_t turned = 0;
    for (size_t k = 0; k < len; k++) {
        const uint8_t turn = word[k] > 3;
        turned += turn;
        word[k] = (word[k] & 1) ^ turn;
    }
    return turned;
}

/* A refusal, or 0 with the bits turned, and how many. */
static unsigned flip(const struct plan *plan, uint8_t *word, size_t len, size_t *turned,
                     void (*mark_row)(const struct row *row, size_t lift, uint8_t *word))
{
    const unsigned refused = judge_all(plan, word, len);
    struct row row;
    if (refused)
        return refused;
    for (size_t i = 0; i < plan->rows; i++) {
        read_row(plan, i, &row);
        mark_row(&row, plan->lift, word);
    }
    *turned = flip_marked(word, len);
    return 0;
}

unsigned plain_flip(const int16_t *entries, size_t len, size_t rows, size_t cols, size_t lift,
                    uint8_t *word, size_t word_len, size_t *turned)
{
    const struct plan plan = {entries, len, rows, cols, lift};
    return flip(&plan, word, word_len, turned, mark_checks);
}

unsigned plain_flip_runs(const int16_t *entries, size_t len, size_t rows, size_t cols, size_t lift,
                         uint8_t *word, size_t word_len, size_t *turned)
{
    const struct plan plan = {entries, len, rows, cols, lift};
    return flip(&plan, word, word_len, turned, mark_runs);
}
