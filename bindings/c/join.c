/* The reference of `bindings/rust/run bench join`: two plans made one as plain C, compiled at -O3. Both plans are judged, a
 * multiple of the first lift that leaves 1 by the second is found once, and each entry is one step, as in the library. */
#include <stddef.h>
#include <stdint.h>

enum { ROWS = 192, COLS = 512, LIFT = 4096, BITS = 65536 };

/* A plan as it is handed in. */
struct plan {
    const int16_t *entries;
    size_t len, rows, cols, lift;
};

/* Refusals 1 to 6 of a plan at a lift, or 0. */
static unsigned judge(const struct plan *plan, size_t lift)
{
    if (plan->rows < 1 || plan->rows > ROWS)
        return 1;
    if (plan->cols < 1 || plan->cols > COLS)
        return 2;
    if (lift < 1 || lift > LIFT)
        return 3;
    if (plan->cols * lift > BITS)
        return 4;
    if (plan->len != plan->rows * plan->cols)
        return 5;
    for (size_t k = 0; k < plan->len; k++)
        if (plan->entries[k] < -1)
            return 6;
    return 0;
}

/* The lower of two refusals, where 0 is none. */
static unsigned lower(unsigned a, unsigned b)
{
    return a == 0 || (b != 0 && b < a) ? b : a;
}

/* Refusals 1 to 6 of both plans and of the joined size, or 0. */
static unsigned judge_both(const struct plan *first, const struct plan *second)
{
    const size_t joined = first->lift > LIFT ? first->lift : second->lift > LIFT ? second->lift : first->lift * second->lift;
    return lower(lower(judge(first, first->lift), judge(second, second->lift)), judge(first, joined));
}

/* Whether two valid plans differ in rows, columns or empty blocks. */
static int differ(const struct plan *first, const struct plan *second)
{
    if (first->rows != second->rows || first->cols != second->cols)
        return 1;
    for (size_t k = 0; k < first->len; k++)
        if ((first->entries[k] < 0) != (second->entries[k] < 0))
            return 1;
    return 0;
}

/* The multiple of p that leaves 1 by q, or -1. */
static int find_unit(unsigned p, unsigned q)
{
    for (unsigned k = 0; k < q; k++)
        if (p * k % q == 1 % q)
            return (int)(p * k);
    return -1;
}

/* A number's remainder by a lift, without a division where it is below. */
static unsigned reduced(unsigned number, unsigned lift)
{
    return number < lift ? number : number % lift;
}

/* A refusal, or 0 and the joined plan. */
unsigned plain_join(const int16_t *entries, size_t len, size_t rows, size_t cols, size_t lift,
                    const int16_t *entries2, size_t len2, size_t rows2, size_t cols2, size_t lift2,
                    int16_t *joined, size_t joined_len)
{
    const struct plan first = {entries, len, rows, cols, lift}, second = {entries2, len2, rows2, cols2, lift2};
    const unsigned refused = judge_both(&first, &second);
    if (refused)
        return refused;
    const unsigned p = (unsigned)lift, q = (unsigned)lift2;
    const int unit = find_unit(p, q);
    if (unit < 0)
        return 27;
    if (differ(&first, &second))
        return 28;
    if (joined_len != len)
        return 29;
    for (size_t k = 0; k < len; k++) {
        if (entries[k] < 0) {
            joined[k] = -1;
            continue;
        }
        const unsigned e = reduced((unsigned)entries[k], p), f = reduced((unsigned)entries2[k], q);
        joined[k] = (int16_t)((e + (unsigned)unit * (f + q - reduced(e, q))) % (p * q));
    }
    return 0;
}
