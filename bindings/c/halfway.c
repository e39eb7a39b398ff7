/* The reference of `bindings/rust/run bench girth`: the search of the library's girth test as plain C, compiled at -O3.
 * It takes a valid plan and keeps its tables in static memory. */
#include <stddef.h>
#include <stdint.h>
#include <string.h>

enum { ROWS = 192, COLS = 512, BITS = 65536, NOWHERE = 65535 };

/* A filled block, seen from its row or from its column: the column or row at its other end, and its shift. */
struct block {
    uint16_t to, shift;
};

/* The blocks of a row or column, by rising `to`; those before first are not entered. */
struct list {
    struct block *begin, *first, *last;
};

/* Of a way's checks, and of the bit after each, the last stands first. A way is half of a cycle of at most 8 checks. */
struct way {
    size_t length, checks[4], bits[4], end;
};

static struct block by_row[ROWS * COLS], by_col[ROWS * COLS];
static struct list rows_of[COLS], cols_of[ROWS];
static uint16_t seen[BITS], stamp;
static unsigned lift;
static struct way way;

/* Lists the blocks of each row, and counts those of each column. */
static void list_rows(const int16_t *plan, size_t rows, size_t cols, size_t *heights)
{
    struct block *place = by_row;
    for (size_t i = 0; i < rows; i++) {
        cols_of[i].begin = place;
        for (size_t j = 0; j < cols; j++) {
            const int e = plan[i * cols + j];
            if (e < 0)
                continue;
            *place++ = (struct block){(uint16_t)j, (uint16_t)((unsigned)e < lift ? (unsigned)e : (unsigned)e % lift)};
            heights[j]++;
        }
        cols_of[i].last = place;
    }
}

/* Lists the blocks of each column, from the lists of the rows. */
static void list_cols(size_t rows, size_t cols, const size_t *heights)
{
    struct block *place = by_col;
    for (size_t j = 0; j < cols; j++) {
        rows_of[j].begin = rows_of[j].last = place;
        place += heights[j];
    }
    for (size_t i = 0; i < rows; i++)
        for (const struct block *b = cols_of[i].begin; b < cols_of[i].last; b++)
            *rows_of[b->to].last++ = (struct block){(uint16_t)i, b->shift};
}

/* All blocks may be entered. */
static void enter_all(struct list *lists, size_t count)
{
    for (size_t k = 0; k < count; k++)
        lists[k].first = lists[k].begin;
}

/* Stamps the bits of a check but the one just left, and says whether one bears the stamp already. */
static int arrive(unsigned row, unsigned from, unsigned y)
{
    for (const struct block *b = cols_of[row].first; b < cols_of[row].last; b++) {
        if (b->to == from)
            continue;
        const unsigned z = y + b->shift < lift ? y + b->shift : y + b->shift - lift;
        const size_t bit = (size_t)b->to * lift + z;
        if (seen[bit] == stamp) {
            way = (struct way){1, {row * lift + y}, {bit}, bit};
            return 1;
        }
        seen[bit] = stamp;
    }
    return 0;
}

static int from_bit(unsigned depth, unsigned col, unsigned from, unsigned z);

/* All ways on from a check, to its bits and over `depth` checks more. */
static int from_check(unsigned depth, unsigned row, unsigned from, unsigned y)
{
    if (depth == 0)
        return arrive(row, from, y);
    for (const struct block *b = cols_of[row].first; b < cols_of[row].last; b++) {
        if (b->to == from)
            continue;
        const unsigned z = y + b->shift < lift ? y + b->shift : y + b->shift - lift;
        if (from_bit(depth, b->to, row, z)) {
            way.checks[way.length] = row * lift + y;
            way.bits[way.length++] = b->to * lift + z;
            return 1;
        }
    }
    return 0;
}

/* All ways on from a bit, over `depth` checks. */
static int from_bit(unsigned depth, unsigned col, unsigned from, unsigned z)
{
    for (const struct block *b = rows_of[col].first; b < rows_of[col].last; b++) {
        if (b->to == from)
            continue;
        const unsigned y = z >= b->shift ? z - b->shift : z + lift - b->shift;
        if (from_check(depth - 1, b->to, col, y))
            return 1;
    }
    return 0;
}

static int ways_from(unsigned n, unsigned root)
{
    stamp++;
    return n % 2 ? from_check(n / 2, root, NOWHERE, 0) : from_bit(n / 2, root, NOWHERE, 0);
}

/* A cycle of n checks through a root: where two ways meet, the earlier is found by its end. */
static int meet_at(unsigned n, unsigned root, size_t *checks, size_t *bits)
{
    if (!ways_from(n, root))
        return 0;
    const struct way second = way;
    seen[second.end] = (uint16_t)(stamp + 1);
    ways_from(n, root);
    /* back from the end of the second way to the root, where the first begins */
    size_t k = 0;
    for (; k < n / 2; k++) {
        checks[k] = second.checks[k];
        bits[k] = k + 1 < second.length ? second.bits[k + 1] : (size_t)root * lift;
    }
    for (size_t left = way.length; left-- > 0; k++) {
        checks[k] = way.checks[left];
        bits[k] = way.bits[left];
    }
    return 1;
}

/* From the next root on, the blocks of this one are not entered: each stands first in its list. */
static void leave(const struct list *root, struct list *lists)
{
    for (const struct block *b = root->first; b < root->last; b++)
        lists[b->to].first++;
}

/* n of a shortest cycle of fewer edges than the target, at most 18, and its n checks and bits; 0 where there is none. */
unsigned plain_halfway(const int16_t *plan, size_t rows, size_t cols, size_t the_lift, size_t target,
                       size_t *checks, size_t *bits)
{
    lift = (unsigned)the_lift;
    stamp = 0;
    memset(seen, 0, cols * lift * sizeof *seen);
    size_t heights[COLS] = {0};
    list_rows(plan, rows, cols, heights);
    list_cols(rows, cols, heights);
    for (unsigned n = 2; n < target / 2; n++) {
        enter_all(cols_of, rows);
        enter_all(rows_of, cols);
        const size_t roots = n % 2 ? rows : cols;
        for (unsigned root = 0; root < roots; root++) {
            if (meet_at(n, root, checks, bits))
                return n;
            if (n % 2)
                leave(&cols_of[root], rows_of);
            else
                leave(&rows_of[root], cols_of);
        }
    }
    return 0;
}
