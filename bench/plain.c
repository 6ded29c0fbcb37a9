/* The archive's checks in plain C: numbers are read where they lie in the delivery, and a row's marked exits are the bits of one byte. */
#include "plain.h"

#include <stdbool.h>

enum { MOST_RECORDS = 1024, MOST_ROWS = 128, RULE_BYTES = 10, FIGURE_BYTES = 8 };
enum { CERTAIN = 65536, SCALE = 1 << 20, UNIT_SHIFT = 36, STEP_SHIFT = 44 };

enum reason {
    ACCEPTED = 0,
    MODEL_LENGTH = 10, OUT_OF_RANGE, UNUSED_NOT_ZERO, WEIGHT_OUT_OF_RANGE, NOT_ASCENDING, ROW_SUM_WRONG,
    NO_SHAPE = 20, NOT_DUE, VALUE_OUT_OF_RANGE, DEAD_NOT_ZERO, UPPER_TOO_SMALL, LOWER_ABOVE_UPPER, LOWER_TOO_LARGE, MEAN_TOO_SMALL
};

struct outcome {
    enum reason reason;
    uint32_t place;
    int64_t shortfall;
};

/* A model: its file, its sizes, and where each row's records start. */
struct model {
    const uint8_t *file;
    size_t records, states, symbols, rows, entries;
    uint16_t starts[MOST_ROWS + 1];
};

struct shape {
    bool known, lowers, means;
};

static struct outcome accepted(void)
{
    return (struct outcome){ACCEPTED, 0, 0};
}

static struct outcome refused(enum reason reason, size_t place)
{
    return (struct outcome){reason, (uint32_t)place, 0};
}

static struct outcome missed(enum reason reason, size_t place, uint64_t have, uint64_t need)
{
    return (struct outcome){reason, (uint32_t)place, (int64_t)(have - need)};
}

static uint32_t word(const uint8_t *b)
{
    return (uint32_t)b[0] | (uint32_t)b[1] << 8 | (uint32_t)b[2] << 16 | (uint32_t)b[3] << 24;
}

static const uint8_t *rule(const struct model *m, size_t i)
{
    return m->file + RULE_BYTES * i;
}

static uint32_t weight(const uint8_t *r)
{
    return word(r + 6);
}

/* 10 to 15: the model's tests. */

static uint64_t key(const uint8_t *r)
{
    return (uint64_t)r[0] << 40 | (uint64_t)r[1] << 32 | (uint64_t)r[2] << 24 | (uint64_t)r[3] << 16 | (uint64_t)r[4] << 8 | r[5];
}

static bool unused_zero(const uint8_t *r)
{
    if (r[3] == 0)
        return r[4] == 0 && r[5] == 0;
    return r[3] == 2 || r[5] == 0;
}

static enum reason check_rule(const uint8_t *r)
{
    if (r[0] > 7 || r[2] > 7 || r[1] > 15 || r[4] > 15 || r[5] > 15 || r[3] > 2)
        return OUT_OF_RANGE;
    if (!unused_zero(r))
        return UNUSED_NOT_ZERO;
    if (weight(r) == 0 || weight(r) > CERTAIN)
        return WEIGHT_OUT_OF_RANGE;
    return ACCEPTED;
}

static size_t greater(size_t a, size_t b)
{
    return a < b ? b : a;
}

struct sizes {
    size_t states, symbols;
};

/* The sizes of one record more. */
static struct sizes with_rule(struct sizes n, const uint8_t *r)
{
    n.states = greater(n.states, greater(r[0], r[2]) + 1);
    n.symbols = greater(n.symbols, greater(r[1], greater(r[4], r[5])) + 1);
    return n;
}

static void set_sizes(struct model *m, struct sizes n)
{
    m->states = n.states;
    m->symbols = n.symbols;
    m->rows = n.states * n.symbols;
    m->entries = m->rows * n.states;
}

/* One pass: a record's number is formed once, for its test and for the next one's, and the sizes are found on the way. */
static struct outcome check_rules(struct model *m)
{
    uint64_t before = 0;
    struct sizes n = {1, 1};
    for (size_t i = 0; i < m->records; i++) {
        const uint8_t *r = rule(m, i);
        enum reason reason = check_rule(r);
        if (reason != ACCEPTED)
            return refused(reason, i);
        uint64_t number = key(r);
        if (i > 0 && number <= before)
            return refused(NOT_ASCENDING, i);
        before = number;
        n = with_rule(n, r);
    }
    set_sizes(m, n);
    return accepted();
}

static size_t row_number(const struct model *m, size_t p, size_t z)
{
    return p * m->symbols + z;
}

/* Records ascend, so that those of a row follow each other. */
static struct outcome check_row_sums(const struct model *m)
{
    size_t i = 0;
    for (size_t k = 0; k < m->rows; k++) {
        uint64_t sum = 0;
        for (; i < m->records && row_number(m, rule(m, i)[0], rule(m, i)[1]) == k; i++)
            sum += weight(rule(m, i));
        if (sum != CERTAIN)
            return refused(ROW_SUM_WRONG, k);
    }
    return accepted();
}

static struct outcome check_model(struct model *m, const uint8_t *file, size_t len)
{
    if (len == 0 || len % RULE_BYTES != 0 || len > MOST_RECORDS * RULE_BYTES)
        return refused(MODEL_LENGTH, 0);
    m->file = file;
    m->records = len / RULE_BYTES;
    struct outcome found = check_rules(m);
    if (found.reason != ACCEPTED)
        return found;
    return check_row_sums(m);
}

/* Records ascend, and each row of an accepted model has some: its records are one range. */
static void find_starts(struct model *m)
{
    size_t at = 0;
    for (size_t k = 0; k <= m->rows; k++) {
        while (at < m->records && row_number(m, rule(m, at)[0], rule(m, at)[1]) < k)
            at++;
        m->starts[k] = (uint16_t)at;
    }
}

/* 20 to 22: the delivery's shape and layout. */

static struct shape find_shape(const struct model *m, const uint8_t *delivery, size_t len)
{
    size_t v = m->entries, n = m->rows;
    if (len == FIGURE_BYTES * v)
        return (struct shape){true, false, false};
    if (len == FIGURE_BYTES * (v + v)) {
        bool means = m->states == 1 && delivery[FIGURE_BYTES * v] != 'L';
        return (struct shape){true, !means, means};
    }
    if (len == FIGURE_BYTES * (v + n))
        return (struct shape){true, false, true};
    if (len == FIGURE_BYTES * (v + v + n))
        return (struct shape){true, true, true};
    return (struct shape){false, false, false};
}

static uint32_t value(const uint8_t *block, size_t e)
{
    return word(block + FIGURE_BYTES * e + 4);
}

/* One block: a record for each row and exit, from record `from` on. */
static struct outcome check_block(const struct model *m, const uint8_t *delivery, size_t from, uint8_t kind, size_t exits, uint32_t least, uint32_t most)
{
    size_t e = from;
    for (size_t p = 0; p < m->states; p++)
        for (size_t z = 0; z < m->symbols; z++)
            for (size_t q = 0; q < exits; q++, e++) {
                const uint8_t *r = delivery + FIGURE_BYTES * e;
                if (r[0] != kind || r[1] != p || r[2] != z || r[3] != q)
                    return refused(NOT_DUE, e);
                if (value(delivery, e) < least || value(delivery, e) > most)
                    return refused(VALUE_OUT_OF_RANGE, e);
            }
    return accepted();
}

/* f at one entry, over its row's records. */

static uint64_t through_two(const struct model *m, const uint8_t *v, const uint8_t *r, size_t q)
{
    size_t first = row_number(m, r[2], r[4]) * m->states, then = r[5] * m->states + q, step = m->rows;
    uint64_t sum = 0;
    for (size_t t = 0; t < m->states; t++)
        sum += (uint64_t)value(v, first + t) * value(v, then + t * step);
    return sum;
}

static uint64_t through(const struct model *m, const uint8_t *v, const uint8_t *r, size_t q)
{
    switch (r[3]) {
    case 0:
        return r[2] == q ? (uint64_t)SCALE * SCALE : 0;
    case 1:
        return (uint64_t)SCALE * value(v, row_number(m, r[2], r[4]) * m->states + q);
    default:
        return through_two(m, v, r, q);
    }
}

static uint64_t f(const struct model *m, const uint8_t *v, size_t row, size_t q)
{
    uint64_t sum = 0;
    for (size_t i = m->starts[row]; i < m->starts[row + 1]; i++)
        sum += weight(rule(m, i)) * through(m, v, rule(m, i), q);
    return sum;
}

/* The live marks. */

static uint8_t exits_of_two(const struct model *m, const uint8_t *marks, uint8_t first, size_t x)
{
    uint8_t exits = 0;
    for (size_t t = 0; t < m->states; t++)
        if (first >> t & 1)
            exits |= marks[row_number(m, t, x)];
    return exits;
}

static uint8_t exits_through(const struct model *m, const uint8_t *marks, const uint8_t *r)
{
    if (r[3] == 0)
        return (uint8_t)(1 << r[2]);
    uint8_t first = marks[row_number(m, r[2], r[4])];
    return r[3] == 1 ? first : exits_of_two(m, marks, first, r[5]);
}

/* One round: whether any row changed. */
static bool round_of_marks(const struct model *m, const uint8_t *marks, uint8_t *next)
{
    bool changed = false;
    for (size_t row = 0; row < m->rows; row++) {
        uint8_t exits = 0;
        for (size_t i = m->starts[row]; i < m->starts[row + 1]; i++)
            exits |= exits_through(m, marks, rule(m, i));
        next[row] = exits;
        changed |= exits != marks[row];
    }
    return changed;
}

/* The marks, in one of the two lists given. */
static const uint8_t *live_marks(const struct model *m, uint8_t *marks, uint8_t *next)
{
    for (size_t row = 0; row < m->rows; row++)
        marks[row] = 0;
    while (round_of_marks(m, marks, next)) {
        uint8_t *done = marks;
        marks = next;
        next = done;
    }
    return marks;
}

static bool is_live(const uint8_t *live, size_t row, size_t q)
{
    return live[row] >> q & 1;
}

/* 23 to 27: the delivery's numbers. */

static struct outcome check_dead(const struct model *m, const uint8_t *live, const uint8_t *block, size_t from)
{
    size_t e = 0;
    for (size_t row = 0; row < m->rows; row++)
        for (size_t q = 0; q < m->states; q++, e++)
            if (!is_live(live, row, q) && value(block, e) != 0)
                return refused(DEAD_NOT_ZERO, from + e);
    return accepted();
}

static struct outcome check_uppers(const struct model *m, const uint8_t *live, const uint8_t *uppers, bool strict)
{
    size_t e = 0;
    for (size_t row = 0; row < m->rows; row++)
        for (size_t q = 0; q < m->states; q++, e++) {
            uint64_t have = (uint64_t)value(uppers, e) << UNIT_SHIFT, need = f(m, uppers, row, q);
            if (have < need || (strict && is_live(live, row, q) && have == need))
                return missed(UPPER_TOO_SMALL, e, have, need);
        }
    return accepted();
}

static struct outcome check_below(const struct model *m, const uint8_t *lowers, const uint8_t *uppers)
{
    for (size_t e = 0; e < m->entries; e++)
        if (value(lowers, e) > value(uppers, e))
            return refused(LOWER_ABOVE_UPPER, m->entries + e);
    return accepted();
}

static struct outcome check_lowers(const struct model *m, const uint8_t *lowers)
{
    size_t e = 0;
    for (size_t row = 0; row < m->rows; row++)
        for (size_t q = 0; q < m->states; q++, e++) {
            uint64_t have = f(m, lowers, row, q), need = (uint64_t)value(lowers, e) << UNIT_SHIFT;
            if (have < need)
                return missed(LOWER_TOO_LARGE, m->entries + e, have, need);
        }
    return accepted();
}

static uint64_t steps_through(const struct model *m, const uint8_t *uppers, const uint8_t *means, const uint8_t *r)
{
    if (r[3] == 0)
        return 0;
    uint64_t sum = (uint64_t)SCALE * value(means, row_number(m, r[2], r[4]));
    if (r[3] == 2) {
        size_t first = row_number(m, r[2], r[4]) * m->states;
        for (size_t t = 0; t < m->states; t++)
            sum += (uint64_t)value(uppers, first + t) * value(means, row_number(m, t, r[5]));
    }
    return sum;
}

static struct outcome check_means(const struct model *m, const uint8_t *uppers, const uint8_t *means, size_t from)
{
    for (size_t row = 0; row < m->rows; row++) {
        uint64_t have = (uint64_t)value(means, row) << UNIT_SHIFT, need = (uint64_t)1 << STEP_SHIFT;
        for (size_t i = m->starts[row]; i < m->starts[row + 1]; i++)
            need += weight(rule(m, i)) * steps_through(m, uppers, means, rule(m, i));
        if (have < need)
            return missed(MEAN_TOO_SMALL, from + row, have, need);
    }
    return accepted();
}

static struct outcome check_layout(const struct model *m, const uint8_t *delivery, struct shape shape, size_t means_from)
{
    struct outcome found = check_block(m, delivery, 0, 'U', m->states, 0, 2 * SCALE);
    if (found.reason == ACCEPTED && shape.lowers)
        found = check_block(m, delivery, m->entries, 'L', m->states, 0, 2 * SCALE);
    if (found.reason == ACCEPTED && shape.means)
        found = check_block(m, delivery, means_from, 'R', 1, 256, 4194304);
    return found;
}

static struct outcome check_numbers(struct model *m, const uint8_t *uppers, struct shape shape, size_t means_from)
{
    uint8_t marks[MOST_ROWS], next[MOST_ROWS];
    const uint8_t *lowers = uppers + FIGURE_BYTES * m->entries, *means = uppers + FIGURE_BYTES * means_from;
    find_starts(m);
    const uint8_t *live = live_marks(m, marks, next);
    struct outcome found = check_dead(m, live, uppers, 0);
    if (found.reason == ACCEPTED && shape.lowers)
        found = check_dead(m, live, lowers, m->entries);
    if (found.reason == ACCEPTED)
        found = check_uppers(m, live, uppers, shape.lowers);
    if (found.reason == ACCEPTED && shape.lowers)
        found = check_below(m, lowers, uppers);
    if (found.reason == ACCEPTED && shape.lowers)
        found = check_lowers(m, lowers);
    if (found.reason == ACCEPTED && shape.means)
        found = check_means(m, uppers, means, means_from);
    return found;
}

static struct outcome check_delivery(const uint8_t *model, size_t model_len, const uint8_t *delivery, size_t delivery_len)
{
    struct model m;
    struct outcome found = check_model(&m, model, model_len);
    if (found.reason != ACCEPTED)
        return found;
    struct shape shape = find_shape(&m, delivery, delivery_len);
    if (!shape.known)
        return refused(NO_SHAPE, 0);
    size_t means_from = shape.lowers ? 2 * m.entries : m.entries;
    found = check_layout(&m, delivery, shape, means_from);
    if (found.reason != ACCEPTED)
        return found;
    return check_numbers(&m, delivery, shape, means_from);
}

static uint32_t code(struct outcome found)
{
    return (uint32_t)found.reason * 65536 + found.place;
}

uint32_t plain_check_model(const uint8_t *model, size_t model_len)
{
    struct model m;
    return code(check_model(&m, model, model_len));
}

uint32_t plain_check_delivery(const uint8_t *model, size_t model_len, const uint8_t *delivery, size_t delivery_len)
{
    return code(check_delivery(model, model_len, delivery, delivery_len));
}

int64_t plain_delivery_shortfall(const uint8_t *model, size_t model_len, const uint8_t *delivery, size_t delivery_len)
{
    return check_delivery(model, model_len, delivery, delivery_len).shortfall;
}
