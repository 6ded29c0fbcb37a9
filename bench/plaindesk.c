/* The desk in plain C, by the same method, but that it keeps the rows' starts from the filing, for comparison only: nothing proves this code. Calls come in
   as lines on standard input, replies go out as lines on standard output; the replies to all lines that one read brought are written together, before the next
   read.
   plain.c is taken in as text for its parts, so that it stays as the archive's checks are compared with it. */
#define _POSIX_C_SOURCE 200809L
#include "plain.c"

#include <errno.h>
#include <fcntl.h>
#include <stdio.h>
#include <string.h>
#include <sys/stat.h>
#include <unistd.h>

enum { PIECE = 65536, MOST_LINE = 300, MOST_PATH = 255, MOST_DIGITS = 9, MOST_WORDS = 5, MOST_ENTRIES = 1024, MOST_STEPS = 3 };
enum { MODEL_BYTES = 10240, DELIVERY_BYTES = 17408, COUNTER_BYTES = 1536, MOVE_BYTES = 8 };
enum { NO_MODEL = 40, MODEL_HELD, NO_DELIVERY, NO_BLOCK, NOT_OF_MODEL, TOO_MANY_STEPS, COUNTER_LENGTH, MOVE_WRONG, STATE_SUM_WRONG };

/* The shortest line with a reply is 1 byte and its newline, answered by the 8 bytes of `unclear`; the longest reply has 37 bytes, to a line of 8: `merge`, a
   path of 1 byte and the newline. */
enum { LONGEST_REPLY = 64, REPLY_ROOM = 5 * PIECE + LONGEST_REPLY };

/* The register: what it holds of an accepted model, with where its rows start, and of a delivery accepted for it, uppers and lowers by exit (request A.6). */
static struct {
    bool has_model, has_delivery, lowers, means;
    size_t model_len, states, symbols;
    struct model rules;
    uint32_t margin;
    uint8_t model[MODEL_BYTES + 1], live[MOST_ROWS];
    uint32_t upper[MOST_ENTRIES], lower[MOST_ENTRIES], mean[MOST_ROWS];
} held;

static uint8_t input[PIECE], line[MOST_LINE + 1];
static size_t line_len;
static char replies[REPLY_ROOM];
static size_t replies_len;

/* A line's words: call and arguments, with one more than any call has. */
struct word {
    const uint8_t *bytes;
    size_t len;
};

struct words {
    struct word at[MOST_WORDS + 1];
    size_t count;
};

/* Replies. */

static void put_text(const char *text, size_t len)
{
    memcpy(replies + replies_len, text, len);
    replies_len += len;
}

#define PUT(text) put_text(text, sizeof(text) - 1)

static void put_number(uint64_t number)
{
    char digits[20];
    size_t at = sizeof digits;
    do
        digits[--at] = (char)('0' + number % 10);
    while ((number /= 10) > 0);
    put_text(digits + at, sizeof digits - at);
}

static void reply_value(uint64_t number)
{
    PUT("value ");
    put_number(number);
    PUT("\n");
}

/* A shortfall is never above 0. */
static void reply_refused(uint32_t number, uint32_t place, int64_t shortfall)
{
    PUT("refused ");
    put_number(number);
    PUT(" ");
    put_number(place);
    PUT(" ");
    if (shortfall < 0)
        PUT("-");
    put_number(0 - (uint64_t)shortfall);
    PUT("\n");
}

/* Files. */

static bool is_pipe(const char *path)
{
    struct stat found;
    return stat(path, &found) == 0 && S_ISFIFO(found.st_mode);
}

/* Up to `most` bytes of a file. One that is missing counts as empty; so does one that cannot be read, and a named pipe, which is never opened, writer or
   not, both with a warning. */
static size_t read_file(const struct word *name, uint8_t *bytes, size_t most)
{
    char path[MOST_PATH + 1];
    size_t len = 0;
    ssize_t got = 0;
    memcpy(path, name->bytes, name->len);
    path[name->len] = 0;
    if (is_pipe(path)) {
        fprintf(stderr, "%s: a pipe, not opened\n", path);
        return 0;
    }
    int file = open(path, O_RDONLY);
    if (file >= 0)
        while (len < most && (got = read(file, bytes + len, most - len)) > 0)
            len += (size_t)got;
    if ((file < 0 && errno != ENOENT) || got < 0) {
        fprintf(stderr, "%s: %s\n", path, strerror(errno));
        len = 0;
    }
    if (file >= 0)
        close(file);
    return len;
}

/* Counter files. A refusal is its number and its place; the number is 0 where there is none. */

struct refusal {
    uint32_t number, place;
};

static bool is_move(const uint8_t *r)
{
    return r[0] <= 7 && r[1] <= 7 && r[2] <= 2 && r[3] == 0 && word(r + 4) >= 1 && word(r + 4) <= CERTAIN;
}

static struct refusal check_moves(const uint8_t *counter, size_t records)
{
    for (size_t i = 0; i < records; i++) {
        const uint8_t *r = counter + MOVE_BYTES * i;
        if (!is_move(r) || (i > 0 && memcmp(r - MOVE_BYTES, r, 3) >= 0))
            return (struct refusal){MOVE_WRONG, (uint32_t)i};
    }
    return (struct refusal){0, 0};
}

/* The moves of a state follow each other. */
static struct refusal check_state_sums(const uint8_t *counter, size_t records)
{
    size_t greatest = 0, i = 0;
    for (size_t k = 0; k < records; k++)
        greatest = greater(greatest, greater(counter[MOVE_BYTES * k], counter[MOVE_BYTES * k + 1]));
    for (size_t state = 0; state <= greatest; state++) {
        uint64_t sum = 0;
        for (; i < records && counter[MOVE_BYTES * i] == state; i++)
            sum += word(counter + MOVE_BYTES * i + 4);
        if (sum != CERTAIN)
            return (struct refusal){STATE_SUM_WRONG, (uint32_t)state};
    }
    return (struct refusal){0, 0};
}

static struct refusal check_counter(const uint8_t *counter, size_t len)
{
    if (len == 0 || len % MOVE_BYTES != 0 || len > COUNTER_BYTES)
        return (struct refusal){COUNTER_LENGTH, 0};
    struct refusal found = check_moves(counter, len / MOVE_BYTES);
    return found.number != 0 ? found : check_state_sums(counter, len / MOVE_BYTES);
}

/* Writes the model that a counter file makes: a rule on symbol 0 for each move, which pushes 0, 1 or 2 of it. */
static void make_model(uint8_t *model, const uint8_t *counter, size_t records)
{
    memset(model, 0, RULE_BYTES * records);
    for (size_t i = 0; i < records; i++) {
        const uint8_t *move = counter + MOVE_BYTES * i;
        uint8_t *made = model + RULE_BYTES * i;
        made[0] = move[0];
        made[2] = move[1];
        made[3] = move[2];
        memcpy(made + 6, move + 4, 4);
    }
}

/* What is held of accepted files. */

static void find_model(struct model *m)
{
    struct sizes n = {1, 1};
    m->file = held.model;
    m->records = held.model_len / RULE_BYTES;
    for (size_t i = 0; i < m->records; i++)
        n = with_rule(n, rule(m, i));
    set_sizes(m, n);
    find_starts(m);
}

static void hold_model(size_t len)
{
    struct model m;
    uint8_t marks[MOST_ROWS], next[MOST_ROWS];
    held.model_len = len;
    find_model(&m);
    held.rules = m;
    memcpy(held.live, live_marks(&m, marks, next), m.rows);
    held.states = m.states;
    held.symbols = m.symbols;
    held.has_model = true;
}

/* The least share (u - f(u)) / u over the live entries, in 1,048,576ths, rounded down: u - f(u) counts 1/2^56, and u 1/2^20. */
static uint32_t least_share(const struct model *m, const uint8_t *uppers)
{
    uint64_t least = SCALE;
    size_t e = 0;
    for (size_t row = 0; row < m->rows; row++)
        for (size_t q = 0; q < m->states; q++, e++)
            if (is_live(held.live, row, q)) {
                uint64_t u = value(uppers, e), share = ((u << UNIT_SHIFT) - f(m, uppers, row, q)) / (u << (UNIT_SHIFT - 20));
                least = share < least ? share : least;
            }
    return (uint32_t)least;
}

static void hold_values(uint32_t *numbers, const uint8_t *block, size_t count)
{
    for (size_t e = 0; e < count; e++)
        numbers[e] = value(block, e);
}

static bool holds_values(const uint32_t *numbers, const uint8_t *block, size_t count)
{
    size_t e = 0;
    while (e < count && numbers[e] == value(block, e))
        e++;
    return e == count;
}

/* The same of a block with a record for each entry, by exit: the entries of an exit stand side by side, in the order of rows. */
static void hold_by_exit(uint32_t *numbers, const uint8_t *block, const struct model *m)
{
    for (size_t q = 0; q < m->states; q++)
        for (size_t row = 0; row < m->rows; row++)
            numbers[q * m->rows + row] = value(block, row * m->states + q);
}

static bool holds_by_exit(const uint32_t *numbers, const uint8_t *block, const struct model *m)
{
    for (size_t q = 0; q < m->states; q++)
        for (size_t row = 0; row < m->rows; row++)
            if (numbers[q * m->rows + row] != value(block, row * m->states + q))
                return false;
    return true;
}

static size_t means_from(const struct model *m, struct shape shape)
{
    return shape.lowers ? 2 * m->entries : m->entries;
}

/* Whether a delivery of the same shape and the same records is held. Kinds, states and symbols are those due in any that is accepted, so that the numbers tell. */
static bool is_known(const struct model *m, const uint8_t *delivery, struct shape shape)
{
    if (!held.has_delivery || held.lowers != shape.lowers || held.means != shape.means || !holds_by_exit(held.upper, delivery, m))
        return false;
    if (shape.lowers && !holds_by_exit(held.lower, delivery + FIGURE_BYTES * m->entries, m))
        return false;
    return !shape.means || holds_values(held.mean, delivery + FIGURE_BYTES * means_from(m, shape), m->rows);
}

static void hold_delivery(const struct model *m, const uint8_t *delivery, struct shape shape)
{
    hold_by_exit(held.upper, delivery, m);
    if (shape.lowers) {
        hold_by_exit(held.lower, delivery + FIGURE_BYTES * m->entries, m);
        held.margin = least_share(m, delivery);
    }
    if (shape.means)
        hold_values(held.mean, delivery + FIGURE_BYTES * means_from(m, shape), m->rows);
    held.lowers = shape.lowers;
    held.means = shape.means;
    held.has_delivery = true;
}

/* What is merged of the held delivery and a second one. */

static uint32_t lesser(uint32_t a, uint32_t b)
{
    return a < b ? a : b;
}

static void put_value(uint8_t *block, size_t e, uint32_t number)
{
    for (size_t i = 0; i < 4; i++)
        block[FIGURE_BYTES * e + 4 + i] = (uint8_t)(number >> 8 * i);
}

/* Writes the numbers alone of the merged delivery, each into its record, and returns its shape: lowers where both have them, mean steps where either has. */
static struct shape merge_numbers(const struct model *m, uint8_t *merged, const uint8_t *second, struct shape shape)
{
    struct shape both = {true, held.lowers && shape.lowers, held.means || shape.means};
    size_t lowers = FIGURE_BYTES * m->entries;
    const uint8_t *means = second + FIGURE_BYTES * means_from(m, shape);
    uint8_t *merged_means = merged + FIGURE_BYTES * means_from(m, both);
    for (size_t row = 0, e = 0; row < m->rows; row++)
        for (size_t q = 0; q < m->states; q++, e++) {
            put_value(merged, e, lesser(held.upper[q * m->rows + row], value(second, e)));
            if (both.lowers)
                put_value(merged + lowers, e, (uint32_t)greater(held.lower[q * m->rows + row], value(second + lowers, e)));
        }
    for (size_t row = 0; both.means && row < m->rows; row++)
        if (held.means && shape.means)
            put_value(merged_means, row, lesser(held.mean[row], value(means, row)));
        else
            put_value(merged_means, row, held.means ? held.mean[row] : value(means, row));
    return both;
}

/* Calls. */

static void clear(void)
{
    held.has_model = held.has_delivery = false;
    PUT("cleared\n");
}

static void file_model(const struct word *path)
{
    struct model m;
    if (held.has_model) {
        reply_refused(MODEL_HELD, 0, 0);
        return;
    }
    size_t len = read_file(path, held.model, MODEL_BYTES + 1);
    struct outcome found = check_model(&m, held.model, len);
    if (found.reason != ACCEPTED) {
        reply_refused(found.reason, found.place, 0);
        return;
    }
    hold_model(len);
    PUT("accepted\n");
}

static void file_counter(const struct word *path)
{
    static uint8_t counter[COUNTER_BYTES + 1];
    if (held.has_model) {
        reply_refused(MODEL_HELD, 0, 0);
        return;
    }
    size_t len = read_file(path, counter, COUNTER_BYTES + 1);
    struct refusal found = check_counter(counter, len);
    if (found.number != 0) {
        reply_refused(found.number, found.place, 0);
        return;
    }
    make_model(held.model, counter, len / MOVE_BYTES);
    hold_model(RULE_BYTES * (len / MOVE_BYTES));
    PUT("accepted\n");
}

/* Holds an accepted delivery, and replies whether it was held before. */
static void take_delivery(const struct model *m, const uint8_t *delivery, struct shape shape)
{
    bool known = is_known(m, delivery, shape);
    hold_delivery(m, delivery, shape);
    if (known)
        PUT("known\n");
    else
        PUT("new\n");
}

/* Reads a delivery and checks it with the held model, and returns its shape; of one that is refused, which it replies, none. */
static struct shape read_delivery(struct model *m, const struct word *path, uint8_t *delivery)
{
    size_t len = read_file(path, delivery, DELIVERY_BYTES + 1);
    struct outcome found = check_delivery(held.model, held.model_len, delivery, len);
    if (found.reason != ACCEPTED) {
        reply_refused(found.reason, found.place, found.shortfall);
        return (struct shape){false, false, false};
    }
    find_model(m);
    return find_shape(m, delivery, len);
}

static void file_delivery(const struct word *path)
{
    static uint8_t delivery[DELIVERY_BYTES + 1];
    struct model m;
    if (!held.has_model) {
        reply_refused(NO_MODEL, 0, 0);
        return;
    }
    struct shape shape = read_delivery(&m, path, delivery);
    if (shape.known)
        take_delivery(&m, delivery, shape);
}

static void merge_delivery(const struct word *path)
{
    static uint8_t second[DELIVERY_BYTES + 1], merged[DELIVERY_BYTES];
    struct model m;
    if (!held.has_model || !held.has_delivery) {
        reply_refused(held.has_model ? NO_DELIVERY : NO_MODEL, 0, 0);
        return;
    }
    struct shape shape = read_delivery(&m, path, second);
    if (shape.known)
        take_delivery(&m, merged, merge_numbers(&m, merged, second, shape));
}

/* The reason for which a question gets no value, or 0: whether a delivery is needed, whether the place is of the model, and the question's own last test, with
   its reason. */
static uint32_t reason_or(bool needs_delivery, bool is_place, bool passes, uint32_t reason)
{
    if (!held.has_model)
        return NO_MODEL;
    if (needs_delivery && !held.has_delivery)
        return NO_DELIVERY;
    if (!is_place)
        return NOT_OF_MODEL;
    return passes ? 0 : reason;
}

/* The same where the last test is whether the block stands. */
static uint32_t question_reason(bool needs_delivery, bool is_place, bool stands)
{
    return reason_or(needs_delivery, is_place, stands, NO_BLOCK);
}

static bool is_row(uint32_t p, uint32_t z)
{
    return p < held.states && z < held.symbols;
}

static void ask_entry(const uint32_t *numbers, bool stands, uint32_t p, uint32_t z, uint32_t q)
{
    uint32_t reason = question_reason(true, is_row(p, z) && q < held.states, stands);
    if (reason != 0)
        reply_refused(reason, 0, 0);
    else
        reply_value(numbers[(q * held.states + p) * held.symbols + z]);
}

static void ask_steps(uint32_t p, uint32_t z)
{
    uint32_t reason = question_reason(true, is_row(p, z), held.means);
    if (reason != 0)
        reply_refused(reason, 0, 0);
    else
        reply_value(held.mean[p * held.symbols + z]);
}

static void ask_margin(void)
{
    uint32_t reason = question_reason(true, true, held.lowers);
    if (reason != 0)
        reply_refused(reason, 0, 0);
    else
        reply_value(held.margin);
}

static void ask_live(uint32_t p, uint32_t z, uint32_t q)
{
    uint32_t reason = question_reason(false, is_row(p, z) && q < held.states, true);
    if (reason != 0)
        reply_refused(reason, 0, 0);
    else
        reply_value(is_live(held.live, p * held.symbols + z, q));
}

/* Chances of short runs: of one symbol from those of a stacked pair with a step fewer, and of a pair from those of single symbols. */

static uint64_t chance_of_pair(const struct model *m, size_t steps, const uint8_t *r, size_t q);

/* The chance within so many steps of row `row` and exit q, over 65,536^steps. A record that pushes more symbols than steps are left adds nothing. */
static uint64_t chance(const struct model *m, size_t steps, size_t row, size_t q)
{
    uint64_t sum = 0;
    if (steps == 0)
        return 0;
    for (size_t i = m->starts[row]; i < m->starts[row + 1]; i++) {
        const uint8_t *r = rule(m, i);
        if (r[3] >= steps)
            continue;
        if (r[3] == 2)
            sum += weight(r) * chance_of_pair(m, steps - 1, r, q);
        else if (r[3] == 1)
            sum += weight(r) * chance(m, steps - 1, row_number(m, r[2], r[4]), q);
        else if (r[2] == q)
            sum += (uint64_t)weight(r) << 16 * (steps - 1);
    }
    return sum;
}

/* The chance that the two symbols which a record pushes are gone within so many steps, in state q: over the steps that the upper takes, and the state t after it. */
static uint64_t chance_of_pair(const struct model *m, size_t steps, const uint8_t *r, size_t q)
{
    uint64_t sum = 0;
    size_t first = row_number(m, r[2], r[4]);
    for (size_t j = 1; j < steps; j++)
        for (size_t t = 0; t < m->states; t++)
            sum += (chance(m, j, first, t) - CERTAIN * chance(m, j - 1, first, t)) * chance(m, steps - j, row_number(m, t, r[5]), q);
    return sum;
}

static void ask_within(uint32_t steps, uint32_t p, uint32_t z, uint32_t q)
{
    uint32_t reason = reason_or(false, is_row(p, z) && q < held.states, steps <= MOST_STEPS, TOO_MANY_STEPS);
    if (reason != 0)
        reply_refused(reason, 0, 0);
    else
        reply_value(chance(&held.rules, steps, row_number(&held.rules, p, z), q));
}

/* Lines. */

static bool has_control(const uint8_t *bytes, size_t len)
{
    for (size_t i = 0; i < len; i++)
        if (bytes[i] < 32 || bytes[i] == 127)
            return true;
    return false;
}

/* What stands between single spaces; of more words than any call has, the first ones. */
static void split(struct words *words, const uint8_t *bytes, size_t len)
{
    size_t from = 0;
    words->count = 0;
    for (size_t i = 0; i <= len && words->count <= MOST_WORDS; i++)
        if (i == len || bytes[i] == ' ') {
            words->at[words->count++] = (struct word){bytes + from, i - from};
            from = i + 1;
        }
}

static bool says(const struct word *word, const char *text)
{
    return word->len == strlen(text) && memcmp(word->bytes, text, word->len) == 0;
}

static bool is_path(const struct word *word)
{
    return word->len >= 1 && word->len <= MOST_PATH;
}

/* Whether the words after the first are `count` numbers, which are put into `numbers`. */
static bool are_numbers(const struct words *words, uint32_t *numbers, size_t count)
{
    if (words->count != count + 1)
        return false;
    for (size_t k = 0; k < count; k++) {
        const struct word *word = &words->at[k + 1];
        if (word->len == 0 || word->len > MOST_DIGITS)
            return false;
        numbers[k] = 0;
        for (size_t i = 0; i < word->len; i++) {
            if (word->bytes[i] < '0' || word->bytes[i] > '9')
                return false;
            numbers[k] = 10 * numbers[k] + (word->bytes[i] - '0');
        }
    }
    return true;
}

/* Answers the call that the words say; false where they say none. */
static bool answer_call(const struct words *words)
{
    const struct word *name = &words->at[0], *path = &words->at[1];
    uint32_t n[4];
    if (says(name, "upper") && are_numbers(words, n, 3))
        ask_entry(held.upper, true, n[0], n[1], n[2]);
    else if (says(name, "lower") && are_numbers(words, n, 3))
        ask_entry(held.lower, held.lowers, n[0], n[1], n[2]);
    else if (says(name, "steps") && are_numbers(words, n, 2))
        ask_steps(n[0], n[1]);
    else if (says(name, "margin") && words->count == 1)
        ask_margin();
    else if (says(name, "live") && are_numbers(words, n, 3))
        ask_live(n[0], n[1], n[2]);
    else if (says(name, "within") && are_numbers(words, n, 4))
        ask_within(n[0], n[1], n[2], n[3]);
    else if (says(name, "clear") && words->count == 1)
        clear();
    else if (says(name, "model") && words->count == 2 && is_path(path))
        file_model(path);
    else if (says(name, "counter") && words->count == 2 && is_path(path))
        file_counter(path);
    else if (says(name, "delivery") && words->count == 2 && is_path(path))
        file_delivery(path);
    else if (says(name, "merge") && words->count == 2 && is_path(path))
        merge_delivery(path);
    else
        return false;
    return true;
}

/* Answers the line at hand, and starts the next. */
static void answer_line(void)
{
    struct words words;
    size_t len = line_len;
    line_len = 0;
    if (len == 0 || line[0] == '#')
        return;
    if (len <= MOST_LINE && !has_control(line, len)) {
        split(&words, line, len);
        if (answer_call(&words))
            return;
    }
    PUT("unclear\n");
}

static void take_piece(const uint8_t *bytes, size_t len)
{
    for (size_t i = 0; i < len; i++)
        if (bytes[i] == '\n')
            answer_line();
        else if (line_len <= MOST_LINE)
            line[line_len++] = bytes[i];
}

static bool write_replies(void)
{
    size_t done = 0;
    while (done < replies_len) {
        ssize_t count = write(STDOUT_FILENO, replies + done, replies_len - done);
        if (count < 0) {
            fputs("desk: output not written\n", stderr);
            return false;
        }
        done += (size_t)count;
    }
    replies_len = 0;
    return true;
}

int main(void)
{
    ssize_t got;
    while ((got = read(STDIN_FILENO, input, PIECE)) > 0) {
        take_piece(input, (size_t)got);
        if (!write_replies())
            return 0;
    }
    answer_line();
    write_replies();
    return 0;
}
