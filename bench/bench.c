/* Times the archive's calls against plain C on the same files, in one run, after checking that both answer the same. With a folder's name it
   only writes there what the desk is timed on: the largest model and its delivery with all blocks, and the model of the dearest short run. */
#define _POSIX_C_SOURCE 200809L
#include "../include/bounds.h"
#include "plain.h"

#include <stdbool.h>
#include <stdio.h>
#include <stdlib.h>
#include <string.h>
#include <time.h>

enum { ROUNDS = 15, MOST_RECORDS = 1024, MOST_ENTRIES = 1024, MOST_ROWS = 128 };
static const double SAMPLE_SECONDS = 0.02;

struct model {
    uint8_t file[10 * MOST_RECORDS];
    size_t records, states, symbols;
};

struct delivery {
    uint8_t file[8 * (2 * MOST_ENTRIES + MOST_ROWS)];
    size_t len;
};

static void die(const char *what)
{
    fprintf(stderr, "bench: %s\n", what);
    exit(1);
}

/* Models. */

static void push(struct model *m, int p, int z, int q, int l, int y, int x, uint32_t weight)
{
    if (m->records == MOST_RECORDS)
        die("too many records");
    uint8_t *r = m->file + 10 * m->records++;
    uint8_t bytes[10] = {(uint8_t)p, (uint8_t)z, (uint8_t)q, (uint8_t)l, (uint8_t)y, (uint8_t)x,
        (uint8_t)weight, (uint8_t)(weight >> 8), (uint8_t)(weight >> 16), (uint8_t)(weight >> 24)};
    memcpy(r, bytes, 10);
}

static int by_key(const void *a, const void *b)
{
    return memcmp(a, b, 6);
}

static void sorted(struct model *m)
{
    qsort(m->file, m->records, 10, by_key);
}

static uint32_t weight_of(const uint8_t *r)
{
    return (uint32_t)r[6] | (uint32_t)r[7] << 8 | (uint32_t)r[8] << 16 | (uint32_t)r[9] << 24;
}

/* One record: the only symbol is removed. */
static struct model single(void)
{
    struct model m = {.states = 1, .symbols = 1};
    push(&m, 0, 0, 0, 0, 0, 0, 65536);
    return m;
}

/* A record for each row: symbol 0 is removed, and symbol Z pushes Z - 1 over 0. */
static struct model one_a_row(int s, int g)
{
    struct model m = {.states = (size_t)s, .symbols = (size_t)g};
    for (int p = 0; p < s; p++)
        for (int z = 0; z < g; z++)
            push(&m, p, z, (p + 1) % s, z == 0 ? 0 : 2, z == 0 ? 0 : z - 1, 0, 65536);
    return m;
}

/* Each row removes its symbol with a chance of 3/4, and else pushes two symbols, in `each` - 1 ways. */
static struct model rich(int s, int g, int each)
{
    struct model m = {.states = (size_t)s, .symbols = (size_t)g};
    for (int p = 0; p < s; p++)
        for (int z = 0; z < g; z++) {
            int ways = each - 1, share = 16384 / ways;
            push(&m, p, z, (p + z) % s, 0, 0, 0, (uint32_t)(65536 - ways * share));
            for (int k = 0; k < ways; k++)
                push(&m, p, z, (p + 3 * z + k) % s, 2, (z + 5 * k + 1) % g, (p + 7 * z + 3 * k) % g, (uint32_t)share);
        }
    sorted(&m);
    return m;
}

/* Two symbols pushed by every record: every entry is dead. */
static struct model never_removes(int s, int g, int each)
{
    struct model m = {.states = (size_t)s, .symbols = (size_t)g};
    for (int p = 0; p < s; p++)
        for (int z = 0; z < g; z++)
            for (int k = 0; k < each; k++)
                push(&m, p, z, (p + 3 * z + k) % s, 2, (z + 5 * k + 1) % g, (p + 7 * z + 3 * k) % g, (uint32_t)(65536 / each));
    sorted(&m);
    return m;
}

/* The deepest chain of live marks that is known here: 996 rounds each mark an entry, of at most 1,017, since the first round marks an entry
   for each of 8 exits. The rows stand in one line, each with a record that pushes the row before it, so that an exit moves on by a row a
   round. The first row has exit 0. The last seven are helpers: helper j has state j, a symbol of its own, and exit j + 1 from the first round
   on. The first row pushes, over each helper's symbol, the last row that exit j reaches late: so exit j + 1 starts once exit j is there.
   `padding` more records push two symbols, of which the lower only rows near the end of the line have: they give no exit earlier. */
static struct model deep(int padding)
{
    enum { S = 8, G = 16, LINE = S * G, LAST = 8, HELPERS = 7 };
    int state[LINE], symbol[LINE], n = 0;
    struct model m = {.states = S, .symbols = G};
    for (int z = 0; z < G; z++)
        for (int p = 0; p < S; p++)
            if (z != LAST && z != 9 + p)
                state[n] = p, symbol[n++] = z;
    for (int p = 0; p < S; p++)
        state[n] = p, symbol[n++] = LAST;
    for (int j = 0; j < HELPERS; j++)
        state[n] = j, symbol[n++] = 9 + j;
    int paddable = LINE - HELPERS - S, helpers = LINE - HELPERS;
    for (int i = 0; i < LINE; i++) {
        int helper = symbol[i] == 9 + state[i], left = 65536;
        int pads = i < paddable ? padding / paddable + (i < padding % paddable) : 0;
        for (int k = 0; k < pads; k++, left--)
            push(&m, state[i], symbol[i], (i + k) % S, 2, (i + k / S + 3 * k) % G, LAST, 1);
        if (helper)
            push(&m, state[i], symbol[i], state[i] + 1, 0, 0, 0, 1), left--;
        if (i == 0) {
            for (int j = 0; j < HELPERS; j++, left--) {
                int late = j == 0 ? LINE - 1 : helpers + j - 2;
                push(&m, state[0], symbol[0], state[late], 2, symbol[late], 9 + j, 1);
            }
            push(&m, state[0], symbol[0], 0, 0, 0, 0, (uint32_t)left);
        } else {
            push(&m, state[i], symbol[i], state[i - 1], 1, symbol[i - 1], 0, (uint32_t)left);
        }
    }
    sorted(&m);
    return m;
}

/* The dearest question on a short run that is known here: an entry of row (0, 0) within 3 steps looks at records 358,528 times. A record that goes to r and
   pushes Y over X has row (r, Y) looked through for each middle state t, and row (t, X) too; one that pushes one symbol has the row of that symbol looked
   through, and the rows to which that leads. So row (0, 0) has every record that the other rows can spare, and as many as can be lead back to it: of its 897
   records 128 push one symbol, a record for each row, and 768 push two, first the 128 with symbol 0 below and the 15 more with row (0, 0) above. Each other row
   goes to state 0 with symbol 0. No other distribution of the 1,024 records that was tried costs as much. */
static struct model dearest(void)
{
    enum { S = 8, G = 16, ROWS = S * G, SINGLE = ROWS, TWO = MOST_RECORDS - (ROWS - 1) - SINGLE - 1, SHARE = 32 };
    struct model m = {.states = S, .symbols = G};
    int left = TWO;
    push(&m, 0, 0, 0, 0, 0, 0, 65536 - SHARE * (SINGLE + TWO));
    for (int k = 0; k < SINGLE; k++)
        push(&m, 0, 0, k / G, 1, k % G, 0, SHARE);
    for (int turn = 0; turn < 3; turn++)
        for (int x = 0; x < G; x++)
            for (int k = 0; k < ROWS; k++)
                if (left > 0 && turn == (x == 0 ? 0 : k == 0 ? 1 : 2)) {
                    push(&m, 0, 0, k / G, 2, k % G, x, SHARE);
                    left--;
                }
    for (int k = 1; k < ROWS; k++)
        push(&m, k / G, k % G, 0, 1, 0, 0, 65536);
    sorted(&m);
    return m;
}

/* Exact sums, for making certificates: one f over all entries. */

static size_t entries_of(const struct model *m)
{
    return m->states * m->symbols * m->states;
}

static void f_of(const struct model *m, const uint64_t *v, uint64_t *out)
{
    size_t s = m->states, g = m->symbols;
    memset(out, 0, entries_of(m) * sizeof *out);
    for (size_t i = 0; i < m->records; i++) {
        const uint8_t *r = m->file + 10 * i;
        for (size_t q = 0; q < s; q++) {
            uint64_t sum = 0;
            if (r[3] == 0)
                sum = r[2] == q ? (uint64_t)1 << 40 : 0;
            else if (r[3] == 1)
                sum = v[(r[2] * g + r[4]) * s + q] << 20;
            else
                for (size_t t = 0; t < s; t++)
                    sum += v[(r[2] * g + r[4]) * s + t] * v[(t * g + r[5]) * s + q];
            out[(r[0] * g + r[1]) * s + q] += weight_of(r) * sum;
        }
    }
}

/* How many rounds of f from zero change which entries are above 0. */
static size_t live_rounds(const struct model *m, bool *live)
{
    uint64_t v[MOST_ENTRIES] = {0}, next[MOST_ENTRIES];
    for (size_t rounds = 0;; rounds++) {
        bool changed = false;
        f_of(m, v, next);
        for (size_t e = 0; e < entries_of(m); e++) {
            changed |= (next[e] > 0) != (v[e] > 0);
            v[e] = next[e] > 0;
        }
        if (!changed) {
            for (size_t e = 0; e < entries_of(m); e++)
                live[e] = v[e] > 0;
            return rounds;
        }
    }
}

/* u <- ceil(f(u)) + 1 at live entries, until it stands. */
static void find_uppers(const struct model *m, const bool *live, uint64_t *u)
{
    uint64_t y[MOST_ENTRIES];
    memset(u, 0, MOST_ENTRIES * sizeof *u);
    for (bool changed = true; changed;) {
        changed = false;
        f_of(m, u, y);
        for (size_t e = 0; e < entries_of(m); e++)
            if (live[e] && u[e] << 36 <= y[e]) {
                u[e] = (y[e] >> 36) + 2;
                changed = true;
                if (u[e] > 2097152)
                    die("no uppers");
            }
    }
}

/* l <- floor(f(l)), twenty times from zero. */
static void find_lowers(const struct model *m, uint64_t *l)
{
    uint64_t y[MOST_ENTRIES];
    memset(l, 0, MOST_ENTRIES * sizeof *l);
    for (int k = 0; k < 20; k++) {
        f_of(m, l, y);
        for (size_t e = 0; e < entries_of(m); e++)
            l[e] = y[e] >> 36;
    }
}

/* r <- ceil(right side), until it stands. */
static void find_means(const struct model *m, const uint64_t *u, uint64_t *r)
{
    size_t s = m->states, g = m->symbols;
    for (size_t k = 0; k < s * g; k++)
        r[k] = 256;
    for (bool changed = true; changed;) {
        uint64_t y[MOST_ROWS];
        changed = false;
        for (size_t k = 0; k < s * g; k++)
            y[k] = (uint64_t)1 << 44;
        for (size_t i = 0; i < m->records; i++) {
            const uint8_t *b = m->file + 10 * i;
            uint64_t sum = b[3] == 0 ? 0 : r[b[2] * g + b[4]] << 20;
            for (size_t t = 0; b[3] == 2 && t < s; t++)
                sum += u[(b[2] * g + b[4]) * s + t] * r[t * g + b[5]];
            y[b[0] * g + b[1]] += weight_of(b) * sum;
        }
        for (size_t k = 0; k < s * g; k++)
            if (r[k] << 36 < y[k]) {
                r[k] = (y[k] + ((uint64_t)1 << 36) - 1) >> 36;
                changed = true;
                if (r[k] > 4194304)
                    die("no mean steps");
            }
    }
}

static void file(struct delivery *d, int kind, size_t p, size_t z, size_t q, uint64_t value)
{
    uint8_t bytes[8] = {(uint8_t)kind, (uint8_t)p, (uint8_t)z, (uint8_t)q,
        (uint8_t)value, (uint8_t)(value >> 8), (uint8_t)(value >> 16), (uint8_t)(value >> 24)};
    memcpy(d->file + d->len, bytes, 8);
    d->len += 8;
}

static void file_entries(struct delivery *d, const struct model *m, int kind, const uint64_t *v)
{
    for (size_t p = 0; p < m->states; p++)
        for (size_t z = 0; z < m->symbols; z++)
            for (size_t q = 0; q < m->states; q++)
                file(d, kind, p, z, q, v[(p * m->symbols + z) * m->states + q]);
}

/* An accepted delivery of the blocks named. */
static struct delivery certificate(const struct model *m, const char *shape)
{
    bool live[MOST_ENTRIES];
    uint64_t u[MOST_ENTRIES], l[MOST_ENTRIES], r[MOST_ROWS];
    struct delivery d = {.len = 0};
    live_rounds(m, live);
    find_uppers(m, live, u);
    file_entries(&d, m, 'U', u);
    if (strchr(shape, 'L')) {
        find_lowers(m, l);
        file_entries(&d, m, 'L', l);
    }
    if (strchr(shape, 'R')) {
        find_means(m, u, r);
        for (size_t k = 0; k < m->states * m->symbols; k++)
            file(&d, 'R', k / m->symbols, k % m->symbols, 0, r[k]);
    }
    return d;
}

/* Timing. */

typedef uint32_t model_call(const uint8_t *, size_t);
typedef uint32_t delivery_call(const uint8_t *, size_t, const uint8_t *, size_t);

/* What is called: a model alone, or with a delivery. */
struct call {
    const uint8_t *model, *delivery;
    size_t model_len, delivery_len;
};

struct side {
    model_call *model;
    delivery_call *delivery;
};

static const struct side SIDES[] = {
    {plain_check_model, plain_check_delivery},
    {bounds_check_model, bounds_check_delivery},
};
enum { PLAIN, ARCHIVE, SIDE_COUNT };

static volatile uint32_t sink;

static double seconds(const struct side *side, const struct call *c, size_t times)
{
    struct timespec a, b;
    clock_gettime(CLOCK_MONOTONIC, &a);
    for (size_t i = 0; i < times; i++)
        sink = c->delivery ? side->delivery(c->model, c->model_len, c->delivery, c->delivery_len) : side->model(c->model, c->model_len);
    clock_gettime(CLOCK_MONOTONIC, &b);
    return (double)(b.tv_sec - a.tv_sec) + 1e-9 * (double)(b.tv_nsec - a.tv_nsec);
}

/* The same with the stack moved down: where lists lie in their cache lines changes a short call's time. */
static double seconds_lower(const struct side *side, const struct call *c, size_t times, size_t bytes)
{
    volatile uint8_t unused[bytes + 1];
    unused[bytes] = 0;
    return seconds(side, c, times) + unused[bytes];
}

static size_t times_for_a_sample(const struct side *side, const struct call *c)
{
    size_t times = 1;
    while (seconds(side, c, times) < SAMPLE_SECONDS)
        times *= 2;
    return times;
}

static void time_all(const struct call *c, double *ns)
{
    size_t times[SIDE_COUNT];
    for (int k = 0; k < SIDE_COUNT; k++) {
        times[k] = times_for_a_sample(&SIDES[k], c);
        ns[k] = 1e18;
    }
    for (int round = 0; round < ROUNDS; round++)
        for (int k = 0; k < SIDE_COUNT; k++) {
            double one = 1e9 * seconds_lower(&SIDES[k], c, times[k], 16 * (size_t)round) / (double)times[k];
            if (one < ns[k])
                ns[k] = one;
        }
}

static void same_answers(const struct call *c, uint32_t expected)
{
    for (int k = 0; k < SIDE_COUNT; k++) {
        uint32_t code = c->delivery ? SIDES[k].delivery(c->model, c->model_len, c->delivery, c->delivery_len) : SIDES[k].model(c->model, c->model_len);
        if (code != expected) {
            fprintf(stderr, "side %d: %u at %u, expected %u at %u\n", k, code >> 16, code & 65535, expected >> 16, expected & 65535);
            die("an answer differs");
        }
    }
    if (!c->delivery)
        return;
    int64_t shortfall = bounds_delivery_shortfall(c->model, c->model_len, c->delivery, c->delivery_len);
    if (shortfall != plain_delivery_shortfall(c->model, c->model_len, c->delivery, c->delivery_len))
        die("a shortfall differs");
}

static size_t products(const struct model *m)
{
    size_t two = 0;
    for (size_t i = 0; i < m->records; i++)
        two += m->file[10 * i + 3] == 2;
    return two * m->states * m->states;
}

static double worst;

static void row(const char *name, const struct model *m, const struct delivery *d, size_t model_len, uint32_t expected)
{
    struct call c = {m->file, d ? d->file : NULL, model_len, d ? d->len : 0};
    bool live[MOST_ENTRIES];
    double ns[SIDE_COUNT];
    size_t p = products(m);
    same_answers(&c, expected);
    time_all(&c, ns);
    printf("%-31s %7zu %5zu %6zu %8zu | %11.1f %11.1f | %6.2f |", name, m->records, entries_of(m), live_rounds(m, live), p, ns[PLAIN],
        ns[ARCHIVE], ns[ARCHIVE] / ns[PLAIN]);
    if (p > 0 && d && model_len == 10 * m->records)
        printf(" %8.3f %8.3f\n", ns[PLAIN] / (double)p, ns[ARCHIVE] / (double)p);
    else
        printf(" %8s %8s\n", "-", "-");
    fflush(stdout);
    if (ns[ARCHIVE] / ns[PLAIN] > worst)
        worst = ns[ARCHIVE] / ns[PLAIN];
}

static void rows_of(const char *name, const struct model *m, const char *const *shapes)
{
    char title[64];
    for (; *shapes; shapes++) {
        struct delivery d = certificate(m, *shapes);
        snprintf(title, sizeof title, "%s, %s", name, *shapes);
        row(title, m, &d, 10 * m->records, 0);
    }
}

/* An accepted delivery with mean steps, its last number made too small. */
static void refused_last(const struct model *m)
{
    struct delivery d = certificate(m, "ULR");
    size_t at = d.len - 8;
    for (uint64_t value = d.file[at + 4] | (uint64_t)d.file[at + 5] << 8 | (uint64_t)d.file[at + 6] << 16; value >= 256; value--) {
        d.len = at;
        file(&d, 'R', m->states - 1, m->symbols - 1, 0, value);
        if (plain_check_delivery(m->file, 10 * m->records, d.file, d.len) != 0) {
            row("delivery refused, 27 at the end", m, &d, 10 * m->records, (uint32_t)(27 * 65536 + d.len / 8 - 1));
            return;
        }
    }
    die("no mean steps are too small");
}

static void write_file(const char *folder, const char *name, const uint8_t *bytes, size_t len)
{
    char path[4096];
    snprintf(path, sizeof path, "%s/%s", folder, name);
    FILE *out = fopen(path, "wb");
    if (!out || fwrite(bytes, 1, len, out) != len || fclose(out) != 0)
        die("a file is not written");
}

static void write_files(const char *folder)
{
    struct model large = rich(8, 16, 8), dear = dearest();
    struct delivery d = certificate(&large, "ULR");
    write_file(folder, "model.tab", large.file, 10 * large.records);
    write_file(folder, "bounds.cer", d.file, d.len);
    write_file(folder, "dearest.tab", dear.file, 10 * dear.records);
}

int main(int count, char **arguments)
{
    if (count == 2) {
        write_files(arguments[1]);
        return 0;
    }
    static const char *const all[] = {"U", "UL", "ULR", NULL}, *const without_means[] = {"U", "UL", NULL};
    struct model one = single(), small = rich(4, 8, 4), thin = one_a_row(8, 16), large = rich(8, 16, 8), dead = never_removes(8, 16, 8);
    struct model chain = deep(0), padded = deep(1024 - (int)chain.records);

    printf("Files stay in cache: warm, read-only. The plain check's arrays are not cleared where C need not.\n");
    printf("Times are the least of %d samples of %.0f ms or more, in ns a call; samples are interleaved, each at another place of the stack.\n", ROUNDS, 1e3 * SAMPLE_SECONDS);
    printf("%-31s %7s %5s %6s %8s | %11s %11s | %6s | %8s %8s\n", "", "", "", "live", "products", "plain", "archive", "", "plain", "archive");
    printf("%-31s %7s %5s %6s %8s | %11s %11s | %6s | %8s %8s\n", "case", "records", "V", "rounds", "of an f", "ns", "ns", "ratio", "ns/prod.", "ns/prod.");
    row("model refused, 10", &one, NULL, 9, 10 << 16);
    row("model", &one, NULL, 10, 0);
    row("model", &small, NULL, 10 * small.records, 0);
    row("model", &large, NULL, 10 * large.records, 0);
    rows_of("single", &one, all);
    rows_of("rich, small", &small, all);
    rows_of("one record a row", &thin, all);
    rows_of("rich, large", &large, all);
    rows_of("all dead, large", &dead, without_means);
    rows_of("deep chain", &chain, all);
    rows_of("deep chain, padded", &padded, all);
    struct delivery d = certificate(&large, "ULR");
    row("delivery refused, 10", &large, &d, 9, 10 << 16);
    refused_last(&large);
    printf("worst ratio: %.2f\n", worst);
    return 0;
}
