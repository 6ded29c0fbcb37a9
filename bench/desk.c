/* Times the desk against the desk in plain C on the same script, after checking that both print the same. Arguments: a folder with model.tab,
   bounds.cer and dearest.tab, the desk, the plain desk. A run is a process from its start to its end that reads a script from a file; the time of a script with no
   lines after the filings is taken off, so that what is left is the lines' own. */
#define _GNU_SOURCE
#include <fcntl.h>
#include <spawn.h>
#include <stdbool.h>
#include <stdint.h>
#include <stdio.h>
#include <stdlib.h>
#include <string.h>
#include <sys/wait.h>
#include <time.h>
#include <unistd.h>

enum { LINES = 100000, ORDINARY_LINES = 10000, DEAREST_LINES = 500, DELIVERY_LINES = 200, ROUNDS = 201, SHORT_ROUNDS = 21, STATES = 8, SYMBOLS = 16 };
enum { PLAIN, DESK, SIDES };
enum { FILINGS, QUESTIONS, UNCLEAR, COMMENTS, EXITS, ORDINARY, DEAREST_FILED, DEAREST, DELIVERIES, MERGES, SCRIPTS };

/* A script: what it files, the script of the filings alone, how many lines follow, whether each gets a value, and how often it is run. */
struct script {
    const char *name, *title, *filings;
    int filed_by, lines;
    bool has_values;
    int rounds;
};

#define BOTH "model model.tab\ndelivery bounds.cer\n"

static const struct script ALL[SCRIPTS] = {
    [FILINGS] = {"filings", "start and filings", BOTH, FILINGS, 0, false, ROUNDS},
    [QUESTIONS] = {"questions", "questions", BOTH, FILINGS, LINES, true, ROUNDS},
    [UNCLEAR] = {"unclear", "the same lines, unclear", BOTH, FILINGS, LINES, false, ROUNDS},
    [COMMENTS] = {"comments", "the same lines, comments", BOTH, FILINGS, LINES, false, ROUNDS},
    [EXITS] = {"exits", "an exit's uppers in a row", BOTH, FILINGS, LINES, true, ROUNDS},
    [ORDINARY] = {"ordinary", "within 3, any entry", BOTH, FILINGS, ORDINARY_LINES, true, SHORT_ROUNDS},
    [DEAREST_FILED] = {"dearest-filed", "start, the dearest model", "model dearest.tab\n", DEAREST_FILED, 0, false, SHORT_ROUNDS},
    [DEAREST] = {"dearest", "within 3, dearest entry", "model dearest.tab\n", DEAREST_FILED, DEAREST_LINES, true, SHORT_ROUNDS},
    [DELIVERIES] = {"deliveries", "a delivery filed again", BOTH, FILINGS, DELIVERY_LINES, false, SHORT_ROUNDS},
    [MERGES] = {"merges", "a delivery merged", BOTH, FILINGS, DELIVERY_LINES, false, SHORT_ROUNDS},
};
extern char **environ;

static void die(const char *what)
{
    fprintf(stderr, "bench: %s\n", what);
    exit(1);
}

/* Scripts. */

static uint32_t drawn(uint32_t below)
{
    static uint64_t state = 1;
    state = state * 6364136223846793005u + 1442695040888963407u;
    return (uint32_t)(state >> 33) % below;
}

/* A question as a host that books by bounds would ask: mostly for bounds, now and then for a live mark or the margin. */
static void draw_question(char *line, size_t room)
{
    uint32_t p = drawn(STATES), z = drawn(SYMBOLS), q = drawn(STATES), lot = drawn(100);
    if (lot < 35)
        snprintf(line, room, "upper %u %u %u", p, z, q);
    else if (lot < 60)
        snprintf(line, room, "lower %u %u %u", p, z, q);
    else if (lot < 80)
        snprintf(line, room, "steps %u %u", p, z);
    else if (lot < 95)
        snprintf(line, room, "live %u %u %u", p, z, q);
    else
        snprintf(line, room, "margin");
}

/* The script of each kind: the filings, and then the same questions; as they are, as lines that are no call, as comments. Then the uppers of all entries of an exit,
   one exit after the other (request A.6). Then questions on short runs: of any entry, and of the dearest row. And deliveries, filed again and merged: the same one,
   so that both read the same files. */
static void write_scripts(void)
{
    FILE *out[SCRIPTS];
    char line[64];
    for (int k = 0; k < SCRIPTS; k++) {
        out[k] = fopen(ALL[k].name, "wb");
        if (!out[k])
            die("a script is not written");
        fputs(ALL[k].filings, out[k]);
    }
    for (int i = 0; i < LINES; i++) {
        draw_question(line, sizeof line);
        fprintf(out[QUESTIONS], "%s\n", line);
        fprintf(out[UNCLEAR], "U%s\n", line + 1);
        fprintf(out[COMMENTS], "#%s\n", line + 1);
        fprintf(out[EXITS], "upper %d %d %d\n", i / SYMBOLS % STATES, i % SYMBOLS, i / SYMBOLS / STATES % STATES);
    }
    for (int i = 0; i < ORDINARY_LINES; i++) {
        uint32_t p = drawn(STATES), z = drawn(SYMBOLS), q = drawn(STATES);
        fprintf(out[ORDINARY], "within 3 %u %u %u\n", p, z, q);
    }
    for (int i = 0; i < DEAREST_LINES; i++)
        fputs("within 3 0 0 0\n", out[DEAREST]);
    for (int i = 0; i < DELIVERY_LINES; i++) {
        fputs("delivery bounds.cer\n", out[DELIVERIES]);
        fputs("merge bounds.cer\n", out[MERGES]);
    }
    for (int k = 0; k < SCRIPTS; k++)
        if (fclose(out[k]) != 0)
            die("a script is not written");
}

/* Runs. */

static double now(void)
{
    struct timespec t;
    clock_gettime(CLOCK_MONOTONIC, &t);
    return (double)t.tv_sec + 1e-9 * (double)t.tv_nsec;
}

/* The seconds that a program takes for a script. */
static double run(const char *program, const char *script, const char *output)
{
    char *arguments[] = {(char *)program, NULL};
    posix_spawn_file_actions_t actions;
    pid_t child;
    int status;
    posix_spawn_file_actions_init(&actions);
    posix_spawn_file_actions_addopen(&actions, 0, script, O_RDONLY, 0);
    posix_spawn_file_actions_addopen(&actions, 1, output, O_WRONLY | O_CREAT | O_TRUNC, 0600);
    double start = now();
    if (posix_spawn(&child, program, &actions, NULL, arguments, environ) != 0)
        die("a program does not start");
    if (waitpid(child, &status, 0) != child || !WIFEXITED(status) || WEXITSTATUS(status) != 0)
        die("a program does not end well");
    double end = now();
    posix_spawn_file_actions_destroy(&actions);
    return end - start;
}

/* A file's bytes, and how many. */
static char *whole(const char *name, size_t *len)
{
    FILE *in = fopen(name, "rb");
    enum { ROOM = 1 << 23 };
    char *bytes = malloc(ROOM);
    if (!in || !bytes)
        die("no output to compare");
    *len = fread(bytes, 1, ROOM, in);
    fclose(in);
    return bytes;
}

/* Both print the same: for questions, after the filings, a value a line. */
static void same_output(const char *const *programs, const struct script *script)
{
    size_t len[SIDES];
    int values = 0;
    char *bytes[SIDES];
    for (int k = 0; k < SIDES; k++) {
        run(programs[k], script->name, "printed");
        bytes[k] = whole("printed", &len[k]);
    }
    if (len[PLAIN] != len[DESK] || memcmp(bytes[PLAIN], bytes[DESK], len[PLAIN]) != 0)
        die("the two desks print otherwise");
    for (size_t i = 0; i + 6 < len[PLAIN]; i++)
        values += memcmp(bytes[PLAIN] + i, "\nvalue ", 7) == 0;
    const char *filed = script->filed_by == FILINGS ? "accepted\nnew\n" : "accepted\n";
    if (values != (script->has_values ? script->lines : 0) || len[PLAIN] < strlen(filed) || memcmp(bytes[PLAIN], filed, strlen(filed)) != 0)
        die("a question gets no value");
    free(bytes[PLAIN]);
    free(bytes[DESK]);
}

static void time_all(const char *const *programs, double least[SCRIPTS][SIDES])
{
    for (int round = 0; round < ROUNDS; round++)
        for (int script = 0; script < SCRIPTS; script++)
            for (int k = 0; k < SIDES && round < ALL[script].rounds; k++) {
                double seconds = run(programs[k], ALL[script].name, "/dev/null");
                if (round == 0 || seconds < least[script][k])
                    least[script][k] = seconds;
            }
}

static void show_head(void)
{
    printf("%-26s | %9s %9s | %11s %11s | %6s\n", "", "plain", "desk", "plain", "desk", "");
    printf("%-26s | %9s %9s | %11s %11s | %6s\n", "script", "ns a line", "ns a line", "lines/s", "lines/s", "ratio");
}

static void show_row(double least[SCRIPTS][SIDES], int script)
{
    double ns[SIDES];
    for (int k = 0; k < SIDES; k++)
        ns[k] = 1e9 * (least[script][k] - least[ALL[script].filed_by][k]) / ALL[script].lines;
    printf("%-26s | %9.1f %9.1f | %11.0f %11.0f | %6.2f\n", ALL[script].title, ns[PLAIN], ns[DESK], 1e9 / ns[PLAIN], 1e9 / ns[DESK], ns[DESK] / ns[PLAIN]);
}

static void show_filings(double least[SCRIPTS][SIDES], int script)
{
    printf("%s: %.2f ms plain, %.2f ms desk\n", ALL[script].title, 1e3 * least[script][PLAIN], 1e3 * least[script][DESK]);
}

static void show(double least[SCRIPTS][SIDES])
{
    printf("The desk: %d lines on the largest model and delivery (rich, large, ULR), without the start and the filings; the least of %d interleaved runs.\n", LINES, ROUNDS);
    show_head();
    for (int script = QUESTIONS; script <= EXITS; script++)
        show_row(least, script);
    show_filings(least, FILINGS);
    printf("Short runs: %d lines on the same files, %d on the dearest model known, the least of %d runs. Plain C has the rows' starts from the filing; the desk checks\n"
        "the held model again and finds them once, when a short run is first asked for in a piece of input.\n", ORDINARY_LINES, DEAREST_LINES, SHORT_ROUNDS);
    show_head();
    show_row(least, ORDINARY);
    show_row(least, DEAREST);
    show_filings(least, DEAREST_FILED);
    printf("Deliveries: %d lines on the same files, each with its file read; the least of %d runs.\n", DELIVERY_LINES, SHORT_ROUNDS);
    show_head();
    show_row(least, DELIVERIES);
    show_row(least, MERGES);
}

int main(int count, char **arguments)
{
    double least[SCRIPTS][SIDES];
    if (count != 4)
        die("arguments: FOLDER DESK PLAINDESK");
    const char *programs[SIDES] = {[PLAIN] = realpath(arguments[3], NULL), [DESK] = realpath(arguments[2], NULL)};
    if (!programs[PLAIN] || !programs[DESK] || chdir(arguments[1]) != 0)
        die("no such program or folder");
    write_scripts();
    for (int script = 0; script < SCRIPTS; script++)
        same_output(programs, &ALL[script]);
    time_all(programs, least);
    show(least);
    return 0;
}
