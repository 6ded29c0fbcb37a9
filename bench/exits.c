/* Times how long it takes to read all entries of one exit of the largest model, which are 128, in a row: from a list in the order of files, where an exit's entries
   stand 8 places apart, and from a list by exit, where they stand side by side (request A.6). Plain C on lists of 1,024 numbers as a register holds them: one list,
   which stays in the nearest cache, and 65,536 of them, 256 MB in all, of which each is read once in a round. */
#define _POSIX_C_SOURCE 200809L
#include <stdint.h>
#include <stdio.h>
#include <stdlib.h>
#include <time.h>

enum { STATES = 8, ROWS = 8 * 16, ENTRIES = ROWS * STATES, MANY = 65536, ROUNDS = 9, CACHED_READS = 200000 };
enum { BY_FILE, BY_EXIT, ORDERS };
enum { ONE_LIST, MANY_LISTS, KINDS };

static uint32_t (*lists)[ENTRIES];

/* The place of the entry with exit q of a row. */
static size_t place(int order, size_t row, size_t q)
{
    return order == BY_FILE ? row * STATES + q : q * ROWS + row;
}

/* The sum of the numbers of one exit, which fits 32 bits; compiled for each order by itself. */
static inline uint32_t exit_sum(const uint32_t *list, int order, size_t q)
{
    uint32_t sum = 0;
    for (size_t row = 0; row < ROWS; row++)
        sum += list[place(order, row, q)];
    return sum;
}

static double now(void)
{
    struct timespec t;
    clock_gettime(CLOCK_MONOTONIC, &t);
    return (double)t.tv_sec + 1e-9 * (double)t.tv_nsec;
}

/* Nanoseconds for an exit's entries, over so many reads that go round `count` lists, a power of two; and the sum of all that was read. */
static double time_reads(int order, size_t count, size_t reads, uint64_t *sum)
{
    double start = now();
    *sum = 0;
    for (size_t i = 0; i < reads; i++) {
        const uint32_t *list = lists[i * 40503 & (count - 1)];
        *sum += order == BY_FILE ? exit_sum(list, BY_FILE, i % STATES) : exit_sum(list, BY_EXIT, i % STATES);
    }
    return 1e9 * (now() - start) / (double)reads;
}

static void fill(int order)
{
    for (size_t k = 0; k < MANY; k++)
        for (size_t row = 0; row < ROWS; row++)
            for (size_t q = 0; q < STATES; q++)
                lists[k][place(order, row, q)] = (uint32_t)(k + 100 * row + q);
}

int main(void)
{
    static const char *const NAMES[ORDERS] = {"in the order of files", "by exit"};
    static const size_t COUNT[KINDS] = {1, MANY}, READS[KINDS] = {CACHED_READS, MANY};
    double least[ORDERS][KINDS];
    uint64_t sums[ORDERS][KINDS];
    lists = malloc(sizeof *lists * MANY);
    if (!lists)
        return 1;
    for (int round = 0; round < ROUNDS; round++)
        for (int order = 0; order < ORDERS; order++) {
            fill(order);
            for (int kind = 0; kind < KINDS; kind++) {
                double ns = time_reads(order, COUNT[kind], READS[kind], &sums[order][kind]);
                if (round == 0 || ns < least[order][kind])
                    least[order][kind] = ns;
            }
        }
    for (int kind = 0; kind < KINDS; kind++)
        if (sums[BY_FILE][kind] != sums[BY_EXIT][kind]) {
            fprintf(stderr, "bench: the two orders read otherwise\n");
            return 1;
        }
    printf("The %d entries of one exit read in a row, in ns; the least of %d rounds.\n%-22s | %9s | %9s\n", ROWS, ROUNDS, "list", "in cache", "not there");
    for (int order = 0; order < ORDERS; order++)
        printf("%-22s | %9.1f | %9.1f\n", NAMES[order], least[order][ONE_LIST], least[order][MANY_LISTS]);
    free(lists);
    return 0;
}
