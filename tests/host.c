/* Answers cases read from standard input with the three calls of bounds.h and, where a program and a folder are named, with that program's output. */
#define _POSIX_C_SOURCE 200809L
#define _XOPEN_SOURCE 700
#include <fcntl.h>
#include <spawn.h>
#include <stdio.h>
#include <stdlib.h>
#include <string.h>
#include <sys/wait.h>
#include <unistd.h>

#include "bounds.h"

extern char **environ;

/* One file's bytes, in a block of exactly their length, so that memory tools see a read beyond the end. */
struct file {
    uint8_t *bytes;
    size_t length;
};

/* A program's output so far; the block is kept from case to case. */
struct output {
    char *bytes;
    size_t length, room;
};

static void fail(const char *what)
{
    perror(what);
    exit(2);
}

static void need(int true_here, const char *what)
{
    if (!true_here) {
        fprintf(stderr, "host: %s\n", what);
        exit(2);
    }
}

/* Reads a little-endian number; false at the end of the input. */
static int read_length(size_t *length)
{
    uint8_t bytes[4];
    size_t count = fread(bytes, 1, 4, stdin);
    if (count == 0)
        return 0;
    need(count == 4, "input ends within a length");
    *length = (size_t)bytes[0] | (size_t)bytes[1] << 8 | (size_t)bytes[2] << 16 | (size_t)bytes[3] << 24;
    return 1;
}

static void read_file(struct file *file)
{
    file->bytes = malloc(file->length);
    if (file->bytes == NULL && file->length == 0)
        file->bytes = malloc(1);
    need(file->bytes != NULL, "no memory");
    need(fread(file->bytes, 1, file->length, stdin) == file->length, "input ends within a file");
}

/* Writes a file for the program; an empty one is left out when the case number is even. */
static void write_file(const char *name, const struct file *file, unsigned long case_number)
{
    if (file->length == 0 && case_number % 2 == 0) {
        unlink(name);
        return;
    }
    int target = open(name, O_WRONLY | O_CREAT | O_TRUNC, 0600);
    if (target < 0)
        fail(name);
    need(write(target, file->bytes, file->length) == (ssize_t)file->length, "file not written whole");
    close(target);
}

/* Reads all that comes from the descriptor. */
static void collect(int source, struct output *output)
{
    output->length = 0;
    for (;;) {
        if (output->room - output->length < 65536) {
            output->room += 131072;
            output->bytes = realloc(output->bytes, output->room);
            need(output->bytes != NULL, "no memory");
        }
        ssize_t count = read(source, output->bytes + output->length, 65536);
        if (count < 0)
            fail("read");
        if (count == 0)
            return;
        output->length += (size_t)count;
    }
}

/* Runs the program in the working folder and keeps its standard output. */
static void run_program(char *program, struct output *output)
{
    int ends[2], status;
    pid_t child;
    posix_spawn_file_actions_t actions;
    char *arguments[] = {program, NULL};
    if (pipe(ends) != 0)
        fail("pipe");
    posix_spawn_file_actions_init(&actions);
    posix_spawn_file_actions_addopen(&actions, 0, "/dev/null", O_RDONLY, 0);
    posix_spawn_file_actions_adddup2(&actions, ends[1], 1);
    posix_spawn_file_actions_addclose(&actions, ends[0]);
    posix_spawn_file_actions_addclose(&actions, ends[1]);
    need(posix_spawn(&child, program, &actions, NULL, arguments, environ) == 0, "program does not start");
    posix_spawn_file_actions_destroy(&actions);
    close(ends[1]);
    collect(ends[0], output);
    close(ends[0]);
    if (waitpid(child, &status, 0) != child)
        fail("waitpid");
    need(WIFEXITED(status), "program ended by a signal");
}

/* Writes `model_code delivery_code shortfall`, without the line's end. */
static void answer(const struct file *model, const struct file *delivery)
{
    uint32_t model_code = bounds_check_model(model->bytes, model->length);
    uint32_t delivery_code = bounds_check_delivery(model->bytes, model->length, delivery->bytes, delivery->length);
    int64_t shortfall = bounds_delivery_shortfall(model->bytes, model->length, delivery->bytes, delivery->length);
    printf("%lu %lu %lld", (unsigned long)model_code, (unsigned long)delivery_code, (long long)shortfall);
}

int main(int count, char **arguments)
{
    struct file model, delivery;
    struct output output = {NULL, 0, 0};
    char *program = NULL;
    need(count == 1 || count == 3, "usage: host [PROGRAM DIR]");
    if (count == 3) {
        program = realpath(arguments[1], NULL);
        if (program == NULL || chdir(arguments[2]) != 0)
            fail("host");
    }
    for (unsigned long case_number = 0; read_length(&model.length); case_number++) {
        need(read_length(&delivery.length), "input ends within a case");
        read_file(&model);
        read_file(&delivery);
        answer(&model, &delivery);
        if (program != NULL) {
            write_file("model.tab", &model, case_number);
            write_file("bounds.cer", &delivery, case_number);
            run_program(program, &output);
            printf(" %zu", output.length);
        }
        putchar('\n');
        if (program != NULL)
            fwrite(output.bytes, 1, output.length, stdout);
        fflush(stdout);
        free(model.bytes);
        free(delivery.bytes);
    }
    free(output.bytes);
    free(program);
    return 0;
}
