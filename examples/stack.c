/*
 * How much stack the calls take: those on each delivery named, and on one of many nodes at one place (more records than short arrays
 * serve, and nothing is shown quickly), are made on a thread whose stack was painted before, and what lost its paint is counted. Prints
 * the most that a judging, a counting of breaks and any other call took, and fails where that passes CANOPYRAIL_STACK or the 64 KiB that
 * the header names for the others.
 *
 *     cc -std=c11 -pthread -I include examples/stack.c "$(tools/archive)/libcanopyrail.a" -o stack
 *     ./stack DIR...
 */
#define _DEFAULT_SOURCE
#include <pthread.h>
#include <stdio.h>
#include <stdlib.h>
#include <string.h>
#include <sys/mman.h>
#include <sys/stat.h>

#include "canopyrail.h"

enum { FILES = CANOPYRAIL_FILES, PAINT = 0xA5, ROOM = 2 * CANOPYRAIL_STACK, OTHERS = 64 * 1024 };

static const char *const names[FILES] = {"CATALOGO", "OB_PUN", "OB_TEX", "OB_LIN", "TRAMO", "VERTICE", "NODO", "OB_COMP"};
static uint8_t *held[FILES];
static canopyrail_bytes files[FILES];

/* What the calls are lent and what they answer; on the thread's own stack it would be counted. */
static canopyrail_values values;
static uint8_t room[CANOPYRAIL_LONGEST];
static uint64_t cells[CANOPYRAIL_CELLS];
static uint64_t sums[CANOPYRAIL_CELLS];
static volatile uint64_t answered;

static void idle(void)
{
}

static void judge(void)
{
    answered = canopyrail_judge(files, FILES);
}

static void count(void)
{
    answered = canopyrail_grid(files, FILES, cells, CANOPYRAIL_CELLS);
}

/* Reads a record and writes it again; a record that can't be read is refused. */
static void read_and_write(size_t file, size_t record)
{
    answered = canopyrail_read_values(file, files[file - 1].bytes, files[file - 1].len, record, &values);
    answered = canopyrail_write_values(file, &values, room, sizeof room);
}

static void ask_table(size_t file)
{
    answered = canopyrail_fields(file) + canopyrail_length(file);
    for (size_t field = 0; field <= CANOPYRAIL_FIELDS; field++)
        answered = canopyrail_offset(file, field) + canopyrail_width(file, field) + canopyrail_form(file, field);
}

/* Every call but the two that judge; record 0 and the one past the last too. */
static void others(void)
{
    answered = canopyrail_version();
    answered = canopyrail_grid_add(sums, CANOPYRAIL_CELLS, cells, CANOPYRAIL_CELLS);
    for (size_t file = 1; file <= FILES; file++) {
        size_t records = canopyrail_count(file, files[file - 1].bytes, files[file - 1].len);
        for (size_t record = 0; record <= records + 1; record++)
            read_and_write(file, record);
        ask_table(file);
    }
    const uint64_t answer = 5305000010700000u;
    answered = canopyrail_reason(answer) + canopyrail_file(answer) + canopyrail_record(answer) + canopyrail_field(answer) +
               canopyrail_other(answer);
}

/* Reads what is there of a delivery; an absent file is empty. */
static void load(const char *folder)
{
    for (size_t i = 0; i < FILES; i++) {
        char path[4096];
        FILE *in;
        long length;
        free(held[i]);
        held[i] = NULL;
        files[i] = (canopyrail_bytes){NULL, 0};
        snprintf(path, sizeof path, "%s/%s", folder, names[i]);
        in = fopen(path, "rb");
        if (in == NULL)
            continue;
        fseek(in, 0, SEEK_END);
        length = ftell(in);
        rewind(in);
        if (length > 0) {
            held[i] = malloc((size_t)length);
            if (held[i] == NULL || fread(held[i], 1, (size_t)length, in) != (size_t)length)
                exit(2);
            files[i] = (canopyrail_bytes){held[i], (size_t)length};
        }
        fclose(in);
    }
}

/* Many nodes at one place, which nothing uses: the first breaks 56, and all others 54 as well. */
static void load_nodes(void)
{
    enum { NODES = 1000, LENGTH = 50 };
    static uint8_t nodes[NODES * LENGTH + 1];

    for (int i = 0; i < NODES; i++)
        snprintf((char *)nodes + i * LENGTH, LENGTH + 1, "%010d| |+|000000100|+|0000000200| |        \r\n", i);
    for (size_t i = 0; i < FILES; i++)
        files[i] = (canopyrail_bytes){NULL, 0};
    files[CANOPYRAIL_NODO - 1] = (canopyrail_bytes){nodes, NODES * LENGTH};
}

/* What the thread does. */
static void (*work)(void);

static void *turn(void *unused)
{
    (void)unused;
    work();
    return NULL;
}

/* The bytes of stack that some work takes, with what the thread itself does. */
static size_t taken(void (*some)(void))
{
    pthread_attr_t how;
    pthread_t thread;
    size_t left = 0;
    uint8_t *stack = mmap(NULL, ROOM, PROT_READ | PROT_WRITE, MAP_PRIVATE | MAP_ANONYMOUS, -1, 0);
    if (stack == MAP_FAILED)
        exit(2);
    memset(stack, PAINT, ROOM);
    work = some;
    if (pthread_attr_init(&how) || pthread_attr_setstack(&how, stack, ROOM) || pthread_create(&thread, &how, turn, NULL))
        exit(2);
    pthread_join(thread, NULL);
    pthread_attr_destroy(&how);
    while (left < ROOM && stack[left] == PAINT)
        left++;
    munmap(stack, ROOM);
    return ROOM - left;
}

static size_t greater(size_t a, size_t b)
{
    return a > b ? a : b;
}

static int is_folder(const char *path)
{
    struct stat found;

    return stat(path, &found) == 0 && S_ISDIR(found.st_mode);
}

int main(int argc, char **argv)
{
    size_t least = taken(idle);
    size_t judging = least;
    size_t counting = least;
    size_t other = least;

    if (argc < 2) {
        fprintf(stderr, "usage: stack DIR...\n");
        return 2;
    }
    for (int i = 1; i < argc; i++) {
        if (!is_folder(argv[i])) {
            fprintf(stderr, "stack: %s is no folder\n", argv[i]);
            return 2;
        }
        load(argv[i]);
        judging = greater(judging, taken(judge));
        counting = greater(counting, taken(count));
        other = greater(other, taken(others));
    }
    for (size_t i = 0; i < FILES; i++)
        free(held[i]);
    load_nodes();
    judging = greater(judging, taken(judge));
    if (canopyrail_reason(answered) != 56) {
        fprintf(stderr, "stack: many nodes at one place are told as %d\n", (int)canopyrail_reason(answered));
        return 2;
    }
    counting = greater(counting, taken(count));
    judging -= least;
    counting -= least;
    other -= least;
    printf("stack: a judging takes at most %zu bytes, a counting %zu, another call %zu\n", judging, counting, other);
    return judging > CANOPYRAIL_STACK || counting > CANOPYRAIL_STACK || other >= OTHERS;
}
