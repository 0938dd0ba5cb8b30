/*
 * A judging, or a counting, on a stack that is too small ends at the stack's guard page and writes nothing past it, since the archive
 * touches every page of its frames in turn. Below each stack tried here lies a guard page, and below that painted memory, which must keep
 * its paint. The call is made in a process of its own, which the guard page ends.
 */
#define _DEFAULT_SOURCE
#include <pthread.h>
#include <signal.h>
#include <stdint.h>
#include <stdio.h>
#include <stdlib.h>
#include <string.h>
#include <sys/mman.h>
#include <sys/wait.h>
#include <unistd.h>

#include "canopyrail.h"

enum { PAINT = 0xA5, PAINTED = 2 * CANOPYRAIL_STACK, KIB = 1024, CODES = 600, CODE = 133 };

/* A catalogue that breaks nothing, of so many records that every group of rules is read, in its long arrays. */
static uint8_t catalogo[CODES * CODE + 1];
static const canopyrail_bytes files[1] = {{catalogo, CODES * CODE}};

static void fill(void)
{
    for (int i = 0; i < CODES; i++)
        snprintf((char *)catalogo + i * CODE, CODE + 1, "%07d|L|%60s|%60s\r\n", i, "", "");
}

static void *judge(void *unused)
{
    (void)unused;
    _exit(canopyrail_judge(files, 1) == CANOPYRAIL_FINE ? 0 : 3);
}

static void *count(void *unused)
{
    uint64_t cells[CANOPYRAIL_CELLS];

    (void)unused;
    _exit(canopyrail_grid(files, 1, cells, CANOPYRAIL_CELLS) == CANOPYRAIL_FINE ? 0 : 3);
}

/* Makes the call on the stack given; ends the process. */
static void call_on(void *(*call)(void *), uint8_t *stack, size_t size)
{
    pthread_attr_t how;
    pthread_t thread;

    if (pthread_attr_init(&how) || pthread_attr_setstack(&how, stack, size) || pthread_create(&thread, &how, call, NULL))
        _exit(2);
    pthread_join(thread, NULL);
    _exit(0);
}

/* How a process ended that made the call on a stack of this size; the paint below is looked at after it. */
static int ended_on(void *(*call)(void *), size_t size, int *kept)
{
    const size_t page = (size_t)sysconf(_SC_PAGESIZE);
    const size_t whole = PAINTED + page + size;
    uint8_t *painted = mmap(NULL, whole, PROT_READ | PROT_WRITE, MAP_SHARED | MAP_ANONYMOUS, -1, 0);
    int status = 0;

    if (painted == MAP_FAILED)
        exit(2);
    memset(painted, PAINT, PAINTED);
    if (mprotect(painted + PAINTED, page, PROT_NONE) != 0)
        exit(2);
    pid_t child = fork();
    if (child == 0)
        call_on(call, painted + PAINTED + page, size);
    if (child < 0 || waitpid(child, &status, 0) != child)
        exit(2);
    *kept = 1;
    for (size_t i = 0; i < PAINTED; i++)
        if (painted[i] != PAINT)
            *kept = 0;
    munmap(painted, whole);
    return status;
}

static int check(const char *name, void *(*call)(void *), size_t size, int too_small)
{
    int kept = 0;
    int status = ended_on(call, size, &kept);
    int at_guard = WIFSIGNALED(status) && WTERMSIG(status) == SIGSEGV;
    int whole = WIFEXITED(status) && WEXITSTATUS(status) == 0;

    if (kept && (too_small ? at_guard : whole))
        return 0;
    printf("guard: a %s on %zu KiB of stack: status %d, what lies below %s\n", name, size / KIB, status, kept ? "kept" : "written over");
    return 1;
}

static int check_all(const char *name, void *(*call)(void *))
{
    return check(name, call, 256 * KIB, 1) + check(name, call, 512 * KIB, 1) + check(name, call, 1024 * KIB, 1)
           + check(name, call, CANOPYRAIL_STACK + 64 * KIB, 0);
}

int main(void)
{
    fill();
    int bad = check_all("judging", judge) + check_all("counting", count);

    if (bad == 0)
        printf("guard: a stack that is too small ends a judging and a counting at its guard page\n");
    return bad != 0;
}
