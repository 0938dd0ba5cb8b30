/*
 * A coverage-guided fuzzer over the library's C calls, for libFuzzer; tools/fuzz builds and runs it.
 *
 * An input is eight lengths of two bytes, the low byte first, and then the bytes of the eight files; what is missing is empty. A
 * delivery is held against what is true of every delivery: an answer is a reason of the table at a place that is there, the same
 * again when asked again; a record is read exactly if the judge does not refuse it with 20 to 25 at or before it; what is read is
 * written back byte for byte; a refused call leaves what it was lent; of the breaks counted there is none exactly if the delivery is
 * accepted, else they are all of one ten, and the one shown is among them; a grid added to itself is doubled; with the records turned
 * round as many breaks are counted as before.
 */
#include <stdio.h>
#include <stdlib.h>
#include <string.h>

#include "canopyrail.h"

enum { FILES = CANOPYRAIL_FILES, GROUPS = CANOPYRAIL_GROUPS, CELLS = CANOPYRAIL_CELLS, HEAD = 2 * FILES, MOST = 65536 };

typedef struct {
    uint8_t *bytes;
    size_t length;
} held;

size_t LLVMFuzzerMutate(uint8_t *data, size_t size, size_t most);
int LLVMFuzzerTestOneInput(const uint8_t *data, size_t size);
size_t LLVMFuzzerCustomMutator(uint8_t *data, size_t size, size_t most, unsigned int seed);

static void must(int holds, const char *what)
{
    if (holds)
        return;
    fprintf(stderr, "broken: %s\n", what);
    abort();
}

/* A block of just so many bytes, so that the address sanitizer sees a byte too many. */
static uint8_t *block(size_t length)
{
    uint8_t *bytes = malloc(length ? length : 1);
    must(bytes != NULL, "memory");
    return bytes;
}

static void take_apart(const uint8_t *data, size_t size, held files[FILES])
{
    size_t at = HEAD;
    for (size_t i = 0; i < FILES; i++) {
        size_t length = size < HEAD ? 0 : (size_t)data[2 * i] + 256u * data[2 * i + 1];
        size_t left = size < at ? 0 : size - at;
        if (length > left)
            length = left;
        files[i].length = length;
        files[i].bytes = block(length);
        if (length)
            memcpy(files[i].bytes, data + at, length);
        at += length;
    }
}

/* The entries are in a block of their own too. */
static canopyrail_bytes *lend(const held files[FILES], size_t n)
{
    canopyrail_bytes *lent = (canopyrail_bytes *)(void *)block(n * sizeof *lent);
    for (size_t i = 0; i < n; i++)
        lent[i] = (canopyrail_bytes){files[i].bytes, files[i].length};
    return lent;
}

static uint64_t judge_first(const held files[FILES], size_t n)
{
    canopyrail_bytes *lent = lend(files, n);
    uint64_t answer = canopyrail_judge(lent, n);
    free(lent);
    return answer;
}

static uint64_t judge(const held files[FILES])
{
    return judge_first(files, FILES);
}

/* How many files there are up to the last that has bytes. */
static size_t given(const held files[FILES])
{
    size_t n = FILES;
    while (n > 0 && files[n - 1].length == 0)
        n--;
    return n;
}

static int is_reason(uint64_t reason)
{
    static const unsigned char table[] = {10, 11, 20, 21, 22, 23, 24, 25, 30, 40, 41, 50, 51, 52, 53, 54, 55, 56, 57, 58, 70};
    for (size_t i = 0; i < sizeof table; i++)
        if (table[i] == reason)
            return 1;
    return 0;
}

static void check_place(uint64_t answer, const held files[FILES])
{
    size_t file = (size_t)canopyrail_file(answer);
    size_t record = (size_t)canopyrail_record(answer);
    size_t count;
    must(is_reason(canopyrail_reason(answer)), "a reason of the table");
    must(file >= 1 && file <= FILES, "a file that is there");
    count = canopyrail_count(file, files[file - 1].bytes, files[file - 1].length);
    must(record <= count + (canopyrail_reason(answer) == 11), "a record that is there");
    must(canopyrail_field(answer) <= canopyrail_fields(file), "a field that is there");
}

/* A grid in a block of its own. */
static uint64_t *grid_first(const held files[FILES], size_t n)
{
    canopyrail_bytes *lent = lend(files, n);
    uint64_t *cells = (uint64_t *)(void *)block(CELLS * sizeof *cells);
    memset(cells, 0xEE, CELLS * sizeof *cells);
    must(canopyrail_reason(canopyrail_grid(lent, n, cells, CELLS - 1)) == 61, "a grid has no room in fewer cells");
    must(cells[0] == UINT64_C(0xEEEEEEEEEEEEEEEE) && cells[CELLS - 2] == cells[0], "a refused counting leaves what it was lent");
    must(canopyrail_grid(lent, n, cells, CELLS) == 0, "every delivery has a grid");
    free(lent);
    return cells;
}

/* A reason's group by its tens: the sixties are of other calls, so the seventies are the sixth. */
static size_t group_of(uint64_t reason)
{
    return reason < 60 ? (size_t)reason / 10 : (size_t)reason / 10 - 1;
}

static uint64_t of_group(const uint64_t *cells, size_t group)
{
    uint64_t sum = 0;
    for (size_t file = 1; file <= FILES; file++)
        sum += cells[GROUPS * (file - 1) + group - 1];
    return sum;
}

static uint64_t of_all(const uint64_t *cells)
{
    uint64_t sum = 0;
    for (size_t group = 1; group <= GROUPS; group++)
        sum += of_group(cells, group);
    return sum;
}

static void check_doubled(const uint64_t *cells)
{
    uint64_t twice[CELLS];
    memcpy(twice, cells, sizeof twice);
    must(canopyrail_grid_add(twice, CELLS, cells, CELLS) == 0, "two grids of one delivery have a sum");
    for (size_t i = 0; i < CELLS; i++)
        must(twice[i] == 2 * cells[i], "a grid added to itself is doubled");
}

/* Adds a grid to the most that cells may hold: refused where there is any break. */
static void check_full(const uint64_t *cells)
{
    uint64_t full[CELLS];
    uint64_t answer;
    for (size_t i = 0; i < CELLS; i++)
        full[i] = UINT64_C(9999999999);
    answer = canopyrail_grid_add(full, CELLS, cells, CELLS);
    must(canopyrail_reason(answer) == (of_all(cells) == 0 ? 0 : 67), "a sum of more than ten digits");
    for (size_t i = 0; i < CELLS; i++)
        must(full[i] == UINT64_C(9999999999), "a refused sum leaves what it was lent");
}

static void check_grid(uint64_t answer, const held files[FILES])
{
    uint64_t *cells = grid_first(files, FILES), *fewer = grid_first(files, given(files));
    must(memcmp(cells, fewer, CELLS * sizeof *cells) == 0, "the same grid where empty files at the end are left out");
    must((of_all(cells) == 0) == (answer == 0), "no break is counted exactly if the delivery is accepted");
    if (answer != 0) {
        size_t group = group_of(canopyrail_reason(answer)), file = (size_t)canopyrail_file(answer);
        must(cells[GROUPS * (file - 1) + group - 1] >= 1, "the break shown is counted");
        must(of_group(cells, group) == of_all(cells), "all breaks counted are of one ten");
    }
    check_doubled(cells);
    check_full(cells);
    free(cells);
    free(fewer);
}

/* The least (file, record) whose record can't be read, as one number; 0 where all can. */
static uint64_t read_all(const held files[FILES])
{
    uint64_t first = 0;
    for (size_t i = 0; i < FILES; i++) {
        size_t length = canopyrail_length(i + 1);
        size_t count = canopyrail_count(i + 1, files[i].bytes, files[i].length);
        for (size_t n = 1; n <= count; n++) {
            canopyrail_values v, before;
            uint8_t *room = block(length);
            uint64_t refused;
            memset(&v, 0xEE, sizeof v);
            before = v;
            refused = canopyrail_read_values(i + 1, files[i].bytes, files[i].length, n, &v);
            if (refused) {
                must(memcmp(&v, &before, sizeof v) == 0, "a refused reading leaves what it was lent");
                if (first == 0)
                    first = (i + 1) * 100000 + n;
            } else {
                must(canopyrail_write_values(i + 1, &v, room, length) == 0, "what was read is written");
                must(memcmp(room, files[i].bytes + (n - 1) * length, length) == 0, "the same bytes are written");
                memset(room, 0xEE, length);
                must(canopyrail_reason(canopyrail_write_values(i + 1, &v, room, length - 1)) == 61, "room too short");
                must(room[0] == 0xEE && room[length - 1] == 0xEE, "a refused writing leaves what it was lent");
            }
            free(room);
        }
    }
    return first;
}

static void turn_round(held files[FILES])
{
    for (size_t i = 0; i < FILES; i++) {
        size_t length = canopyrail_length(i + 1);
        size_t count = files[i].length / length;
        for (size_t a = 0, b = count; a + 1 < b; a++, b--) {
            uint8_t aside[CANOPYRAIL_LONGEST];
            memcpy(aside, files[i].bytes + a * length, length);
            memcpy(files[i].bytes + a * length, files[i].bytes + (b - 1) * length, length);
            memcpy(files[i].bytes + (b - 1) * length, aside, length);
        }
    }
}

/* Turns the records round: accepted as before or refused as before, with the same grid. */
static void check_order(uint64_t answer, held files[FILES])
{
    uint64_t *before = grid_first(files, FILES), *after;
    turn_round(files);
    must((judge(files) == 0) == (answer == 0), "in another order accepted too, or refused too");
    after = grid_first(files, FILES);
    must(memcmp(before, after, CELLS * sizeof *before) == 0, "the same grid in another order");
    free(before);
    free(after);
}

int LLVMFuzzerTestOneInput(const uint8_t *data, size_t size)
{
    held files[FILES];
    uint64_t answer, unread;
    take_apart(data, size, files);
    answer = judge(files);
    must(judge(files) == answer, "the same answer again");
    must(judge_first(files, given(files)) == answer, "empty files at the end may be left out");
    check_grid(answer, files);
    unread = read_all(files);
    if (answer == 0) {
        must(unread == 0, "every record of an accepted delivery is read");
    } else {
        uint64_t reason = canopyrail_reason(answer);
        check_place(answer, files);
        if (reason >= 30)
            must(unread == 0, "where fields are judged lawful every record is read");
        if (reason >= 20 && reason < 30)
            must(unread == canopyrail_file(answer) * 100000 + canopyrail_record(answer), "the first record that can't be read is shown");
    }
    check_order(answer, files);
    for (size_t i = 0; i < FILES; i++)
        free(files[i].bytes);
    return 0;
}

static unsigned int next(unsigned int *seed)
{
    *seed = *seed * 1664525u + 1013904223u;
    return *seed >> 8;
}

/* Changes one field of one record, or puts one record in another's place: what a delivery is made of stays in step. */
static size_t change_record(uint8_t *data, size_t size, unsigned int *seed)
{
    size_t starts[FILES], at = HEAD;
    for (size_t i = 0; i < FILES; i++) {
        starts[i] = at;
        at += (size_t)data[2 * i] + 256u * data[2 * i + 1];
    }
    if (at > size)
        return size;
    for (int tries = 0; tries < 8; tries++) {
        size_t i = next(seed) % FILES;
        size_t length = canopyrail_length(i + 1);
        size_t count = ((size_t)data[2 * i] + 256u * data[2 * i + 1]) / length;
        uint8_t *one, *other;
        size_t field, from, width;
        if (count == 0)
            continue;
        one = data + starts[i] + (next(seed) % count) * length;
        other = data + starts[i] + (next(seed) % count) * length;
        field = 1 + next(seed) % canopyrail_fields(i + 1);
        from = canopyrail_offset(i + 1, field);
        width = canopyrail_width(i + 1, field);
        switch (next(seed) % 9) {
        case 0: memmove(one, other, length); break;
        case 1: memmove(one + from, other + from, width); break;
        case 2: memset(one + from, ' ', width); break;
        case 3: memset(one + from, '0', width); one[from + width - 1] = (uint8_t)('0' + next(seed) % 10); break;
        case 4: one[from + next(seed) % width] = (uint8_t)('0' + next(seed) % 10); break;
        case 5: one[from] = (uint8_t)"+- PXLTS|ACEIH"[next(seed) % 14]; break;
        case 6: LLVMFuzzerMutate(one + from, width, width); break;
        case 7: one[from + next(seed) % width] = 0xA0; break;
        default: one[next(seed) % length] = (uint8_t)next(seed); break;
        }
        return size;
    }
    return size;
}

/* One more record, a copy of the file's last, or one fewer. */
static size_t change_count(uint8_t *data, size_t size, size_t most, unsigned int *seed)
{
    size_t i = next(seed) % FILES, at = HEAD, length = canopyrail_length(i + 1), now;
    for (size_t j = 0; j < i; j++)
        at += (size_t)data[2 * j] + 256u * data[2 * j + 1];
    now = (size_t)data[2 * i] + 256u * data[2 * i + 1];
    if (at + now > size)
        return size;
    if (next(seed) % 2) {
        if (now < length || size + length > most || now + length > 65535)
            return size;
        memmove(data + at + now + length, data + at + now, size - at - now);
        memmove(data + at + now, data + at + now - length, length);
        now += length;
        size += length;
    } else {
        if (now < length)
            return size;
        memmove(data + at + now - length, data + at + now, size - at - now);
        now -= length;
        size -= length;
    }
    data[2 * i] = (uint8_t)(now % 256);
    data[2 * i + 1] = (uint8_t)(now / 256);
    return size;
}

size_t LLVMFuzzerCustomMutator(uint8_t *data, size_t size, size_t most, unsigned int seed)
{
    if (size < HEAD)
        return LLVMFuzzerMutate(data, size, most);
    switch (next(&seed) % 10) {
    case 0: return LLVMFuzzerMutate(data, size, most);
    case 1:
    case 2: return change_count(data, size, most, &seed);
    default:
        for (unsigned int turns = 1 + next(&seed) % 3; turns > 0; turns--)
            size = change_record(data, size, &seed);
        return size;
    }
}
