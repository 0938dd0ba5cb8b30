/*
 * calls.c: checks the calls of libcanopyrail.a as a C program sees them.
 *
 *     cc -std=c11 -I include examples/calls.c "$(tools/archive)/libcanopyrail.a" -o calls && ./calls
 *
 * Prints the number of checks and exits with 0, or prints the first check that fails, with its line
 * in this file, and exits with 1. A call that touches a byte too many ends the program. For that
 * everything is done three times: with memory in blocks of malloc of the exact size, which a
 * sanitizer watches; in blocks that end just before a page that may not be touched; and in blocks
 * that begin just after one. The pages also see what a library does that has no sanitizer in it.
 */
#define _DEFAULT_SOURCE /* mmap with MAP_ANONYMOUS */
#include <stdio.h>
#include <stdlib.h>
#include <string.h>
#include <sys/mman.h>
#include <unistd.h>

#include "canopyrail.h"

enum {
    CATALOGO = CANOPYRAIL_CATALOGO,
    OB_PUN = CANOPYRAIL_OB_PUN,
    OB_TEX = CANOPYRAIL_OB_TEX,
    OB_LIN = CANOPYRAIL_OB_LIN,
    TRAMO = CANOPYRAIL_TRAMO,
    VERTICE = CANOPYRAIL_VERTICE,
    NODO = CANOPYRAIL_NODO,
    OB_COMP = CANOPYRAIL_OB_COMP,
    FILES = CANOPYRAIL_FILES
};
enum { FIELDS = CANOPYRAIL_FIELDS, TEXT = CANOPYRAIL_TEXT, TEXTS = FIELDS * TEXT };
enum { GROUPS = CANOPYRAIL_GROUPS, CELLS = CANOPYRAIL_CELLS };

static unsigned long checks;

static void need(int holds, int line, const char *what)
{
    if (!holds) {
        printf("calls.c:%d: %s\n", line, what);
        exit(1);
    }
}

/* What must hold for this program to go on, and what is checked of the library. */
#define NEED(what) need((what), __LINE__, #what)
#define CHECK(what) (NEED(what), checks++)

/* ------------------------------------------------------------------------------ lent memory */

enum manner { EXACT, FENCE_AFTER, FENCE_BEFORE };

static enum manner manner;

typedef struct block {
    struct block *next;
    void *start;
    size_t whole; /* 0: from malloc */
} block;

static block *blocks;

static void keep(void *start, size_t whole)
{
    block *b = malloc(sizeof *b);

    NEED(start != NULL && b != NULL);
    *b = (block){blocks, start, whole};
    blocks = b;
}

/* Whole pages for the bytes, between two pages that may not be touched. */
static uint8_t *fenced(size_t size)
{
    size_t page = (size_t)sysconf(_SC_PAGESIZE);
    size_t inner = (size + page - 1) / page * page;
    uint8_t *start = mmap(NULL, inner + 2 * page, PROT_NONE, MAP_PRIVATE | MAP_ANONYMOUS, -1, 0);

    NEED(start != MAP_FAILED);
    keep(start, inner + 2 * page);
    if (inner > 0)
        NEED(mprotect(start + page, inner, PROT_READ | PROT_WRITE) == 0);
    return manner == FENCE_BEFORE ? start + page : start + page + inner - size;
}

/* Memory for so many bytes and no more; of no bytes, null or a pointer that may not be followed. */
static void *lend(size_t size)
{
    if (manner != EXACT)
        return fenced(size);
    if (size == 0)
        return NULL;
    void *start = malloc(size);
    keep(start, 0);
    return start;
}

static uint8_t *lend_copy(const void *bytes, size_t size)
{
    uint8_t *copy = lend(size);

    if (size > 0)
        memcpy(copy, bytes, size);
    return copy;
}

static void give_back(void)
{
    while (blocks != NULL) {
        block *next = blocks->next;
        if (blocks->whole == 0)
            free(blocks->start);
        else
            munmap(blocks->start, blocks->whole);
        free(blocks);
        blocks = next;
    }
}

/* Memory filled with a pattern that no call would write. */
static void *lend_pattern(size_t size)
{
    uint8_t *bytes = lend(size);

    for (size_t i = 0; i < size; i++)
        bytes[i] = (uint8_t)(0xA5 ^ (i * 7));
    return bytes;
}

/* Whether the bytes from `from` up to `size` still have the pattern. */
static int untouched(const void *memory, size_t from, size_t size)
{
    const uint8_t *bytes = memory;

    for (size_t i = from; i < size; i++)
        if (bytes[i] != (uint8_t)(0xA5 ^ (i * 7)))
            return 0;
    return 1;
}

/* ------------------------------------------------------------------------------ deliveries */

typedef struct {
    char bytes[1024];
    size_t length;
} file;

typedef struct {
    file files[FILES + 1];
} delivery;

static void add(file *f, const char *record)
{
    size_t length = strlen(record);

    NEED(f->length + length < sizeof f->bytes);
    memcpy(f->bytes + f->length, record, length + 1);
    f->length += length;
}

static void add_code(delivery *d, const char *code, const char *type)
{
    char record[256];

    snprintf(record, sizeof record, "%7s|%1s|%60s|%60s\r\n", code, type, "", "");
    add(&d->files[CATALOGO], record);
}

static void add_object(delivery *d, const char *id, const char *code, const char *name)
{
    char record[256];

    snprintf(record, sizeof record, "%10s|%10s|%7s|%-60s|%1s|%9s|%1s|%10s|%1s|%8s\r\n", id, "",
             code, name, "", "", "", "", "", "");
    add(&d->files[OB_LIN], record);
}

static void add_composite(delivery *d, const char *id, const char *code)
{
    char record[256];

    snprintf(record, sizeof record, "%10s|%7s|%60s|%1s|%9s|%1s|%10s|%1s|%8s\r\n", id, code, "", "",
             "", "", "", "", "");
    add(&d->files[OB_COMP], record);
}

static void add_tramo(delivery *d, const char *id, const char *object, const char *code,
                      const char *start, const char *end)
{
    char record[256];

    snprintf(record, sizeof record, "%10s|%10s|%10s|%10s|%7s|%10s|%10s|%1s\r\n", id, object, "", "",
             code, start, end, "");
    add(&d->files[TRAMO], record);
}

static void add_vertex(delivery *d, const char *line, const char *order, const char *x,
                       const char *y)
{
    char record[256];

    snprintf(record, sizeof record, "%10s|%5s|+|%9s|+|%10s|%1s|%8s\r\n", line, order, x, y, "", "");
    add(&d->files[VERTICE], record);
}

static void add_node(delivery *d, const char *id, const char *x, const char *y)
{
    char record[256];

    snprintf(record, sizeof record, "%10s|%1s|+|%9s|+|%10s|%1s|%8s\r\n", id, "", x, y, "", "");
    add(&d->files[NODO], record);
}

/* Document 01's small delivery S. */
static delivery small(void)
{
    delivery d = {0};

    add_code(&d, "0100000", "L");
    add_code(&d, "0100001", "T");
    add_object(&d, "0000000001", "0100000", "");
    add_tramo(&d, "0000000001", "0000000001", "0100001", "0000000001", "0000000002");
    add_vertex(&d, "0000000001", "00001", "000000100", "0000000200");
    add_vertex(&d, "0000000001", "00002", "000000140", "0000000200");
    add_node(&d, "0000000001", "000000100", "0000000200");
    add_node(&d, "0000000002", "000000140", "0000000200");
    return d;
}

/* S with some bytes of a record overwritten, from its field on. */
static delivery changed(size_t f, size_t record, size_t field, const char *text)
{
    delivery d = small();
    size_t at = (record - 1) * canopyrail_length(f) + canopyrail_offset(f, field);

    NEED(at + strlen(text) <= d.files[f].length);
    memcpy(d.files[f].bytes + at, text, strlen(text));
    return d;
}

/* An entry that must not be looked at: its bytes can't be read, and a file so long has reason 10. */
static const canopyrail_bytes garbage = {(const uint8_t *)1, SIZE_MAX};

/* An array of n entries and no more: the delivery's files, and past them garbage. */
static canopyrail_bytes *lend_files(const delivery *d, size_t n)
{
    canopyrail_bytes *files = lend(n * sizeof *files);

    for (size_t i = 0; i < n; i++) {
        files[i] = garbage;
        if (i < FILES) {
            files[i].len = d->files[i + 1].length;
            files[i].bytes = lend_copy(d->files[i + 1].bytes, files[i].len);
        }
    }
    return files;
}

/* A delivery's files in lent memory, and the entries as they were lent. */
typedef struct {
    const delivery *delivery;
    canopyrail_bytes *files;
    canopyrail_bytes before[2 * FILES];
    size_t n;
} lent_delivery;

static lent_delivery lend_delivery(const delivery *d, size_t n)
{
    lent_delivery l = {.delivery = d, .files = lend_files(d, n), .n = n};

    NEED(n <= 2 * FILES);
    if (n > 0)
        memcpy(l.before, l.files, n * sizeof *l.files);
    return l;
}

/* What was only to be read must be as it was. */
static void check_unchanged(const lent_delivery *l)
{
    CHECK(l->n == 0 || memcmp(l->before, l->files, l->n * sizeof *l->files) == 0);
    for (size_t i = 0; i < l->n && i < FILES; i++)
        CHECK(l->files[i].len == 0 ||
              memcmp(l->files[i].bytes, l->delivery->files[i + 1].bytes, l->files[i].len) == 0);
}

/* Judges by an array of n entries. */
static uint64_t judge_first(const delivery *d, size_t n)
{
    lent_delivery l = lend_delivery(d, n);
    uint64_t answer = canopyrail_judge(l.files, n);

    check_unchanged(&l);
    give_back();
    return answer;
}

static uint64_t judge(const delivery *d)
{
    return judge_first(d, FILES);
}

static int is(uint64_t answer, uint64_t reason, uint64_t f, uint64_t record, uint64_t field,
              uint64_t other)
{
    return canopyrail_reason(answer) == reason && canopyrail_file(answer) == f &&
           canopyrail_record(answer) == record && canopyrail_field(answer) == field &&
           canopyrail_other(answer) == other;
}

/* Of a refusal of the calls on one record, reason and field. */
static int refuses(uint64_t answer, uint64_t reason, uint64_t field)
{
    return canopyrail_reason(answer) == reason && canopyrail_field(answer) == field;
}

static void check_accepted(void)
{
    static const size_t counts[FILES + 1] = {0, 2, 0, 0, 1, 1, 2, 2, 0};
    delivery s = small();
    delivery none = {0};
    delivery bar = changed(OB_LIN, 1, 4, "a|b");

    CHECK(judge(&s) == 0);
    CHECK(judge(&none) == 0);
    CHECK(judge(&bar) == 0);
    for (size_t f = 1; f <= FILES; f++) {
        const uint8_t *bytes = lend_copy(s.files[f].bytes, s.files[f].length);
        CHECK(canopyrail_count(f, bytes, s.files[f].length) == counts[f]);
        CHECK(canopyrail_count(f, NULL, 0) == 0);
        CHECK(canopyrail_count(0, bytes, s.files[f].length) == 0);
        CHECK(canopyrail_count(FILES + 1, bytes, s.files[f].length) == 0);
        give_back();
    }
    CHECK(is(0, 0, 0, 0, 0, 0));
}

/* Fewer entries than files, more entries than files, and entries that are null. */
static void check_entries(void)
{
    static const canopyrail_bytes nulls[FILES] = {{NULL, 0}};
    delivery s = small();
    delivery bad = changed(NODO, 2, 4, "000000141");

    CHECK(canopyrail_judge(NULL, 0) == 0);
    for (size_t n = 0; n <= FILES; n++) {
        delivery cut = s;
        for (size_t f = n + 1; f <= FILES; f++)
            cut.files[f].length = 0;
        CHECK(canopyrail_judge(nulls, n) == 0);
        CHECK(judge_first(&s, n) == judge(&cut));
    }
    /* Without the nodes tramo 1 starts nowhere; without the vertices its line has none. */
    CHECK(is(judge_first(&s, 6), CANOPYRAIL_NO_RECORD, TRAMO, 1, 6, 0));
    CHECK(is(judge_first(&s, 5), CANOPYRAIL_NO_RECORD, TRAMO, 1, 4, 0));
    CHECK(is(judge_first(&s, 4), CANOPYRAIL_IDLE_OBJECT, OB_LIN, 1, 0, 0));
    CHECK(judge_first(&s, 1) == 0);
    for (size_t n = FILES + 1; n <= 2 * FILES; n++) {
        CHECK(judge_first(&s, n) == 0);
        CHECK(is(judge_first(&bad, n), CANOPYRAIL_END_ELSEWHERE, TRAMO, 1, 7, 0));
    }
}

static void check_cases(void)
{
    delivery d = changed(NODO, 2, 4, "000000141");

    CHECK(is(judge(&d), CANOPYRAIL_END_ELSEWHERE, TRAMO, 1, 7, 0));
    CHECK(judge(&d) == UINT64_C(5305000010700000));
    d = changed(VERTICE, 2, 2, "00003");
    CHECK(is(judge(&d), CANOPYRAIL_ORDER_ALONE, VERTICE, 1, 2, 0));
    d = small();
    d.files[NODO].length = 51;
    CHECK(is(judge(&d), CANOPYRAIL_RAGGED_FILE, NODO, 2, 0, 0));
    d = changed(NODO, 1, 3, "-|000000000");
    CHECK(is(judge(&d), CANOPYRAIL_OUTSIDE, NODO, 1, 3, 0));
    d = changed(NODO, 1, 4, "       11");
    CHECK(is(judge(&d), CANOPYRAIL_NOT_NUMBER, NODO, 1, 4, 0));
    d = changed(NODO, 2, 1, "0000000001");
    CHECK(is(judge(&d), CANOPYRAIL_SAME_KEY, NODO, 2, 1, 1));
    d = changed(TRAMO, 1, 7, "0000000003");
    CHECK(is(judge(&d), CANOPYRAIL_NO_RECORD, TRAMO, 1, 7, 0));
    d = changed(TRAMO, 1, 5, "0100000");
    CHECK(is(judge(&d), CANOPYRAIL_OTHER_TYPE, TRAMO, 1, 5, 'L'));
    d = small();
    add_node(&d, "0000000003", "000000100", "0000000200");
    CHECK(is(judge(&d), CANOPYRAIL_SAME_PLACE, NODO, 3, 0, 1));
    d = small();
    add_node(&d, "0000000003", "000000000", "0000000000");
    CHECK(is(judge(&d), CANOPYRAIL_IDLE_NODE, NODO, 3, 0, 0));
}

static uint64_t judge_nodes(const uint8_t *nodes, size_t length)
{
    canopyrail_bytes files[FILES] = {[NODO - 1] = {nodes, length}};

    return canopyrail_judge(files, FILES);
}

/* A file one byte over the limit, and one of just the limit. */
static void check_long_file(void)
{
    size_t most = CANOPYRAIL_RECORDS * canopyrail_length(NODO);
    uint8_t *nodes = lend(most + 1);

    memset(nodes, '0', most + 1);
    CHECK(is(judge_nodes(nodes, most + 1), CANOPYRAIL_LONG_FILE, NODO, 0, 0, 0));
    CHECK(is(judge_nodes(nodes, most), CANOPYRAIL_BAD_END, NODO, 1, 0, 0));
    CHECK(canopyrail_count(NODO, nodes, most + 1) == CANOPYRAIL_RECORDS);
    give_back();
}

/* Every beginning of every file of S, the other files whole. */
static void check_beginnings(void)
{
    for (size_t f = 1; f <= FILES; f++) {
        delivery d = small();
        for (size_t length = d.files[f].length; length-- > 0;) {
            d.files[f].length = length;
            uint64_t answer = judge(&d);
            size_t whole = length / canopyrail_length(f);
            if (length % canopyrail_length(f) != 0)
                CHECK(is(answer, CANOPYRAIL_RAGGED_FILE, f, whole + 1, 0, 0));
        }
    }
}

static void check_table(void)
{
    static const size_t lengths[FILES + 1] = {
        [CATALOGO] = 133, [OB_PUN] = 149, [OB_TEX] = 144, [OB_LIN] = 128, [TRAMO] = 77, [VERTICE] = 54, [NODO] = 50,
        [OB_COMP] = 117,
    };
    static const size_t fields[FILES + 1] = {
        [CATALOGO] = 4, [OB_PUN] = 13, [OB_TEX] = 14, [OB_LIN] = 10, [TRAMO] = 8, [VERTICE] = 8, [NODO] = 8,
        [OB_COMP] = 9,
    };

    for (size_t f = 1; f <= FILES; f++) {
        size_t at = 0;
        CHECK(canopyrail_length(f) == lengths[f]);
        CHECK(canopyrail_fields(f) == fields[f]);
        for (size_t field = 1; field <= fields[f]; field++) {
            CHECK(canopyrail_offset(f, field) == at);
            CHECK(canopyrail_width(f, field) > 0);
            at += canopyrail_width(f, field) + 1;
        }
        CHECK(at + 1 == lengths[f]);
        CHECK(canopyrail_width(f, 0) == 0);
        CHECK(canopyrail_width(f, fields[f] + 1) == 0);
        CHECK(canopyrail_width(f, SIZE_MAX) == 0);
    }
    CHECK(canopyrail_length(0) == 0 && canopyrail_length(FILES + 1) == 0);
    CHECK(canopyrail_fields(0) == 0 && canopyrail_fields(SIZE_MAX) == 0);
    CHECK(canopyrail_offset(0, 1) == 0 && canopyrail_width(FILES + 1, 1) == 0);
}

static size_t larger(size_t a, size_t b)
{
    return a < b ? b : a;
}

/* What the header says in numbers is what the archive was made with. */
static void check_header(void)
{
    size_t fields = 0, longest = 0, text = 0;

    CHECK(canopyrail_version() == CANOPYRAIL_VERSION);
    for (size_t f = 1; canopyrail_fields(f) > 0; f++) {
        CHECK(f <= FILES);
        fields = larger(fields, canopyrail_fields(f));
        longest = larger(longest, canopyrail_length(f));
        for (size_t field = 1; field <= canopyrail_fields(f); field++)
            if (canopyrail_form(f, field) == CANOPYRAIL_FORM_TEXT)
                text = larger(text, canopyrail_width(f, field));
    }
    CHECK(canopyrail_fields(FILES) > 0);
    CHECK(fields == CANOPYRAIL_FIELDS && longest == CANOPYRAIL_LONGEST && text == CANOPYRAIL_TEXT);
    /* the node's id, type, sign of X, X */
    CHECK(canopyrail_form(NODO, 1) == CANOPYRAIL_FORM_NUMBER);
    CHECK(canopyrail_form(NODO, 2) == CANOPYRAIL_FORM_TEXT);
    CHECK(canopyrail_form(NODO, 3) == CANOPYRAIL_FORM_SIGN);
    CHECK(canopyrail_form(NODO, 4) == CANOPYRAIL_FORM_COORDINATE);
    CHECK(canopyrail_form(NODO, 0) == 0 && canopyrail_form(0, 1) == 0);
}

/* ------------------------------------------------------------------------------ grids */

/* A grid, and the answer with which it came. */
typedef struct {
    uint64_t cells[CELLS];
    uint64_t answer;
} counted;

/* Counts by an array of n entries into so many cells; a refusal must leave them as they were, and any call those past the grid. */
static counted count_into(const delivery *d, size_t n, size_t cells_len)
{
    lent_delivery l = lend_delivery(d, n);
    uint64_t *cells = lend_pattern(cells_len * sizeof *cells);
    counted c = {.answer = canopyrail_grid(l.files, n, cells, cells_len)};

    check_unchanged(&l);
    CHECK(untouched(cells, c.answer == 0 ? sizeof c.cells : 0, cells_len * sizeof *cells));
    if (c.answer == 0)
        memcpy(c.cells, cells, sizeof c.cells);
    give_back();
    return c;
}

static counted count_first(const delivery *d, size_t n)
{
    counted c = count_into(d, n, CELLS);

    CHECK(c.answer == 0);
    return c;
}

static counted count(const delivery *d)
{
    return count_first(d, FILES);
}

static uint64_t cell(const counted *c, size_t f, size_t group)
{
    return c->cells[GROUPS * (f - 1) + group - 1];
}

static uint64_t total(const counted *c)
{
    uint64_t sum = 0;

    for (size_t i = 0; i < CELLS; i++)
        sum += c->cells[i];
    return sum;
}

/* All breaks of the delivery are so many of one file, in one group. */
static int has(const delivery *d, size_t f, size_t group, uint64_t many)
{
    counted c = count(d);

    return cell(&c, f, group) == many && total(&c) == many;
}

static void check_counts(void)
{
    delivery s = small();
    delivery d = changed(TRAMO, 1, 6, "0000000008|0000000009");
    counted c = count(&s);

    CHECK(FILES == 8 && GROUPS == 6 && CELLS == 48);
    CHECK(total(&c) == 0);
    CHECK(has(&d, TRAMO, 4, 2));
    d = changed(NODO, 1, 1, "         1;");
    CHECK(has(&d, NODO, 2, 2)); /* 21 and 22 at one field */
    d = small();
    for (int i = 0; i < 3; i++)
        add_node(&d, "0000000001", "000000100", "0000000200");
    CHECK(has(&d, NODO, 3, 3)); /* one for each later record, not for each pair */
    d.files[VERTICE].length -= 1;
    d.files[CATALOGO].length -= 1;
    c = count(&d);
    CHECK(cell(&c, VERTICE, 1) == 1 && cell(&c, CATALOGO, 1) == 1 && total(&c) == 2);
    d = small();
    add_node(&d, "0000000003", "000000000", "0000000000");
    add_node(&d, "0000000004", "000000000", "0000000000");
    add_node(&d, "0000000005", "000000000", "0000000000");
    CHECK(has(&d, NODO, 5, 5)); /* 56 three times, 54 twice */
}

/* S with its object in the composite 9, and a code for composites. */
static delivery grouped(void)
{
    delivery d = changed(OB_LIN, 1, 2, "0000000009");

    add_code(&d, "0500000", "C");
    add_composite(&d, "0000000009", "0500000");
    return d;
}

static void check_composites(void)
{
    delivery d = grouped();

    CHECK(judge(&d) == 0);
    /* A host that knows seven files passes no more: its composite ids name nothing. */
    CHECK(is(judge_first(&d, 7), CANOPYRAIL_NO_RECORD, OB_LIN, 1, 2, 0));
    CHECK(is(count_into(&d, 7, 35).answer, CANOPYRAIL_SHORT_ROOM, 0, 0, 0, 0));
    add_composite(&d, "0000000000", "0500000");
    CHECK(is(judge(&d), CANOPYRAIL_IDLE_COMPOSITE, OB_COMP, 2, 0, 0));
    CHECK(judge(&d) == UINT64_C(7008000020000000));
    add_composite(&d, "0000000001", "0500000");
    CHECK(has(&d, OB_COMP, 6, 2)); /* the seventies are the sixth group */
    add_composite(&d, "0000000009", "0500000");
    CHECK(is(judge(&d), CANOPYRAIL_SAME_KEY, OB_COMP, 4, 1, 1));
    d = grouped();
    add_composite(&d, "0000000004", "0100000");
    CHECK(is(judge(&d), CANOPYRAIL_OTHER_TYPE, OB_COMP, 2, 2, 'L'));
    d = grouped();
    add_composite(&d, "0000000004", "0500001");
    CHECK(is(judge(&d), CANOPYRAIL_NO_RECORD, OB_COMP, 2, 2, 0));
    d = grouped();
    add_composite(&d, "         4", "0500000");
    CHECK(is(judge(&d), CANOPYRAIL_NOT_NUMBER, OB_COMP, 2, 1, 0));
}

/* Each code of a node, where S's second one is an end and not intermediate. */
static void check_codes(void)
{
    static const char codes[] = "ACEIH e";
    static const uint64_t told[] = {CANOPYRAIL_OTHER_KIND, 0, 0, CANOPYRAIL_OTHER_KIND, CANOPYRAIL_OTHER_KIND, 0, CANOPYRAIL_OUTSIDE};

    for (size_t i = 0; codes[i] != 0; i++) {
        const char code[] = {codes[i], 0};
        delivery d = changed(NODO, 2, 2, code);

        CHECK(told[i] ? is(judge(&d), told[i], NODO, 2, 2, 0) : judge(&d) == 0);
        CHECK(has(&d, NODO, told[i] == CANOPYRAIL_OUTSIDE ? 2 : 5, told[i] != 0));
    }
}

/* Fewer entries than files, more entries than files, and entries that are null, as in judging. */
static void check_counted_entries(void)
{
    static const canopyrail_bytes nulls[FILES] = {{NULL, 0}};
    delivery s = small();
    delivery bad = changed(NODO, 2, 4, "000000141");
    counted whole = count(&bad);

    for (size_t n = 0; n <= FILES; n++) {
        delivery cut = s;
        for (size_t f = n + 1; f <= FILES; f++)
            cut.files[f].length = 0;
        counted first = count_first(&s, n), second = count(&cut), none = {.answer = 1};
        CHECK(memcmp(first.cells, second.cells, sizeof first.cells) == 0);
        CHECK((total(&first) == 0) == (judge_first(&s, n) == 0));
        CHECK(canopyrail_grid(n == 0 ? NULL : nulls, n, none.cells, CELLS) == 0);
        CHECK(total(&none) == 0);
    }
    for (size_t n = FILES + 1; n <= 2 * FILES; n++) {
        counted more = count_first(&bad, n);
        CHECK(memcmp(more.cells, whole.cells, sizeof whole.cells) == 0);
    }
}

/* Room for fewer cells than a grid has, for just as many, and for more. */
static void check_counted_room(void)
{
    delivery s = small();
    delivery bad = changed(NODO, 2, 4, "000000141");

    for (size_t room = 0; room < CELLS; room++) {
        CHECK(is(count_into(&s, FILES, room).answer, CANOPYRAIL_SHORT_ROOM, 0, 0, 0, 0));
        CHECK(is(count_into(&bad, FILES, room).answer, CANOPYRAIL_SHORT_ROOM, 0, 0, 0, 0));
    }
    CHECK(count_into(&s, 0, 0).answer == UINT64_C(6100000000000000));
    for (size_t room = CELLS; room < CELLS + 4; room++) {
        counted c = count_into(&bad, FILES, room);
        CHECK(c.answer == 0 && cell(&c, TRAMO, 5) == 1 && total(&c) == 1);
    }
}

/* The most that a cell of a sum may hold. */
#define MOST UINT64_C(9999999999)

/* A lent grid of so many cells, all different and small; past the 48th they are not looked at, and no sum would do. */
static uint64_t *lend_cells(size_t cells_len, uint64_t step)
{
    uint64_t *cells = lend(cells_len * sizeof *cells);

    for (size_t i = 0; i < cells_len; i++)
        cells[i] = i < CELLS ? step * (i + 1) : UINT64_MAX - i;
    return cells;
}

/* Adds grids of so many cells; a refusal must leave both as they were, and any call what it only reads and what lies past a grid. */
static uint64_t add_grids(size_t into_len, size_t from_len)
{
    uint64_t *into = lend_cells(into_len, 3), *from = lend_cells(from_len, 100);
    uint64_t answer = canopyrail_grid_add(into, into_len, from, from_len);

    for (size_t i = 0; i < into_len; i++)
        CHECK(into[i] == (i >= CELLS ? UINT64_MAX - i : answer == 0 ? 103 * (i + 1) : 3 * (i + 1)));
    for (size_t i = 0; i < from_len; i++)
        CHECK(from[i] == (i < CELLS ? 100 * (i + 1) : UINT64_MAX - i));
    give_back();
    return answer;
}

static void check_sums(void)
{
    for (size_t more = 0; more < 3; more++) {
        CHECK(add_grids(CELLS + more, CELLS) == 0);
        CHECK(add_grids(CELLS, CELLS + more) == 0);
    }
    for (size_t less = 1; less <= CELLS; less++) {
        CHECK(is(add_grids(CELLS - less, CELLS), CANOPYRAIL_SHORT_ROOM, 0, 0, 0, 0));
        CHECK(is(add_grids(CELLS, CELLS - less), CANOPYRAIL_SHORT_ROOM, 0, 0, 0, 0));
        CHECK(is(add_grids(CELLS - less, CELLS - less), CANOPYRAIL_SHORT_ROOM, 0, 0, 0, 0));
    }
    CHECK(canopyrail_grid_add(NULL, 0, NULL, 0) == UINT64_C(6100000000000000));
}

/* Adds two grids that are zero but for one cell each; a refusal must leave both. */
static uint64_t add_cells(size_t at, uint64_t a, uint64_t b)
{
    uint64_t *into = lend_cells(CELLS, 0), *from = lend_cells(CELLS, 0);

    into[at] = a;
    from[at] = b;
    uint64_t answer = canopyrail_grid_add(into, CELLS, from, CELLS);
    for (size_t i = 0; i < CELLS; i++) {
        CHECK(into[i] == (i != at ? 0 : answer == 0 ? a + b : a));
        CHECK(from[i] == (i != at ? 0 : b));
    }
    give_back();
    return answer;
}

/* Sums at the edge, in each cell: the most and one more, and those that are over 64 bits. */
static void check_large_sums(void)
{
    static const struct {
        uint64_t a, b;
    } over[] = {
        {MOST, 1}, {1, MOST}, {MOST, MOST}, {MOST + 1, 0}, {0, MOST + 1}, {UINT64_MAX, 1}, {1, UINT64_MAX}, {UINT64_MAX, UINT64_MAX},
        {UINT64_MAX - 5, 7}, {UINT64_C(1) << 63, UINT64_C(1) << 63},
    };

    for (size_t at = 0; at < CELLS; at++) {
        CHECK(add_cells(at, MOST, 0) == 0);
        CHECK(add_cells(at, 0, MOST) == 0);
        CHECK(add_cells(at, MOST - 1, 1) == 0);
        CHECK(add_cells(at, 1, MOST - 1) == 0);
        for (size_t i = 0; i < sizeof over / sizeof *over; i++)
            CHECK(is(add_cells(at, over[i].a, over[i].b), CANOPYRAIL_SUM_TOO_LARGE, 0, 0, 0, 0));
    }
    CHECK(add_cells(0, MOST, 1) == UINT64_C(6700000000000000));
}

/* ------------------------------------------------------------------------------ one record */

/* The four arrays, each lent apart with its own length in elements. */
typedef struct {
    uint64_t *numbers;
    int64_t *coordinates;
    size_t *lengths;
    uint8_t *texts;
    size_t numbers_len, coordinates_len, lengths_len, texts_len;
} arrays;

static arrays lend_arrays(size_t numbers, size_t coordinates, size_t lengths, size_t texts)
{
    return (arrays){
        lend_pattern(numbers * sizeof(uint64_t)),
        lend_pattern(coordinates * sizeof(int64_t)),
        lend_pattern(lengths * sizeof(size_t)),
        lend_pattern(texts),
        numbers,
        coordinates,
        lengths,
        texts,
    };
}

static int arrays_untouched(const arrays *a, size_t fields)
{
    return untouched(a->numbers, fields * sizeof(uint64_t), a->numbers_len * sizeof(uint64_t)) &&
           untouched(a->coordinates, fields * sizeof(int64_t),
                     a->coordinates_len * sizeof(int64_t)) &&
           untouched(a->lengths, fields * sizeof(size_t), a->lengths_len * sizeof(size_t)) &&
           untouched(a->texts, fields * TEXT, a->texts_len);
}

static uint64_t read_arrays(size_t f, const uint8_t *bytes, size_t len, size_t n, const arrays *a)
{
    return canopyrail_read(f, bytes, len, n, a->numbers, a->numbers_len, a->coordinates,
                           a->coordinates_len, a->lengths, a->lengths_len, a->texts, a->texts_len);
}

static uint64_t write_arrays(size_t f, const arrays *a, uint8_t *room, size_t room_len)
{
    return canopyrail_write(f, a->numbers, a->numbers_len, a->coordinates, a->coordinates_len,
                            a->lengths, a->lengths_len, a->texts, a->texts_len, room, room_len);
}

/* Values in lent arrays, cut to some number of fields. */
static arrays lend_values(const canopyrail_values *v, size_t fields)
{
    return (arrays){
        (uint64_t *)(void *)lend_copy(v->numbers, fields * sizeof(uint64_t)),
        (int64_t *)(void *)lend_copy(v->coordinates, fields * sizeof(int64_t)),
        (size_t *)(void *)lend_copy(v->lengths, fields * sizeof(size_t)),
        lend_copy(v->texts, fields * TEXT),
        fields,
        fields,
        fields,
        fields * TEXT,
    };
}

static canopyrail_values no_values(void)
{
    canopyrail_values v = {0};

    memset(v.texts, ' ', sizeof v.texts);
    return v;
}

static void give_number(canopyrail_values *v, size_t field, uint64_t number)
{
    v->numbers[field - 1] = number;
    v->lengths[field - 1] = 1;
}

static void give_coordinate(canopyrail_values *v, size_t field, int64_t number)
{
    v->coordinates[field - 1] = number;
    v->lengths[field - 1] = 1;
}

static void give_text(canopyrail_values *v, size_t field, const char *text)
{
    NEED(strlen(text) <= TEXT);
    memcpy(v->texts + (field - 1) * TEXT, text, strlen(text));
    v->lengths[field - 1] = strlen(text);
}

static canopyrail_values node_at(int64_t x, int64_t y)
{
    canopyrail_values v = no_values();

    give_number(&v, 1, 1);
    give_coordinate(&v, 4, x);
    give_coordinate(&v, 6, y);
    return v;
}

/* Writes in lent memory of the exact size; a refusal must leave the room as it was. */
static uint64_t write_exactly(size_t f, const canopyrail_values *v, size_t fields, size_t room_len)
{
    arrays a = lend_values(v, fields);
    uint8_t *room = lend_pattern(room_len);
    uint64_t answer = write_arrays(f, &a, room, room_len);

    CHECK(untouched(room, answer == 0 ? canopyrail_length(f) : 0, room_len));
    give_back();
    return answer;
}

static void check_case_14(void)
{
    static const char written[] = "0000000001| |+|999999999|+|0000000200| |        \r\n";
    canopyrail_values v = node_at(999999999, 200);
    uint8_t *room = lend_pattern(50);

    CHECK(canopyrail_write_values(NODO, &v, room, 50) == 0);
    CHECK(memcmp(room, written, 50) == 0);
    give_back();
    v = node_at(1000000000, 200);
    CHECK(refuses(write_exactly(NODO, &v, FIELDS, 50), CANOPYRAIL_TOO_LARGE, 4));
    v = node_at(-999999999, 200);
    CHECK(write_exactly(NODO, &v, FIELDS, 50) == 0);
    v = node_at(INT64_MIN, 200);
    CHECK(refuses(write_exactly(NODO, &v, FIELDS, 50), CANOPYRAIL_TOO_LARGE, 4));
}

/* Whether reading what was written gives the same values. */
static void check_round_trip(size_t f, const canopyrail_values *v)
{
    size_t length = canopyrail_length(f);
    uint8_t *room = lend_pattern(length + 3);
    arrays given = lend_values(v, FIELDS);
    arrays read = lend_arrays(FIELDS, FIELDS, FIELDS, TEXTS);

    CHECK(write_arrays(f, &given, room, length + 3) == 0);
    CHECK(untouched(room, length, length + 3));
    uint8_t *record = lend_copy(room, length);
    CHECK(read_arrays(f, record, length, 1, &read) == 0);
    CHECK(memcmp(read.numbers, v->numbers, sizeof v->numbers) == 0);
    CHECK(memcmp(read.coordinates, v->coordinates, sizeof v->coordinates) == 0);
    CHECK(memcmp(read.lengths, v->lengths, sizeof v->lengths) == 0);
    CHECK(memcmp(read.texts, v->texts, sizeof v->texts) == 0);
    uint8_t *again = lend_pattern(length);
    CHECK(write_arrays(f, &read, again, length) == 0);
    CHECK(memcmp(again, record, length) == 0);
    give_back();
}

static void check_round_trips(void)
{
    canopyrail_values v = no_values();

    give_text(&v, 1, "0100000");
    give_text(&v, 2, "L");
    give_text(&v, 3, "NA");
    give_text(&v, 4, "a|b \xF1 012345678901234567890123456789012345678901234567890123");
    check_round_trip(CATALOGO, &v);

    v = no_values();
    give_number(&v, 1, 0);
    give_number(&v, 3, 9999999999);
    give_text(&v, 4, "N.D.");
    give_number(&v, 6, 35959);
    give_number(&v, 7, 999);
    give_coordinate(&v, 9, -999999999);
    give_coordinate(&v, 11, 9999999999);
    give_coordinate(&v, 13, -1);
    check_round_trip(OB_PUN, &v);

    v = no_values();
    give_number(&v, 1, 7);
    give_text(&v, 3, "0300000");
    give_text(&v, 4, "Camino");
    give_number(&v, 5, 0);
    give_number(&v, 8, 9);
    give_coordinate(&v, 10, 0);
    give_coordinate(&v, 12, -9999999999);
    give_coordinate(&v, 14, 99999999);
    check_round_trip(OB_TEX, &v);

    v = no_values();
    give_number(&v, 1, 1);
    give_text(&v, 3, "0100000");
    check_round_trip(OB_LIN, &v);
    give_coordinate(&v, 6, 5);
    give_coordinate(&v, 8, -5);
    check_round_trip(OB_LIN, &v);

    v = no_values();
    give_number(&v, 1, 1);
    give_number(&v, 2, 1);
    give_text(&v, 5, "0100001");
    give_number(&v, 6, 1);
    give_number(&v, 7, 2);
    give_text(&v, 8, "-");
    check_round_trip(TRAMO, &v);

    v = node_at(100, -200);
    give_number(&v, 2, 99999);
    check_round_trip(VERTICE, &v);

    v = node_at(100, -200);
    give_text(&v, 2, "E");
    check_round_trip(NODO, &v);

    v = no_values();
    give_number(&v, 1, 9999999999);
    give_text(&v, 2, "0500000");
    check_round_trip(OB_COMP, &v);
    give_text(&v, 3, "Red|norte");
    give_coordinate(&v, 5, -5);
    give_coordinate(&v, 7, 0);
    check_round_trip(OB_COMP, &v);
    give_coordinate(&v, 9, -99999999);
    check_round_trip(OB_COMP, &v);
}

/* Reads in lent memory; a refusal must leave it as it was. */
static uint64_t read_exactly(size_t f, const char *bytes, size_t len, size_t n)
{
    const uint8_t *lent = lend_copy(bytes, len);
    arrays a = lend_arrays(FIELDS, FIELDS, FIELDS, TEXTS);
    uint64_t answer = read_arrays(f, lent, len, n, &a);

    CHECK(answer == 0 || arrays_untouched(&a, 0));
    CHECK(len == 0 || memcmp(lent, bytes, len) == 0);
    give_back();
    return answer;
}

static void check_read_refusals(void)
{
    delivery s = small();
    const char *nodes = s.files[NODO].bytes;
    delivery bad = changed(NODO, 1, 4, "       11");

    CHECK(read_exactly(NODO, nodes, 100, 2) == 0);
    CHECK(refuses(read_exactly(0, nodes, 100, 1), CANOPYRAIL_NO_FILE, 0));
    CHECK(refuses(read_exactly(FILES + 1, nodes, 100, 1), CANOPYRAIL_NO_FILE, 0));
    CHECK(refuses(read_exactly(SIZE_MAX, NULL, 0, 0), CANOPYRAIL_NO_FILE, 0));
    CHECK(refuses(read_exactly(NODO, nodes, 100, 0), CANOPYRAIL_NO_SUCH_RECORD, 0));
    CHECK(refuses(read_exactly(NODO, nodes, 100, 3), CANOPYRAIL_NO_SUCH_RECORD, 0));
    CHECK(refuses(read_exactly(NODO, nodes, 99, 2), CANOPYRAIL_NO_SUCH_RECORD, 0));
    CHECK(refuses(read_exactly(NODO, nodes, 100, SIZE_MAX), CANOPYRAIL_NO_SUCH_RECORD, 0));
    CHECK(refuses(read_exactly(NODO, NULL, 0, 1), CANOPYRAIL_NO_SUCH_RECORD, 0));
    CHECK(refuses(read_exactly(NODO, bad.files[NODO].bytes, 100, 1), CANOPYRAIL_NOT_NUMBER, 4));
    CHECK(read_exactly(NODO, bad.files[NODO].bytes, 100, 2) == 0);
    CHECK(refuses(read_exactly(VERTICE, nodes, 100, 1), CANOPYRAIL_BAD_END, 0));
}

/* A lawful record whose values have too little room in one of the arrays, or more than enough. */
static void check_read_room(void)
{
    delivery s = small();
    size_t len = s.files[NODO].length;
    const char *bytes = s.files[NODO].bytes;

    for (size_t less = 1; less <= FIELDS; less++) {
        const uint8_t *nodes = lend_copy(bytes, len);
        size_t few = FIELDS - less;
        arrays tries[4] = {
            lend_arrays(few, FIELDS, FIELDS, TEXTS),
            lend_arrays(FIELDS, few, FIELDS, TEXTS),
            lend_arrays(FIELDS, FIELDS, few, TEXTS),
            lend_arrays(FIELDS, FIELDS, FIELDS, TEXTS - less),
        };
        for (size_t t = 0; t < 4; t++) {
            CHECK(refuses(read_arrays(NODO, nodes, len, 1, &tries[t]), CANOPYRAIL_SHORT_ROOM, 0));
            CHECK(arrays_untouched(&tries[t], 0));
        }
        give_back();
    }
    const uint8_t *nodes = lend_copy(bytes, len);
    arrays none = lend_arrays(0, 0, 0, 0);
    CHECK(refuses(read_arrays(NODO, nodes, len, 1, &none), CANOPYRAIL_SHORT_ROOM, 0));
    arrays ample = lend_arrays(FIELDS + 3, FIELDS + 1, FIELDS + 2, TEXTS + 5);
    CHECK(read_arrays(NODO, nodes, len, 2, &ample) == 0);
    CHECK(arrays_untouched(&ample, FIELDS));
    CHECK(ample.numbers[0] == 2 && ample.coordinates[3] == 140 && ample.coordinates[5] == 200);
    CHECK(ample.lengths[0] != 0 && ample.lengths[1] == 0 && ample.lengths[7] == 0);
    give_back();
}

static void check_write_refusals(void)
{
    canopyrail_values v = node_at(100, 200);

    for (size_t room = 0; room < 50; room++)
        CHECK(refuses(write_exactly(NODO, &v, FIELDS, room), CANOPYRAIL_SHORT_ROOM, 0));
    for (size_t room = 50; room < 60; room++)
        CHECK(write_exactly(NODO, &v, FIELDS, room) == 0);
    CHECK(refuses(write_exactly(0, &v, FIELDS, 50), CANOPYRAIL_NO_FILE, 0));
    CHECK(refuses(write_exactly(FILES + 1, &v, FIELDS, 50), CANOPYRAIL_NO_FILE, 0));
    CHECK(refuses(write_exactly(SIZE_MAX, &v, 0, 0), CANOPYRAIL_NO_FILE, 0));
    /* Past the end of shorter arrays every value is missing. */
    CHECK(write_exactly(NODO, &v, 6, 50) == 0);
    CHECK(refuses(write_exactly(NODO, &v, 5, 50), CANOPYRAIL_NOT_GIVEN, 5));
    CHECK(refuses(write_exactly(NODO, &v, 3, 50), CANOPYRAIL_NOT_GIVEN, 3));
    CHECK(refuses(write_exactly(NODO, &v, 0, 50), CANOPYRAIL_NOT_GIVEN, 1));
    give_number(&v, 1, 10000000000);
    CHECK(refuses(write_exactly(NODO, &v, FIELDS, 50), CANOPYRAIL_TOO_LARGE, 1));
}

/* Past the end of a shorter array every value is missing, whichever of the four it is: a length without its number is no id 0. */
static void check_short_arrays(void)
{
    canopyrail_values v = node_at(100, 200);
    /* NODO's id is at index 0, X and Y at 3 and 5; what is missing is told at the id or at the coordinate's sign. */
    static const size_t told[] = {1, 3, 3, 3, 5, 5};

    for (int array = 0; array < 4; array++)
        for (size_t n = 0; n <= FIELDS; n++) {
            arrays a = lend_values(&v, FIELDS);
            uint8_t *room = lend_pattern(50);
            uint64_t answer =
                canopyrail_write(NODO, a.numbers, array == 0 ? n : FIELDS, a.coordinates, array == 1 ? n : FIELDS, a.lengths,
                                 array == 2 ? n : FIELDS, a.texts, array == 3 ? n * TEXT + (n < FIELDS ? TEXT - 1 : 0) : TEXTS, room, 50);

            CHECK(n < 6 ? refuses(answer, CANOPYRAIL_NOT_GIVEN, told[n]) : answer == 0);
            CHECK(untouched(room, answer == 0 ? 50 : 0, 50));
            give_back();
        }
}

static void check_texts(void)
{
    canopyrail_values v = no_values();

    give_text(&v, 1, "0100000");
    give_text(&v, 2, "L");
    CHECK(write_exactly(CATALOGO, &v, FIELDS, 133) == 0);
    memset(v.texts + 2 * TEXT, 'a', TEXT);
    v.lengths[2] = TEXT;
    CHECK(write_exactly(CATALOGO, &v, FIELDS, 133) == 0);
    v.lengths[2] = TEXT + 1;
    CHECK(refuses(write_exactly(CATALOGO, &v, FIELDS, 133), CANOPYRAIL_BAD_TEXT, 3));
    v.lengths[2] = SIZE_MAX;
    CHECK(refuses(write_exactly(CATALOGO, &v, FIELDS, 133), CANOPYRAIL_BAD_TEXT, 3));
    v.lengths[2] = 0;
    give_text(&v, 1, "NA");
    CHECK(refuses(write_exactly(CATALOGO, &v, FIELDS, 133), CANOPYRAIL_NOT_GIVEN, 1));
    give_text(&v, 1, "0100000");
    give_text(&v, 2, "S");
    CHECK(refuses(write_exactly(CATALOGO, &v, FIELDS, 133), CANOPYRAIL_UNFIT, 2));
    give_text(&v, 2, "\n");
    CHECK(refuses(write_exactly(CATALOGO, &v, FIELDS, 133), CANOPYRAIL_BAD_TEXT, 2));
}

/* Numbers that have a domain, and a node's codes. */
static void check_domains(void)
{
    static const struct {
        uint64_t orientation;
        uint64_t refused;
    } angles[] = {{0, 0}, {59, 0}, {60, CANOPYRAIL_UNFIT}, {35959, 0}, {35960, CANOPYRAIL_UNFIT}, {36000, CANOPYRAIL_UNFIT},
                  {99999, CANOPYRAIL_UNFIT}, {100000, CANOPYRAIL_TOO_LARGE}};
    canopyrail_values v = no_values();

    give_number(&v, 1, 7);
    give_text(&v, 3, "0300000");
    give_number(&v, 5, 0);
    give_number(&v, 8, 1);
    give_coordinate(&v, 10, 0);
    give_coordinate(&v, 12, 0);
    for (size_t i = 0; i < sizeof angles / sizeof *angles; i++) {
        uint64_t answer;
        give_number(&v, 7, angles[i].orientation);
        answer = write_exactly(OB_TEX, &v, FIELDS, 144);
        CHECK(angles[i].refused ? refuses(answer, angles[i].refused, 7) : answer == 0);
    }
    give_number(&v, 7, 0);
    give_number(&v, 8, 9);
    CHECK(write_exactly(OB_TEX, &v, FIELDS, 144) == 0);
    give_number(&v, 8, 10);
    CHECK(refuses(write_exactly(OB_TEX, &v, FIELDS, 144), CANOPYRAIL_TOO_LARGE, 8));
    give_number(&v, 8, 0);
    CHECK(refuses(write_exactly(OB_TEX, &v, FIELDS, 144), CANOPYRAIL_UNFIT, 8));
    v = node_at(100, 200);
    give_text(&v, 2, "H");
    CHECK(write_exactly(NODO, &v, FIELDS, 50) == 0);
    give_text(&v, 2, "h");
    CHECK(refuses(write_exactly(NODO, &v, FIELDS, 50), CANOPYRAIL_UNFIT, 2));
}

/* The no-break blank A0 may stand within a text, and neither begin nor end it. */
static void check_no_break_blanks(void)
{
    static const struct {
        size_t field;
        const char *text;
        uint64_t refused;
    } tries[] = {
        {3, "\xA0" "a", CANOPYRAIL_BAD_TEXT}, {3, "a\xA0", CANOPYRAIL_BAD_TEXT}, {3, "\xA0", CANOPYRAIL_BAD_TEXT},
        {3, "a\xA0" "a", 0},                  {3, "\xA1", 0},                    {1, "NA\xA0", CANOPYRAIL_BAD_TEXT},
        {1, "NA\xA0" "A", 0},                 {2, "\xA0", CANOPYRAIL_BAD_TEXT},  {2, "\xA1", CANOPYRAIL_UNFIT},
    };

    for (size_t i = 0; i < sizeof tries / sizeof *tries; i++) {
        canopyrail_values v = no_values();
        uint64_t answer;
        give_text(&v, 1, "0100000");
        give_text(&v, 2, "L");
        give_text(&v, tries[i].field, tries[i].text);
        answer = write_exactly(CATALOGO, &v, FIELDS, 133);
        CHECK(tries[i].refused ? refuses(answer, tries[i].refused, tries[i].field) : answer == 0);
    }
}

static void check_all(void)
{
    check_header();
    check_table();
    check_accepted();
    check_entries();
    check_cases();
    check_long_file();
    check_beginnings();
    check_counts();
    check_composites();
    check_codes();
    check_counted_entries();
    check_counted_room();
    check_sums();
    check_large_sums();
    check_case_14();
    check_round_trips();
    check_read_refusals();
    check_read_room();
    check_write_refusals();
    check_short_arrays();
    check_texts();
    check_domains();
    check_no_break_blanks();
}

int main(void)
{
    for (manner = EXACT; manner <= FENCE_BEFORE; manner++)
        check_all();
    printf("%lu checks\n", checks);
    return 0;
}
