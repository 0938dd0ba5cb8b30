/*
 * judge.c: judges the delivery in a directory with libcanopyrail.a.
 *
 *     cc -std=c11 -pthread -I include examples/judge.c "$(tools/archive)/libcanopyrail.a" -o judge
 *     ./judge DIR
 *
 * Prints the verdict's line. Of a refused delivery it then prints the values of the record that the
 * break is in, a field a line, or why that record can't be read.
 *
 * Exit status: 0 accepted, 1 refused, 2 could not judge.
 */
#define _POSIX_C_SOURCE 200809L
#include <errno.h>
#include <inttypes.h>
#include <pthread.h>
#include <stdio.h>
#include <stdlib.h>
#include <string.h>
#include <sys/stat.h>

#include "canopyrail.h"

enum { FILES = CANOPYRAIL_FILES, ACCEPTED = 0, REFUSED = 1, FAILED = 2 };

static const char *const names[FILES + 1] = {
    [CANOPYRAIL_CATALOGO] = "CATALOGO", [CANOPYRAIL_OB_PUN] = "OB_PUN",
    [CANOPYRAIL_OB_TEX] = "OB_TEX",     [CANOPYRAIL_OB_LIN] = "OB_LIN",
    [CANOPYRAIL_TRAMO] = "TRAMO",       [CANOPYRAIL_VERTICE] = "VERTICE",
    [CANOPYRAIL_NODO] = "NODO",         [CANOPYRAIL_OB_COMP] = "OB_COMP",
};

/* A file in memory. No bytes are (NULL, 0). */
typedef struct {
    uint8_t *bytes;
    size_t length;
} held;

/* Reads at most `most` bytes of an open file. Answers whether there was no trouble. */
static int read_bytes(FILE *source, size_t most, held *file)
{
    size_t room = 0;

    while (file->length < most) {
        if (file->length == room) {
            size_t more = room < 4096 ? 4096 : room * 2;
            uint8_t *bytes = realloc(file->bytes, more);
            if (bytes == NULL)
                return 0;
            file->bytes = bytes;
            room = more;
        }
        size_t wanted = (room < most ? room : most) - file->length;
        size_t got = fread(file->bytes + file->length, 1, wanted, source);
        file->length += got;
        if (got < wanted)
            break;
    }
    return !ferror(source);
}

/*
 * Opens a file of the delivery; NULL where there is none of the name. Answers whether there was no
 * trouble. Only a regular file is one of a delivery: opening a pipe could wait forever, and a link
 * to nothing is no absent file.
 */
static int open_file(const char *path, FILE **source)
{
    struct stat found;

    *source = NULL;
    if (stat(path, &found) != 0)
        return errno == ENOENT && lstat(path, &found) != 0;
    if (S_ISREG(found.st_mode))
        *source = fopen(path, "rb");
    return *source != NULL;
}

/*
 * Reads a file of the delivery. An absent one is empty. One byte past the limit is enough for the
 * library to tell that a file is too long, so no more is read.
 */
static int read_file(const char *path, size_t most, held *file)
{
    FILE *source;

    if (!open_file(path, &source))
        return 0;
    if (source == NULL)
        return 1;
    int fine = read_bytes(source, most, file);
    fclose(source);
    return fine;
}

/* Whether it is a folder: a mistyped name would be a delivery of no files, and accepted. */
static int is_folder(const char *path)
{
    struct stat found;

    return stat(path, &found) == 0 && S_ISDIR(found.st_mode);
}

/* Reads the eight files; delivery[1] is CATALOGO. Answers the first that can't be read, or 0. */
static size_t read_delivery(const char *directory, held delivery[FILES + 1])
{
    size_t length = strlen(directory) + sizeof "/CATALOGO";
    char *path = malloc(length);
    size_t trouble = 0;

    for (size_t file = 1; file <= FILES && trouble == 0; file++) {
        size_t most = CANOPYRAIL_RECORDS * canopyrail_length(file) + 1;
        if (path == NULL || snprintf(path, length, "%s/%s", directory, names[file]) < 0 ||
            !read_file(path, most, &delivery[file]))
            trouble = file;
    }
    free(path);
    return trouble;
}

/* A judging, and what it answers. */
typedef struct {
    canopyrail_bytes files[FILES];
    uint64_t answer;
} judging;

static void *run(void *given)
{
    judging *work = given;

    work->answer = canopyrail_judge(work->files, FILES);
    return NULL;
}

/*
 * Judges on a thread whose stack is known to do: the call takes up to CANOPYRAIL_STACK bytes of it.
 * A main thread has 8 MiB on most systems, but that can be set lower, and other threads often have
 * less. The thread's own start takes a little more. Answers whether there was no trouble.
 */
static int judge(const held delivery[FILES + 1], uint64_t *answer)
{
    judging work = {.answer = 0};
    pthread_attr_t how;
    pthread_t thread;

    for (size_t file = 1; file <= FILES; file++)
        work.files[file - 1] = (canopyrail_bytes){delivery[file].bytes, delivery[file].length};
    if (pthread_attr_init(&how) != 0)
        return 0;
    int fine = pthread_attr_setstacksize(&how, CANOPYRAIL_STACK + 64 * 1024) == 0 &&
               pthread_create(&thread, &how, run, &work) == 0 && pthread_join(thread, NULL) == 0;
    pthread_attr_destroy(&how);
    *answer = work.answer;
    return fine;
}

static void print_line(uint64_t answer, const held delivery[FILES + 1])
{
    if (answer != CANOPYRAIL_FINE) {
        printf("NO %02" PRIu64 " %" PRIu64 " %05" PRIu64 " %02" PRIu64 "\n",
               canopyrail_reason(answer), canopyrail_file(answer), canopyrail_record(answer),
               canopyrail_field(answer));
        return;
    }
    printf("OK");
    for (size_t file = 1; file <= FILES; file++)
        printf(" %05zu", canopyrail_count(file, delivery[file].bytes, delivery[file].length));
    printf("\n");
}

/* A text with every byte that isn't plain ASCII as \xNN. */
static void print_text(const uint8_t *text, size_t length)
{
    printf("\"");
    for (size_t i = 0; i < length; i++) {
        if (text[i] >= 0x20 && text[i] <= 0x7E && text[i] != '\\')
            printf("%c", text[i]);
        else
            printf("\\x%02X", (unsigned)text[i]);
    }
    printf("\"");
}

static void print_value(const canopyrail_values *values, size_t field, size_t form)
{
    size_t at = field - 1;

    if (values->lengths[at] == 0)
        printf("missing");
    else if (form == CANOPYRAIL_FORM_NUMBER)
        printf("%" PRIu64, values->numbers[at]);
    else if (form == CANOPYRAIL_FORM_COORDINATE)
        printf("%+" PRId64, values->coordinates[at]);
    else
        print_text(values->texts + at * CANOPYRAIL_TEXT, values->lengths[at]);
}

/* The values of the record that the break is in. A broken record may have none that can be read. */
static void print_record(uint64_t answer, const held delivery[FILES + 1])
{
    size_t file = (size_t)canopyrail_file(answer);
    size_t record = (size_t)canopyrail_record(answer);
    const held *in = &delivery[file];
    canopyrail_values values;
    uint64_t refusal = canopyrail_read_values(file, in->bytes, in->length, record, &values);

    if (refusal != CANOPYRAIL_FINE) {
        printf("%s record %zu can't be read: reason %" PRIu64 " at field %" PRIu64 "\n",
               names[file], record, canopyrail_reason(refusal), canopyrail_field(refusal));
        return;
    }
    for (size_t field = 1; field <= canopyrail_fields(file); field++) {
        size_t form = canopyrail_form(file, field);
        /* A sign has no value of its own: its coordinate has it. */
        if (form == CANOPYRAIL_FORM_SIGN)
            continue;
        printf("%s record %zu, field %zu: ", names[file], record, field);
        print_value(&values, field, form);
        printf("\n");
    }
}

/* Judges a delivery that was read, prints what is found and answers the exit status. */
static int report(const held delivery[FILES + 1])
{
    uint64_t answer;

    if (!judge(delivery, &answer)) {
        fprintf(stderr, "judge: no thread to judge on\n");
        return FAILED;
    }
    print_line(answer, delivery);
    if (answer == CANOPYRAIL_FINE)
        return ACCEPTED;
    print_record(answer, delivery);
    return REFUSED;
}

int main(int argc, char **argv)
{
    held delivery[FILES + 1] = {{NULL, 0}};
    int status = FAILED;

    if (argc != 2) {
        fprintf(stderr, "usage: judge DIR\n");
        return FAILED;
    }
    if (!is_folder(argv[1])) {
        fprintf(stderr, "judge: %s is no folder that can be read\n", argv[1]);
        return FAILED;
    }
    size_t trouble = read_delivery(argv[1], delivery);
    if (trouble != 0)
        fprintf(stderr, "judge: can't read %s/%s\n", argv[1], names[trouble]);
    else
        status = report(delivery);
    for (size_t file = 1; file <= FILES; file++)
        free(delivery[file].bytes);
    if (fflush(stdout) != 0) {
        fprintf(stderr, "judge: can't write\n");
        return FAILED;
    }
    return status;
}
