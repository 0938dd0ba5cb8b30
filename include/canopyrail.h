/*
 * canopyrail.h: a checker and codec for MIGRA v1 map deliveries (chain-node profile, eight files).
 *
 * Link libcanopyrail.a (x86-64 Linux; of the C library it asks only memcpy and memset). Every call below is proved to meet its contract on every
 * input, damaged or empty, to stay within the memory that it is lent, and to end. docs/PROMISES.md says what is proved.
 *
 * The files are numbered from 1 (canopyrail_file_number below), and so are records and fields. Record 0 is the file as a whole, field 0
 * the record as a whole.
 *
 * MEMORY. All memory is the caller's. It is lent for the time of the call: nothing is kept between calls, nothing is allocated, there
 * is no state. So every call is reentrant, and several threads may call at once. Memory passed as `const` is only read. Memory to be
 * written must not overlap any other memory of the same call. A length counts elements, not bytes.
 *
 * NULL AND ALIGNMENT. A pointer with length 0 is never followed and may be null: an absent or empty file is {NULL, 0}. Any other
 * pointer must be valid for its length and aligned as C aligns its type (bytes need none). No length may pass PTRDIFF_MAX bytes.
 *
 * STACK. canopyrail_judge and canopyrail_grid take up to CANOPYRAIL_STACK bytes of stack, whatever the files' sizes
 * (docs/BENCHMARKS.md has the measured figure); the other calls take less than 64 KiB. A thread that judges must have been made with
 * as much and what it uses itself, which is often not so where nothing is said: pthread_attr_setstacksize(&attr, CANOPYRAIL_STACK +
 * 64 * 1024) before pthread_create, as examples/judge.c does. A stack that is too small is met at its guard page and ends the program;
 * nothing is written past it.
 *
 * ANSWERS. A call that can refuse answers with one number. 0 says that nothing is wrong. Any other is a reason with its place, and the
 * calls canopyrail_reason, _file, _record, _field and _other take it apart. As a decimal number it has the digits of
 * reason (2), file (2), record (5), field (2), other (5): 53 05 00001 07 00000. Calls on one record tell no file and no record: 0.
 * Calls on grids tell no place at all.
 *
 * HOSTS MADE WITH AN EARLIER HEADER. Before 0.2.4 a delivery had seven files, and a grid 35 cells. A host that was compiled then, and is
 * linked with this archive, passes n = 7, so that OB_COMP is an empty file: an object's composite id is refused with 40 as it was, and
 * reason 70 never comes. A code of TIPO C is in the domain now. Its grid of 35 cells is refused with 61, since 48 are needed, and nothing
 * is written. No struct of this header has grown, and no call has changed its parameters. To judge composites it must be compiled anew,
 * with eight entries.
 */
#ifndef CANOPYRAIL_H
#define CANOPYRAIL_H

#include <stddef.h>
#include <stdint.h>

#ifdef __cplusplus
extern "C" {
#endif

/* The version of this header, and as one number; canopyrail_version() tells the archive's. */
#define CANOPYRAIL_VERSION_MAJOR 0
#define CANOPYRAIL_VERSION_MINOR 2
#define CANOPYRAIL_VERSION_PATCH 4
#define CANOPYRAIL_VERSION (CANOPYRAIL_VERSION_MAJOR * 10000 + CANOPYRAIL_VERSION_MINOR * 100 + CANOPYRAIL_VERSION_PATCH)

/* How many files a delivery has, and their numbers. */
#define CANOPYRAIL_FILES 8
enum canopyrail_file_number {
    CANOPYRAIL_CATALOGO = 1,
    CANOPYRAIL_OB_PUN = 2,
    CANOPYRAIL_OB_TEX = 3,
    CANOPYRAIL_OB_LIN = 4,
    CANOPYRAIL_TRAMO = 5,
    CANOPYRAIL_VERTICE = 6,
    CANOPYRAIL_NODO = 7,
    CANOPYRAIL_OB_COMP = 8
};

/* How many groups of reasons there are, by their tens: 10 to 11, 20 to 25, 30, 40 to 41, 50 to 59, 70; and how many cells a grid has. */
#define CANOPYRAIL_GROUPS 6
#define CANOPYRAIL_CELLS (CANOPYRAIL_FILES * CANOPYRAIL_GROUPS)
/* At most so many records a file; a longer file is refused with reason 10. */
#define CANOPYRAIL_RECORDS 16384
/* The most fields a record has, the bytes of the longest text, and the bytes of the longest record. */
#define CANOPYRAIL_FIELDS 14
#define CANOPYRAIL_TEXT 60
#define CANOPYRAIL_LONGEST 149
/* Stack for canopyrail_judge and canopyrail_grid. */
#define CANOPYRAIL_STACK (4u * 1024u * 1024u)

/*
 * THE REASONS. Of all the breaks of a delivery the first is told: the least by tens of the reason, then file, record, field, reason.
 * A rule of a higher ten is read only where no lower ten is broken.
 */
enum canopyrail_reason_number {
    CANOPYRAIL_FINE = 0,
    CANOPYRAIL_LONG_FILE = 10,        /* file longer than 16,384 records' bytes: record 0, field 0 */
    CANOPYRAIL_RAGGED_FILE = 11,      /* length no multiple of the record length: whole records plus 1, field 0 */
    CANOPYRAIL_BAD_END = 20,          /* the record doesn't end in 0D 0A: field 0 */
    CANOPYRAIL_NO_BAR = 21,           /* no bar (7C) after the field */
    CANOPYRAIL_NOT_NUMBER = 22,       /* an N field is neither all digits nor all blanks */
    CANOPYRAIL_NOT_TEXT = 23,         /* an A field has a byte outside 20-7E and A0-FF, begins with a blank and isn't all blank, or its
                                         text, without the blanks after it, begins or ends in the no-break blank A0 */
    CANOPYRAIL_MISSING = 24,          /* missing where it may not be, or blank while its partner isn't */
    CANOPYRAIL_OUTSIDE = 25,          /* outside its domain (types, signs, SENTIDO, ORIENTAC, JUSTIFI); - before zero is told at the sign */
    CANOPYRAIL_SAME_KEY = 30,         /* the key equals that of an earlier record of the file; other: that record */
    CANOPYRAIL_NO_RECORD = 40,        /* a reference names no record */
    CANOPYRAIL_OTHER_TYPE = 41,       /* the code is catalogued under another type; other: that type's letter, as a byte */
    CANOPYRAIL_ORDER_GAP = 50,        /* the vertex order is 0, or is over 1 and its line has no order one less */
    CANOPYRAIL_ORDER_ALONE = 51,      /* the vertex order is 1 and its line has no order 2 */
    CANOPYRAIL_START_ELSEWHERE = 52,  /* the line's vertex of order 1 lies elsewhere in X or Y than the start node */
    CANOPYRAIL_END_ELSEWHERE = 53,    /* the line's vertex of highest order lies elsewhere in X or Y than the end node */
    CANOPYRAIL_SAME_PLACE = 54,       /* same X, Y, Z as an earlier node; other: that record */
    CANOPYRAIL_POINT_ELSEWHERE = 55,  /* a point object differs in X or Y from the node it names */
    CANOPYRAIL_IDLE_NODE = 56,        /* a node that starts or ends no tramo, is at no vertex, and is named by fewer than 2 point objects */
    CANOPYRAIL_IDLE_OBJECT = 57,      /* a linear object named by no tramo */
    CANOPYRAIL_OTHER_KIND = 58,       /* a node's TIPO says another kind of node (isolated, end, intermediate) than it is: NODO, field 2 */
    CANOPYRAIL_NO_LAST_VERTEX = 59,   /* a tramo whose line has no vertex of highest order (never told first) */
    CANOPYRAIL_IDLE_COMPOSITE = 70,   /* a composite object that no object of OB_PUN, OB_TEX or OB_LIN names: OB_COMP, field 0 */
    /* of the calls on one record */
    CANOPYRAIL_NO_FILE = 60,          /* the file number is outside 1 to 8: field 0 */
    CANOPYRAIL_SHORT_ROOM = 61,       /* the lent room is too short: field 0 */
    CANOPYRAIL_TOO_LARGE = 62,        /* writing: the value is too large for its digits */
    CANOPYRAIL_BAD_TEXT = 63,         /* writing: the text is too long, has a byte outside the A set, or begins or ends in a blank or A0 */
    CANOPYRAIL_NOT_GIVEN = 64,        /* writing: missing where it may not be, by the partner rule too */
    CANOPYRAIL_UNFIT = 65,            /* writing: a text or a number outside its domain */
    CANOPYRAIL_NO_SUCH_RECORD = 66,   /* reading: the record number is 0 or above the whole records in hand: field 0 */
    /* of the calls on grids, besides 61 */
    CANOPYRAIL_SUM_TOO_LARGE = 67     /* a cell of two grids' sum is over 9,999,999,999 */
};

/* The version of the archive that is linked: CANOPYRAIL_VERSION where header and archive belong together. */
uint64_t canopyrail_version(void);

/* A file's bytes, lent. */
typedef struct canopyrail_bytes {
    const uint8_t *bytes;
    size_t len;
} canopyrail_bytes;

/*
 * Judges a delivery: the bytes of its files, in any state, in the order of their numbers, and how many entries there are. 0 if no rule
 * is broken; else the first break. The counts of an accepted delivery are canopyrail_count of each file.
 *
 * Files past the n-th entry are empty, so (NULL, 0) is a delivery of empty files; entries past CANOPYRAIL_FILES are not looked at.
 */
uint64_t canopyrail_judge(const canopyrail_bytes *files, size_t n);

/*
 * Counts the breaks of a delivery, whose files are lent as to canopyrail_judge. 0: the first CANOPYRAIL_CELLS cells are its grid, and
 * what lies past them is as it was. Else the refusal, 61 where there are fewer cells, and they are as they were.
 *
 * The cell of a file's breaks in group g is cells[CANOPYRAIL_GROUPS * (file - 1) + g - 1]. The groups 1 to 5 are the tens, twenties and so
 * on to the fifties, group 6 is the seventies; the sixties are of other calls. Counted is the lowest ten that has any break, each of its
 * breaks once; all other cells are 0. So they are all 0 exactly if canopyrail_judge accepts the delivery, and the break that it tells is
 * one of those counted.
 */
uint64_t canopyrail_grid(const canopyrail_bytes *files, size_t n, uint64_t *cells, size_t cells_len);

/*
 * Adds a grid to another, cell by cell. 0: the first CANOPYRAIL_CELLS cells of `into` are the sums, and what lies past them is as it
 * was. Else the refusal, 61 where either has fewer cells, then 67 where a sum is over 9,999,999,999, and both are as they were. The two
 * must not overlap: a grid is doubled by way of a copy.
 */
uint64_t canopyrail_grid_add(uint64_t *into, size_t into_len, const uint64_t *from, size_t from_len);

/* An answer taken apart: the reason's number, the place, and what else the reason tells (0 where it tells nothing else). */
uint64_t canopyrail_reason(uint64_t answer);
uint64_t canopyrail_file(uint64_t answer);
uint64_t canopyrail_record(uint64_t answer);
uint64_t canopyrail_field(uint64_t answer);
uint64_t canopyrail_other(uint64_t answer);

/* The number of whole records in a file's bytes; 0 where there is no file of the number. */
size_t canopyrail_count(size_t file, const uint8_t *bytes, size_t len);

/* What a field holds. */
enum canopyrail_form_number {
    CANOPYRAIL_FORM_TEXT = 1,
    CANOPYRAIL_FORM_SIGN = 2,         /* a coordinate's sign: its digits are the next field */
    CANOPYRAIL_FORM_NUMBER = 3,
    CANOPYRAIL_FORM_COORDINATE = 4    /* a coordinate's digits */
};

/*
 * The table of the files: fields and bytes of a record; of a field where it begins (the bytes before it), its width, and its form.
 * 0 of no file and of no field.
 */
size_t canopyrail_fields(size_t file);
size_t canopyrail_length(size_t file);
size_t canopyrail_offset(size_t file, size_t field);
size_t canopyrail_width(size_t file, size_t field);
size_t canopyrail_form(size_t file, size_t field);

/*
 * VALUES of one record are lent as four arrays, the value of field f at index f - 1:
 *
 *     numbers      an N field's value
 *     coordinates  a coordinate's value, X, Y or Z, at the field of its digits; nothing is held at its sign
 *     lengths      0: missing. Of a text: how many bytes it has. Of a number or a coordinate: not 0, it is given
 *     texts        CANOPYRAIL_TEXT bytes a field: an A field's text, then blanks
 *
 * What stands where a field has no use of it isn't looked at in writing, and is 0 (blanks in texts) after reading.
 */

/*
 * Reads record n (from 1) of the bytes of a file. 0: the four arrays hold its values in their first CANOPYRAIL_FIELDS places
 * (CANOPYRAIL_FIELDS * CANOPYRAIL_TEXT in texts), and what lies past them is as it was. Else reason and field of the refusal (60, 66,
 * 20 to 25; 61 of a lawful record whose values have no room), and the arrays are as they were.
 */
uint64_t canopyrail_read(size_t file, const uint8_t *bytes, size_t len, size_t n,
                         uint64_t *numbers, size_t numbers_len,
                         int64_t *coordinates, size_t coordinates_len,
                         size_t *lengths, size_t lengths_len,
                         uint8_t *texts, size_t texts_len);

/*
 * Writes one record of a file at the start of the room. 0: the first canopyrail_length(file) bytes of the room are the record, and the
 * rest is as it was. Else reason and field of the refusal (60, 61, then 62 to 65), and the room is as it was. Past the end of a
 * shorter array every value is missing.
 */
uint64_t canopyrail_write(size_t file,
                          const uint64_t *numbers, size_t numbers_len,
                          const int64_t *coordinates, size_t coordinates_len,
                          const size_t *lengths, size_t lengths_len,
                          const uint8_t *texts, size_t texts_len,
                          uint8_t *room, size_t room_len);

/* The four arrays in one, for convenience. */
typedef struct canopyrail_values {
    uint64_t numbers[CANOPYRAIL_FIELDS];
    int64_t coordinates[CANOPYRAIL_FIELDS];
    size_t lengths[CANOPYRAIL_FIELDS];
    uint8_t texts[CANOPYRAIL_FIELDS * CANOPYRAIL_TEXT];
} canopyrail_values;

static inline uint64_t canopyrail_read_values(size_t file, const uint8_t *bytes, size_t len, size_t n, canopyrail_values *v)
{
    return canopyrail_read(file, bytes, len, n, v->numbers, CANOPYRAIL_FIELDS, v->coordinates, CANOPYRAIL_FIELDS,
                           v->lengths, CANOPYRAIL_FIELDS, v->texts, sizeof v->texts);
}

static inline uint64_t canopyrail_write_values(size_t file, const canopyrail_values *v, uint8_t *room, size_t room_len)
{
    return canopyrail_write(file, v->numbers, CANOPYRAIL_FIELDS, v->coordinates, CANOPYRAIL_FIELDS,
                            v->lengths, CANOPYRAIL_FIELDS, v->texts, sizeof v->texts, room, room_len);
}

#ifdef __cplusplus
}
#endif

#endif
