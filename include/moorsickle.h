/* Moorsickle for C (C99 and later) and C++ (C++11 and later): five calls on the layout of a Lustre file.
 *
 * The layout. Every call takes the layout as its pages, back to back in one run of bytes, from page 0 to the last. A
 * page has no length in front of it: it ends after the records that its head counts. The components may be divided
 * among pages in any way. Each call reads and checks all pages anew.
 *
 * Units. Offsets, lengths, free space and the low mark are in bytes. A file byte is counted from the file's start, an
 * object byte from the object's start; pages and stripes are counted from 0. The length of a lent buffer (size_t) is
 * counted in its elements: bytes for uint8_t, numbers for uint64_t.
 *
 * Answers. Every call returns 0 if it is done, else the number of a refusal (below). A refusal of the pages, 1 to 8,
 * comes first; then the call gives the first of its own numbers, in the order listed at the call, that applies. A call
 * writes only if it returns 0; if it returns anything else, all memory that it was lent is as it was. docs/FORMAT.md
 * says what to look for under each number, and has the bytes of a page and the rules.
 *
 * Memory. All memory is the caller's, before and after a call. The library allocates nothing and keeps nothing between
 * calls, neither values nor pointers; so calls may run in several threads at a time, as long as none writes what
 * another uses.
 *
 * Pointers. A pointer that comes with a length is valid for that many elements, to read if it is const, else to read
 * and write; it may be null only if the length is 0. A pointer with no length is valid for one element, or for as many
 * as its brackets say, and is never null. A pointer to uint64_t is aligned as such. What a call may write overlaps
 * nothing else that is lent to the same call. The caller must make sure of all this: the library cannot check it.
 *
 * An example, which finds the place of a file byte:
 *
 *     #include <inttypes.h>
 *     #include <stdio.h>
 *     #include "moorsickle.h"
 *
 *     int tell(const uint8_t *pages, size_t pages_len, uint64_t offset)
 *     {
 *         struct moorsickle_home home;
 *         uint32_t refusal = moorsickle_lookup(pages, pages_len, offset, (uint64_t *)&home);
 *         if (refusal == MOORSICKLE_NOT_INIT)
 *             return puts("no home yet: grow the layout");
 *         if (refusal != MOORSICKLE_DONE)
 *             return printf("refused %" PRIu32 "\n", refusal);
 *         return printf("target %" PRIu64 ", object %" PRIu64 ", byte %" PRIu64 "\n",
 *                       home.target, home.number, home.byte);
 *     }
 *
 * A whole program is in examples/gateway.c.
 */
#ifndef MOORSICKLE_H
#define MOORSICKLE_H

#include <stddef.h>
#include <stdint.h>

#ifdef __cplusplus
extern "C" {
#endif

/* What a call returns. */
enum {
    /* done; the results are written */
    MOORSICKLE_DONE = 0,

    /* Refusals of the pages, by every call. */

    /* the bytes end with pages outstanding; also if there are no bytes */
    MOORSICKLE_NOT_COMPLETE = 1,
    /* bytes come after the last page */
    MOORSICKLE_AFTER_LAST_PAGE = 2,
    /* the bytes of a page are not of the form of a page; also a page that is cut short or longer than 512 bytes */
    MOORSICKLE_FORM = 3,
    /* a page's number is not the next, or its generation is not that of page 0; moorsickle_page: no such page */
    MOORSICKLE_PAGE_NUMBER = 4,
    /* more than 16 components */
    MOORSICKLE_OVER_16 = 5,
    /* a component breaks the rules of its fields */
    MOORSICKLE_FIELDS = 6,
    /* components break the rules of neighbours */
    MOORSICKLE_NEIGHBOURS = 7,
    /* two components share an id, or two object records name the same target and number */
    MOORSICKLE_DISTINCTNESS = 8,

    /* Refusals of the call; each names the calls that give it. */

    /* offset + length is above 2^64 - 1: cut */
    MOORSICKLE_REQUEST_END = 9,
    /* a byte asked for is at or past the last component's end: lookup, cut, grow */
    MOORSICKLE_PAST_END = 10,
    /* a byte asked for is in a component that is not init, so it has no home yet: lookup, cut */
    MOORSICKLE_NOT_INIT = 11,
    /* more pieces than 256, or than the lent room takes: cut */
    MOORSICKLE_PIECES = 12,
    /* the object is not in the layout: back */
    MOORSICKLE_NO_OBJECT = 13,
    /* the object byte is hidden: its file byte is outside the object's component, or is not below 2^64: back */
    MOORSICKLE_HIDDEN = 14,
    /* the free table is bad: grow */
    MOORSICKLE_TABLE = 15,
    /* too few targets are usable: grow */
    MOORSICKLE_TOO_FEW_TARGETS = 16,
    /* the step would leave 17 components: grow */
    MOORSICKLE_GROWN_OVER_16 = 17,
    /* a chosen target and number are in the layout already: grow */
    MOORSICKLE_OBJECT_IN_LAYOUT = 18,
    /* a change is due and the generation is 2^32 - 1: grow */
    MOORSICKLE_GENERATION = 19,
    /* the buffer is shorter than what is to be written: page, grow */
    MOORSICKLE_BUFFER = 20
};

/* Limits of the format. */
enum {
    /* bytes of a page */
    MOORSICKLE_MAX_PAGE_BYTES = 512,
    /* bytes of all pages of a layout: 16 pages, each with one component of 16 object records */
    MOORSICKLE_MAX_LAYOUT_BYTES = 4992,
    /* pieces of a request */
    MOORSICKLE_MAX_PIECES = 256,
    /* records of a free table */
    MOORSICKLE_MAX_TARGETS = 64
};

/* Names for the numbers in the arrays that the calls take, in their order. Such a struct, or an array of them, may be
 * lent as the array of numbers, by a cast to uint64_t *; lengths are still counted in numbers. */

/* Where a file byte is stored: the byte `byte` of the object with this target and number. */
struct moorsickle_home {
    uint64_t target;
    uint64_t number;
    uint64_t byte;
};

/* A piece of a request: `length` bytes from the file byte `offset`, all in one stripe of the component with the id
 * `component`; its first byte is the byte `byte` of that stripe's object. A lookup of `offset` tells the object. */
struct moorsickle_piece {
    uint64_t offset;
    uint64_t length;
    uint64_t component;
    uint64_t stripe;
    uint64_t byte;
};

/* A record of the free table: a target, its free bytes, and the number that its next object gets. */
struct moorsickle_target {
    uint64_t target;
    uint64_t free_bytes;
    uint64_t next;
};

/* What growth answers: the bytes of the new pages, and 1 if the file byte asked for has a home now, else 0. */
struct moorsickle_growth {
    uint64_t written;
    uint64_t has_home;
};

/* Each struct is its numbers with nothing between them. C99 cannot assert it. */
#if defined(__cplusplus)
#define MOORSICKLE_NUMBERS(type, count) static_assert(sizeof(type) == 8 * (count), "a struct of numbers")
#elif defined(__STDC_VERSION__) && __STDC_VERSION__ >= 201112L
#define MOORSICKLE_NUMBERS(type, count) _Static_assert(sizeof(type) == 8 * (count), "a struct of numbers")
#else
#define MOORSICKLE_NUMBERS(type, count) struct moorsickle_unchecked
#endif
MOORSICKLE_NUMBERS(struct moorsickle_home, 3);
MOORSICKLE_NUMBERS(struct moorsickle_piece, 5);
MOORSICKLE_NUMBERS(struct moorsickle_target, 3);
MOORSICKLE_NUMBERS(struct moorsickle_growth, 2);
#undef MOORSICKLE_NUMBERS

/* The home of the file byte at `offset`. Writes `home`: target, object number, object byte.
 * Refusals: 1 to 8 of the pages; 10, 11. */
uint32_t moorsickle_lookup(const uint8_t *pages, size_t pages_len, uint64_t offset, uint64_t home[3]);

/* The way back: the file byte whose home is byte `byte` of the object with this target and number. Writes `*offset`.
 * Refusals: 1 to 8 of the pages; 13, 14. */
uint32_t moorsickle_back(const uint8_t *pages, size_t pages_len, uint32_t target, uint64_t number, uint64_t byte,
                         uint64_t *offset);

/* Cuts the request for `length` bytes from `offset` into pieces, at every component border and every multiple of the
 * component's stripe size. Writes the number of pieces to `*count`, and the pieces in file order to the first numbers
 * of `room`, five numbers a piece: file offset, length, component id, stripe, object byte. The numbers after them stay.
 * The room is for room_len / 5 pieces, rounded down; no request gets more than MOORSICKLE_MAX_PIECES. Length 0 gives no
 * pieces, wherever `offset` points.
 * Refusals: 1 to 8 of the pages; 9, 10, 11, 12. */
uint32_t moorsickle_cut(const uint8_t *pages, size_t pages_len, uint64_t offset, uint64_t length, uint64_t *room,
                        size_t room_len, uint64_t *count);

/* Writes page `number` of the layout to the first bytes of `buffer`, and its length to `*written`. The bytes after it
 * stay. The page is cut by the writer's rule, whatever the paging of `pages`: a component goes into the current page if
 * it fits in 512 bytes, else it starts the next. No page needs more than MOORSICKLE_MAX_PAGE_BYTES. Pages are numbered
 * from 0 without gaps.
 * Refusals: 1 to 8 of the pages; 4 also if the layout has no page of this number; 20. Once a page has been written, 4
 * can only mean the second. */
uint32_t moorsickle_page(const uint8_t *pages, size_t pages_len, uint64_t number, uint8_t *buffer, size_t buffer_len,
                         uint64_t *written);

/* Makes one step of growth, for the component that holds the file byte at `offset`.
 * `table` is the free table, three numbers a record as in struct moorsickle_target, targets strictly rising;
 * `table_len` is counted in numbers. A target is low if its free bytes are below `low_mark` or it is not in the table.
 * New objects are placed on targets that are not low and whose next number is below 2^64 - 1, the lowest targets first.
 * Writes the pages of the layout after the step to the first bytes of `grown`, back to back and cut by the writer's
 * rule; and to `answer` their length, and 1 if the file byte has a home now, else 0. In the table, the next number of
 * each target that got a new object goes up by 1. Nothing else in `grown` and in the table changes. No layout needs
 * more than MOORSICKLE_MAX_LAYOUT_BYTES. `pages` stays as it is: the caller goes on with what is in `grown`.
 * One step may not reach the file byte: call again, with the new pages. Bytes that have homes keep them. If the byte
 * has a home already the layout does not change; each change adds 1 to its generation.
 * Refusals: 1 to 8 of the pages; 10; 15 if table_len is no multiple of 3, or there are more than 64 records, or targets
 * do not rise strictly, or one is above 65,534; 16, 17, 18, 19; 20, asked last. */
uint32_t moorsickle_grow(const uint8_t *pages, size_t pages_len, uint64_t offset, uint64_t low_mark, uint64_t *table,
                         size_t table_len, uint8_t *grown, size_t grown_len, uint64_t answer[2]);

#ifdef __cplusplus
}
#endif

#endif
