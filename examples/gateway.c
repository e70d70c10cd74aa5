/* A small gateway. It reads the pages of a file's layout, cuts a read request into pieces, and prints what it would
 * fetch from which target. If a byte of the request has no home yet, it grows the layout first.
 *
 *     gateway PAGES OFFSET LENGTH [LOW-MARK]
 *
 * PAGES is a file with the layout's pages back to back; OFFSET and LENGTH are the request, in bytes. Targets with fewer
 * free bytes than LOW-MARK (1 GiB if it is not given) get no new objects. The exit status is 0 if the request was cut,
 * 1 if it was refused or given up, and 2 if the arguments or the file cannot be read.
 */
#include <errno.h>
#include <inttypes.h>
#include <stdio.h>
#include <stdlib.h>
#include <string.h>

#include "moorsickle.h"

#define GIB (UINT64_C(1) << 30)

/* How many numbers an array of the header's structs holds. */
#define NUMBERS(array) (sizeof(array) / (sizeof(uint64_t)))

/* A request that takes more steps of growth than this is given up. */
#define MOST_STEPS 64

/* "Given up", as a number that is no refusal number. */
#define GIVEN_UP UINT32_MAX

/* A layout, as its pages back to back. No layout has more bytes of pages. */
struct layout {
    size_t length;
    uint8_t pages[MOORSICKLE_MAX_LAYOUT_BYTES];
};

/* The free table: target, free bytes, number of the next object. A real gateway asks the store for it. */
static struct moorsickle_target table[] = {
    {0, 64 * GIB, 11},
    {1, 512 * GIB, 20},
    {2, 512 * GIB, 30},
};

/* What the refusal numbers mean, by number. */
static const char *const meaning[] = {
    "done",
    "the pages end before the layout is complete",
    "there are bytes after the last page",
    "a page is not of the right form",
    "a page has the wrong number or generation",
    "the layout has more than 16 components",
    "a component has a wrong field",
    "a component does not fit its neighbours",
    "two components share an id, or two records name one object",
    "the request reaches past 2^64 - 1",
    "the request reaches past the layout's end",
    "a byte has no home yet",
    "the request has too many pieces",
    "the object is not in the layout",
    "the object byte is the home of no file byte",
    "the free table is bad",
    "too few targets have free space",
    "the layout would have 17 components",
    "a new object is in the layout already",
    "the layout's generation cannot rise any more",
    "the buffer is too short",
};

/* Prints why the request was not cut, and gives the exit status. */
static int refused(uint32_t number)
{
    if (number < sizeof meaning / sizeof *meaning)
        printf("refused %" PRIu32 ": %s\n", number, meaning[number]);
    else
        printf("given up after %d steps of growth\n", MOST_STEPS);
    return 1;
}

/* Reads a number from an argument. Returns 0 if there is none. */
static int read_number(const char *text, uint64_t *number)
{
    char *end;
    errno = 0;
    *number = strtoull(text, &end, 10);
    return *text >= '0' && *text <= '9' && *end == '\0' && errno == 0;
}

/* Reads the layout's pages from a file. Returns 0 if that fails, or if the file is longer than any layout's pages. */
static int read_layout(const char *name, struct layout *l)
{
    FILE *file = fopen(name, "rb");
    int whole;
    if (file == NULL)
        return 0;
    l->length = fread(l->pages, 1, sizeof l->pages, file);
    whole = fgetc(file) == EOF && !ferror(file);
    fclose(file);
    return whole;
}

/* The first byte of the request that has no home, if cutting refused the request by 11. Cutting refuses by 11 exactly
 * the requests that ask for such a byte; so the byte is found by halving the request. */
static uint64_t first_without_home(const struct layout *l, uint64_t offset, uint64_t length)
{
    uint64_t with_home = 0; /* so many bytes from the offset on are known to have homes */
    uint64_t count;
    while (length - with_home > 1) {
        uint64_t half = with_home + (length - with_home) / 2;
        if (moorsickle_cut(l->pages, l->length, offset, half, NULL, 0, &count) == MOORSICKLE_NOT_INIT)
            length = half;
        else
            with_home = half;
    }
    return offset + with_home;
}

/* Grows the layout step by step until the file byte has a home or a step is refused. The pages that a step gives take
 * the place of those before; a real gateway also sends them to the metadata server. `steps` counts the steps that were
 * made for the request. */
static uint32_t grow_for(struct layout *l, uint64_t byte, uint64_t low_mark, int *steps)
{
    uint8_t grown[MOORSICKLE_MAX_LAYOUT_BYTES];
    struct moorsickle_growth answer = {0, 0};
    while (!answer.has_home) {
        uint32_t refusal;
        if (*steps == MOST_STEPS)
            return GIVEN_UP;
        refusal = moorsickle_grow(l->pages, l->length, byte, low_mark, (uint64_t *)table, NUMBERS(table), grown,
                                  sizeof grown, (uint64_t *)&answer);
        if (refusal != MOORSICKLE_DONE)
            return refusal;
        l->length = (size_t)answer.written;
        memcpy(l->pages, grown, l->length);
        ++*steps;
    }
    printf("file byte %" PRIu64 " had no home and has one now; steps of growth so far: %d\n", byte, *steps);
    return MOORSICKLE_DONE;
}

/* Prints what to fetch for a piece. The piece has the object byte; a lookup gives the target and the object. */
static uint32_t print_piece(const struct layout *l, const struct moorsickle_piece *piece)
{
    struct moorsickle_home home;
    uint32_t refusal = moorsickle_lookup(l->pages, l->length, piece->offset, (uint64_t *)&home);
    if (refusal == MOORSICKLE_DONE)
        printf("  at file byte %" PRIu64 ", length %" PRIu64 ": fetch from target %" PRIu64 ", object %" PRIu64
               ", object byte %" PRIu64 "\n",
               piece->offset, piece->length, home.target, home.number, piece->byte);
    return refusal;
}

int main(int argc, char **argv)
{
    static struct layout l;
    static struct moorsickle_piece pieces[MOORSICKLE_MAX_PIECES];
    uint64_t offset, length, count, low_mark = GIB;
    uint32_t refusal;
    int steps = 0;

    if (argc < 4 || argc > 5 || !read_number(argv[2], &offset) || !read_number(argv[3], &length)
        || (argc == 5 && !read_number(argv[4], &low_mark))) {
        fprintf(stderr, "usage: gateway PAGES OFFSET LENGTH [LOW-MARK]\n");
        return 2;
    }
    if (!read_layout(argv[1], &l)) {
        fprintf(stderr, "cannot read the pages of a layout from %s\n", argv[1]);
        return 2;
    }

    /* Cut the request. If a byte of it has no home, grow the layout for that byte and cut again. */
    while ((refusal = moorsickle_cut(l.pages, l.length, offset, length, (uint64_t *)pieces, NUMBERS(pieces), &count))
           == MOORSICKLE_NOT_INIT) {
        refusal = grow_for(&l, first_without_home(&l, offset, length), low_mark, &steps);
        if (refusal != MOORSICKLE_DONE)
            return refused(refusal);
    }
    if (refusal != MOORSICKLE_DONE)
        return refused(refusal);

    printf("read at file byte %" PRIu64 ", length %" PRIu64 ", pieces: %" PRIu64 "\n", offset, length, count);
    for (uint64_t i = 0; i < count; i++) {
        refusal = print_piece(&l, &pieces[i]);
        if (refusal != MOORSICKLE_DONE)
            return refused(refusal);
    }
    return 0;
}
