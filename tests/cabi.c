/*
 * Lists tables through include/nomutanku.h, into buffers of many sizes, and compares with listings that are kept.
 *
 *     cabi TABLE LISTING [TABLE LISTING ..]
 *
 * Each TABLE is a file with a table, and LISTING one with its whole listing. Stops at the first difference, with exit
 * status 1; 2 says that a file could not be read or memory ran out. tests/cabi builds and runs it.
 */
#include "nomutanku.h"

#include <stdio.h>
#include <stdlib.h>
#include <string.h>

enum { DIFFERS = 1, NOTHING_COMPARED = 2 };

/* In how many places a listing is cut at most, behind a line each: more would take long where a tool looks on. */
enum { MOST_CUTS = 1000 };

/* What stands around a buffer and in it before the call: no byte of a listing. */
enum { BLANK = 0xA5, MARGIN = 64 };

struct bytes {
    uint8_t *at;
    size_t size;
};

static _Noreturn void stop(int status, const char *what, const char *name, size_t room)
{
    fprintf(stderr, "cabi: %s, a buffer of %zu bytes: %s\n", name, room, what);
    exit(status);
}

/*
 * A block of exactly so many bytes, so that a tool which looks on sees a read past its end; one byte where it is empty.
 */
static uint8_t *block_of(size_t size)
{
    uint8_t *block = malloc(size > 0 ? size : 1);
    if (block == NULL)
        stop(NOTHING_COMPARED, "out of memory", "a block", size);
    return block;
}

static struct bytes read_file(const char *name)
{
    struct bytes file = {NULL, 0};
    FILE *from = fopen(name, "rb");
    if (from == NULL || fseek(from, 0, SEEK_END) != 0)
        stop(NOTHING_COMPARED, "cannot be read", name, 0);
    long size = ftell(from);
    if (size < 0 || fseek(from, 0, SEEK_SET) != 0)
        stop(NOTHING_COMPARED, "cannot be read", name, 0);
    file.size = (size_t)size;
    file.at = block_of(file.size);
    if (fread(file.at, 1, file.size, from) != file.size || fclose(from) != 0)
        stop(NOTHING_COMPARED, "cannot be read", name, 0);
    return file;
}

/* Where the line ends that begins at a place of a listing, its newline included. */
static size_t line_end(struct bytes listing, size_t at)
{
    while (at < listing.size && listing.at[at] != '\n')
        at++;
    return at < listing.size ? at + 1 : at;
}

/* How many bytes of a listing a buffer takes: line after line, as long as the longest one has room. */
static size_t page_end(struct bytes listing, size_t room)
{
    size_t end = 0;
    while (end < listing.size && room - end >= NOMUTANKU_MOST_LINE)
        end = line_end(listing, end);
    return end;
}

/* The smallest buffer that takes all of a listing. */
static size_t least_room(struct bytes listing)
{
    size_t last = 0;
    for (size_t at = 0; at < listing.size; at = line_end(listing, at))
        last = at;
    return last + NOMUTANKU_MOST_LINE;
}

static bool all_blank(const uint8_t *from, const uint8_t *to)
{
    while (from < to)
        if (*from++ != BLANK)
            return false;
    return true;
}

/* A bool is one of two bytes; any other, read as a bool, would mean nothing. */
static bool is_bool(const bool *more)
{
    unsigned char byte;
    memcpy(&byte, more, sizeof byte);
    return byte == 0 || byte == 1;
}

/* One call, with a margin on both sides of the buffer, which must stay as it is. Returns whether there was more. */
static bool compare(const char *name, struct bytes table, struct bytes listing, size_t room)
{
    size_t whole = MARGIN + room + MARGIN;
    uint8_t *block = block_of(whole), *out = block + MARGIN;
    uint8_t *kept = block_of(table.size);
    memset(block, BLANK, whole);
    memcpy(kept, table.at, table.size);

    struct nomutanku_filled filled = nomutanku_list(table.at, table.size, out, room);
    if (!is_bool(&filled.more))
        stop(DIFFERS, "more is neither true nor false", name, room);
    if (filled.end != page_end(listing, room))
        stop(DIFFERS, "the listing ends elsewhere", name, room);
    if (memcmp(out, listing.at, filled.end) != 0)
        stop(DIFFERS, "the listing is another", name, room);
    if (filled.more != (filled.end < listing.size))
        stop(DIFFERS, "whether there is more is wrong", name, room);
    if (!all_blank(block, out) || !all_blank(out + filled.end, block + whole))
        stop(DIFFERS, "a byte around the listing is changed", name, room);
    if (memcmp(kept, table.at, table.size) != 0)
        stop(DIFFERS, "the table is changed", name, room);
    free(kept);
    free(block);
    return filled.more;
}

static size_t count_lines(struct bytes listing)
{
    size_t lines = 0;
    for (size_t at = 0; at < listing.size; at = line_end(listing, at))
        lines++;
    return lines;
}

/*
 * Two calls for each line, or for some of them where they are many: a buffer that has a byte too few for the line, and
 * one that has just room. Counts the calls, and those with more to come.
 */
static void cut_at_lines(const char *name, struct bytes table, struct bytes listing, size_t *calls, size_t *cut)
{
    size_t step = count_lines(listing) / MOST_CUTS + 1;
    for (size_t at = 0, k = 0; at < listing.size; at = line_end(listing, at), k++)
        if (k % step == 0) {
            *cut += compare(name, table, listing, at + NOMUTANKU_MOST_LINE - 1);
            *cut += compare(name, table, listing, at + NOMUTANKU_MOST_LINE);
            *calls += 2;
        }
}

int main(int count, char **names)
{
    size_t calls = 0, cut = 0, pairs = 0;
    for (int k = 1; k + 1 < count; k += 2) {
        struct bytes table = read_file(names[k]), listing = read_file(names[k + 1]);
        size_t least = least_room(listing);
        const size_t rooms[] = {
            0, 1, NOMUTANKU_MOST_LINE - 1, NOMUTANKU_MOST_LINE, NOMUTANKU_MOST_LINE + 1, 2 * NOMUTANKU_MOST_LINE,
            listing.size / 2, listing.size, least - 1, least, listing.size + NOMUTANKU_MOST_LINE - 1, 65536,
        };
        for (size_t i = 0; i < sizeof rooms / sizeof rooms[0]; i++) {
            cut += compare(names[k], table, listing, rooms[i]);
            calls++;
        }
        cut_at_lines(names[k], table, listing, &calls, &cut);
        free(table.at);
        free(listing.at);
        pairs++;
    }
    if (count % 2 == 0 || pairs == 0)
        stop(NOTHING_COMPARED, "usage: cabi TABLE LISTING [TABLE LISTING ..]", "no table", 0);
    printf("%zu tables, %zu calls, %zu of them with more to come\n", pairs, calls, cut);
    return 0;
}
