/*
 * The listing of an NTFS file record, for programs in C (C11).
 *
 * `rt lib` in crates/cabi proves the library and writes the archive crates/cabi/out/libcabi.a, for x86-64 with Linux's
 * calling convention. From the repository's top:
 *
 *     cc -std=c11 -Iinclude program.c crates/cabi/out/libcabi.a -o program
 *
 * or, where ./install has put both in place, with -lnomutanku. It needs the C library alone. tests/cabi.c is a program
 * that uses it.
 */
#ifndef NOMUTANKU_H
#define NOMUTANKU_H

#include <stdbool.h>
#include <stddef.h>
#include <stdint.h>

/*
 * No line of a listing has more bytes than this, its newline included. A line is written only where so many bytes of
 * the buffer are left, so a buffer that is shorter stays as it is.
 */
#define NOMUTANKU_MOST_LINE 256

/* How much of a buffer a listing fills. */
struct nomutanku_filled {
    size_t end; /* the listing's bytes are those from 0 up to here; no byte from here on was changed */
    bool more;  /* whether there is more of the listing than there was room for */
};

/*
 * Lists a table: what its base record's attributes are, with their names, values, parts and cluster runs.
 *
 * table, size   the table's bytes, as docs/RULES.md, section 10, lays them out. Any bytes may be handed in, and any
 *               number of them. They are read only.
 * out, room     the buffer for the listing, and how many bytes it has. What stands in it before is not read.
 *
 * The two must not overlap, and neither pointer may be NULL, also where its length is 0. Nothing else is asked.
 *
 * Gives the listing's text from the front of the buffer on: whole lines, each ended by one '\n', and no '\0' behind
 * the last. Lines are written as long as NOMUTANKU_MOST_LINE bytes are left. Where `more` is false that is the whole
 * listing. Where it is true, what was written is the front of it: call again with a larger buffer, which starts from
 * the first line. A buffer of the listing's bytes and NOMUTANKU_MOST_LINE - 1 is always large enough.
 *
 * No call fails. What is wrong with a table stands in its listing, whose last line says how it ended:
 *
 *     end reads C          the walk came to its end; C attributes and list entries were read
 *     stopped N reads C    the walk was refused by N; the lines before hold
 *     table refused 21     the only line: malformed, longer than 65,536 bytes, or without a base row
 *
 * docs/RULES.md has the other lines in section 18, and what each number N, 1 to 28 or 31, says in section 19. A walk is
 * also refused where an attribute ends past its record's used size (28), and where that size is above the record's
 * length (27): what a reused record keeps behind its used size is not told. And it is refused where the name of a list
 * entry lies over the entry's header or goes past its end (31).
 *
 * The call allocates nothing, keeps nothing, and makes no system call, so any number of threads may call it at once,
 * each with a buffer of its own. A table may be shared by them. It ends on every input.
 */
struct nomutanku_filled nomutanku_list(const uint8_t *table, size_t size, uint8_t *out, size_t room);

/* What crosses, byte for byte as the archive has it. */
_Static_assert(sizeof(size_t) == 8 && sizeof(const uint8_t *) == 8, "the archive is for 64 bits");
_Static_assert(sizeof(bool) == 1, "a bool is one byte");
_Static_assert(offsetof(struct nomutanku_filled, end) == 0, "the count stands first");
_Static_assert(offsetof(struct nomutanku_filled, more) == 8, "whether there is more stands behind it");
_Static_assert(sizeof(struct nomutanku_filled) == 16, "seven bytes without meaning come last");
_Static_assert(_Alignof(struct nomutanku_filled) == 8, "it is aligned as its count is");

#endif
