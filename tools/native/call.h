/* One call of an entry, for the programs beside this file. All that is lent lies between guards; tables, output and the image to be written hold
 * garbage first.
 *
 * A case on standard input is a line, then the book's bytes:
 *     SP SPP STATES MEMBERS TRANSITIONS PENDING SCRATCH OUTPUT BOOK
 * (words lent of each table, bytes of output and book). That is a `run`. Any entry has its name in front and two more numbers:
 *     ENTRY SP SPP STATES MEMBERS TRANSITIONS PENDING SCRATCH OUTPUT BOOK IMAGE ROOM
 * the bytes of the image that it reads, which stand behind the book, and those lent for the image that it writes; 0 where it has none. */
#ifndef CALL_H
#define CALL_H
#include "netcheck.h"
#include <stdio.h>
#include <stdlib.h>
#include <string.h>

#define GUARD 256
#define GARBAGE 0xA5

enum entry { RUN, SAVE, RESUME, RESUME_SAVE };

static const char *const entry_names[4] = { "run", "save", "resume", "resume_save" };
static const char *const table_names[7] = { "sp", "spp", "states", "members", "transitions", "pending", "scratch" };

struct call {
    enum entry entry;
    size_t len[7], output_len, book_len, image_len, room;
    const uint8_t *book, *image; /* what is given */
    /* what is lent: copies of these two, the tables, the output, and the image to be written */
    uint8_t *lent_book, *lent_image;
    uint32_t *table[7];
    uint8_t *output, *next;
    struct netcheck_saved r;
};

static inline void call_fail(const char *what)
{
    fprintf(stderr, "%s\n", what);
    exit(1);
}

static inline int call_reads(const struct call *c)
{
    return c->entry == RESUME || c->entry == RESUME_SAVE;
}

static inline int call_writes(const struct call *c)
{
    return c->entry == SAVE || c->entry == RESUME_SAVE;
}

/* so many bytes of garbage between guards */
static inline void *guarded(size_t bytes)
{
    uint8_t *p = malloc(bytes + 2 * GUARD);
    if (!p) call_fail("no memory");
    memset(p, GARBAGE, bytes + 2 * GUARD);
    return p + GUARD;
}

static inline void unguard(void *p)
{
    if (p) free((uint8_t *)p - GUARD);
}

static inline int all_garbage(const uint8_t *b, size_t n)
{
    for (size_t i = 0; i < n; i++)
        if (b[i] != GARBAGE) return 0;
    return 1;
}

/* both guards are as they were, and so are the bytes between them from `from` on */
static inline int untouched(const void *p, size_t from, size_t bytes)
{
    const uint8_t *b = p;
    return all_garbage(b - GUARD, GUARD) && all_garbage(b + from, bytes - from + GUARD);
}

static inline int all_zero(const uint32_t *w, size_t n)
{
    for (size_t i = 0; i < n; i++)
        if (w[i]) return 0;
    return 1;
}

/* lends what the lengths say; c->book and c->image are copied */
static inline void call_lend(struct call *c)
{
    c->lent_book = guarded(c->book_len);
    if (c->book_len) memcpy(c->lent_book, c->book, c->book_len);
    c->lent_image = guarded(c->image_len);
    if (c->image_len) memcpy(c->lent_image, c->image, c->image_len);
    for (int k = 0; k < 7; k++) {
        c->table[k] = guarded(4 * c->len[k]);
        for (size_t i = 0; i < c->len[k]; i++) c->table[k][i] += (uint32_t)i;
    }
    c->output = guarded(c->output_len);
    c->next = guarded(c->room);
}

static inline void call_free(struct call *c)
{
    unguard(c->lent_book);
    unguard(c->lent_image);
    for (int k = 0; k < 7; k++) unguard(c->table[k]);
    unguard(c->output);
    unguard(c->next);
}

static inline void call_enter(struct call *c)
{
    uint32_t **t = c->table;
    const size_t *n = c->len;
    struct netcheck_lent l = { c->lent_book, c->book_len, t[0], n[0], t[1], n[1], t[2], n[2], t[3], n[3], t[4], n[4], t[5], n[5], t[6], n[6],
                               c->output, c->output_len };
    if (c->entry == SAVE) c->r = netcheck_save_lent(&l, c->next, c->room);
    else if (c->entry == RESUME_SAVE) c->r = netcheck_resume_save_lent(c->lent_image, c->image_len, &l, c->next, c->room);
    else {
        struct netcheck_outcome o = c->entry == RUN ? netcheck_run_lent(&l) : netcheck_resume_lent(c->lent_image, c->image_len, &l);
        c->r = (struct netcheck_saved){ o.number, o.line, o.length, 0 };
    }
}

/* what was written that may not be; NULL if nothing was */
static inline const char *call_strayed(const struct call *c)
{
    if (c->r.length > c->output_len || c->r.image_length > c->room) return "a length is above what was lent";
    if (!untouched(c->lent_book, c->book_len, c->book_len) || (c->book_len && memcmp(c->lent_book, c->book, c->book_len)))
        return "the book, or a byte beside it, was written";
    if (!untouched(c->lent_image, c->image_len, c->image_len) || (c->image_len && memcmp(c->lent_image, c->image, c->image_len)))
        return "the image that was given, or a byte beside it, was written";
    for (int k = 0; k < 7; k++)
        if (!untouched(c->table[k], 4 * c->len[k], 4 * c->len[k])) return "a byte beside a table was written";
    if (!untouched(c->output, c->r.length, c->output_len)) return "a byte past the output's length was written";
    if (!untouched(c->next, c->r.image_length, c->room)) return "a byte past the image's length was written";
    return NULL;
}

/* the same, and what every outcome promises; NULL if all is kept */
static inline const char *call_wrong(const struct call *c)
{
    const char *strayed = call_strayed(c);
    if (strayed) return strayed;
    for (int k = 0; k < 7; k++)
        if ((c->r.number || k > 4) && !all_zero(c->table[k], c->len[k])) return "a table is not zero";
    if (c->r.number && c->r.image_length) return "refused, with an image";
    if (!c->r.number && c->r.line) return "answered, with a line";
    if (!c->r.number && call_writes(c) && (c->r.image_length == 0 || c->r.image_length % NETCHECK_BLOCK_BYTES)) return "an image is not of blocks";
    return NULL;
}

/* reads a case; 0 at the end of the input. c->book and c->image are to be freed. */
static inline int call_read(struct call *c)
{
    char name[16];
    size_t *l = c->len;
    int named = scanf(" %15[a-z_]", name);
    if (named == EOF) return 0;
    c->entry = RUN;
    if (named == 1)
        for (c->entry = RUN; strcmp(name, entry_names[c->entry]); c->entry++)
            if (c->entry == RESUME_SAVE) call_fail("a case has an entry that there is not");
    c->image_len = c->room = 0;
    if (scanf("%zu %zu %zu %zu %zu %zu %zu %zu %zu", l, l + 1, l + 2, l + 3, l + 4, l + 5, l + 6, &c->output_len, &c->book_len) != 9 ||
        (named == 1 && scanf("%zu %zu", &c->image_len, &c->room) != 2) || getchar() != '\n')
        call_fail("a case's first line is not of its form");
    if ((c->image_len && !call_reads(c)) || (c->room && !call_writes(c))) call_fail("a case has an image that its entry does not take");
    uint8_t *book = malloc(c->book_len + 1), *image = malloc(c->image_len + 1);
    if (!book || !image) call_fail("no memory");
    if (fread(book, 1, c->book_len, stdin) != c->book_len) call_fail("a book is cut short");
    if (fread(image, 1, c->image_len, stdin) != c->image_len) call_fail("an image is cut short");
    c->book = book;
    c->image = image;
    return 1;
}
#endif
