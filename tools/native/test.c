/* Calls the static library from C: 01's book, a refused one, short tables, and images. Every slice that is written lies between guards and is filled
 * with garbage first. */
#include "netcheck.h"
#include <assert.h>
#include <stdio.h>
#include <string.h>

#define GUARD 0xA5A5A5A5u
#define EACH 8192

static uint32_t tables[7][EACH];
static uint8_t out[EACH], image[EACH], next[EACH];

/* words lent by the program `netcheck` */
static const size_t usual[7] = { 1024, 2048, 3072, 512, 1024, 512, NETCHECK_SCRATCH_WORDS };

static struct netcheck_lent lend(const char *book, const size_t len[7], size_t output_len)
{
    for (int k = 0; k < 7; k++)
        for (size_t i = 0; i < EACH; i++) tables[k][i] = GUARD;
    memset(out, 0xA5, sizeof out);
    return (struct netcheck_lent){ (const uint8_t *)book, strlen(book), tables[0] + 8, len[0], tables[1] + 8, len[1], tables[2] + 8, len[2],
                                   tables[3] + 8, len[3], tables[4] + 8, len[4], tables[5] + 8, len[5], tables[6] + 8, len[6],
                                   out + 8, output_len };
}

/* what lies around a slice of bytes, and past its length, is as it was */
static void untouched(const uint8_t bytes[EACH], size_t length)
{
    for (size_t i = 0; i < EACH; i++)
        if (i < 8 || i >= 8 + length) assert(bytes[i] == 0xA5);
}

static void watch(const size_t len[7], uint32_t number, size_t length)
{
    for (int k = 0; k < 7; k++)
        for (size_t i = 0; i < EACH; i++) {
            if (i < 8 || i >= 8 + len[k]) assert(tables[k][i] == GUARD);
            else if (k > 4 || number) assert(tables[k][i] == 0);
        }
    untouched(out, length);
}

static struct netcheck_outcome run(const char *book, const size_t len[7], size_t output_len)
{
    struct netcheck_lent l = lend(book, len, output_len);
    struct netcheck_outcome r = netcheck_run_lent(&l);
    watch(len, r.number, r.length);
    return r;
}

static void expect(struct netcheck_outcome r, uint32_t number, uint32_t line, const char *output)
{
    assert(r.number == number && r.line == line && r.length == strlen(output) && !memcmp(out + 8, output, r.length));
}

/* runs and saves into `image`, of which `room` bytes are lent */
static size_t save(const char *book, size_t room, uint32_t number, uint32_t line, const char *output)
{
    memset(image, 0xA5, sizeof image);
    struct netcheck_lent l = lend(book, usual, 4096);
    struct netcheck_saved r = netcheck_save_lent(&l, image + 8, room);
    watch(usual, r.number, r.length);
    untouched(image, r.image_length);
    expect((struct netcheck_outcome){ r.number, r.line, r.length }, number, line, output);
    return r.image_length;
}

/* reads `image` and continues */
static void resume(size_t image_len, const char *book, uint32_t number, uint32_t line, const char *output)
{
    struct netcheck_lent l = lend(book, usual, 4096);
    struct netcheck_outcome r = netcheck_resume_lent(image + 8, image_len, &l);
    watch(usual, r.number, r.length);
    expect(r, number, line, output);
}

/* the same, and saves into `next` */
static size_t resume_save(size_t image_len, const char *book, uint32_t number, uint32_t line, const char *output)
{
    memset(next, 0xA5, sizeof next);
    struct netcheck_lent l = lend(book, usual, 4096);
    struct netcheck_saved r = netcheck_resume_save_lent(image + 8, image_len, &l, next + 8, 4096);
    watch(usual, r.number, r.length);
    untouched(next, r.image_length);
    expect((struct netcheck_outcome){ r.number, r.line, r.length }, number, line, output);
    return r.image_length;
}

/* word j of block 0 */
static size_t word(const uint8_t bytes[EACH], size_t j)
{
    const uint8_t *b = bytes + 8 + 2 + 4 * j;
    return (size_t)b[0] << 24 | (size_t)b[1] << 16 | (size_t)b[2] << 8 | b[3];
}

static void images(void)
{
    const char *book = "fields 1 budget 10\ntest 0 1\ndup\nseq 0 1\nempty 2\nlive 2\npruned 2\n";
    const char *answers = "fields 1\nempty 2 no 2\nlive 2 1 500\npruned 2 1\npair 3 1\n";
    size_t n = save(book, 4096, NETCHECK_ANSWERED, 0, answers);
    /* fields, budget; this book has no list, ends with 5 states and has 6 instructions */
    assert(word(image, 0) == 1 && word(image, 1) == 0 && word(image, 2) == 10 && word(image, 5) == 0 && word(image, 6) == 5 && word(image, 7) == 6);
    assert(n == netcheck_image_bytes(word(image, 3), word(image, 4), word(image, 5), word(image, 6), word(image, 7)));
    resume(n, "empty 2\n", NETCHECK_ANSWERED, 0, "empty 2 no 2\n");
    resume(n, "empty 2\nfields 1 budget 10\n", NETCHECK_LINE, 2, "empty 2 no 2\n");
    /* with no line more the next image is the same; with one it has one more */
    assert(resume_save(n, "", NETCHECK_ANSWERED, 0, "") == n && !memcmp(image + 8, next + 8, n));
    assert(resume_save(n, "empty 2\n", NETCHECK_ANSWERED, 0, "empty 2 no 2\n") == n && word(next, 7) == 7);
    /* damage: each byte altered is found */
    for (size_t i = 0; i < n; i++) {
        image[8 + i] ^= 1;
        assert(resume_save(n, "empty 2\n", i % 512 < 2 ? NETCHECK_IMAGE_BLOCK : NETCHECK_IMAGE_CHECK, 0, "") == 0);
        image[8 + i] ^= 1;
    }
    resume(n - 1, "", NETCHECK_IMAGE_BLOCK, 0, "");
    resume(0, "", NETCHECK_IMAGE_BLOCK, 0, "");
    resume(n - 512, "", NETCHECK_IMAGE_RECORD, 0, "");
    /* no room for the image; no image of a refused book */
    assert(save(book, n - 1, NETCHECK_NO_OUTPUT, 0, answers) == 0);
    assert(save("fields 1 budget 10\ndup\nor 0 1\n", 4096, NETCHECK_NAMED, 3, "fields 1\n") == 0);
    /* images do not know `next`: 33, also where there is no room; a continued book may have it */
    const char *hop = "fields 0 budget 9\ndup\nnext 0\nempty 1\n";
    assert(save(hop, 4096, NETCHECK_IMAGE_KIND, 0, "fields 0\nempty 1 no 3\n") == 0 && save(hop, 0, NETCHECK_IMAGE_KIND, 0, "fields 0\nempty 1 no 3\n") == 0);
    n = save("fields 0 budget 9\ndup\n", 4096, NETCHECK_ANSWERED, 0, "fields 0\n");
    resume(n, "next 0\nempty 1\n", NETCHECK_ANSWERED, 0, "empty 1 no 3\n");
    assert(resume_save(n, "next 0\n", NETCHECK_IMAGE_KIND, 0, "") == 0);
    /* the image of a book without fields, budget and lines */
    assert(save("fields 0 budget 0\n", 512, NETCHECK_ANSWERED, 0, "fields 0\n") == 512);
    for (size_t i = 0; i < 512; i++) assert(image[8 + i] == 0);
}

int main(void)
{
    const char *book = "fields 1 budget 10\ntest 0 1\ndup\nseq 0 1\nempty 2\nlive 2\npruned 2\nwhy 2\n";
    expect(run(book, usual, 4096), NETCHECK_ANSWERED, 0, "fields 1\nempty 2 no 2\nlive 2 1 500\npruned 2 1\npair 3 1\nfrom 1 by 1 to 1\n");
    /* this book ends with 5 states */
    assert(tables[2][8 + 4 * NETCHECK_STATE_WORDS] != 0 && tables[2][8 + 5 * NETCHECK_STATE_WORDS] == 0);
    expect(run("fields 1 budget 10\ndup\nempty 0\nor 0 1\n", usual, 4096), NETCHECK_NAMED, 4, "fields 1\nempty 0 no 2\n");
    expect(run("", usual, 4096), NETCHECK_HEADER, 1, "");
    expect(run(book, usual, 30), NETCHECK_NO_OUTPUT, 6, "fields 1\nempty 2 no 2\n");
    size_t few[7] = { 1024, 2048, 47, 512, 1024, 512, NETCHECK_SCRATCH_WORDS };
    expect(run(book, few, 4096), NETCHECK_NO_STATES, 5, "fields 1\n");
    few[6] = NETCHECK_SCRATCH_WORDS - 1;
    expect(run(book, few, 4096), NETCHECK_NO_SCRATCH, 0, "");
    images();
    /* a slice of length 0 may be NULL */
    struct netcheck_lent none = { 0 };
    struct netcheck_outcome r = netcheck_run_lent(&none);
    assert(r.number == NETCHECK_NO_SCRATCH && r.line == 0 && r.length == 0);
    r = netcheck_resume_lent(NULL, 0, &none);
    assert(r.number == NETCHECK_NO_SCRATCH && r.line == 0 && r.length == 0);
    struct netcheck_saved s = netcheck_resume_save_lent(NULL, 0, &none, NULL, 0);
    assert(s.number == NETCHECK_NO_SCRATCH && s.line == 0 && s.length == 0 && s.image_length == 0);
    puts("c: ok");
    return 0;
}
