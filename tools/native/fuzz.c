/* fuzz [COUNT [SEED]]: the reader of images, tried on COUNT images (1,000,000 if left out). Random books are saved, and their images handed to
 * `netcheck_resume_save` without a book line: as they are, damaged (bytes), forged (words or records, with right checks), cut, extended, with short
 * tables; and random ones. Each must be refused (30, 31, 32, or 20 to 23; line 0; tables zero; nothing written), or be read and saved to the same
 * bytes. Which numbers may come is known for each way, and for most exactly: one altered byte, or two exchanged, is refused with 30 or 31.
 *
 * fuzz continue [COUNT [SEED]]: COUNT random books (100,000 if left out), each cut into pieces that are run one after the other over images, against
 * the uninterrupted run. They must give every answer that this gave, or meet 20 or 24.
 *
 * Prints what came how often. Stops at the first violation, with its case (keys as in the vectors) and status 1. */
#include "call.h"
#include <stdarg.h>

#define BIT(n) (1ull << (n))
#define ROOM (BIT(20) | BIT(21) | BIT(22) | BIT(23))
#define FORGED (BIT(0) | BIT(32) | ROOM)
#define ANY (FORGED | BIT(30) | BIT(31))
#define BLOCK NETCHECK_BLOCK_BYTES
#define WORDS NETCHECK_BLOCK_WORDS

/* ---- chance ---- */

static uint64_t chance;

static uint64_t draw(void)
{
    uint64_t z = chance += 0x9E3779B97F4A7C15u;
    z = (z ^ (z >> 30)) * 0xBF58476D1CE4E5B9u;
    z = (z ^ (z >> 27)) * 0x94D049BB133111EBu;
    return z ^ (z >> 31);
}

static unsigned below(size_t n)
{
    return (unsigned)(draw() % n);
}

static int one_in(unsigned n)
{
    return below(n) == 0;
}

/* ---- books ---- */

#define LINES 40
#define NUMBERS 34 /* refusals are below */

struct book {
    char text[4096];
    size_t len, at[LINES + 1]; /* at: where instruction i begins, and the end */
    unsigned fields, lines, named, name[LINES];
    unsigned hops, next; /* it may have `next` lines; 1 + the first of them, 0 if there is none */
};

static void add(struct book *b, const char *form, ...)
{
    va_list a;
    va_start(a, form);
    b->len += (size_t)vsnprintf(b->text + b->len, sizeof b->text - b->len, form, a);
    va_end(a);
}

/* a constructor line, a late one more often */
static unsigned named(const struct book *b)
{
    return b->name[one_in(2) ? b->named - 1 - below(b->named < 5 ? b->named : 5) : below(b->named)];
}

static void bad_line(struct book *b)
{
    static const char *const lines[] = { "or 0 99", "test 7 0", "set 0 2", "dup 1", "fields 1 budget 1", "codes 0 1 1", "", "star", "live 00" };
    add(b, "%s\n", lines[below(sizeof lines / sizeof *lines)]);
}

static void line(struct book *b)
{
    static const char *const relations[] = { "zero", "one", "all" }, *const two[] = { "or", "and", "xor", "minus", "seq", "seq", "until" };
    static const char *const queries[] = { "empty", "live", "pruned", "why" };
    unsigned kind = below(b->named ? 24 : 7), constructor = 1;
    if (kind == 0) add(b, "%s\n", relations[below(3)]);
    else if (kind == 1 && one_in(2)) add(b, "top\n");
    else if (kind < 4 || (kind < 7 && b->fields == 0)) add(b, "dup\n");
    else if (kind < 7) add(b, "%s %u %u\n", one_in(2) ? "test" : "set", below(b->fields), below(2));
    else if (kind < 15) add(b, "%s %u %u\n", two[below(7)], named(b), named(b));
    else if (kind == 15) add(b, "not %u\n", named(b));
    else if (kind == 16 && b->hops && one_in(2)) {
        add(b, "next %u\n", named(b));
        if (!b->next) b->next = b->lines + 1;
    } else if (kind == 16) add(b, "star %u\n", named(b));
    else if (kind < 19) {
        add(b, one_in(2) ? "union" : "inter");
        for (unsigned n = below(6); n; n--) add(b, " %u", named(b));
        add(b, "\n");
    } else {
        add(b, "%s %u\n", queries[below(4)], named(b));
        constructor = 0;
    }
    if (constructor) b->name[b->named++] = b->lines;
}

/* wild: with a line now and then that is refused */
static void make_book(struct book *b, int wild)
{
    static const unsigned budgets[] = { 0, 1, 2, 5, 20, 1000 };
    unsigned lines = below(LINES + 1);
    *b = (struct book){ .fields = below(5), .hops = one_in(8) };
    add(b, "fields %u budget %u\n", b->fields, budgets[below(6)]);
    for (; b->lines < lines; b->lines++) {
        b->at[b->lines] = b->len;
        if (wild && one_in(100)) bad_line(b);
        else line(b);
    }
    if (wild && b->lines && one_in(50)) b->len--;
    b->at[b->lines] = b->len;
}

/* ---- calls ---- */

/* words lent by the program `netcheck` */
static const size_t usual[7] = { 1024, 2048, 3072, 512, 1024, 512, NETCHECK_SCRATCH_WORDS };

static struct book book;
static unsigned long long seed;

static size_t image_room(const size_t len[7])
{
    return netcheck_image_bytes(len[0] / NETCHECK_SP_WORDS, len[1] / NETCHECK_SPP_WORDS, len[3], len[2] / NETCHECK_STATE_WORDS,
                                NETCHECK_INSTRUCTIONS);
}

static void text(const uint8_t *s, size_t n)
{
    putchar('"');
    for (size_t i = 0; i < n; i++)
        if (s[i] == '\n') fputs("\\n", stdout);
        else putchar(s[i]);
    putchar('"');
}

static void violated(const struct call *c, const char *way, const char *what)
{
    printf("fuzz, seed %llu, %s: %s. The case, made of the book `made_of`:\n", seed, way, what);
    printf("{\"entry\": \"%s\", \"book\": ", entry_names[c->entry]);
    text(c->book, c->book_len);
    fputs(", \"lens\": {", stdout);
    for (int k = 0; k < 7; k++) printf("\"%s\": %zu, ", table_names[k], c->len[k]);
    printf("\"output\": %zu}, \"size\": %zu, \"image\": \"", c->output_len, c->room);
    for (size_t i = 0; i < c->image_len; i++) printf("%02x", c->image[i]);
    printf("\", \"outcome\": {\"number\": %u, \"line\": %u, \"out_len\": %zu, \"output\": ", (unsigned)c->r.number, (unsigned)c->r.line, c->r.length);
    text(c->output, c->r.length <= c->output_len ? c->r.length : 0);
    printf(", \"image_len\": %zu}, \"made_of\": ", c->r.image_length);
    text((const uint8_t *)book.text, book.len);
    puts("}");
    exit(1);
}

static void enter(struct call *c, const char *way)
{
    call_lend(c);
    call_enter(c);
    const char *wrong = call_wrong(c);
    if (wrong) violated(c, way, wrong);
}

/* ---- images ---- */

static uint32_t word_at(const uint8_t *image, size_t block, size_t j)
{
    const uint8_t *b = image + BLOCK * block + 2 + 4 * j;
    return (uint32_t)b[0] << 24 | (uint32_t)b[1] << 16 | (uint32_t)b[2] << 8 | b[3];
}

static void put_word(uint8_t *image, size_t block, size_t j, uint32_t v)
{
    uint8_t *b = image + BLOCK * block + 2 + 4 * j;
    for (int i = 0; i < 4; i++) b[i] = (uint8_t)(v >> (24 - 8 * i));
}

/* the right check */
static void seal(uint8_t *image, size_t block)
{
    uint8_t *b = image + BLOCK * block;
    uint32_t sum = 0;
    for (uint32_t i = 0; i < BLOCK - 2; i++) sum += b[i] * (i + 1);
    b[510] = (uint8_t)(sum % 65521 >> 8);
    b[511] = (uint8_t)(sum % 65521);
}

static void put_number(uint8_t *image, size_t block, unsigned number)
{
    image[BLOCK * block] = (uint8_t)(number >> 8);
    image[BLOCK * block + 1] = (uint8_t)number;
}

/* an image's records: packet nodes, relation nodes, members, states, lines */
enum { SP, SPP, MEMBERS, STATES, NAMES };
static const unsigned width[5] = { 2, 4, 1, 4, 1 };
#define BODY 8192

struct parts { uint32_t head[WORDS], body[BODY]; size_t count[5]; };

/* the words before records of kind k; 5: all words */
static size_t start(const struct parts *p, int k)
{
    size_t n = 0;
    for (int i = 0; i < k; i++) n += width[i] * p->count[i];
    return n;
}

static uint32_t *record(struct parts *p, int k, size_t i)
{
    return p->body + start(p, k) + width[k] * i;
}

static void take_apart(struct parts *p, const uint8_t *image)
{
    for (size_t j = 0; j < WORDS; j++) p->head[j] = word_at(image, 0, j);
    for (int k = 0; k < 5; k++) p->count[k] = p->head[3 + k];
    for (size_t i = 0, n = start(p, 5); i < n; i++) p->body[i] = word_at(image, 1 + i / WORDS, i % WORDS);
}

static size_t put_together(const struct parts *p, uint8_t *image)
{
    size_t n = start(p, 5), blocks = 1 + (n + WORDS - 1) / WORDS;
    for (size_t b = 0; b < blocks; b++) {
        put_number(image, b, (unsigned)b);
        for (size_t j = 0; j < WORDS; j++) {
            size_t i = WORDS * (b - 1) + j;
            put_word(image, b, j, b == 0 ? p->head[j] : i < n ? p->body[i] : 0);
        }
        seal(image, b);
    }
    return BLOCK * blocks;
}

static void insert(struct parts *p, int k, size_t at, const uint32_t *words)
{
    size_t n = start(p, 5), i = start(p, k) + width[k] * at;
    if (n + width[k] > BODY) return;
    memmove(p->body + i + width[k], p->body + i, 4 * (n - i));
    memcpy(p->body + i, words, 4 * width[k]);
    p->count[k]++;
    p->head[3 + k]++;
}

static void drop(struct parts *p, int k, size_t at)
{
    size_t n = start(p, 5), i = start(p, k) + width[k] * at;
    memmove(p->body + i, p->body + i + width[k], 4 * (n - i - width[k]));
    p->count[k]--;
    p->head[3 + k]--;
}

static uint32_t altered(uint32_t v, const uint8_t *image, size_t blocks)
{
    switch (below(7)) {
    case 0: return v + 1;
    case 1: return v - 1;
    case 2: return v ^ 1;
    case 3: return below(16);
    case 4: return below(128);
    case 5: return word_at(image, below(blocks), below(WORDS));
    default: return one_in(2) ? (uint32_t)draw() : v ^ (1u << below(32));
    }
}

/* the kinds of states */
enum { RELATION = 1, UNION, INTERSECT, XOR, DIFFERENCE, COMPLEMENT, SEQUENCE, STAR, DUP, NEXT, UNTIL, TOP };

/* `most`, or the nesting of a state made of x where that is more */
static uint32_t above(struct parts *p, uint32_t x, uint32_t most)
{
    uint32_t nesting = record(p, STATES, x)[3] + 1;
    return nesting > most ? nesting : most;
}

/* a state of any kind at the end, with the right nesting; a list's members with it */
static void new_state(struct parts *p)
{
    uint32_t n = (uint32_t)p->count[STATES], w[4] = { RELATION + below(TOP), 0, 0, 0 };
    if (n == 0) w[0] = one_in(2) ? DUP : TOP;
    switch (w[0]) {
    case RELATION: w[1] = below(p->count[SPP] + 2); break;
    case UNION:
    case INTERSECT:
        w[1] = (uint32_t)p->count[MEMBERS];
        for (uint32_t x = below(n); x < n; x += 1 + below(n), w[2]++) {
            w[3] = above(p, x, w[3]);
            insert(p, MEMBERS, p->count[MEMBERS], &x);
        }
        break;
    case XOR:
    case DIFFERENCE:
    case SEQUENCE:
    case UNTIL:
        w[1] = below(n);
        w[2] = below(n);
        w[3] = above(p, w[1], above(p, w[2], 0));
        break;
    case COMPLEMENT:
    case STAR:
    case NEXT:
        w[1] = below(n);
        w[3] = above(p, w[1], 0);
    }
    insert(p, STATES, p->count[STATES], w);
}

/* one change of the records; counts follow */
static void forge_record(struct parts *p)
{
    int k = (int)below(5), way = (int)below(6);
    size_t n = p->count[k];
    uint32_t w[4];
    if (way == 0) new_state(p);
    else if (n == 0) {
        w[0] = below(4);
        if (k == NAMES) insert(p, k, 0, w);
    } else if (way == 1) drop(p, k, one_in(2) ? n - 1 : below(n));
    else if (way == 2) {
        /* the like of another record, mostly at the end, with a word of a third */
        memcpy(w, record(p, k, below(n)), 4 * width[k]);
        w[below(width[k])] = record(p, k, below(n))[below(width[k])];
        insert(p, k, one_in(4) ? below(n + 1) : n, w);
    } else if (way == 3) {
        size_t i = below(n), j = one_in(2) && i ? i - 1 : below(n);
        uint32_t *a = record(p, k, i), *b = record(p, k, j);
        memcpy(w, a, 4 * width[k]);
        memcpy(a, b, 4 * width[k]);
        memcpy(b, w, 4 * width[k]);
    } else record(p, k, below(n))[below(width[k])] = record(p, k, below(n))[below(width[k])];
}

/* how often each number came */
static void print_counts(const unsigned long came[NUMBERS])
{
    const char *between = " ";
    for (int n = 0; n < NUMBERS; n++)
        if (came[n]) {
            if (n) printf("%s%d: %lu", between, n, came[n]);
            else printf("%sanswered: %lu", between, came[n]);
            between = ", ";
        }
    puts("");
}

/* ---- the reader ---- */

enum way { SAME, ALTERED, EXCHANGED, SEVERAL, NUMBER, FORGED_WORDS, FORGED_RECORDS, LENGTH, SHORT, RANDOM, WAYS };
static const char *const way_names[WAYS] = { "as it is", "byte altered", "bytes exchanged", "several altered", "block number", "words forged",
                                             "records forged", "length", "short tables", "random" };
static unsigned long counts[WAYS][NUMBERS], books, unsaved;

/* the number for a byte altered in a good image */
static unsigned long long damaged(size_t at)
{
    return at % BLOCK < 2 ? BIT(30) : BIT(31);
}

/* the number of records of a good image that a table has to hold: sp, spp, states, members */
static size_t records(const uint8_t *image, int table)
{
    static const int place[4] = { 3, 4, 6, 5 };
    return word_at(image, 0, place[table]);
}

/* makes of a good image another one; gives the numbers that may come of it, and may change lent lengths */
static unsigned long long vary(enum way way, const uint8_t *good, size_t good_len, uint8_t *image, size_t *image_len, size_t len[7])
{
    static const unsigned table_words[4] = { NETCHECK_SP_WORDS, NETCHECK_SPP_WORDS, NETCHECK_STATE_WORDS, NETCHECK_MEMBER_WORDS };
    static struct parts p;
    size_t blocks = good_len / BLOCK, i = below(good_len), j = below(good_len), b;
    memcpy(image, good, good_len);
    *image_len = good_len;
    switch (way) {
    case SAME: return BIT(0);
    case ALTERED:
        if (one_in(8)) i = i / BLOCK * BLOCK + below(2);
        image[i] ^= one_in(2) ? 1u << below(8) : 1 + below(255);
        return damaged(i);
    case EXCHANGED:
        if (!one_in(4)) j = i / BLOCK * BLOCK + below(BLOCK);
        if (one_in(4)) i = i / BLOCK * BLOCK + below(2);
        if (good[i] == good[j]) image[i] = good[i] ^ 1; /* equal ones: altered instead */
        else {
            image[i] = good[j];
            image[j] = good[i];
            if (j / BLOCK == i / BLOCK && j % BLOCK < 2) i = j;
            if (j / BLOCK < i / BLOCK) i = j;
        }
        return damaged(i);
    case SEVERAL:
        for (unsigned n = 2 + below(8); n; n--) image[below(good_len)] = (uint8_t)draw();
        return ANY;
    case NUMBER:
        b = below(blocks);
        put_number(image, b, (unsigned)((b + 1 + below(one_in(2) ? blocks : 65535)) % 65536));
        seal(image, b);
        return BIT(30);
    case FORGED_WORDS:
        for (unsigned n = 1 + below(3); n; n--) {
            b = one_in(3) ? 0 : below(blocks);
            j = b || one_in(8) ? below(WORDS) : below(8);
            put_word(image, b, j, altered(word_at(image, b, j), image, blocks));
            seal(image, b);
        }
        break;
    case FORGED_RECORDS:
        take_apart(&p, good);
        for (unsigned n = 1 + below(3); n; n--) forge_record(&p);
        *image_len = put_together(&p, image);
        break;
    case LENGTH:
        *image_len = one_in(2) ? BLOCK * below(blocks + 4) : below(good_len + 4 * BLOCK);
        for (i = good_len; i < *image_len; i++) image[i] = one_in(2) ? image[i - BLOCK] : 0;
        return *image_len == 0 || *image_len % BLOCK ? BIT(30) : *image_len == good_len ? BIT(0) : BIT(32);
    case SHORT:
        /* just enough for all, then mostly too little of one */
        for (int k = 0; k < 4; k++) len[k] = table_words[k] * records(good, k);
        len[4] = len[5] = 0;
        b = below(4);
        if (len[b] == 0 || one_in(4)) return BIT(0);
        len[b] = below(len[b]);
        return BIT(b == 2 ? 22 : b == 3 ? 23 : 20 + b);
    default:
        blocks = 1 + below(4);
        *image_len = BLOCK * blocks + (one_in(4) ? below(BLOCK) : 0);
        for (i = 0; i < *image_len; i++) image[i] = (uint8_t)draw();
        if (one_in(3)) return ANY;
        /* right numbers; half of these with small words that could be, and right checks */
        for (b = 0, i = below(2); b < blocks; b++) {
            put_number(image, b, (unsigned)b);
            if (i) continue;
            for (j = 0; j < WORDS; j++) put_word(image, b, j, b ? below(16) : j == 0 ? below(3) : j < 8 ? below(24) : 0);
            seal(image, b);
        }
        return ANY;
    }
    if (one_in(8)) {
        b = below(4);
        len[b] = below(table_words[b] * (records(good, (int)b) + 2));
    }
    return FORGED;
}

static void try_image(enum way way, const uint8_t *good, size_t good_len)
{
    static uint8_t image[BLOCK * (BODY / WORDS + 8)];
    struct call c = { .entry = RESUME_SAVE, .output_len = 16, .book = NULL, .image = image };
    memcpy(c.len, usual, sizeof usual);
    unsigned long long may = vary(way, good, good_len, image, &c.image_len, c.len);
    c.room = c.image_len + (one_in(2) ? 0 : below(2 * BLOCK));
    enter(&c, way_names[way]);
    if (c.r.number > 32 || !(may >> c.r.number & 1)) violated(&c, way_names[way], "a number that this image cannot meet");
    if (c.r.line || c.r.length) violated(&c, way_names[way], "a line, or an output, without a book");
    if (!c.r.number && (c.r.image_length != c.image_len || memcmp(c.next, image, c.image_len)))
        violated(&c, way_names[way], "read, and saved to other bytes");
    counts[way][c.r.number]++;
    call_free(&c);
}

/* an image as it is, with a byte too little for the next one */
static void try_27(const uint8_t *good, size_t good_len)
{
    struct call c = { .entry = RESUME_SAVE, .output_len = 16, .image = good, .image_len = good_len, .room = good_len - 1 };
    memcpy(c.len, usual, sizeof usual);
    enter(&c, "27");
    if (c.r.number != 27 || c.r.line || c.r.length) violated(&c, "27", "an image longer than what is lent for it");
    call_free(&c);
}

static void read_images(unsigned long long count)
{
    static const enum way ways[] = { ALTERED, ALTERED, ALTERED, ALTERED, EXCHANGED, EXCHANGED, EXCHANGED, SEVERAL, NUMBER, LENGTH, SHORT, RANDOM,
                                     FORGED_WORDS, FORGED_WORDS, FORGED_WORDS, FORGED_WORDS, FORGED_RECORDS, FORGED_RECORDS, FORGED_RECORDS,
                                     FORGED_RECORDS };
    unsigned long long done = 0;
    while (done < count) {
        make_book(&book, 0);
        struct call c = { .entry = SAVE, .book = (const uint8_t *)book.text, .book_len = book.len, .output_len = 32768, .room = image_room(usual) };
        memcpy(c.len, usual, sizeof usual);
        enter(&c, "save");
        books++;
        if (c.r.number) {
            if (c.r.number == NETCHECK_IMAGE_KIND ? c.r.line || !book.next : c.r.line == 0) violated(&c, "save", "refused with line 0");
            unsaved++;
        } else {
            if (book.next) violated(&c, "save", "an image of a rule that images do not know");
            try_27(c.next, c.r.image_length);
            try_image(SAME, c.next, c.r.image_length);
            done++;
            for (int i = 0; i < 63 && done < count; i++, done++) try_image(ways[below(sizeof ways / sizeof *ways)], c.next, c.r.image_length);
        }
        call_free(&c);
    }
    printf("%llu images of %lu books (%lu more were refused)\n", done, books - unsaved, unsaved);
    for (int w = 0; w < WAYS; w++) {
        unsigned long all = 0;
        for (int n = 0; n < NUMBERS; n++) all += counts[w][n];
        printf("%-16s %8lu:", way_names[w], all);
        print_counts(counts[w]);
    }
}

/* ---- continued books ---- */

enum { PIECES = 4 };
static unsigned long alike, stopped, further, unknown, ends[NUMBERS];

static int begins(const uint8_t *a, size_t n, const uint8_t *b, size_t m)
{
    return n <= m && !memcmp(a, b, n);
}

static void differs(const struct call *c, const struct call *whole, const char *what)
{
    printf("the whole book: %u %u ", (unsigned)whole->r.number, (unsigned)whole->r.line);
    text(whole->output, whole->r.length);
    puts("");
    violated(c, "continued", what);
}

static void try_book(void)
{
    static uint8_t told[PIECES * 32768], image[1 << 20];
    size_t told_len = 0, cut[PIECES + 1], image_len = 0, len[7];
    unsigned pieces = 2 + below(PIECES - 1), longer = one_in(4), i;
    make_book(&book, 1);
    struct call whole = { .entry = RUN, .book = (const uint8_t *)book.text, .book_len = book.len, .output_len = 32768 };
    memcpy(whole.len, usual, sizeof usual);
    if (one_in(2))
        for (int k = 0; k < 6; k++)
            if (one_in(3)) whole.len[k] = below(usual[k] / 8);
    enter(&whole, "run");
    memcpy(len, whole.len, sizeof len);
    /* piece i has the instructions from cut i on; a later piece may be lent more */
    for (i = 0; i <= pieces; i++) cut[i] = i == 0 ? 0 : i == pieces ? book.lines : cut[i - 1] + below(book.lines - cut[i - 1] + 1);
    struct call c = { 0 };
    for (i = 0; i < pieces; i++) {
        size_t from = i ? book.at[cut[i]] : 0;
        c = (struct call){ .entry = i == 0 ? SAVE : i + 1 < pieces || one_in(2) ? RESUME_SAVE : RESUME, .output_len = 32768 };
        c.book = (const uint8_t *)book.text + from;
        c.book_len = book.at[cut[i + 1]] - from;
        if (i) {
            c.image = image;
            c.image_len = image_len;
        }
        for (int k = 0; k < 7; k++) c.len[k] = len[k] += longer && i ? below(64) : 0;
        if (call_writes(&c)) c.room = image_room(c.len);
        enter(&c, "continued");
        memcpy(told + told_len, c.output, c.r.length);
        told_len += c.r.length;
        if (c.r.number || i + 1 == pieces) break;
        if (book.next && book.next <= cut[i + 1]) differs(&c, &whole, "an image of a rule that images do not know");
        memcpy(image, c.next, image_len = c.r.image_length);
        call_free(&c);
    }
    const uint8_t *answers = whole.output;
    size_t answers_len = whole.r.length;
    unsigned n = c.r.number, w = whole.r.number, line_of_book = n ? c.r.line + (i ? 1 + (unsigned)cut[i] : 0) : 0;
    int same = n == w && line_of_book == whole.r.line && told_len == answers_len && !memcmp(told, answers, told_len);
    if (n == NETCHECK_IMAGE_KIND && c.r.line == 0 && call_writes(&c) && book.next && book.next <= cut[i + 1]) {
        if (!begins(told, told_len, answers, answers_len) && !begins(answers, answers_len, told, told_len))
            differs(&c, &whole, "other answers, before 33");
        unknown++;
        ends[n]++;
        call_free(&c);
        call_free(&whole);
        return;
    }
    if (n && c.r.line == 0) differs(&c, &whole, "its own image is refused");
    if (i == 0 && n && !same) differs(&c, &whole, "the first piece is refused otherwise than the whole book");
    if (n == 20 || n == 24) {
        if (!begins(told, told_len, answers, answers_len) && !begins(answers, answers_len, told, told_len))
            differs(&c, &whole, "other answers, before 20 or 24");
    } else {
        if (!begins(answers, answers_len, told, told_len)) differs(&c, &whole, "an answer that the whole book gave is missing or differs");
        /* relation nodes, states and members are the same in both, so that 21 to 23 are too; it may come further where 20, 24, 25 or 27 stops */
        if ((w < 20 || (w >= 21 && w <= 23 && !longer)) && !same) differs(&c, &whole, "another outcome than the whole book's");
    }
    if (same) alike++;
    else if (n == 20 || n == 24) stopped++;
    else further++;
    ends[n]++;
    call_free(&c);
    call_free(&whole);
}

static void continue_books(unsigned long long count)
{
    for (unsigned long long i = 0; i < count; i++) try_book();
    printf("%llu books: %lu continued to the same end, %lu further, %lu to another 20 or 24, %lu to 33\n", count, alike, further, stopped, unknown);
    fputs("continued:", stdout);
    print_counts(ends);
}

int main(int argc, char **argv)
{
    int on = argc > 1 && !strcmp(argv[1], "continue");
    unsigned long long count = argc > 1 + on ? strtoull(argv[1 + on], NULL, 10) : on ? 100000 : 1000000;
    seed = argc > 2 + on ? strtoull(argv[2 + on], NULL, 10) : 1;
    chance = seed;
    if (on) continue_books(count);
    else read_images(count);
    return 0;
}
