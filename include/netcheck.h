/* netcheck: a book of rules and queries is run in tables that the caller lends. The entries are proved; their contracts are those of `netcheck_run` in
 * crates/netcheck_entry/src/lib.rt (exported by netcheck_entry_c, archive libnetcheck_entry.a) and of `netcheck_save`, `netcheck_resume` and
 * `netcheck_resume_save` in crates/image_entry/src/lib.rt (exported by image_entry_c, archive libimage_entry.a). Nothing checks this header against
 * those files: change them together.
 *
 * A caller lends eight slices beside the book. Lengths are in elements: words of 32 bits, but bytes for book, output and images.
 *
 *   slice         words of a record   records used at most   too few: refusal
 *   sp            2  packet node      2^24                   20
 *   spp           4  relation node    2^24                   21
 *   states       12  state            32,768                 22
 *   members       1  member           2^24                   23
 *   transitions   2  target, label    2^24                   25
 *   pending       2  entry            2^24                   24
 *   scratch       at least 6,144 words                       26
 *   output        bytes                                      27
 *
 * What a caller owes (the types say it, nothing tests it):
 *  - each pointer leads to as many elements as its length says, aligned for the element, and stays valid during the call;
 *  - no two of the eight lent slices overlap each other, the book or an image, and an image that is written overlaps nothing else;
 *  - a slice of length 0 may have any pointer, also NULL;
 *  - enough stack: NETCHECK_STACK_BYTES. Measured, not proved: 12,432 bytes on the deepest books (nesting 256, 31 fields;
 *    tools/deep), with saving and reading too. It follows the number of fields; it does not grow with the nesting of a rule or the
 *    book's length.
 *
 * What a caller gets: one book with one set of lent lengths has one outcome. Every table is zeroed first; answered, pending and scratch are zero at
 * the end; refused, all tables are. Output bytes past the length are as they were. Nothing is kept between calls, and no memory but the lent is
 * written: two tasks may run it at the same time on slices of their own.
 *
 * Images. `netcheck_save` runs a book and then writes its tables as an image. `netcheck_resume` reads an image and continues with a book that has no
 * header line and prints no `fields`; its instructions count on, its text lines count from 1. `netcheck_resume_save` does that and writes the next
 * image. So a gateway runs the house's checks once, saves, and later resumes from that image with more lines, as often as it likes. The continued
 * book gets every answer that one uninterrupted run gives, with tables no shorter, unless working out live sets again meets 20 or 24. For every
 * promise the image is part of the book: its rules are those of the records in it. Damage is found (one altered byte, or two unequal bytes exchanged
 * within the first 510 of a block); a forged image with right checks is a book like any other, so take images only from those who may write books.
 *
 *  - An image has blocks of 512 bytes, at most 65,536. How many bytes it takes: `netcheck_image_bytes`.
 *  - Answered, `image_length` bytes of the image to be written are written; bytes past that are as they were.
 *  - Refused, all tables are zero, `image_length` is 0 and no byte of that image is written. Answers given before stand in the output.
 *  - An image to be read is looked at before any book line. What it meets is refused with line 0: 30, 31, 32, or 20 to 23 where a record has no room.
 *  - An image that cannot be written is refused with line 0, after the book's answers: 33 where a rule is a `next`, which images do not know, else 27.
 *    26 comes before all. */
#ifndef NETCHECK_H
#define NETCHECK_H
#include <stddef.h>
#include <stdint.h>
#ifdef __cplusplus
extern "C" {
#endif

/* words of a record, and of scratch */
enum {
    NETCHECK_SP_WORDS = 2,
    NETCHECK_SPP_WORDS = 4,
    NETCHECK_STATE_WORDS = 12,
    NETCHECK_MEMBER_WORDS = 1,
    NETCHECK_TRANSITION_WORDS = 2,
    NETCHECK_PENDING_WORDS = 2,
    NETCHECK_SCRATCH_WORDS = 6144
};

/* an image: bytes of a block, words of a block, most blocks; most instructions, each a line in the image */
enum {
    NETCHECK_BLOCK_BYTES = 512,
    NETCHECK_BLOCK_WORDS = 127,
    NETCHECK_BLOCKS = 65536,
    NETCHECK_INSTRUCTIONS = 2048
};

/* bytes of stack to reserve for a call */
#define NETCHECK_STACK_BYTES 32768u

/* the outcome's number */
enum {
    NETCHECK_ANSWERED = 0,
    /* refusals that the book's author can cause */
    NETCHECK_HEADER = 1,      /* the first line is not of its form, or there is none */
    NETCHECK_FIELDS = 2,      /* more than 31 fields */
    NETCHECK_LINE = 3,        /* a line is not of its form, lacks byte 10, or is instruction 2,049 */
    NETCHECK_NAMED = 4,       /* a named line is not an earlier constructor line */
    NETCHECK_FIELD = 5,       /* a field that there is not, or a value above 1 */
    NETCHECK_LIST = 6,        /* a given or opened list passes 64 members */
    NETCHECK_PRODUCTS = 7,    /* intersecting over unions passes 32 products */
    NETCHECK_NESTING = 8,     /* a state to be made is nested above 256 */
    NETCHECK_TRANSITIONS = 9, /* a transition list, intermediate ones included, passes 64 */
    /* refusals that the caller can cause, whose table lacks one more record */
    NETCHECK_NO_SP = 20,
    NETCHECK_NO_SPP = 21,
    NETCHECK_NO_STATES = 22,
    NETCHECK_NO_MEMBERS = 23,
    NETCHECK_NO_PENDING = 24,
    NETCHECK_NO_TRANSITIONS = 25,
    NETCHECK_NO_SCRATCH = 26, /* fewer than 6,144 words */
    NETCHECK_NO_OUTPUT = 27,  /* the output cannot hold the next answer's lines; line 0: the image is longer than what is lent for it, or too long */
    /* refusals that whoever hands over the image can cause; line 0, before any book line */
    NETCHECK_IMAGE_BLOCK = 30, /* its length is 0 or no multiple of 512, or a block has a wrong number */
    NETCHECK_IMAGE_CHECK = 31, /* a block has a wrong check */
    NETCHECK_IMAGE_RECORD = 32, /* a record cannot be made again as it stands, or a header word, the length or an unused word is wrong */
    /* a refusal that the book's author can cause where an image is wanted */
    NETCHECK_IMAGE_KIND = 33 /* a rule is a `next`, which images do not know */
};

struct netcheck_outcome {
    uint32_t number; /* 0: answered; else the refusal */
    uint32_t line;   /* text line of the refusal, counted from 1, at most 2,050; 0 if answered, for 26, and where an image is refused */
    size_t length;   /* bytes of the output that are written */
};

/* the same, and the bytes of the image that are written */
struct netcheck_saved {
    uint32_t number;
    uint32_t line;
    size_t length;
    size_t image_length;
};

/* The exported symbols. */
struct netcheck_outcome netcheck_run(const uint8_t *book, size_t book_len, uint32_t *sp, size_t sp_len, uint32_t *spp, size_t spp_len,
                                     uint32_t *states, size_t states_len, uint32_t *members, size_t members_len, uint32_t *transitions,
                                     size_t transitions_len, uint32_t *pending, size_t pending_len, uint32_t *scratch, size_t scratch_len,
                                     uint8_t *output, size_t output_len);
/* image: written */
struct netcheck_saved netcheck_save(const uint8_t *book, size_t book_len, uint8_t *image, size_t image_len, uint32_t *sp, size_t sp_len,
                                    uint32_t *spp, size_t spp_len, uint32_t *states, size_t states_len, uint32_t *members, size_t members_len,
                                    uint32_t *transitions, size_t transitions_len, uint32_t *pending, size_t pending_len, uint32_t *scratch,
                                    size_t scratch_len, uint8_t *output, size_t output_len);
/* image: read */
struct netcheck_outcome netcheck_resume(const uint8_t *image, size_t image_len, const uint8_t *book, size_t book_len, uint32_t *sp, size_t sp_len,
                                        uint32_t *spp, size_t spp_len, uint32_t *states, size_t states_len, uint32_t *members, size_t members_len,
                                        uint32_t *transitions, size_t transitions_len, uint32_t *pending, size_t pending_len, uint32_t *scratch,
                                        size_t scratch_len, uint8_t *output, size_t output_len);
/* image: read; next: written */
struct netcheck_saved netcheck_resume_save(const uint8_t *image, size_t image_len, const uint8_t *book, size_t book_len, uint8_t *next,
                                           size_t next_len, uint32_t *sp, size_t sp_len, uint32_t *spp, size_t spp_len, uint32_t *states,
                                           size_t states_len, uint32_t *members, size_t members_len, uint32_t *transitions, size_t transitions_len,
                                           uint32_t *pending, size_t pending_len, uint32_t *scratch, size_t scratch_len, uint8_t *output,
                                           size_t output_len);

/* The bytes that an image of so many records takes. What a run makes is not known before it; with the records that are lent, and
 * NETCHECK_INSTRUCTIONS lines, it is enough for any book (an image of more than NETCHECK_BLOCKS blocks is never written: 27). */
static inline size_t netcheck_image_bytes(size_t sp, size_t spp, size_t members, size_t states, size_t lines)
{
    size_t words = 2 * sp + 4 * spp + members + 4 * states + lines;
    return NETCHECK_BLOCK_BYTES * (1 + (words + NETCHECK_BLOCK_WORDS - 1) / NETCHECK_BLOCK_WORDS);
}

/* The same with names: slices in a row are easily mixed up. */
struct netcheck_lent {
    const uint8_t *book;
    size_t book_len;
    uint32_t *sp;
    size_t sp_len;
    uint32_t *spp;
    size_t spp_len;
    uint32_t *states;
    size_t states_len;
    uint32_t *members;
    size_t members_len;
    uint32_t *transitions;
    size_t transitions_len;
    uint32_t *pending;
    size_t pending_len;
    uint32_t *scratch;
    size_t scratch_len;
    uint8_t *output;
    size_t output_len;
};

static inline struct netcheck_outcome netcheck_run_lent(const struct netcheck_lent *l)
{
    return netcheck_run(l->book, l->book_len, l->sp, l->sp_len, l->spp, l->spp_len, l->states, l->states_len, l->members, l->members_len,
                        l->transitions, l->transitions_len, l->pending, l->pending_len, l->scratch, l->scratch_len, l->output, l->output_len);
}

static inline struct netcheck_saved netcheck_save_lent(const struct netcheck_lent *l, uint8_t *image, size_t image_len)
{
    return netcheck_save(l->book, l->book_len, image, image_len, l->sp, l->sp_len, l->spp, l->spp_len, l->states, l->states_len, l->members,
                         l->members_len, l->transitions, l->transitions_len, l->pending, l->pending_len, l->scratch, l->scratch_len, l->output,
                         l->output_len);
}

static inline struct netcheck_outcome netcheck_resume_lent(const uint8_t *image, size_t image_len, const struct netcheck_lent *l)
{
    return netcheck_resume(image, image_len, l->book, l->book_len, l->sp, l->sp_len, l->spp, l->spp_len, l->states, l->states_len, l->members,
                           l->members_len, l->transitions, l->transitions_len, l->pending, l->pending_len, l->scratch, l->scratch_len, l->output,
                           l->output_len);
}

static inline struct netcheck_saved netcheck_resume_save_lent(const uint8_t *image, size_t image_len, const struct netcheck_lent *l, uint8_t *next,
                                                              size_t next_len)
{
    return netcheck_resume_save(image, image_len, l->book, l->book_len, next, next_len, l->sp, l->sp_len, l->spp, l->spp_len, l->states,
                                l->states_len, l->members, l->members_len, l->transitions, l->transitions_len, l->pending, l->pending_len,
                                l->scratch, l->scratch_len, l->output, l->output_len);
}

#ifdef __cplusplus
}
#endif
#if defined(__STDC_VERSION__) && __STDC_VERSION__ >= 201112L
/* the layouts that Rattle's #[repr(C)] has on x86-64 */
_Static_assert(sizeof(struct netcheck_outcome) == 16 && offsetof(struct netcheck_outcome, length) == 8, "struct netcheck_outcome");
_Static_assert(sizeof(struct netcheck_saved) == 24 && offsetof(struct netcheck_saved, length) == 8, "struct netcheck_saved");
_Static_assert(offsetof(struct netcheck_saved, image_length) == 16, "struct netcheck_saved");
#endif
#endif
