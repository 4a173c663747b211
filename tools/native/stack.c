/* How much stack a call takes: the library runs on a thread whose stack is filled with a pattern first, with a page below it that may not be touched.
 * Standard input: cases of call.h. For each: number, text line, bytes of stack (what an empty call takes is taken off). An image that is written is
 * then read, and the more of both counts. */
#define _GNU_SOURCE
#include "call.h"
#include <pthread.h>
#include <sys/mman.h>

#define STACK (4u << 20)
#define PAGE 4096u
#define PATTERN 0x5Au

struct work { int empty; struct call c; };

static void *run(void *p)
{
    struct work *w = p;
    if (!w->empty) call_enter(&w->c);
    return NULL;
}

static size_t measure(struct work *w, int empty)
{
    static uint8_t *area;
    if (!area) {
        area = mmap(NULL, STACK + PAGE, PROT_READ | PROT_WRITE, MAP_PRIVATE | MAP_ANONYMOUS | MAP_NORESERVE, -1, 0);
        if (area == MAP_FAILED || mprotect(area, PAGE, PROT_NONE)) exit(1);
    }
    memset(area + PAGE, PATTERN, STACK);
    pthread_attr_t a;
    pthread_t thread;
    pthread_attr_init(&a);
    if (pthread_attr_setstack(&a, area + PAGE, STACK)) exit(1);
    w->empty = empty;
    if (pthread_create(&thread, &a, run, w)) exit(1);
    pthread_join(thread, NULL);
    size_t i = 0;
    while (i < STACK && area[PAGE + i] == PATTERN) i++;
    return STACK - i;
}

/* the stack of reading the image that w has written, with no book line */
static size_t measure_read(const struct work *w)
{
    struct work reader = *w;
    reader.c.entry = RESUME;
    reader.c.book_len = reader.c.room = 0;
    reader.c.image = w->c.next;
    reader.c.image_len = w->c.r.image_length;
    call_lend(&reader.c);
    size_t all = measure(&reader, 0);
    if (reader.c.r.number) call_fail("an image that was written is not read");
    call_free(&reader.c);
    return all;
}

int main(void)
{
    struct work w;
    while (call_read(&w.c)) {
        call_lend(&w.c);
        size_t none = measure(&w, 1), all = measure(&w, 0), again = w.c.r.image_length ? measure_read(&w) : 0;
        printf("%u %u %zu\n", (unsigned)w.c.r.number, (unsigned)w.c.r.line, (again > all ? again : all) - none);
        call_free(&w.c);
        free((void *)w.c.book);
        free((void *)w.c.image);
    }
    return 0;
}
