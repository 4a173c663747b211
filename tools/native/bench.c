/* bench COUNT: makes the call on standard input (a case of call.h) COUNT times and prints its number and the nanoseconds of one, clearing the tables
 * included. */
#define _POSIX_C_SOURCE 200809L
#include "call.h"
#include <time.h>

int main(int argc, char **argv)
{
    struct call c;
    long count = argc > 1 ? atol(argv[1]) : 100;
    if (!call_read(&c)) return 1;
    call_lend(&c);
    c.r.number = 0;
    struct timespec a, b;
    clock_gettime(CLOCK_PROCESS_CPUTIME_ID, &a);
    for (long i = 0; i < count; i++) call_enter(&c);
    clock_gettime(CLOCK_PROCESS_CPUTIME_ID, &b);
    printf("%u %.0f\n", (unsigned)c.r.number, ((b.tv_sec - a.tv_sec) * 1e9 + (b.tv_nsec - a.tv_nsec)) / (double)count);
    return 0;
}
