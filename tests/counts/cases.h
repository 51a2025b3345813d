/* What the image with the cases and the counter share. */
#ifndef CASES_H
#define CASES_H

#include <stdint.h>

enum { COUNTED_CALLS = 32, SHELVES = 4 };

/* One case: a call on a shelf, its two functions, and the arguments of both. Made more than once, it has a second argument that is
 * one more each time. A call without an answer is silent. */
struct job {
    char call[32], shelf[32];
    uint64_t library, plain;
    uint64_t arguments[8];
    uint64_t times, silent;
};

#endif
