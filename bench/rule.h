/* A rule of a profile, as the benchmarks give it to each compiler. */
#ifndef RULE_H
#define RULE_H

#include <stddef.h>
#include <stdint.h>

/* Comparisons of an argument, by libseccomp's numbers. */
enum op { NE = 1, LT, LE, EQ, GE, GT, MASKED_EQ };

enum { ARGUMENTS = 6 };

struct condition {
    uint32_t index;
    uint32_t op;
    uint64_t value; /* the mask of MASKED_EQ */
    uint64_t two;   /* what its masked argument equals */
};

/* Calls of this number on which all the conditions hold return this value. */
struct rule {
    uint32_t nr;
    uint32_t value;
    uint32_t conditions;
    struct condition when[ARGUMENTS];
};

/* By gvisor.go: the filter of the rules, which returns another value for every other call, and its length in
 * bytes, 0 where there is none or it has no room. */
extern size_t gvisor_compile(struct rule *rules, size_t count, uint32_t other, uint8_t *filter, size_t room);

#endif
