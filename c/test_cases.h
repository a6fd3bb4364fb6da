/* The examples that c/test.c holds the library against. */
#ifndef TEST_CASES_H
#define TEST_CASES_H

#include <stddef.h>
#include <stdint.h>

/* A call with what it is given (as texts, see texts.h) and what it has to tell. Flags "none" are absent; what stands in their place is not to
 * be looked at. */
typedef struct {
    int line;
    int call;
    const char *ours;    /* flags, the old ones of a change of totals; bytes for the calls that read bytes */
    const char *theirs;  /* also the new ones of a change of totals */
    const char *removal; /* the right one of a sum */
    const char *left;
    const char *totals;
    uint32_t amount;
    uint16_t version;
    uint8_t strategy;
    const char *told;
} example;

extern const example examples[];
extern const size_t examples_len;

#endif
