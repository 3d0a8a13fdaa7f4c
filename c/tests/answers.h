/* What the tests of calls share: a call is made, and one that answers another number than the wanted one is printed with its line. */
#ifndef ANSWERS_H
#define ANSWERS_H

#include "compactd.h"

#include <stdio.h>

#define IS(wanted, call) is_answered((call), COMPACTD_##wanted, #call, __LINE__)
#define OK(call) is_answered((call), COMPACTD_OK, #call, __LINE__)
#define HOLDS(fact) is_answered((fact) ? 0u : 1u, 0, #fact, __LINE__)

static int wrong; /* the status of the program */

static void is_answered(uint32_t answer, uint32_t wanted, const char *call, int line)
{
    if (answer != wanted) {
        printf("line %d: %s: %u, and not %u\n", line, call, (unsigned)answer, (unsigned)wanted);
        wrong = 1;
    }
}

#endif
