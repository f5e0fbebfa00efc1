/* What a call on tables answered, as a line of text, for the examples. */
#include <stdio.h>

#include "../../include/spear.h"

static void print_word(uint64_t word)
{
    static const char *const kinds[] = {"satisfied", "violated", "disregarded"};
    if (SPEAR_KIND(word) == SPEAR_KIND_REFUSED)
        printf("refused %u, of subject %u, at %llu\n", (unsigned)SPEAR_NUMBER(word),
               (unsigned)SPEAR_SUBJECT(word), (unsigned long long)SPEAR_POSITION(word));
    else
        printf("%s, line %u; lines renewed %u, verdicts that changed %u, switches to flip %u\n",
               kinds[SPEAR_KIND(word)], (unsigned)SPEAR_LINE(word), (unsigned)SPEAR_NAMED(word),
               (unsigned)SPEAR_ALTERED(word), (unsigned)SPEAR_BITS(word));
}
