/* A run of flips: checks an answer into tables, then changes one value after the other, and prints each time what
 * the lines came to. */
#include <string.h>

#include "word.h"

enum { VARIABLES = 3, LINES = 3 };

static const char map[] =
    "v 1.0\n"
    "d first:i16 second:i16 reading:i32\n"
    "c reading conc first second\n"
    "p ult first 20000:i16\n"
    "c 4:i16 %u second first\n";

static const char settings[] =
    "s SATISFIABLE\n"
    "v first=17056 second=17060 reading=1117799076\n";

static const struct {
    size_t variable;
    uint64_t value;
} flips[] = {{0, 17060}, {1, 17056}, {2, 1118061216}, {0, 0}, {0, 17056}, {7, 1}, {0, 65536}};

static uint64_t values[VARIABLES], results[LINES];
static uint8_t verdicts[LINES];

/* A refused call leaves the tables as they were. */
static void print_tables(uint64_t word)
{
    static const char *const verdict_words[] = {"violated", "holds", "disregarded"};
    print_word(word);
    if (SPEAR_KIND(word) == SPEAR_KIND_REFUSED)
        return;
    for (size_t i = 0; i < LINES; i++)
        printf("  line %zu came to %llu: %s\n", i + 1, (unsigned long long)results[i],
               verdict_words[verdicts[i]]);
}

int main(void)
{
    const uint8_t *constraints = (const uint8_t *)map, *answer = (const uint8_t *)settings;
    print_tables(spear_check_tables(constraints, strlen(map), answer, strlen(settings), values, VARIABLES,
                                    verdicts, LINES, results, LINES));
    for (size_t i = 0; i < sizeof flips / sizeof *flips; i++)
        print_tables(spear_change(constraints, strlen(map), values, VARIABLES, verdicts, LINES, results,
                                  LINES, flips[i].variable, flips[i].value));
    return 0;
}
