/* Checks an answer file against a constraint file, through the library. */
#include <stdio.h>

#include "../../include/spear.h"
#include "load.h"

int main(int count, char **words)
{
    static uint8_t constraints[ROOM], answer[ROOM];
    if (count != 3) {
        fprintf(stderr, "use: %s CONSTRAINTS ANSWER\n", words[0]);
        return 2;
    }
    size_t constraints_len = load(words[1], constraints);
    size_t answer_len = load(words[2], answer);
    uint32_t reply = spear_check(constraints, constraints_len, answer, answer_len);
    if (reply == SPEAR_SATISFIED)
        puts("satisfied");
    else if (reply == SPEAR_VIOLATED)
        puts("violated");
    else if (reply == SPEAR_DISREGARDED)
        puts("disregarded");
    else
        printf("refused %u\n", (unsigned)(reply - SPEAR_REFUSED));
    return reply == SPEAR_SATISFIED ? 0 : 1;
}
