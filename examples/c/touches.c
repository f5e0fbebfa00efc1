/* Which lines does this switch touch? Prints for each variable of a constraint file the lines that name it, by
 * the file's index; then, if told to, changes a value through the index. Names and lines are taken from the
 * clean spelling of the file, which has one declaration line and a line for each `c` and `p`, in order. */
#include <stdbool.h>
#include <stdio.h>
#include <stdlib.h>
#include <string.h>

#include "load.h"
#include "word.h"

enum { VARIABLES = 256, LINES = 1024, LISTED = 4 * LINES };

static uint8_t constraints[ROOM], answer[ROOM];
static size_t constraints_len;
static uint32_t starts[VARIABLES + 1], lists[LISTED];

static char text[ROOM + 1];
static const char *names[VARIABLES], *lines[LINES];
static size_t name_count, line_count;

/* Whether it was done. If not, says why. */
static bool is_done(uint64_t word)
{
    if (SPEAR_KIND(word) != SPEAR_KIND_DONE)
        print_word(word);
    return SPEAR_KIND(word) == SPEAR_KIND_DONE;
}

/* Cuts the declaration line into names. */
static void find_names(char *line)
{
    for (char *token = line; (token = strchr(token, ' ')) != NULL;) {
        *token++ = '\0';
        names[name_count++] = token;
    }
}

/* Cuts the clean text into lines, and keeps the names and the `c` and `p` lines. */
static void find_parts(void)
{
    for (char *line = strtok(text, "\n"); line != NULL; line = strtok(NULL, "\n"))
        if (line[0] == 'c' || line[0] == 'p')
            lines[line_count++] = line;
        else if (line[0] == 'd')
            find_names(line);
}

static bool read_map(void)
{
    uint64_t word = spear_clean(constraints, constraints_len, (uint8_t *)text, ROOM);
    if (!is_done(word))
        return false;
    text[SPEAR_LENGTH(word)] = '\0';
    find_parts();
    return is_done(spear_index(constraints, constraints_len, starts, VARIABLES + 1, lists, LISTED));
}

static void print_touched(size_t variable)
{
    printf("%s touches %u of %zu lines\n", names[variable],
           (unsigned)(starts[variable + 1] - starts[variable]), line_count);
    for (uint32_t i = starts[variable]; i < starts[variable + 1]; i++)
        printf("  %u: %s\n", (unsigned)lists[i], lines[lists[i] - 1]);
}

/* The number of the variable of this name, or how many there are. A name is given without its width. */
static size_t number_of(const char *name)
{
    size_t length = strlen(name), i = 0;
    while (i < name_count && (strncmp(names[i], name, length) != 0 || names[i][length] != ':'))
        i++;
    return i;
}

/* Whether the answer is accepted and the variable then changed to the value. Says what came of it. */
static bool change(size_t answer_len, size_t variable, uint64_t value)
{
    static uint64_t values[VARIABLES];
    static uint8_t verdicts[LINES];
    static uint64_t results[LINES];
    uint64_t word = spear_check_tables(constraints, constraints_len, answer, answer_len, values,
                                       VARIABLES, verdicts, LINES, results, LINES);
    if (SPEAR_KIND(word) != SPEAR_KIND_REFUSED)
        word = spear_change_through(constraints, constraints_len, values, VARIABLES, verdicts, LINES,
                                    results, LINES, starts, VARIABLES + 1, lists, LISTED, variable, value);
    print_word(word);
    return SPEAR_KIND(word) != SPEAR_KIND_REFUSED;
}

int main(int count, char **words)
{
    if (count != 2 && count != 5) {
        fprintf(stderr, "use: %s CONSTRAINTS [ANSWER NAME VALUE]\n", words[0]);
        return 2;
    }
    constraints_len = load(words[1], constraints);
    if (!read_map())
        return 2;
    for (size_t i = 0; i < name_count; i++)
        print_touched(i);
    if (count == 2)
        return 0;
    size_t answer_len = load(words[2], answer);
    return change(answer_len, number_of(words[3]), strtoull(words[4], NULL, 10)) ? 0 : 2;
}
