/* Says whether two constraint files are the same map, however they are spelt, through the library. */
#include <stdbool.h>
#include <stdio.h>
#include <string.h>

#include "../../include/spear.h"
#include "load.h"

struct map {
    const char *name;
    char text[ROOM]; /* the file's clean spelling */
    size_t length;
};

/* Whether the file is accepted. If not, says why. */
static bool clean(const char *name, struct map *map)
{
    static uint8_t file[ROOM];
    size_t length = load(name, file);
    uint64_t word = spear_clean(file, length, (uint8_t *)map->text, sizeof map->text);
    if (SPEAR_KIND(word) == SPEAR_KIND_REFUSED) {
        printf("%s: refused %u at %llu\n", name, (unsigned)SPEAR_NUMBER(word),
               (unsigned long long)SPEAR_POSITION(word));
        return false;
    }
    map->name = name;
    map->length = SPEAR_LENGTH(word);
    return true;
}

/* A line of a map: none where `at` is behind the last one. */
struct line {
    const char *at;
    size_t length;
};

static struct line line_at(const struct map *map, size_t start)
{
    if (start > map->length)
        return (struct line){NULL, 0};
    const char *at = map->text + start, *end = memchr(at, '\n', map->length - start);
    return (struct line){at, end ? (size_t)(end - at) : map->length - start};
}

static bool is_same(struct line a, struct line b)
{
    return a.at && b.at && a.length == b.length && memcmp(a.at, b.at, a.length) == 0;
}

static void print(const struct map *map, struct line line)
{
    if (line.at)
        printf("%s: %.*s\n", map->name, (int)line.length, line.at);
    else
        printf("%s has no such line\n", map->name);
}

/* Of two different maps: as long as the lines are the same, they start at the same places. */
static void print_difference(const struct map *first, const struct map *second)
{
    size_t start = 0;
    unsigned number = 1;
    struct line a = line_at(first, 0), b = line_at(second, 0);
    for (; is_same(a, b); number++) {
        start += a.length + 1;
        a = line_at(first, start);
        b = line_at(second, start);
    }
    printf("different in line %u\n", number);
    print(first, a);
    print(second, b);
}

int main(int count, char **words)
{
    static struct map first, second;
    if (count != 3) {
        fprintf(stderr, "use: %s CONSTRAINTS CONSTRAINTS\n", words[0]);
        return 2;
    }
    if (!clean(words[1], &first) || !clean(words[2], &second))
        return 2;
    if (first.length == second.length && memcmp(first.text, second.text, first.length) == 0) {
        puts("same");
        return 0;
    }
    print_difference(&first, &second);
    return 1;
}
