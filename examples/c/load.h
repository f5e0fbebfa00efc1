/* Reading a file, for the examples. */
#include <stdint.h>
#include <stdio.h>

/* Room for a file, and for one byte more, so that one that is too long is seen to be. */
#define ROOM 65537

/* The bytes of a file; none where it can't be opened. */
static size_t load(const char *name, uint8_t *room)
{
    FILE *file = fopen(name, "rb");
    if (file == NULL)
        return 0;
    size_t length = fread(room, 1, ROOM, file);
    fclose(file);
    return length;
}
