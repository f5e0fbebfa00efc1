#ifndef PLAIN_H
#define PLAIN_H

#include <stddef.h>
#include <stdint.h>

/* 0 satisfied, 1 violated, 2 disregarded, or 100 plus the refusal number. */
uint32_t plain_check(const uint8_t *constraints, size_t constraints_len,
                     const uint8_t *answer, size_t answer_len);

/* Changes a value in tables that a check of the file left, and renews the verdicts and the results of the
   lines that name the variable; the overall verdict in the same way. */
uint32_t plain_change(const uint8_t *constraints, size_t constraints_len, uint64_t *values,
                      uint8_t *verdicts, uint64_t *results, size_t variable, uint64_t value);

/* Writes the clean spelling of a constraint file into a room, and gives its length; or -1 where the
   file is refused or the room too short, and then the room is as it was. */
ptrdiff_t plain_clean(const uint8_t *constraints, size_t constraints_len, uint8_t *output,
                      size_t output_len);

/* Builds the index of a constraint file: where each variable's list starts, with the end of the last, and
   the lists, the numbers of the lines that name the variable. Gives how many lines are listed; or -1 where
   the file is refused or a table too short, and then both tables are as they were. */
ptrdiff_t plain_index(const uint8_t *constraints, size_t constraints_len, uint32_t *starts,
                      size_t starts_len, uint32_t *lists, size_t lists_len);

#endif
