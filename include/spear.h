/* The check of an answer against a constraint file, the change of a single
 * value, the index of the lines that name a variable, the clean spelling of a
 * constraint file and the writing of an answer, for C programs. In both kinds
 * of file lines end with LF or CR LF; what is written ends them with LF.
 *
 * Link target/staticlib/libspear.a, which tools/c_library.sh makes.
 *
 * Nothing is asked of what a call is lent: any bytes, any numbers, any lengths.
 * A pointer may be null only where its length is 0. A range that a call writes
 * (values, verdicts, results, output, the tables of an index that is built)
 * must not overlap any other range of the same call: what happens then is
 * outside what is proved. The calls keep no state, so threads may make them at
 * the same time. Each needs some 60 KB of stack, spear_clean some 110 KB.
 */
#ifndef SPEAR_H
#define SPEAR_H

#include <stddef.h>
#include <stdint.h>

#ifdef __cplusplus
extern "C" {
#endif

/* What a check or a change comes to. */
#define SPEAR_SATISFIED 0u
#define SPEAR_VIOLATED 1u
#define SPEAR_DISREGARDED 2u

/* A refusal of spear_check is this plus its number, 1 to 20. */
#define SPEAR_REFUSED 100u

/* Checks an answer against a constraint file; its tables are its own. Gives
 * SPEAR_SATISFIED, SPEAR_VIOLATED, SPEAR_DISREGARDED, or SPEAR_REFUSED plus the
 * refusal's number.
 */
uint32_t spear_check(const uint8_t *constraints, size_t constraints_len,
                     const uint8_t *answer, size_t answer_len);

/* The same check into tables of the caller's: a value for each variable in the
 * order of the declarations, and for each `c` or `p` line a verdict (1 holds,
 * 0 violated, 2 disregarded) and a result: what its operator came to, for a `p`
 * line 0 or 1, for a disregarded line 0. The tables may be longer; nothing
 * behind the entries in use changes, and a refusal changes nothing: 21 of the
 * first table that is too short. Lengths are numbers of entries. Gives a word
 * that the macros below unpack.
 */
uint64_t spear_check_tables(const uint8_t *constraints, size_t constraints_len,
                            const uint8_t *answer, size_t answer_len,
                            uint64_t *values, size_t values_len,
                            uint8_t *verdicts, size_t verdicts_len,
                            uint64_t *results, size_t results_len);

/* Changes the variable of that number, from 0, to a value, on tables as a check
 * or a change of the same constraint file left them: stores the value, and
 * renews the verdicts and the results of the lines that name the variable. The
 * results are not looked at: any words may stand there. Gives a word.
 */
uint64_t spear_change(const uint8_t *constraints, size_t constraints_len,
                      uint64_t *values, size_t values_len,
                      uint8_t *verdicts, size_t verdicts_len,
                      uint64_t *results, size_t results_len,
                      size_t variable, uint64_t value);

/* Builds the index of a constraint file: which lines name a variable. Fills two
 * tables of the caller's: `starts`, for each variable where its list starts in
 * the other table, from 0, and then where the last list ends; and `lists`, for
 * each variable the numbers of the lines that name it, from 1, ascending and
 * each once. There are at most 257 starts and 4096 lines listed. Both tables
 * may be longer; nothing behind the entries in use changes, and a refusal
 * changes nothing: 21 of the table that is too short. Gives a word.
 */
uint64_t spear_index(const uint8_t *constraints, size_t constraints_len,
                     uint32_t *starts, size_t starts_len,
                     uint32_t *lists, size_t lists_len);

/* The change through an index: renews, and counts as named, just the lines that
 * are listed for the variable. Through the file's own index, as spear_index
 * builds it, it gives and leaves what spear_change does. Any other index that
 * fits the file is taken as it is: lists may leave lines out and have others,
 * the first may start behind 0, a list may be empty, and both tables may be
 * longer. Besides what spear_change is refused for, and behind it, 25 of the
 * starts where there are fewer than variables plus one, or one of these is
 * below the one before it or above lists_len; else 25 of the lists where a
 * number in any variable's list is 0, above the count of lines, or not above
 * the one before it. Gives a word.
 */
uint64_t spear_change_through(const uint8_t *constraints, size_t constraints_len,
                              uint64_t *values, size_t values_len,
                              uint8_t *verdicts, size_t verdicts_len,
                              uint64_t *results, size_t results_len,
                              const uint32_t *starts, size_t starts_len,
                              const uint32_t *lists, size_t lists_len,
                              size_t variable, uint64_t value);

/* Writes the clean spelling of a constraint file: `v 1.0`, the `e` line if there
 * is one, one `d` line, the `c` and `p` lines; one space between tokens,
 * constants reduced and without leading zeros, one LF between lines and none at
 * the end. Files that say the same have the same clean spelling. A room as long
 * as the file is always enough; it must not overlap the file. Nothing behind
 * the length changes, and a refusal changes nothing. Gives a word.
 */
uint64_t spear_clean(const uint8_t *constraints, size_t constraints_len,
                     uint8_t *output, size_t output_len);

/* Writes the answer file that sets these values, one for each variable in the
 * order of the declarations, where they satisfy the constraint file. The room
 * must not overlap the file or the values. Nothing behind the length changes,
 * and a refusal changes nothing. Gives a word.
 */
uint64_t spear_write(const uint8_t *constraints, size_t constraints_len,
                     const uint64_t *values, size_t values_len,
                     uint8_t *output, size_t output_len);

/* The parts of a word. Its kind is SPEAR_SATISFIED, SPEAR_VIOLATED or
 * SPEAR_DISREGARDED of a check or a change, SPEAR_KIND_DONE of a text that is
 * written or an index that is built, or SPEAR_KIND_REFUSED.
 */
#define SPEAR_KIND(word) ((uint32_t)((word) & 0xff))
#define SPEAR_KIND_REFUSED 3u
#define SPEAR_KIND_DONE 4u

/* Of a verdict: the first line that decides it, from 1, and 0 where all hold.
 * Of a change also: how many lines name the variable, or the index lists for
 * it, how many verdicts became different, and in how many bits the old and the
 * new value differ.
 */
#define SPEAR_LINE(word) ((uint32_t)((word) >> 8 & 0xffff))
#define SPEAR_NAMED(word) ((uint32_t)((word) >> 24 & 0xffff))
#define SPEAR_ALTERED(word) ((uint32_t)((word) >> 40 & 0xffff))
#define SPEAR_BITS(word) ((uint32_t)((word) >> 56))

/* Of a text that is written: its length in bytes. Of an index that is built: how
 * many lines are listed in all.
 */
#define SPEAR_LENGTH(word) ((uint64_t)(word) >> 8)

/* Of a refusal: its number, what it speaks of, and the position there. */
#define SPEAR_NUMBER(word) ((uint32_t)((word) >> 8 & 0xff))
#define SPEAR_SUBJECT(word) ((uint32_t)((word) >> 16 & 0xff))
#define SPEAR_POSITION(word) ((uint64_t)(word) >> 24)

#define SPEAR_OF_CONSTRAINTS 0u
#define SPEAR_OF_ANSWER 1u
#define SPEAR_OF_VALUES 2u
#define SPEAR_OF_VERDICTS 3u
#define SPEAR_OF_OUTPUT 4u
#define SPEAR_OF_CALL 5u
#define SPEAR_OF_STARTS 6u
#define SPEAR_OF_LISTS 7u
#define SPEAR_OF_RESULTS 8u

#ifdef __cplusplus
}
#endif

#endif
