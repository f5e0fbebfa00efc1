/* Times the library's check, change, cleaning and indexing against the plain ones, compiled at -O2 and at -O3, on
   files made here, with LF line ends and for the check with CR LF too. Every file is satisfied.
   `./bench ROW` makes each check and flip of that row of the checks once, for a counter of instructions. */

#define _POSIX_C_SOURCE 199309L

#include "../include/spear.h"

#include <inttypes.h>
#include <stdarg.h>
#include <stdbool.h>
#include <stdio.h>
#include <stdlib.h>
#include <string.h>
#include <time.h>

enum { FILE_BYTES = 65536, VARIABLES = 256, LINES = 1024, GROUP = 8, OPERANDS = 3, ROUNDS = 15 };
enum { STARTS = VARIABLES + 1, LISTED = LINES * (1 + OPERANDS) }; /* of an index, at most */
enum { SPELLING = 40 };
static const double MEASUREMENT_SECONDS = 0.1;

static void fail(const char *why)
{
    fprintf(stderr, "bench: %s\n", why);
    exit(EXIT_FAILURE);
}

/* A repeatable random number below the bound (xorshift). */
static uint64_t draw(uint64_t bound)
{
    static uint64_t state = 88172645463325252u;
    state ^= state << 13;
    state ^= state >> 7;
    state ^= state << 17;
    return state % bound;
}

static uint64_t mask(unsigned width)
{
    return UINT64_MAX >> (64 - width);
}

/* Files as text. */

struct text {
    char bytes[FILE_BYTES + 1]; /* vsnprintf ends it with a zero byte */
    size_t length;
};

__attribute__((format(printf, 2, 3))) static void print(struct text *text, const char *format, ...)
{
    va_list arguments;
    va_start(arguments, format);
    size_t room = sizeof text->bytes - text->length;
    int added = vsnprintf(text->bytes + text->length, room, format, arguments);
    va_end(arguments);
    if (added < 0 || (size_t)added >= room)
        fail("the file is full");
    text->length += (size_t)added;
}

struct files {
    struct text constraints, answer;
};

/* Names, by a variable's number. */

typedef void spell(char *name, unsigned number);

static void short_name(char *name, unsigned number)
{
    snprintf(name, SPELLING, "x%u", number);
}

static void middling_name(char *name, unsigned number)
{
    snprintf(name, SPELLING, "x%011u", number);
}

static const char stem[] = "oven_line_temperature_sensor"; /* 28 of 32 bytes */

/* The number is spread, so that none of the last bytes is the same in all. */
static void name_begun_alike(char *name, unsigned number)
{
    snprintf(name, SPELLING, "%s%04u", stem, 39 * number);
}

static void name_ended_alike(char *name, unsigned number)
{
    snprintf(name, SPELLING, "%c%03u%s", 'a' + number % 26, number, stem);
}

/* As the library chooses among its buckets. */
static uint32_t bucket_of(const char *name)
{
    uint32_t hash = 0;
    for (; *name; name++)
        hash = hash * 37 + (uint8_t)*name;
    return (hash + hash / 1024) % VARIABLES;
}

static void name_in_one_bucket(char *name, unsigned number)
{
    unsigned tries = 0;
    do
        snprintf(name, SPELLING, "x%06u_%04u", number, tries++);
    while (bucket_of(name) != 0);
}

/* 37 * 'a' + 'z' is 37 * 'b' + 'U', so that all have the same hash. */
static void name_of_one_hash(char *name, unsigned number)
{
    *name = '\0';
    for (int bit = 7; bit >= 0; bit--)
        strcat(name, number >> bit & 1 ? "bU" : "az");
}

/* Variables, in groups of 8 whose values are related so that results often fit a variable. */

struct operand {
    uint64_t value;
    unsigned width;
    char spelling[SPELLING];
};

static const unsigned group_widths[GROUP] = {1, 1, 8, 8, 16, 32, 32, 64};

static void make_group(struct operand *group)
{
    uint64_t high = draw(256), low = draw(256), word = high << 8 | low, top = draw(mask(32));
    uint64_t values[GROUP] = {0, 1, high, low, word, word, top, top << 32 | word};
    for (unsigned i = 0; i < GROUP; i++) {
        group[i].value = values[i];
        group[i].width = group_widths[i];
    }
}

static void make_variables(struct operand *variables, unsigned count, spell *speller)
{
    for (unsigned i = 0; i < count; i++) {
        if (i % GROUP == 0)
            make_group(&variables[i]);
        speller(variables[i].spelling, i);
    }
}

static struct operand constant(uint64_t value, unsigned width)
{
    struct operand made = {.value = value & mask(width), .width = width};
    snprintf(made.spelling, sizeof made.spelling, "%" PRIu64 ":i%u", made.value, width);
    return made;
}

/* More seldom i1, of which lines say little. */
static unsigned any_width(void)
{
    return group_widths[draw(8) ? 2 + draw(GROUP - 2) : 0];
}

/* One in three is a constant, and half of these are 0 or 1. */
static struct operand any_operand(const struct operand *group, unsigned width)
{
    size_t i = draw(GROUP);
    if (draw(3) == 0)
        return constant(draw(2) ? draw(2) : draw(UINT64_MAX), width);
    while (group[i].width != width)
        i = draw(GROUP);
    return group[i];
}

/* Operators. */

enum shape { SAME, ONE, BOOLS, COMPARED, CHOICE, DIVIDED, SHIFTED, NARROWED, WIDENED, JOINED, CUT };

enum operator {
    AND, OR, XOR, NOT, IMPLIES, EQ, NE, ULE, UGE, ULT, UGT, SLE, SGE, SLT, SGT, ITE,
    ADD, SUB, MUL, UDIV, SDIV, UREM, SREM, SHL, ASHR, LSHR, TRUN, SEXT, ZEXT, CONC, EXTR,
    OPERATORS,
};

static const struct {
    const char *spelling;
    enum shape shape;
} operators[OPERATORS] = {
    {"&", SAME}, {"|", SAME}, {"^", SAME}, {"~", ONE}, {"=>", BOOLS}, {"=", COMPARED},
    {"/=", COMPARED}, {"ule", COMPARED}, {"uge", COMPARED}, {"ult", COMPARED}, {"ugt", COMPARED},
    {"sle", COMPARED}, {"sge", COMPARED}, {"slt", COMPARED}, {"sgt", COMPARED}, {"ite", CHOICE},
    {"+", SAME}, {"-", SAME}, {"*", SAME}, {"/u", DIVIDED}, {"/s", DIVIDED}, {"%u", DIVIDED},
    {"%s", DIVIDED}, {"<<", SHIFTED}, {">>a", SHIFTED}, {">>l", SHIFTED}, {"trun", NARROWED},
    {"sext", WIDENED}, {"zext", WIDENED}, {"conc", JOINED}, {"extr", CUT},
};

struct line {
    enum operator operator;
    struct operand operands[OPERANDS]; /* with the width 0 where the operator takes fewer */
    struct operand output;             /* what the operator results in */
};

typedef __int128 wide;

static wide signed_reading(struct operand operand)
{
    bool negative = operand.value >> (operand.width - 1);
    return (wide)operand.value - (negative ? (wide)1 << operand.width : 0);
}

/* Def. 21: rounds away from zero where the signs differ. */
static wide signed_quotient(wide a, wide b)
{
    bool away = (a < 0) != (b < 0) && a % b != 0;
    return a / b - (away ? 1 : 0);
}

static uint64_t result_of(const struct line *line)
{
    const struct operand *o = line->operands;
    wide a = o[0].value, b = o[1].value, c = o[2].value;
    wide sa = signed_reading(o[0]), sb = o[1].width ? signed_reading(o[1]) : 0;
    switch (line->operator) {
    case AND: return a & b;
    case OR: return a | b;
    case XOR: return a ^ b;
    case NOT: return ~a;
    case IMPLIES: return !a || b;
    case EQ: return a == b;
    case NE: return a != b;
    case ULE: return a <= b;
    case UGE: return a >= b;
    case ULT: return a < b;
    case UGT: return a > b;
    case SLE: return sa <= sb;
    case SGE: return sa >= sb;
    case SLT: return sa < sb;
    case SGT: return sa > sb;
    case ITE: return a ? b : c;
    case ADD: return a + b;
    case SUB: return a - b;
    case MUL: return o[0].value * o[1].value;
    case UDIV: return a / b;
    case SDIV: return signed_quotient(sa, sb);
    case UREM: return a % b;
    case SREM: return sa - signed_quotient(sa, sb) * sb;
    case SHL: return b < o[0].width ? o[0].value << b : 0;
    case ASHR: return sa >> (b < o[0].width ? b : 64);
    case LSHR: return b < o[0].width ? a >> b : 0;
    case TRUN: case ZEXT: return a;
    case SEXT: return sa;
    case CONC: return o[0].value << o[1].width | o[1].value;
    default: return a >> b; /* EXTR */
    }
}

struct widths {
    unsigned operands[OPERANDS];
    unsigned result; /* 0 where those drawn don't suit */
};

static struct widths draw_widths(enum shape shape)
{
    unsigned a = any_width(), b = any_width();
    switch (shape) {
    case ONE: return (struct widths){{a}, a};
    case BOOLS: return (struct widths){{1, 1}, 1};
    case COMPARED: return (struct widths){{a, a}, 1};
    case CHOICE: return (struct widths){{1, a, a}, a};
    case SHIFTED: return (struct widths){{a, 8}, a};
    case NARROWED: return (struct widths){{a}, b < a ? b : 0};
    case WIDENED: return (struct widths){{a}, b > a ? b : 0};
    case JOINED: return (struct widths){{a, b}, a + b <= 64 ? a + b : 0};
    case CUT: return (struct widths){{a, 8, 8}, b <= a ? b : 0};
    default: return (struct widths){{a, a}, a};
    }
}

static void draw_operands(const struct operand *group, const struct widths *widths,
                          struct line *line)
{
    struct operand *operands = line->operands;
    enum shape shape = operators[line->operator].shape;
    for (int i = 0; i < OPERANDS && widths->operands[i] > 0; i++)
        operands[i] = any_operand(group, widths->operands[i]);
    if (shape == DIVIDED && operands[1].value == 0)
        operands[1] = constant(1, widths->operands[1]);
    if (shape == SHIFTED && draw(2))
        operands[1] = constant(draw(widths->operands[0]), 8);
    if (shape == CUT) {
        uint64_t from = draw(widths->operands[0] - widths->result + 1);
        operands[1] = constant(from, 8);
        operands[2] = constant(from + widths->result, 8);
    }
}

/* The output is a variable that fits the result, or else a constant. */
static bool find_output(const struct operand *group, struct line *line, unsigned width)
{
    line->output = constant(result_of(line), width);
    for (const struct operand *variable = group; variable < group + GROUP; variable++)
        if (variable->width == width && variable->value == line->output.value) {
            line->output = *variable;
            return true;
        }
    return false;
}

/* Tries some times over to have a variable as output. */
static struct line make_line(const struct operand *group, enum operator operator)
{
    struct line line = {.operator = operator};
    bool found = false;
    for (int tries = 0; tries < 4 && !found; tries++) {
        struct widths widths;
        do
            widths = draw_widths(operators[operator].shape);
        while (widths.result == 0);
        draw_operands(group, &widths, &line);
        found = find_output(group, &line, widths.result);
    }
    return line;
}

/* The line of a file with that number. */

typedef struct line make(const struct operand *variables, unsigned count, unsigned number);

static struct line drawn_line(const struct operand *variables, unsigned count, unsigned number)
{
    size_t group = draw(count / GROUP) * GROUP;
    return make_line(&variables[group], number % OPERATORS);
}

/* Only its first variable is named, so that as many lines with the longest names fit into a file. */
static struct line sparing_line(const struct operand *variables, unsigned count, unsigned number)
{
    struct line line = drawn_line(variables, count, number);
    bool has_name = false;
    for (int i = 0; i <= OPERANDS; i++) {
        struct operand *part = i < OPERANDS ? &line.operands[i] : &line.output;
        if (has_name && part->width > 0)
            *part = constant(part->value, part->width);
        has_name = has_name || *part->spelling > '9';
    }
    return line;
}

/* Four lines that hold for every group name all of it, and one group comes behind the other. */
static struct line line_in_turn(const struct operand *variables, unsigned count, unsigned number)
{
    const struct operand *group = &variables[number / 4 * GROUP % count];
    switch (number % 4) {
    case 0: return (struct line){ULT, {group[0], group[1]}, constant(1, 1)};
    case 1: return (struct line){CONC, {group[2], group[3]}, group[4]};
    case 2: return (struct line){ZEXT, {group[4]}, group[5]};
    default: return (struct line){CONC, {group[6], group[5]}, group[7]};
    }
}

static void print_line(struct text *text, const struct line *line)
{
    bool may_be_p = line->operator <= ITE && line->output.width == 1 && line->output.value == 1;
    if (may_be_p && draw(2))
        print(text, "p");
    else
        print(text, "c %s", line->output.spelling);
    print(text, " %s", operators[line->operator].spelling);
    for (int i = 0; i < OPERANDS && line->operands[i].width > 0; i++)
        print(text, " %s", line->operands[i].spelling);
    print(text, "\n");
}

static void print_variables(struct files *files, const struct operand *variables, unsigned count)
{
    for (unsigned i = 0; i < count; i++) {
        const char *end = i % GROUP == GROUP - 1 ? "\n" : "";
        print(&files->constraints, "%s %s:i%u%s", i % GROUP == 0 ? "d" : "", variables[i].spelling,
              variables[i].width, end);
        print(&files->answer, "%s %s=%" PRIu64 "%s", i % GROUP == 0 ? "v" : "",
              variables[i].spelling, variables[i].value, end);
    }
}

struct input {
    const char *name;
    unsigned variable_count, line_count; /* variables come in whole groups */
    spell *speller;
    make *maker;
};

static void make_files(struct files *files, const struct input *input)
{
    static struct operand variables[VARIABLES];
    files->constraints.length = files->answer.length = 0;
    make_variables(variables, input->variable_count, input->speller);
    print(&files->constraints, "v 1.0\n");
    print(&files->answer, "s SATISFIABLE\n");
    print_variables(files, variables, input->variable_count);
    for (unsigned i = 0; i < input->line_count; i++) {
        struct line line = input->maker(variables, input->variable_count, i);
        print_line(&files->constraints, &line);
    }
}

/* Measuring. */

typedef uint32_t check(const uint8_t *, size_t, const uint8_t *, size_t);
typedef uint32_t change(const uint8_t *, size_t, uint64_t *, uint8_t *, uint64_t *, size_t, uint64_t);
typedef ptrdiff_t clean(const uint8_t *, size_t, uint8_t *, size_t);
typedef ptrdiff_t build(const uint8_t *, size_t, uint32_t *, size_t, uint32_t *, size_t);

/* plain.h's functions: the Makefile compiles plain.c twice, and renames them. */
check plain_check_o2, plain_check_o3;
change plain_change_o2, plain_change_o3;
clean plain_clean_o2, plain_clean_o3;
build plain_index_o2, plain_index_o3;

static double now(void)
{
    struct timespec time;
    clock_gettime(CLOCK_MONOTONIC, &time);
    return (double)time.tv_sec + 1e-9 * (double)time.tv_nsec;
}

static uint32_t reply_of(check *checker, const struct files *files)
{
    return checker((const uint8_t *)files->constraints.bytes, files->constraints.length,
                   (const uint8_t *)files->answer.bytes, files->answer.length);
}

static double seconds_for(check *checker, const struct files *files, long repetitions)
{
    double start = now();
    for (long i = 0; i < repetitions; i++)
        if (reply_of(checker, files) != 0)
            fail("a later reply isn't 0");
    return now() - start;
}

static long enough_repetitions(check *checker, const struct files *files)
{
    long repetitions = 1;
    while (seconds_for(checker, files, repetitions) < MEASUREMENT_SECONDS)
        repetitions *= 2;
    return repetitions;
}

struct measurement {
    check *checker;
    const struct files *files;
    long repetitions;
    double best; /* seconds for one call */
};

static void measure(struct measurement *of)
{
    double seconds = seconds_for(of->checker, of->files, of->repetitions) / (double)of->repetitions;
    if (of->best == 0 || seconds < of->best)
        of->best = seconds;
}

static struct measurement measurement_of(check *checker, const struct files *files)
{
    return (struct measurement){checker, files, enough_repetitions(checker, files), 0};
}

/* They take turns, so that all meet the same state of the machine. */
static void take_turns(struct measurement *checkers, size_t count)
{
    for (int round = 0; round < ROUNDS; round++)
        for (size_t i = 0; i < count; i++)
            measure(&checkers[i]);
}

static void compare_replies(const struct files *files)
{
    uint32_t spear_reply = reply_of(spear_check, files);
    uint32_t plain_reply = reply_of(plain_check_o2, files);
    if (spear_reply != plain_reply || plain_reply != 0) {
        printf(" replies %" PRIu32 " and %" PRIu32 "\n", spear_reply, plain_reply);
        exit(EXIT_FAILURE);
    }
}

static void report(const struct input *input)
{
    static struct files files;
    make_files(&files, input);
    printf("%-26s", input->name);
    compare_replies(&files);
    struct measurement by[] = {
        measurement_of(spear_check, &files),
        measurement_of(plain_check_o2, &files),
        measurement_of(plain_check_o3, &files),
    };
    take_turns(by, sizeof by / sizeof *by);
    size_t file = files.constraints.length, answer = files.answer.length;
    printf(" %7zu %7zu %9.3f %9.3f %9.3f %7.2f %7.2f", file, answer, 1e6 * by[0].best,
           1e6 * by[1].best, 1e6 * by[2].best, by[0].best / by[1].best, by[0].best / by[2].best);
    if (input->variable_count == GROUP)
        printf(" %10.2f", 1e9 * by[0].best / (double)(file + answer));
    printf("\n");
}

/* Flips: the first variable, of width 1, from 0 to 1 and back, in tables that a check filled. */

static struct {
    uint64_t values[VARIABLES];
    uint8_t verdicts[LINES];
    uint64_t results[LINES];
} held;

static uint32_t check_tables(const uint8_t *constraints, size_t constraints_len,
                             const uint8_t *answer, size_t answer_len)
{
    return SPEAR_KIND(spear_check_tables(constraints, constraints_len, answer, answer_len, held.values,
                                         VARIABLES, held.verdicts, LINES, held.results, LINES));
}

static uint32_t flip(const uint8_t *constraints, size_t constraints_len, const uint8_t *answer,
                     size_t answer_len)
{
    (void)answer, (void)answer_len;
    uint64_t word = spear_change(constraints, constraints_len, held.values, VARIABLES, held.verdicts,
                                 LINES, held.results, LINES, 0, held.values[0] ^ 1);
    return SPEAR_KIND(word) == SPEAR_KIND_REFUSED;
}

static uint32_t plain_flip(change *changer, const uint8_t *constraints, size_t constraints_len)
{
    uint64_t flipped = held.values[0] ^ 1;
    return changer(constraints, constraints_len, held.values, held.verdicts, held.results, 0, flipped) >= 100;
}

static uint32_t plain_flip_o2(const uint8_t *constraints, size_t constraints_len,
                              const uint8_t *answer, size_t answer_len)
{
    (void)answer, (void)answer_len;
    return plain_flip(plain_change_o2, constraints, constraints_len);
}

static uint32_t plain_flip_o3(const uint8_t *constraints, size_t constraints_len,
                              const uint8_t *answer, size_t answer_len)
{
    (void)answer, (void)answer_len;
    return plain_flip(plain_change_o3, constraints, constraints_len);
}

/* There by the one and back by the other, in either order: all tables must be the same there, and back as
   they were. */
static void compare_flips(const struct files *files, check *one, check *other)
{
    static char before[sizeof held], there[sizeof held];
    check *const flips[] = {one, other, other, one};
    memcpy(before, &held, sizeof held);
    for (size_t i = 0; i < sizeof flips / sizeof *flips; i++) {
        if (reply_of(flips[i], files) != 0)
            fail("a flip is refused");
        if (i == 0)
            memcpy(there, &held, sizeof held);
        if (memcmp(i % 2 == 0 ? there : before, &held, sizeof held) != 0)
            fail("the flips differ");
    }
}

static void report_flips(const struct input *input)
{
    static struct files files;
    make_files(&files, input);
    if (reply_of(check_tables, &files) != 0)
        fail("the check isn't satisfied");
    compare_flips(&files, flip, plain_flip_o2);
    struct measurement by[] = {
        measurement_of(check_tables, &files),
        measurement_of(flip, &files),
        measurement_of(plain_flip_o2, &files),
        measurement_of(plain_flip_o3, &files),
    };
    take_turns(by, sizeof by / sizeof *by);
    printf("%-26s check %.1f us, flip %.1f us (%.2f of the check), plain flip %.1f and %.1f us "
           "(ratio %.2f and %.2f)\n",
           input->name, 1e6 * by[0].best, 1e6 * by[1].best, by[1].best / by[0].best,
           1e6 * by[2].best, 1e6 * by[3].best, by[1].best / by[2].best, by[1].best / by[3].best);
}

/* Cleaning, into a room as long as the file. */

static struct text cleaned; /* by the last cleaning */

static uint32_t clean_file(const uint8_t *constraints, size_t constraints_len,
                           const uint8_t *answer, size_t answer_len)
{
    (void)answer, (void)answer_len;
    uint64_t word = spear_clean(constraints, constraints_len, (uint8_t *)cleaned.bytes,
                                constraints_len);
    cleaned.length = SPEAR_LENGTH(word);
    return SPEAR_KIND(word) != SPEAR_KIND_DONE;
}

static uint32_t plain_clean_file(clean *cleaner, const uint8_t *constraints, size_t constraints_len)
{
    ptrdiff_t length = cleaner(constraints, constraints_len, (uint8_t *)cleaned.bytes,
                               constraints_len);
    cleaned.length = (size_t)length;
    return length < 0;
}

static uint32_t plain_clean_file_o2(const uint8_t *constraints, size_t constraints_len,
                                    const uint8_t *answer, size_t answer_len)
{
    (void)answer, (void)answer_len;
    return plain_clean_file(plain_clean_o2, constraints, constraints_len);
}

static uint32_t plain_clean_file_o3(const uint8_t *constraints, size_t constraints_len,
                                    const uint8_t *answer, size_t answer_len)
{
    (void)answer, (void)answer_len;
    return plain_clean_file(plain_clean_o3, constraints, constraints_len);
}

/* A reading alone: a change without tables is refused right behind it, 21, or 23 without variables. */
static uint32_t read_file(const uint8_t *constraints, size_t constraints_len,
                          const uint8_t *answer, size_t answer_len)
{
    (void)answer, (void)answer_len;
    uint64_t word = spear_change(constraints, constraints_len, NULL, 0, NULL, 0, NULL, 0, 0, 0);
    return SPEAR_KIND(word) != SPEAR_KIND_REFUSED || SPEAR_NUMBER(word) < 21;
}

static struct text cleaned_by(check *cleaner, const struct files *files)
{
    memset(cleaned.bytes, '.', sizeof cleaned.bytes);
    if (reply_of(cleaner, files) != 0)
        fail("a file isn't cleaned");
    return cleaned;
}

/* All must leave the same in the room, behind the clean text too. */
static void compare_cleanings(const struct files *files)
{
    static struct text by_spear, by_plain;
    by_spear = cleaned_by(clean_file, files);
    by_plain = cleaned_by(plain_clean_file_o2, files);
    if (by_spear.length != by_plain.length ||
        memcmp(by_spear.bytes, by_plain.bytes, sizeof by_spear.bytes) != 0)
        fail("the clean texts differ");
}

static void report_cleaning(const char *name, const struct files *files)
{
    compare_cleanings(files);
    struct measurement by[] = {
        measurement_of(read_file, files),
        measurement_of(clean_file, files),
        measurement_of(plain_clean_file_o2, files),
        measurement_of(plain_clean_file_o3, files),
    };
    take_turns(by, sizeof by / sizeof *by);
    double reading = by[0].best, cleaning = by[1].best, o2 = by[2].best, o3 = by[3].best;
    printf("%-26s %7zu %7zu %9.3f %9.3f %9.3f %9.3f %7.2f %7.2f %7.2f\n", name,
           files->constraints.length, cleaned.length, 1e6 * reading, 1e6 * cleaning, 1e6 * o2,
           1e6 * o3, cleaning / reading, cleaning / o2, cleaning / o3);
}

/* A messy spelling of a file that was made here: `v` behind `d`, more white space, comments, constants
   that aren't reduced and have leading zeros. */

/* 2^width fits on top of a value of fewer than 64 bits. */
static void print_messy_constant(struct text *messy, const char *token)
{
    char *type;
    uint64_t value = strtoull(token, &type, 10);
    unsigned width = (unsigned)strtoul(type + strlen(":i"), NULL, 10);
    if (width < 64 && draw(2))
        value += (uint64_t)1 << width;
    print(messy, "%0*" PRIu64 ":i%u", draw(2) ? 6 : 1, value, width);
}

static void print_messy_token(struct text *messy, const char *token, size_t length)
{
    if ('0' <= *token && *token <= '9')
        print_messy_constant(messy, token);
    else
        print(messy, "%.*s", (int)length, token);
}

static void print_messy_line(struct text *messy, const char *line)
{
    static const char *const gaps[] = {" ", "  ", "\t", " \t  "};
    static const char *const ends[] = {"\n", "\n", " \n", "\t\n", "\n\n", "\n# as agreed\n"};
    for (;;) {
        size_t length = strcspn(line, " \n");
        print_messy_token(messy, line, length);
        line += length;
        if (*line++ != ' ')
            break;
        print(messy, "%s", gaps[draw(4)]);
    }
    print(messy, "%s", ends[draw(6)]);
}

static void make_messy(struct text *messy, const struct text *file)
{
    messy->length = 0;
    bool has_version = false;
    for (const char *line = file->bytes; *line; line = strchr(line, '\n') + 1) {
        if (*line == 'v')
            continue;
        if (*line != 'd' && !has_version) {
            print(messy, "# the map\nv\t01.00 \n");
            has_version = true;
        }
        print_messy_line(messy, line);
    }
}

static void report_messy_cleaning(const struct files *files)
{
    static struct files messy;
    static struct text wanted;
    make_messy(&messy.constraints, &files->constraints);
    wanted = cleaned;
    report_cleaning("  in a messy spelling", &messy);
    if (cleaned.length != wanted.length || memcmp(cleaned.bytes, wanted.bytes, wanted.length) != 0)
        fail("the messy spelling has another clean text");
}

static void report_cleanings(const struct input *input)
{
    static struct files files;
    make_files(&files, input);
    report_cleaning(input->name, &files);
    if (input->variable_count == GROUP && input->line_count == LINES)
        report_messy_cleaning(&files);
}

/* The check of files with CR LF line ends, beside the same files with LF. */

static void put_crs(struct text *ended, const struct text *file)
{
    ended->length = 0;
    for (const char *line = file->bytes; *line; line = strchr(line, '\n') + 1)
        print(ended, "%.*s\r\n", (int)strcspn(line, "\n"), line);
}

static void report_line_ends(const struct input *input)
{
    static struct files files, ended;
    make_files(&files, input);
    put_crs(&ended.constraints, &files.constraints);
    put_crs(&ended.answer, &files.answer);
    printf("%-26s", input->name);
    compare_replies(&ended);
    struct measurement by[] = {
        measurement_of(spear_check, &files),    measurement_of(spear_check, &ended),
        measurement_of(plain_check_o2, &files), measurement_of(plain_check_o2, &ended),
        measurement_of(plain_check_o3, &files), measurement_of(plain_check_o3, &ended),
    };
    size_t count = sizeof by / sizeof *by;
    take_turns(by, count);
    printf(" %7zu %7zu", ended.constraints.length, ended.answer.length);
    for (size_t i = 0; i < count; i += 2)
        printf(" %9.3f %9.3f %5.2f", 1e6 * by[i].best, 1e6 * by[i + 1].best,
               by[i + 1].best / by[i].best);
    printf(" %7.2f %7.2f\n", by[1].best / by[3].best, by[1].best / by[5].best);
}

/* Indexes, built into tables with room for any. */

struct index {
    uint32_t starts[STARTS], lists[LISTED];
    size_t listed;
};

static struct index built; /* by the last building */

static uint32_t index_file(const uint8_t *constraints, size_t constraints_len,
                           const uint8_t *answer, size_t answer_len)
{
    (void)answer, (void)answer_len;
    uint64_t word = spear_index(constraints, constraints_len, built.starts, STARTS, built.lists,
                                LISTED);
    built.listed = SPEAR_LENGTH(word);
    return SPEAR_KIND(word) != SPEAR_KIND_DONE;
}

static uint32_t plain_index_file(build *builder, const uint8_t *constraints, size_t constraints_len)
{
    ptrdiff_t listed = builder(constraints, constraints_len, built.starts, STARTS, built.lists,
                               LISTED);
    built.listed = (size_t)listed;
    return listed < 0;
}

static uint32_t plain_index_file_o2(const uint8_t *constraints, size_t constraints_len,
                                    const uint8_t *answer, size_t answer_len)
{
    (void)answer, (void)answer_len;
    return plain_index_file(plain_index_o2, constraints, constraints_len);
}

static uint32_t plain_index_file_o3(const uint8_t *constraints, size_t constraints_len,
                                    const uint8_t *answer, size_t answer_len)
{
    (void)answer, (void)answer_len;
    return plain_index_file(plain_index_o3, constraints, constraints_len);
}

static struct index built_by(check *builder, const struct files *files)
{
    memset(built.starts, 0xff, sizeof built.starts);
    memset(built.lists, 0xff, sizeof built.lists);
    if (reply_of(builder, files) != 0)
        fail("an index isn't built");
    return built;
}

/* All must leave the same in the tables, behind the index too. */
static void compare_indexes(const struct files *files)
{
    static struct index by_spear, by_plain;
    by_spear = built_by(index_file, files);
    by_plain = built_by(plain_index_file_o2, files);
    if (by_spear.listed != by_plain.listed ||
        memcmp(by_spear.starts, by_plain.starts, sizeof by_spear.starts) != 0 ||
        memcmp(by_spear.lists, by_plain.lists, sizeof by_spear.lists) != 0)
        fail("the indexes differ");
}

static void report_indexing(const struct input *input)
{
    static struct files files;
    make_files(&files, input);
    compare_indexes(&files);
    struct measurement by[] = {
        measurement_of(read_file, &files),
        measurement_of(index_file, &files),
        measurement_of(plain_index_file_o2, &files),
        measurement_of(plain_index_file_o3, &files),
    };
    take_turns(by, sizeof by / sizeof *by);
    double reading = by[0].best, indexing = by[1].best, o2 = by[2].best, o3 = by[3].best;
    printf("%-26s %7zu %7zu %9.3f %9.3f %9.3f %9.3f %7.2f %7.2f %7.2f\n", input->name,
           files.constraints.length, built.listed, 1e6 * reading, 1e6 * indexing, 1e6 * o2, 1e6 * o3,
           indexing / reading, indexing / o2, indexing / o3);
}

/* Flips through the file's own index, beside flips without it. */

static uint32_t flip_through(const uint8_t *constraints, size_t constraints_len,
                             const uint8_t *answer, size_t answer_len)
{
    (void)answer, (void)answer_len;
    uint64_t word = spear_change_through(constraints, constraints_len, held.values, VARIABLES,
                                         held.verdicts, LINES, held.results, LINES, built.starts, STARTS,
                                         built.lists, LISTED, 0, held.values[0] ^ 1);
    return SPEAR_KIND(word) == SPEAR_KIND_REFUSED;
}

static void report_flips_through(const struct input *input)
{
    static struct files files;
    make_files(&files, input);
    if (reply_of(check_tables, &files) != 0 || reply_of(index_file, &files) != 0)
        fail("a file isn't checked and indexed");
    compare_flips(&files, flip, flip_through);
    struct measurement by[] = {
        measurement_of(flip, &files),
        measurement_of(flip_through, &files),
    };
    take_turns(by, sizeof by / sizeof *by);
    printf("%-26s %7zu %7" PRIu32 " %9.3f %9.3f %7.2f\n", input->name, built.listed, built.starts[1],
           1e6 * by[0].best, 1e6 * by[1].best, by[1].best / by[0].best);
}

/* What is measured. */

static const struct input inputs[] = {
    {"smallest file", 0, 0, short_name, drawn_line},
    {"8 variables, 16 lines", 8, 16, short_name, drawn_line},
    {"8 variables, 64 lines", 8, 64, short_name, drawn_line},
    {"8 variables, 256 lines", 8, 256, short_name, drawn_line},
    {"8 variables, 1024 lines", 8, 1024, short_name, drawn_line},
    {"256 variables, 1024 lines", 256, 1024, middling_name, drawn_line},
    {"256 variables, no lines", 256, 0, middling_name, drawn_line},
    {"all named in turn", 256, 1024, middling_name, line_in_turn},
    {"names that begin alike", 256, 1024, name_begun_alike, sparing_line},
    {"names that end alike", 256, 1024, name_ended_alike, sparing_line},
    {"names in one bucket", 256, 1024, name_in_one_bucket, drawn_line},
    {"names of one hash", 256, 1024, name_of_one_hash, drawn_line},
};

/* The first with a variable to flip, the first whose flips are timed beside plain ones, the first of other names. */
enum { FLIPPABLE = 1, FLIPPED = 4, NAMES = 7, INPUTS = sizeof inputs / sizeof *inputs };

static void report_each(size_t from, size_t to, void (*report_one)(const struct input *))
{
    for (size_t i = from; i < to; i++)
        report_one(&inputs[i]);
}

static void report_checks(const char *title, size_t from, size_t to)
{
    printf("%-26s %7s %7s %9s %9s %9s %7s %7s %10s\n", title, "file B", "answ. B", "spear us",
           "-O2 us", "-O3 us", "to -O2", "to -O3", "spear ns/B");
    report_each(from, to, report);
}

static void report_all(void)
{
    report_checks("input", 0, NAMES);
    report_checks("256 names, 1024 lines", NAMES, INPUTS);
    report_each(FLIPPED, INPUTS, report_flips);
    printf("%-26s %7s %7s %9s %9s %9s %9s %7s %7s %7s\n", "cleaning", "file B", "clean B", "read us",
           "clean us", "-O2 us", "-O3 us", "to read", "to -O2", "to -O3");
    report_each(0, NAMES, report_cleanings);
    printf("%-26s %7s %7s %9s %9s %5s %9s %9s %5s %9s %9s %5s %7s %7s\n", "CR LF line ends", "file B",
           "answ. B", "spear LF", "CR LF us", "ratio", "-O2 LF", "CR LF us", "ratio", "-O3 LF",
           "CR LF us", "ratio", "to -O2", "to -O3");
    report_each(0, NAMES, report_line_ends);
    printf("%-26s %7s %7s %9s %9s %9s %9s %7s %7s %7s\n", "indexing", "file B", "listed", "read us",
           "index us", "-O2 us", "-O3 us", "to read", "to -O2", "to -O3");
    report_each(0, NAMES, report_indexing);
    printf("%-26s %7s %7s %9s %9s %7s\n", "flips through the index", "listed", "of it", "flip us",
           "so us", "ratio");
    report_each(FLIPPABLE, NAMES, report_flips_through);
}

/* Every row draws, so those before it are made too: then its files are the ones that are timed. */
static void call_once(size_t row)
{
    static struct files files;
    check *const calls[] = {spear_check, plain_check_o2, plain_check_o3, check_tables,
                            flip,        plain_flip_o2,  plain_flip_o3};
    size_t count = row < FLIPPABLE ? 3 : sizeof calls / sizeof *calls; /* the checks come first */
    if (row >= INPUTS)
        fail("there is no such row");
    for (size_t i = 0; i <= row; i++)
        make_files(&files, &inputs[i]);
    for (size_t i = 0; i < count; i++)
        if (reply_of(calls[i], &files) != 0)
            fail("a reply isn't 0");
}

int main(int argument_count, char **arguments)
{
    if (argument_count > 1)
        call_once(strtoul(arguments[1], NULL, 10));
    else
        report_all();
}
