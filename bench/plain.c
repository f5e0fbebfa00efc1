/* A plain checker, cleaner and indexer of SPEAR files: the yardstick for speed and replies. */

#include "plain.h"

#include <stdbool.h>
#include <string.h>

/* The sizes of version 1.0. */
enum {
    FILE_BYTES = 65536,
    VARIABLES = 256,
    LINES = 1024,
    NAME_BYTES = 32,
    WIDTH = 64,
    NUMBER_DIGITS = 20,
    VERSION_DIGITS = 4,
};

enum refusal {
    ACCEPTED = 0,
    FILE_TOO_LONG = 1,
    BYTE_NOT_ALLOWED = 2,
    UNKNOWN_KIND = 3,
    LINE_OUT_OF_PLACE = 4, /* or repeated, or missing from the file */
    WRONG_VERSION = 5,
    WRONG_EXPECTATION = 6,
    TOKEN_MISSING_OR_SURPLUS = 7,
    TOKEN_MISSPELT = 8,
    WRONG_WIDTH = 9,
    NUMBER_TOO_LARGE = 10,
    OVER_A_SIZE = 11, /* long name, too many declarations or lines */
    NAME_TAKEN = 12,  /* reserved or declared before */
    NOT_DECLARED = 13,
    UNKNOWN_OPERATOR = 14,
    WRONG_TYPE = 15,
    NO_SOLUTION_WORD = 16,
    NOT_SATISFIABLE = 17,
    VALUE_DOES_NOT_FIT = 18,
    SET_TWICE = 19,
    NOT_SET = 20,
};

enum { SATISFIED = 0, VIOLATED = 1, DISREGARDED = 2, REFUSED = 100 };

/* In the document's order: those up to ITE are the ones that a `p` line may have. */
enum operator {
    AND, OR, XOR, NOT, IMPLIES, EQ, NE, ULE, UGE, ULT, UGT, SLE, SGE, SLT, SGT, ITE,
    ADD, SUB, MUL, UDIV, SDIV, UREM, SREM, SHL, ASHR, LSHR, TRUN, SEXT, ZEXT, CONC, EXTR,
    NO_OPERATOR,
};

static const uint8_t operand_counts[] = {
    [AND ... XOR] = 2, [NOT] = 1, [IMPLIES ... SGT] = 2, [ITE] = 3, [ADD ... LSHR] = 2,
    [TRUN ... ZEXT] = 1, [CONC] = 2, [EXTR] = 3,
};

enum { CONSTANT = -1, OPERANDS = 3 };

struct operand {
    uint64_t value;   /* of a constant */
    int16_t variable; /* its number, or CONSTANT */
    uint8_t width;
};

/* A `p` line has the output 1:i1, with which it means the same as a `c` line. */
struct line {
    enum operator operator;
    uint8_t kind; /* `c` or `p` */
    struct operand output;
    struct operand operands[OPERANDS];
};

struct name {
    const uint8_t *bytes;
    size_t length;
    uint32_t hash;
};

struct variable {
    struct name name;
    uint64_t value;
    uint8_t width;
    bool is_set;
};

/* The hash table is at most half full, so that a search always meets a free slot. */
enum { SLOTS = 2 * VARIABLES };

struct problem {
    uint32_t variable_count;
    uint32_t line_count;
    uint32_t set_count;
    bool has_version;
    bool has_expectation;
    bool has_solution;
    uint8_t expectation; /* its digit */
    uint16_t slots[SLOTS]; /* 0 is free, else a variable's number plus 1 */
    /* These aren't cleared for a new problem: entries behind the counts aren't looked at. */
    struct variable variables[VARIABLES];
    struct line lines[LINES];
};

/* Bytes. */

enum { LETTER = 1, DIGIT = 2, UNDERSCORE = 4, WHITE = 8, OTHER = 16 };
enum { IN_NAME = LETTER | DIGIT | UNDERSCORE, IN_LINE = IN_NAME | WHITE | OTHER };

static const uint8_t byte_class[256] = {
    ['\t'] = WHITE, [' '] = WHITE,
    ['A' ... 'Z'] = LETTER, ['a' ... 'z'] = LETTER, ['0' ... '9'] = DIGIT, ['_'] = UNDERSCORE,
    ['!' ... '/'] = OTHER, [':' ... '@'] = OTHER, ['[' ... '^'] = OTHER, ['`'] = OTHER,
    ['{' ... '~'] = OTHER,
};

static bool is_a(uint8_t byte, int class)
{
    return byte_class[byte] & class;
}

/* Tokens: a cursor holds what is left of a line. */

struct cursor {
    const uint8_t *at;
    const uint8_t *end;
};

static bool at_a(const struct cursor *line, int class)
{
    return line->at < line->end && is_a(*line->at, class);
}

/* Moves to the next token, if there is one. */
static bool find_token(struct cursor *line)
{
    while (at_a(line, WHITE))
        line->at++;
    return line->at < line->end;
}

static bool token_ends(const struct cursor *line)
{
    return line->at == line->end || is_a(*line->at, WHITE);
}

static size_t skip_token(struct cursor *line)
{
    const uint8_t *start = line->at;
    while (!token_ends(line))
        line->at++;
    return (size_t)(line->at - start);
}

static enum refusal finish(struct cursor *line)
{
    return find_token(line) ? TOKEN_MISSING_OR_SURPLUS : ACCEPTED;
}

static bool take(struct cursor *line, uint8_t byte)
{
    if (line->at == line->end || *line->at != byte)
        return false;
    line->at++;
    return true;
}

struct number {
    uint64_t value;
    bool is_too_large; /* 2^64 or more */
};

/* Takes 1 to `most` digits, at most 20. A further digit is left, and stops the caller. */
static bool take_number(struct cursor *line, int most, struct number *number)
{
    const uint8_t *at = line->at;
    uint64_t value = 0, before = 0;
    for (int left = most; left > 0 && at < line->end && is_a(*at, DIGIT); left--) {
        before = value;
        value = 10 * value + (*at++ - '0');
    }
    /* Only the 20th digit can wrap the value around, and then this doesn't lead back. */
    *number = (struct number){value, value / 10 != before};
    bool taken = at > line->at;
    line->at = at;
    return taken;
}

/* The hash is FNV-1a. */
static bool take_name(struct cursor *line, struct name *name)
{
    if (!at_a(line, LETTER))
        return false;
    const uint8_t *at = line->at;
    uint32_t hash = 2166136261u;
    while (at < line->end && is_a(*at, IN_NAME))
        hash = (hash ^ *at++) * 16777619u;
    *name = (struct name){line->at, (size_t)(at - line->at), hash};
    line->at = at;
    return true;
}

/* Reads `:iK` at the end of a token. */
static enum refusal read_type(struct cursor *line, uint8_t *width)
{
    struct number number;
    if (!take(line, ':') || !take(line, 'i'))
        return TOKEN_MISSPELT;
    const uint8_t *digits = line->at;
    if (!take_number(line, 2, &number) || !token_ends(line))
        return TOKEN_MISSPELT;
    if (*digits == '0' && line->at - digits > 1)
        return TOKEN_MISSPELT;
    *width = (uint8_t)number.value;
    return 1 <= *width && *width <= WIDTH ? ACCEPTED : WRONG_WIDTH;
}

static uint64_t mask(unsigned width)
{
    return UINT64_MAX >> (64 - width);
}

/* Operators. */

#define SPELLING(a, b, c, d) ((uint32_t)(a) << 24 | (b) << 16 | (c) << 8 | (d))

static enum operator find_operator(const uint8_t *token, size_t length)
{
    uint32_t spelling = 0;
    if (length > 4)
        return NO_OPERATOR;
    for (size_t i = 0; i < length; i++)
        spelling = spelling << 8 | token[i];
    switch (spelling) {
    case '&': return AND;
    case '|': return OR;
    case '^': return XOR;
    case '~': return NOT;
    case SPELLING(0, 0, '=', '>'): return IMPLIES;
    case '=': return EQ;
    case SPELLING(0, 0, '/', '='): return NE;
    case SPELLING(0, 'u', 'l', 'e'): return ULE;
    case SPELLING(0, 'u', 'g', 'e'): return UGE;
    case SPELLING(0, 'u', 'l', 't'): return ULT;
    case SPELLING(0, 'u', 'g', 't'): return UGT;
    case SPELLING(0, 's', 'l', 'e'): return SLE;
    case SPELLING(0, 's', 'g', 'e'): return SGE;
    case SPELLING(0, 's', 'l', 't'): return SLT;
    case SPELLING(0, 's', 'g', 't'): return SGT;
    case SPELLING(0, 'i', 't', 'e'): return ITE;
    case '+': return ADD;
    case '-': return SUB;
    case '*': return MUL;
    case SPELLING(0, 0, '/', 'u'): return UDIV;
    case SPELLING(0, 0, '/', 's'): return SDIV;
    case SPELLING(0, 0, '%', 'u'): return UREM;
    case SPELLING(0, 0, '%', 's'): return SREM;
    case SPELLING(0, 0, '<', '<'): return SHL;
    case SPELLING(0, '>', '>', 'a'): return ASHR;
    case SPELLING(0, '>', '>', 'l'): return LSHR;
    case SPELLING('t', 'r', 'u', 'n'): return TRUN;
    case SPELLING('s', 'e', 'x', 't'): return SEXT;
    case SPELLING('z', 'e', 'x', 't'): return ZEXT;
    case SPELLING('c', 'o', 'n', 'c'): return CONC;
    case SPELLING('e', 'x', 't', 'r'): return EXTR;
    default: return NO_OPERATOR;
    }
}

static bool is_bit_place(const struct operand *operand)
{
    return operand->variable == CONSTANT && operand->width == 8;
}

static bool is_typed(const struct line *line)
{
    const struct operand *operands = line->operands;
    unsigned width = line->output.width, first = operands[0].width;
    switch (line->operator) {
    case AND: case OR: case XOR: case ADD: case SUB: case MUL:
    case UDIV: case SDIV: case UREM: case SREM:
        return first == width && operands[1].width == width;
    case NOT:
        return first == width;
    case IMPLIES:
        return width == 1 && first == 1 && operands[1].width == 1;
    case EQ: case NE: case ULE: case UGE: case ULT: case UGT:
    case SLE: case SGE: case SLT: case SGT:
        return width == 1 && first == operands[1].width;
    case ITE:
        return first == 1 && operands[1].width == width && operands[2].width == width;
    case SHL: case ASHR: case LSHR:
        return first == width && operands[1].width == 8;
    case TRUN:
        return first > width;
    case SEXT: case ZEXT:
        return first < width;
    case CONC:
        return first + operands[1].width == width;
    case EXTR:
        return is_bit_place(&operands[1]) && is_bit_place(&operands[2]) &&
               operands[1].value < operands[2].value && operands[2].value <= first &&
               operands[2].value - operands[1].value == width;
    default:
        return false;
    }
}

static uint64_t sign_extend(uint64_t value, unsigned width)
{
    uint64_t top = (uint64_t)1 << (width - 1);
    return (value ^ top) - top;
}

static bool is_less_signed(uint64_t a, uint64_t b, unsigned width)
{
    return (int64_t)sign_extend(a, width) < (int64_t)sign_extend(b, width);
}

/* Rounds towards zero where the signs agree, away from zero where they differ. */
static uint64_t divide_signed(uint64_t a, uint64_t b, unsigned width)
{
    bool a_negative = a >> (width - 1), b_negative = b >> (width - 1);
    uint64_t a_size = a_negative ? -sign_extend(a, width) : a;
    uint64_t b_size = b_negative ? -sign_extend(b, width) : b;
    uint64_t quotient = a_size / b_size;
    if (a_negative == b_negative)
        return quotient;
    return -(quotient + (a_size % b_size != 0));
}

static uint64_t shift_right_signed(uint64_t a, uint64_t amount, unsigned width)
{
    int64_t extended = (int64_t)sign_extend(a, width);
    return (uint64_t)(extended >> (amount < width ? amount : 63));
}

/* The result, of which the bits below the line's width count. The divisor isn't zero. */
static uint64_t apply(const struct line *line, uint64_t a, uint64_t b, uint64_t c)
{
    unsigned width = line->operands[0].width;
    switch (line->operator) {
    case AND: return a & b;
    case OR: return a | b;
    case XOR: return a ^ b;
    case NOT: return ~a;
    case IMPLIES: return ~a | b;
    case EQ: return a == b;
    case NE: return a != b;
    case ULE: return a <= b;
    case UGE: return a >= b;
    case ULT: return a < b;
    case UGT: return a > b;
    case SLE: return !is_less_signed(b, a, width);
    case SGE: return !is_less_signed(a, b, width);
    case SLT: return is_less_signed(a, b, width);
    case SGT: return is_less_signed(b, a, width);
    case ITE: return a ? b : c;
    case ADD: return a + b;
    case SUB: return a - b;
    case MUL: return a * b;
    case UDIV: return a / b;
    case SDIV: return divide_signed(a, b, width);
    case UREM: return a % b;
    case SREM: return a - divide_signed(a, b, width) * b;
    case SHL: return b < width ? a << b : 0;
    case ASHR: return shift_right_signed(a, b, width);
    case LSHR: return b < width ? a >> b : 0;
    case SEXT: return sign_extend(a, width);
    case CONC: return a << line->operands[1].width | b;
    case EXTR: return a >> b;
    default: return a; /* TRUN and ZEXT */
    }
}

/* The constraint file. */

/* The slot of a declared name, or the free one where it would go. */
static uint16_t *find_slot(struct problem *problem, const struct name *name)
{
    for (uint32_t i = name->hash;; i++) {
        uint16_t *slot = &problem->slots[i % SLOTS];
        if (*slot == 0)
            return slot;
        const struct name *held = &problem->variables[*slot - 1].name;
        if (held->hash == name->hash && held->length == name->length &&
            memcmp(held->bytes, name->bytes, name->length) == 0)
            return slot;
    }
}

static enum refusal find_variable(struct problem *problem, const struct name *name, int16_t *number)
{
    if (name->length > NAME_BYTES)
        return OVER_A_SIZE;
    *number = (int16_t)(*find_slot(problem, name) - 1);
    return *number < 0 ? NOT_DECLARED : ACCEPTED;
}

static enum refusal declare(struct problem *problem, const struct name *name, uint8_t width)
{
    if (name->length > NAME_BYTES || problem->variable_count == VARIABLES)
        return OVER_A_SIZE;
    uint16_t *slot = find_slot(problem, name);
    if (*slot != 0 || find_operator(name->bytes, name->length) != NO_OPERATOR)
        return NAME_TAKEN;
    problem->variables[problem->variable_count] = (struct variable){.name = *name, .width = width};
    *slot = (uint16_t)++problem->variable_count;
    return ACCEPTED;
}

static enum refusal read_declarations(struct problem *problem, struct cursor *line)
{
    if (!find_token(line))
        return TOKEN_MISSING_OR_SURPLUS;
    do {
        struct name name;
        uint8_t width;
        enum refusal refusal = take_name(line, &name) ? read_type(line, &width) : TOKEN_MISSPELT;
        if (!refusal)
            refusal = declare(problem, &name, width);
        if (refusal)
            return refusal;
    } while (find_token(line));
    return ACCEPTED;
}

static enum refusal read_version(struct problem *problem, struct cursor *line)
{
    struct number major, minor;
    if (!find_token(line))
        return TOKEN_MISSING_OR_SURPLUS;
    bool spelt = take_number(line, VERSION_DIGITS, &major) && take(line, '.') &&
                 take_number(line, VERSION_DIGITS, &minor) && token_ends(line);
    if (!spelt || major.value != 1 || minor.value != 0)
        return WRONG_VERSION;
    problem->has_version = true;
    return finish(line);
}

static enum refusal read_expectation(struct problem *problem, struct cursor *line)
{
    if (!find_token(line))
        return TOKEN_MISSING_OR_SURPLUS;
    const uint8_t *token = line->at;
    if (!(take(line, '0') || take(line, '1')) || !token_ends(line))
        return WRONG_EXPECTATION;
    problem->has_expectation = true;
    problem->expectation = *token;
    return finish(line);
}

static enum refusal read_variable(struct problem *problem, struct cursor *line,
                                  struct operand *operand)
{
    struct name name;
    if (!take_name(line, &name) || !token_ends(line))
        return TOKEN_MISSPELT;
    enum refusal refusal = find_variable(problem, &name, &operand->variable);
    if (refusal)
        return refusal;
    operand->width = problem->variables[operand->variable].width;
    return ACCEPTED;
}

static enum refusal read_constant(struct cursor *line, struct operand *operand)
{
    struct number number;
    if (!take_number(line, NUMBER_DIGITS, &number))
        return TOKEN_MISSPELT;
    enum refusal refusal = read_type(line, &operand->width);
    if (refusal)
        return refusal;
    operand->variable = CONSTANT;
    operand->value = number.value & mask(operand->width);
    return number.is_too_large ? NUMBER_TOO_LARGE : ACCEPTED;
}

static enum refusal read_operand(struct problem *problem, struct cursor *line,
                                 struct operand *operand)
{
    if (!find_token(line))
        return TOKEN_MISSING_OR_SURPLUS;
    if (at_a(line, LETTER))
        return read_variable(problem, line, operand);
    return read_constant(line, operand);
}

static enum refusal read_operator(struct cursor *line, enum operator *operator)
{
    if (!find_token(line))
        return TOKEN_MISSING_OR_SURPLUS;
    const uint8_t *token = line->at;
    *operator = find_operator(token, skip_token(line));
    return *operator == NO_OPERATOR ? UNKNOWN_OPERATOR : ACCEPTED;
}

/* Reads a `c` or `p` line. With the output 1:i1 that a `p` line is given, its `&`, `|`, `^`, `~`
   and `ite` are well typed only where all operands are i1. */
static enum refusal read_application(struct problem *problem, struct cursor *line, uint8_t kind)
{
    struct line *read = &problem->lines[problem->line_count++];
    read->kind = kind;
    read->output = (struct operand){.value = 1, .variable = CONSTANT, .width = 1};
    enum refusal refusal = kind == 'c' ? read_operand(problem, line, &read->output) : ACCEPTED;
    if (!refusal)
        refusal = read_operator(line, &read->operator);
    for (int i = 0; !refusal && i < operand_counts[read->operator]; i++)
        refusal = read_operand(problem, line, &read->operands[i]);
    if (!refusal)
        refusal = finish(line);
    if (!refusal && (!is_typed(read) || (kind == 'p' && read->operator > ITE)))
        refusal = WRONG_TYPE;
    return refusal;
}

static enum refusal read_constraint_line(struct problem *problem, struct cursor *line)
{
    uint8_t kind = *line->at++;
    if (kind == '#')
        return ACCEPTED;
    if (!token_ends(line))
        return UNKNOWN_KIND;
    bool in_header = problem->line_count == 0;
    switch (kind) {
    case 'v':
        return in_header && !problem->has_version ? read_version(problem, line) : LINE_OUT_OF_PLACE;
    case 'e':
        return in_header && !problem->has_expectation ? read_expectation(problem, line)
                                                      : LINE_OUT_OF_PLACE;
    case 'd':
        return in_header ? read_declarations(problem, line) : LINE_OUT_OF_PLACE;
    case 'c': case 'p':
        return problem->line_count < LINES ? read_application(problem, line, kind) : OVER_A_SIZE;
    default:
        return UNKNOWN_KIND;
    }
}

/* The answer file. */

static bool token_is(const uint8_t *token, size_t length, const char *word)
{
    return length == strlen(word) && memcmp(token, word, length) == 0;
}

static enum refusal read_solution(struct problem *problem, struct cursor *line)
{
    if (!find_token(line))
        return TOKEN_MISSING_OR_SURPLUS;
    const uint8_t *token = line->at;
    size_t length = skip_token(line);
    if (token_is(token, length, "UNSATISFIABLE") || token_is(token, length, "UNKNOWN"))
        return NOT_SATISFIABLE;
    if (!token_is(token, length, "SATISFIABLE"))
        return NO_SOLUTION_WORD;
    problem->has_solution = true;
    return finish(line);
}

static enum refusal set(struct problem *problem, const struct name *name, uint64_t value)
{
    int16_t number;
    enum refusal refusal = find_variable(problem, name, &number);
    if (refusal)
        return refusal;
    struct variable *variable = &problem->variables[number];
    if (value > mask(variable->width))
        return VALUE_DOES_NOT_FIT;
    if (variable->is_set)
        return SET_TWICE;
    variable->value = value;
    variable->is_set = true;
    problem->set_count++;
    return ACCEPTED;
}

static enum refusal read_values(struct problem *problem, struct cursor *line)
{
    while (find_token(line)) {
        struct name name;
        struct number number;
        if (!take_name(line, &name) || !take(line, '=') ||
            !take_number(line, NUMBER_DIGITS, &number) || !token_ends(line))
            return TOKEN_MISSPELT;
        if (number.is_too_large)
            return NUMBER_TOO_LARGE;
        enum refusal refusal = set(problem, &name, number.value);
        if (refusal)
            return refusal;
    }
    return ACCEPTED;
}

static enum refusal read_answer_line(struct problem *problem, struct cursor *line)
{
    uint8_t kind = *line->at++;
    if (!token_ends(line))
        return UNKNOWN_KIND;
    switch (kind) {
    case 'c':
        return ACCEPTED;
    case 's':
        return problem->has_solution ? LINE_OUT_OF_PLACE : read_solution(problem, line);
    case 'v':
        return problem->has_solution ? read_values(problem, line) : LINE_OUT_OF_PLACE;
    default:
        return UNKNOWN_KIND;
    }
}

/* Both files. */

typedef enum refusal line_reader(struct problem *, struct cursor *);

static bool is_blank(struct cursor line)
{
    return !find_token(&line);
}

static bool is_cr_lf(const uint8_t *at, const uint8_t *file_end)
{
    return file_end - at > 1 && at[0] == '\r' && at[1] == '\n';
}

static enum refusal read_file(struct problem *problem, const uint8_t *bytes, size_t length,
                              line_reader *read_line)
{
    if (length > FILE_BYTES)
        return FILE_TOO_LONG;
    const uint8_t *start = bytes, *file_end = bytes + length;
    for (;;) {
        const uint8_t *end = start;
        while (end < file_end && is_a(*end, IN_LINE))
            end++;
        if (end < file_end && *end != '\n' && !is_cr_lf(end, file_end))
            return BYTE_NOT_ALLOWED;
        struct cursor line = {start, end};
        enum refusal refusal = is_blank(line) ? ACCEPTED : read_line(problem, &line);
        if (refusal || end == file_end)
            return refusal;
        start = end + (*end == '\r' ? 2 : 1);
    }
}

static enum refusal read_constraints(struct problem *problem, const uint8_t *bytes, size_t length)
{
    enum refusal refusal = read_file(problem, bytes, length, read_constraint_line);
    if (!refusal && !problem->has_version)
        return LINE_OUT_OF_PLACE;
    return refusal;
}

static enum refusal read_answer(struct problem *problem, const uint8_t *bytes, size_t length)
{
    enum refusal refusal = read_file(problem, bytes, length, read_answer_line);
    if (!refusal && !problem->has_solution)
        return LINE_OUT_OF_PLACE;
    if (!refusal && problem->set_count < problem->variable_count)
        return NOT_SET;
    return refusal;
}

/* The verdict. */

static uint64_t value_of(const struct problem *problem, const struct operand *operand)
{
    if (operand->variable == CONSTANT)
        return operand->value;
    return problem->variables[operand->variable].value;
}

/* Puts down the result too, 0 where there is none. */
static uint32_t line_verdict(const struct problem *problem, const struct line *line, uint64_t *result)
{
    uint64_t values[OPERANDS] = {0};
    *result = 0;
    for (int i = 0; i < operand_counts[line->operator]; i++)
        values[i] = value_of(problem, &line->operands[i]);
    if (UDIV <= line->operator && line->operator <= SREM && values[1] == 0)
        return DISREGARDED;
    *result = apply(line, values[0], values[1], values[2]) & mask(line->output.width);
    return *result == value_of(problem, &line->output) ? SATISFIED : VIOLATED;
}

static uint32_t verdict(const struct problem *problem)
{
    uint32_t worst = SATISFIED;
    for (uint32_t i = 0; i < problem->line_count && worst != DISREGARDED; i++) {
        uint64_t result;
        uint32_t next = line_verdict(problem, &problem->lines[i], &result);
        if (next > worst)
            worst = next;
    }
    return worst;
}

uint32_t plain_check(const uint8_t *constraints, size_t constraints_len,
                     const uint8_t *answer, size_t answer_len)
{
    struct problem problem;
    memset(&problem, 0, offsetof(struct problem, variables));
    enum refusal refusal = read_constraints(&problem, constraints, constraints_len);
    if (!refusal)
        refusal = read_answer(&problem, answer, answer_len);
    if (refusal)
        return REFUSED + refusal;
    return verdict(&problem);
}

/* The change of a value. */

static bool names(const struct line *line, int variable)
{
    bool found = line->output.variable == variable;
    for (int i = 0; i < operand_counts[line->operator]; i++)
        found |= line->operands[i].variable == variable;
    return found;
}

/* The byte of a verdict in a caller's table. */
static uint8_t verdict_byte(uint32_t verdict)
{
    static const uint8_t bytes[] = {[SATISFIED] = 1, [VIOLATED] = 0, [DISREGARDED] = 2};
    return bytes[verdict];
}

static uint32_t overall(const uint8_t *verdicts, size_t count)
{
    uint32_t worst = SATISFIED;
    for (size_t i = 0; i < count && worst != DISREGARDED; i++)
        if (verdicts[i] == 2)
            worst = DISREGARDED;
        else if (verdicts[i] == 0)
            worst = VIOLATED;
    return worst;
}

uint32_t plain_change(const uint8_t *constraints, size_t constraints_len, uint64_t *values,
                      uint8_t *verdicts, uint64_t *results, size_t variable, uint64_t value)
{
    struct problem problem;
    memset(&problem, 0, offsetof(struct problem, variables));
    enum refusal refusal = read_constraints(&problem, constraints, constraints_len);
    if (refusal)
        return REFUSED + refusal;
    values[variable] = value;
    for (size_t i = 0; i < problem.variable_count; i++)
        problem.variables[i].value = values[i];
    for (size_t i = 0; i < problem.line_count; i++)
        if (names(&problem.lines[i], (int)variable))
            verdicts[i] = verdict_byte(line_verdict(&problem, &problem.lines[i], &results[i]));
    return overall(verdicts, problem.line_count);
}

/* The clean spelling. Each of these puts something at a place, and gives the place behind it. */

static uint8_t *put(uint8_t *at, const void *bytes, size_t length)
{
    memcpy(at, bytes, length);
    return at + length;
}

static uint8_t *put_number(uint8_t *at, uint64_t value)
{
    uint8_t digits[NUMBER_DIGITS], *end = digits + NUMBER_DIGITS, *first = end;
    do {
        *--first = (uint8_t)('0' + value % 10);
        value /= 10;
    } while (value > 0);
    return put(at, first, (size_t)(end - first));
}

static uint8_t *put_type(uint8_t *at, unsigned width)
{
    *at++ = ':';
    *at++ = 'i';
    if (width >= 10)
        *at++ = (uint8_t)('0' + width / 10);
    *at++ = (uint8_t)('0' + width % 10);
    return at;
}

static uint8_t *put_operator(uint8_t *at, enum operator operator)
{
    static const char spellings[][5] = {
        "&", "|", "^", "~", "=>", "=", "/=", "ule", "uge", "ult", "ugt", "sle", "sge", "slt", "sgt",
        "ite", "+", "-", "*", "/u", "/s", "%u", "%s", "<<", ">>a", ">>l", "trun", "sext", "zext",
        "conc", "extr",
    };
    for (const char *next = spellings[operator]; *next; next++)
        *at++ = (uint8_t)*next;
    return at;
}

static uint8_t *put_variable(uint8_t *at, const struct variable *variable)
{
    return put(at, variable->name.bytes, variable->name.length);
}

/* With a space before it. */
static uint8_t *put_operand(uint8_t *at, const struct problem *problem,
                            const struct operand *operand)
{
    *at++ = ' ';
    if (operand->variable == CONSTANT)
        return put_type(put_number(at, operand->value), operand->width);
    return put_variable(at, &problem->variables[operand->variable]);
}

static uint8_t *put_header(uint8_t *at, const struct problem *problem)
{
    at = put(at, "v 1.0", 5);
    if (problem->has_expectation) {
        at = put(at, "\ne ", 3);
        *at++ = problem->expectation;
    }
    if (problem->variable_count > 0)
        at = put(at, "\nd", 2);
    for (uint32_t i = 0; i < problem->variable_count; i++) {
        *at++ = ' ';
        at = put_type(put_variable(at, &problem->variables[i]), problem->variables[i].width);
    }
    return at;
}

static uint8_t *put_line(uint8_t *at, const struct problem *problem, const struct line *line)
{
    *at++ = '\n';
    *at++ = line->kind;
    if (line->kind == 'c')
        at = put_operand(at, problem, &line->output);
    *at++ = ' ';
    at = put_operator(at, line->operator);
    for (int i = 0; i < operand_counts[line->operator]; i++)
        at = put_operand(at, problem, &line->operands[i]);
    return at;
}

static size_t put_clean(uint8_t *room, const struct problem *problem)
{
    uint8_t *at = put_header(room, problem);
    for (uint32_t i = 0; i < problem->line_count; i++)
        at = put_line(at, problem, &problem->lines[i]);
    return (size_t)(at - room);
}

ptrdiff_t plain_clean(const uint8_t *constraints, size_t constraints_len, uint8_t *output,
                      size_t output_len)
{
    struct problem problem;
    uint8_t spare[FILE_BYTES];
    memset(&problem, 0, offsetof(struct problem, variables));
    if (read_constraints(&problem, constraints, constraints_len) != ACCEPTED)
        return -1;
    /* A clean text is never longer than the file. */
    bool has_room = output_len >= constraints_len;
    size_t length = put_clean(has_room ? output : spare, &problem);
    if (length > output_len)
        return -1;
    if (!has_room)
        memcpy(output, spare, length);
    return (ptrdiff_t)length;
}

/* The index. */

struct index {
    uint32_t last[VARIABLES]; /* the line that was last counted or listed for each variable */
    uint32_t next[VARIABLES]; /* how many lines name it; then where the next one is listed */
};

/* Whether a line names a variable, and has not named it before. */
static bool is_first(struct index *index, int variable, uint32_t line)
{
    if (variable == CONSTANT || index->last[variable] == line)
        return false;
    index->last[variable] = line;
    return true;
}

static void count_lines(struct index *index, const struct problem *problem)
{
    for (uint32_t i = 1; i <= problem->line_count; i++) {
        const struct line *line = &problem->lines[i - 1];
        if (is_first(index, line->output.variable, i))
            index->next[line->output.variable]++;
        for (int k = 0; k < operand_counts[line->operator]; k++)
            if (is_first(index, line->operands[k].variable, i))
                index->next[line->operands[k].variable]++;
    }
}

/* Turns the counts into where the lists start, and gives the end of the last. */
static uint32_t find_starts(struct index *index, uint32_t variable_count)
{
    uint32_t end = 0;
    for (uint32_t i = 0; i < variable_count; i++) {
        uint32_t count = index->next[i];
        index->next[i] = end;
        end += count;
    }
    return end;
}

static void list_lines(struct index *index, const struct problem *problem, uint32_t *lists)
{
    memset(index->last, 0, sizeof index->last);
    for (uint32_t i = 1; i <= problem->line_count; i++) {
        const struct line *line = &problem->lines[i - 1];
        if (is_first(index, line->output.variable, i))
            lists[index->next[line->output.variable]++] = i;
        for (int k = 0; k < operand_counts[line->operator]; k++)
            if (is_first(index, line->operands[k].variable, i))
                lists[index->next[line->operands[k].variable]++] = i;
    }
}

ptrdiff_t plain_index(const uint8_t *constraints, size_t constraints_len, uint32_t *starts,
                      size_t starts_len, uint32_t *lists, size_t lists_len)
{
    struct problem problem;
    struct index index = {0};
    memset(&problem, 0, offsetof(struct problem, variables));
    if (read_constraints(&problem, constraints, constraints_len) != ACCEPTED)
        return -1;
    count_lines(&index, &problem);
    uint32_t end = find_starts(&index, problem.variable_count);
    if (starts_len <= problem.variable_count || lists_len < end)
        return -1;
    memcpy(starts, index.next, problem.variable_count * sizeof *starts);
    starts[problem.variable_count] = end;
    list_lines(&index, &problem, lists);
    return end;
}
