/*
 * byhand: answers the same scripts as `ranges`. Written by hand from the documents
 * (CATALOGUES, SHEET, REFUSALS, SCRIPTS and DECISIONS), to be measured beside it.
 *
 *     clang -O2 -frounding-math [-DTUNED] -o byhand byhand.c -lm
 *     ./byhand < SCRIPT
 *
 * Binary32 is added by the hardware, in floats, with its rounding mode set as
 * the question asks. Everything else is done on ranks.
 *
 * Plain, it is what a careful user would write: every mode of a set in turn, and
 * bisection with both ends tested first. With -DTUNED it is sharper: only the
 * mode that gives the least or the greatest result, with down as a mirrored up,
 * so that the hardware seldom changes its mode; searches in strides that double
 * from the near end; and a narrowing inlined for each operation.
 */
#include <fenv.h>
#include <stdbool.h>
#include <stddef.h>
#include <stdint.h>
#include <string.h>
#include <unistd.h>

#ifndef TUNED
#define TUNED 0
#endif

#if TUNED
#define INLINED static inline __attribute__((always_inline))
#else
#define INLINED static
#endif

enum { REGISTERS = 32, PLACES = 64, LARGEST_BUDGET = 65535, LARGEST_INPUT = 65536 };

enum { NEAREST = 1, UP = 2, DOWN = 4, TOWARD_ZERO = 8, ALL_MODES = 15 };

enum board { COUNTER, BINARY32 };

/* The refusals, by their numbers. No script can meet 4, a kind above 2. */
enum { ACCEPTED = 0, NO_REGISTER = 1, NO_READING = 2, LOW_ABOVE_HIGH = 3, NO_MODE_SET = 5,
       PLACE_TAKEN = 6, NO_PLACE = 7, NO_BUDGET = 8, SHEET_VOID = 9, UNREADABLE = 10 };

/* A range holds its two ends and all ranks between; low is at most high. */
struct range {
    int32_t low, high;
};

static inline int32_t larger(int32_t a, int32_t b) { return a > b ? a : b; }
static inline int32_t smaller(int32_t a, int32_t b) { return a < b ? a : b; }

static inline struct range mirrored(struct range r)
{
    return (struct range){-r.high, -r.low};
}

/* -------------------------------------------------- patterns and ranks --- */

static const struct range readings[] = {
    [COUNTER] = {0, 0x00FFFFFF},
    [BINARY32] = {-0x7F7FFFFF, 0x7F7FFFFF},
};

/* The rank of a binary32 pattern. Both zeros have rank 0, and the infinities
   have the ranks just outside the readings, which the rules call beyond. */
static inline int32_t rank_of_bits(uint32_t bits)
{
    int32_t magnitude = (int32_t)(bits & 0x7FFFFFFF);
    return bits >> 31 ? -magnitude : magnitude;
}

static inline uint32_t bits_of_rank(int32_t rank)
{
    return rank < 0 ? 0x80000000 | (uint32_t)-rank : (uint32_t)rank;
}

/* False if the pattern is no reading. */
static bool read_pattern(enum board board, uint32_t pattern, int32_t *rank)
{
    uint32_t size = board == COUNTER ? pattern : pattern & 0x7FFFFFFF;
    if (size > (uint32_t)readings[board].high)
        return false;
    *rank = board == COUNTER ? (int32_t)pattern : rank_of_bits(pattern);
    return true;
}

/* --------------------------------------------------- hardware addition --- */

/* The mode that the hardware is in. To set it is slow, so that is only done
   where it changes. */
static int mode_now = FE_TONEAREST;

/* Adds two readings under a mode. Compilers do not know that an addition
   depends on the mode, and might move it to the other side of an fesetround;
   the two empty asms, which stay where they are, hold it in between. */
static inline int32_t add(int mode, int32_t a, int32_t b)
{
    uint32_t a_bits = bits_of_rank(a), b_bits = bits_of_rank(b), sum_bits;
    float a_value, b_value, sum;

    if (mode_now != mode) {
        fesetround(mode);
        mode_now = mode;
    }
    __asm__ volatile("" : "+r"(a_bits), "+r"(b_bits));
    memcpy(&a_value, &a_bits, sizeof a_value);
    memcpy(&b_value, &b_bits, sizeof b_value);
    sum = a_value + b_value;
    memcpy(&sum_bits, &sum, sizeof sum_bits);
    __asm__ volatile("" : "+r"(sum_bits));
    return rank_of_bits(sum_bits);
}

/* The results of a sum under every mode of a set: from the least to the greatest. */
static struct range sum_in_each_mode(unsigned modes, int32_t x, int32_t y)
{
    static const struct { unsigned mode; int hardware; } all[] = {
        {NEAREST, FE_TONEAREST}, {UP, FE_UPWARD}, {DOWN, FE_DOWNWARD}, {TOWARD_ZERO, FE_TOWARDZERO},
    };
    struct range results = {INT32_MAX, INT32_MIN};

    for (int i = 0; i < 4; i++) {
        if (modes & all[i].mode) {
            int32_t sum = add(all[i].hardware, x, y);
            results = (struct range){smaller(results.low, sum), larger(results.high, sum)};
        }
    }
    return results;
}

/* The greatest sum is that of up if the set has it, else of nearest, else of
   down. Toward zero is up where the exact sum is below zero, which is where x is
   below -y, and down elsewhere. */
static inline int32_t tuned_greatest_sum(unsigned modes, int32_t x, int32_t y)
{
    if ((modes & UP) || ((modes & TOWARD_ZERO) && x < -y))
        return add(FE_UPWARD, x, y);
    return modes & NEAREST ? add(FE_TONEAREST, x, y) : -add(FE_UPWARD, -x, -y);
}

/* The least sum is the greatest one seen from the other side. */
static inline int32_t tuned_least_sum(unsigned modes, int32_t x, int32_t y)
{
    if ((modes & DOWN) || ((modes & TOWARD_ZERO) && x >= -y))
        return -add(FE_UPWARD, -x, -y);
    return modes & NEAREST ? add(FE_TONEAREST, x, y) : add(FE_UPWARD, x, y);
}

/* ------------------------------------------------------------- results --- */

/* What a line does with x and y. A difference is the sum with -y: in binary32
   by its rule, and in the counter as its sum here stops at both ends. Each of
   the three treats x and y alike and grows with both. */
enum operation { COUNTER_SUM, BINARY32_SUM, PEAK };

static inline int32_t counter_sum(int32_t x, int32_t y)
{
    return larger(smaller(x + y, readings[COUNTER].high), readings[COUNTER].low);
}

INLINED int32_t greatest_result(enum operation op, unsigned modes, int32_t x, int32_t y)
{
    if (op == COUNTER_SUM)
        return counter_sum(x, y);
    if (op == PEAK)
        return larger(x, y);
    return TUNED ? tuned_greatest_sum(modes, x, y) : sum_in_each_mode(modes, x, y).high;
}

INLINED int32_t least_result(enum operation op, unsigned modes, int32_t x, int32_t y)
{
    if (op == COUNTER_SUM)
        return counter_sum(x, y);
    if (op == PEAK)
        return larger(x, y);
    return TUNED ? tuned_least_sum(modes, x, y) : sum_in_each_mode(modes, x, y).low;
}

/* ----------------------------------------------------------- narrowing --- */

/* The lowest rank of a range whose greatest result with `other` is `bound` or
   more. The caller has tested the high end, which is such a rank; the low end is
   tested here. */
INLINED int32_t risen_low(enum operation op, unsigned modes, struct range given,
                          int32_t other, int32_t bound)
{
    int64_t low = given.low, high = given.high;

    if (greatest_result(op, modes, given.low, other) >= bound)
        return given.low;
    for (int64_t stride = 1; TUNED && low + stride < high; stride *= 2) {
        if (greatest_result(op, modes, (int32_t)(low + stride), other) >= bound)
            high = low + stride; /* which ends the strides */
        else
            low += stride;
    }
    while (high - low > 1) { /* low is too low, high is not */
        int64_t middle = low + (high - low) / 2;
        if (greatest_result(op, modes, (int32_t)middle, other) >= bound)
            high = middle;
        else
            low = middle;
    }
    return (int32_t)high;
}

/* The highest rank of a range whose least result with `other` is `bound` or
   less. The caller has tested the low end. */
INLINED int32_t fallen_high(enum operation op, unsigned modes, struct range given,
                            int32_t other, int32_t bound)
{
    int64_t low = given.low, high = given.high;

    if (least_result(op, modes, given.high, other) <= bound)
        return given.high;
    for (int64_t stride = 1; TUNED && high - stride > low; stride *= 2) {
        if (least_result(op, modes, (int32_t)(high - stride), other) <= bound)
            low = high - stride;
        else
            high -= stride;
    }
    while (high - low > 1) { /* high is too high, low is not */
        int64_t middle = low + (high - low) / 2;
        if (least_result(op, modes, (int32_t)middle, other) <= bound)
            low = middle;
        else
            high = middle;
    }
    return (int32_t)low;
}

/* Narrows three ranges, or answers false for none. All greatest results come
   before the least ones, as the two may need different modes. */
INLINED bool narrow(enum operation op, unsigned modes,
                    struct range *x, struct range *y, struct range *z)
{
    int32_t top = greatest_result(op, modes, x->high, y->high);
    if (top < z->low)
        return false;
    int32_t x_low = risen_low(op, modes, *x, y->high, z->low);
    int32_t y_low = risen_low(op, modes, *y, x->high, z->low);

    int32_t bottom = least_result(op, modes, x->low, y->low);
    if (bottom > z->high)
        return false;
    int32_t x_high = fallen_high(op, modes, *x, y->low, z->high);
    int32_t y_high = fallen_high(op, modes, *y, x->low, z->high);

    if (x_low > x_high || y_low > y_high)
        return false;
    *x = (struct range){x_low, x_high};
    *y = (struct range){y_low, y_high};
    *z = (struct range){larger(z->low, bottom), smaller(z->high, top)}; /* never empty here */
    return true;
}

/* ----------------------------------------------------------- the sheet --- */

struct line {
    uint8_t operation; /* an enum operation */
    bool negated;      /* a difference: y is negated first */
    uint8_t modes;
    uint8_t x, y, z; /* registers */
};

/* A set of places has bit n for place n. */
struct sheet {
    enum board board;
    bool is_void;
    uint64_t standing;          /* the places that hold a line */
    uint64_t due;               /* those whose line is due; none while void */
    uint64_t naming[REGISTERS]; /* those whose line names the register */
    struct range limits[REGISTERS];
    struct range shown[REGISTERS]; /* without meaning while void */
    struct line lines[PLACES];
};

static void become_void(struct sheet *s)
{
    s->is_void = true;
    s->due = 0;
}

static void return_to_limits(struct sheet *s)
{
    s->is_void = false;
    memcpy(s->shown, s->limits, sizeof s->shown);
    s->due = s->standing;
}

/* For a sheet that is all zero. */
static void new_sheet(struct sheet *s, enum board board)
{
    s->board = board;
    for (int r = 0; r < REGISTERS; r++)
        s->limits[r] = readings[board];
    return_to_limits(s);
}

/* Cuts the shown range of a register; a change makes the lines that name it
   due. Answers false, and does nothing, if no rank is left. */
static inline bool cut(struct sheet *s, unsigned r, struct range to)
{
    struct range old = s->shown[r];
    struct range new = {larger(old.low, to.low), smaller(old.high, to.high)};

    if (new.low > new.high)
        return false;
    if (new.low != old.low || new.high != old.high) {
        s->shown[r] = new;
        s->due |= s->naming[r];
    }
    return true;
}

static inline bool has_line(const struct sheet *s, uint32_t place)
{
    return place < PLACES && (s->standing >> place & 1);
}

/* The calls answer ACCEPTED or the number of a refusal. */

static int limit(struct sheet *s, uint32_t r, uint32_t low, uint32_t high)
{
    struct range new;

    if (r >= REGISTERS)
        return NO_REGISTER;
    if (!read_pattern(s->board, low, &new.low) || !read_pattern(s->board, high, &new.high))
        return NO_READING;
    if (new.low > new.high)
        return LOW_ABOVE_HIGH;

    struct range old = s->limits[r];
    s->limits[r] = new;
    if (new.low < old.low || new.high > old.high)
        return_to_limits(s);
    else if (!s->is_void && !cut(s, r, new))
        become_void(s);
    return ACCEPTED;
}

static int enter(struct sheet *s, uint32_t place, uint32_t kind, uint32_t modes,
                 uint32_t x, uint32_t y, uint32_t z)
{
    if (modes < 1 || modes > ALL_MODES)
        return NO_MODE_SET;
    if (x >= REGISTERS || y >= REGISTERS || z >= REGISTERS)
        return NO_REGISTER;
    if (place >= PLACES)
        return NO_PLACE;
    if (has_line(s, place))
        return PLACE_TAKEN;

    enum operation sum = s->board == COUNTER ? COUNTER_SUM : BINARY32_SUM;
    s->lines[place] = (struct line){
        .operation = (uint8_t)(kind == 'p' ? PEAK : sum),
        .negated = kind == 'd',
        .modes = (uint8_t)modes,
        .x = (uint8_t)x, .y = (uint8_t)y, .z = (uint8_t)z,
    };
    uint64_t bit = UINT64_C(1) << place;
    s->standing |= bit;
    s->naming[x] |= bit;
    s->naming[y] |= bit;
    s->naming[z] |= bit;
    if (!s->is_void)
        s->due |= bit;
    return ACCEPTED;
}

static int strike(struct sheet *s, uint32_t place)
{
    if (!has_line(s, place))
        return NO_PLACE;
    const struct line *line = &s->lines[place];
    uint64_t bit = UINT64_C(1) << place;
    s->standing &= ~bit;
    s->naming[line->x] &= ~bit;
    s->naming[line->y] &= ~bit;
    s->naming[line->z] &= ~bit;
    return_to_limits(s);
    return ACCEPTED;
}

/* Takes the line that is due at the lowest place, and narrows it once. */
static void step(struct sheet *s)
{
    const struct line *line = &s->lines[__builtin_ctzll(s->due)];
    struct range x = s->shown[line->x], y = s->shown[line->y], z = s->shown[line->z];
    bool some;

    s->due &= s->due - 1;
    if (line->negated)
        y = mirrored(y);
    switch (line->operation) {
    case COUNTER_SUM: some = narrow(COUNTER_SUM, line->modes, &x, &y, &z); break;
    case BINARY32_SUM: some = narrow(BINARY32_SUM, line->modes, &x, &y, &z); break;
    default: some = narrow(PEAK, line->modes, &x, &y, &z); break;
    }
    if (line->negated)
        y = mirrored(y);

    /* The new ranges lie inside the old ones, so that cutting a register twice
       leaves what its two results have in common. */
    if (!some || !cut(s, line->x, x) || !cut(s, line->y, y) || !cut(s, line->z, z))
        become_void(s);
}

static int settle(struct sheet *s, uint32_t budget, uint32_t *steps)
{
    if (budget < 1 || budget > LARGEST_BUDGET)
        return NO_BUDGET;
    for (*steps = 0; s->due && *steps < budget; ++*steps)
        step(s);
    return ACCEPTED;
}

static int look(const struct sheet *s, uint32_t r, struct range *shown)
{
    if (s->is_void)
        return SHEET_VOID;
    if (r >= REGISTERS)
        return NO_REGISTER;
    *shown = s->shown[r];
    return ACCEPTED;
}

/* Tries the modes in the order of their numbers, and under each takes the lowest
   y. A difference falls as y grows; its lowest y is the highest -y. */
static int partner(const struct sheet *s, uint32_t place, uint32_t x_pattern,
                   uint32_t z_pattern, bool *found, int32_t *y)
{
    int32_t x, z;

    if (!has_line(s, place))
        return NO_PLACE;
    if (!read_pattern(s->board, x_pattern, &x) || !read_pattern(s->board, z_pattern, &z))
        return NO_READING;
    if (s->is_void)
        return SHEET_VOID;

    const struct line *line = &s->lines[place];
    enum operation op = line->operation;
    unsigned modes = op == BINARY32_SUM ? line->modes : NEAREST; /* others are alike */
    struct range in = line->negated ? mirrored(s->shown[line->y]) : s->shown[line->y];

    *found = false;
    for (unsigned mode = NEAREST; mode <= TOWARD_ZERO && !*found; mode *= 2) {
        if (!(modes & mode) || greatest_result(op, mode, in.high, x) < z
            || least_result(op, mode, in.low, x) > z)
            continue;
        int32_t r = line->negated ? fallen_high(op, mode, in, x, z) : risen_low(op, mode, in, x, z);
        *found = greatest_result(op, mode, r, x) == z;
        *y = line->negated ? -r : r;
    }
    return ACCEPTED;
}

/* --------------------------------------------------------------- words --- */

/* Each reads a word of its form and gives the place behind it, or NULL. A line
   feed, which fits in no word, stands behind every line. */

static const unsigned char *number_word(const unsigned char *at, uint32_t *number)
{
    const unsigned char *first = at;
    for (*number = 0; at - first < 5 && *at >= '0' && *at <= '9'; at++)
        *number = *number * 10 + (*at - '0');
    return at - first == 1 || (at - first > 1 && *first != '0') ? at : NULL;
}

static const unsigned char *pattern_word(const unsigned char *at, uint32_t *pattern)
{
    *pattern = 0;
    for (int i = 0; i < 8; i++, at++) {
        if (*at >= '0' && *at <= '9')
            *pattern = *pattern << 4 | (*at - '0');
        else if (*at >= 'A' && *at <= 'F')
            *pattern = *pattern << 4 | (*at - 'A' + 10);
        else
            return NULL;
    }
    return at;
}

static const unsigned char *kind_word(const unsigned char *at, uint32_t *kind)
{
    *kind = *at;
    return *at == 's' || *at == 'd' || *at == 'p' ? at + 1 : NULL;
}

/* Reads the words behind a command's letter; `forms` has n for a number, p for
   a pattern, k for a kind. False if the rest of the line is not of this form. */
static bool read_words(const unsigned char *at, const char *forms, uint32_t *words)
{
    for (; *forms; forms++, words++) {
        if (*at++ != ' ')
            return false;
        switch (*forms) {
        case 'n': at = number_word(at, words); break;
        case 'p': at = pattern_word(at, words); break;
        default: at = kind_word(at, words); break;
        }
        if (!at)
            return false;
    }
    return *at == '\n';
}

/* ------------------------------------------------------------- answers --- */

/* Each writes at `out` and gives the place behind what it wrote. */

static char *put_text(char *out, const char *text)
{
    size_t length = strlen(text);
    memcpy(out, text, length);
    return out + length;
}

static char *put_number(char *out, uint32_t number)
{
    char digits[10];
    int count = 0;
    do
        digits[count++] = (char)('0' + number % 10);
    while (number /= 10);
    while (count > 0)
        *out++ = digits[--count];
    return out;
}

static char *put_rank(char *out, enum board board, int32_t rank)
{
    uint32_t pattern = board == COUNTER ? (uint32_t)rank : bits_of_rank(rank);
    for (int shift = 28; shift >= 0; shift -= 4)
        *out++ = "0123456789ABCDEF"[pattern >> shift & 15];
    return out;
}

/* What a command gives beside the sheet: the steps of a settle, the range of a
   look, and the partner, if one was found. */
struct reply {
    uint32_t steps;
    struct range shown;
    bool found;
    int32_t y;
};

/* Reads the command in a line and carries it out; answers as the calls do. */
static int carry_out(struct sheet *s, const unsigned char *line, struct reply *reply)
{
    const unsigned char *rest = line + 1;
    uint32_t w[6];

    switch (*line) {
    case 'L': return read_words(rest, "npp", w) ? limit(s, w[0], w[1], w[2]) : UNREADABLE;
    case 'E':
        return read_words(rest, "nknnnn", w) ? enter(s, w[0], w[1], w[2], w[3], w[4], w[5])
                                             : UNREADABLE;
    case 'K': return read_words(rest, "n", w) ? strike(s, w[0]) : UNREADABLE;
    case 'S': return read_words(rest, "n", w) ? settle(s, w[0], &reply->steps) : UNREADABLE;
    case 'R': return read_words(rest, "n", w) ? look(s, w[0], &reply->shown) : UNREADABLE;
    case 'P':
        return read_words(rest, "npp", w) ? partner(s, w[0], w[1], w[2], &reply->found, &reply->y)
                                          : UNREADABLE;
    default: return UNREADABLE;
    }
}

/* Writes what a command with this letter gave, on the sheet that it left. */
static char *put_reply(char *out, const struct sheet *s, unsigned char letter,
                       const struct reply *reply)
{
    switch (letter) {
    case 'S':
        out = put_text(out, s->is_void ? "void " : s->due ? "stopped " : "settled ");
        return put_number(out, reply->steps);
    case 'R':
        out = put_rank(out, s->board, reply->shown.low);
        out = put_rank(put_text(out, " "), s->board, reply->shown.high);
        return put_text(out, s->due ? " open" : " settled");
    case 'P': return reply->found ? put_rank(out, s->board, reply->y) : put_text(out, "none");
    default: return put_text(out, "ok");
    }
}

/* Reads the command in a line, carries it out and writes the answer. */
static char *answer(struct sheet *s, const unsigned char *line, char *out)
{
    struct reply reply = {0};
    int refusal = carry_out(s, line, &reply);

    if (refusal != ACCEPTED)
        out = put_number(put_text(out, "no "), (uint32_t)refusal);
    else
        out = put_reply(out, s, *line, &reply);
    return put_text(out, "\n");
}

/* --------------------------------------------------------- the program --- */

/* One byte more than is allowed, to see that there are more, and one for a line
   feed behind a last line without. */
static unsigned char input[LARGEST_INPUT + 2];

/* No answer is longer, for its line, than that of `R 0`: 26 bytes for 4. The
   last line may do without its line feed. */
static char output[(LARGEST_INPUT + 1) / 4 * 26 + 26];

static struct sheet sheet;

/* Writes the answers to the input, of so many bytes, and gives their end. */
static char *answer_input(size_t size, char *out)
{
    const unsigned char *at = input, *end = input + size;

    if (size > LARGEST_INPUT)
        return put_text(out, "no 10\n");
    if (size == 0 || end[-1] != '\n') {
        input[size] = '\n';
        end++;
    }
    if ((at[0] != 'B' && at[0] != 'C') || at[1] != '\n')
        return put_text(out, "no 10\n");
    new_sheet(&sheet, at[0] == 'B' ? BINARY32 : COUNTER);
    for (at += 2; at < end; at = (const unsigned char *)memchr(at, '\n', (size_t)(end - at)) + 1)
        out = answer(&sheet, at, out);
    return out;
}

int main(void)
{
    size_t size = 0;
    ssize_t count;

    while (size <= LARGEST_INPUT
           && (count = read(STDIN_FILENO, input + size, LARGEST_INPUT + 1 - size)) != 0) {
        if (count < 0)
            return 1;
        size += (size_t)count;
    }

    const char *from = output, *end = answer_input(size, output);
    for (; from < end; from += count) {
        if ((count = write(STDOUT_FILENO, from, (size_t)(end - from))) < 0)
            return 1;
    }
    return 0;
}
