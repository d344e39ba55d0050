#include "tally.h"

#include <stdio.h>

/* The reasons for a refusal, one bit each. Every reason is to be met alone, and every two together, for their order. */
enum {
    IMAGE_LENGTH = 1,
    HOLLOW_OVER_1 = 2,
    BIT_10_SET = 4,
    ODD_MEMORY = 8,
    MEMORY_TOO_LONG = 16,
    NO_REGISTER = 32,
    NO_LANES = 64,
    REASONS = 128
};

enum edge {
    NO_MEMORY,
    FULL_MEMORY,
    HALF_A_WORD_TOO_LONG,
    LAST_WORD_HANDED_OUT,
    READ_AFTER_THE_LAST,
    READ_WRAPS,
    STORE_WRAPS,
    LOW_POINTER_BITS,
    FRESH_FROM_RESET,
    REGISTER_OVER_A_BYTE,
    LANES_OVER_A_BYTE,
    EDGES
};

static const unsigned numbers[] = {0, 1, 2, 3, 11};
enum { NUMBERS = sizeof numbers / sizeof numbers[0] };

static unsigned long by_number[NUMBERS];
static unsigned long by_reasons[REASONS];
static unsigned long by_access[2][4][3][2]; /* write, register, lanes less 1, LBL */
static unsigned long by_cycle[3][2][2][2];  /* loading, read or store; empty; step; hollow at entry */
static unsigned long by_edge[EDGES];

static unsigned reasons_of(struct lent *lent, struct access access)
{
    unsigned reasons = 0;
    if (lent->image_length != 9) {
        reasons |= IMAGE_LENGTH;
    } else {
        reasons |= image_of(lent)[8] > 1 ? HOLLOW_OVER_1 : 0;
        reasons |= control_bit_of(lent, 10) ? BIT_10_SET : 0;
    }
    reasons |= lent->memory_length % 2 ? ODD_MEMORY : 0;
    reasons |= lent->memory_length / 2 > 32768 ? MEMORY_TOO_LONG : 0;
    reasons |= access.reg > 3 ? NO_REGISTER : 0;
    reasons |= access.lanes < 1 || access.lanes > 3 ? NO_LANES : 0;
    return reasons;
}

static void tally_cycle(struct lent *lent, struct access access, struct answer answer)
{
    int source = access.reg != 2 ? 0 : access.write ? 2 : 1;
    unsigned step = control_bit_of(lent, access.write && access.reg == 2 ? 11 : 12);
    uint32_t pointer = pointer_of(lent), word = pointer / 16;
    bool hollow = image_of(lent)[8] == 1, steps = step && source != 0;
    by_cycle[source][answer.cycle == EMPTY][step][hollow]++;
    by_edge[READ_WRAPS] += steps && source == 1 && pointer >= 0xfffffff0;
    by_edge[STORE_WRAPS] += steps && source == 2 && pointer >= 0xfffffff0;
    by_edge[LOW_POINTER_BITS] += steps && pointer % 16 != 0;
    by_edge[LAST_WORD_HANDED_OUT] += steps && source == 1 && !hollow && word + 1 == lent->memory_length / 2;
    by_edge[READ_AFTER_THE_LAST] += steps && source == 1 && hollow && word == lent->memory_length / 2;
}

static bool is_fresh_from_reset(struct lent *lent)
{
    const uint8_t *image = image_of(lent);
    bool zeros = pointer_of(lent) == 0 && image[4] == 0 && image[5] == 0 && image[6] == 0;
    return zeros && image[7] == 0x80 && image[8] == 1;
}

void tally(struct lent *lent, struct access access, struct answer answer)
{
    unsigned reasons = reasons_of(lent, access);
    by_reasons[reasons]++;
    for (int i = 0; i < NUMBERS; i++) {
        by_number[i] += numbers[i] == answer.number;
    }
    by_edge[HALF_A_WORD_TOO_LONG] += reasons == ODD_MEMORY && lent->memory_length == 65537;
    by_edge[REGISTER_OVER_A_BYTE] += reasons == NO_REGISTER && access.reg % 256 < 4;
    by_edge[LANES_OVER_A_BYTE] += reasons == NO_LANES && access.lanes % 256 >= 1 && access.lanes % 256 <= 3;
    if (reasons != 0) {
        return;
    }
    by_access[access.write][access.reg][access.lanes - 1][control_bit_of(lent, 13)]++;
    by_edge[NO_MEMORY] += lent->memory_length == 0 && answer.cycle == EMPTY;
    by_edge[FULL_MEMORY] += lent->memory_length == 65536 && answer.cycle == INSIDE;
    by_edge[FRESH_FROM_RESET] += is_fresh_from_reset(lent);
    if (answer.cycle != NONE) {
        tally_cycle(lent, access, answer);
    }
}

/* An image of another length has no hollow byte or bit 10 to speak of. */
static bool is_wanted(unsigned reasons)
{
    if (reasons & IMAGE_LENGTH && reasons & (HOLLOW_OVER_1 | BIT_10_SET)) {
        return false;
    }
    unsigned without_lowest = reasons & (reasons - 1);
    return reasons != 0 && (without_lowest & (without_lowest - 1)) == 0;
}

static bool show(const char *name, const unsigned long *counts, unsigned length, bool (*wanted)(unsigned))
{
    unsigned kinds = 0, rarest = 0;
    for (unsigned i = 0; i < length; i++) {
        if (wanted == NULL || wanted(i)) {
            rarest = kinds == 0 || counts[i] < counts[rarest] ? i : rarest;
            kinds++;
        }
    }
    printf("  %u %s, each %lu times or more\n", kinds, name, counts[rarest]);
    if (counts[rarest] == 0) {
        printf("FAILED: place %u of these was never met\n", rarest);
    }
    return counts[rarest] != 0;
}

static bool show_numbers(void)
{
    bool all = true;
    for (int i = 0; i < NUMBERS; i++) {
        printf("%s number %u %lu times", i == 0 ? " " : ",", numbers[i], by_number[i]);
        all = all && by_number[i] != 0;
    }
    printf("\n");
    return all;
}

bool tally_is_full(void)
{
    bool answers = show_numbers();
    bool refusals = show("reasons for a refusal, alone and in pairs", by_reasons, REASONS, is_wanted);
    bool accesses = show("kinds of access by register, lanes and LBL", &by_access[0][0][0][0], 2 * 4 * 3 * 2, NULL);
    bool cycles = show("kinds of cycle by cause, end, step and mark", &by_cycle[0][0][0][0], 3 * 2 * 2 * 2, NULL);
    bool edges = show("edges", by_edge, EDGES, NULL);
    return answers && refusals && accesses && cycles && edges;
}
