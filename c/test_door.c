/*
 * The C door compared with a model in plain C, call by call: the answer, the image, the memory and the bytes around both.
 *
 * Calls come in runs on one image and memory, so that what a call leaves is what the next one meets. Each call is held against
 * wrong models too, until every one of them was caught: that shows that the comparison can fail. Then accesses of whole words are
 * compared with the same done as two byte accesses, and at last reads are made of a memory that can't be written.
 */
#include <stdbool.h>
#include <stdio.h>
#include <stdlib.h>
#include <string.h>

#include "host_port.h"
#include "lent.h"
#include "model.h"
#include "tally.h"

enum { CALLS = 250000, LONGEST_RUN = 30, WORDS_BY_BYTES = 50000, READS_OF_A_CONSTANT = 5000 };

static struct lent doors, models, before, wrong;
static unsigned long caught_at[LIES]; /* the call that caught a wrong model, counted from 1 */
static int lies_left = LIES - 1;

static uint64_t call_door(struct lent *lent, struct access access)
{
    uint8_t *image = image_of(lent), *memory = memory_of(lent);
    if (access.write) {
        return host_port_write(image, lent->image_length, memory, lent->memory_length, access.reg, access.lanes, access.word);
    }
    return host_port_read(image, lent->image_length, memory, lent->memory_length, access.reg, access.lanes);
}

static struct answer call_model(struct lent *lent, struct access access, enum lie lie)
{
    return model_access(image_of(lent), lent->image_length, memory_of(lent), lent->memory_length, access, lie);
}

static bool same_answer(uint64_t packed, struct answer answer)
{
    bool same_marks = host_port_hollow(packed) == answer.hollow && host_port_cycle(packed) == answer.cycle;
    bool kept_bits_clear = packed >> 27 == 0;
    return host_port_number(packed) == answer.number && host_port_word(packed) == answer.word && same_marks && kept_bits_clear;
}

/* `room` says how much of the memory's room: as far as a call reaches, or all of it when a run ends. */
static bool same_bytes(const struct lent *one, const struct lent *other, size_t room)
{
    return memcmp(one->image_room, other->image_room, IMAGE_ROOM) == 0 && memcmp(one->memory_room, other->memory_room, room) == 0;
}

static void copy_lent(struct lent *to, const struct lent *from, size_t room)
{
    to->image_length = from->image_length;
    to->memory_length = from->memory_length;
    memcpy(to->image_room, from->image_room, IMAGE_ROOM);
    memcpy(to->memory_room, from->memory_room, room);
}

static void fail(const char *what, unsigned long call, const struct lent *lent, struct access access)
{
    printf("FAILED at %lu: %s\n", call, what);
    printf("  %s register %lu, lanes %lu, word %04Xh; image %lu bytes, memory %lu bytes\n", access.write ? "write" : "read",
           (unsigned long)access.reg, (unsigned long)access.lanes, (unsigned)access.word, (unsigned long)lent->image_length,
           (unsigned long)lent->memory_length);
    exit(EXIT_FAILURE);
}

/* `before` has what the call was lent, `doors` what the door left of it. */
static void hold_against_lies(unsigned long call, struct access access, uint64_t packed)
{
    for (int lie = TRUTH + 1; lie < LIES; lie++) {
        if (caught_at[lie] != 0) {
            continue;
        }
        copy_lent(&wrong, &before, reach(&before));
        struct answer told = call_model(&wrong, access, (enum lie)lie);
        if (!same_answer(packed, told) || !same_bytes(&wrong, &doors, reach(&doors))) {
            caught_at[lie] = call;
            lies_left--;
        }
    }
}

static void compare_call(unsigned long call)
{
    struct access access = some_access(&doors);
    if (lies_left > 0) {
        copy_lent(&before, &doors, reach(&doors));
    }
    struct answer answer = call_model(&models, access, TRUTH);
    tally(&doors, access, answer);
    uint64_t packed = call_door(&doors, access);
    if (!same_answer(packed, answer)) {
        fail("the answer differs from the model's", call, &doors, access);
    }
    if (!same_bytes(&doors, &models, reach(&doors))) {
        fail("the image or the memory differs from the model's", call, &doors, access);
    }
    if (lies_left > 0) {
        hold_against_lies(call, access, packed);
    }
}

static void compare_calls(void)
{
    unsigned long call = 0;
    scatter(&doors);
    copy_lent(&models, &doors, MEMORY_ROOM);
    while (call < CALLS) {
        lay_out(&doors);
        copy_lent(&models, &doors, reach(&doors));
        for (uint32_t left = 1 + chance(LONGEST_RUN); left > 0 && call < CALLS; left--) {
            compare_call(++call);
        }
        if (!same_bytes(&doors, &models, MEMORY_ROOM)) {
            fail("a byte far from the lent memory was changed", call, &doors, (struct access){0});
        }
    }
}

/* Both bytes of a word access, one after the other. The parts of their answers that aren't 0 are the same or lie apart, so that
 * put together they make the word's answer. */
static uint64_t call_by_bytes(struct lent *lent, struct access access, uint32_t first_lane, bool *first_is_idle)
{
    access.lanes = first_lane;
    uint64_t first = call_door(lent, access);
    *first_is_idle = host_port_cycle(first) == HOST_PORT_CYCLE_NONE;
    access.lanes = HOST_PORT_BOTH - first_lane;
    return first | call_door(lent, access);
}

/* "Sixteen-bit accesses done as byte accesses end alike", if the closing byte comes last; else they mostly don't, and that
 * must show. Returns how often it did. */
static unsigned long compare_words_with_bytes(void)
{
    unsigned long other_order_shows = 0;
    for (unsigned long i = 1; i <= WORDS_BY_BYTES; i++) {
        bool idle, unused;
        lay_out(&doors);
        size_t room = reach(&doors);
        copy_lent(&models, &doors, room);
        copy_lent(&wrong, &doors, room);
        struct access access = some_access(&doors);
        access.lanes = HOST_PORT_BOTH;
        uint32_t first_lane = control_bit_of(&doors, 13) ? HOST_PORT_HIGH : HOST_PORT_LOW;
        uint64_t whole = call_door(&doors, access);
        uint64_t joined = call_by_bytes(&models, access, first_lane, &idle);
        if (whole != joined || !idle || !same_bytes(&doors, &models, room)) {
            fail("a word access and its two byte accesses end differently", i, &doors, access);
        }
        uint64_t swapped = call_by_bytes(&wrong, access, HOST_PORT_BOTH - first_lane, &unused);
        other_order_shows += whole != swapped || !same_bytes(&doors, &wrong, room);
    }
    return other_order_shows;
}

/* The model has a copy of the memory; the door has the constant itself, and one that wrote to it would end the program here.
 * Returns how many reads fetched a word of it. */
static unsigned long compare_reads_of_a_constant(void)
{
    static const uint8_t table[] = {0x10, 0x00, 0xa4, 0x00, 0x38, 0x01, 0x20, 0x02, 0x31, 0x03};
    unsigned long fetched = 0;
    for (unsigned long i = 1; i <= READS_OF_A_CONSTANT; i++) {
        lay_out(&doors);
        doors.memory_length = sizeof table;
        memcpy(memory_of(&doors), table, sizeof table);
        copy_lent(&models, &doors, reach(&doors));
        struct access access = some_access(&doors);
        access.write = false;
        struct answer answer = call_model(&models, access, TRUTH);
        uint64_t packed = host_port_read(image_of(&doors), doors.image_length, table, sizeof table, access.reg, access.lanes);
        if (!same_answer(packed, answer) || !same_bytes(&doors, &models, reach(&doors))) {
            fail("a read of a constant differs from the model's", i, &doors, access);
        }
        fetched += answer.cycle == INSIDE;
    }
    return fetched;
}

static bool every_lie_was_caught(void)
{
    unsigned long last = 0;
    for (int lie = TRUTH + 1; lie < LIES; lie++) {
        if (caught_at[lie] == 0) {
            printf("FAILED: wrong model %d was never caught\n", lie);
        }
        last = caught_at[lie] > last ? caught_at[lie] : last;
    }
    printf("%d of %d wrong models caught, the last by call %lu\n", LIES - 1 - lies_left, LIES - 1, last);
    return lies_left == 0;
}

int main(void)
{
    compare_calls();
    printf("%d calls of the door compared with the model, none differs; met were\n", CALLS);
    bool full = tally_is_full();
    bool caught = every_lie_was_caught();
    unsigned long shows = compare_words_with_bytes();
    printf("%d word accesses done as two byte accesses ended alike; the wrong order of bytes showed in %lu\n", WORDS_BY_BYTES, shows);
    unsigned long fetched = compare_reads_of_a_constant();
    printf("%d reads of a memory that can't be written ended as in the model; %lu fetched a word of it\n", READS_OF_A_CONSTANT, fetched);
    return full && caught && shows > 0 && fetched > 0 ? EXIT_SUCCESS : EXIT_FAILURE;
}
