/* What a call is lent, chosen at random from a fixed seed, so that every run makes the same calls. */
#ifndef LENT_H
#define LENT_H

#include <stddef.h>
#include <stdint.h>

#include "model.h"

/* Image and memory stand each in a room of their own, with bytes before and after that no call may change. */
enum {
    GUARD = 16,
    IMAGE_ROOM = GUARD + 16 + GUARD,
    MEMORY_ROOM = GUARD + 65540 + GUARD
};

struct lent {
    size_t image_length;
    size_t memory_length;
    uint8_t image_room[IMAGE_ROOM];
    uint8_t memory_room[MEMORY_ROOM];
};

static inline uint8_t *image_of(struct lent *lent)
{
    return lent->image_room + GUARD;
}

static inline uint8_t *memory_of(struct lent *lent)
{
    return lent->memory_room + GUARD;
}

static inline uint32_t pointer_of(struct lent *lent)
{
    const uint8_t *image = image_of(lent);
    return image[0] | (uint32_t)image[1] << 8 | (uint32_t)image[2] << 16 | (uint32_t)image[3] << 24;
}

/* A bit of HSTCTL. */
static inline unsigned control_bit_of(struct lent *lent, unsigned place)
{
    return image_of(lent)[6 + place / 8] >> place % 8 & 1;
}

/* How much of the memory's room a call is held to: the lent memory and its guards. */
static inline size_t reach(const struct lent *lent)
{
    return GUARD + lent->memory_length + GUARD;
}

/* A number below `limit`. */
uint32_t chance(uint32_t limit);

/* Fresh bytes in both rooms. */
void scatter(struct lent *lent);

/* Fresh lengths, a fresh image, and fresh bytes at both ends of the lent memory; now and then what is refused. */
void lay_out(struct lent *lent);

/* An access, with the numbers that are refused among the others. */
struct access some_access(const struct lent *lent);

#endif
