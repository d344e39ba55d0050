/* The choices are weighted: most calls are accepted and happen near an end of the memory, where mistakes would show.
 * No expression here makes two of them in an order that C leaves open: the calls would differ from compiler to compiler. */
#include "lent.h"

#include <stdbool.h>

#include "host_port.h"

/* Marsaglia's xorshift with 64 bits; its upper half is the better one. */
static uint32_t any(void)
{
    static uint64_t state = 34010;
    state ^= state << 13;
    state ^= state >> 7;
    state ^= state << 17;
    return (uint32_t)(state >> 32);
}

uint32_t chance(uint32_t limit)
{
    return (uint32_t)((uint64_t)any() * limit >> 32);
}

static bool one_in(uint32_t times)
{
    return chance(times) == 0;
}

static void scatter_bytes(uint8_t *bytes, size_t length)
{
    for (size_t i = 0; i < length; i++) {
        bytes[i] = (uint8_t)any();
    }
}

void scatter(struct lent *lent)
{
    scatter_bytes(lent->image_room, sizeof lent->image_room);
    scatter_bytes(lent->memory_room, sizeof lent->memory_room);
}

static size_t some_memory_length(void)
{
    static const size_t edges[] = {0, 0, 65536, 65536, 65537, 65538, 65538, 65539};
    if (one_in(8)) {
        return edges[chance(8)];
    }
    size_t odd = one_in(24);
    return 2 * (1 + chance(24)) + odd;
}

/* Beside any number at all: the words about the end of memory, inside memory, and the top of the pointer's range. */
static uint32_t some_pointer(const struct lent *lent)
{
    uint32_t words = (uint32_t)(lent->memory_length / 2), low_bits = one_in(2) ? chance(16) : 0;
    switch (chance(8)) {
    case 0: return any();
    case 1: return 0u - 16 * (1 + chance(2)) + low_bits;
    case 2:
    case 3:
    case 4: return 16 * (words + 1 - chance(4)) + low_bits;
    default: return 16 * chance(words + 1) + low_bits;
    }
}

static void lay_image(struct lent *lent)
{
    uint8_t *image = image_of(lent);
    scatter_bytes(lent->image_room, sizeof lent->image_room);
    if (one_in(16)) {
        host_port_reset(image);
        return;
    }
    uint32_t pointer = some_pointer(lent);
    for (int i = 0; i < 4; i++) {
        image[i] = (uint8_t)(pointer >> 8 * i);
    }
    image[7] = one_in(24) ? image[7] | 4 : image[7] & 0xfb;
    image[8] = one_in(24) ? image[8] | 2 : image[8] % 2;
}

void lay_out(struct lent *lent)
{
    enum { END = 2 * GUARD };
    lent->image_length = one_in(24) ? chance(17) : HOST_PORT_IMAGE_BYTES;
    lent->memory_length = some_memory_length();
    lay_image(lent);
    scatter_bytes(lent->memory_room, END);
    scatter_bytes(lent->memory_room + reach(lent) - END, END);
}

/* Some of the numbers that are refused would name a register or lanes if they were cut to a byte or to 16 bits. */
static uint32_t some_register(void)
{
    static const uint32_t refused[] = {4, 5, 255, 256, 258, 65538, 0x80000002, 0xffffffff};
    if (one_in(16)) {
        return refused[chance(8)];
    }
    return one_in(2) ? HOST_PORT_HSTDATA : chance(4);
}

static uint32_t some_lanes(void)
{
    static const uint32_t refused[] = {0, 4, 7, 257, 258, 259, 65539, 0xffffffff};
    return one_in(16) ? refused[chance(8)] : 1 + chance(3);
}

struct access some_access(const struct lent *lent)
{
    struct access access;
    access.write = one_in(2);
    access.reg = some_register();
    access.lanes = some_lanes();
    access.word = (uint16_t)any();
    if (access.reg == HOST_PORT_HSTADRL) {
        access.word = (uint16_t)some_pointer(lent);
    }
    if (access.reg == HOST_PORT_HSTADRH) {
        access.word = (uint16_t)(some_pointer(lent) >> 16);
    }
    return access;
}
