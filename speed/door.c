/* door DOOR-MODEL-OR-NOTHING KIND COUNT: makes so many calls of one kind, for speed/run to count their instructions, and prints a sum of
 * what they answer and of the image that they leave. */
#include <stdint.h>
#include <stdio.h>
#include <stdlib.h>

#include "host_port.h"
/* Compiled together with this file, as the door's parts are compiled together. */
#define WITHOUT_LIES
#include "../c/model.c"

typedef uint64_t reading(uint8_t *image, size_t image_length, const uint8_t *memory, size_t memory_length, uint32_t reg,
                         uint32_t lanes);
typedef uint64_t writing(uint8_t *image, size_t image_length, uint8_t *memory, size_t memory_length, uint32_t reg,
                         uint32_t lanes, uint16_t word);

static uint64_t pack(struct answer answer)
{
    return answer.word | (uint64_t)answer.number << 16 | (uint64_t)answer.hollow << 24 | (uint64_t)answer.cycle << 25;
}

/* The model has one function for both kinds of access, so its memory is one that can be written; a read writes nothing there. */
static uint64_t model_read(uint8_t *image, size_t image_length, const uint8_t *memory, size_t memory_length, uint32_t reg,
                           uint32_t lanes)
{
    struct access access = {false, reg, lanes, 0};
    return pack(model_access(image, image_length, (uint8_t *)memory, memory_length, access, TRUTH));
}

static uint64_t model_write(uint8_t *image, size_t image_length, uint8_t *memory, size_t memory_length, uint32_t reg,
                            uint32_t lanes, uint16_t word)
{
    return pack(model_access(image, image_length, memory, memory_length, (struct access){true, reg, lanes, word}, TRUTH));
}

/* What the loop costs by itself. */
static uint64_t nothing_read(uint8_t *image, size_t image_length, const uint8_t *memory, size_t memory_length, uint32_t reg,
                             uint32_t lanes)
{
    (void)image, (void)image_length, (void)memory, (void)memory_length, (void)reg, (void)lanes;
    return 0;
}

static uint64_t nothing_write(uint8_t *image, size_t image_length, uint8_t *memory, size_t memory_length, uint32_t reg,
                              uint32_t lanes, uint16_t word)
{
    (void)image, (void)image_length, (void)memory, (void)memory_length, (void)reg, (void)lanes, (void)word;
    return 0;
}

int main(int count, char **words)
{
    static uint8_t memory[HOST_PORT_MEMORY_BYTES];
    /* Volatile, so that every call is made as by a caller who doesn't know what is called. */
    reading *volatile reads[] = {host_port_read, model_read, nothing_read};
    writing *volatile writes[] = {host_port_write, model_write, nothing_write};
    uint8_t image[HOST_PORT_IMAGE_BYTES];
    if (count != 4) {
        return EXIT_FAILURE;
    }
    int who = words[1][0] == 'd' ? 0 : words[1][0] == 'm' ? 1 : 2;
    uint32_t lanes = words[2][1] == 'b' ? HOST_PORT_LOW : HOST_PORT_BOTH;
    for (size_t i = 0; i < sizeof memory; i++) {
        memory[i] = (uint8_t)(i * 7);
    }
    host_port_reset(image);
    image[7] = (HOST_PORT_INCR | HOST_PORT_INCW) >> 8;
    uint64_t sum = 0;
    for (int left = atoi(words[3]); left > 0; left--) {
        if (words[2][0] == 'r') {
            sum = 3 * sum + reads[who](image, sizeof image, memory, sizeof memory, HOST_PORT_HSTDATA, lanes);
        } else {
            sum = 3 * sum + writes[who](image, sizeof image, memory, sizeof memory, HOST_PORT_HSTDATA, lanes, 0x1234);
        }
    }
    for (int i = 0; i < HOST_PORT_IMAGE_BYTES; i++) {
        sum = 3 * sum + image[i];
    }
    printf("%016lx\n", (unsigned long)sum);
    return EXIT_SUCCESS;
}
