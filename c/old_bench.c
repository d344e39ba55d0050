/*
 * The old bench: a tuner's table of strokes, read through the host port over a bus of eight bits.
 *
 * The table ends with the last word of memory. The chip fetches ahead, so reading the last stroke sends it past the end; the
 * stroke is handed out all the same, held, and only the read after it is hollow.
 */
#include <stdbool.h>
#include <stdint.h>
#include <stdio.h>
#include <stdlib.h>

#include "host_port.h"

/* The tick of each stroke of 3:16, one word each: three hours, a quarter, a minute. */
static const uint16_t ticks[] = {0x0010, 0x00a4, 0x0138, 0x0220, 0x0331};
enum { STROKES = sizeof ticks / sizeof ticks[0] };

static uint8_t image[HOST_PORT_IMAGE_BYTES];
static uint8_t memory[HOST_PORT_MEMORY_BYTES];

/* The bench asks for nothing that is refused, so a refusal means that this program is wrong. */
static uint64_t accepted(uint64_t answer)
{
    if (host_port_number(answer) != HOST_PORT_DONE) {
        printf("refused with number %u\n", host_port_number(answer));
        exit(EXIT_FAILURE);
    }
    return answer;
}

static uint64_t read_byte(uint32_t reg, uint32_t lane)
{
    return accepted(host_port_read(image, sizeof image, memory, sizeof memory, reg, lane));
}

static void write_byte(uint32_t reg, uint32_t lane, uint16_t word)
{
    accepted(host_port_write(image, sizeof image, memory, sizeof memory, reg, lane, word));
}

/* The closing byte goes last: the high one with LBL 0, the low one with LBL 1. */
static uint32_t first_lane(bool lbl)
{
    return lbl ? HOST_PORT_HIGH : HOST_PORT_LOW;
}

static uint32_t closing_lane(bool lbl)
{
    return lbl ? HOST_PORT_LOW : HOST_PORT_HIGH;
}

static void write_word(bool lbl, uint32_t reg, uint16_t word)
{
    write_byte(reg, first_lane(lbl), word);
    write_byte(reg, closing_lane(lbl), word);
}

/* The half that goes last makes the port fetch the first word: HSTADRH with LBL 0, HSTADRL with LBL 1. */
static void load_pointer(bool lbl, uint32_t bit_address)
{
    uint16_t low = (uint16_t)bit_address;
    uint16_t high = (uint16_t)(bit_address >> 16);
    if (lbl) {
        write_word(lbl, HOST_PORT_HSTADRH, high);
        write_word(lbl, HOST_PORT_HSTADRL, low);
    } else {
        write_word(lbl, HOST_PORT_HSTADRL, low);
        write_word(lbl, HOST_PORT_HSTADRH, high);
    }
}

/* One word of HSTDATA by its two bytes, and how it was: each byte has its own answer, and an unselected byte is 0 there. */
static void print_next_word(bool lbl)
{
    uint64_t first = read_byte(HOST_PORT_HSTDATA, first_lane(lbl));
    uint64_t closing = read_byte(HOST_PORT_HSTDATA, closing_lane(lbl));
    bool hollow = host_port_hollow(first) || host_port_hollow(closing);
    bool inside = host_port_cycle(closing) == HOST_PORT_CYCLE_INSIDE;
    printf("%04Xh %s, fetch ahead %s\n", (unsigned)(host_port_word(first) | host_port_word(closing)),
           hollow ? "hollow" : "held", inside ? "inside" : "empty");
}

static void lay_table(uint32_t first_word)
{
    for (uint32_t i = 0; i < STROKES; i++) {
        memory[2 * (first_word + i)] = (uint8_t)ticks[i];
        memory[2 * (first_word + i) + 1] = (uint8_t)(ticks[i] >> 8);
    }
}

/* The chip wakes with LBL 0, and writing HSTCTL starts no cycle, so its high byte alone is enough. */
static void read_table(bool lbl, uint32_t first_word)
{
    host_port_reset(image);
    write_byte(HOST_PORT_HSTCTL, HOST_PORT_HIGH, HOST_PORT_INCR | (lbl ? HOST_PORT_LBL : 0));
    load_pointer(lbl, 16 * first_word);
    for (int i = 1; i <= STROKES; i++) {
        printf("stroke %d: ", i);
        print_next_word(lbl);
    }
    printf("after the last: ");
    print_next_word(lbl);
}

int main(void)
{
    uint32_t first_word = HOST_PORT_MEMORY_WORDS - STROKES;
    lay_table(first_word);
    printf("LBL 0, low byte first\n");
    read_table(false, first_word);
    printf("LBL 1, high byte first\n");
    read_table(true, first_word);
    return EXIT_SUCCESS;
}
