/* The host port in plain C, on a memory of 16-bit words: what speed/run counts the proved code beside. Document 01, "The four host
 * registers" and "Numbers returned". Its functions are static, so that they are compiled together with their callers. */
#ifndef SPEED_PORT_H
#define SPEED_PORT_H

#include <stdbool.h>
#include <stddef.h>
#include <stdint.h>

enum { MOST_WORDS = 32768 };
enum { INCW = 0x0800, INCR = 0x1000, LBL = 0x2000, HLT = 0x8000 };
enum cycle { NONE, INSIDE, EMPTY };

struct port {
    uint32_t pointer;
    uint16_t data;
    uint16_t control;
    bool hollow;
    uint16_t *memory;
    size_t words;
};

struct access {
    bool write;
    uint32_t reg;
    uint32_t lanes;
    uint16_t word;
};

struct answer {
    unsigned number;
    uint16_t word;
    bool hollow;
    enum cycle cycle;
};

/* As reset leaves it. */
static struct port new_port(uint16_t *memory, size_t words)
{
    return (struct port){.control = HLT, .hollow = true, .memory = memory, .words = words};
}

static enum cycle fetch(struct port *p)
{
    uint32_t word = p->pointer / 16;
    p->hollow = word >= p->words;
    p->data = p->hollow ? 0xffff : p->memory[word];
    return p->hollow ? EMPTY : INSIDE;
}

static enum cycle store(struct port *p)
{
    uint32_t word = p->pointer / 16;
    bool inside = word < p->words;
    if (inside) {
        p->memory[word] = p->data;
    }
    p->hollow = false;
    if (p->control & INCW) {
        p->pointer += 16;
    }
    return inside ? INSIDE : EMPTY;
}

static struct answer read_register(struct port *p, uint32_t reg, uint16_t bits, bool closes)
{
    struct answer answer = {0, 0, false, NONE};
    switch (reg) {
    case 0: answer.word = p->pointer & bits; break;
    case 1: answer.word = p->pointer >> 16 & bits; break;
    case 2:
        answer.word = p->data & bits;
        answer.hollow = p->hollow;
        if (closes) {
            if (p->control & INCR) {
                p->pointer += 16;
            }
            answer.cycle = fetch(p);
        }
        break;
    default: answer.word = p->control & bits & 0xfbff; break;
    }
    return answer;
}

static uint16_t control_after(uint16_t old, uint16_t word, uint16_t bits)
{
    uint16_t low = (word & 0x07) | ((old | word) & 0x08) | (old & 0x70) | (old & word & 0x80);
    uint16_t written = low | (word & 0xfb00);
    return (old & ~bits) | (written & bits);
}

static enum cycle write_register(struct port *p, uint32_t reg, uint16_t word, uint16_t bits, bool closes)
{
    uint32_t last_half = p->control & LBL ? 0 : 1;
    switch (reg) {
    case 0:
    case 1:
        p->pointer = (p->pointer & ~((uint32_t)bits << 16 * reg)) | (uint32_t)(word & bits) << 16 * reg;
        return closes && reg == last_half ? fetch(p) : NONE;
    case 2:
        p->data = (p->data & ~bits) | (word & bits);
        return closes ? store(p) : NONE;
    default: p->control = control_after(p->control, word, bits); return NONE;
    }
}

static struct answer host_access(struct port *p, struct access a)
{
    struct answer answer = {0, 0, false, NONE};
    answer.number = p->words > MOST_WORDS ? 1 : a.reg > 3 ? 2 : a.lanes < 1 || a.lanes > 3 ? 3 : 0;
    if (answer.number != 0) {
        return answer;
    }
    uint16_t bits = (a.lanes & 1 ? 0x00ff : 0) | (a.lanes & 2 ? 0xff00 : 0);
    bool closes = (a.lanes & (p->control & LBL ? 1 : 2)) != 0;
    if (!a.write) {
        return read_register(p, a.reg, bits, closes);
    }
    answer.cycle = write_register(p, a.reg, a.word, bits, closes);
    return answer;
}

#endif
