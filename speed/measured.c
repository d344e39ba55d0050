/* The work of the program `measured` (crates/measured/src/main.rt) in plain C: the same script in, the same sums out.
 *
 * With the argument `copying` a block's accesses that step from word to word inside memory are done by memcpy; otherwise all go one
 * by one. */
#include <stdio.h>
#include <string.h>
#include <unistd.h>

#include "port.h"

enum { LIST = 4096, MOST_RECORDS = 4096 };

struct record {
    uint32_t kind, a, b, c;
};

struct field {
    unsigned number;
    uint32_t value;
    unsigned cycles;
};

static uint16_t memory[MOST_WORDS];
static uint16_t list[LIST];

static uint32_t stir(uint32_t sum, uint32_t number)
{
    return 3 * sum + number;
}

static void print_digest(const char *name, const uint16_t *words, size_t length)
{
    uint32_t sum = 0;
    for (size_t i = 0; i < length; i++) {
        sum = stir(sum, words[i]);
    }
    printf("%s %08x\n", name, sum);
}

static void run_accesses(const struct record *script, size_t count)
{
    struct port port = new_port(memory, MOST_WORDS);
    uint32_t sum = 0;
    for (size_t i = 0; i < count; i++) {
        struct record r = script[i];
        struct answer answer = host_access(&port, (struct access){r.kind != 0, r.a, r.b, (uint16_t)r.c});
        sum = stir(sum, answer.word | answer.number << 16 | (uint32_t)answer.hollow << 24 | (uint32_t)answer.cycle << 25);
    }
    printf("answers %08x\n", sum);
    print_digest("memory", memory, MOST_WORDS);
}

/* How many of `count` words from word `first` on are in memory. */
static size_t words_inside(size_t first, size_t words, size_t count)
{
    return first >= words ? 0 : words - first < count ? words - first : count;
}

/* Number 1 or 10, or 0. */
static unsigned block_number(size_t words, size_t place, size_t count)
{
    return words > MOST_WORDS ? 1 : count > 4096 || place > LIST || count > LIST - place ? 10 : 0;
}

static unsigned block_read(struct port *p, uint16_t *to, size_t count, bool copying)
{
    unsigned hollows = 0;
    size_t done = 0, first = p->pointer / 16;
    size_t straight = copying && p->control & INCR ? words_inside(first + 1, p->words, count) : 0;
    if (straight > 0) {
        memcpy(to, p->memory + first, straight * sizeof *to);
        to[0] = p->data;
        hollows = p->hollow;
        p->pointer += 16 * (uint32_t)straight;
        fetch(p);
        done = straight;
    }
    for (; done < count; done++) {
        struct answer answer = host_access(p, (struct access){false, 2, 3, 0});
        to[done] = answer.word;
        hollows += answer.hollow;
    }
    return hollows;
}

static unsigned block_write(struct port *p, const uint16_t *from, size_t count, bool copying)
{
    unsigned empties = 0;
    size_t done = 0, first = p->pointer / 16;
    size_t straight = copying && p->control & INCW ? words_inside(first, p->words, count) : 0;
    if (straight > 0) {
        memcpy(p->memory + first, from, straight * sizeof *from);
        p->data = from[straight - 1];
        p->hollow = false;
        p->pointer += 16 * (uint32_t)straight;
        done = straight;
    }
    for (; done < count; done++) {
        struct answer answer = host_access(p, (struct access){true, 2, 3, from[done]});
        empties += answer.cycle == EMPTY;
    }
    return empties;
}

static void run_blocks(const struct record *script, size_t count, bool copying)
{
    struct port port = new_port(memory, MOST_WORDS);
    uint32_t sum = 0;
    for (size_t i = 0; i < count; i++) {
        struct record r = script[i];
        if (r.kind > 1) {
            list[r.b % LIST] = (uint16_t)r.c;
            continue;
        }
        unsigned marked = 0;
        port.pointer = r.a;
        port.control = INCR | INCW;
        if (block_number(port.words, r.b, r.c) == 0) {
            marked = r.kind == 0 ? block_read(&port, list + r.b, r.c, copying) : block_write(&port, list + r.b, r.c, copying);
        }
        sum = stir(stir(stir(sum, marked), port.pointer), port.data);
    }
    printf("answers %08x\n", sum);
    print_digest("memory", memory, MOST_WORDS);
    print_digest("list", list, LIST);
}

/* Number 1, 4, 5 or 6, or 0. */
static unsigned field_number(size_t words, uint32_t at, uint32_t size)
{
    if (words > MOST_WORDS) {
        return 1;
    }
    if (size < 1 || size > 32) {
        return 4;
    }
    uint32_t touched = (at % 16 + size + 15) / 16;
    return touched > 3 ? 5 : at / 16 + touched > words ? 6 : 0;
}

/* The touched words as one number, the first lowest. */
static uint64_t window(const uint16_t *first, unsigned touched)
{
    uint64_t bits = 0;
    for (unsigned i = 0; i < touched; i++) {
        bits |= (uint64_t)first[i] << 16 * i;
    }
    return bits;
}

static struct field take_out(const uint16_t *words, size_t length, uint32_t at, uint32_t size)
{
    struct field field = {field_number(length, at, size), 0, 0};
    if (field.number == 0) {
        field.cycles = (at % 16 + size + 15) / 16;
        field.value = (uint32_t)(window(words + at / 16, field.cycles) >> at % 16 & ((1ull << size) - 1));
    }
    return field;
}

/* The value is the signed number's, modulo 2^32. */
static struct field take_out_signed(const uint16_t *words, size_t length, uint32_t at, uint32_t size)
{
    struct field field = take_out(words, length, at, size);
    if (field.number == 0) {
        field.value = (uint32_t)((int32_t)(field.value << (32 - size)) >> (32 - size));
    }
    return field;
}

static struct field put_in(uint16_t *words, size_t length, uint32_t at, uint32_t size, uint32_t value)
{
    struct field field = {field_number(length, at, size), 0, 0};
    if (field.number != 0) {
        return field;
    }
    unsigned from = at % 16, touched = (from + size + 15) / 16;
    uint16_t *first = words + at / 16;
    uint64_t mask = ((1ull << size) - 1) << from;
    uint64_t bits = (uint64_t)value << from;
    for (unsigned i = 0; i < touched; i++) {
        uint16_t covered = (uint16_t)(mask >> 16 * i);
        first[i] = (uint16_t)((first[i] & ~covered) | (bits >> 16 * i & covered));
        field.cycles += covered == 0xffff ? 1 : 2;
    }
    return field;
}

static uint32_t stir_field(uint32_t sum, unsigned number, uint32_t value, unsigned cycles)
{
    return number == 0 ? stir(stir(sum, value), cycles) : stir(sum, number);
}

static void run_fields(const struct record *script, size_t count)
{
    uint32_t sum = 0;
    for (size_t i = 0; i < count; i++) {
        struct record r = script[i];
        if (r.kind == 0) {
            struct field field = take_out(memory, MOST_WORDS, r.a, r.b);
            sum = stir_field(sum, field.number, field.value, field.cycles);
        } else if (r.kind == 1) {
            struct field field = take_out_signed(memory, MOST_WORDS, r.a, r.b);
            int32_t value = (int32_t)field.value;
            sum = stir_field(sum, field.number, (uint32_t)(value < 0 ? -1 - value : value), field.cycles);
        } else {
            struct field field = put_in(memory, MOST_WORDS, r.a, r.b, r.c);
            sum = stir_field(sum, field.number, 0, field.cycles);
        }
    }
    printf("answers %08x\n", sum);
    print_digest("memory", memory, MOST_WORDS);
}

int main(int words, char **word)
{
    static struct record input[MOST_RECORDS];
    bool copying = words > 1 && strcmp(word[1], "copying") == 0;
    size_t length = 0;
    ssize_t got;
    while ((got = read(0, (char *)input + length, sizeof input - length)) > 0) {
        length += (size_t)got;
    }
    if (length < sizeof *input) {
        return 0;
    }
    size_t count = length / sizeof *input - 1;
    switch (input[0].kind) {
    case 0: run_accesses(input + 1, count); break;
    case 1: run_blocks(input + 1, count, copying); break;
    case 2: run_fields(input + 1, count); break;
    }
    return 0;
}
