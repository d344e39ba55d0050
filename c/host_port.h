/*
 * The host port of the TMS34010 for programs in C (from C99 on) and C++ on x86-64: one access by the host, on numbers and lent bytes.
 *
 *     cc program.c -Idist dist/libhost_port.a
 *
 * WHAT IS LENT
 *
 * The image, nine bytes, is the register record. The caller keeps it from one call to the next:
 *
 *     0-3   the pointer, low byte first: HSTADRL is its low half, HSTADRH its high half
 *     4-5   HSTDATA, low byte first
 *     6-7   HSTCTL, low byte first; bit 10 is 0
 *     8     the hollow mark, 0 or 1: set by reset and by a fetch that missed memory, cleared by a fetch inside memory and by
 *           the write of HSTDATA that ends its word
 *
 * After reset every byte is 0 but for HLT (HSTCTL is 8000h) and the mark, which is 1: host_port_reset makes it.
 *
 * The memory is two bytes a word, low byte first, at most 32,768 words. The pointer counts bits: its word is pointer / 16.
 * No memory at all is allowed; every cycle is then empty.
 *
 * THE CALLER'S DUTIES
 *
 * Any numbers and any bytes may be passed: what is not done is refused by number. But C hands over bare pointers, and of
 * those nothing can be judged. So, for as long as a call lasts:
 *
 * - image and memory are each a range of so many bytes that can be read and written; for a read, a memory that can only be
 *   read will do;
 * - the two ranges share no byte;
 * - no one else reads or writes them: one caller at a time for an image, and for a memory;
 * - a pointer is valid and not NULL even where its length is 0: any object of the program will do.
 *
 * The port keeps nothing of its own between two calls. A word wider than 16 bits is cut to its low 16 by C, before the call.
 */
#ifndef HOST_PORT_H
#define HOST_PORT_H

#include <stddef.h>
#include <stdint.h>

#ifdef __cplusplus
extern "C" {
#endif

/* The size of an image, and that of the largest memory. */
enum {
    HOST_PORT_IMAGE_BYTES = 9,
    HOST_PORT_MEMORY_BYTES = 65536,
    HOST_PORT_MEMORY_WORDS = 32768
};

/* Registers. */
enum {
    HOST_PORT_HSTADRL = 0, /* low half of the pointer */
    HOST_PORT_HSTADRH = 1, /* high half of the pointer */
    HOST_PORT_HSTDATA = 2,
    HOST_PORT_HSTCTL = 3
};

/* Lanes. An unselected byte is ignored in a write and 0 in an answer. */
enum {
    HOST_PORT_LOW = 1,
    HOST_PORT_HIGH = 2,
    HOST_PORT_BOTH = 3
};

/* The bits of HSTCTL. With LBL 0 a word done by bytes ends with its high byte, and loading the pointer with HSTADRH; with
 * LBL 1 the word ends with its low byte, and the loading with HSTADRL. A memory cycle is started by the byte that ends a word of
 * HSTDATA, read or written, and by the byte that ends the loading, when it is written; by nothing else. */
enum {
    HOST_PORT_MSGIN = 0x0007,
    HOST_PORT_INTIN = 0x0008,
    HOST_PORT_MSGOUT = 0x0070,
    HOST_PORT_INTOUT = 0x0080,
    HOST_PORT_NMI = 0x0100,
    HOST_PORT_NMIM = 0x0200,
    HOST_PORT_INCW = 0x0800, /* the pointer gains 16 after a store */
    HOST_PORT_INCR = 0x1000, /* the pointer gains 16 before the fetch that follows a read of HSTDATA */
    HOST_PORT_LBL = 0x2000,
    HOST_PORT_CF = 0x4000,
    HOST_PORT_HLT = 0x8000
};

/* The number of an answer. Where several apply it is 11, else the lowest. */
enum {
    HOST_PORT_DONE = 0,
    HOST_PORT_MEMORY_TOO_LONG = 1, /* over 32,768 words */
    HOST_PORT_NO_SUCH_REGISTER = 2,
    HOST_PORT_NO_SUCH_LANES = 3,
    HOST_PORT_MISFIT = 11 /* image not nine bytes, hollow byte over 1, bit 10 of HSTCTL set, or odd memory length */
};

/* The memory cycle of an access. */
enum {
    HOST_PORT_CYCLE_NONE = 0,
    HOST_PORT_CYCLE_INSIDE = 1, /* at a word of the memory */
    HOST_PORT_CYCLE_EMPTY = 2   /* beyond it: a fetch left FFFFh and the hollow mark, a store was dropped */
};

/*
 * One read, and one write. The packed answer:
 *
 *     bits 0-15   the word; 0 for a write
 *     bits 16-23  the number
 *     bit 24      the hollow mark that HSTDATA had when the call began; 0 but for reads of HSTDATA
 *     bits 25-26  the cycle
 *
 * All other bits are 0; 32-59 are kept for a word number. A refusal is its number and zeros, and changes no byte. A read
 * changes no byte of the memory, and a write at most the two of the word that it stores.
 * Take it apart with the functions below, so that a program needn't change when the kept bits come into use.
 */
uint64_t host_port_read(uint8_t *image, size_t image_length, const uint8_t *memory, size_t memory_length, uint32_t reg,
                        uint32_t lanes);
uint64_t host_port_write(uint8_t *image, size_t image_length, uint8_t *memory, size_t memory_length, uint32_t reg,
                         uint32_t lanes, uint16_t word);

static inline uint16_t host_port_word(uint64_t answer)
{
    return (uint16_t)(answer & 0xffff);
}

static inline unsigned host_port_number(uint64_t answer)
{
    return (unsigned)(answer >> 16 & 0xff);
}

/* 1: hollow. 0: held, or not a read of HSTDATA. */
static inline unsigned host_port_hollow(uint64_t answer)
{
    return (unsigned)(answer >> 24 & 1);
}

static inline unsigned host_port_cycle(uint64_t answer)
{
    return (unsigned)(answer >> 25 & 3);
}

/* The image as reset leaves it, in nine bytes of the caller's. */
static inline void host_port_reset(uint8_t *image)
{
    for (int i = 0; i < HOST_PORT_IMAGE_BYTES; i++) {
        image[i] = 0;
    }
    image[7] = HOST_PORT_HLT >> 8;
    image[8] = 1;
}

#ifdef __cplusplus
}
#endif

#endif
