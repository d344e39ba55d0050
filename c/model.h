/* One access by the host on a register image and memory bytes: what document 01 says, in plain C.
 * Each function says a sentence of document 01, quoted above it, and nothing here comes from the door's own code: so the door has
 * something to be compared with. */
#ifndef MODEL_H
#define MODEL_H

#include <stdbool.h>
#include <stddef.h>
#include <stdint.h>

/* An access, with any numbers. The word is that of a write. */
struct access {
    bool write;
    uint32_t reg;
    uint32_t lanes;
    uint16_t word;
};

enum cycle { NONE, INSIDE, EMPTY };

struct answer {
    unsigned number;
    uint16_t word;
    bool hollow;
    enum cycle cycle;
};

/* A wrong model tells one of these lies and is right in all else. A test that can't tell it from the door is no test. */
enum lie {
    TRUTH,
    STEPS_BEFORE_STORE,
    FETCHES_BEFORE_ANSWER,
    FIRST_BYTE_STARTS_CYCLE,
    STORE_KEEPS_HOLLOW,
    EMPTY_STORE_DOES_NOT_STEP,
    READ_AFTER_WRITE_GOES_TO_MEMORY,
    LAST_WORD_REFUSED,
    LAST_WORD_HOLLOW,
    LOADING_STEPS,
    LOADING_ENDS_WITH_EITHER_HALF,
    POINTER_STOPS_AT_THE_TOP,
    STEP_DROPS_LOW_BITS,
    BIT_ADDRESS_TAKEN_FOR_WORD_NUMBER,
    EMPTY_FETCH_KEEPS_WORD,
    EMPTY_STORE_FALLS_BEHIND_MEMORY,
    TENTH_BYTE_OF_IMAGE_WRITTEN,
    HIGH_BYTE_FIRST,
    UNSELECTED_BYTE_SHOWN,
    UNSELECTED_BYTE_WRITTEN,
    ANY_READ_SHOWS_HOLLOW,
    HOST_CLEARS_INTIN,
    HOST_SETS_INTOUT,
    BIT_10_WRITTEN,
    REFUSAL_CHANGES_IMAGE,
    FULL_MEMORY_REFUSED,
    LONG_IMAGE_TAKEN,
    HOLLOW_BYTE_2_TAKEN,
    BIT_10_TAKEN,
    ODD_MEMORY_TAKEN,
    MEMORY_JUDGED_FIRST,
    LANES_JUDGED_FIRST,
    NUMBERS_CUT_TO_BYTES,
    LIES
};

struct answer model_access(uint8_t *image, size_t image_length, uint8_t *memory, size_t memory_length,
                           struct access access, enum lie lie);

#endif
