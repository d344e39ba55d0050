/* Document 01, "The four host registers" and "Numbers returned". Sentences in quotation marks are its own. */
#include "model.h"

/* The register record, the memory, and the lie that is told, if any. */
struct machine {
    uint32_t pointer;
    uint16_t data;
    uint16_t control;
    bool hollow;
    uint8_t *memory;
    size_t words;
    enum lie lie;
};

/* WITHOUT_LIES leaves the tests for lies out, to count the instructions of an honest call. */
static bool tells(enum lie told, enum lie lie)
{
#ifdef WITHOUT_LIES
    (void)told, (void)lie;
    return false;
#else
    return told == lie;
#endif
}

static bool control_bit(const struct machine *m, unsigned place)
{
    return (m->control >> place & 1) != 0;
}

/* "pointer (4, low first), HSTDATA (2), HSTCTL (2), hollow 0 or 1" */
static void load_image(struct machine *m, const uint8_t *image)
{
    m->pointer = image[0] | (uint32_t)image[1] << 8 | (uint32_t)image[2] << 16 | (uint32_t)image[3] << 24;
    m->data = (uint16_t)(image[4] | image[5] << 8);
    m->control = (uint16_t)(image[6] | image[7] << 8);
    m->hollow = image[8] == 1;
}

static void save_image(const struct machine *m, uint8_t *image)
{
    image[0] = (uint8_t)m->pointer;
    image[1] = (uint8_t)(m->pointer >> 8);
    image[2] = (uint8_t)(m->pointer >> 16);
    image[3] = (uint8_t)(m->pointer >> 24);
    image[4] = (uint8_t)m->data;
    image[5] = (uint8_t)(m->data >> 8);
    image[6] = (uint8_t)m->control;
    image[7] = (uint8_t)(m->control >> 8);
    image[8] = m->hollow;
    if (tells(m->lie, TENTH_BYTE_OF_IMAGE_WRITTEN)) {
        image[9] = 0;
    }
}

/* "Lanes: 1 is the low byte, 2 the high, 3 both." */
static uint16_t selected_bits(uint32_t lanes)
{
    return (uint16_t)((lanes & 1 ? 0x00ff : 0) | (lanes & 2 ? 0xff00 : 0));
}

/* "The closing byte is the high byte when LBL is 0 and the low byte when LBL is 1" */
static bool closing_byte_selected(const struct machine *m, uint32_t lanes)
{
    uint32_t closing = control_bit(m, 13) ? 1 : 2;
    if (tells(m->lie, FIRST_BYTE_STARTS_CYCLE)) {
        closing = 3 - closing;
    }
    return (lanes & closing) != 0;
}

/* "The pointer gains 16 modulo 2^32: after FFFFFFF0h comes 0." */
static void step(struct machine *m)
{
    if (tells(m->lie, POINTER_STOPS_AT_THE_TOP) && m->pointer >= 0xfffffff0) {
        return;
    }
    if (tells(m->lie, STEP_DROPS_LOW_BITS)) {
        m->pointer -= m->pointer % 16;
    }
    m->pointer += 16;
}

/* "a cycle uses pointer div 16"; "memory two bytes a word, low first" */
static uint8_t *word_bytes(const struct machine *m)
{
    size_t word = tells(m->lie, BIT_ADDRESS_TAKEN_FOR_WORD_NUMBER) ? m->pointer : m->pointer / 16;
    return word < m->words ? m->memory + 2 * word : NULL;
}

/* "An empty fetch puts FFFFh in HSTDATA and makes it hollow"; "A fetch inside memory clears the hollow mark." */
static enum cycle fetch(struct machine *m)
{
    const uint8_t *bytes = word_bytes(m);
    m->hollow = bytes == NULL;
    if (bytes == NULL) {
        m->data = tells(m->lie, EMPTY_FETCH_KEEPS_WORD) ? m->data : 0xffff;
        return EMPTY;
    }
    int high = tells(m->lie, HIGH_BYTE_FIRST) ? 0 : 1;
    m->data = (uint16_t)(bytes[1 - high] | bytes[high] << 8);
    return INSIDE;
}

/* "the whole of HSTDATA is stored at the pointer, the hollow mark clears, then with INCW 1 the pointer gains 16"; "an empty
 * store is dropped" */
static enum cycle store(struct machine *m)
{
    if (tells(m->lie, STEPS_BEFORE_STORE) && control_bit(m, 11)) {
        step(m);
    }
    uint8_t *bytes = word_bytes(m);
    if (bytes != NULL) {
        int high = tells(m->lie, HIGH_BYTE_FIRST) ? 0 : 1;
        bytes[1 - high] = (uint8_t)m->data;
        bytes[high] = (uint8_t)(m->data >> 8);
    } else if (tells(m->lie, EMPTY_STORE_FALLS_BEHIND_MEMORY)) {
        m->memory[2 * m->words] = (uint8_t)m->data;
    }
    if (!tells(m->lie, STORE_KEEPS_HOLLOW)) {
        m->hollow = false;
    }
    bool stays = tells(m->lie, STEPS_BEFORE_STORE) || (tells(m->lie, EMPTY_STORE_DOES_NOT_STEP) && bytes == NULL);
    if (control_bit(m, 11) && !stays) {
        step(m);
    }
    if (tells(m->lie, READ_AFTER_WRITE_GOES_TO_MEMORY)) {
        fetch(m);
    }
    return bytes == NULL ? EMPTY : INSIDE;
}

/* "Reading register 2 answers what HSTDATA held at entry, with its hollow mark at entry. If the closing byte is selected,
 * then: with INCR 1 the pointer gains 16; then a fetch." */
static struct answer read_data(struct machine *m, uint32_t lanes)
{
    struct answer answer = {0, m->data, m->hollow, NONE};
    if (closing_byte_selected(m, lanes)) {
        if (control_bit(m, 12)) {
            step(m);
        }
        answer.cycle = fetch(m);
    }
    if (tells(m->lie, FETCHES_BEFORE_ANSWER)) {
        answer.word = m->data;
        answer.hollow = m->hollow;
    }
    if (tells(m->lie, LAST_WORD_HOLLOW) && answer.cycle == EMPTY) {
        answer.hollow = true;
    }
    if (tells(m->lie, LAST_WORD_REFUSED) && answer.cycle == EMPTY) {
        answer.number = 6;
    }
    return answer;
}

/* "Reading registers 0, 1 and 3 changes nothing."; "An unselected byte is .. 0 in an answer." */
static struct answer read_register(struct machine *m, struct access access)
{
    struct answer answer = {0, 0, tells(m->lie, ANY_READ_SHOWS_HOLLOW) && m->hollow, NONE};
    switch (access.reg) {
    case 0: answer.word = (uint16_t)m->pointer; break;
    case 1: answer.word = (uint16_t)(m->pointer >> 16); break;
    case 2: answer = read_data(m, access.lanes); break;
    default: answer.word = m->control; break;
    }
    if (!tells(m->lie, UNSELECTED_BYTE_SHOWN)) {
        answer.word &= selected_bits(access.lanes);
    }
    return answer;
}

/* "Writing register 3, low lane: MSGIN is replaced; INTIN becomes old OR written; INTOUT becomes old AND written; MSGOUT
 * stays. High lane: all its bits but 10 are replaced." */
static uint16_t control_after(const struct machine *m, struct access access)
{
    unsigned old = m->control, written = access.word, low = old & 0xff, high = old & 0xff00;
    if (access.lanes & 1) {
        unsigned intin = tells(m->lie, HOST_CLEARS_INTIN) ? written : old | written;
        unsigned intout = tells(m->lie, HOST_SETS_INTOUT) ? old | written : old & written;
        low = (written & 0x07) | (intin & 0x08) | (old & 0x70) | (intout & 0x80);
    }
    if (access.lanes & 2) {
        high = written & (tells(m->lie, BIT_10_WRITTEN) ? 0xff00 : 0xfb00);
    }
    return (uint16_t)(high | low);
}

/* "Writing register 0 or 1 replaces the selected bytes. If the closing byte is selected, and the register is 1 with LBL 0, or
 * 0 with LBL 1, memory is fetched at the new pointer. This fetch doesn't increment, whatever INCR says." */
static enum cycle write_pointer(struct machine *m, uint32_t reg, uint32_t lanes, uint32_t bits, uint32_t word)
{
    unsigned shift = 16 * reg;
    m->pointer = (m->pointer & ~(bits << shift)) | (word & bits) << shift;
    bool last_half = reg == (control_bit(m, 13) ? 0 : 1) || tells(m->lie, LOADING_ENDS_WITH_EITHER_HALF);
    if (!last_half || !closing_byte_selected(m, lanes)) {
        return NONE;
    }
    if (tells(m->lie, LOADING_STEPS) && control_bit(m, 12)) {
        step(m);
    }
    return fetch(m);
}

/* "An unselected byte is ignored in a write"; "word (0 for a write)" */
static struct answer write_register(struct machine *m, struct access access)
{
    struct answer answer = {0, 0, false, NONE};
    uint16_t bits = tells(m->lie, UNSELECTED_BYTE_WRITTEN) ? 0xffff : selected_bits(access.lanes);
    switch (access.reg) {
    case 0:
    case 1: answer.cycle = write_pointer(m, access.reg, access.lanes, bits, access.word); break;
    case 2:
        m->data = (uint16_t)((m->data & ~bits) | (access.word & bits));
        if (closing_byte_selected(m, access.lanes)) {
            answer.cycle = store(m);
        }
        break;
    default: m->control = control_after(m, access); break;
    }
    return answer;
}

/* "C door: image not nine bytes, hollow byte over 1, bit 10 set, or odd memory length" */
static bool is_bad_image(const uint8_t *image, size_t image_length, size_t memory_length, enum lie lie)
{
    if (image_length != 9 && !(tells(lie, LONG_IMAGE_TAKEN) && image_length > 9)) {
        return true;
    }
    bool bad_mark = image[8] > (tells(lie, HOLLOW_BYTE_2_TAKEN) ? 2 : 1);
    bool bit_10 = (image[7] & 4) != 0 && !tells(lie, BIT_10_TAKEN);
    bool odd = memory_length % 2 != 0 && !tells(lie, ODD_MEMORY_TAKEN);
    return bad_mark || bit_10 || odd;
}

/* "Tested in this order: 11 first, then as numbered." */
static unsigned refusal(const uint8_t *image, size_t image_length, size_t memory_length, struct access access, enum lie lie)
{
    bool too_long = memory_length > (tells(lie, FULL_MEMORY_REFUSED) ? 65535 : 65536);
    bool no_lanes = access.lanes < 1 || access.lanes > 3;
    if (tells(lie, MEMORY_JUDGED_FIRST) && too_long) {
        return 1;
    }
    if (is_bad_image(image, image_length, memory_length, lie)) {
        return 11;
    }
    if (too_long) {
        return 1;
    }
    if (tells(lie, LANES_JUDGED_FIRST) && no_lanes) {
        return 3;
    }
    return access.reg > 3 ? 2 : no_lanes ? 3 : 0;
}

/* "A refusal returns zeros and false marks, cycle none; nothing lent or passed on changes." */
struct answer model_access(uint8_t *image, size_t image_length, uint8_t *memory, size_t memory_length,
                           struct access access, enum lie lie)
{
    if (tells(lie, NUMBERS_CUT_TO_BYTES)) {
        access.reg &= 0xff;
        access.lanes &= 0xff;
    }
    unsigned number = refusal(image, image_length, memory_length, access, lie);
    if (number != 0) {
        if (tells(lie, REFUSAL_CHANGES_IMAGE) && image_length == 9) {
            image[8] = 0;
        }
        return (struct answer){number, 0, false, NONE};
    }
    struct machine m = {.memory = memory, .words = memory_length / 2, .lie = lie};
    load_image(&m, image);
    struct answer answer = access.write ? write_register(&m, access) : read_register(&m, access);
    save_image(&m, image);
    return answer;
}
