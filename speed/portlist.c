/* `portlist` in plain C: the same lines in, the same lines out, for speed/run to count beside the proved program and to compare
 * with it. Document 01, "The four host registers", "Blocks and the two doors" and "Numbers returned". */
#include <string.h>
#include <unistd.h>

#include "port.h"

enum { LONGEST_LINE = 32 };

static char input[16384];
static char output[65536];

static bool is_digit(char c)
{
    return c >= '0' && c <= '9';
}

/* The value of an upper-case hexadecimal digit, or -1. */
static int digit_value(char c)
{
    return is_digit(c) ? c - '0' : c >= 'A' && c <= 'F' ? c - 'A' + 10 : -1;
}

/* A line without its line feed: `R reg lanes` or `W reg lanes hhhh`. */
static bool parse(const char *line, size_t length, struct access *a)
{
    if (length < 5 || line[1] != ' ' || !is_digit(line[2]) || line[3] != ' ' || !is_digit(line[4])) {
        return false;
    }
    a->reg = (uint32_t)(line[2] - '0');
    a->lanes = (uint32_t)(line[4] - '0');
    a->write = line[0] == 'W';
    a->word = 0;
    if (!a->write) {
        return line[0] == 'R' && length == 5;
    }
    if (length != 10 || line[5] != ' ') {
        return false;
    }
    for (int i = 6; i < 10; i++) {
        int digit = digit_value(line[i]);
        if (digit < 0) {
            return false;
        }
        a->word = (uint16_t)(a->word << 4 | digit);
    }
    return true;
}

static char *put(char *to, const char *text)
{
    size_t length = strlen(text);
    memcpy(to, text, length);
    return to + length;
}

/* Number, word, hollow or held, cycle. */
static char *print(char *to, struct access a, struct answer answer)
{
    static const char digits[] = "0123456789ABCDEF";
    *to++ = (char)('0' + answer.number);
    *to++ = ' ';
    for (int shift = 12; shift >= 0; shift -= 4) {
        *to++ = digits[answer.word >> shift & 15];
    }
    bool shows = !a.write && a.reg == 2 && answer.number == 0;
    to = !shows ? put(to, " - ") : answer.hollow ? put(to, " hollow ") : put(to, " held ");
    return answer.cycle == NONE ? put(to, "none\n") : answer.cycle == INSIDE ? put(to, "in\n") : put(to, "empty\n");
}

static bool write_all(const char *from, const char *to)
{
    while (from < to) {
        ssize_t written = write(1, from, (size_t)(to - from));
        if (written <= 0) {
            return false;
        }
        from += written;
    }
    return true;
}

/* The whole lines of the input's first `length` bytes. Sets `used` to the bytes that they had, and `bad` at a line of another
 * shape; returns the output's end. There is room: an answer is less than four times as long as its line. */
static char *list(struct port *p, size_t length, size_t *used, bool *bad)
{
    const char *line = input, *end = input + length, *feed;
    char *to = output;
    struct access a;
    while (!*bad && (feed = memchr(line, '\n', (size_t)(end - line))) != NULL) {
        if (parse(line, (size_t)(feed - line), &a)) {
            to = print(to, a, host_access(p, a));
        } else {
            *bad = true;
        }
        line = feed + 1;
    }
    *used = (size_t)(line - input);
    return to;
}

int main(void)
{
    static uint16_t memory[MOST_WORDS];
    struct port port = new_port(memory, MOST_WORDS);
    size_t held = 0, used;
    bool bad = false;
    for (;;) {
        ssize_t got = read(0, input + held, sizeof input - held);
        if (got <= 0) {
            bad = held > 0;
            break;
        }
        held += (size_t)got;
        if (!write_all(output, list(&port, held, &used, &bad))) {
            return 1;
        }
        held -= used;
        memmove(input, input + used, held);
        if (bad || held >= LONGEST_LINE) {
            bad = true;
            break;
        }
    }
    return bad && !write_all(output, put(output, "bad line\n"));
}
