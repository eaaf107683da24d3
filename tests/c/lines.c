/*
 * Answers lines on standard input through the C face alone, as vgicrun does: the scope document's, and two more for the message frame, which
 * vgicrun has not. `m first count offset width` reads the frame of that window, and `M` writes it, with a value after. An answer is refusal,
 * value, wake set and retired number; a line of any other form is answered by `?`.
 */
#include "vgic.h"

#include <inttypes.h>
#include <stdio.h>

enum { LONGEST = 80, MOST = 5, LENGTH = VGIC_STATE_WORDS_MAX };

/* All 0, which is no state: calls before an accepted setup are refused by 6. */
static uint32_t words[LENGTH];

/* Decimal digits up to 2^64-1; none, or a greater number, are no number. */
static bool read_number(const char **at, const char *end, uint64_t *value)
{
    const char *start = *at;

    for (*value = 0; *at < end && **at >= '0' && **at <= '9'; ++*at) {
        uint64_t digit = (uint64_t)(**at - '0');
        if (*value > (UINT64_MAX - digit) / 10)
            return false;
        *value = 10 * *value + digit;
    }
    return *at > start;
}

/* How many numbers stand behind the letter, each after one space; -1 if anything else does. */
static int read_numbers(const char *line, size_t bytes, uint64_t n[MOST])
{
    const char *at = line + 1, *end = line + bytes;
    int count = 0;

    while (at < end)
        if (count == MOST || *at++ != ' ' || !read_number(&at, end, &n[count++]))
            return -1;
    return count;
}

static bool is_width(uint64_t bytes)
{
    return bytes == 1 || bytes == 2 || bytes == 4 || bytes == 8;
}

/* Whether so many numbers are this letter's, and its width or level is one. */
static bool is_call(char letter, int count, const uint64_t n[MOST])
{
    switch (letter) {
    case 'n':
    case 'p':
        return count == 2;
    case 'l':
        return count == 3 && n[2] <= 1;
    case 'd':
    case 'c':
        return count == 3 && is_width(n[2]);
    case 'D':
    case 'C':
        return count == 4 && is_width(n[2]);
    case 'm':
        return count == 4 && is_width(n[3]);
    case 'M':
        return count == 5 && is_width(n[3]);
    default:
        return false;
    }
}

static vgic_answer call(char letter, const uint64_t n[MOST])
{
    switch (letter) {
    case 'n':
        return vgic_setup(words, LENGTH, n[0], n[1]);
    case 'p':
        return vgic_pulse(words, LENGTH, n[0], n[1]);
    case 'l':
        return vgic_set_level(words, LENGTH, n[0], n[1], n[2] == 1);
    case 'd':
        return vgic_read_v2_distributor(words, LENGTH, n[0], n[1], n[2]);
    case 'c':
        return vgic_read_v2_cpu_interface(words, LENGTH, n[0], n[1], n[2]);
    case 'D':
        return vgic_write_v2_distributor(words, LENGTH, n[0], n[1], n[2], n[3]);
    case 'C':
        return vgic_write_v2_cpu_interface(words, LENGTH, n[0], n[1], n[2], n[3]);
    case 'm':
        return vgic_read_v2m(words, LENGTH, n[0], n[1], n[2], n[3]);
    default:
        return vgic_write_v2m(words, LENGTH, n[0], n[1], n[2], n[3], n[4]);
    }
}

static void answer(const char *line, size_t bytes)
{
    uint64_t n[MOST] = {0};
    vgic_answer given;

    if (bytes == 0 || bytes > LONGEST || !is_call(line[0], read_numbers(line, bytes, n), n)) {
        puts("?");
        return;
    }
    given = call(line[0], n);
    printf("%d %" PRIu32 " %d %d\n", (int)vgic_answer_refusal(given), vgic_answer_value(given), vgic_answer_wake(given),
           vgic_answer_retired(given));
}

/* Of a line one byte more is kept than it may have: then it is of no form, whatever follows. */
int main(void)
{
    char line[LONGEST + 1];
    size_t bytes = 0;
    int byte;

    while ((byte = getchar()) != EOF) {
        if (byte == '\n') {
            answer(line, bytes);
            bytes = 0;
        } else if (bytes < sizeof line) {
            line[bytes++] = (char)byte;
        }
    }
    if (bytes > 0)
        answer(line, bytes);
    return ferror(stdin) || fflush(stdout) != 0;
}
