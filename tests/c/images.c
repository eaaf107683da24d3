/*
 * Replays tests/lists/images.rows from standard input: what is saved, and which bytes are loaded as what. tests/lists/README.md says how a row
 * is read. Prints how many there were, and ends with status 1 at the first that comes out otherwise.
 */
#include "vgic.h"

#include <inttypes.h>
#include <stdio.h>
#include <stdlib.h>
#include <string.h>

enum { MOST = VGIC_IMAGE_BYTES_MAX, AROUND = 4 };

static uint32_t words[VGIC_STATE_WORDS_MAX], there[VGIC_STATE_WORDS_MAX + AROUND];
static uint8_t image[MOST], buffer[MOST], edited[3 * MOST];
static size_t length, bytes; /* of the words, and of the image that was saved last */
static unsigned long row, saves, saved, loads, loaded;

static void check(bool right, const char *what)
{
    if (right)
        return;
    printf("images: row %lu: %s\n", row, what);
    exit(1);
}

static void check_answer(vgic_answer answer, unsigned refusal, uint32_t value, const char *what)
{
    check(answer == ((uint64_t)refusal << 56 | (uint64_t)VGIC_SPURIOUS << 32 | value), what);
}

/* Every byte from here on is this one. */
static bool all(const void *from, size_t count, uint8_t byte)
{
    const uint8_t *at = from;

    while (count > 0 && *at == byte)
        at++, count--;
    return count == 0;
}

/* Two digits a byte, or `-` for none; how many they were. */
static size_t read_bytes(const char *text, uint8_t *to)
{
    size_t count = 0;
    unsigned byte;

    for (; sscanf(text, "%2x", &byte) == 1; text += 2)
        to[count++] = (uint8_t)byte;
    return count;
}

static uint32_t sum_of(const uint32_t *from, size_t count)
{
    uint32_t sum = 2166136261u;

    for (size_t place = 0; place < 4 * count; place++)
        sum = (sum ^ (from[place / 4] >> place % 4 * 8 & 255)) * 16777619u;
    return sum;
}

/* A call of the runner, which is accepted. */
static void call(char letter, const uint64_t n[4])
{
    vgic_answer answer = 0;

    if (letter == 'n')
        length = vgic_state_words(n[0], n[1]), answer = vgic_setup(words, length, n[0], n[1]);
    else if (letter == 'D')
        answer = vgic_write_v2_distributor(words, length, n[0], n[1], n[2], n[3]);
    else if (letter == 'C')
        answer = vgic_write_v2_cpu_interface(words, length, n[0], n[1], n[2], n[3]);
    else if (letter == 'c')
        answer = vgic_read_v2_cpu_interface(words, length, n[0], n[1], n[2]);
    else if (letter == 'l')
        answer = vgic_set_level(words, length, n[0], n[1], n[2] != 0);
    else if (letter == 'p')
        answer = vgic_pulse(words, length, n[0], n[1]);
    else
        check(false, "a row of another form");
    check(vgic_answer_refusal(answer) == VGIC_ACCEPTED, "a call is refused");
}

/* The image, and no byte behind it; refused, no byte at all. */
static void save(size_t room, unsigned refusal, const char *text)
{
    static uint8_t expected[MOST];
    static uint32_t before[VGIC_STATE_WORDS_MAX];
    size_t count = *text == '=' ? bytes : read_bytes(text, expected);

    if (*text == '=')
        memcpy(expected, image, bytes);
    memset(buffer, 0xee, sizeof buffer);
    memcpy(before, words, sizeof words);
    check_answer(vgic_save(words, length, buffer, room), refusal, (uint32_t)count, "another answer to a save");
    check(memcmp(buffer, expected, count) == 0, "another image");
    check(all(buffer + count, sizeof buffer - count, 0xee), "a byte behind the image");
    check(memcmp(before, words, sizeof words) == 0, "a save changes a word");
    saves++;
    if (refusal == VGIC_ACCEPTED) {
        memcpy(image, expected, count);
        bytes = count;
        saved++;
    }
}

/* What was loaded: its words, whose lines are up, and that it is saved as it was. */
static void check_loaded(size_t room, size_t count, unsigned lines, uint32_t sum)
{
    size_t size = vgic_state_words(there[0], there[1]);
    vgic_answer again = vgic_save(there, size, buffer, sizeof buffer);

    check(size <= room && sum_of(there, size) == sum, "other words");
    check(all(there + size, sizeof there - size * sizeof *there, 0x5a), "a load writes past the state");
    for (uint32_t vcpu = 0; vcpu < there[0]; vcpu++)
        check_answer(vgic_irq_level(there, size, vcpu), VGIC_ACCEPTED, lines >> vcpu & 1, "another line");
    check_answer(again, VGIC_ACCEPTED, (uint32_t)count, "saved again it has another length");
    check(memcmp(buffer, edited, count) == 0, "saved again it is another image");
    loaded++;
}

/* The image with bytes in the place of others, into so many words. */
static void load(size_t at, size_t gone, const char *put, size_t room, const char *expected)
{
    size_t count = at + read_bytes(put, edited + at);
    unsigned refusal = 0, lines = 0;
    uint32_t shape = 0, sum = 0;
    int fields = sscanf(expected, "%u %" SCNu32 " %u %" SCNx32, &refusal, &shape, &lines, &sum);

    check(fields == (refusal == VGIC_ACCEPTED ? 4 : 2), "a row of another form");
    memcpy(edited, image, at);
    memcpy(edited + count, image + at + gone, bytes - at - gone);
    count += bytes - at - gone;
    memset(there, 0x5a, sizeof there);
    check_answer(vgic_image_shape(edited, count), shape == 0 ? VGIC_REFUSED_IMAGE : VGIC_ACCEPTED, shape, "another shape");
    check_answer(vgic_load(there, room, edited, count), refusal, 0, "another answer to a load");
    loads++;
    if (refusal == VGIC_ACCEPTED)
        check_loaded(room, count, lines, sum);
    else
        check(all(there, sizeof there, 0x5a), "a refused load writes");
}

int main(void)
{
    static char line[4 * MOST], text[4 * MOST];
    size_t at, gone, room;
    unsigned refusal;
    int end = 0;

    while (fgets(line, sizeof line, stdin) != NULL) {
        uint64_t n[4] = {0};
        uint32_t word;
        row++;
        if (sscanf(line, "w %zu %" SCNu32, &at, &word) == 2)
            words[at] = word;
        else if (sscanf(line, "s %zu: %u %s", &room, &refusal, text) == 3)
            save(room, refusal, text);
        else if (sscanf(line, "e %zu %zu %s %zu: %n", &at, &gone, text, &room, &end) == 4)
            load(at, gone, text, room, line + end);
        else if (sscanf(line + 1, "%" SCNu64 " %" SCNu64 " %" SCNu64 " %" SCNu64, n, n + 1, n + 2, n + 3) >= 2)
            call(line[0], n);
        else
            check(false, "a row of another form");
    }
    printf("%lu saves, %lu of them accepted; %lu images, %lu of them loaded\n", saves, saved, loads, loaded);
    return saved == 0 || loaded == 0 || loads == loaded;
}
