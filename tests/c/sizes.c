/*
 * The sizes that the header knows when a program is compiled, held to the proved functions over every count and limit and some beyond.
 * Prints how many, and ends with status 1 at the first that differs. C11 and C++17.
 */
#include "vgic.h"

#include <assert.h>
#include <inttypes.h>
#include <stdio.h>

#if VGIC_STATE_WORDS(2, 40) != 372 || VGIC_STATE_WORDS(9, 40) != 0
#error "not a constant of the preprocessor, or another one"
#endif
static_assert(VGIC_STATE_WORDS(8, 1020) == VGIC_STATE_WORDS_MAX, "the largest");
static_assert(VGIC_STATE_WORDS(1 + 1, 32 + 8) == 372, "an argument is an expression");
static_assert(VGIC_STATE_WORDS(-1, 40) == 0 && VGIC_STATE_WORDS(1, 4294967328) == 0, "out of range");

static uint64_t compared, most, longest;

static int differ(uint64_t count, uint64_t limit)
{
    uint64_t words = vgic_state_words(count, limit), bytes = vgic_image_bytes(count, limit);

    compared++;
    most = words > most ? words : most;
    longest = bytes > longest ? bytes : longest;
    if ((bytes == 0) != (words == 0)) {
        printf("sizes: count %" PRIu64 ", limit %" PRIu64 ": %" PRIu64 " words, and an image of %" PRIu64 " bytes\n", count, limit, words, bytes);
        return 1;
    }
    if (words == VGIC_STATE_WORDS(count, limit))
        return 0;
    printf("sizes: count %" PRIu64 ", limit %" PRIu64 ": %" PRIu64 " words, and not %" PRIu64 "\n", count, limit, words,
           (uint64_t)VGIC_STATE_WORDS(count, limit));
    return 1;
}

int main(void)
{
    static const uint64_t beyond[] = {(1u << 16) + 40u, (UINT64_C(1) << 32) + 1, (UINT64_C(1) << 32) + 40, UINT64_MAX};

    for (uint64_t count = 0; count <= 10; count++)
        for (uint64_t limit = 0; limit <= 1100; limit++)
            if (differ(count, limit))
                return 1;
    for (size_t i = 0; i < sizeof beyond / sizeof *beyond; i++)
        if (differ(beyond[i], 40) || differ(1, beyond[i]) || differ(beyond[i], beyond[i]))
            return 1;
    printf("%" PRIu64 " counts and limits, the largest state of %" PRIu64 " words, the longest image of at most %" PRIu64 " bytes\n", compared,
           most, longest);
    return most != VGIC_STATE_WORDS_MAX || longest > VGIC_IMAGE_BYTES_MAX;
}
