/*
 * The scope document's example from C: each call as a line of the runner and its answer (refusal, value, wake set, retired number), a
 * device's line after it, what may be asked of both, the guest's move to other words, and a card that rings by messages (as lines of
 * tests/c/lines.c). Ends with status 1 if an answer is not the expected one.
 */
#include "vgic.h"

#include <inttypes.h>
#include <stdio.h>
#include <string.h>

enum { COUNT = 2, LIMIT = 40, WORDS = VGIC_STATE_WORDS(COUNT, LIMIT) };
_Static_assert(WORDS != 0, "the count or the limit is out of range");

/* A word more than the state takes, which nobody may touch. */
static uint32_t words[WORDS + 1];
static int failed;

static void expect(const char *line, vgic_answer answer, const char *expected)
{
    char given[64];

    snprintf(given, sizeof given, "%d %" PRIu32 " %d %d", (int)vgic_answer_refusal(answer), vgic_answer_value(answer),
             vgic_answer_wake(answer), vgic_answer_retired(answer));
    printf("%s: %s\n", line, given);
    if (strcmp(given, expected) != 0) {
        printf("boot: expected %s\n", expected);
        failed = 1;
    }
}

static vgic_answer distributor(uint64_t vcpu, uint64_t offset, uint64_t value)
{
    return vgic_write_v2_distributor(words, WORDS, vcpu, offset, 4, value);
}

static vgic_answer interface(uint64_t vcpu, uint64_t offset, uint64_t value)
{
    return vgic_write_v2_cpu_interface(words, WORDS, vcpu, offset, 4, value);
}

static vgic_answer interface_read(uint64_t vcpu, uint64_t offset)
{
    return vgic_read_v2_cpu_interface(words, WORDS, vcpu, offset, 4);
}

/* The scope document's eleven lines. */
static void example(void)
{
    expect("n 2 40", vgic_setup(words, WORDS, COUNT, LIMIT), "0 0 0 1023");
    expect("D 0 0 4 1", distributor(0, VGIC_GICD_CTLR, 1), "0 0 0 1023");
    expect("C 1 0 4 1", interface(1, VGIC_GICC_CTLR, 1), "0 0 0 1023");
    expect("C 1 4 4 255", interface(1, VGIC_GICC_PMR, 255), "0 0 0 1023");
    expect("D 0 3840 4 131077", distributor(0, VGIC_GICD_SGIR, 131077), "0 0 2 1023");
    expect("c 1 12 4", interface_read(1, VGIC_GICC_IAR), "0 5 0 1023");
    expect("c 1 12 4", interface_read(1, VGIC_GICC_IAR), "0 1023 0 1023");
    expect("C 1 16 4 5", interface(1, VGIC_GICC_EOIR, 5), "0 0 0 5");
    expect("d 0 2048 8", vgic_read_v2_distributor(words, WORDS, 0, VGIC_GICD_ITARGETSR, 8), "2 0 0 1023");
    expect("d 9 2048 4", vgic_read_v2_distributor(words, WORDS, 9, VGIC_GICD_ITARGETSR, 4), "0 0 0 1023");
    expect("c 9 24 4", interface_read(9, VGIC_GICC_HPPIR), "3 0 0 1023");
}

/*
 * SPI 33 goes to vCPU 1: its line rises and wakes it, it is taken and ended, and as the line is held it comes again. A driver that clears its
 * pending bit meanwhile, on vCPU 0, silences nothing.
 */
static void device(void)
{
    expect("D 0 2081 1 2", vgic_write_v2_distributor(words, WORDS, 0, VGIC_GICD_ITARGETSR + 33, 1, 2), "0 0 0 1023");
    expect("D 0 260 4 2", distributor(0, VGIC_GICD_ISENABLER + 4, 2), "0 0 0 1023");
    expect("l 0 33 1", vgic_set_level(words, WORDS, 0, 33, true), "0 0 2 1023");
    expect("D 0 644 4 2", distributor(0, VGIC_GICD_ICPENDR + 4, 2), "0 0 0 1023");
    expect("c 1 12 4", interface_read(1, VGIC_GICC_IAR), "0 33 0 1023");
    expect("D 0 644 4 2", distributor(0, VGIC_GICD_ICPENDR + 4, 2), "0 0 0 1023");
    expect("C 1 16 4 33", interface(1, VGIC_GICC_EOIR, 33), "0 0 2 33");
    expect("l 0 33 0", vgic_set_level(words, WORDS, 0, 33, false), "0 0 0 1023");
    expect("p 0 33", vgic_pulse(words, WORDS, 0, 33), "0 0 2 1023");
    expect("p 0 40", vgic_pulse(words, WORDS, 0, 40), "8 0 0 1023");
    expect("l 2 16 1", vgic_set_level(words, WORDS, 2, 16, true), "3 0 0 1023");
}

/* The record of SPI 33 has these flags and this owner, has priority 16, and goes to vCPU 1. */
static void expect_record(const char *line, uint32_t flags, int owner)
{
    vgic_answer answer = vgic_interrupt(words, WORDS, 9, 33);
    uint32_t word = vgic_answer_value(answer);

    printf("%s: %d %" PRIx32 "\n", line, (int)vgic_answer_refusal(answer), word);
    if (vgic_answer_refusal(answer) != VGIC_ACCEPTED || (word & 0xff) != flags || vgic_interrupt_priority(word) != 16 ||
        vgic_interrupt_targets(word) != 2 || vgic_interrupt_owner(word) != owner) {
        printf("boot: expected flags %" PRIx32 ", priority 16, targets 2, owner %d\n", flags, owner);
        failed = 1;
    }
}

/* vCPU 1's line and the record of SPI 33, pulsed above: while it waits, while it is served and comes again, and at the end. */
static void asked(void)
{
    uint32_t flags = VGIC_INTERRUPT_ENABLED | VGIC_INTERRUPT_EDGE | VGIC_INTERRUPT_TARGETED;
    uint32_t served = flags | VGIC_INTERRUPT_ACTIVE | VGIC_INTERRUPT_INFLIGHT;

    expect("D 0 1057 1 16", vgic_write_v2_distributor(words, WORDS, 0, VGIC_GICD_IPRIORITYR + 33, 1, 16), "0 0 0 1023");
    expect("D 0 3080 4 8", distributor(0, VGIC_GICD_ICFGR + 8, 8), "0 0 0 1023");
    expect("irq level of 1", vgic_irq_level(words, WORDS, 1), "0 1 0 1023");
    expect("irq level of 0", vgic_irq_level(words, WORDS, 0), "0 0 0 1023");
    expect_record("33 waits", flags | VGIC_INTERRUPT_PENDING, -1);
    expect("c 1 12 4", interface_read(1, VGIC_GICC_IAR), "0 33 0 1023");
    expect("irq level of 1", vgic_irq_level(words, WORDS, 1), "0 0 0 1023");
    expect_record("33 is served", served, 1);
    expect("l 0 33 1", vgic_set_level(words, WORDS, 0, 33, true), "0 0 0 1023");
    expect_record("33 comes again", served | VGIC_INTERRUPT_PENDING | VGIC_INTERRUPT_REDELIVERY | VGIC_INTERRUPT_LINE, 1);
    expect("C 1 16 4 33", interface(1, VGIC_GICC_EOIR, 33), "0 0 2 33");
    expect_record("33 waits again", flags | VGIC_INTERRUPT_PENDING | VGIC_INTERRUPT_LINE, -1);
    expect("irq level of 2", vgic_irq_level(words, WORDS, 2), "3 0 0 1023");
    expect("interrupt 5 of 2", vgic_interrupt(words, WORDS, 2, 5), "3 0 0 1023");
    expect("interrupt 40", vgic_interrupt(words, WORDS, 2, 40), "0 0 0 1023");
}

static uint32_t there[WORDS + 1];
static uint8_t image[VGIC_IMAGE_BYTES_MAX];

static void differs(const char *what)
{
    printf("boot: %s\n", what);
    failed = 1;
}

/* The guest moves to other words, which hold anything: SPI 33 waits at vCPU 1, as above, and is taken there. */
static void moved(void)
{
    vgic_answer saved = vgic_save(words, WORDS, image, vgic_image_bytes(COUNT, LIMIT)), shape;
    size_t length = vgic_answer_value(saved);

    memset(there, 0x5a, sizeof there);
    printf("saved: %d, %zu bytes\n", (int)vgic_answer_refusal(saved), length);
    if (vgic_answer_refusal(saved) != VGIC_ACCEPTED || length == 0 || image[length - 1] == 0)
        differs("no image");
    expect("one byte too few", vgic_save(words, WORDS, image, length - 1), "10 0 0 1023");
    shape = vgic_image_shape(image, length);
    expect("its shape", shape, "0 2621442 0 1023");
    if (vgic_shape_count(vgic_answer_value(shape)) != COUNT || vgic_shape_limit(vgic_answer_value(shape)) != LIMIT)
        differs("another shape");
    expect("no shape", vgic_image_shape(image, 1), "9 0 0 1023");
    expect("one word too few", vgic_load(there, WORDS - 1, image, length), "5 0 0 1023");
    expect("cut short", vgic_load(there, WORDS, image, length - 1), "9 0 0 1023");
    if (there[0] != 0x5a5a5a5a || there[WORDS - 1] != 0x5a5a5a5a)
        differs("a refused load has written");
    expect("loaded", vgic_load(there, WORDS, image, length), "0 0 0 1023");
    if (memcmp(there, words, WORDS * sizeof *words) != 0 || there[WORDS] != 0x5a5a5a5a)
        differs("other words are loaded");
    expect("irq level of 0 there", vgic_irq_level(there, WORDS, 0), "0 0 0 1023");
    expect("irq level of 1 there", vgic_irq_level(there, WORDS, 1), "0 1 0 1023");
    expect("c 1 12 4 there", vgic_read_v2_cpu_interface(there, WORDS, 1, VGIC_GICC_IAR, 4), "0 33 0 1023");
    there[3 + 20] |= VGIC_INTERRUPT_PENDING; /* SGI 0, without a source */
    expect("unlawful words", vgic_save(there, WORDS, image, 0), "9 0 0 1023");
    expect("a header alone", vgic_save(there, 2, image, sizeof image), "6 0 0 1023");
}

/* What only a caller in another language can give: no width, words that are too few or none, words that are no state. */
static void refused(void)
{
    uint32_t none[2] = {COUNT, LIMIT};

    expect("width 3", vgic_read_v2_distributor(words, WORDS, 0, 0, 3), "2 0 0 1023");
    expect("one word too few", vgic_setup(words, WORDS - 1, COUNT, LIMIT), "5 0 0 1023");
    expect("a limit of 31", vgic_setup(words, WORDS, COUNT, 31), "4 0 0 1023");
    expect("a header alone", vgic_pulse(none, 2, 0, 33), "6 0 0 1023");
    expect("no words", vgic_pulse(none, 0, 0, 33), "6 0 0 1023");
    expect("irq level of a header", vgic_irq_level(none, 2, 9), "6 0 0 1023");
    expect("interrupt of a header", vgic_interrupt(none, 2, 9, 5), "6 0 0 1023");
    expect("TYPER of a header", vgic_read_v2m(none, 2, 34, 0, VGIC_V2M_TYPER, 1), "6 0 0 1023");
    expect("SETSPI at width 3", vgic_write_v2m(none, 2, 34, 0, VGIC_V2M_SETSPI, 3, 36), "2 0 0 1023");
}

/* A guest begins anew, on vCPU 1. */
static void begin(void)
{
    expect("n 2 40", vgic_setup(words, WORDS, COUNT, LIMIT), "0 0 0 1023");
    expect("D 0 0 4 1", distributor(0, VGIC_GICD_CTLR, 1), "0 0 0 1023");
    expect("C 1 0 4 1", interface(1, VGIC_GICC_CTLR, 1), "0 0 0 1023");
    expect("C 1 4 4 255", interface(1, VGIC_GICC_PMR, 255), "0 0 0 1023");
}

/* A guest that sets the binary point to 2: what is served at 0x47 is not interrupted by its neighbour at 0x41. */
static void neighbours(void)
{
    begin();
    expect("C 1 8 4 2", interface(1, VGIC_GICC_BPR, 2), "0 0 0 1023");
    expect("D 1 1028 4 4278016", distributor(1, VGIC_GICD_IPRIORITYR + 4, 0x414700), "0 0 0 1023");
    expect("D 0 3840 4 131077", distributor(0, VGIC_GICD_SGIR, 131077), "0 0 2 1023");
    expect("c 1 12 4", interface_read(1, VGIC_GICC_IAR), "0 5 0 1023");
    expect("c 1 20 4", interface_read(1, VGIC_GICC_RPR), "0 64 0 1023");
    expect("D 0 3840 4 131078", distributor(0, VGIC_GICD_SGIR, 131078), "0 0 0 1023");
    expect("c 1 12 4", interface_read(1, VGIC_GICC_IAR), "0 1023 0 1023");
    expect("C 1 16 4 5", interface(1, VGIC_GICC_EOIR, 5), "0 0 2 5");
    expect("c 1 12 4", interface_read(1, VGIC_GICC_IAR), "0 6 0 1023");
}

/* The card's window, SPIs 34 to 37: the host gives it with each call. */
enum { FIRST = 34, SPIS = 4 };

/* The card writes this number to SETSPI. */
static vgic_answer message(uint64_t number)
{
    return vgic_write_v2m(words, WORDS, FIRST, SPIS, VGIC_V2M_SETSPI, 4, number);
}

/* The guest learns the window, and gives the card 36, edge and sent to vCPU 1. A message that comes while it is served is given after it. */
static void card(void)
{
    begin();
    expect("m 34 4 8 4", vgic_read_v2m(words, WORDS, FIRST, SPIS, VGIC_V2M_TYPER, 4), "0 2228228 0 1023");
    expect("D 0 2084 1 2", vgic_write_v2_distributor(words, WORDS, 0, VGIC_GICD_ITARGETSR + 36, 1, 2), "0 0 0 1023");
    expect("D 0 3080 4 512", distributor(0, VGIC_GICD_ICFGR + 8, 512), "0 0 0 1023");
    expect("D 0 260 4 16", distributor(0, VGIC_GICD_ISENABLER + 4, 16), "0 0 0 1023");
    expect("M 34 4 64 4 36", message(36), "0 0 2 1023");
    expect("c 1 12 4", interface_read(1, VGIC_GICC_IAR), "0 36 0 1023");
    expect("M 34 4 64 4 36", message(36), "0 0 0 1023");
    expect("C 1 16 4 36", interface(1, VGIC_GICC_EOIR, 36), "0 0 2 36");
    expect("c 1 12 4", interface_read(1, VGIC_GICC_IAR), "0 36 0 1023");
    expect("C 1 16 4 36", interface(1, VGIC_GICC_EOIR, 36), "0 0 0 36");
    expect("M 34 4 64 4 38", message(38), "0 0 0 1023");
    expect("M 34 7 64 4 36", vgic_write_v2m(words, WORDS, FIRST, 7, VGIC_V2M_SETSPI, 4, 36), "11 0 0 1023");
    expect("M 34 4 64 4 4294967332", message((UINT64_C(1) << 32) + 36), "0 0 2 1023");
}

int main(void)
{
    words[WORDS] = 0xa5c30ff1;
    example();
    device();
    asked();
    moved();
    refused();
    neighbours();
    card();
    if (words[WORDS] != 0xa5c30ff1)
        differs("a word past the state has changed");
    return failed;
}
