/*
 * A guest's first steps from C without a C library, for a bare Arm machine: the scope document's example, a device's line, what may be
 * asked of both, a move, and a card's message. So that it can be run, it ends by Linux's exit: status 0, or the number of the first step that
 * was not answered as expected.
 */
#include "vgic.h"

enum { COUNT = 2, LIMIT = 40, WORDS = VGIC_STATE_WORDS(COUNT, LIMIT) };

static uint32_t words[WORDS], there[WORDS];
static uint8_t image[VGIC_IMAGE_BYTES_MAX];
static int step;

_Noreturn static void leave(int status)
{
    register long x0 __asm__("x0") = status;
    register long x8 __asm__("x8") = 93;

    __asm__ volatile("svc 0" : : "r"(x0), "r"(x8) : "memory");
    __builtin_unreachable();
}

static void expect(vgic_answer answer, enum vgic_refusal refusal, uint32_t value, uint8_t wake, uint16_t retired)
{
    step++;
    if (vgic_answer_refusal(answer) != refusal || vgic_answer_value(answer) != value || vgic_answer_wake(answer) != wake ||
        vgic_answer_retired(answer) != retired)
        leave(step);
}

/* vCPU 1's line, up or down. */
static void expect_line(uint32_t level)
{
    expect(vgic_irq_level(words, WORDS, 1), VGIC_ACCEPTED, level, 0, VGIC_SPURIOUS);
}

static void expect_done(vgic_answer answer)
{
    expect(answer, VGIC_ACCEPTED, 0, 0, VGIC_SPURIOUS);
}

static vgic_answer distributor(uint64_t offset, uint64_t width, uint64_t value)
{
    return vgic_write_v2_distributor(words, WORDS, 0, offset, width, value);
}

static vgic_answer interface(uint64_t offset, uint64_t value)
{
    return vgic_write_v2_cpu_interface(words, WORDS, 1, offset, 4, value);
}

static vgic_answer acknowledge(void)
{
    return vgic_read_v2_cpu_interface(words, WORDS, 1, VGIC_GICC_IAR, 4);
}

/* vCPU 0 sends SGI 5 to vCPU 1, which takes and ends it. */
static void software_interrupt(void)
{
    expect_done(vgic_setup(words, WORDS, COUNT, LIMIT));
    expect_done(distributor(VGIC_GICD_CTLR, 4, 1));
    expect_done(interface(VGIC_GICC_CTLR, 1));
    expect_done(interface(VGIC_GICC_PMR, 255));
    expect_line(0);
    expect(distributor(VGIC_GICD_SGIR, 4, 131077), VGIC_ACCEPTED, 0, 2, VGIC_SPURIOUS);
    expect_line(1);
    expect(acknowledge(), VGIC_ACCEPTED, 5, 0, VGIC_SPURIOUS);
    expect_line(0);
    expect(acknowledge(), VGIC_ACCEPTED, VGIC_SPURIOUS, 0, VGIC_SPURIOUS);
    expect(interface(VGIC_GICC_EOIR, 5), VGIC_ACCEPTED, 0, 0, 5);
    expect(vgic_read_v2_distributor(words, WORDS, 0, VGIC_GICD_ITARGETSR, 8), VGIC_REFUSED_WIDTH, 0, 0, VGIC_SPURIOUS);
}

/* SPI 33 goes to vCPU 1: its line rises, it is taken and ended, comes again as the line is held, and is pulsed once the line is down. */
static void device(void)
{
    expect_done(distributor(VGIC_GICD_ITARGETSR + 33, 1, 2));
    expect_done(distributor(VGIC_GICD_ISENABLER + 4, 4, 2));
    expect(vgic_set_level(words, WORDS, 0, 33, true), VGIC_ACCEPTED, 0, 2, VGIC_SPURIOUS);
    expect(acknowledge(), VGIC_ACCEPTED, 33, 0, VGIC_SPURIOUS);
    expect(interface(VGIC_GICC_EOIR, 33), VGIC_ACCEPTED, 0, 2, 33);
    expect_done(vgic_set_level(words, WORDS, 0, 33, false));
    expect(vgic_pulse(words, WORDS, 0, 33), VGIC_ACCEPTED, 0, 2, VGIC_SPURIOUS);
    expect(vgic_interrupt(words, WORDS, 9, 33), VGIC_ACCEPTED,
           VGIC_INTERRUPT_ENABLED | VGIC_INTERRUPT_PENDING | VGIC_INTERRUPT_TARGETED | 2u << 16, 0, VGIC_SPURIOUS);
}

/* The guest moves to other words: SPI 33, pulsed above, is taken there. */
static void moved(void)
{
    uint32_t length = vgic_answer_value(vgic_save(words, WORDS, image, sizeof image));

    expect(vgic_image_shape(image, length), VGIC_ACCEPTED, COUNT | LIMIT << 16, 0, VGIC_SPURIOUS);
    expect(vgic_load(there, WORDS, image, length - 1), VGIC_REFUSED_IMAGE, 0, 0, VGIC_SPURIOUS);
    expect_done(vgic_load(there, WORDS, image, length));
    expect(vgic_irq_level(there, WORDS, 1), VGIC_ACCEPTED, 1, 0, VGIC_SPURIOUS);
    expect(vgic_read_v2_cpu_interface(there, WORDS, 1, VGIC_GICC_IAR, 4), VGIC_ACCEPTED, 33, 0, VGIC_SPURIOUS);
}

/* SPI 33, pulsed above, is taken here too; a message of a card for it, while it is served, is given after it. */
static void card(void)
{
    expect(vgic_read_v2m(words, WORDS, 33, 2, VGIC_V2M_TYPER, 4), VGIC_ACCEPTED, 33u << 16 | 2, 0, VGIC_SPURIOUS);
    expect(acknowledge(), VGIC_ACCEPTED, 33, 0, VGIC_SPURIOUS);
    expect_done(vgic_write_v2m(words, WORDS, 33, 2, VGIC_V2M_SETSPI, 4, 33));
    expect(interface(VGIC_GICC_EOIR, 33), VGIC_ACCEPTED, 0, 2, 33);
    expect(acknowledge(), VGIC_ACCEPTED, 33, 0, VGIC_SPURIOUS);
    expect(vgic_write_v2m(words, WORDS, 33, 8, VGIC_V2M_SETSPI, 4, 33), VGIC_REFUSED_WINDOW, 0, 0, VGIC_SPURIOUS);
}

void _start(void)
{
    if (vgic_state_words(COUNT, LIMIT) != WORDS || vgic_image_bytes(COUNT, LIMIT) > sizeof image)
        leave(100);
    software_interrupt();
    device();
    moved();
    card();
    leave(0);
}
