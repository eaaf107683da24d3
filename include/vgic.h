/*
 * A GICv2 interrupt controller for small Arm guests: the calls of libvgic.a, which tools/archive writes for x86-64, for Arm, and for an Arm
 * exit path. docs/INTEGRATION.md says which exit is which call, and what to do with what it answers.
 *
 * The caller lends the controller's whole state as words. The library keeps nothing else, allocates nothing and calls nothing. Every call
 * is defined for any numbers and for any lent words: `words` has to point to `length` words that may be read, and where it is not const
 * written, by nobody else during the call (any pointer where `length` is 0); and `image`, apart from them, likewise to so many bytes. A
 * refused call leaves every word and every byte as it was, and words past a state's size are never read and never written.
 *
 * An interrupt's number and a vCPU's number are never taken for one another: see the order of the arguments.
 */
#ifndef VGIC_H
#define VGIC_H

#include <stdbool.h>
#include <stddef.h>
#include <stdint.h>

#ifdef __cplusplus
extern "C" {
#endif

/*
 * What a call answers, in one number: bits 0 to 31 the value read, 32 to 47 the retired number, 48 to 55 the wake set, 56 to 63 the
 * refusal. A refused call has value 0, no retired number and wakes nobody.
 */
typedef uint64_t vgic_answer;

/* A retired number that is none, and what IAR and HPPIR give where there is no interrupt. */
#define VGIC_SPURIOUS 1023u

enum vgic_refusal {
    VGIC_ACCEPTED = 0,
    VGIC_REFUSED_ACCESS = 1,       /* unaligned, or the end overflows or passes the frame */
    VGIC_REFUSED_WIDTH = 2,        /* the register does not take this width, or it is none */
    VGIC_REFUSED_VCPU = 3,         /* there is no such vCPU */
    VGIC_REFUSED_LIMITS = 4,       /* setup: the count is not 1 to 8, or the limit not 32 to 1020 */
    VGIC_REFUSED_SHORT_STATE = 5,  /* setup, load: too few words are lent */
    VGIC_REFUSED_BROKEN_STATE = 6, /* the lent words are no controller's state */
    VGIC_REFUSED_FULL_STACK = 7,   /* an acknowledge, while 128 interrupts are under service */
    VGIC_REFUSED_INPUT = 8,        /* no device has this number: an SGI's, or not below the limit */
    VGIC_REFUSED_IMAGE = 9,        /* load: the bytes are no image; save: the words hold what no calls lead to */
    VGIC_REFUSED_ROOM = 10,        /* save: the buffer is too short */
    VGIC_REFUSED_WINDOW = 11       /* message frame: the window is empty, or has a number below 32 or not below the limit */
};

/* Why the call was refused; VGIC_ACCEPTED if it was not. */
static inline enum vgic_refusal vgic_answer_refusal(vgic_answer answer)
{
    return (enum vgic_refusal)(answer >> 56);
}

/* What was read, or the length of the image that was saved; 0 for all other calls. */
static inline uint32_t vgic_answer_value(vgic_answer answer)
{
    return (uint32_t)answer;
}

/* Whom the call wakes, a bit for each vCPU: those whose read of IAR gave nothing before it, and gives an interrupt now. */
static inline uint8_t vgic_answer_wake(vgic_answer answer)
{
    return (uint8_t)(answer >> 48);
}

/* The interrupt whose service the call ended; VGIC_SPURIOUS if it ended none. */
static inline uint16_t vgic_answer_retired(vgic_answer answer)
{
    return (uint16_t)(answer >> 32);
}

/* The layout of the words. It changes when a kept state of an earlier version means something else: keep it beside words that you keep. */
#define VGIC_LAYOUT 3

/*
 * How many words a state takes: `count` is 1 to 8 vCPUs, and `limit`, 32 to 1020, the first number that is no interrupt. 0 where one of
 * them is out of range. At most VGIC_STATE_WORDS_MAX.
 */
uint64_t vgic_state_words(uint64_t count, uint64_t limit);

#define VGIC_STATE_WORDS_MAX 2462

/*
 * The same, and of constants a constant: it sizes an array, and may stand in #if. Out of range it is 0 too, which is no array's size in C
 * and C++ (gcc and clang let it pass without -Wpedantic; then vgic_setup refuses it). An argument may be evaluated several times.
 */
#define VGIC_STATE_WORDS(count, limit) \
    ((count) >= 1 && (count) <= 8 && (limit) >= 32 && (limit) <= 1020 \
         ? 3 + (52 + 128) * (count) + ((limit) - 32) + ((limit) - 1) / 32 \
         : 0)

/* Makes the words a fresh state. Refused by 4, then by 5. */
vgic_answer vgic_setup(uint32_t *words, size_t length, uint64_t count, uint64_t limit);

/* Where the registers stand, in bytes from the start of a frame (Arm IHI 0048): the Distributor's. */
#define VGIC_GICD_CTLR 0x000u       /* control: bit 0 turns it on */
#define VGIC_GICD_TYPER 0x004u      /* how many vCPUs and interrupts there are */
#define VGIC_GICD_IIDR 0x008u       /* who made it */
#define VGIC_GICD_IGROUPR 0x080u    /* groups, one bit for each interrupt; they read 0 */
#define VGIC_GICD_ISENABLER 0x100u  /* set enables */
#define VGIC_GICD_ICENABLER 0x180u  /* clear enables */
#define VGIC_GICD_ISPENDR 0x200u    /* set pending */
#define VGIC_GICD_ICPENDR 0x280u    /* clear pending; a level interrupt with its line up stays as it is */
#define VGIC_GICD_ISACTIVER 0x300u  /* set active */
#define VGIC_GICD_ICACTIVER 0x380u  /* clear active */
#define VGIC_GICD_IPRIORITYR 0x400u /* priorities, a byte for each interrupt */
#define VGIC_GICD_ITARGETSR 0x800u  /* targets, a byte for each interrupt with a bit for each vCPU */
#define VGIC_GICD_ICFGR 0xc00u      /* triggers, two bits for each interrupt */
#define VGIC_GICD_SGIR 0xf00u       /* sends an SGI */
#define VGIC_GICD_CPENDSGIR 0xf10u  /* clear the sources of SGIs, a byte for each */
#define VGIC_GICD_SPENDSGIR 0xf20u  /* set the sources of SGIs, a byte for each */

/* And a CPU interface's. */
#define VGIC_GICC_CTLR 0x000u   /* control: bit 0 turns it on, bit 9 is the EOI mode */
#define VGIC_GICC_PMR 0x004u    /* the priority that an interrupt has to be below */
#define VGIC_GICC_BPR 0x008u    /* binary point b: an interrupt is given if its priority without the low b+1 bits is below RPR */
#define VGIC_GICC_IAR 0x00cu    /* a read acknowledges an interrupt */
#define VGIC_GICC_EOIR 0x010u   /* ends an interrupt, or in EOI mode drops its priority */
#define VGIC_GICC_RPR 0x014u    /* the priority under service, as the binary point cut it when it was given; 255 for none */
#define VGIC_GICC_HPPIR 0x018u  /* the best that is pending */
#define VGIC_GICC_ABPR 0x01cu   /* the binary point by another name */
#define VGIC_GICC_AIAR 0x020u   /* IAR by another name */
#define VGIC_GICC_AEOIR 0x024u  /* EOIR by another name */
#define VGIC_GICC_AHPPIR 0x028u /* HPPIR by another name */
#define VGIC_GICC_APR 0x0d0u    /* reads 0 */
#define VGIC_GICC_IIDR 0x0fcu   /* who made it */
#define VGIC_GICC_DIR 0x1000u   /* deactivates an interrupt */

/*
 * The four accesses of a guest. `vcpu` is who makes it, `offset` counts bytes from the start of the frame (0x1000 long, a CPU interface
 * 0x2000), and `width` is the number of bytes, 1, 2, 4 or 8; any other is refused by 2 before anything else is looked at. Bits of a value
 * above the width are ignored. Refused by 6, then 1, 2, 3, 7 (at private registers by 3 before 2).
 */

/* Reads the Distributor. */
vgic_answer vgic_read_v2_distributor(const uint32_t *words, size_t length, uint64_t vcpu, uint64_t offset, uint64_t width);

/* Writes the Distributor. */
vgic_answer vgic_write_v2_distributor(uint32_t *words, size_t length, uint64_t vcpu, uint64_t offset, uint64_t width, uint64_t value);

/* Reads a CPU interface; a read of IAR acknowledges an interrupt. */
vgic_answer vgic_read_v2_cpu_interface(uint32_t *words, size_t length, uint64_t vcpu, uint64_t offset, uint64_t width);

/* Writes a CPU interface; a write to EOIR or DIR may end the service of an interrupt. */
vgic_answer vgic_write_v2_cpu_interface(uint32_t *words, size_t length, uint64_t vcpu, uint64_t offset, uint64_t width, uint64_t value);

/*
 * The two inputs of devices: of a PPI (16 to 31) of this vCPU, or of an SPI (from 32), for which the vCPU does not matter. Refused by 6,
 * then 8, then 3.
 */

/* A device raises or lowers its line. */
vgic_answer vgic_set_level(uint32_t *words, size_t length, uint64_t vcpu, uint64_t number, bool asserted);

/* A device pulses its line. */
vgic_answer vgic_pulse(uint32_t *words, size_t length, uint64_t vcpu, uint64_t number);

/*
 * A message-signalled frame (GICv2m) of 0x1000 bytes beside the Distributor, for cards that ring by memory writes. The guest reads TYPER to
 * learn the window, and programs the card with the frame's SETSPI address and a number of the window. The device model hands each such memory
 * write of its card to vgic_write_v2m, at VGIC_V2M_SETSPI, and wakes whom the answer names, as after any write: that SPI is pulsed. A number
 * that is not in the window does nothing. The guest's own loads and stores at the frame are the same two calls.
 *
 * The window is the host's: `count` SPIs from `first` on, at least one, none below 32, all below the limit. It is in no state and in no image,
 * so it must be the same in each call, and after a move. No vCPU is looked up. Both registers take 4 bytes; other places read 0 and ignore
 * writes. Refused by 6, then 11, 1, 2; a width that is none by 2 before anything else is looked at, as above.
 */
#define VGIC_V2M_TYPER 0x008u  /* the window: its first SPI in bits 25:16, how many in bits 9:0; ignores writes */
#define VGIC_V2M_SETSPI 0x040u /* a write of a number of the window pulses that SPI; reads 0 */

/* Reads the frame. */
vgic_answer vgic_read_v2m(const uint32_t *words, size_t length, uint64_t first, uint64_t count, uint64_t offset, uint64_t width);

/* Writes the frame; all 32 bits of the value are the number. */
vgic_answer vgic_write_v2m(uint32_t *words, size_t length, uint64_t first, uint64_t count, uint64_t offset, uint64_t width, uint64_t value);

/* Two questions, which change nothing. */

/* Whether a read of IAR by this vCPU would now give an interrupt, so whether its IRQ line is up: value 1 or 0. Refused by 6, then 3. */
vgic_answer vgic_irq_level(const uint32_t *words, size_t length, uint64_t vcpu);

/*
 * One interrupt as it stands, in a word: a private one (0 to 31) of this vCPU, or an SPI (from 32), for which the vCPU does not matter.
 * From the limit up there is none, and the word is 0. Refused by 6, then 3.
 */
vgic_answer vgic_interrupt(const uint32_t *words, size_t length, uint64_t vcpu, uint64_t number);

/* The flags of such a word. */
#define VGIC_INTERRUPT_ENABLED 0x01u    /* the guest has enabled it */
#define VGIC_INTERRUPT_PENDING 0x02u    /* it waits to be taken */
#define VGIC_INTERRUPT_ACTIVE 0x04u     /* it is under service */
#define VGIC_INTERRUPT_INFLIGHT 0x08u   /* it was taken by a read of IAR, and its service has not ended */
#define VGIC_INTERRUPT_REDELIVERY 0x10u /* it came again while it was in flight, and is to be given again */
#define VGIC_INTERRUPT_LINE 0x20u       /* its device holds its line up */
#define VGIC_INTERRUPT_EDGE 0x40u       /* it is edge-triggered, not level-sensitive */
#define VGIC_INTERRUPT_TARGETED 0x80u   /* its targets were written */

/* Its priority; 0 is the most urgent. */
static inline uint8_t vgic_interrupt_priority(uint32_t word)
{
    return (uint8_t)(word >> 8);
}

/* The vCPUs that an SPI is offered to, a bit for each; 0 as long as none were written. */
static inline uint8_t vgic_interrupt_targets(uint32_t word)
{
    return (uint8_t)(word >> 16);
}

/* Who has taken it, while it is in flight; -1 for nobody. */
static inline int vgic_interrupt_owner(uint32_t word)
{
    return (int)(word >> 24) - 1;
}

/*
 * Moving a guest: its controller is saved as bytes, an image (docs/IMAGE.md), and loaded elsewhere, where it goes on as it would have here.
 * An image does not depend on the machine, nor on VGIC_LAYOUT. Nobody calls for the guest between its save and its load.
 */

/*
 * How many bytes the image of such a controller takes at the most: a buffer of so many is never refused by 10. 0 where count or limit is
 * out of range, and at most VGIC_IMAGE_BYTES_MAX.
 */
uint64_t vgic_image_bytes(uint64_t count, uint64_t limit);

#define VGIC_IMAGE_BYTES_MAX 16384

/*
 * Writes the image of the controller to the front of a buffer of `room` bytes, and no byte behind it; the value is its length. Changes no
 * word. Refused by 6, then 9, then 10; by 9 never, if setup or load made the words and calls alone have changed them.
 */
vgic_answer vgic_save(const uint32_t *words, size_t length, uint8_t *image, size_t room);

/*
 * The count and limit that an image begins with, so that words can be lent for it before it is loaded. The rest is not looked at, and may
 * still be refused. Refused by 9 where these are no numbers in range.
 */
vgic_answer vgic_image_shape(const uint8_t *image, size_t image_length);

/* What the value of such an answer says: how many vCPUs, and the first number that is no interrupt. */
static inline uint32_t vgic_shape_count(uint32_t shape)
{
    return shape & 0xffffu;
}

static inline uint32_t vgic_shape_limit(uint32_t shape)
{
    return shape >> 16;
}

/*
 * Makes the words the controller that the image is of, whatever they held. Wakes nobody: vgic_irq_level tells whose line is up now. Any
 * bytes may be given. Refused by 9 where they are no image, then by 5.
 */
vgic_answer vgic_load(uint32_t *words, size_t length, const uint8_t *image, size_t image_length);

#ifdef __cplusplus
}
#endif

#endif
