/*
 * QEMU's machine `virt` with libvgic.a as its GICv2: a test harness, and no part of the library.
 *
 * All registers, all state and all decisions are the library's. This file carries accesses and lines to its calls and its answers to the
 * CPUs' inputs, counts, measures, and in checking mode holds the answers to each other. It never looks into the words.
 *
 * Copyright (c) the authors of Sohkkaran
 *
 * SPDX-License-Identifier: GPL-2.0-or-later
 *
 * This file is meant to be compiled into QEMU, so its licence is the one that QEMU asks for. The library keeps its own (NOTICE).
 */
#include "qemu/osdep.h"
#include "qapi/error.h"
#include "qemu/error-report.h"
#include "qemu/timer.h"
#include "exec/memory.h"
#include "hw/core/cpu.h"
#include "hw/irq.h"
#include "hw/pci/msi.h"
#include "hw/qdev-properties.h"
#include "hw/sysbus.h"
#include "migration/vmstate.h"
#include "sysemu/sysemu.h"
#include "vgic.h"

#define TYPE_SOHKKARAN_GIC "sohkkaran-gic"
OBJECT_DECLARE_SIMPLE_TYPE(SohkkaranGic, SOHKKARAN_GIC)

#define MAX_CPUS 8
#define PRIVATE 32
#define SGIS 16
/* Complaints that are printed; all are counted. */
#define SHOWN 10

/* What is counted and timed apart from the rest. */
typedef enum Kind {
    KIND_IAR, KIND_EOIR, KIND_DIR, KIND_CPU_READ, KIND_CPU_WRITE,
    KIND_SGIR, KIND_DIST_READ, KIND_DIST_WRITE,
    KIND_SETSPI, KIND_FRAME_READ, KIND_FRAME_WRITE,
    KIND_LINE, KIND_LOOK, KIND_LEVEL, KIND_SETUP, KIND_SAVE, KIND_LOAD, KINDS
} Kind;

static const char *const kind_names[KINDS] = {
    "IAR", "EOIR", "DIR", "CPU interface read", "CPU interface write",
    "SGIR", "Distributor read", "Distributor write",
    "SETSPI", "message frame read", "message frame write",
    "set_level", "interrupt", "irq_level", "setup", "save", "load"
};

typedef struct Count {
    uint64_t calls;
    uint64_t nanoseconds;
    uint64_t longest;
} Count;

/* One vCPU's own view of a CPU interface and of the Distributor is found by who makes the access. */
struct SohkkaranGic {
    SysBusDevice parent_obj;

    MemoryRegion distributor;
    MemoryRegion cpu_interface;
    MemoryRegion message_frame;
    qemu_irq irq[MAX_CPUS];
    /* `virt` connects these too; a GIC without groups and without a hypervisor's part never raises them. */
    qemu_irq silent[3 * MAX_CPUS];
    /* The outputs as they stand, a bit for each vCPU. */
    uint8_t up;

    /* What the library is lent. */
    uint32_t *words;
    size_t length;

    /* The device's whole state when it is moved. */
    uint8_t *image;
    uint32_t image_length;

    /* Properties. */
    uint32_t num_cpu;
    uint32_t num_irq;
    uint32_t revision;
    /* The message frame's window: the machine's, and in no state. */
    uint32_t first_message;
    uint32_t messages;
    bool security;
    bool virtualization;
    bool check;
    uint32_t drop;
    uint32_t swallow;
    bool forget;
    char *report;

    /* Checking mode: the levels after the last call, found by an IAR on a copy. */
    uint32_t *copy;
    uint8_t levels;

    Notifier exit;
    Count counts[KINDS];
    uint64_t refusals;
    uint64_t spurious;
    uint64_t acknowledges[MAX_CPUS][1024];
    uint64_t sgis[MAX_CPUS][MAX_CPUS];
    uint64_t retired;
    uint64_t rises;
    uint64_t dropped;
    uint64_t forgotten;
    /* Writes to SETSPI, and of them those that pulsed an SPI, that did so while it was in flight, and that woke somebody. */
    uint64_t told;
    uint64_t rang;
    uint64_t rang_in_flight;
    uint64_t rang_and_woke;
    uint64_t swallowed;
    uint64_t checks;
    uint64_t mismatches;
};

static uint64_t vcpu_of_access(void)
{
    return current_cpu ? current_cpu->cpu_index : 0;
}

/* Counts and times a call that began at `began`. */
static vgic_answer done(SohkkaranGic *s, Kind kind, int64_t began, vgic_answer answer)
{
    uint64_t took = get_clock() - began;
    Count *count = &s->counts[kind];

    count->calls++;
    count->nanoseconds += took;
    count->longest = MAX(count->longest, took);
    if (vgic_answer_refusal(answer) != VGIC_ACCEPTED && s->refusals++ < SHOWN) {
        error_report("sohkkaran-gic: %s was refused by %d", kind_names[kind], vgic_answer_refusal(answer));
    }
    return answer;
}

static bool level_of(SohkkaranGic *s, unsigned vcpu)
{
    int64_t began = get_clock();

    return vgic_answer_value(done(s, KIND_LEVEL, began, vgic_irq_level(s->words, s->length, vcpu))) != 0;
}

/* A broken variant, whose outputs are wrong on purpose. */
static bool broken(SohkkaranGic *s)
{
    return s->drop || s->forget;
}

static void mismatch(SohkkaranGic *s, const char *what, unsigned found, unsigned wanted)
{
    if (s->mismatches++ < SHOWN) {
        error_report("sohkkaran-gic: %s: %#x, and not %#x as it should be", what, found, wanted);
    }
}

/* Every vCPU's level by an IAR on a copy of the words, with `irq_level` held to it. */
static uint8_t levels_by_copy(SohkkaranGic *s)
{
    uint8_t levels = 0;

    for (unsigned vcpu = 0; vcpu < s->num_cpu; vcpu++) {
        vgic_answer given;
        bool up;

        memcpy(s->copy, s->words, s->length * sizeof(*s->words));
        given = vgic_read_v2_cpu_interface(s->copy, s->length, vcpu, VGIC_GICC_IAR, 4);
        up = vgic_answer_refusal(given) == VGIC_ACCEPTED && vgic_answer_value(given) != VGIC_SPURIOUS;
        levels |= up << vcpu;
        if ((vgic_answer_value(vgic_irq_level(s->words, s->length, vcpu)) != 0) != up) {
            mismatch(s, "irq_level", !up, up);
        }
    }
    s->checks++;
    return levels;
}

static void hold_outputs(SohkkaranGic *s)
{
    if (s->check && !broken(s) && s->up != s->levels) {
        mismatch(s, "the outputs", s->up, s->levels);
    }
}

/* The outputs after a call: those in its wake set rise, and of those that are up the ones fall whose level is 0. */
static void follow(SohkkaranGic *s, vgic_answer answer)
{
    uint8_t wake = vgic_answer_wake(answer);

    if (s->check) {
        uint8_t levels = levels_by_copy(s);

        if (wake != (levels & ~s->levels)) {
            mismatch(s, "the wake set", wake, levels & ~s->levels);
        }
        s->levels = levels;
    }
    s->rises += wake != 0;
    /* Broken: such a wake set is thrown away. */
    if (s->drop && wake && s->rises % s->drop == 0) {
        s->dropped++;
        wake = 0;
    }
    s->up |= wake;
    for (unsigned vcpu = 0; vcpu < s->num_cpu; vcpu++) {
        if (wake >> vcpu & 1) {
            qemu_irq_raise(s->irq[vcpu]);
        } else if ((s->up >> vcpu & 1) && !level_of(s, vcpu)) {
            s->up &= ~(1 << vcpu);
            qemu_irq_lower(s->irq[vcpu]);
        }
    }
    hold_outputs(s);
}

/* The outputs of words that were found and not grown: each is its level. */
static void ask_all(SohkkaranGic *s)
{
    s->up = 0;
    for (unsigned vcpu = 0; vcpu < s->num_cpu; vcpu++) {
        /* Lowered first, so that nothing which a CPU brought along takes the level's place. */
        qemu_irq_lower(s->irq[vcpu]);
        if (!level_of(s, vcpu)) {
            continue;
        }
        /* Broken: nobody is told. */
        if (s->forget) {
            s->forgotten++;
            continue;
        }
        s->up |= 1 << vcpu;
        qemu_irq_raise(s->irq[vcpu]);
    }
    if (s->check) {
        s->levels = levels_by_copy(s);
    }
    hold_outputs(s);
}

/* A refused read is zero and a refused write is ignored, as docs/INTEGRATION.md says. */
static uint64_t distributor_read(void *opaque, hwaddr offset, unsigned width)
{
    SohkkaranGic *s = opaque;
    int64_t began = get_clock();
    vgic_answer answer = vgic_read_v2_distributor(s->words, s->length, vcpu_of_access(), offset, width);

    follow(s, done(s, KIND_DIST_READ, began, answer));
    return vgic_answer_value(answer);
}

static void distributor_write(void *opaque, hwaddr offset, uint64_t value, unsigned width)
{
    SohkkaranGic *s = opaque;
    int64_t began = get_clock();
    vgic_answer answer = vgic_write_v2_distributor(s->words, s->length, vcpu_of_access(), offset, width, value);

    follow(s, done(s, offset == VGIC_GICD_SGIR ? KIND_SGIR : KIND_DIST_WRITE, began, answer));
}

static void count_acknowledge(SohkkaranGic *s, unsigned vcpu, uint32_t value)
{
    uint32_t number = value & 0x3ff;

    if (number == VGIC_SPURIOUS) {
        s->spurious++;
        return;
    }
    s->acknowledges[vcpu][number]++;
    if (number < SGIS) {
        s->sgis[vcpu][value >> 10 & 7]++;
    }
}

static uint64_t cpu_interface_read(void *opaque, hwaddr offset, unsigned width)
{
    SohkkaranGic *s = opaque;
    uint64_t vcpu = vcpu_of_access();
    bool iar = offset == VGIC_GICC_IAR || offset == VGIC_GICC_AIAR;
    int64_t began = get_clock();
    vgic_answer answer = vgic_read_v2_cpu_interface(s->words, s->length, vcpu, offset, width);

    follow(s, done(s, iar ? KIND_IAR : KIND_CPU_READ, began, answer));
    if (iar && vgic_answer_refusal(answer) == VGIC_ACCEPTED) {
        count_acknowledge(s, vcpu, vgic_answer_value(answer));
    }
    return vgic_answer_value(answer);
}

static void cpu_interface_write(void *opaque, hwaddr offset, uint64_t value, unsigned width)
{
    SohkkaranGic *s = opaque;
    Kind kind = offset == VGIC_GICC_EOIR || offset == VGIC_GICC_AEOIR ? KIND_EOIR : offset == VGIC_GICC_DIR ? KIND_DIR : KIND_CPU_WRITE;
    int64_t began = get_clock();
    vgic_answer answer = vgic_write_v2_cpu_interface(s->words, s->length, vcpu_of_access(), offset, width, value);

    s->retired += vgic_answer_retired(done(s, kind, began, answer)) != VGIC_SPURIOUS;
    follow(s, answer);
}

static uint64_t message_frame_read(void *opaque, hwaddr offset, unsigned width)
{
    SohkkaranGic *s = opaque;
    int64_t began = get_clock();
    vgic_answer answer = vgic_read_v2m(s->words, s->length, s->first_message, s->messages, offset, width);

    follow(s, done(s, KIND_FRAME_READ, began, answer));
    return vgic_answer_value(answer);
}

/* After a message its SPI is pending, and if it was in flight to be given again; a refused one, and one outside the window, changes nothing. */
static void count_message(SohkkaranGic *s, uint32_t number, uint32_t before, vgic_answer answer)
{
    bool rings = vgic_answer_refusal(answer) == VGIC_ACCEPTED && number - s->first_message < s->messages;
    bool in_flight = (before & VGIC_INTERRUPT_INFLIGHT) != 0;
    uint32_t wanted = rings ? before | VGIC_INTERRUPT_PENDING | (in_flight ? VGIC_INTERRUPT_REDELIVERY : 0) : before;
    uint32_t after = vgic_answer_value(vgic_interrupt(s->words, s->length, 0, number));

    if (s->check && after != wanted) {
        mismatch(s, "an interrupt after a message", after, wanted);
    }
    rings = rings && after == wanted;
    s->rang += rings;
    s->rang_in_flight += rings && in_flight;
    s->rang_and_woke += rings && vgic_answer_wake(answer) != 0;
}

/* The guest's own stores, and the memory writes by which cards ring. */
static void message_frame_write(void *opaque, hwaddr offset, uint64_t value, unsigned width)
{
    SohkkaranGic *s = opaque;
    bool setspi = offset == VGIC_V2M_SETSPI;
    uint32_t number = value;
    uint32_t before = vgic_answer_value(vgic_interrupt(s->words, s->length, 0, number));
    int64_t began;
    vgic_answer answer;

    s->told += setspi;
    /* Broken: such a message is swallowed. */
    if (setspi && s->swallow && s->told % s->swallow == 0) {
        s->swallowed++;
        return;
    }
    began = get_clock();
    answer = vgic_write_v2m(s->words, s->length, s->first_message, s->messages, offset, width, value);
    done(s, setspi ? KIND_SETSPI : KIND_FRAME_WRITE, began, answer);
    if (setspi) {
        count_message(s, number, before, answer);
    }
    follow(s, answer);
}

/* Every offset, width and alignment is the library's to judge. */
static const MemoryRegionOps distributor_ops = {
    .read = distributor_read,
    .write = distributor_write,
    .endianness = DEVICE_LITTLE_ENDIAN,
    .valid = { .min_access_size = 1, .max_access_size = 8, .unaligned = true },
    .impl = { .min_access_size = 1, .max_access_size = 8, .unaligned = true },
};

static const MemoryRegionOps cpu_interface_ops = {
    .read = cpu_interface_read,
    .write = cpu_interface_write,
    .endianness = DEVICE_LITTLE_ENDIAN,
    .valid = { .min_access_size = 1, .max_access_size = 8, .unaligned = true },
    .impl = { .min_access_size = 1, .max_access_size = 8, .unaligned = true },
};

static const MemoryRegionOps message_frame_ops = {
    .read = message_frame_read,
    .write = message_frame_write,
    .endianness = DEVICE_LITTLE_ENDIAN,
    .valid = { .min_access_size = 1, .max_access_size = 8, .unaligned = true },
    .impl = { .min_access_size = 1, .max_access_size = 8, .unaligned = true },
};

static bool line_as_told(SohkkaranGic *s, unsigned vcpu, unsigned number)
{
    int64_t began = get_clock();
    vgic_answer answer = done(s, KIND_LOOK, began, vgic_interrupt(s->words, s->length, vcpu, number));

    return (vgic_answer_value(answer) & VGIC_INTERRUPT_LINE) != 0;
}

static void tell_line(SohkkaranGic *s, unsigned vcpu, unsigned number, bool up)
{
    int64_t began = get_clock();

    follow(s, done(s, KIND_LINE, began, vgic_set_level(s->words, s->length, vcpu, number, up)));
}

/* Inputs as `virt` numbers them: the SPIs from 32, then 32 for each vCPU. QEMU repeats levels; only a change is told. */
static void line_changes(void *opaque, int input, int level)
{
    SohkkaranGic *s = opaque;
    unsigned spis = s->num_irq - PRIVATE;
    unsigned vcpu = input < spis ? 0 : (input - spis) / PRIVATE;
    unsigned number = input < spis ? input + PRIVATE : (input - spis) % PRIVATE;

    if (line_as_told(s, vcpu, number) != (level != 0)) {
        tell_line(s, vcpu, number, level != 0);
    }
}

static void set_up(SohkkaranGic *s)
{
    int64_t began = get_clock();

    done(s, KIND_SETUP, began, vgic_setup(s->words, s->length, s->num_cpu, s->num_irq));
}

/* Another setup; the lines that devices hold are told again, for it forgets them. */
static void reset(DeviceState *dev)
{
    SohkkaranGic *s = SOHKKARAN_GIC(dev);
    g_autofree bool *held = g_new0(bool, s->num_irq * MAX_CPUS);

    for (unsigned vcpu = 0; vcpu < s->num_cpu; vcpu++) {
        for (unsigned number = SGIS; number < (vcpu ? PRIVATE : s->num_irq); number++) {
            held[vcpu * s->num_irq + number] = line_as_told(s, vcpu, number);
        }
    }
    set_up(s);
    ask_all(s);
    for (unsigned vcpu = 0; vcpu < s->num_cpu; vcpu++) {
        for (unsigned number = SGIS; number < (vcpu ? PRIVATE : s->num_irq); number++) {
            if (held[vcpu * s->num_irq + number]) {
                tell_line(s, vcpu, number, true);
            }
        }
    }
}

static uint64_t image_room(SohkkaranGic *s)
{
    return vgic_image_bytes(s->num_cpu, s->num_irq);
}

static int before_save(void *opaque)
{
    SohkkaranGic *s = opaque;
    int64_t began;
    vgic_answer answer;

    s->image = g_realloc(s->image, image_room(s));
    began = get_clock();
    answer = done(s, KIND_SAVE, began, vgic_save(s->words, s->length, s->image, image_room(s)));
    s->image_length = vgic_answer_value(answer);
    return vgic_answer_refusal(answer) == VGIC_ACCEPTED ? 0 : -EINVAL;
}

/* The bytes come into memory of their own. */
static int before_load(void *opaque)
{
    SohkkaranGic *s = opaque;

    g_free(s->image);
    s->image = NULL;
    return 0;
}

/* Words of other content, which a load must forget: any numbers do. */
static void spoil(SohkkaranGic *s)
{
    uint32_t word = 0x9e3779b9u;

    for (size_t i = 0; i < s->length; i++) {
        word = word * 1664525u + 1013904223u;
        s->words[i] = word;
    }
}

static void hold_image(SohkkaranGic *s)
{
    g_autofree uint8_t *again = g_malloc(image_room(s));
    vgic_answer answer = vgic_save(s->words, s->length, again, image_room(s));

    if (vgic_answer_value(answer) != s->image_length || memcmp(again, s->image, s->image_length) != 0) {
        mismatch(s, "the image saved after the load", vgic_answer_value(answer), s->image_length);
    }
}

static int after_load(void *opaque, int version)
{
    SohkkaranGic *s = opaque;
    uint32_t shape = vgic_answer_value(vgic_image_shape(s->image, s->image_length));
    int64_t began;
    vgic_answer answer;

    if (vgic_shape_count(shape) != s->num_cpu || vgic_shape_limit(shape) != s->num_irq) {
        error_report("sohkkaran-gic: the image is of another shape");
        return -EINVAL;
    }
    spoil(s);
    began = get_clock();
    answer = done(s, KIND_LOAD, began, vgic_load(s->words, s->length, s->image, s->image_length));
    if (vgic_answer_refusal(answer) != VGIC_ACCEPTED) {
        return -EINVAL;
    }
    if (s->check) {
        hold_image(s);
    }
    ask_all(s);
    return 0;
}

static const VMStateDescription vmstate = {
    .name = TYPE_SOHKKARAN_GIC,
    .version_id = 1,
    .minimum_version_id = 1,
    .pre_save = before_save,
    .pre_load = before_load,
    .post_load = after_load,
    .fields = (VMStateField[]) {
        VMSTATE_UINT32(image_length, SohkkaranGic),
        VMSTATE_VBUFFER_ALLOC_UINT32(image, SohkkaranGic, 1, NULL, image_length),
        VMSTATE_END_OF_LIST()
    }
};

static void report_rows(SohkkaranGic *s, FILE *file)
{
    for (unsigned vcpu = 0; vcpu < s->num_cpu; vcpu++) {
        for (unsigned number = 0; number < s->num_irq; number++) {
            if (s->acknowledges[vcpu][number]) {
                fprintf(file, "acknowledged %u %u %" PRIu64 "\n", vcpu, number, s->acknowledges[vcpu][number]);
            }
        }
        for (unsigned from = 0; from < s->num_cpu; from++) {
            fprintf(file, "sgis %u %u %" PRIu64 "\n", vcpu, from, s->sgis[vcpu][from]);
        }
    }
    for (unsigned kind = 0; kind < KINDS; kind++) {
        Count *count = &s->counts[kind];

        fprintf(file, "call %" PRIu64 " %" PRIu64 " %" PRIu64 " %s\n", count->calls, count->nanoseconds, count->longest, kind_names[kind]);
    }
}

/* One count a line, appended where the property `report` says, for a program to add up. */
static void report_at_exit(Notifier *notifier, void *data)
{
    SohkkaranGic *s = container_of(notifier, SohkkaranGic, exit);
    FILE *file = s->report ? fopen(s->report, "a") : NULL;

    if (!file) {
        return;
    }
    fprintf(file, "shape %u %u\n", s->num_cpu, s->num_irq);
    fprintf(file, "refusals %" PRIu64 "\nspurious %" PRIu64 "\nretired %" PRIu64 "\n", s->refusals, s->spurious, s->retired);
    fprintf(file, "rises %" PRIu64 "\ndropped %" PRIu64 "\nforgotten %" PRIu64 "\n", s->rises, s->dropped, s->forgotten);
    fprintf(file, "messages %" PRIu64 "\nrang %" PRIu64 "\nrang-in-flight %" PRIu64 "\nrang-and-woke %" PRIu64 "\nswallowed %" PRIu64 "\n",
            s->told, s->rang, s->rang_in_flight, s->rang_and_woke, s->swallowed);
    fprintf(file, "checks %" PRIu64 "\nmismatches %" PRIu64 "\n", s->checks, s->mismatches);
    if (s->counts[KIND_SAVE].calls || s->counts[KIND_LOAD].calls) {
        fprintf(file, "image %u\n", s->image_length);
    }
    report_rows(s, file);
    fclose(file);
}

static void realize(DeviceState *dev, Error **errp)
{
    SohkkaranGic *s = SOHKKARAN_GIC(dev);
    SysBusDevice *bus = SYS_BUS_DEVICE(dev);

    s->length = vgic_state_words(s->num_cpu, s->num_irq);
    if (s->length == 0 || s->revision != 2 || s->security || s->virtualization) {
        error_setg(errp, "sohkkaran-gic: a GICv2 for 1 to 8 CPUs, without security and virtualization extensions");
        return;
    }
    s->words = g_new0(uint32_t, s->length);
    s->copy = g_new0(uint32_t, s->length);
    /* Before the first device is made: lines may be driven from here on. */
    set_up(s);
    if (vgic_answer_refusal(vgic_read_v2m(s->words, s->length, s->first_message, s->messages, VGIC_V2M_TYPER, 4)) != VGIC_ACCEPTED) {
        error_setg(errp, "sohkkaran-gic: messages ring a window of SPIs");
        return;
    }

    memory_region_init_io(&s->distributor, OBJECT(s), &distributor_ops, s, "sohkkaran-gic-distributor", 0x1000);
    memory_region_init_io(&s->cpu_interface, OBJECT(s), &cpu_interface_ops, s, "sohkkaran-gic-cpu-interface", 0x2000);
    memory_region_init_io(&s->message_frame, OBJECT(s), &message_frame_ops, s, "sohkkaran-gic-message-frame", 0x1000);
    sysbus_init_mmio(bus, &s->distributor);
    sysbus_init_mmio(bus, &s->cpu_interface);
    sysbus_init_mmio(bus, &s->message_frame);
    /* PCI cards may have MSI-X. */
    msi_nonbroken = true;
    qdev_init_gpio_in(dev, line_changes, s->num_irq - PRIVATE + PRIVATE * s->num_cpu);
    for (unsigned vcpu = 0; vcpu < s->num_cpu; vcpu++) {
        sysbus_init_irq(bus, &s->irq[vcpu]);
    }
    for (unsigned i = 0; i < 3 * s->num_cpu; i++) {
        sysbus_init_irq(bus, &s->silent[i]);
    }
    s->exit.notify = report_at_exit;
    qemu_add_exit_notifier(&s->exit);
}

static Property properties[] = {
    DEFINE_PROP_UINT32("num-cpu", SohkkaranGic, num_cpu, 1),
    DEFINE_PROP_UINT32("num-irq", SohkkaranGic, num_irq, PRIVATE),
    DEFINE_PROP_UINT32("revision", SohkkaranGic, revision, 2),
    DEFINE_PROP_UINT32("first-message", SohkkaranGic, first_message, PRIVATE),
    DEFINE_PROP_UINT32("messages", SohkkaranGic, messages, 0),
    DEFINE_PROP_BOOL("has-security-extensions", SohkkaranGic, security, false),
    DEFINE_PROP_BOOL("has-virtualization-extensions", SohkkaranGic, virtualization, false),
    /* Hold wake sets and irq_level to an IAR on a copy, after every call. */
    DEFINE_PROP_BOOL("check", SohkkaranGic, check, false),
    /* Throw away every so-manyth wake set; 0 for none. */
    DEFINE_PROP_UINT32("drop", SohkkaranGic, drop, 0),
    /* Swallow every so-manyth message; 0 for none. */
    DEFINE_PROP_UINT32("swallow", SohkkaranGic, swallow, 0),
    /* Leave the outputs down after a load. */
    DEFINE_PROP_BOOL("forget", SohkkaranGic, forget, false),
    /* Where the counts are written at the end. */
    DEFINE_PROP_STRING("report", SohkkaranGic, report),
    DEFINE_PROP_END_OF_LIST(),
};

static void class_init(ObjectClass *oc, void *data)
{
    DeviceClass *dc = DEVICE_CLASS(oc);

    dc->desc = "GICv2 by libvgic.a";
    dc->realize = realize;
    dc->reset = reset;
    dc->vmsd = &vmstate;
    device_class_set_props(dc, properties);
}

static const TypeInfo types[] = {
    {
        .name = TYPE_SOHKKARAN_GIC,
        .parent = TYPE_SYS_BUS_DEVICE,
        .instance_size = sizeof(SohkkaranGic),
        .class_init = class_init,
    },
};

DEFINE_TYPES(types)
