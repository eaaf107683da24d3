/*
 * How much stack each call of libvgic.a touches: below the caller's frame the stack is painted, the call is made, and the lowest byte that
 * is no longer paint is looked for. The calls are those of every place and width, of a busy controller, and of its image.
 */
#include "vgic.h"
#include <stdio.h>

/*
 * Calls `function` with eight arguments, and tells how many bytes below the stack pointer before the call are no longer paint. On x86-64 two of
 * them are passed on the stack, by the caller.
 */
uint64_t painted_call(const void *function, const uint64_t arguments[8]);

/* The painted part: more than any call uses. The paint is no register's value during the call, for that may be pushed. */
#define PAINTED "16384"

#if defined(__aarch64__)
__asm__(".text\n.global painted_call\npainted_call:\n"
        "stp x29, x30, [sp, #-32]!\n stp x19, x20, [sp, #16]\n"
        "mov x19, x0\n mov x8, x1\n"
        "mov x20, #0x5a5a\n movk x20, #0xa5a5, lsl #16\n movk x20, #0x3c3c, lsl #32\n movk x20, #0xc3c3, lsl #48\n"
        "mov x10, sp\n sub x9, x10, #" PAINTED "\n"
        "1: str x20, [x9], #8\n cmp x9, x10\n b.ne 1b\n"
        "ldp x0, x1, [x8]\n ldp x2, x3, [x8, #16]\n ldp x4, x5, [x8, #32]\n ldp x6, x7, [x8, #48]\n"
        "mvn x20, x20\n blr x19\n mvn x20, x20\n"
        "mov x10, sp\n sub x9, x10, #" PAINTED "\n"
        "2: ldr x11, [x9]\n cmp x11, x20\n b.ne 3f\n add x9, x9, #8\n cmp x9, x10\n b.ne 2b\n"
        "3: sub x0, x10, x9\n"
        "ldp x19, x20, [sp, #16]\n ldp x29, x30, [sp], #32\n ret\n");
#elif defined(__x86_64__)
__asm__(".text\n.global painted_call\npainted_call:\n"
        "push %rbx\n push %r12\n push %r13\n"
        "mov %rdi, %r12\n mov %rsi, %rax\n movabs $0xc3c33c3ca5a55a5a, %rbx\n"
        "push 56(%rax)\n push 48(%rax)\n"
        "lea -" PAINTED "(%rsp), %r10\n"
        "1: mov %rbx, (%r10)\n add $8, %r10\n cmp %rsp, %r10\n jne 1b\n"
        "mov (%rax), %rdi\n mov 8(%rax), %rsi\n mov 16(%rax), %rdx\n mov 24(%rax), %rcx\n mov 32(%rax), %r8\n mov 40(%rax), %r9\n"
        "not %rbx\n call *%r12\n not %rbx\n"
        "lea -" PAINTED "(%rsp), %r10\n"
        "2: cmp %rbx, (%r10)\n jne 3f\n add $8, %r10\n cmp %rsp, %r10\n jne 2b\n"
        "3: mov %rsp, %rax\n sub %r10, %rax\n"
        "add $16, %rsp\n pop %r13\n pop %r12\n pop %rbx\n ret\n");
#else
#error "no painted_call for this machine"
#endif

static uint32_t words[VGIC_STATE_WORDS_MAX], there[VGIC_STATE_WORDS_MAX];
static uint8_t image[VGIC_IMAGE_BYTES_MAX];
static const uint64_t length = sizeof words / sizeof *words;

static uint64_t deepest(uint64_t so_far, const void *function, const uint64_t arguments[8])
{
    uint64_t used = painted_call(function, arguments);
    return used > so_far ? used : so_far;
}

/* Both interfaces on, every SPI enabled and sent to vCPU 0, every third with its line up. */
static void boot(uint64_t count, uint64_t limit)
{
    vgic_setup(words, length, count, limit);
    vgic_write_v2_distributor(words, length, 0, 0, 4, 1);
    for (uint64_t vcpu = 0; vcpu < count; vcpu++) {
        vgic_write_v2_cpu_interface(words, length, vcpu, 0, 4, 1);
        vgic_write_v2_cpu_interface(words, length, vcpu, 4, 4, 255);
    }
    for (uint64_t id = 32; id < limit; id++) {
        vgic_write_v2_distributor(words, length, 0, 0x400 + id, 1, 200 - id % 100);
        vgic_write_v2_distributor(words, length, 0, 0x800 + id, 1, 1u << id % count);
        vgic_write_v2_distributor(words, length, 0, 0x100 + id / 32 * 4, 4, 1u << id % 32);
        if (id % 3 == 0)
            vgic_set_level(words, length, 0, id, true);
    }
}

static uint64_t of_frame(const void *read, const void *write, uint64_t size, uint64_t *of_write)
{
    uint64_t of_read = 0;
    for (uint64_t offset = 0; offset <= size; offset++)
        for (uint64_t width = 1; width <= 8; width *= 2)
            for (uint64_t vcpu = 0; vcpu < 3; vcpu++) {
                uint64_t arguments[8] = {(uint64_t)words, length, vcpu, offset, width, ~offset * 0x9e3779b97f4a7c15u};
                *of_write = deepest(*of_write, write, arguments);
                of_read = deepest(of_read, read, arguments);
            }
    return of_read;
}

/* Takes what is ready and ends it, in both EOI modes. */
static void service(uint64_t *of_read, uint64_t *of_eoir, uint64_t *of_dir)
{
    for (uint64_t turn = 0; turn < 200; turn++) {
        vgic_write_v2_cpu_interface(words, length, 0, 0, 4, turn % 2 ? 0x201 : 1);
        uint64_t read[8] = {(uint64_t)words, length, 0, 0xc, 4};
        *of_read = deepest(*of_read, (const void *)vgic_read_v2_cpu_interface, read);
        uint32_t stack = 3 + 52 * words[0] + words[1] - 32 + (words[1] - 1) / 32, depth = words[3 + 3];
        uint64_t number = depth ? words[stack + depth - 1] & 1023 : 1023;
        uint64_t end[8] = {(uint64_t)words, length, 0, 0x10, 4, number};
        *of_eoir = deepest(*of_eoir, (const void *)vgic_write_v2_cpu_interface, end);
        uint64_t dir[8] = {(uint64_t)words, length, 0, 0x1000, 4, number};
        *of_dir = deepest(*of_dir, (const void *)vgic_write_v2_cpu_interface, dir);
    }
}

static uint64_t of_input(const void *input)
{
    uint64_t used = 0;
    for (uint64_t number = 0; number <= 1020; number++)
        for (uint64_t level = 0; level < 2; level++) {
            uint64_t arguments[8] = {(uint64_t)words, length, number % 3, number, level};
            used = deepest(used, input, arguments);
        }
    return used;
}

/* The message frame of all SPIs, and of one too many, at every place and width; and a message for every SPI. */
static uint64_t of_messages(uint64_t *of_write)
{
    uint64_t of_read = 0, spis = words[1] - 32;
    for (uint64_t offset = 0; offset <= 0x1000; offset++)
        for (uint64_t width = 1; width <= 8; width *= 2) {
            uint64_t arguments[8] = {(uint64_t)words, length, 32, spis + (offset & 1), offset, width, 32 + offset % spis};
            of_read = deepest(of_read, (const void *)vgic_read_v2m, arguments);
            *of_write = deepest(*of_write, (const void *)vgic_write_v2m, arguments);
        }
    for (uint64_t number = 32; number <= words[1]; number++) {
        uint64_t arguments[8] = {(uint64_t)words, length, 32, spis, VGIC_V2M_SETSPI, 4, number};
        *of_write = deepest(*of_write, (const void *)vgic_write_v2m, arguments);
    }
    return of_read;
}

/* Saves into every room up to the image's length, and loads the image cut at every place, with one byte changed there, and whole. */
static void moves(uint64_t *of_save, uint64_t *of_shape, uint64_t *of_load)
{
    uint64_t bytes = vgic_answer_value(vgic_save(words, length, image, sizeof image));
    for (uint64_t at = 0; at <= bytes; at++) {
        uint64_t save[8] = {(uint64_t)words, length, (uint64_t)image, at};
        *of_save = deepest(*of_save, (const void *)vgic_save, save);
        uint64_t cut[8] = {(uint64_t)there, length, (uint64_t)image, at}, whole[8] = {(uint64_t)there, length, (uint64_t)image, bytes};
        uint64_t shape[8] = {(uint64_t)image, at};
        *of_load = deepest(*of_load, (const void *)vgic_load, cut);
        image[at] ^= (uint8_t)(1u << at % 8);
        *of_load = deepest(*of_load, (const void *)vgic_load, whole);
        *of_shape = deepest(*of_shape, (const void *)vgic_image_shape, shape);
        image[at] ^= (uint8_t)(1u << at % 8);
        *of_load = deepest(*of_load, (const void *)vgic_load, whole);
    }
}

int main(void)
{
    enum { CALLS = 15 };
    uint64_t most[CALLS] = {0}, of_words = 0, of_bytes = 0, of_setup = 0;
    for (uint64_t count = 0; count < 10; count++)
        for (uint64_t limit = 31; limit <= 1021; limit++) {
            uint64_t limits[8] = {count, limit}, setup[8] = {(uint64_t)words, limit % 7 ? length : limit, count, limit};
            of_words = deepest(of_words, (const void *)vgic_state_words, limits);
            of_bytes = deepest(of_bytes, (const void *)vgic_image_bytes, limits);
            of_setup = deepest(of_setup, (const void *)vgic_setup, setup);
        }
    printf("vgic_state_words %d\nvgic_image_bytes %d\nvgic_setup %d\n", (int)of_words, (int)of_bytes, (int)of_setup);
    for (uint64_t count = 1; count <= 8; count += 7) {
        boot(count, count == 1 ? 40 : 1020);
        uint64_t write, read = 0, eoir = 0, dir = 0, save = 0, shape = 0, load = 0;
        service(&read, &eoir, &dir);
        write = eoir > dir ? eoir : dir;
        moves(&save, &shape, &load);
        uint64_t level = of_input((const void *)vgic_set_level), pulse = of_input((const void *)vgic_pulse);
        uint64_t line = of_input((const void *)vgic_irq_level), record = of_input((const void *)vgic_interrupt);
        uint64_t message = 0, window = of_messages(&message);
        uint64_t used = of_frame((const void *)vgic_read_v2_cpu_interface, (const void *)vgic_write_v2_cpu_interface, 0x2000, &write);
        read = used > read ? used : read;
        boot(count, count == 1 ? 40 : 1020);
        uint64_t to_distributor = 0;
        used = of_frame((const void *)vgic_read_v2_distributor, (const void *)vgic_write_v2_distributor, 0x1000, &to_distributor);
        uint64_t all[CALLS] = {used, to_distributor, read, write, level, pulse, window, message, line, record, save, shape, load, eoir, dir};
        for (int i = 0; i < CALLS; i++)
            most[i] = all[i] > most[i] ? all[i] : most[i];
    }
    static const char *const names[CALLS] = {"vgic_read_v2_distributor", "vgic_write_v2_distributor", "vgic_read_v2_cpu_interface",
                                             "vgic_write_v2_cpu_interface", "vgic_set_level", "vgic_pulse", "vgic_read_v2m",
                                             "vgic_write_v2m", "vgic_irq_level", "vgic_interrupt", "vgic_save", "vgic_image_shape",
                                             "vgic_load", "EOIR", "DIR"};
    for (int i = 0; i < CALLS; i++)
        printf("%s %d\n", names[i], (int)most[i]);
    return 0;
}
