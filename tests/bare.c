/* bare.c: the library with no system and no C library under it: a scene, two passes of each area and of the home machine, sheets of tiles, and a checksum of all that they left.
 * Compiled with -DBARE it starts by itself, and asks the kernel for no more than to write that number and to end; so the archives for bare metal are tried
 * by an emulator of Linux programs. Compiled without, it is a plain program, which prints the same number.
 */
#include "vdp.h"

static uint8_t state[VDP_STATE_SIZE], home[VDP_HOME_STATE_SIZE], vram[VDP_VRAM_SIZE], frame[VDP_EFFECTIVE_FRAME_SIZE], layers[VDP_EFFECTIVE_LAYERS_SIZE], sheet[VDP_TILESET_SIZE];
static uint32_t seed = 1, sum = 1;

static uint8_t any(void)
{
    seed = seed * 1664525u + 1013904223u;
    return (uint8_t)(seed >> 24);
}

static void add(const uint8_t *bytes, size_t count)
{
    for (size_t k = 0; k < count; k++)
        sum = (sum ^ bytes[k]) * 16777619u;
}

static void out(uint16_t port, uint8_t value) { sum = 31 * sum + vdp_out(state, sizeof state, vram, sizeof vram, port, value); }

static void home_out(uint16_t port, uint8_t value) { sum = 31 * sum + vdp_home_out(home, sizeof home, vram, sizeof vram, port, value); }

/* The same of the home machine, over the same video memory. */
static void docked(void)
{
    vdp_home_new(home, sizeof home);
    for (unsigned k = 0; k < 11; k++)
        home_out(VDP_PORT_COMMAND, k == 2 || k == 5 ? 0xFF : any()), home_out(VDP_PORT_COMMAND, (uint8_t)(0x80 + k));
    home_out(VDP_PORT_COMMAND, 0), home_out(VDP_PORT_COMMAND, 0xC0);
    for (unsigned k = 0; k < 32; k++)
        home_out(VDP_PORT_DATA, any());
    for (unsigned k = 0; k < 2 * VDP_CHART_PASS_STEPS; k++) {
        sum = 31 * sum + vdp_home_layer_step(home, sizeof home, vram, sizeof vram, frame, VDP_HOME_FRAME_SIZE, layers, sizeof layers);
        add(layers, sizeof layers);
        uint64_t pixel = vdp_home_pixel(home, sizeof home, vram, sizeof vram, k % VDP_HOME_HEIGHT, any());
        sum = 31 * sum + (uint32_t)pixel + (uint32_t)(pixel >> 32);
    }
    vdp_home_dump_tileset(home, sizeof home, vram, sizeof vram, sheet, sizeof sheet);
    sum = 31 * sum + vdp_home_input(home, sizeof home, vram, sizeof vram, VDP_PORT_COMMAND);
    add(frame, sizeof frame), add(sheet, sizeof sheet), add(home, sizeof home);
}

static uint32_t whole(void)
{
    vdp_new(state, sizeof state);
    for (unsigned k = 0; k < 11; k++)
        out(VDP_PORT_COMMAND, k == 2 || k == 5 ? 0xFF : any()), out(VDP_PORT_COMMAND, (uint8_t)(0x80 + k));
    out(VDP_PORT_COMMAND, 0), out(VDP_PORT_COMMAND, 0xC0);
    for (unsigned k = 0; k < 64; k++)
        out(VDP_PORT_DATA, any());
    for (unsigned k = 0; k < sizeof vram; k++)
        vram[k] = any();
    for (uint8_t area = VDP_VISIBLE; area <= VDP_TRUE_EDGES; area++)
        for (unsigned k = 0; k < 2 * VDP_CHART_PASS_STEPS; k++) {
            size_t size = area == VDP_EFFECTIVE ? VDP_EFFECTIVE_FRAME_SIZE : VDP_VISIBLE_FRAME_SIZE;
            sum = 31 * sum + vdp_layer_step(state, sizeof state, vram, sizeof vram, frame, size, layers, sizeof layers, area);
            add(layers, sizeof layers);
        }
    vdp_dump_tileset(state, sizeof state, vram, sizeof vram, sheet, sizeof sheet);
    add(frame, sizeof frame), add(sheet, sizeof sheet), add(state, sizeof state);
    docked();
    return sum;
}

#ifdef BARE
/* One call of the kernel, by its number on each machine: the instruction, the registers of the number and of what goes with it, what the call may spoil. */
#define KERNEL(call, number, first, second, third, ...)                                     \
    static void ask(long what, long a, const void *b, long c)                               \
    {                                                                                       \
        register long n __asm__(number) = what, x __asm__(first) = a, z __asm__(third) = c; \
        register const void *y __asm__(second) = b;                                         \
        __asm__ volatile(call : "+r"(n), "+r"(x) : "r"(y), "r"(z) : __VA_ARGS__);           \
    }
#if defined __x86_64__
enum { WRITE = 1, EXIT = 60 };
KERNEL("syscall", "rax", "rdi", "rsi", "rdx", "rcx", "r11", "memory")
#elif defined __aarch64__
enum { WRITE = 64, EXIT = 93 };
KERNEL("svc 0", "x8", "x0", "x1", "x2", "memory")
#elif defined __riscv
enum { WRITE = 64, EXIT = 93 };
KERNEL("ecall", "a7", "a0", "a1", "a2", "memory")
#else
enum { WRITE = 4, EXIT = 1 };
KERNEL("svc 0", "r7", "r0", "r1", "r2", "memory")
#endif

#ifdef __x86_64__
__attribute__((force_align_arg_pointer))
#endif
void _start(void)
{
    char text[9];
    uint32_t number = whole();
    for (int k = 0; k < 8; k++)
        text[k] = "0123456789abcdef"[number >> (28 - 4 * k) & 15];
    text[8] = '\n';
    ask(WRITE, 1, text, sizeof text);
    ask(EXIT, 0, 0, 0);
    for (;;)
        ;
}
#else
#include <stdio.h>

int main(void)
{
    printf("%08lx\n", (unsigned long)whole());
    return 0;
}
#endif
