/* stack.c: how much stack the calls of libvdp take, measured. Each call runs many times, on random devices and on what is
 * refused, on a stack of its own that is filled with one byte; the deepest byte that changed tells.
 *
 * Prints a line for each call, and the most; exit status 1 where that is above VDP_STACK_NEED.
 */
#include "vdp.h"

#include <stdio.h>
#include <string.h>
#include <ucontext.h>

enum { STACK = 16384, FILL = 0xA5, TURNS = 5000 };

static unsigned char stack[STACK] __attribute__((aligned(64)));
static uint8_t state[VDP_STATE_SIZE], home[VDP_HOME_STATE_SIZE], vram[VDP_VRAM_SIZE], pixels[VDP_EFFECTIVE_FRAME_SIZE], layers[VDP_EFFECTIVE_LAYERS_SIZE];
static ucontext_t here, there;
static unsigned long used;
static uint32_t word = 1;

static uint32_t next(void)
{
    word ^= word << 13;
    word ^= word >> 17;
    return word ^= word << 5;
}

/* A device made by hand: any registers, palette, counter, and any memory. */
static void device(void)
{
    vdp_new(state, sizeof state);
    for (unsigned n = 0; n < 11; n++)
        state[VDP_AT_REGISTERS + n] = (uint8_t)next();
    for (unsigned n = 0; n < 64; n++)
        state[VDP_AT_PALETTE + n] = (uint8_t)next();
    state[VDP_AT_COUNTER] = (uint8_t)next();
    state[VDP_AT_CHOSEN] = (uint8_t)(next() % 3);
    state[VDP_AT_COMMAND_LATCHED] = (uint8_t)(next() % 2);
    state[VDP_AT_PALETTE_LATCHED] = (uint8_t)(next() % 2);
    state[VDP_AT_DIRTY] = (uint8_t)(next() % 2);
    /* and a home machine beside it */
    vdp_home_new_table(home, sizeof home, (uint8_t)(next() % 2));
    for (unsigned n = 0; n < 11; n++)
        home[VDP_AT_REGISTERS + n] = (uint8_t)next();
    for (unsigned n = 0; n < 32; n++)
        home[VDP_HOME_AT_PALETTE + n] = (uint8_t)next();
    home[VDP_AT_COUNTER] = (uint8_t)next();
    home[VDP_AT_CHOSEN] = (uint8_t)(next() % 3);
    home[VDP_AT_COMMAND_LATCHED] = (uint8_t)(next() % 2);
    home[VDP_HOME_AT_DIRTY] = (uint8_t)(next() % 2);
    home[VDP_HOME_AT_VERTICAL_SCROLL] = (uint8_t)next();
    for (unsigned n = 0; n < 64; n++)
        vram[next() % sizeof vram] = (uint8_t)next();
}

/* The calls, one a turn; now and then with a length or an area that is refused. */
static void make_new(void) { vdp_new(state, sizeof state - (next() % 8 == 0)); }
static void make_out(void) { vdp_out(state, sizeof state, vram, sizeof vram - (next() % 8 == 0), (uint16_t)(0xBE + next() % 3), (uint8_t)next()); }
static void make_input(void) { vdp_input(state, sizeof state, vram, sizeof vram - (next() % 8 == 0), (uint16_t)(next() % 2 ? 0xBE + next() % 2 : 0x7E + next() % 2)); }
static void make_step(void)
{
    uint8_t area = (uint8_t)(next() % 4);
    vdp_step(state, sizeof state, vram, sizeof vram, pixels, area == VDP_EFFECTIVE ? sizeof pixels : VDP_VISIBLE_FRAME_SIZE, area);
}
static void make_row_step(void) { vdp_row_step(state, sizeof state, vram, sizeof vram, pixels, VDP_EFFECTIVE_ROW_SIZE, (uint8_t)(next() % 4)); }
static void make_layer_step(void)
{
    uint8_t area = (uint8_t)(next() % 4);
    size_t frame_len = area == VDP_EFFECTIVE ? sizeof pixels : VDP_VISIBLE_FRAME_SIZE;
    vdp_layer_step(state, sizeof state, vram, sizeof vram, pixels, frame_len, layers, sizeof layers - (next() % 8 == 0), area);
}
static void make_layer_row_step(void)
{
    size_t layers_len = sizeof layers - (next() % 8 == 0);
    vdp_layer_row_step(state, sizeof state, vram, sizeof vram, pixels, VDP_EFFECTIVE_ROW_SIZE, layers, layers_len, (uint8_t)(next() % 4));
}
static void make_dump(void) { vdp_dump_tileset(state, sizeof state, vram, sizeof vram, pixels, VDP_TILESET_SIZE - (next() % 8 == 0)); }
static void make_pixel(void) { vdp_pixel(state, sizeof state, vram, sizeof vram - (next() % 8 == 0), (uint8_t)(next() % 4), next() % 230, next() % 260); }
static void make_repair(void)
{
    static uint8_t list[VDP_LIST_SIZE];
    state[next() % sizeof state] = (uint8_t)next();
    vdp_repair(state, sizeof state, list, sizeof list - (next() % 8 == 0));
    vdp_repair(state, sizeof state, list, sizeof list);
}
static void make_record(void)
{
    size_t at = next() % 16;
    vdp_record_out(pixels, 12, at, (uint8_t)next(), (uint8_t)next());
    vdp_record_input(pixels, 12, at, (uint8_t)next());
    vdp_record_step(pixels, 12, at, (uint8_t)(next() % 3));
    vdp_record_next(pixels, 12, at);
}
static void make_version(void) { vdp_version(); }
static void make_home_new(void) { vdp_home_new(home, sizeof home - (next() % 8 == 0)), vdp_home_new_table(home, sizeof home, (uint8_t)(next() % 3)); }
static void make_home_out(void) { vdp_home_out(home, sizeof home, vram, sizeof vram - (next() % 8 == 0), (uint16_t)(0xBE + next() % 3), (uint8_t)next()); }
static void make_home_input(void) { vdp_home_input(home, sizeof home, vram, sizeof vram - (next() % 8 == 0), (uint16_t)(next() % 2 ? 0xBE + next() % 2 : 0x7E + next() % 2)); }
static void make_home_step(void) { vdp_home_step(home, sizeof home, vram, sizeof vram, pixels, VDP_HOME_FRAME_SIZE + (next() % 8 == 0)); }
static void make_home_row_step(void) { vdp_home_row_step(home, sizeof home, vram, sizeof vram, pixels, VDP_HOME_ROW_SIZE - (next() % 8 == 0)); }
static void make_home_layer_step(void) { vdp_home_layer_step(home, sizeof home, vram, sizeof vram, pixels, VDP_HOME_FRAME_SIZE, layers, sizeof layers - (next() % 8 == 0)); }
static void make_home_layer_row_step(void) { vdp_home_layer_row_step(home, sizeof home, vram, sizeof vram, pixels, VDP_HOME_ROW_SIZE, layers, sizeof layers - (next() % 8 == 0)); }
static void make_home_pixel(void) { vdp_home_pixel(home, sizeof home, vram, sizeof vram - (next() % 8 == 0), next() % 200, next() % 260); }
static void make_home_dump(void) { vdp_home_dump_tileset(home, sizeof home, vram, sizeof vram, pixels, VDP_TILESET_SIZE - (next() % 8 == 0)); }

static void (*call)(void);

/* Runs on the filled stack: from this frame down to the deepest byte that changed. */
static void run(void)
{
    unsigned long low = 0;
    call();
    while (stack[low] == FILL)
        low++;
    used = (unsigned long)((unsigned char *)__builtin_frame_address(0) - (stack + low));
}

static unsigned long measure(const char *name, void (*what)(void), unsigned turns)
{
    memset(stack, FILL, sizeof stack);
    call = what;
    for (unsigned turn = 0; turn < turns; turn++) {
        device();
        getcontext(&there);
        there.uc_stack.ss_sp = stack;
        there.uc_stack.ss_size = sizeof stack;
        there.uc_link = &here;
        makecontext(&there, run, 0);
        swapcontext(&here, &there);
    }
    printf("%-24s %5lu bytes\n", name, used);
    return used;
}

int main(void)
{
    unsigned long most = 0, each[21];
    for (unsigned n = 0; n < sizeof vram; n++)
        vram[n] = (uint8_t)next();
    each[0] = measure("vdp_new", make_new, TURNS);
    each[1] = measure("vdp_out", make_out, TURNS);
    each[2] = measure("vdp_input", make_input, TURNS);
    each[3] = measure("vdp_step", make_step, TURNS);
    each[4] = measure("vdp_row_step", make_row_step, TURNS);
    each[5] = measure("vdp_dump_tileset", make_dump, TURNS / 50);
    each[6] = measure("vdp_version", make_version, TURNS);
    each[7] = measure("vdp_layer_step", make_layer_step, TURNS);
    each[8] = measure("vdp_layer_row_step", make_layer_row_step, TURNS);
    each[9] = measure("vdp_pixel", make_pixel, TURNS);
    each[10] = measure("vdp_repair", make_repair, TURNS);
    each[11] = measure("vdp_record_*", make_record, TURNS);
    each[12] = measure("vdp_home_new", make_home_new, TURNS);
    each[13] = measure("vdp_home_out", make_home_out, TURNS);
    each[14] = measure("vdp_home_input", make_home_input, TURNS);
    each[15] = measure("vdp_home_step", make_home_step, TURNS);
    each[16] = measure("vdp_home_row_step", make_home_row_step, TURNS);
    each[17] = measure("vdp_home_layer_step", make_home_layer_step, TURNS);
    each[18] = measure("vdp_home_layer_row_step", make_home_layer_row_step, TURNS);
    each[19] = measure("vdp_home_pixel", make_home_pixel, TURNS);
    each[20] = measure("vdp_home_dump_tileset", make_home_dump, TURNS / 50);
    for (unsigned n = 0; n < sizeof each / sizeof each[0]; n++)
        most = each[n] > most ? each[n] : most;
    printf("stack: %lu bytes at the most; the header allows %d\n", most, VDP_STACK_NEED);
    return most > VDP_STACK_NEED;
}
