/* promises.c: what vdp.h tells a C caller beside the rules of the chip, tried by calls. Prints the number of tests; exit status 1 where one failed. */
#define _POSIX_C_SOURCE 200112L
#include "vdp.h"

#include <pthread.h>
#include <stdio.h>
#include <stdlib.h>
#include <string.h>

static int tests, failed;

static void test(int holds, const char *what)
{
    tests++;
    if (!holds) {
        failed++;
        printf("failed: %s\n", what);
    }
}

static uint32_t seed = 1;
static uint8_t any(void)
{
    seed = seed * 1664525u + 1013904223u;
    return (uint8_t)(seed >> 24);
}

/* A device with a picture: any video memory, any colours, 16 high sprites. */
static void scene(uint8_t *state, uint8_t *vram)
{
    static const uint8_t set[][2] = {{0x16, 0}, {0x62, 1}, {0xFF, 2}, {0xFF, 5}, {0xFB, 6}, {0x05, 8}, {0x03, 9}, {0x07, 10}};
    vdp_new(state, VDP_STATE_SIZE);
    for (unsigned k = 0; k < sizeof set / sizeof set[0]; k++) {
        vdp_out(state, VDP_STATE_SIZE, vram, VDP_VRAM_SIZE, VDP_PORT_COMMAND, set[k][0]);
        vdp_out(state, VDP_STATE_SIZE, vram, VDP_VRAM_SIZE, VDP_PORT_COMMAND, (uint8_t)(0x80 + set[k][1]));
    }
    vdp_out(state, VDP_STATE_SIZE, vram, VDP_VRAM_SIZE, VDP_PORT_COMMAND, 0);
    vdp_out(state, VDP_STATE_SIZE, vram, VDP_VRAM_SIZE, VDP_PORT_COMMAND, 0xC0);
    for (unsigned k = 0; k < 64; k++)
        vdp_out(state, VDP_STATE_SIZE, vram, VDP_VRAM_SIZE, VDP_PORT_DATA, any());
    for (unsigned k = 0; k < VDP_VRAM_SIZE; k++)
        vram[k] = any();
}

/* So many steps on a frame; answers the sum of their words. */
static uint32_t steps(unsigned count, uint8_t *state, const uint8_t *vram, uint8_t *frame)
{
    uint32_t sum = 0;
    while (count-- > 0)
        sum = 31 * sum + vdp_step(state, VDP_STATE_SIZE, vram, VDP_VRAM_SIZE, frame, VDP_VISIBLE_FRAME_SIZE, VDP_VISIBLE);
    return sum;
}

/* ---- a save, a reset */

static void saves(void)
{
    static uint8_t state[VDP_STATE_SIZE], vram[VDP_VRAM_SIZE], frame[VDP_VISIBLE_FRAME_SIZE], block[VDP_STATE_SIZE], memory[VDP_VRAM_SIZE], again[VDP_VISIBLE_FRAME_SIZE], fresh[VDP_STATE_SIZE];
    scene(state, vram);
    steps(300, state, vram, frame);
    memcpy(block, state, sizeof block);
    memcpy(memory, vram, sizeof memory);
    memcpy(again, frame, sizeof frame);
    uint32_t sum = steps(300, state, vram, frame);
    test(steps(300, block, memory, again) == sum && memcmp(state, block, sizeof state) == 0 && memcmp(frame, again, sizeof frame) == 0, "what goes on from a save is what went on");

    vdp_new(fresh, sizeof fresh);
    memcpy(memory, vram, sizeof memory);
    test(vdp_new(state, sizeof state) == VDP_OK && memcmp(state, fresh, sizeof fresh) == 0, "vdp_new makes any block fresh");
    test(memcmp(memory, vram, sizeof vram) == 0, "and touches no video memory");
}

/* ---- the dump of a fresh device */

static void dumps(void)
{
    static uint8_t state[VDP_STATE_SIZE], vram[VDP_VRAM_SIZE], sheet[VDP_TILESET_SIZE], row[VDP_VISIBLE_ROW_SIZE];
    int fourth = 1, left = 1, drawn = 1;
    vdp_new(state, sizeof state);
    memset(sheet, 9, sizeof sheet);
    vdp_dump_tileset(state, sizeof state, vram, sizeof vram, sheet, sizeof sheet);
    for (unsigned k = 0; k < sizeof sheet; k++) {
        fourth &= k >= sizeof sheet / 2 || sheet[k] == 0;
        left &= k < sizeof sheet / 2 || sheet[k] == 9;
    }
    test(fourth, "of a fresh device all four bytes of a pixel are 0");
    test(left, "sprite pixels of code 0 leave the sheet");
    while (!vdp_drawn(vdp_row_step(state, sizeof state, vram, sizeof vram, row, sizeof row, VDP_VISIBLE)))
        ;
    vdp_dump_tileset(state, sizeof state, vram, sizeof vram, sheet, sizeof sheet);
    for (unsigned k = 3; k < sizeof sheet / 2; k += 4)
        drawn &= sheet[k] == 255;
    test(drawn, "after a row the fourth byte is 255");
}

/* ---- refused steps, on every line of a pass */

static void refusals(void)
{
    static uint8_t state[VDP_STATE_SIZE], vram[VDP_VRAM_SIZE], pixels[VDP_EFFECTIVE_FRAME_SIZE], layers[VDP_EFFECTIVE_LAYERS_SIZE], before[VDP_STATE_SIZE];
    int nine = 1, twelve = 1, sixteen = 1, stay = 1;
    scene(state, vram);
    for (unsigned line = 0; line < 2 * VDP_CHART_PASS_STEPS; line++) {
        memcpy(before, state, sizeof state);
        for (uint8_t area = VDP_VISIBLE; area <= VDP_TRUE_EDGES; area++) {
            size_t frame = area == VDP_EFFECTIVE ? VDP_EFFECTIVE_FRAME_SIZE : VDP_VISIBLE_FRAME_SIZE, row = area == VDP_EFFECTIVE ? VDP_EFFECTIVE_ROW_SIZE : VDP_VISIBLE_ROW_SIZE;
            nine &= vdp_step(state, sizeof state, vram, sizeof vram, pixels, frame - 1, area) == VDP_REFUSED_PIXELS_LENGTH;
            nine &= vdp_row_step(state, sizeof state, vram, sizeof vram, pixels, row - 1, area) == VDP_REFUSED_PIXELS_LENGTH;
            twelve &= area == VDP_EFFECTIVE || vdp_step(state, sizeof state, vram, sizeof vram, pixels, frame + 1, area) == VDP_REFUSED_FRAME_LONG;
            sixteen &= vdp_layer_row_step(state, sizeof state, vram, sizeof vram, pixels, row, layers, row / 4 - 1, area) == VDP_REFUSED_LAYERS_LENGTH;
            sixteen &= vdp_layer_step(state, sizeof state, vram, sizeof vram, pixels, frame, layers, row / 4 - 1, area) == VDP_REFUSED_LAYERS_LENGTH;
        }
        stay &= memcmp(before, state, sizeof state) == 0;
        vdp_row_step(state, sizeof state, vram, sizeof vram, pixels, VDP_VISIBLE_ROW_SIZE, VDP_VISIBLE);
    }
    test(nine, "9 comes on every line, and with no other bit");
    test(twelve, "12 comes on every line, and with no other bit");
    test(sixteen, "16 comes on every line, and with no other bit");
    test(stay, "a refused step has moved nothing");
}

/* ---- lengths that may be longer, and alignment */

static void lengths(void)
{
    static uint8_t state[VDP_STATE_SIZE], list[VDP_LIST_SIZE + 8];
    vdp_new(state, sizeof state);
    state[VDP_AT_MARK] = 0;
    memset(list, 9, sizeof list);
    test(vdp_repair(state, sizeof state, list, sizeof list) == 1 << 8 && list[0] == VDP_AT_MARK && list[1] == 9 && list[sizeof list - 1] == 9, "the list of a repair may be longer");
}

static void alignment(void)
{
    static uint8_t room[8 * 3 + VDP_STATE_SIZE + VDP_VRAM_SIZE + VDP_VISIBLE_FRAME_SIZE];
    static uint8_t state[VDP_STATE_SIZE], vram[VDP_VRAM_SIZE], frame[VDP_VISIBLE_FRAME_SIZE];
    int same = 1;
    for (unsigned off = 0; off < 8; off++) {
        uint8_t *s = room + off, *v = s + VDP_STATE_SIZE + 1, *f = v + VDP_VRAM_SIZE + 2;
        scene(state, vram);
        memcpy(s, state, sizeof state);
        memcpy(v, vram, sizeof vram);
        memset(frame, 0, sizeof frame);
        memset(f, 0, sizeof frame);
        same &= steps(262, state, vram, frame) == steps(262, s, v, f) && memcmp(state, s, sizeof state) == 0 && memcmp(frame, f, sizeof frame) == 0;
    }
    test(same, "no buffer need be aligned");
}

/* ---- words */

static void words(void)
{
    int apart = 1;
    for (unsigned a = 0; a <= VDP_REFUSED_RECORD_ROOM + 1; a++)
        for (unsigned b = 0; b < a; b++)
            apart &= vdp_refusal_text(a)[0] != 0 && strcmp(vdp_refusal_text(a), vdp_refusal_text(b)) != 0;
    test(apart, "every refusal has words of its own");
    test(strcmp(vdp_refusal_text(VDP_REFUSED_REGISTER), "no such register") == 0 && strcmp(vdp_refusal_text(255), "unknown refusal") == 0, "and they are those of its number");
}

/* ---- threads: blocks of their own over one video memory; one block for those that only read it */

enum { THREADS = 4 };
static uint8_t shared_vram[VDP_VRAM_SIZE], shared_state[VDP_STATE_SIZE];
struct work {
    uint8_t state[VDP_STATE_SIZE], frame[VDP_VISIBLE_FRAME_SIZE], sheet[VDP_TILESET_SIZE];
    uint32_t sum;
};

static void *run(void *given)
{
    struct work *work = given;
    work->sum = steps(1000, work->state, shared_vram, work->frame);
    for (uint32_t k = 0; k < 2000; k++)
        work->sum = 31 * work->sum + (uint32_t)(vdp_pixel(shared_state, sizeof shared_state, shared_vram, sizeof shared_vram, VDP_EFFECTIVE, k % 224, k % 256) >> 32);
    vdp_dump_tileset(shared_state, sizeof shared_state, shared_vram, sizeof shared_vram, work->sheet, sizeof work->sheet);
    return NULL;
}

static void threads(void)
{
    static struct work alone, beside[THREADS];
    pthread_t thread[THREADS];
    int same = 1;
    scene(shared_state, shared_vram);
    memcpy(alone.state, shared_state, sizeof shared_state);
    for (int k = 0; k < THREADS; k++)
        memcpy(beside[k].state, shared_state, sizeof shared_state);
    run(&alone);
    for (int k = 0; k < THREADS; k++)
        if (pthread_create(&thread[k], NULL, run, &beside[k]))
            exit(2);
    for (int k = 0; k < THREADS; k++) {
        pthread_join(thread[k], NULL);
        same &= memcmp(&alone, &beside[k], sizeof alone) == 0;
    }
    test(same, "calls that share what both have const may run side by side");
}

/* ---- how the machine passes arguments and answers */

static void calls(void)
{
    static uint8_t state[VDP_STATE_SIZE], other[VDP_STATE_SIZE], vram[VDP_VRAM_SIZE];
    /* A register may hold anything above a narrow argument: so says the C of some machines, and ours takes it on all. */
    uint32_t (*wide)(uint8_t *, size_t, uint8_t *, size_t, unsigned, unsigned) =
        (uint32_t(*)(uint8_t *, size_t, uint8_t *, size_t, unsigned, unsigned))(void (*)(void))vdp_out;
    int same = 1;
    vdp_new(state, sizeof state);
    vdp_new(other, sizeof other);
    for (unsigned k = 0; k < 1000; k++) {
        uint16_t port = (uint16_t)(any() << 8 | (any() % 4 ? VDP_PORT_COMMAND : VDP_PORT_DATA));
        uint8_t value = any();
        uint32_t answer = vdp_out(state, sizeof state, vram, sizeof vram, port, value);
        same &= wide(other, sizeof other, vram, sizeof vram, port | 0xA5A50000u, value | 0x5A5A5A00u) == answer && memcmp(state, other, sizeof state) == 0;
    }
    test(same, "what stands above a narrow argument does not matter");
#ifdef __riscv
    /* An answer of 32 bits fills its register. */
    uint64_t (*filled)(const uint8_t *, size_t, size_t) = (uint64_t(*)(const uint8_t *, size_t, size_t))(void (*)(void))vdp_record_next;
    uint64_t (*stepped)(uint8_t *, size_t, const uint8_t *, size_t, uint8_t *, size_t, uint8_t) = (uint64_t(*)(uint8_t *, size_t, const uint8_t *, size_t, uint8_t *, size_t, uint8_t))(void (*)(void))vdp_row_step;
    static uint8_t row[VDP_VISIBLE_ROW_SIZE];
    int whole = filled((const uint8_t *)"PW\xFF\xFF", 4, 0) == 0x04FFFF01u;
    for (unsigned k = 0; k < 262; k++)
        whole &= stepped(state, sizeof state, vram, sizeof vram, row, sizeof row, VDP_VISIBLE) >> 32 == 0;
    test(whole, "an answer fills its register");
#endif
}

/* ---- the home machine */

/* A home machine with a picture: any video memory, any colours, high sprites, both scrolls, both locks and the fill. */
static void home_scene(uint8_t *state, uint8_t *vram)
{
    static const uint8_t set[][2] = {{0xF0, 0}, {0x62, 1}, {0xFF, 2}, {0xFF, 5}, {0xFB, 6}, {0x03, 7}, {0x05, 8}, {0x0B, 9}, {0x07, 10}};
    vdp_home_new(state, VDP_HOME_STATE_SIZE);
    for (unsigned k = 0; k < sizeof set / sizeof set[0]; k++) {
        vdp_home_out(state, VDP_HOME_STATE_SIZE, vram, VDP_VRAM_SIZE, VDP_PORT_COMMAND, set[k][0]);
        vdp_home_out(state, VDP_HOME_STATE_SIZE, vram, VDP_VRAM_SIZE, VDP_PORT_COMMAND, (uint8_t)(0x80 + set[k][1]));
    }
    vdp_home_out(state, VDP_HOME_STATE_SIZE, vram, VDP_VRAM_SIZE, VDP_PORT_COMMAND, 0);
    vdp_home_out(state, VDP_HOME_STATE_SIZE, vram, VDP_VRAM_SIZE, VDP_PORT_COMMAND, 0xC0);
    for (unsigned k = 0; k < 32; k++)
        vdp_home_out(state, VDP_HOME_STATE_SIZE, vram, VDP_VRAM_SIZE, VDP_PORT_DATA, any());
    for (unsigned k = 0; k < VDP_VRAM_SIZE; k++)
        vram[k] = any();
}

static uint32_t home_steps(unsigned count, uint8_t *state, const uint8_t *vram, uint8_t *frame)
{
    uint32_t sum = 0;
    while (count-- > 0)
        sum = 31 * sum + vdp_home_step(state, VDP_HOME_STATE_SIZE, vram, VDP_VRAM_SIZE, frame, VDP_HOME_FRAME_SIZE);
    return sum;
}

static void home_passes(void)
{
    static uint8_t state[VDP_HOME_STATE_SIZE], vram[VDP_VRAM_SIZE], frame[VDP_HOME_FRAME_SIZE], row[VDP_HOME_ROW_SIZE + 8], layers[VDP_HOME_LAYERS_SIZE + 8], block[VDP_HOME_STATE_SIZE];
    static uint8_t memory[VDP_VRAM_SIZE], again[VDP_HOME_FRAME_SIZE], other[VDP_HOME_STATE_SIZE], fresh[VDP_HOME_STATE_SIZE];
    unsigned drawn[VDP_HOME_HEIGHT] = {0}, ends = 0;
    int same = 1, filled = 1, past = 1, single = 1, stays = 1, once = 1;
    home_scene(state, vram);
    home_steps(300, state, vram, frame);
    memcpy(block, state, sizeof block);
    memcpy(memory, vram, sizeof memory);
    memcpy(again, frame, sizeof frame);
    uint32_t sum = home_steps(300, state, vram, frame);
    test(home_steps(300, block, memory, again) == sum && memcmp(state, block, sizeof state) == 0 && memcmp(frame, again, sizeof frame) == 0, "home: what goes on from a copy of block and video memory is what went on");

    vdp_home_new(fresh, sizeof fresh);
    test(vdp_home_new(block, sizeof block) == VDP_OK && memcmp(block, fresh, sizeof fresh) == 0 && fresh[VDP_HOME_AT_TABLE] == VDP_CHART_TABLE && fresh[VDP_HOME_AT_DIRTY] == 1, "home: vdp_home_new makes any block fresh, of the chart's table");
    test(vdp_home_new_table(block, sizeof block, VDP_OLD_TABLE) == VDP_OK && block[VDP_HOME_AT_TABLE] == VDP_OLD_TABLE && vdp_home_new_table(block, sizeof block, 2) == VDP_REFUSED_BLOCK, "home: and vdp_home_new_table of the table that it names, if there is one");

    /* A pass: by frame, by row, with layers and without, and pixel by pixel. */
    memset(row, 9, sizeof row);
    memset(layers, 9, sizeof layers);
    for (unsigned k = 0; k < VDP_CHART_PASS_STEPS; k++) {
        memcpy(block, state, sizeof block);
        memcpy(other, state, sizeof block);
        uint32_t answer = vdp_home_step(state, sizeof state, vram, sizeof vram, frame, sizeof frame);
        same &= vdp_home_layer_row_step(block, sizeof block, vram, sizeof vram, row, sizeof row, layers, sizeof layers) == answer && memcmp(state, block, sizeof state) == 0;
        same &= vdp_home_layer_step(other, sizeof other, vram, sizeof vram, again, sizeof again, layers, sizeof layers) == answer && memcmp(state, other, sizeof state) == 0;
        ends += vdp_report(answer) == VDP_SCREEN_DONE;
        if (!vdp_drawn(answer))
            continue;
        unsigned y = vdp_row(answer);
        drawn[y]++;
        same &= memcmp(frame + y * VDP_HOME_ROW_SIZE, row, VDP_HOME_ROW_SIZE) == 0 && memcmp(frame + y * VDP_HOME_ROW_SIZE, again + y * VDP_HOME_ROW_SIZE, VDP_HOME_ROW_SIZE) == 0;
        memcpy(block, state, sizeof block);
        for (unsigned x = 0; x < VDP_HOME_WIDTH; x++) {
            const uint8_t *four = row + 4 * x, *fill = state + VDP_HOME_AT_COLOURS + 4 * (16 + 3);
            uint64_t pixel = vdp_home_pixel(block, sizeof block, vram, sizeof vram, y, x);
            single &= vdp_refusal((uint32_t)pixel) == VDP_OK && vdp_there(pixel) && vdp_red(pixel) == four[0] && vdp_green(pixel) == four[1] && vdp_blue(pixel) == four[2] && pixel >> 56 == four[3];
            filled &= (layers[x] == VDP_LAYER_FILLED) == (x < 8) && (x >= 8 || memcmp(four, fill, 4) == 0);
        }
        stays &= memcmp(block, state, sizeof state) == 0;
    }
    for (unsigned y = 0; y < VDP_HOME_HEIGHT; y++)
        once &= drawn[y] == 1;
    for (unsigned k = 0; k < 8; k++)
        past &= row[VDP_HOME_ROW_SIZE + k] == 9 && layers[VDP_HOME_LAYERS_SIZE + k] == 9;
    test(once && ends == 1, "home: a pass draws each of the 192 rows once, and ends the screen once");
    test(same, "home: the four steps do the same");
    test(filled, "home: columns 0 to 7 are filled, with one colour of palette 1, and layer 2 says so");
    test(single, "home: every pixel alone is that of its row");
    test(stays, "home: and asking for it changes nothing");
    test(past, "home: what stands behind a row and behind its layers stays");
    test(vdp_home_pixel(state, sizeof state, vram, sizeof vram, VDP_HOME_HEIGHT, 0) == 0 && vdp_home_pixel(state, sizeof state, vram, sizeof vram, 0, VDP_HOME_WIDTH) == 0, "home: past the screen there is no pixel");
}

static void home_dumps(void)
{
    static uint8_t state[VDP_HOME_STATE_SIZE], vram[VDP_VRAM_SIZE], sheet[VDP_TILESET_SIZE], row[VDP_HOME_ROW_SIZE];
    int fourth = 1, left = 1, drawn = 1;
    vdp_home_new(state, sizeof state);
    memset(sheet, 9, sizeof sheet);
    vdp_home_dump_tileset(state, sizeof state, vram, sizeof vram, sheet, sizeof sheet);
    for (unsigned k = 0; k < sizeof sheet; k++) {
        fourth &= k >= sizeof sheet / 2 || sheet[k] == 0;
        left &= k < sizeof sheet / 2 || sheet[k] == 9;
    }
    vdp_home_row_step(state, sizeof state, vram, sizeof vram, row, sizeof row);
    vdp_home_dump_tileset(state, sizeof state, vram, sizeof vram, sheet, sizeof sheet);
    for (unsigned k = 3; k < sizeof sheet / 2; k += 4)
        drawn &= sheet[k] == 255;
    test(fourth && left && drawn, "home: the dump of a fresh device, and after a row");
}

static void home_refusals(void)
{
    static uint8_t state[VDP_HOME_STATE_SIZE], vram[VDP_VRAM_SIZE], pixels[VDP_EFFECTIVE_FRAME_SIZE], layers[VDP_HOME_LAYERS_SIZE], before[VDP_HOME_STATE_SIZE], hand[VDP_STATE_SIZE], list[VDP_LIST_SIZE];
    int all = 1, stay = 1, apart = 1;
    size_t frame = VDP_HOME_FRAME_SIZE, row = VDP_HOME_ROW_SIZE;
    home_scene(state, vram);
    for (unsigned line = 0; line < 2 * VDP_CHART_PASS_STEPS; line++) {
        memcpy(before, state, sizeof state);
        all &= vdp_home_step(state, sizeof state, vram, sizeof vram, pixels, frame - 1) == VDP_REFUSED_PIXELS_LENGTH;
        all &= vdp_home_step(state, sizeof state, vram, sizeof vram, pixels, frame + 1) == VDP_REFUSED_FRAME_LONG;
        all &= vdp_home_row_step(state, sizeof state, vram, sizeof vram, pixels, row - 1) == VDP_REFUSED_PIXELS_LENGTH;
        all &= vdp_home_layer_step(state, sizeof state, vram, sizeof vram, pixels, frame, layers, sizeof layers - 1) == VDP_REFUSED_LAYERS_LENGTH;
        all &= vdp_home_layer_row_step(state, sizeof state, vram, sizeof vram, pixels, row, layers, sizeof layers - 1) == VDP_REFUSED_LAYERS_LENGTH;
        all &= vdp_home_layer_step(state, sizeof state, vram, sizeof vram, pixels, frame + 1, layers, 0) == VDP_REFUSED_FRAME_LONG;
        all &= vdp_home_layer_row_step(state, sizeof state, vram, sizeof vram - 1, pixels, 0, layers, 0) == VDP_REFUSED_VRAM_LENGTH;
        stay &= memcmp(before, state, sizeof state) == 0;
        vdp_home_row_step(state, sizeof state, vram, sizeof vram, pixels, row);
    }
    test(all, "home: 8, 9, 12 and 16 come on every line, in their order, and with no other bit");
    test(stay, "home: a refused step has moved nothing");

    /* Neither machine takes the other's block. */
    vdp_new(hand, sizeof hand);
    apart &= vdp_home_out(hand, sizeof hand, vram, sizeof vram, VDP_PORT_COMMAND, 0) == VDP_REFUSED_BLOCK && vdp_home_input(hand, sizeof hand, vram, sizeof vram, VDP_PORT_LINE) == VDP_REFUSED_BLOCK;
    apart &= vdp_home_step(hand, sizeof hand, vram, sizeof vram, pixels, frame) == VDP_REFUSED_BLOCK && vdp_home_pixel(hand, sizeof hand, vram, sizeof vram, 0, 0) == VDP_REFUSED_BLOCK;
    apart &= vdp_home_new(hand, sizeof hand) == VDP_REFUSED_BLOCK && vdp_home_new(hand, VDP_OLD_STATE_SIZE) == VDP_REFUSED_BLOCK && vdp_home_dump_tileset(hand, sizeof hand, vram, sizeof vram, pixels, VDP_TILESET_SIZE) == VDP_REFUSED_BLOCK;
    apart &= vdp_out(state, sizeof state, vram, sizeof vram, VDP_PORT_COMMAND, 0) == VDP_REFUSED_BLOCK && vdp_input(state, sizeof state, vram, sizeof vram, VDP_PORT_LINE) == VDP_REFUSED_BLOCK;
    apart &= vdp_step(state, sizeof state, vram, sizeof vram, pixels, VDP_VISIBLE_FRAME_SIZE, VDP_VISIBLE) == VDP_REFUSED_BLOCK && vdp_pixel(state, sizeof state, vram, sizeof vram, VDP_VISIBLE, 0, 0) == VDP_REFUSED_BLOCK;
    apart &= vdp_new(state, sizeof state) == VDP_REFUSED_BLOCK && vdp_new_table(state, sizeof state, VDP_OLD_TABLE) == VDP_REFUSED_BLOCK && vdp_repair(state, sizeof state, list, sizeof list) == VDP_REFUSED_BLOCK;
    test(apart, "home: neither machine takes the other's block");
}

static void home_alignment(void)
{
    static uint8_t room[8 * 3 + VDP_HOME_STATE_SIZE + VDP_VRAM_SIZE + VDP_HOME_FRAME_SIZE];
    static uint8_t state[VDP_HOME_STATE_SIZE], vram[VDP_VRAM_SIZE], frame[VDP_HOME_FRAME_SIZE];
    int same = 1;
    for (unsigned off = 0; off < 8; off++) {
        uint8_t *s = room + off, *v = s + VDP_HOME_STATE_SIZE + 1, *f = v + VDP_VRAM_SIZE + 2;
        home_scene(state, vram);
        memcpy(s, state, sizeof state);
        memcpy(v, vram, sizeof vram);
        memset(frame, 0, sizeof frame);
        memset(f, 0, sizeof frame);
        same &= home_steps(262, state, vram, frame) == home_steps(262, s, v, f) && memcmp(state, s, sizeof state) == 0 && memcmp(frame, f, sizeof frame) == 0;
    }
    test(same, "home: no buffer need be aligned");
}

static uint8_t shared_home[VDP_HOME_STATE_SIZE];
struct home_work {
    uint8_t state[VDP_HOME_STATE_SIZE], frame[VDP_HOME_FRAME_SIZE], sheet[VDP_TILESET_SIZE];
    uint32_t sum;
};

static void *home_run(void *given)
{
    struct home_work *work = given;
    work->sum = home_steps(600, work->state, shared_vram, work->frame);
    for (uint32_t k = 0; k < 2000; k++)
        work->sum = 31 * work->sum + (uint32_t)(vdp_home_pixel(shared_home, sizeof shared_home, shared_vram, sizeof shared_vram, k % 192, k % 256) >> 32);
    vdp_home_dump_tileset(shared_home, sizeof shared_home, shared_vram, sizeof shared_vram, work->sheet, sizeof work->sheet);
    return NULL;
}

static void home_threads(void)
{
    static struct home_work alone, beside[THREADS];
    pthread_t thread[THREADS];
    int same = 1;
    home_scene(shared_home, shared_vram);
    memcpy(alone.state, shared_home, sizeof shared_home);
    for (int k = 0; k < THREADS; k++)
        memcpy(beside[k].state, shared_home, sizeof shared_home);
    home_run(&alone);
    for (int k = 0; k < THREADS; k++)
        if (pthread_create(&thread[k], NULL, home_run, &beside[k]))
            exit(2);
    for (int k = 0; k < THREADS; k++) {
        pthread_join(thread[k], NULL);
        same &= memcmp(&alone, &beside[k], sizeof alone) == 0;
    }
    test(same, "home: calls that share what both have const may run side by side");
}

static void home_calls(void)
{
    static uint8_t state[VDP_HOME_STATE_SIZE], other[VDP_HOME_STATE_SIZE], vram[VDP_VRAM_SIZE];
    uint32_t (*wide)(uint8_t *, size_t, uint8_t *, size_t, unsigned, unsigned) =
        (uint32_t(*)(uint8_t *, size_t, uint8_t *, size_t, unsigned, unsigned))(void (*)(void))vdp_home_out;
    uint32_t (*made)(uint8_t *, size_t, unsigned) = (uint32_t(*)(uint8_t *, size_t, unsigned))(void (*)(void))vdp_home_new_table;
    int same = made(state, sizeof state, 0xFFFFFF00u) == VDP_OK && state[VDP_HOME_AT_TABLE] == VDP_OLD_TABLE;
    vdp_home_new(state, sizeof state);
    vdp_home_new(other, sizeof other);
    for (unsigned k = 0; k < 1000; k++) {
        uint16_t port = (uint16_t)(any() << 8 | (any() % 4 ? VDP_PORT_COMMAND : VDP_PORT_DATA));
        uint8_t value = any();
        uint32_t answer = vdp_home_out(state, sizeof state, vram, sizeof vram, port, value);
        same &= wide(other, sizeof other, vram, sizeof vram, port | 0xA5A50000u, value | 0x5A5A5A00u) == answer && memcmp(state, other, sizeof state) == 0;
    }
    test(same, "home: what stands above a narrow argument does not matter");
#ifdef __riscv
    uint64_t (*stepped)(uint8_t *, size_t, const uint8_t *, size_t, uint8_t *, size_t) = (uint64_t(*)(uint8_t *, size_t, const uint8_t *, size_t, uint8_t *, size_t))(void (*)(void))vdp_home_row_step;
    static uint8_t row[VDP_HOME_ROW_SIZE];
    int whole = 1;
    for (unsigned k = 0; k < 262; k++)
        whole &= stepped(state, sizeof state, vram, sizeof vram, row, sizeof row) >> 32 == 0;
    test(whole, "home: an answer fills its register");
#endif
}

int main(void)
{
    saves();
    dumps();
    refusals();
    lengths();
    alignment();
    words();
    threads();
    calls();
    home_passes();
    home_dumps();
    home_refusals();
    home_alignment();
    home_threads();
    home_calls();
    printf("%d tests, %d failed\n", tests, failed);
    return failed != 0;
}
