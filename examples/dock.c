/* dock.c: a frame of the home machine with libvdp, as the dock's firmware draws it, line by line: a status bar that stands, and below it a field whose far
 * part goes sideways more slowly than its near one, since register 8 is set anew between two steps.
 *
 *   dock                         prints a line for each check
 *   dock FILE.ppm                also writes the frame as a picture (binary PPM)
 *   dock FILE.ppm FILE.trace     and what was asked of the machine as a recording, which home-trace and home-snapshot run again
 *
 * Exit status 1 if any check fails.
 */
#include "vdp.h"

#include <stdio.h>
#include <string.h>

enum {
    MAP = 0x3800, SPRITES = 0x3F00, /* where these stand in video memory */
    SPLIT = 96,                     /* the first row of the near part */
    FAR = 12, NEAR = 28,            /* how far either part has gone to the right */
    FILL = 2,                       /* the colour of palette 1 that fills columns 0 to 7 */
};

static uint8_t state[VDP_HOME_STATE_SIZE];
static uint8_t vram[VDP_VRAM_SIZE];
static uint8_t frame[VDP_HOME_FRAME_SIZE];
static uint8_t layers[VDP_HOME_LAYERS_SIZE];
static uint8_t recording[VDP_LONGEST_RECORDING];
static size_t used;
static int mistakes;

/* Prints a check and keeps its outcome. */
static void check(int good, const char *what)
{
    printf("%s  %s\n", good ? "ok  " : "FAIL", what);
    if (!good)
        mistakes++;
}

/* A call that must be accepted, and its record, which must have room. */
static void accepted(uint32_t answer, uint32_t record)
{
    if (vdp_refusal(answer) != VDP_OK || vdp_refusal(record) != VDP_OK) {
        printf("FAIL  refused: %s; recorded: %s\n", vdp_refusal_text(vdp_refusal(answer)), vdp_refusal_text(vdp_refusal(record)));
        mistakes++;
    }
    used += vdp_recorded(record);
}

static void out(uint8_t port, uint8_t value)
{
    accepted(vdp_home_out(state, sizeof state, vram, sizeof vram, port, value), vdp_record_out(recording, sizeof recording, used, port, value));
}

static uint8_t input(uint8_t port)
{
    uint32_t answer = vdp_home_input(state, sizeof state, vram, sizeof vram, port);
    accepted(answer, vdp_record_input(recording, sizeof recording, used, port));
    return vdp_byte(answer);
}

/* A step, whose row goes to its place in the frame; in a recording the home machine's steps have area 0. */
static uint32_t step(void)
{
    uint32_t answer = vdp_home_layer_step(state, sizeof state, vram, sizeof vram, frame, sizeof frame, layers, sizeof layers);
    accepted(answer, vdp_record_step(recording, sizeof recording, used, 0));
    return answer;
}

static void set_register(unsigned number, uint8_t value)
{
    out(VDP_PORT_COMMAND, value);
    out(VDP_PORT_COMMAND, (uint8_t)(0x80 + number));
}

/* The next data writes go to this address of video memory. */
static void at_video(unsigned address)
{
    out(VDP_PORT_COMMAND, (uint8_t)(address & 0xFF));
    out(VDP_PORT_COMMAND, (uint8_t)(0x40 | (address >> 8)));
}

/* Sets colour 0 to 31, which is one byte; each part is 0 to 3. */
static void set_colour(unsigned number, unsigned red, unsigned green, unsigned blue)
{
    out(VDP_PORT_COMMAND, (uint8_t)number);
    out(VDP_PORT_COMMAND, 0xC0);
    out(VDP_PORT_DATA, (uint8_t)(red | green << 2 | blue << 4));
}

/* Writes a tile of eight lines of eight codes, each a digit. */
static void set_tile(unsigned number, const char *lines)
{
    at_video(32 * number);
    for (unsigned line = 0; line < 8; line++)
        for (unsigned plane = 0; plane < 4; plane++) {
            unsigned byte = 0;
            for (unsigned column = 0; column < 8; column++)
                byte = byte << 1 | ((unsigned)(lines[8 * line + column] - '0') >> plane & 1);
            out(VDP_PORT_DATA, (uint8_t)byte);
        }
}

/* A fresh machine with colours, tiles, a map and two discs: a bar of two tile rows, sky below it, brick from tile row 12 on, and a post in every fourth column
 * of sky and brick. */
static void set_up(void)
{
    static const uint8_t registers[11] = {0x60, 0x40, 0xFF, 0xFF, 0xFF, 0xFF, 0xFF, FILL, FAR, 0, 0xFF};
    vdp_home_new(state, sizeof state);
    memset(vram, 0, sizeof vram);
    /* bit 6 of register 0 stops rows 0 to 15, bit 5 fills columns 0 to 7; the display is on */
    for (unsigned number = 0; number < 11; number++)
        set_register(number, registers[number]);

    set_colour(1, 0, 0, 1); /* the bar */
    set_colour(2, 3, 3, 3); /* its marks */
    set_colour(3, 0, 2, 3); /* sky */
    set_colour(4, 3, 2, 0); /* brick */
    set_colour(5, 2, 1, 0); /* between bricks */
    set_colour(6, 0, 2, 0); /* posts */
    set_colour(16 + 1, 3, 3, 0); /* the discs */
    set_colour(16 + FILL, 1, 1, 1);

    set_tile(0, "1111111111111111111111111111111111111111111111111111111111111111");
    set_tile(1, "1111111112222111122221111222211112222111111111111111111111111111");
    set_tile(2, "3333333333333333333333333333333333333333333333333333333333333333");
    set_tile(3, "4444444544444445444444455555555544454444444544444445444455555555");
    set_tile(4, "6666666666666666666666666666666666666666666666666666666666666666");
    set_tile(256, "0011110001111110111111111111111111111111111111110111111000111100");

    at_video(MAP);
    for (unsigned row = 0; row < 28; row++)
        for (unsigned column = 0; column < 32; column++) {
            unsigned tile = row < 2 ? row == 0 && column % 4 == 1 : column % 4 == 0 ? 4 : row < SPLIT / 8 ? 2 : 3;
            out(VDP_PORT_DATA, (uint8_t)tile);
            out(VDP_PORT_DATA, 0);
        }

    /* Y is the line above a sprite's first row: one disc over the split, one that the fill covers in part; D0 ends the list. */
    at_video(SPRITES);
    out(VDP_PORT_DATA, SPLIT - 5);
    out(VDP_PORT_DATA, 130);
    out(VDP_PORT_DATA, 0xD0);
    at_video(SPRITES + 128);
    out(VDP_PORT_DATA, 100);
    out(VDP_PORT_DATA, 0);
    out(VDP_PORT_DATA, 3);
    out(VDP_PORT_DATA, 0);
}

/* Red, green and blue of a pixel of the frame as one number. */
static unsigned long shown(unsigned row, unsigned column)
{
    const uint8_t *pixel = frame + VDP_HOME_ROW_SIZE * row + 4 * column;
    return (unsigned long)pixel[0] << 16 | (unsigned long)pixel[1] << 8 | pixel[2];
}

/* Whether the posts of a row stand where a field that has gone so far to the right has them, from the fill to the right edge, but for the disc. */
static int posts_at(unsigned row, unsigned scroll)
{
    int good = 1;
    for (unsigned column = 8; column < VDP_HOME_WIDTH; column++)
        if (column < 100 || column > 107)
            good &= (shown(row, column) == 0x00AA00) == ((column + VDP_HOME_WIDTH - scroll) % 32 < 8);
    return good;
}

static void draw_a_frame(void)
{
    unsigned drawn[VDP_HOME_HEIGHT] = {0}, ends = 0;
    int once = 1, filled = 1;

    set_up();
    /* The first pass of a fresh machine begins at line 1. From line 255 on comes one from line 0. */
    while (input(VDP_PORT_LINE) != 255)
        step();

    for (unsigned k = 0; k < VDP_CHART_PASS_STEPS; k++) {
        /* The counter reads 95: row 95 is drawn, and what is set now shows from row 96 on. (Back for the next frame, once the screen is done.) */
        uint8_t line = input(VDP_PORT_LINE);
        if (line == SPLIT - 1)
            set_register(8, NEAR);
        uint32_t answer = step();
        ends += vdp_report(answer) == VDP_SCREEN_DONE;
        if (vdp_report(answer) == VDP_SCREEN_DONE)
            set_register(8, FAR);
        if (!vdp_drawn(answer))
            continue;
        drawn[vdp_row(answer)]++;
        for (unsigned column = 0; column < VDP_HOME_WIDTH; column++)
            filled &= (layers[column] == VDP_LAYER_FILLED) == (column < 8) && (column >= 8 || shown(vdp_row(answer), column) == 0x555555);
        if (vdp_row(answer) == SPLIT)
            check(layers[104] == VDP_LAYER_SPRITE && layers[120] == VDP_LAYER_BACKGROUND, "the disc owns its columns of row 96");
    }
    for (unsigned row = 0; row < VDP_HOME_HEIGHT; row++)
        once &= drawn[row] == 1;
    check(once, "each of the 192 rows was drawn once");
    check(ends == 1, "and the screen was done once");
    check(filled, "columns 0 to 7 are filled in every row, and their layer says so");

    check(shown(1, 8) == 0x000055 && shown(1, 9) == 0xFFFFFF && shown(1, 40) == 0x000055 && shown(1, 41) == 0xFFFFFF && shown(15, 20) == 0x000055, "the bar stands, whatever the scroll is");
    check(posts_at(16, FAR) && posts_at(SPLIT - 1, FAR), "rows 16 to 95 have gone 12 to the right");
    check(posts_at(SPLIT, NEAR) && posts_at(VDP_HOME_HEIGHT - 1, NEAR), "and those from row 96 on 28");
    check(shown(SPLIT - 1, 104) == 0xFFFF00 && shown(SPLIT, 104) == 0xFFFF00, "a sprite stands over the split, which does not move it");
    check(shown(134, 7) == 0x555555 && shown(134, 8) == 0xFFFF00, "and another one comes out from under the fill");
}

/* What stands at a pixel now, with no row drawn: the far part's rows as they were, and the near part's with the far part's scroll, which is set again. */
static void cursor(void)
{
    uint64_t far = vdp_home_pixel(state, sizeof state, vram, sizeof vram, SPLIT - 1, FAR + 32);
    uint64_t near = vdp_home_pixel(state, sizeof state, vram, sizeof vram, SPLIT, FAR + 32);
    check(vdp_there(far) && vdp_green(far) == 170 && shown(SPLIT - 1, FAR + 32) == 0x00AA00, "a cursor on row 95 sees the post that was drawn there");
    check(vdp_there(near) && vdp_green(near) == 170 && shown(SPLIT, FAR + 32) != 0x00AA00, "and on row 96 what would be drawn there now");
    check(vdp_home_pixel(state, sizeof state, vram, sizeof vram, VDP_HOME_HEIGHT, 0) == 0, "below the screen there is no pixel");
}

/* Writes the frame as a binary PPM; answers whether it could. */
static int write_picture(const char *name)
{
    FILE *file = fopen(name, "wb");
    if (!file)
        return 0;
    fprintf(file, "P6\n%d %d\n255\n", VDP_HOME_WIDTH, VDP_HOME_HEIGHT);
    for (unsigned pixel = 0; pixel < VDP_HOME_WIDTH * VDP_HOME_HEIGHT; pixel++)
        fwrite(frame + 4 * pixel, 1, 3, file);
    int wrong = ferror(file);
    return fclose(file) == 0 && !wrong;
}

static int write_recording(const char *name)
{
    FILE *file = fopen(name, "wb");
    if (!file)
        return 0;
    int whole = fwrite(recording, 1, used, file) == used;
    return fclose(file) == 0 && whole;
}

int main(int count, char **words)
{
    check(vdp_version() == VDP_VERSION, "the library is the header's own");
    draw_a_frame();
    cursor();
    if (count > 1)
        check(write_picture(words[1]), "the frame is written as a picture");
    if (count > 2)
        check(write_recording(words[2]), "and the calls as a recording");
    check(vdp_out(state, sizeof state, vram, sizeof vram, VDP_PORT_COMMAND, 0) == VDP_REFUSED_BLOCK, "the handheld's calls do not take a home block (10)");
    printf("dock: %s\n", mistakes ? "mistakes were found" : "all as it should be");
    return mistakes ? 1 : 0;
}
