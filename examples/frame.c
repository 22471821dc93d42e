/* frame.c: draws a frame with libvdp, all through the ports, asks a cursor what stands at a pixel, and answers
 * the author's question.
 *
 *   frame            prints a line for each check
 *   frame FILE.ppm   also writes the frame as a picture (binary PPM)
 *
 * Exit status 1 if any check fails.
 */
#include "vdp.h"

#include <stdio.h>
#include <string.h>

static uint8_t state[VDP_STATE_SIZE];
static uint8_t vram[VDP_VRAM_SIZE];
static uint8_t frame[VDP_VISIBLE_FRAME_SIZE];
static uint8_t screen[VDP_EFFECTIVE_FRAME_SIZE];
static int mistakes;

/* Prints a check and keeps its outcome. */
static void check(int good, const char *what)
{
    printf("%s  %s\n", good ? "ok  " : "FAIL", what);
    if (!good)
        mistakes++;
}

/* A port write that must be accepted. */
static void out(uint16_t port, uint8_t value)
{
    uint32_t answer = vdp_out(state, sizeof state, vram, sizeof vram, port, value);
    if (vdp_refusal(answer) != VDP_OK) {
        printf("FAIL  write of %02X to port %02X: refusal %u, %s\n", value, port, vdp_refusal(answer), vdp_refusal_text(vdp_refusal(answer)));
        mistakes++;
    }
}

static void set_register(unsigned number, uint8_t value)
{
    out(VDP_PORT_COMMAND, value);
    out(VDP_PORT_COMMAND, (uint8_t)(0x80 + number));
}

/* The next data writes go to this address of video memory. */
static void at_video(unsigned address)
{
    out(VDP_PORT_COMMAND, (uint8_t)(address & 0xFF));
    out(VDP_PORT_COMMAND, (uint8_t)(0x40 | (address >> 8)));
}

/* Sets colour 0 to 31; each part is 0 to 15. */
static void set_colour(unsigned number, unsigned red, unsigned green, unsigned blue)
{
    out(VDP_PORT_COMMAND, (uint8_t)(2 * number));
    out(VDP_PORT_COMMAND, 0xC0);
    out(VDP_PORT_DATA, (uint8_t)(red | green << 4));
    out(VDP_PORT_DATA, (uint8_t)blue);
}

/* Writes a tile whose pixels all have one code, but for an edge of another. */
static void framed_tile(unsigned number, unsigned code, unsigned edge)
{
    at_video(32 * number);
    for (unsigned line = 0; line < 8; line++)
        for (unsigned plane = 0; plane < 4; plane++) {
            unsigned inside = (code >> plane & 1) ? 0x7E : 0;
            unsigned sides = (edge >> plane & 1) ? 0x81 : 0;
            unsigned whole = (edge >> plane & 1) ? 0xFF : 0;
            out(VDP_PORT_DATA, (uint8_t)(line == 0 || line == 7 ? whole : inside | sides));
        }
}

/* One step of the visible area; answers its word. */
static uint32_t step(void)
{
    return vdp_step(state, sizeof state, vram, sizeof vram, frame, sizeof frame, VDP_VISIBLE);
}

/* A fresh device with the names at 3800, the sprites at 3F00, the display on, and tile 1 everywhere. */
static void set_up(void)
{
    check(vdp_new(state, sizeof state) == VDP_OK, "a fresh device");
    memset(vram, 0, sizeof vram);
    set_register(1, 0x40);
    set_register(2, 0x0E);
    set_register(5, 0x7E);
    set_register(6, 0x00);
    at_video(0x3800);
    for (unsigned name = 0; name < 32 * 28; name++) {
        out(VDP_PORT_DATA, 1);
        out(VDP_PORT_DATA, 0);
    }
    at_video(0x3F00);
    out(VDP_PORT_DATA, 0xD0);
}

static int pixel_is(unsigned x, unsigned y, unsigned red, unsigned green, unsigned blue)
{
    const uint8_t *pixel = frame + 4 * (VDP_VISIBLE_WIDTH * y + x);
    return pixel[0] == 17 * red && pixel[1] == 17 * green && pixel[2] == 17 * blue && pixel[3] == 255;
}

static int row_is(unsigned y, unsigned red, unsigned green, unsigned blue)
{
    for (unsigned x = 0; x < VDP_VISIBLE_WIDTH; x++)
        if (!pixel_is(x, y, red, green, blue))
            return 0;
    return 1;
}

/* A frame with background and sprites; each row and the screen's end must come exactly once. */
static void draw_a_frame(void)
{
    unsigned drawn[VDP_VISIBLE_HEIGHT] = {0};
    unsigned ends = 0, refused = 0, once = 0;

    set_up();
    framed_tile(1, 1, 2);
    framed_tile(2, 3, 4);
    set_colour(1, 2, 4, 8);   /* background, inside */
    set_colour(2, 3, 6, 12);  /* background, edge */
    set_colour(19, 15, 3, 3); /* sprites, inside */
    set_colour(20, 15, 15, 0);/* sprites, edge */
    /* eight sprites down a diagonal, tile 2, then the end of the list */
    at_video(0x3F00);
    for (unsigned n = 0; n < 8; n++)
        out(VDP_PORT_DATA, (uint8_t)(24 + 16 * n));
    out(VDP_PORT_DATA, 0xD0);
    at_video(0x3F80);
    for (unsigned n = 0; n < 8; n++) {
        out(VDP_PORT_DATA, (uint8_t)(48 + 16 * n));
        out(VDP_PORT_DATA, 2);
    }
    for (unsigned n = 0; n < VDP_CHART_PASS_STEPS; n++) {
        uint32_t answer = step();
        refused += vdp_refusal(answer) != VDP_OK;
        ends += vdp_report(answer) == VDP_SCREEN_DONE;
        if (vdp_drawn(answer) && vdp_row(answer) < VDP_VISIBLE_HEIGHT)
            drawn[vdp_row(answer)]++;
    }
    for (unsigned y = 0; y < VDP_VISIBLE_HEIGHT; y++)
        once += drawn[y] == 1;
    check(refused == 0, "262 steps accepted");
    check(once == VDP_VISIBLE_HEIGHT, "each of the 144 rows drawn exactly once");
    check(ends == 1, "the screen's end reported exactly once");
    check(pixel_is(100, 4, 2, 4, 8) && pixel_is(96, 4, 3, 6, 12), "the background: inside and edge of a tile");
    check(pixel_is(4, 5, 15, 3, 3) && pixel_is(0, 1, 15, 15, 0), "the first sprite: inside and edge");
    check(pixel_is(0, 0, 3, 6, 12) && pixel_is(4, 10, 2, 4, 8), "no sprite above it or below it");
    check(pixel_is(116, 117, 15, 3, 3), "the eighth sprite");
}

/* The layer that owns a pixel of the row as it would be drawn now: a step of a copy, whose counter is just before the row's line. */
static unsigned layer_at(unsigned x, unsigned y)
{
    uint8_t copy[VDP_STATE_SIZE], row[VDP_VISIBLE_ROW_SIZE], layers[VDP_VISIBLE_LAYERS_SIZE] = {0};

    memcpy(copy, state, sizeof state);
    copy[VDP_AT_COUNTER] = (uint8_t)(y + 23);
    vdp_layer_row_step(copy, sizeof copy, vram, sizeof vram, row, sizeof row, layers, sizeof layers, VDP_VISIBLE);
    return layers[x];
}

/* A debugger's cursor: prints the colour and the layer under a pixel; answers whether they are these. */
static int cursor(unsigned x, unsigned y, unsigned red, unsigned green, unsigned blue, unsigned layer)
{
    uint64_t pixel = vdp_pixel(state, sizeof state, vram, sizeof vram, VDP_VISIBLE, y, x);
    unsigned owner = layer_at(x, y);

    printf("      cursor at row %u, column %u: red %u, green %u, blue %u, ", y, x, vdp_red(pixel), vdp_green(pixel), vdp_blue(pixel));
    if (owner >= VDP_LAYER_SPRITE)
        printf("sprite %u\n", owner - VDP_LAYER_SPRITE);
    else
        printf("background%s\n", owner == VDP_LAYER_HELD_BACK ? ", which holds a sprite back" : "");
    return owner == layer && vdp_refusal((uint32_t)pixel) == VDP_OK && vdp_there(pixel) && vdp_red(pixel) == 17 * red && vdp_green(pixel) == 17 * green
           && vdp_blue(pixel) == 17 * blue;
}

/* The cursor on the frame that was drawn: a sprite, the background, every pixel, and none. */
static void cursor_on_a_frame(void)
{
    uint8_t kept[VDP_STATE_SIZE];
    unsigned same = 0;

    memcpy(kept, state, sizeof state);
    check(cursor(4, 5, 15, 3, 3, VDP_LAYER_SPRITE + 0) && cursor(0, 1, 15, 15, 0, VDP_LAYER_SPRITE + 0), "the cursor on the first sprite: inside and edge");
    check(cursor(100, 4, 2, 4, 8, VDP_LAYER_BACKGROUND), "the cursor on the background");
    for (unsigned y = 0; y < VDP_VISIBLE_HEIGHT; y++)
        for (unsigned x = 0; x < VDP_VISIBLE_WIDTH; x++) {
            uint64_t pixel = vdp_pixel(state, sizeof state, vram, sizeof vram, VDP_VISIBLE, y, x);
            const uint8_t *drawn = frame + 4 * (VDP_VISIBLE_WIDTH * y + x);
            same += vdp_there(pixel) && vdp_red(pixel) == drawn[0] && vdp_green(pixel) == drawn[1] && vdp_blue(pixel) == drawn[2];
        }
    check(same == VDP_VISIBLE_WIDTH * VDP_VISIBLE_HEIGHT, "the cursor at every pixel finds what the frame shows");
    check(vdp_pixel(state, sizeof state, vram, sizeof vram, VDP_VISIBLE, VDP_VISIBLE_HEIGHT, 0) == 0, "below the last row there is no pixel");
    check(vdp_pixel(state, sizeof state, vram, sizeof vram - 1, VDP_VISIBLE, 0, 0) == VDP_REFUSED_VRAM_LENGTH, "the cursor is refused short video memory (8)");
    check(memcmp(kept, state, sizeof state) == 0, "the cursor changes nothing");
}

/* Colour 3 is changed when the line counter reads 90. Which pixels change? */
static void authors_question(void)
{
    unsigned lines = 0, old_rows = 0, new_rows = 0;

    set_up();
    framed_tile(1, 3, 3);
    set_colour(3, 15, 0, 0);
    memset(frame, 0, sizeof frame);
    for (unsigned n = 0; n < VDP_CHART_PASS_STEPS; n++) {
        step();
        uint32_t answer = vdp_input(state, sizeof state, vram, sizeof vram, VDP_PORT_LINE);
        if (vdp_refusal(answer) == VDP_OK && vdp_byte(answer) == 90) {
            lines++;
            set_colour(3, 0, 0, 15);
        }
    }
    for (unsigned y = 0; y < VDP_VISIBLE_HEIGHT; y++) {
        old_rows += y <= 66 && row_is(y, 15, 0, 0);
        new_rows += y >= 67 && row_is(y, 0, 0, 15);
    }
    check(lines == 1, "the counter reads 90 once in a pass");
    check(row_is(66, 15, 0, 0), "colour 3 changed at 90: row 66 has the old colour");
    check(row_is(67, 0, 0, 15), "colour 3 changed at 90: row 67 has the new colour");
    check(old_rows == 67 && new_rows == 77, "rows 0 to 66 are old, rows 67 to 143 are new");
}

/* The layers of row 0: sprite 0 in front of a plain tile, sprite 1 behind a tile of priority, and sprite 2 half behind it. */
static void layers_of_a_row(void)
{
    uint8_t layers[VDP_VISIBLE_LAYERS_SIZE + 1], row[VDP_VISIBLE_ROW_SIZE];
    unsigned right = 0;
    uint32_t answer;

    set_up();
    framed_tile(1, 1, 1);
    framed_tile(2, 3, 3);
    set_colour(1, 2, 4, 8);   /* background */
    set_colour(19, 15, 3, 3); /* sprites */
    /* columns 16 to 23 of row 0 are those of name 8 of the map's row 3; its priority bit */
    at_video(0x3800 + 64 * 3 + 2 * 8 + 1);
    out(VDP_PORT_DATA, 0x10);
    at_video(0x3F00);
    for (unsigned n = 0; n < 3; n++)
        out(VDP_PORT_DATA, 23);
    out(VDP_PORT_DATA, 0xD0);
    at_video(0x3F80);
    for (unsigned n = 0; n < 3; n++) {
        out(VDP_PORT_DATA, (uint8_t)(48 + (n == 0 ? 0 : n == 1 ? 16 : 20)));
        out(VDP_PORT_DATA, 2);
    }
    memset(layers, 0xEE, sizeof layers);
    memset(frame, 0, sizeof frame);
    do
        answer = vdp_layer_step(state, sizeof state, vram, sizeof vram, frame, sizeof frame, layers, sizeof layers, VDP_VISIBLE);
    while (vdp_refusal(answer) == VDP_OK && !vdp_drawn(answer) && layers[0] == 0xEE);
    check(vdp_drawn(answer) && vdp_row(answer) == 0, "a step with layers: row 0 is drawn, and no layer is told before");
    for (unsigned x = 0; x < VDP_VISIBLE_WIDTH; x++) {
        unsigned layer = x < 8               ? VDP_LAYER_SPRITE + 0
                         : x >= 16 && x < 24 ? VDP_LAYER_HELD_BACK
                         : x >= 24 && x < 28 ? VDP_LAYER_SPRITE + 2
                                             : VDP_LAYER_BACKGROUND;
        int sprite = layer >= VDP_LAYER_SPRITE;
        right += layers[x] == layer && pixel_is(x, 0, sprite ? 15 : 2, sprite ? 3 : 4, sprite ? 3 : 8);
    }
    check(right == VDP_VISIBLE_WIDTH && layers[VDP_VISIBLE_WIDTH] == 0xEE, "each column's layer: drawn, held back, background");
    check(vdp_layer_row_step(state, sizeof state, vram, sizeof vram, row, sizeof row, layers, VDP_VISIBLE_LAYERS_SIZE - 1, VDP_VISIBLE)
              == VDP_REFUSED_LAYERS_LENGTH,
          "a short layer buffer is refused (16)");
    answer = vdp_layer_row_step(state, sizeof state, vram, sizeof vram, row, sizeof row, layers, VDP_VISIBLE_LAYERS_SIZE, VDP_VISIBLE);
    check(vdp_row(answer) == 1 && layers[16] == VDP_LAYER_HELD_BACK && layers[27] == VDP_LAYER_SPRITE + 2 && row[4 * 27] == 17 * 15,
          "the same by a row step");
}

/* True edges: with the early clock a sprite at X 208 has its eight columns at 152 to 159; the visible area leaves it out. */
static void true_edges(void)
{
    uint8_t copy[VDP_STATE_SIZE], row[VDP_VISIBLE_ROW_SIZE], plain[VDP_VISIBLE_ROW_SIZE];
    unsigned sprite = 0, same = 0;

    set_up();
    framed_tile(1, 1, 1);
    framed_tile(2, 3, 3);
    set_colour(1, 2, 4, 8);   /* background */
    set_colour(19, 15, 3, 3); /* the sprite */
    set_register(0, 0x08);
    at_video(0x3F00);
    out(VDP_PORT_DATA, 23);
    out(VDP_PORT_DATA, 0xD0);
    at_video(0x3F80);
    out(VDP_PORT_DATA, 208);
    out(VDP_PORT_DATA, 2);
    state[VDP_AT_COUNTER] = 23;
    memcpy(copy, state, sizeof state);
    check(vdp_row(vdp_row_step(copy, sizeof copy, vram, sizeof vram, plain, sizeof plain, VDP_VISIBLE)) == 0
              && vdp_drawn(vdp_row_step(state, sizeof state, vram, sizeof vram, row, sizeof row, VDP_TRUE_EDGES)),
          "row 0 by the visible area, and with true edges");
    for (unsigned x = 0; x < VDP_VISIBLE_WIDTH; x++) {
        uint64_t pixel = vdp_pixel(state, sizeof state, vram, sizeof vram, VDP_TRUE_EDGES, 0, x);
        sprite += x >= 152 && row[4 * x] == 17 * 15 && plain[4 * x] == 17 * 2 && vdp_red(pixel) == 17 * 15;
        same += x < 152 && memcmp(row + 4 * x, plain + 4 * x, 4) == 0;
    }
    check(sprite == 8 && same == 152, "X 208 with the early clock shows at columns 152 to 159, and with true edges alone");
}

/* The lines that the counter reads in a pass of this many steps, from line 0 on: are they those of the table? */
static int pass_is(unsigned steps, unsigned last_before_the_jump)
{
    unsigned expected = 0, right = 1;

    for (unsigned n = 0; n < steps; n++) {
        uint32_t answer = vdp_input(state, sizeof state, vram, sizeof vram, VDP_PORT_LINE);
        right &= vdp_refusal(answer) == VDP_OK && vdp_byte(answer) == expected;
        expected = n == last_before_the_jump ? 0xD5 : expected + 1;
        step();
    }
    return right && vdp_byte(vdp_input(state, sizeof state, vram, sizeof vram, VDP_PORT_LINE)) == 0;
}

/* Both tables, and a block of the first version beside one of the second. */
static void tables(void)
{
    uint8_t old[VDP_OLD_STATE_SIZE], kept[VDP_STATE_SIZE];

    check(vdp_new_table(state, sizeof state, VDP_OLD_TABLE) == VDP_OK && pass_is(VDP_OLD_PASS_STEPS, 0xD9),
          "table 0: 00 to D9, D5 to FF, 261 steps");
    check(vdp_new_table(state, sizeof state, VDP_CHART_TABLE) == VDP_OK && pass_is(VDP_CHART_PASS_STEPS, 0xDA),
          "table 1: 00 to DA, D5 to FF, 262 steps");
    check(state[VDP_AT_TABLE] == VDP_CHART_TABLE && state[VDP_AT_MARK + 1] == 0x54, "and the block keeps its version and its table");
    check(vdp_new_table(old, sizeof old, VDP_OLD_TABLE) == VDP_OK && old[VDP_AT_MARK + 1] == 0x53, "a block of the first version");
    check(vdp_row_step(old, sizeof old, vram, sizeof vram, frame, sizeof frame, VDP_VISIBLE) == VDP_OK && old[VDP_AT_MARK + 1] == 0x53
              && old[VDP_AT_COUNTER] == 1,
          "steps on in its own version");
    memcpy(kept, old, sizeof old);
    check(vdp_new_table(old, sizeof old, VDP_CHART_TABLE) == VDP_REFUSED_BLOCK && memcmp(kept, old, sizeof old) == 0,
          "table 1 in it is refused (10), and it stays");
    check(vdp_new_table(state, sizeof state, 2) == VDP_REFUSED_BLOCK, "table 2 is refused (10)");
}

/* What is refused leaves all as it was. */
static void refusals(void)
{
    uint8_t kept[VDP_STATE_SIZE];

    check(vdp_new(state, VDP_OLD_STATE_SIZE) == VDP_REFUSED_BLOCK, "a block that has no room for a table is refused (10)");
    vdp_new(state, sizeof state);
    memcpy(kept, state, sizeof state);
    check(vdp_step(state, sizeof state, vram, sizeof vram, frame, sizeof frame, 3) == VDP_REFUSED_AREA, "area 3 is refused (11)");
    check(vdp_step(state, sizeof state, vram, sizeof vram - 1, frame, sizeof frame, VDP_VISIBLE) == VDP_REFUSED_VRAM_LENGTH,
          "short video memory is refused (8)");
    check(vdp_step(state, sizeof state, vram, sizeof vram, frame, sizeof frame - 1, VDP_VISIBLE) == VDP_REFUSED_PIXELS_LENGTH,
          "a short frame is refused (9)");
    check(vdp_step(state, sizeof state, vram, sizeof vram, screen, sizeof screen, VDP_VISIBLE) == VDP_REFUSED_FRAME_LONG,
          "a visible step on an effective frame is refused (12)");
    check(vdp_input(state, sizeof state, vram, sizeof vram, 0x7F) == VDP_REFUSED_HORIZONTAL, "port 7F is refused (2)");
    check(memcmp(kept, state, sizeof state) == 0, "and the state block is as it was");
}

/* Writes the frame as a binary PPM; answers whether it could. */
static int write_picture(const char *name)
{
    FILE *file = fopen(name, "wb");
    if (!file)
        return 0;
    fprintf(file, "P6\n%d %d\n255\n", VDP_VISIBLE_WIDTH, VDP_VISIBLE_HEIGHT);
    for (unsigned pixel = 0; pixel < VDP_VISIBLE_WIDTH * VDP_VISIBLE_HEIGHT; pixel++)
        fwrite(frame + 4 * pixel, 1, 3, file);
    int wrong = ferror(file);
    return fclose(file) == 0 && !wrong;
}

int main(int count, char **words)
{
    check(vdp_version() == VDP_VERSION, "the library is the header's own");
    draw_a_frame();
    if (count > 1)
        check(write_picture(words[1]), "the frame is written as a picture");
    cursor_on_a_frame();
    authors_question();
    layers_of_a_row();
    true_edges();
    tables();
    refusals();
    printf("frame: %s\n", mistakes ? "mistakes were found" : "all as it should be");
    return mistakes ? 1 : 0;
}
