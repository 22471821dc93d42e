/* vdp.h: the C face of libvdp, the video chip of the handheld, and of the home machine that the dock plays. For C99 and C++11, or later.
 *
 * The library keeps nothing of its own and asks nothing of a system. The caller owns and lends
 *   - the state block: 220 bytes, or 219 of the first version: the whole device but its video memory (layout below);
 *   - or, of a home machine, a home block of 186 bytes, for the calls vdp_home_...;
 *   - the video memory: exactly 16,384 bytes;
 *   - a frame, a row or a tile sheet that a call draws into; the layers of a row; the codes of a tile; a recording.
 * A lent buffer is a pointer and a length in bytes; no alignment is needed. The buffers of one call must not overlap, and each
 * must be readable (and writable, where it is not const) over its whole length. A buffer of length 0 may have any pointer.
 *
 * A save is the state block and the video memory: keep both, and put both back. (docs/SAVES.md tells what stands in a block.)
 * A reset is vdp_new, or vdp_new_table, on the same block. Neither touches the video memory: clear it, or leave it, as the
 * machine does that you play. (A home block is no save format: see there.) What the command bytes are is told in section 3 of
 * docs/RULES.md; what the registers do, and how the video memory is laid out (map, tiles, sprites), in section 5; lines and
 * interrupts are in section 4; the home machine is in section 20.
 *
 * Every call ends, for any bytes in any of them, and answers one 32-bit word (vdp_pixel and vdp_home_pixel, see there, one of 64 bits):
 *   bits 0 to 7    refusal (VDP_OK and so on, below; vdp_refusal_text has them in words)
 *   a port read:   bits 8 to 15   the byte that was read, 0 on a refusal
 *   the steps:     bit 8          interrupt
 *                  bits 9, 10     display report (VDP_NO_DISPLAY and so on)
 *                  bits 16 to 23  the number of the row that was drawn, 0 if none
 *                  bit 24         a row was drawn
 *   all other bits are 0, and of a refused call all bits but those of its refusal. (vdp_repair and the calls on a recording,
 *   see there, have answers of their own.)
 *
 * How long an interrupt stays up: bit 8 is the answer of that one step, and nothing is kept of it.
 *   - A line interrupt (register 0, bit 4) is told by the step that finds the line count at 0, and not again: with
 *     register 10 at N that is every N + 1 lines from 0 to 193, and after them only with N at 0, by every step. A
 *     caller that lets it pass does not see it later; reading the status does not touch it.
 *   - A frame interrupt (register 1, bit 5) is told by the step that sets the counter to C1 and by every step after
 *     it, also in the next pass, until the status is read (VDP_PORT_COMMAND), which clears its bit 7. While register 1
 *     bit 5 is 0 it is not told, but the status keeps its bit: set later, the next step tells it.
 *
 * Stack: no call recurses. That none needs more than VDP_STACK_NEED bytes is measured (see there), and not proved.
 *
 * Linking: the library calls memcpy and memset, and nothing else. A C library has them; on a bare machine, which has none, the
 * archives for it (make native TARGET=aarch64-none and the like) bring their own.
 *
 * Threads: two calls may run at the same time where every buffer that they share is const in both. So calls on different blocks
 * may run side by side, also over one video memory as long as each only reads it (the steps, vdp_input, vdp_pixel,
 * vdp_dump_tileset and vdp_read_tile do), and on one block vdp_pixel and vdp_dump_tileset; so it is of the home machine's calls;
 * a buffer that one of them may write is that call's alone, over its whole length.
 */
#ifndef HUMUSLOFT_VDP_H
#define HUMUSLOFT_VDP_H

#include <stddef.h>
#include <stdint.h>

#ifdef __cplusplus
extern "C" {
#endif

/* The number of this face, 65536 * major + 256 * minor + small; vdp_version() gives that of the library at hand. Major goes
 * up where a program that was right may have to change, minor where calls are added, small where neither is so. */
#define VDP_VERSION_MAJOR 4
#define VDP_VERSION_MINOR 6
#define VDP_VERSION_SMALL 0
#define VDP_VERSION (65536 * VDP_VERSION_MAJOR + 256 * VDP_VERSION_MINOR + VDP_VERSION_SMALL)

/* Stack in bytes: the deepest that was measured (tests/stack.c) is about 2,200, on x86-64, on Arm of 64 and of 32 bits, and on riscv64. */
#define VDP_STACK_NEED 4096

/* Sizes in bytes. A row, its layers and the list of a repair may be longer (the bytes past their size never change), a
 * recording has any length; all others are exact. */
#define VDP_STATE_SIZE           220    /* a state block of the second version */
#define VDP_OLD_STATE_SIZE       219    /* of the first, which holds a device of VDP_OLD_TABLE alone */
#define VDP_VRAM_SIZE            16384
#define VDP_VISIBLE_FRAME_SIZE   92160  /* 160 x 144 pixels of 4 bytes; of VDP_TRUE_EDGES too, as are the other visible sizes */
#define VDP_EFFECTIVE_FRAME_SIZE 229376 /* 256 x 224 pixels of 4 bytes */
#define VDP_VISIBLE_ROW_SIZE     640
#define VDP_EFFECTIVE_ROW_SIZE   1024
#define VDP_VISIBLE_LAYERS_SIZE  160    /* a byte for each pixel of a row */
#define VDP_EFFECTIVE_LAYERS_SIZE 256
#define VDP_TILESET_SIZE         131072 /* 128 x 256 pixels of 4 bytes: 512 tiles, 16 across */
#define VDP_LIST_SIZE            220    /* the list of a repair */
#define VDP_TILE_CODES           64     /* the codes of a tile, 0 to 15, row by row */
#define VDP_HOME_STATE_SIZE      186    /* a home block */
#define VDP_HOME_FRAME_SIZE      196608 /* 256 x 192 pixels of 4 bytes */
#define VDP_HOME_ROW_SIZE        1024
#define VDP_HOME_LAYERS_SIZE     256

/* Sizes in pixels. A pixel is four bytes: red, green, blue, 255. */
#define VDP_VISIBLE_WIDTH    160
#define VDP_VISIBLE_HEIGHT   144
#define VDP_EFFECTIVE_WIDTH  256
#define VDP_EFFECTIVE_HEIGHT 224
#define VDP_TILESET_WIDTH    128
#define VDP_TILESET_HEIGHT   256
#define VDP_HOME_WIDTH       256
#define VDP_HOME_HEIGHT      192

/* Tiles in video memory, 32 bytes each. */
#define VDP_TILES 512

/* Line tables, by which the counter goes: 00 to D9 and then D5 to FF, or, as the counter chart for 192 lines has it, 00 to DA and then D5 to FF. A
 * device keeps the table that it is made with. */
#define VDP_OLD_TABLE   0
#define VDP_CHART_TABLE 1

/* Steps from one line 0 to the next, by either. */
#define VDP_OLD_PASS_STEPS   261
#define VDP_CHART_PASS_STEPS 262

/* Areas. */
#define VDP_VISIBLE   0 /* the handheld's 160 x 144 window: row r is drawn by the step that sets the counter to r + 24 */
#define VDP_EFFECTIVE 1 /* the whole 256 x 224 screen: row r is drawn by the step that sets the counter to r */
#define VDP_TRUE_EDGES 2 /* the window with true edges, in the sizes and rows of VDP_VISIBLE: priority and collision go by the screen column, also at a
                          * scrolled left edge, and a sprite's pixels show wherever they fall on the screen, X 208 to 215 with the early clock too */

/* Ports. Only the low byte of a port number counts. */
#define VDP_PORT_LINE    0x7E /* read: the line counter */
#define VDP_PORT_DATA    0xBE /* read, write: the chosen memory */
#define VDP_PORT_COMMAND 0xBF /* write: command bytes; read: the status, which clears it */

/* Layers: which of them owns a pixel of the row. Where sprite n, 0 to 63, was the last one drawn it is VDP_LAYER_SPRITE + n. */
#define VDP_LAYER_BACKGROUND 0  /* the background, and no sprite was held back behind it */
#define VDP_LAYER_HELD_BACK  1  /* the background, whose priority held back a pixel of one sprite or more; none was drawn */
#define VDP_LAYER_FILLED     2  /* the home machine alone: columns 0 to 7 where register 0 bit 5 fills them, whatever stands under it */
#define VDP_LAYER_SPRITE     64

/* Refusals. "Unchanged" means every byte of every buffer; "latch empty" means that only the command latch is emptied. */
#define VDP_OK                    0  /* accepted */
#define VDP_REFUSED_PORT          1  /* the port is unknown: unchanged */
#define VDP_REFUSED_HORIZONTAL    2  /* read of port 7F, the horizontal counter: unchanged */
#define VDP_REFUSED_REGISTER      3  /* command to a register above 10: latch empty */
#define VDP_REFUSED_NO_MEMORY     4  /* data port while no memory is chosen: latch empty */
#define VDP_REFUSED_PALETTE_READ  5  /* data read while the palette is chosen: latch empty */
#define VDP_REFUSED_PALETTE_HALF  6  /* data write at an odd palette address, palette latch empty: latch empty */
#define VDP_REFUSED_ADDRESS       7  /* address outside the chosen memory (only in a block made by hand): latch empty */
#define VDP_REFUSED_VRAM_LENGTH   8  /* video memory not exactly VDP_VRAM_SIZE bytes: unchanged */
#define VDP_REFUSED_PIXELS_LENGTH 9  /* frame or row too short, or sheet not exactly VDP_TILESET_SIZE bytes: unchanged */
#define VDP_REFUSED_BLOCK         10 /* state block malformed: unchanged */
#define VDP_REFUSED_AREA          11 /* area number above 2: unchanged */
#define VDP_REFUSED_FRAME_LONG    12 /* frame longer than its area's size, or than VDP_HOME_FRAME_SIZE: unchanged */
#define VDP_REFUSED_TILE          13 /* tile number above 511: unchanged */
#define VDP_REFUSED_CODES_LENGTH  14 /* codes not exactly VDP_TILE_CODES bytes: unchanged */
#define VDP_REFUSED_CODE          15 /* a code above 15: unchanged */
#define VDP_REFUSED_LAYERS_LENGTH 16 /* layer buffer with fewer bytes than a row has pixels: unchanged */
#define VDP_REFUSED_LIST_LENGTH   17 /* list of a repair under VDP_LIST_SIZE bytes: unchanged */
#define VDP_REFUSED_RECORD_ROOM   18 /* a record is longer than the room left in the recording: unchanged */

/* What stands at an offset of a recording. */
#define VDP_RECORD_END   0 /* nothing more */
#define VDP_RECORD_OUT   1 /* a port write: 'P' 'W' port value */
#define VDP_RECORD_INPUT 2 /* a port read: 'P' 'R' port */
#define VDP_RECORD_STEP  3 /* a step: 'L' 'S' area */
#define VDP_RECORD_BAD   4 /* none of these, or cut */

/* The longest recording that the trace programs run. */
#define VDP_LONGEST_RECORDING 65535

/* Display reports of a step. */
#define VDP_NO_DISPLAY             0
#define VDP_SCREEN_DONE            1 /* the screen's end, with the display on (register 1, bit 6) */
#define VDP_SCREEN_DONE_NO_REFRESH 2 /* the screen's end, with the display off */

/* The state block, by offset. Its length tells its version: 219 bytes are the first, which reads as VDP_OLD_TABLE, and 220 the second. A call
 * writes a block back in the version that it was given. A block is malformed (refusal 10) if its length is another, its mark is not that of its
 * length, a flag or the table is above 1, chosen is above 2, or a latched byte is not 0 while its flag is 0. */
#define VDP_AT_MARK            0  /* two bytes (hex): 56 53 in the first version, 56 54 in the second */
#define VDP_AT_STATUS          2  /* bit 7 screen end, bit 6 ninth sprite, bit 5 collision */
#define VDP_AT_REGISTERS       3  /* 11 bytes, registers 0 to 10 */
#define VDP_AT_COUNTER         14 /* the line counter */
#define VDP_AT_JUMPED          15 /* flag: the counter has jumped back in this pass */
#define VDP_AT_LINE_COUNT      16 /* counts down to the next line interrupt */
#define VDP_AT_ADDRESS         17 /* two bytes, low then high */
#define VDP_AT_READ_BUFFER     19 /* what the next data read gives */
#define VDP_AT_CHOSEN          20 /* 0 no memory, 1 video memory, 2 palette */
#define VDP_AT_COMMAND_LATCHED 21 /* flag */
#define VDP_AT_COMMAND_BYTE    22
#define VDP_AT_PALETTE_LATCHED 23 /* flag */
#define VDP_AT_PALETTE_BYTE    24
#define VDP_AT_VERTICAL_SCROLL 25 /* as latched when the counter last became 0 */
#define VDP_AT_DIRTY           26 /* flag: the cached colours are to be rebuilt before the next row */
#define VDP_AT_PALETTE         27 /* 64 bytes, two a colour */
#define VDP_AT_COLOURS         91 /* 128 bytes, 32 cached colours of red, green, blue, 255; all zero until the first row is drawn */
#define VDP_AT_TABLE           219 /* the line table; the second version alone has it */

/* Makes the block a fresh device that goes by this table: VDP_OLD_TABLE into VDP_STATE_SIZE or VDP_OLD_STATE_SIZE bytes, VDP_CHART_TABLE into
 * VDP_STATE_SIZE. Refusal: 10 for anything else (what the block held does not matter). No call but this and vdp_new changes the version or the table of a
 * well-formed block. Video memory is not asked for, and stays as it is. */
uint32_t vdp_new_table(uint8_t *state, size_t state_len, uint8_t table);

/* The same with no table named: VDP_CHART_TABLE, and so VDP_STATE_SIZE bytes; 10 for any other length. */
uint32_t vdp_new(uint8_t *state, size_t state_len);

/* Writes a byte to a port. Refusals, in this order: 10, 8, 1, 3, 4, 7, 6. */
uint32_t vdp_out(uint8_t *state, size_t state_len, uint8_t *vram, size_t vram_len, uint16_t port, uint8_t value);

/* Reads a byte from a port. Refusals, in this order: 10, 8, 1, 2, 4, 5, 7. */
uint32_t vdp_input(uint8_t *state, size_t state_len, const uint8_t *vram, size_t vram_len, uint16_t port);

/* One step of the line counter, drawing the step's row, if it has one, at its place in the frame.
 * The frame has exactly its area's size. Refusals, in this order: 10, 11, 8, 9, 12. Of this and of the three calls that follow: 9, 12 and 16 go by the
 * lengths alone, and so come on lines that draw nothing, too; a refused step has moved nothing. */
uint32_t vdp_step(uint8_t *state, size_t state_len, const uint8_t *vram, size_t vram_len, uint8_t *frame,
                  size_t frame_len, uint8_t area);

/* The same step, with the row drawn at the start of a row buffer. Refusals, in this order: 10, 11, 8, 9. */
uint32_t vdp_row_step(uint8_t *state, size_t state_len, const uint8_t *vram, size_t vram_len, uint8_t *row,
                      size_t row_len, uint8_t area);

/* The step on a frame, with the layers of its row, if it draws one, at the start of the layer buffer: VDP_VISIBLE_LAYERS_SIZE or
 * VDP_EFFECTIVE_LAYERS_SIZE bytes of it. The bytes past them never change, and with no row drawn none does. All else is as vdp_step has it:
 * answer, state and frame. Refusals, in this order: 10, 11, 8, 9, 12, 16. */
uint32_t vdp_layer_step(uint8_t *state, size_t state_len, const uint8_t *vram, size_t vram_len, uint8_t *frame,
                        size_t frame_len, uint8_t *layers, size_t layers_len, uint8_t area);

/* The same of the step on a row buffer, as vdp_row_step has it. Refusals, in this order: 10, 11, 8, 9, 16. */
uint32_t vdp_layer_row_step(uint8_t *state, size_t state_len, const uint8_t *vram, size_t vram_len, uint8_t *row,
                            size_t row_len, uint8_t *layers, size_t layers_len, uint8_t area);

/* Draws tiles 0 to 255 as background, then the same numbers as sprites, with the cached colours as they stand: those of the last row that was drawn. Of a
 * fresh device they are zero, all four bytes, so that the fourth byte of a pixel is 0 there and not 255. A sprite pixel of code 0 leaves the sheet's bytes as
 * they are, so the sheet is the caller's to fill first. Refusals, in this order: 10, 8, 9. */
uint32_t vdp_dump_tileset(const uint8_t *state, size_t state_len, const uint8_t *vram, size_t vram_len,
                          uint8_t *pixels, size_t pixels_len);

/* One pixel of the row as it would be drawn now, with the block's registers, latched scroll and colours (made anew from the palette where they are
 * dirty), whatever its counter reads. No row is drawn, and nothing is written: status and colours stay. Answers a word of 64 bits:
 *   bits 0 to 7    refusal, in this order: 10, 11, 8
 *   bit 24         there is a pixel: row and column lie in the area
 *   bits 32 to 63  its four bytes, red lowest
 * and all other bits are 0; where there is no pixel, or on a refusal, the four bytes are 0. */
uint64_t vdp_pixel(const uint8_t *state, size_t state_len, const uint8_t *vram, size_t vram_len, uint8_t area,
                   uint32_t row, uint32_t column);

/* Puts the tile of 64 codes, row by row, into video memory: its 32 bytes, and no other byte. No device is asked, and none changes: a byte that one
 * has read ahead stays as it was. Refusals, in this order: 8, 13, 14, 15. */
uint32_t vdp_write_tile(uint8_t *vram, size_t vram_len, uint16_t tile, const uint8_t *codes, size_t codes_len);

/* Fills a buffer of 64 bytes with the codes of a tile. Refusals, in this order: 8, 13, 14. */
uint32_t vdp_read_tile(const uint8_t *vram, size_t vram_len, uint16_t tile, uint8_t *codes, size_t codes_len);

/* Mends a damaged block of VDP_STATE_SIZE or VDP_OLD_STATE_SIZE bytes: the mark by its length; a table, flag or chosen memory out of range becomes 0;
 * a byte under an empty latch 0; an address outside its memory is reduced modulo its size; and colours that are claimed clean and do not match the palette
 * make it dirty. The changed offsets go to the start of the list in rising order, a byte each, and their number to bits 8 to 15 of the answer; the list's
 * other bytes stay, and it may be longer than VDP_LIST_SIZE. The result is well formed, and after any calls on it none answers 7. Refusals, in this order:
 * 10 (another length), 17. */
uint32_t vdp_repair(uint8_t *block, size_t block_len, uint8_t *list, size_t list_len);

/* Record what is asked of a device, so that the trace programs can run it again. A recording is the first `used` bytes of a buffer; the caller keeps that
 * number, from 0 on. Each of these puts a record into the bytes from `used` on, and touches no other; the number of bytes that it wrote, 3 or 4, stands in
 * bits 8 to 15 of the answer, and is 0 on a refusal: used += vdp_recorded(answer). No device is asked. Of a port its low byte is recorded: no other counts.
 * Refusal: 18, where the record is longer than the room left or `used` is past the end. Of a step first 11. */
uint32_t vdp_record_out(uint8_t *recording, size_t recording_len, size_t used, uint8_t port, uint8_t value);
uint32_t vdp_record_input(uint8_t *recording, size_t recording_len, size_t used, uint8_t port);
uint32_t vdp_record_step(uint8_t *recording, size_t recording_len, size_t used, uint8_t area);

/* Reads a recording, one record after another: what stands at offset `at`. It is never refused, and answers
 *   bits 0 to 7    VDP_RECORD_END and so on; an offset at or past the end is VDP_RECORD_END
 *   bits 8 to 15   the port, or a step's area
 *   bits 16 to 23  the value of a write
 *   bits 24 to 31  the length of the record, by which `at` goes on to the next
 * all other bits are 0: of a bad record all but its kind, so that a reader stops there, at the offset that the trace programs name. */
uint32_t vdp_record_next(const uint8_t *recording, size_t recording_len, size_t at);

/* ---- The home machine: the chip of the dock, 256 x 192 pixels and no areas (docs/HOME.md; docs/RULES.md, section 20).
 *
 * Its calls are the handheld's, on a home block: a device but its video memory, which is lent as there. A home block is no save format: a program keeps one for
 * as long as the major number of this face stays. By offset it is the state block up to VDP_AT_COMMAND_BYTE, with a mark of its own, and has no palette latch; then
 * comes what stands below. It is malformed (refusal 10) if its length is not VDP_HOME_STATE_SIZE, its mark is not 56 48 (hex), a flag, dirty or the table is above 1,
 * chosen is above 2, or the command byte is not 0 while its flag is 0. A state block of the handheld is malformed for these calls, and a home block for all others
 * (to vdp_repair, which takes a block whatever its bytes are, by its length).
 *
 * Answers, refusals and what a refused call leaves are as the handheld has them. 6 and 11 never come: a palette write stores at once, and there are no areas. */
#define VDP_HOME_AT_VERTICAL_SCROLL 23 /* as latched when the counter last became 0 */
#define VDP_HOME_AT_DIRTY           24 /* flag: the cached colours are to be rebuilt before the next row */
#define VDP_HOME_AT_TABLE           25 /* the line table */
#define VDP_HOME_AT_PALETTE         26 /* 32 bytes, one a colour: two bits each for red (lowest), green and blue; the upper two show nothing */
#define VDP_HOME_AT_COLOURS         58 /* 128 bytes, 32 cached colours of red, green, blue, 255; all zero until the first row is drawn */

/* Makes the block a fresh home machine that goes by this table. Refusal: 10, for another length than VDP_HOME_STATE_SIZE or a table above 1 (what the block held does
 * not matter). No call but this and vdp_home_new changes its table. Video memory is not asked for, and stays as it is. */
uint32_t vdp_home_new_table(uint8_t *state, size_t state_len, uint8_t table);

/* The same with no table named: VDP_CHART_TABLE. */
uint32_t vdp_home_new(uint8_t *state, size_t state_len);

/* Writes a byte to a port. Refusals, in this order: 10, 8, 1, 3, 4, 7. */
uint32_t vdp_home_out(uint8_t *state, size_t state_len, uint8_t *vram, size_t vram_len, uint16_t port, uint8_t value);

/* Reads a byte from a port. Refusals, in this order: 10, 8, 1, 2, 4, 5, 7. */
uint32_t vdp_home_input(uint8_t *state, size_t state_len, const uint8_t *vram, size_t vram_len, uint16_t port);

/* One step of the line counter, drawing the step's row, if it has one, at its place in the frame: row y is drawn by the step that sets the counter to y, 0 to 191.
 * The frame has exactly VDP_HOME_FRAME_SIZE bytes. Refusals, in this order: 10, 8, 9, 12; as of the handheld's steps, by the lengths alone, on every line. */
uint32_t vdp_home_step(uint8_t *state, size_t state_len, const uint8_t *vram, size_t vram_len, uint8_t *frame,
                       size_t frame_len);

/* The same step, with the row drawn at the start of a row buffer of VDP_HOME_ROW_SIZE bytes or more. Refusals, in this order: 10, 8, 9. */
uint32_t vdp_home_row_step(uint8_t *state, size_t state_len, const uint8_t *vram, size_t vram_len, uint8_t *row,
                           size_t row_len);

/* The step on a frame, with the layers of its row, if it draws one, in the first VDP_HOME_LAYERS_SIZE bytes of the layer buffer. The bytes past them never change,
 * and with no row drawn none does. All else is as vdp_home_step has it. Refusals, in this order: 10, 8, 9, 12, 16. */
uint32_t vdp_home_layer_step(uint8_t *state, size_t state_len, const uint8_t *vram, size_t vram_len, uint8_t *frame,
                             size_t frame_len, uint8_t *layers, size_t layers_len);

/* The same of the step on a row buffer, as vdp_home_row_step has it. Refusals, in this order: 10, 8, 9, 16. */
uint32_t vdp_home_layer_row_step(uint8_t *state, size_t state_len, const uint8_t *vram, size_t vram_len, uint8_t *row,
                                 size_t row_len, uint8_t *layers, size_t layers_len);

/* One pixel of the row as it would be drawn now, the fill among it, with the block's registers, latched scroll and colours (made anew from the palette where they are
 * dirty), whatever its counter reads. Nothing is written. Answers as vdp_pixel does; there is a pixel where the row is below VDP_HOME_HEIGHT and the column below
 * VDP_HOME_WIDTH. Refusals, in this order: 10, 8. */
uint64_t vdp_home_pixel(const uint8_t *state, size_t state_len, const uint8_t *vram, size_t vram_len, uint32_t row,
                        uint32_t column);

/* Draws all tiles into a sheet of VDP_TILESET_SIZE bytes, as vdp_dump_tileset does. Refusals, in this order: 10, 8, 9. */
uint32_t vdp_home_dump_tileset(const uint8_t *state, size_t state_len, const uint8_t *vram, size_t vram_len,
                               uint8_t *pixels, size_t pixels_len);

/* The number of the library's face: VDP_VERSION of the header that belongs to it. */
uint32_t vdp_version(void);

/* The parts of an answer. */
static inline unsigned vdp_refusal(uint32_t answer) { return answer & 0xFF; }
static inline uint8_t vdp_byte(uint32_t answer) { return (uint8_t)(answer >> 8); }          /* of a port read */
static inline unsigned vdp_changed(uint32_t answer) { return answer >> 8 & 0xFF; }          /* of vdp_repair */
static inline size_t vdp_recorded(uint32_t answer) { return answer >> 8 & 0xFF; }           /* of vdp_record_out, _input and _step */
static inline int vdp_interrupt(uint32_t answer) { return (int)(answer >> 8 & 1); }         /* of a step */
static inline unsigned vdp_report(uint32_t answer) { return answer >> 9 & 3; }              /* of a step */
static inline unsigned vdp_row(uint32_t answer) { return answer >> 16 & 0xFF; }             /* of a step */
static inline int vdp_drawn(uint32_t answer) { return (int)(answer >> 24 & 1); }            /* of a step */

static inline int vdp_there(uint64_t pixel) { return (int)(pixel >> 24 & 1); }              /* of a pixel */
static inline uint8_t vdp_red(uint64_t pixel) { return (uint8_t)(pixel >> 32); }            /* of a pixel */
static inline uint8_t vdp_green(uint64_t pixel) { return (uint8_t)(pixel >> 40); }          /* of a pixel */
static inline uint8_t vdp_blue(uint64_t pixel) { return (uint8_t)(pixel >> 48); }           /* of a pixel */

static inline unsigned vdp_record_kind(uint32_t next) { return next & 0xFF; }               /* of vdp_record_next */
static inline uint8_t vdp_record_port(uint32_t next) { return (uint8_t)(next >> 8); }       /* of vdp_record_next */
static inline uint8_t vdp_record_area(uint32_t next) { return (uint8_t)(next >> 8); }       /* of vdp_record_next */
static inline uint8_t vdp_record_value(uint32_t next) { return (uint8_t)(next >> 16); }     /* of vdp_record_next */
static inline size_t vdp_record_length(uint32_t next) { return next >> 24; }                /* of vdp_record_next */

/* A refusal in words, for a message. */
static inline const char *vdp_refusal_text(unsigned refusal)
{
    static const char *const text[] = {
        "accepted",
        "unknown port",
        "the horizontal counter is not there",
        "no such register",
        "no memory chosen yet",
        "the palette cannot be read",
        "second half of a colour without the first",
        "address outside the chosen memory",
        "video memory of a wrong length",
        "pixel buffer of a wrong length",
        "malformed state block",
        "unknown area",
        "frame too long",
        "no such tile",
        "not the codes of one tile",
        "a code above 15",
        "layer buffer too short",
        "list of a repair too short",
        "no room for the record",
    };
    return refusal < sizeof text / sizeof text[0] ? text[refusal] : "unknown refusal";
}

#ifdef __cplusplus
}
#endif

#endif
