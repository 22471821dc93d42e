/* fuzz.c: every call of vdp.h with hostile arguments.
 *
 *   fuzz CALLS SEED    makes so many calls; the same seed makes the same calls
 *   fuzz --calls       prints the names of the calls, one to a line
 *
 * Each buffer that is lent stands against a page that may not be touched, at its start or at its end, and is read-only where the call takes it const. Of every
 * call these are held: its refusal, by the order of the header; every other bit of its answer that a refusal or the line counter gives; and each byte that it
 * left, of the buffers and of what stands beside them: only what the call may change has changed. Prints one line where all is so, else what was not and
 * exit status 1.
 */
#define _DEFAULT_SOURCE
#include "vdp.h"

#include <errno.h>
#include <signal.h>
#include <stdio.h>
#include <stdlib.h>
#include <string.h>
#include <sys/mman.h>
#include <unistd.h>

enum { ENOUGH = 20000 }; /* calls */

static uint64_t seed;

static uint32_t any(void)
{
    uint64_t z = seed += 0x9E3779B97F4A7C15u;
    z = (z ^ z >> 30) * 0xBF58476D1CE4E5B9u;
    z = (z ^ z >> 27) * 0x94D049BB133111EBu;
    return (uint32_t)(z ^ z >> 31);
}
static uint32_t below(uint32_t n) { return any() % n; }
static int once_in(uint32_t n) { return below(n) == 0; }
#define ONE_OF(list) list[below(sizeof list / sizeof list[0])]

/* Memory that is lent: pages of its own between two that may not be touched. */
struct buffer {
    const char *name;
    size_t room;              /* bytes of the pages */
    uint8_t *pages, *before;  /* the pages, and what stood there before the call */
    uint8_t *at;              /* what is lent */
    size_t len;
    int lent, constant;
};
enum { STATE, VRAM, PIXELS, LAYERS, CODES, LIST, RECORDING, BUFFERS };
static struct buffer buffer[BUFFERS] = {
    [STATE] = {.name = "state", .room = 256},      [VRAM] = {.name = "vram", .room = VDP_VRAM_SIZE + 16},
    [PIXELS] = {.name = "pixels", .room = VDP_EFFECTIVE_FRAME_SIZE + 16}, [LAYERS] = {.name = "layers", .room = 272},
    [CODES] = {.name = "codes", .room = 80},       [LIST] = {.name = "list", .room = 256},
    [RECORDING] = {.name = "recording", .room = 64},
};

static const char *call;       /* the call that is made */
static unsigned long number;   /* and which one it is */
static unsigned kind;          /* its place in the table of calls */
static unsigned long refused[256], accepted[32], accepted_calls;

static void stop(const char *what)
{
    printf("fuzz: call %lu, %s: %s\n", number, call, what);
    for (int k = 0; k < BUFFERS; k++)
        if (buffer[k].lent)
            printf("  %s: %lu bytes, %s, address %p\n", buffer[k].name, (unsigned long)buffer[k].len, buffer[k].constant ? "const" : "to write", (void *)buffer[k].at);
    exit(1);
}

static void touched(int signal, siginfo_t *info, void *context)
{
    static char text[100];
    (void)signal, (void)context;
    snprintf(text, sizeof text, "touches memory that it may not, at %p", info->si_addr);
    stop(text);
}

static void make_pages(struct buffer *b)
{
    size_t page = (size_t)sysconf(_SC_PAGESIZE);
    b->room = (b->room + page - 1) / page * page;
    b->pages = (uint8_t *)mmap(NULL, b->room + 2 * page, PROT_NONE, MAP_PRIVATE | MAP_ANONYMOUS, -1, 0) + page;
    b->before = malloc(b->room);
    if (!b->before || mprotect(b->pages, b->room, PROT_READ | PROT_WRITE))
        stop("no memory");
    for (size_t k = 0; k < b->room; k++)
        b->pages[k] = (uint8_t)any();
}

/* A hostile length: one byte more or less, none, or another buffer's; `right` five times in six. */
static size_t length(size_t right)
{
    static const size_t other[] = {0, 1, 63, 64, 159, 160, 185, 186, 219, 220, 255, 256, 639, 640, 1023, 1024, 16383, 16384, VDP_VISIBLE_FRAME_SIZE, VDP_TILESET_SIZE, VDP_HOME_FRAME_SIZE, VDP_EFFECTIVE_FRAME_SIZE};
    switch (below(24)) {
    case 0: return right + 1;
    case 1: return right - (right > 0);
    case 2: return 0;
    case 3: return ONE_OF(other);
    default: return right;
    }
}

/* Lends a part of a buffer, against the page behind it or the one before it; of length 0 by any pointer at all. */
static struct buffer *lend(int which, size_t len, int constant)
{
    struct buffer *b = &buffer[which];
    b->len = len > b->room ? b->room : len;
    b->at = once_in(2) ? b->pages : b->pages + b->room - b->len;
    if (b->len == 0 && once_in(2))
        b->at = once_in(2) ? NULL : once_in(2) ? b->pages - 1 : b->pages + b->room;
    b->lent = 1;
    b->constant = constant;
    return b;
}

static void before_call(const char *name)
{
    call = name;
    for (int k = 0; k < BUFFERS; k++)
        if (buffer[k].lent) {
            memcpy(buffer[k].before, buffer[k].pages, buffer[k].room);
            if (buffer[k].constant)
                mprotect(buffer[k].pages, buffer[k].room, PROT_READ);
        }
}

/* The byte at this place of a lent buffer, as it was. */
static uint8_t was(int which, size_t at) { return buffer[which].before[(size_t)(buffer[which].at - buffer[which].pages) + at]; }

/* `count` bytes from `from` on may have changed: the rest of the test is as if they had not. */
static void may_change(int which, size_t from, size_t count)
{
    struct buffer *b = &buffer[which];
    size_t start = (size_t)(b->at - b->pages) + from;
    if (start + count > b->room)
        stop("the test allows what is not there");
    memcpy(b->before + start, b->pages + start, count);
}

/* After the call, and after may_change: nothing else has changed. The answer's refusal is the one that is due. */
static void after_call(uint32_t answer, unsigned due)
{
    static char text[100];
    for (int k = 0; k < BUFFERS; k++) {
        struct buffer *b = &buffer[k];
        if (!b->lent)
            continue;
        if (b->constant)
            mprotect(b->pages, b->room, PROT_READ | PROT_WRITE);
        else if (memcmp(b->before, b->pages, b->room)) {
            size_t at = 0;
            while (b->before[at] == b->pages[at])
                at++;
            snprintf(text, sizeof text, "changes %s at %ld, which may not change", b->name, (long)(b->pages + at - b->at));
            stop(text);
        }
    }
    if ((answer & 0xFF) != due) {
        snprintf(text, sizeof text, "answers refusal %u where %u is due", (unsigned)(answer & 0xFF), due);
        stop(text);
    }
    if (due != VDP_OK && answer != due)
        stop("has other bits beside a refusal");
    refused[due]++;
    accepted[kind] += due == VDP_OK;
    accepted_calls += due == VDP_OK;
    for (int k = 0; k < BUFFERS; k++)
        buffer[k].lent = 0;
}

/* ---- what is due, by the header */

static int block_is_good(const uint8_t *block, size_t len)
{
    if ((len != VDP_STATE_SIZE && len != VDP_OLD_STATE_SIZE) || block[0] != 0x56 || block[1] != (len == VDP_STATE_SIZE ? 0x54 : 0x53))
        return 0;
    return block[VDP_AT_JUMPED] <= 1 && block[VDP_AT_CHOSEN] <= 2 && block[VDP_AT_COMMAND_LATCHED] <= 1 && block[VDP_AT_PALETTE_LATCHED] <= 1 && block[VDP_AT_DIRTY] <= 1 &&
           (block[VDP_AT_COMMAND_LATCHED] || !block[VDP_AT_COMMAND_BYTE]) && (block[VDP_AT_PALETTE_LATCHED] || !block[VDP_AT_PALETTE_BYTE]) &&
           (len == VDP_OLD_STATE_SIZE || block[VDP_AT_TABLE] <= 1);
}
static unsigned block_refusal(void) { return block_is_good(buffer[STATE].at, buffer[STATE].len) ? VDP_OK : VDP_REFUSED_BLOCK; }
static unsigned vram_refusal(void) { return buffer[VRAM].len == VDP_VRAM_SIZE ? VDP_OK : VDP_REFUSED_VRAM_LENGTH; }
static unsigned first(unsigned a, unsigned b) { return a ? a : b; }
static unsigned address(void) { return buffer[STATE].at[VDP_AT_ADDRESS] + 256u * buffer[STATE].at[VDP_AT_ADDRESS + 1]; }
static size_t row_size(uint8_t area) { return area == VDP_EFFECTIVE ? VDP_EFFECTIVE_ROW_SIZE : VDP_VISIBLE_ROW_SIZE; }
static size_t frame_size(uint8_t area) { return area == VDP_EFFECTIVE ? VDP_EFFECTIVE_FRAME_SIZE : VDP_VISIBLE_FRAME_SIZE; }

/* ---- what is lent */

/* A block: what the last call left, a fresh one, one made by hand that is good, the same with a byte damaged, or any bytes. */
static void lend_state(int constant)
{
    struct buffer *b;
    uint8_t *s;
    size_t len = once_in(6) ? length(VDP_STATE_SIZE) : once_in(3) ? VDP_OLD_STATE_SIZE : VDP_STATE_SIZE;
    b = lend(STATE, len, constant);
    s = b->at;
    if (len != VDP_STATE_SIZE && len != VDP_OLD_STATE_SIZE)
        return;
    for (size_t k = 0; k < len; k++)
        if (once_in(3))
            s[k] = (uint8_t)any();
    if (once_in(12))
        return; /* any bytes */
    s[0] = 0x56, s[1] = len == VDP_STATE_SIZE ? 0x54 : 0x53;
    s[VDP_AT_JUMPED] %= 2, s[VDP_AT_CHOSEN] %= 3, s[VDP_AT_COMMAND_LATCHED] %= 2, s[VDP_AT_PALETTE_LATCHED] %= 2, s[VDP_AT_DIRTY] %= 2;
    s[VDP_AT_COMMAND_BYTE] *= s[VDP_AT_COMMAND_LATCHED], s[VDP_AT_PALETTE_BYTE] *= s[VDP_AT_PALETTE_LATCHED];
    if (len == VDP_STATE_SIZE)
        s[VDP_AT_TABLE] %= 2;
    if (!once_in(4))
        s[VDP_AT_ADDRESS + 1] %= s[VDP_AT_CHOSEN] == 2 ? 1 : 64, s[VDP_AT_ADDRESS] %= s[VDP_AT_CHOSEN] == 2 ? 64 : 255;
    if (once_in(8))
        s[below((uint32_t)len)] ^= (uint8_t)(1u << below(8));
}

static void lend_vram(int constant)
{
    struct buffer *b = lend(VRAM, length(VDP_VRAM_SIZE), constant);
    for (unsigned k = 0; k < 8 && b->len > 0; k++)
        b->at[below((uint32_t)b->len)] = (uint8_t)any();
}

/* ---- the same of the home machine */

static int home_is_good(const uint8_t *block, size_t len)
{
    return len == VDP_HOME_STATE_SIZE && block[0] == 0x56 && block[1] == 0x48 && block[VDP_AT_JUMPED] <= 1 && block[VDP_AT_CHOSEN] <= 2 && block[VDP_AT_COMMAND_LATCHED] <= 1 &&
           block[VDP_HOME_AT_DIRTY] <= 1 && block[VDP_HOME_AT_TABLE] <= 1 && (block[VDP_AT_COMMAND_LATCHED] || !block[VDP_AT_COMMAND_BYTE]);
}
static unsigned home_refusal(void) { return home_is_good(buffer[STATE].at, buffer[STATE].len) ? VDP_OK : VDP_REFUSED_BLOCK; }

/* A home block: as a state block is lent; now and then one of the handheld. */
static void lend_home(int constant)
{
    if (once_in(16)) {
        lend_state(constant);
        return;
    }
    struct buffer *b = lend(STATE, once_in(6) ? length(VDP_HOME_STATE_SIZE) : VDP_HOME_STATE_SIZE, constant);
    uint8_t *s = b->at;
    if (b->len != VDP_HOME_STATE_SIZE)
        return;
    for (size_t k = 0; k < b->len; k++)
        if (once_in(3))
            s[k] = (uint8_t)any();
    if (once_in(12))
        return; /* any bytes */
    s[0] = 0x56, s[1] = 0x48;
    s[VDP_AT_JUMPED] %= 2, s[VDP_AT_CHOSEN] %= 3, s[VDP_AT_COMMAND_LATCHED] %= 2, s[VDP_HOME_AT_DIRTY] %= 2, s[VDP_HOME_AT_TABLE] %= 2;
    s[VDP_AT_COMMAND_BYTE] *= s[VDP_AT_COMMAND_LATCHED];
    if (!once_in(4))
        s[VDP_AT_ADDRESS + 1] %= s[VDP_AT_CHOSEN] == 2 ? 1 : 64, s[VDP_AT_ADDRESS] %= s[VDP_AT_CHOSEN] == 2 ? 32 : 255;
    if (once_in(8))
        s[below((uint32_t)b->len)] ^= (uint8_t)(1u << below(8));
}

/* Now and then a home block, to a call of the handheld. */
static void lend_either(int constant)
{
    if (once_in(16))
        lend_home(constant);
    else
        lend_state(constant);
}

static uint8_t some_area(void)
{
    static const uint8_t area[] = {0, 1, 2, 0, 1, 2, 0, 1, 2, 3, 128, 255};
    return ONE_OF(area);
}
static uint16_t some_port(void)
{
    static const uint8_t low[] = {0xBE, 0xBF, 0xBE, 0xBF, 0xBE, 0xBF, 0xBE, 0xBF, 0x7E, 0x7F};
    return (uint16_t)(any() << 8 | (once_in(10) ? any() & 0xFF : ONE_OF(low)));
}
static size_t some_place(size_t len) { return once_in(6) ? (size_t)-1 - below(6) : once_in(8) ? (size_t)any() : below((uint32_t)len + 6); }

/* ---- the calls */

static void check_fresh(uint8_t table)
{
    static const uint8_t registers[11] = {0, 0, 0xFF, 0xFF, 0xFF, 0xFF, 0xFF, 0, 0, 0, 1};
    const uint8_t *s = buffer[STATE].at;
    size_t len = buffer[STATE].len;
    for (size_t k = 0; k < len; k++) {
        uint8_t is = k == 0 ? 0x56 : k == 1 ? (len == VDP_STATE_SIZE ? 0x54 : 0x53) : k >= VDP_AT_REGISTERS && k < VDP_AT_REGISTERS + 11 ? registers[k - VDP_AT_REGISTERS] : k == VDP_AT_DIRTY ? 1 : k == VDP_AT_TABLE ? table : 0;
        if (s[k] != is)
            stop("makes a device that is not fresh");
    }
    may_change(STATE, 0, len);
}

static void do_new(void)
{
    unsigned due;
    lend_either(0);
    due = buffer[STATE].len == VDP_STATE_SIZE ? VDP_OK : VDP_REFUSED_BLOCK;
    before_call("vdp_new");
    uint32_t answer = vdp_new(buffer[STATE].at, buffer[STATE].len);
    if (!due)
        check_fresh(1);
    after_call(answer, due);
}

static void do_new_table(void)
{
    static const uint8_t tables[] = {0, 1, 0, 1, 2, 255};
    uint8_t table = ONE_OF(tables);
    lend_either(0);
    size_t len = buffer[STATE].len;
    unsigned due = table <= 1 && (len == VDP_STATE_SIZE || (table == 0 && len == VDP_OLD_STATE_SIZE)) ? VDP_OK : VDP_REFUSED_BLOCK;
    before_call("vdp_new_table");
    uint32_t answer = vdp_new_table(buffer[STATE].at, len, table);
    if (!due)
        check_fresh(table);
    after_call(answer, due);
}

static void latch_may_empty(void)
{
    if (buffer[STATE].at[VDP_AT_COMMAND_LATCHED] || buffer[STATE].at[VDP_AT_COMMAND_BYTE])
        stop("leaves the command latch");
    may_change(STATE, VDP_AT_COMMAND_LATCHED, 2);
}

static void do_out(void)
{
    uint16_t port = some_port();
    uint8_t value = (uint8_t)any(), low = (uint8_t)port;
    lend_either(0);
    lend_vram(0);
    unsigned due = first(block_refusal(), vram_refusal());
    const uint8_t *s = buffer[STATE].at;
    unsigned at = due ? 0 : address(), chosen = due ? 0 : s[VDP_AT_CHOSEN];
    if (!due) {
        if (low == VDP_PORT_COMMAND)
            due = s[VDP_AT_COMMAND_LATCHED] && value >> 6 == 2 && (value & 0x7F) > 10 ? VDP_REFUSED_REGISTER : VDP_OK;
        else if (low != VDP_PORT_DATA)
            due = VDP_REFUSED_PORT;
        else if (chosen == 0)
            due = VDP_REFUSED_NO_MEMORY;
        else if (at >= (chosen == 1 ? VDP_VRAM_SIZE : 64))
            due = VDP_REFUSED_ADDRESS;
        else if (chosen == 2 && at % 2 == 1 && !s[VDP_AT_PALETTE_LATCHED])
            due = VDP_REFUSED_PALETTE_HALF;
    }
    before_call("vdp_out");
    uint32_t answer = vdp_out(buffer[STATE].at, buffer[STATE].len, buffer[VRAM].at, buffer[VRAM].len, port, value);
    if (due >= VDP_REFUSED_REGISTER && due <= VDP_REFUSED_ADDRESS)
        latch_may_empty();
    if (!due && low == VDP_PORT_COMMAND && !was(STATE, VDP_AT_COMMAND_LATCHED))
        may_change(STATE, VDP_AT_COMMAND_LATCHED, 2);
    else if (!due) {
        latch_may_empty();
        if (low == VDP_PORT_COMMAND && value >> 6 == 2)
            may_change(STATE, VDP_AT_REGISTERS + (value & 0x7F), 1);
        else
            may_change(STATE, VDP_AT_ADDRESS, 2);
        if (low == VDP_PORT_COMMAND && value >> 6 != 2)
            may_change(STATE, VDP_AT_CHOSEN, 1);
        if ((low == VDP_PORT_COMMAND && value >> 6 == 0) || (low == VDP_PORT_DATA && chosen == 1))
            may_change(STATE, VDP_AT_READ_BUFFER, 1);
        if (low == VDP_PORT_DATA && chosen == 1)
            may_change(VRAM, at, 1);
        if (low == VDP_PORT_DATA && chosen == 2) {
            may_change(STATE, VDP_AT_PALETTE_LATCHED, 2);
            if (at % 2 == 1)
                may_change(STATE, VDP_AT_PALETTE + at - 1, 2), may_change(STATE, VDP_AT_DIRTY, 1);
        }
    }
    after_call(answer, due);
    if (!due && answer != VDP_OK)
        stop("answers more than 0");
}

/* A port read, on either machine: its refusals and what it leaves stand in bytes that both blocks have. */
static void do_read(int home)
{
    uint16_t port = some_port();
    uint8_t low = (uint8_t)port;
    if (home)
        lend_home(0);
    else
        lend_either(0);
    lend_vram(1);
    unsigned due = first(home ? home_refusal() : block_refusal(), vram_refusal());
    unsigned chosen = due ? 0 : buffer[STATE].at[VDP_AT_CHOSEN];
    if (!due)
        due = low == VDP_PORT_LINE || low == VDP_PORT_COMMAND ? VDP_OK
              : low == 0x7F                                   ? VDP_REFUSED_HORIZONTAL
              : low != VDP_PORT_DATA                          ? VDP_REFUSED_PORT
              : chosen == 0                                   ? VDP_REFUSED_NO_MEMORY
              : chosen == 2                                   ? VDP_REFUSED_PALETTE_READ
              : address() >= VDP_VRAM_SIZE                    ? VDP_REFUSED_ADDRESS
                                                              : VDP_OK;
    before_call(home ? "vdp_home_input" : "vdp_input");
    uint32_t answer = (home ? vdp_home_input : vdp_input)(buffer[STATE].at, buffer[STATE].len, buffer[VRAM].at, buffer[VRAM].len, port);
    if (due >= VDP_REFUSED_REGISTER && due <= VDP_REFUSED_ADDRESS)
        latch_may_empty();
    if (!due && low != VDP_PORT_LINE) {
        unsigned from = low == VDP_PORT_COMMAND ? VDP_AT_STATUS : VDP_AT_READ_BUFFER;
        if (answer != (uint32_t)was(STATE, from) << 8)
            stop("answers another byte");
        latch_may_empty();
        may_change(STATE, from, 1);
        if (low == VDP_PORT_DATA)
            may_change(STATE, VDP_AT_ADDRESS, 2);
    } else if (!due && answer != (uint32_t)was(STATE, VDP_AT_COUNTER) << 8)
        stop("answers another line");
    after_call(answer, due);
}

static void do_input(void) { do_read(0); }

/* A step of any kind: on a frame or a row, with layers or without. */
static void do_step(int whole, int layered)
{
    static const char *const names[] = {"vdp_row_step", "vdp_layer_row_step", "vdp_step", "vdp_layer_step"};
    uint8_t area = some_area();
    size_t need = whole ? frame_size(area) : row_size(area), columns = row_size(area) / 4;
    lend_either(0);
    lend_vram(1);
    lend(PIXELS, length(need), 0);
    if (layered)
        lend(LAYERS, length(columns), 0);
    struct buffer *s = &buffer[STATE], *v = &buffer[VRAM], *p = &buffer[PIXELS], *l = &buffer[LAYERS];
    unsigned due = first(first(block_refusal(), area > 2 ? VDP_REFUSED_AREA : VDP_OK), vram_refusal());
    due = first(due, p->len < need ? VDP_REFUSED_PIXELS_LENGTH : whole && p->len > need ? VDP_REFUSED_FRAME_LONG : VDP_OK);
    due = first(due, layered && l->len < columns ? VDP_REFUSED_LAYERS_LENGTH : VDP_OK);
    before_call(names[2 * whole + layered]);
    uint32_t answer = whole ? layered ? vdp_layer_step(s->at, s->len, v->at, v->len, p->at, p->len, l->at, l->len, area)
                                      : vdp_step(s->at, s->len, v->at, v->len, p->at, p->len, area)
                            : layered ? vdp_layer_row_step(s->at, s->len, v->at, v->len, p->at, p->len, l->at, l->len, area)
                                      : vdp_row_step(s->at, s->len, v->at, v->len, p->at, p->len, area);
    if (!due) {
        /* The line that comes, and the row that it draws. */
        unsigned jump = s->len == VDP_STATE_SIZE && was(STATE, VDP_AT_TABLE) ? 0xDB : 0xDA;
        unsigned line = (was(STATE, VDP_AT_COUNTER) + 1u) & 0xFF;
        if (line == jump && !was(STATE, VDP_AT_JUMPED))
            line = 0xD5;
        unsigned top = area == VDP_EFFECTIVE ? 0 : 24, rows = area == VDP_EFFECTIVE ? 224 : 144;
        int drawn = line >= top && line < top + rows;
        uint32_t row = drawn ? line - top : 0;
        if (s->at[VDP_AT_COUNTER] != line)
            stop("sets another line");
        if ((answer & ~0x700u) != (drawn ? 1u << 24 | row << 16 : 0))
            stop("answers another row");
        may_change(STATE, VDP_AT_COUNTER, 3); /* counter, jump flag, line count */
        may_change(STATE, VDP_AT_STATUS, 1);
        if (line == 0)
            may_change(STATE, VDP_AT_VERTICAL_SCROLL, 1);
        if (drawn) {
            if (s->at[VDP_AT_DIRTY])
                stop("draws, and leaves the colours dirty");
            if (was(STATE, VDP_AT_DIRTY))
                may_change(STATE, VDP_AT_DIRTY, 1), may_change(STATE, VDP_AT_COLOURS, 128);
            may_change(PIXELS, whole ? row * row_size(area) : 0, row_size(area));
            if (layered) {
                for (size_t k = 0; k < columns; k++)
                    if (l->at[k] > VDP_LAYER_HELD_BACK && (l->at[k] < VDP_LAYER_SPRITE || l->at[k] > VDP_LAYER_SPRITE + 63))
                        stop("tells a layer that there is not");
                may_change(LAYERS, 0, columns);
            }
        }
    }
    after_call(answer, due);
}
static void do_frame(void) { do_step(1, 0); }
static void do_row(void) { do_step(0, 0); }
static void do_layer_frame(void) { do_step(1, 1); }
static void do_layer_row(void) { do_step(0, 1); }

static void do_dump(void)
{
    lend_either(1);
    lend_vram(1);
    lend(PIXELS, length(VDP_TILESET_SIZE), 0);
    struct buffer *s = &buffer[STATE], *v = &buffer[VRAM], *p = &buffer[PIXELS];
    unsigned due = first(first(block_refusal(), vram_refusal()), p->len != VDP_TILESET_SIZE ? VDP_REFUSED_PIXELS_LENGTH : VDP_OK);
    before_call("vdp_dump_tileset");
    uint32_t answer = vdp_dump_tileset(s->at, s->len, v->at, v->len, p->at, p->len);
    if (!due)
        may_change(PIXELS, 0, VDP_TILESET_SIZE);
    after_call(answer, due);
    if (!due && answer != VDP_OK)
        stop("answers more than 0");
}

static void do_pixel(void)
{
    static const uint32_t edge[] = {0, 143, 144, 159, 160, 223, 224, 255, 256, 0x80000000u, 0xFFFFFFFFu};
    uint8_t area = some_area();
    uint32_t row = once_in(4) ? ONE_OF(edge) : below(144), column = once_in(4) ? ONE_OF(edge) : below(160);
    lend_either(1);
    lend_vram(1);
    struct buffer *s = &buffer[STATE], *v = &buffer[VRAM];
    unsigned due = first(first(block_refusal(), area > 2 ? VDP_REFUSED_AREA : VDP_OK), vram_refusal());
    int there = !due && row < (area == VDP_EFFECTIVE ? 224 : 144) && column < row_size(area) / 4;
    before_call("vdp_pixel");
    uint64_t answer = vdp_pixel(s->at, s->len, v->at, v->len, area, row, column);
    if ((uint32_t)answer != (due ? due : there ? 1u << 24 : 0) || (!there && answer >> 32))
        stop("has other bits");
    after_call(due, due);
}

static void lend_codes(int constant)
{
    struct buffer *b = lend(CODES, length(VDP_TILE_CODES), constant);
    for (size_t k = 0; k < b->len; k++)
        b->at[k] = (uint8_t)(any() % 16);
    if (b->len > 0 && once_in(4))
        b->at[below((uint32_t)b->len)] = (uint8_t)any();
}
static uint16_t some_tile(void)
{
    static const uint16_t tile[] = {0, 1, 511, 512, 513, 65535};
    return once_in(3) ? ONE_OF(tile) : (uint16_t)below(512);
}

static void do_write_tile(void)
{
    uint16_t tile = some_tile();
    int above = 0;
    lend_vram(0);
    lend_codes(1);
    struct buffer *v = &buffer[VRAM], *c = &buffer[CODES];
    for (size_t k = 0; k < c->len; k++)
        above |= c->at[k] > 15;
    unsigned due = first(first(vram_refusal(), tile > 511 ? VDP_REFUSED_TILE : VDP_OK), c->len != VDP_TILE_CODES ? VDP_REFUSED_CODES_LENGTH : above ? VDP_REFUSED_CODE : VDP_OK);
    before_call("vdp_write_tile");
    uint32_t answer = vdp_write_tile(v->at, v->len, tile, c->at, c->len);
    if (!due)
        may_change(VRAM, 32u * tile, 32);
    after_call(answer, due);
    if (!due && answer != VDP_OK)
        stop("answers more than 0");
}

static void do_read_tile(void)
{
    uint16_t tile = some_tile();
    lend_vram(1);
    lend_codes(0);
    struct buffer *v = &buffer[VRAM], *c = &buffer[CODES];
    unsigned due = first(first(vram_refusal(), tile > 511 ? VDP_REFUSED_TILE : VDP_OK), c->len != VDP_TILE_CODES ? VDP_REFUSED_CODES_LENGTH : VDP_OK);
    before_call("vdp_read_tile");
    uint32_t answer = vdp_read_tile(v->at, v->len, tile, c->at, c->len);
    if (!due) {
        for (size_t k = 0; k < c->len; k++)
            if (c->at[k] > 15)
                stop("reads a code above 15");
        may_change(CODES, 0, VDP_TILE_CODES);
    }
    after_call(answer, due);
    if (!due && answer != VDP_OK)
        stop("answers more than 0");
}

static void do_repair(void)
{
    static const uint8_t mended[] = {0, 1, 15, 17, 18, 20, 21, 22, 23, 24, 26, 219};
    lend_either(0);
    lend(LIST, length(VDP_LIST_SIZE), 0);
    struct buffer *s = &buffer[STATE], *l = &buffer[LIST];
    unsigned due = s->len != VDP_STATE_SIZE && s->len != VDP_OLD_STATE_SIZE ? VDP_REFUSED_BLOCK : l->len < VDP_LIST_SIZE ? VDP_REFUSED_LIST_LENGTH : VDP_OK;
    before_call("vdp_repair");
    uint32_t answer = vdp_repair(s->at, s->len, l->at, l->len);
    if (!due) {
        unsigned changed = 0;
        for (unsigned k = 0; k < sizeof mended; k++)
            if (mended[k] < s->len && was(STATE, mended[k]) != s->at[mended[k]]) {
                if (l->at[changed++] != mended[k])
                    stop("lists another byte");
                may_change(STATE, mended[k], 1);
            }
        if (answer != changed << 8)
            stop("answers another number of bytes");
        may_change(LIST, 0, changed);
        if (!block_is_good(s->at, s->len))
            stop("leaves a block that is malformed");
    }
    after_call(answer, due);
}

static void do_record(void)
{
    static const char *const names[] = {"vdp_record_out", "vdp_record_input", "vdp_record_step"};
    unsigned what = below(3), size = what == 0 ? 4 : 3;
    uint8_t port = (uint8_t)any(), value = (uint8_t)any(), area = some_area();
    lend(RECORDING, below(24), 0);
    struct buffer *r = &buffer[RECORDING];
    size_t used = some_place(r->len);
    unsigned due = first(what == 2 && area > 2 ? VDP_REFUSED_AREA : VDP_OK, used > r->len || r->len - used < size ? VDP_REFUSED_RECORD_ROOM : VDP_OK);
    before_call(names[what]);
    uint32_t answer = what == 0 ? vdp_record_out(r->at, r->len, used, port, value) : what == 1 ? vdp_record_input(r->at, r->len, used, port) : vdp_record_step(r->at, r->len, used, area);
    if (!due) {
        const uint8_t record[] = {what == 2 ? 'L' : 'P', what == 0 ? 'W' : what == 1 ? 'R' : 'S', what == 2 ? area : port, value};
        if (memcmp(r->at + used, record, size))
            stop("writes another record");
        if (answer != size << 8)
            stop("answers another number of bytes");
        may_change(RECORDING, used, size);
    }
    after_call(answer, due);
}

static void do_next(void)
{
    static const char letters[] = "PLWRS";
    struct buffer *r = lend(RECORDING, below(24), 1);
    for (size_t k = 0; k < r->len; k++)
        r->at[k] = once_in(3) ? (uint8_t)below(4) : (uint8_t)letters[below(5)];
    size_t at = some_place(r->len), left = at < r->len ? r->len - at : 0;
    const uint8_t *b = left ? r->at + at : NULL;
    uint32_t due = left == 0                                            ? VDP_RECORD_END
                   : left >= 4 && b[0] == 'P' && b[1] == 'W'             ? VDP_RECORD_OUT | (uint32_t)b[2] << 8 | (uint32_t)b[3] << 16 | 4u << 24
                   : left >= 3 && b[0] == 'P' && b[1] == 'R'             ? VDP_RECORD_INPUT | (uint32_t)b[2] << 8 | 3u << 24
                   : left >= 3 && b[0] == 'L' && b[1] == 'S' && b[2] < 3 ? VDP_RECORD_STEP | (uint32_t)b[2] << 8 | 3u << 24
                                                                         : VDP_RECORD_BAD;
    before_call("vdp_record_next");
    if (vdp_record_next(r->at, r->len, at) != due)
        stop("answers another record");
    after_call(VDP_OK, VDP_OK);
}

static void do_version(void)
{
    call = "vdp_version";
    if (vdp_version() != VDP_VERSION)
        stop("is not the header's");
    after_call(VDP_OK, VDP_OK);
}

/* ---- the home machine's calls */

static void do_home_new(void)
{
    static const uint8_t tables[] = {0, 1, 0, 1, 2, 255}, registers[11] = {0, 0, 0xFF, 0xFF, 0xFF, 0xFF, 0xFF, 0, 0, 0, 1};
    int named = once_in(2);
    uint8_t table = named ? ONE_OF(tables) : VDP_CHART_TABLE;
    lend_home(0);
    struct buffer *s = &buffer[STATE];
    unsigned due = s->len == VDP_HOME_STATE_SIZE && table <= 1 ? VDP_OK : VDP_REFUSED_BLOCK;
    before_call(named ? "vdp_home_new_table" : "vdp_home_new");
    uint32_t answer = named ? vdp_home_new_table(s->at, s->len, table) : vdp_home_new(s->at, s->len);
    for (size_t k = 0; !due && k < s->len; k++) {
        uint8_t is = k == 0 ? 0x56 : k == 1 ? 0x48 : k >= VDP_AT_REGISTERS && k < VDP_AT_REGISTERS + 11 ? registers[k - VDP_AT_REGISTERS] : k == VDP_HOME_AT_DIRTY ? 1 : k == VDP_HOME_AT_TABLE ? table : 0;
        if (s->at[k] != is)
            stop("makes a device that is not fresh");
    }
    if (!due)
        may_change(STATE, 0, s->len);
    after_call(answer, due);
}

static void do_home_out(void)
{
    uint16_t port = some_port();
    uint8_t value = (uint8_t)any(), low = (uint8_t)port;
    lend_home(0);
    lend_vram(0);
    unsigned due = first(home_refusal(), vram_refusal());
    const uint8_t *s = buffer[STATE].at;
    unsigned at = due ? 0 : address(), chosen = due ? 0 : s[VDP_AT_CHOSEN];
    int second = !due && low == VDP_PORT_COMMAND && s[VDP_AT_COMMAND_LATCHED];
    unsigned latched = due ? 0 : s[VDP_AT_COMMAND_BYTE];
    if (!due)
        due = low == VDP_PORT_COMMAND                      ? second && value >> 6 == 2 && (value & 0x7F) > 10 ? VDP_REFUSED_REGISTER : VDP_OK
              : low != VDP_PORT_DATA                       ? VDP_REFUSED_PORT
              : chosen == 0                                ? VDP_REFUSED_NO_MEMORY
              : at >= (chosen == 1 ? VDP_VRAM_SIZE : 32)   ? VDP_REFUSED_ADDRESS
                                                           : VDP_OK;
    before_call("vdp_home_out");
    uint32_t answer = vdp_home_out(buffer[STATE].at, buffer[STATE].len, buffer[VRAM].at, buffer[VRAM].len, port, value);
    if (due >= VDP_REFUSED_REGISTER && due <= VDP_REFUSED_ADDRESS)
        latch_may_empty();
    if (!due && low == VDP_PORT_COMMAND && !second) {
        if (s[VDP_AT_COMMAND_LATCHED] != 1 || s[VDP_AT_COMMAND_BYTE] != value)
            stop("latches another byte");
        may_change(STATE, VDP_AT_COMMAND_LATCHED, 2);
    } else if (!due) {
        latch_may_empty();
        if (second && value >> 6 == 2)
            may_change(STATE, VDP_AT_REGISTERS + (value & 0x7F), 1);
        else
            may_change(STATE, VDP_AT_ADDRESS, 2);
        if (second && value >> 6 != 2)
            may_change(STATE, VDP_AT_CHOSEN, 1);
        if (second && value >> 6 == 3 && address() != latched % 32)
            stop("sets another palette address");
        if ((second && value >> 6 == 0) || (!second && chosen == 1))
            may_change(STATE, VDP_AT_READ_BUFFER, 1);
        if (!second && chosen == 1)
            may_change(VRAM, at, 1);
        if (!second && chosen == 2) {
            /* stored at once and whole, and dirty exactly where it is another byte */
            int other = was(STATE, VDP_HOME_AT_PALETTE + at) != value;
            if (s[VDP_HOME_AT_PALETTE + at] != value || s[VDP_HOME_AT_DIRTY] != (was(STATE, VDP_HOME_AT_DIRTY) || other) || address() != (at + 1) % 32)
                stop("stores a colour otherwise");
            may_change(STATE, VDP_HOME_AT_PALETTE + at, 1);
            may_change(STATE, VDP_HOME_AT_DIRTY, 1);
        }
    }
    after_call(answer, due);
    if (!due && answer != VDP_OK)
        stop("answers more than 0");
}

static void do_home_input(void) { do_read(1); }

static void do_home_step(int whole, int layered)
{
    static const char *const names[] = {"vdp_home_row_step", "vdp_home_layer_row_step", "vdp_home_step", "vdp_home_layer_step"};
    size_t need = whole ? VDP_HOME_FRAME_SIZE : VDP_HOME_ROW_SIZE;
    lend_home(0);
    lend_vram(1);
    lend(PIXELS, length(need), 0);
    if (layered)
        lend(LAYERS, length(VDP_HOME_LAYERS_SIZE), 0);
    struct buffer *s = &buffer[STATE], *v = &buffer[VRAM], *p = &buffer[PIXELS], *l = &buffer[LAYERS];
    unsigned due = first(home_refusal(), vram_refusal());
    due = first(due, p->len < need ? VDP_REFUSED_PIXELS_LENGTH : whole && p->len > need ? VDP_REFUSED_FRAME_LONG : VDP_OK);
    due = first(due, layered && l->len < VDP_HOME_LAYERS_SIZE ? VDP_REFUSED_LAYERS_LENGTH : VDP_OK);
    before_call(names[2 * whole + layered]);
    uint32_t answer = whole ? layered ? vdp_home_layer_step(s->at, s->len, v->at, v->len, p->at, p->len, l->at, l->len)
                                      : vdp_home_step(s->at, s->len, v->at, v->len, p->at, p->len)
                            : layered ? vdp_home_layer_row_step(s->at, s->len, v->at, v->len, p->at, p->len, l->at, l->len)
                                      : vdp_home_row_step(s->at, s->len, v->at, v->len, p->at, p->len);
    if (!due) {
        unsigned jump = was(STATE, VDP_HOME_AT_TABLE) ? 0xDB : 0xDA;
        unsigned line = (was(STATE, VDP_AT_COUNTER) + 1u) & 0xFF;
        if (line == jump && !was(STATE, VDP_AT_JUMPED))
            line = 0xD5;
        int drawn = line < VDP_HOME_HEIGHT;
        if (s->at[VDP_AT_COUNTER] != line)
            stop("sets another line");
        if ((answer & ~0x700u) != (drawn ? 1u << 24 | line << 16 : 0))
            stop("answers another row");
        may_change(STATE, VDP_AT_COUNTER, 3); /* counter, jump flag, line count */
        may_change(STATE, VDP_AT_STATUS, 1);
        if (line == 0)
            may_change(STATE, VDP_HOME_AT_VERTICAL_SCROLL, 1);
        if (drawn) {
            if (s->at[VDP_HOME_AT_DIRTY])
                stop("draws, and leaves the colours dirty");
            if (was(STATE, VDP_HOME_AT_DIRTY))
                may_change(STATE, VDP_HOME_AT_DIRTY, 1), may_change(STATE, VDP_HOME_AT_COLOURS, 128);
            const uint8_t *row = p->at + (whole ? line * VDP_HOME_ROW_SIZE : 0);
            int fill = s->at[VDP_AT_REGISTERS] >> 5 & 1;
            for (unsigned k = 0; fill && k < 8; k++)
                if (memcmp(row + 4 * k, s->at + VDP_HOME_AT_COLOURS + 4 * (16 + s->at[VDP_AT_REGISTERS + 7] % 16), 4))
                    stop("fills with another colour");
            may_change(PIXELS, whole ? line * VDP_HOME_ROW_SIZE : 0, VDP_HOME_ROW_SIZE);
            if (layered) {
                for (unsigned k = 0; k < VDP_HOME_LAYERS_SIZE; k++) {
                    int filled = fill && k < 8;
                    if (filled != (l->at[k] == VDP_LAYER_FILLED) || (!filled && l->at[k] > VDP_LAYER_HELD_BACK && (l->at[k] < VDP_LAYER_SPRITE || l->at[k] > VDP_LAYER_SPRITE + 63)))
                        stop("tells a layer that there is not");
                }
                may_change(LAYERS, 0, VDP_HOME_LAYERS_SIZE);
            }
        }
    }
    after_call(answer, due);
}
static void do_home_frame(void) { do_home_step(1, 0); }
static void do_home_row(void) { do_home_step(0, 0); }
static void do_home_layer_frame(void) { do_home_step(1, 1); }
static void do_home_layer_row(void) { do_home_step(0, 1); }

static void do_home_pixel(void)
{
    static const uint32_t edge[] = {0, 7, 8, 15, 16, 191, 192, 193, 255, 256, 0x80000000u, 0xFFFFFFFFu};
    uint32_t row = once_in(4) ? ONE_OF(edge) : below(192), column = once_in(4) ? ONE_OF(edge) : below(256);
    lend_home(1);
    lend_vram(1);
    struct buffer *s = &buffer[STATE], *v = &buffer[VRAM];
    unsigned due = first(home_refusal(), vram_refusal());
    int there = !due && row < VDP_HOME_HEIGHT && column < VDP_HOME_WIDTH;
    before_call("vdp_home_pixel");
    uint64_t answer = vdp_home_pixel(s->at, s->len, v->at, v->len, row, column);
    if ((uint32_t)answer != (due ? due : there ? 1u << 24 : 0) || (!there && answer >> 32))
        stop("has other bits");
    after_call(due, due);
}

static void do_home_dump(void)
{
    lend_home(1);
    lend_vram(1);
    lend(PIXELS, length(VDP_TILESET_SIZE), 0);
    struct buffer *s = &buffer[STATE], *v = &buffer[VRAM], *p = &buffer[PIXELS];
    unsigned due = first(first(home_refusal(), vram_refusal()), p->len != VDP_TILESET_SIZE ? VDP_REFUSED_PIXELS_LENGTH : VDP_OK);
    before_call("vdp_home_dump_tileset");
    uint32_t answer = vdp_home_dump_tileset(s->at, s->len, v->at, v->len, p->at, p->len);
    if (!due)
        may_change(PIXELS, 0, VDP_TILESET_SIZE);
    after_call(answer, due);
    if (!due && answer != VDP_OK)
        stop("answers more than 0");
}

static const struct {
    const char *names;
    void (*make)(void);
} calls[] = {
    {"vdp_new", do_new},
    {"vdp_new_table", do_new_table},
    {"vdp_out", do_out},
    {"vdp_input", do_input},
    {"vdp_step", do_frame},
    {"vdp_row_step", do_row},
    {"vdp_layer_step", do_layer_frame},
    {"vdp_layer_row_step", do_layer_row},
    {"vdp_dump_tileset", do_dump},
    {"vdp_pixel", do_pixel},
    {"vdp_write_tile", do_write_tile},
    {"vdp_read_tile", do_read_tile},
    {"vdp_repair", do_repair},
    {"vdp_record_out\nvdp_record_input\nvdp_record_step", do_record},
    {"vdp_record_next", do_next},
    {"vdp_version", do_version},
    {"vdp_home_new\nvdp_home_new_table", do_home_new},
    {"vdp_home_out", do_home_out},
    {"vdp_home_input", do_home_input},
    {"vdp_home_step", do_home_frame},
    {"vdp_home_row_step", do_home_row},
    {"vdp_home_layer_step", do_home_layer_frame},
    {"vdp_home_layer_row_step", do_home_layer_row},
    {"vdp_home_pixel", do_home_pixel},
    {"vdp_home_dump_tileset", do_home_dump},
};

/* Tells whether a word is a number, of digits alone, and hands it out. */
static int is_number(const char *word, unsigned long *value)
{
    char *end;
    errno = 0;
    *value = strtoul(word, &end, 10);
    return word[0] >= '0' && word[0] <= '9' && *end == 0 && errno == 0;
}

int main(int argc, char **argv)
{
    struct sigaction action;
    unsigned long most, from;
    if (argc == 2 && strcmp(argv[1], "--calls") == 0) {
        for (unsigned k = 0; k < sizeof calls / sizeof calls[0]; k++)
            puts(calls[k].names);
        return 0;
    }
    if (argc != 3 || !is_number(argv[1], &most) || !is_number(argv[2], &from)) {
        fprintf(stderr, "usage: fuzz CALLS SEED | fuzz --calls; CALLS and SEED are numbers from 0 on\n");
        return 2;
    }
    seed = from;
    memset(&action, 0, sizeof action);
    action.sa_sigaction = touched;
    action.sa_flags = SA_SIGINFO;
    sigaction(SIGSEGV, &action, NULL);
    sigaction(SIGBUS, &action, NULL);
    for (int k = 0; k < BUFFERS; k++)
        make_pages(&buffer[k]);
    for (number = 1; number <= most; number++) {
        kind = below(sizeof calls / sizeof calls[0]);
        calls[kind].make();
    }
    /* A long run has met all that there is, or it says nothing. */
    for (unsigned k = VDP_OK; most >= ENOUGH && k <= VDP_REFUSED_RECORD_ROOM; k++)
        if (refused[k] == 0) {
            printf("fuzz: refusal %u was not met\n", k);
            return 1;
        }
    for (unsigned k = 0; most >= ENOUGH && k < sizeof calls / sizeof calls[0]; k++)
        if (accepted[k] == 0) {
            printf("fuzz: not one call was accepted: %s\n", calls[k].names);
            return 1;
        }
    printf("fuzz: %lu calls from seed %s, %lu accepted%s; each answer and each byte is as vdp.h has it\n", most, argv[2], accepted_calls,
           most >= ENOUGH ? ", and every refusal met" : "");
    return 0;
}
