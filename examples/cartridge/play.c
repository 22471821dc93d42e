/* play.c: a small player of cartridges, of libvdp and of Debian's Z80 core, libz80ex: it runs a .gg file of the handheld,
 * or with --home a .sms file of the home machine, for some frames, writes the last one as a picture, and records what the
 * program asked of the chip, so that build/bin/trace and build/bin/snapshot (at home home-trace and home-snapshot) answer
 * the same again. README.md beside this file shows how.
 *
 * The machine: the file under C000, 8 KiB of memory from there on, which stand there again from E000; 228 cycles of the
 * processor, then a step of the chip; the chip's interrupt at 0038. No sound; buttons are pressed as the command line says.
 *
 * Exit status: 0 played; 1 the command line or the cartridge is no good; 2 something could not be read or written.
 */
#include "vdp.h"

#include <errno.h>
#include <stdio.h>
#include <stdlib.h>
#include <string.h>
#include <z80ex/z80ex.h>

#define LINE_CYCLES 228

#define PAGE_SIZE      0x4000
#define PLAIN_SIZE     0xC000              /* a file up to this size stands in memory as it is */
#define CARTRIDGE_MOST (256L * PAGE_SIZE)  /* a page's number is a byte */
#define FRAMES_MOST    1000000L
#define FRAMES_USUAL   60L
#define PRESSES_MOST   256

/* What was asked for; 0 frames where no number was named. */
static long frames, picture_frame;
static uint8_t table = VDP_CHART_TABLE;
static int home;
static const char *cartridge_name, *picture_name, *recording_name, *answers_name;

/* The cartridge, and which of its pages of 16 KiB stand at 0000, 4000 and 8000. */
static uint8_t *cartridge;
static size_t cartridge_size;
static uint8_t pages[3] = {0, 1, 2};
static uint8_t memory[0x2000];

/* The chip: its state, video memory and frame, each as large as either machine needs it, and whether it asks for an
 * interrupt that was not taken yet. */
static uint8_t state[VDP_STATE_SIZE];
static uint8_t vram[VDP_VRAM_SIZE];
static uint8_t frame[VDP_HOME_FRAME_SIZE];
static int interrupt;
static unsigned long steps, calls, refused;

/* The buttons, by the port that has them and the bit that is 0 while one is down; and which is down from frame to frame. */
static const struct button {
    const char *name;
    uint8_t start_bit, pad_bit;
} buttons[] = {{"start", 0x80, 0}, {"up", 0, 0x01}, {"down", 0, 0x02}, {"left", 0, 0x04}, {"right", 0, 0x08}, {"1", 0, 0x10}, {"2", 0, 0x20}};
static struct {
    long from, to;
    const struct button *button;
} presses[PRESSES_MOST];
static int press_count;

/* The recording, as far as it goes. */
static int recording_on;
static uint8_t recording[VDP_LONGEST_RECORDING];
static size_t used;
static unsigned long records;
static FILE *answers, *picture_file;

/* A line on standard error, and the end. */
static void stop(int status, const char *what, const char *why)
{
    fprintf(stderr, "play: %s: %s\n", what, why);
    exit(status);
}

static void stop_by_number(const char *name, int number)
{
    stop(2, name, number ? strerror(number) : "it could not be read or written");
}

static int ends_in(const char *name, const char *end)
{
    return strlen(name) >= strlen(end) && strcmp(name + strlen(name) - strlen(end), end) == 0;
}

/* Steps to a frame. */
static unsigned pass_steps(void)
{
    return table == VDP_CHART_TABLE ? VDP_CHART_PASS_STEPS : VDP_OLD_PASS_STEPS;
}

/* And to the end of this frame. At home the step to line 0 draws row 0 of the next one, and so is not among them. */
static unsigned long steps_to(long number)
{
    return (unsigned long)number * pass_steps() - (home ? 1 : 0);
}

static unsigned width(void) { return home ? VDP_HOME_WIDTH : VDP_VISIBLE_WIDTH; }
static unsigned height(void) { return home ? VDP_HOME_HEIGHT : VDP_VISIBLE_HEIGHT; }

/* The chip's calls, of the machine that is played. */

static void call_new(void)
{
    if (home)
        vdp_home_new_table(state, VDP_HOME_STATE_SIZE, table);
    else
        vdp_new_table(state, VDP_STATE_SIZE, table);
}

static uint32_t call_out(uint8_t port, uint8_t value)
{
    return home ? vdp_home_out(state, VDP_HOME_STATE_SIZE, vram, sizeof vram, port, value)
                : vdp_out(state, VDP_STATE_SIZE, vram, sizeof vram, port, value);
}

static uint32_t call_input(uint8_t port)
{
    return home ? vdp_home_input(state, VDP_HOME_STATE_SIZE, vram, sizeof vram, port)
                : vdp_input(state, VDP_STATE_SIZE, vram, sizeof vram, port);
}

static uint32_t call_step(void)
{
    return home ? vdp_home_step(state, VDP_HOME_STATE_SIZE, vram, sizeof vram, frame, VDP_HOME_FRAME_SIZE)
                : vdp_step(state, VDP_STATE_SIZE, vram, sizeof vram, frame, VDP_VISIBLE_FRAME_SIZE, VDP_VISIBLE);
}

/* Keeps a record that was just written to the recording; ends the recording where there was no room for it. Answers
 * whether the recording goes on. */
static int keep(uint32_t answer)
{
    if (vdp_refusal(answer) == VDP_OK) {
        used += vdp_recorded(answer);
        records++;
    } else {
        fprintf(stderr, "play: the recording is full (refusal %u): it has %lu records, %lu bytes, and ends in frame %lu; the rest is played and not recorded\n",
                vdp_refusal(answer), records, (unsigned long)used, steps / pass_steps() + 1);
        recording_on = 0;
    }
    return recording_on;
}

/* The three things that are asked of the chip. Each is recorded, and its answer written as build/bin/trace prints it. (A
 * step of the home machine is recorded as of area 0.) */

static void chip_write(uint8_t port, uint8_t value)
{
    int kept = recording_on && keep(vdp_record_out(recording, sizeof recording, used, port, value));
    unsigned refusal = vdp_refusal(call_out(port, value));

    calls++;
    refused += refusal != VDP_OK;
    if (kept && answers)
        fprintf(answers, "w %u\n", refusal);
}

static uint8_t chip_read(uint8_t port)
{
    int kept = recording_on && keep(vdp_record_input(recording, sizeof recording, used, port));
    uint32_t answer = call_input(port);

    calls++;
    refused += vdp_refusal(answer) != VDP_OK;
    if (port == VDP_PORT_COMMAND)
        interrupt = 0;
    if (kept && answers)
        fprintf(answers, "r %u %02X\n", vdp_refusal(answer), vdp_byte(answer));
    return vdp_byte(answer);
}

static void chip_step(void)
{
    int kept = recording_on && keep(vdp_record_step(recording, sizeof recording, used, VDP_VISIBLE));
    uint32_t answer = call_step();

    steps++;
    refused += vdp_refusal(answer) != VDP_OK;
    /* It waits until the processor takes it or the status is read. */
    if (vdp_interrupt(answer))
        interrupt = 1;
    if (kept && answers)
        fprintf(answers, "s %u %02X %d %u\n", vdp_refusal(answer), state[VDP_AT_COUNTER], vdp_interrupt(answer), vdp_report(answer));
}

/* What the processor core calls. */

static Z80EX_BYTE memory_read(Z80EX_CONTEXT *cpu, Z80EX_WORD address, int fetch, void *data)
{
    size_t at = address;

    (void)cpu, (void)fetch, (void)data;
    if (address >= PLAIN_SIZE)
        return memory[address % sizeof memory];
    /* The first 1 KiB, with the interrupt's address, is always that of page 0. */
    if (cartridge_size > PLAIN_SIZE && address >= 0x400)
        at = pages[address / PAGE_SIZE] % ((cartridge_size + PAGE_SIZE - 1) / PAGE_SIZE) * PAGE_SIZE + address % PAGE_SIZE;
    return at < cartridge_size ? cartridge[at] : 0xFF;
}

static void memory_write(Z80EX_CONTEXT *cpu, Z80EX_WORD address, Z80EX_BYTE value, void *data)
{
    (void)cpu, (void)data;
    if (address < PLAIN_SIZE)
        return;
    memory[address % sizeof memory] = value;
    if (address >= 0xFFFD)
        pages[address - 0xFFFD] = value;
}

/* The bits of the buttons that are down in this frame, of port 00 or of port DC. */
static uint8_t pressed(int of_start)
{
    long now = (long)(steps / pass_steps()) + 1;
    uint8_t bits = 0;

    for (int n = 0; n < press_count; n++)
        if (presses[n].from <= now && now <= presses[n].to)
            bits |= of_start ? presses[n].button->start_bit : presses[n].button->pad_bit;
    return bits;
}

/* Of a port's number the top two bits and the lowest choose: 40 to 7F the counters, 80 to BF the chip's two ports. */
static Z80EX_BYTE port_read(Z80EX_CONTEXT *cpu, Z80EX_WORD port, void *data)
{
    (void)cpu, (void)data;
    switch (port & 0xC1) {
    case 0x40: return chip_read(VDP_PORT_LINE);
    case 0x41: return chip_read(VDP_PORT_LINE + 1);
    case 0x80: return chip_read(VDP_PORT_DATA);
    case 0x81: return chip_read(VDP_PORT_COMMAND);
    case 0xC0: return 0xFF & ~pressed(0);
    default: return !home && (port & 0xFF) == 0 ? 0xC0 & ~pressed(1) : 0xFF; /* 00 also tells, by bit 6, that the machine is an exported one */
    }
}

static void port_write(Z80EX_CONTEXT *cpu, Z80EX_WORD port, Z80EX_BYTE value, void *data)
{
    (void)cpu, (void)data;
    switch (port & 0xC1) {
    case 0x80: chip_write(VDP_PORT_DATA, value); break;
    case 0x81: chip_write(VDP_PORT_COMMAND, value); break;
    default: break;
    }
}

static Z80EX_BYTE bus_on_interrupt(Z80EX_CONTEXT *cpu, void *data)
{
    (void)cpu, (void)data;
    return 0xFF; /* nothing drives the bus: in mode 0 that is RST 38, as in mode 1 */
}

static void write_picture(void);

/* Plays all the frames: a pass of steps each, and before each step a line's cycles. The picture is that of its frame. */
static void play(void)
{
    unsigned long all = steps_to(frames);
    long cycles = 0;
    Z80EX_CONTEXT *cpu = z80ex_create(memory_read, NULL, memory_write, NULL, port_read, NULL, port_write, NULL, bus_on_interrupt, NULL);

    if (!cpu)
        stop(2, "the processor", "no memory for it");
    while (steps < all) {
        /* What an instruction takes too much of one line is missing in the next. */
        for (cycles += LINE_CYCLES; cycles > 0;) {
            int taken = interrupt ? z80ex_int(cpu) : 0;
            if (taken)
                interrupt = 0;
            cycles -= taken ? taken : z80ex_step(cpu);
        }
        chip_step();
        if (steps == steps_to(picture_frame))
            write_picture();
    }
    z80ex_destroy(cpu);
}

/* Tells files that are something else by how they begin, and text by its bytes: no program is made of text alone. */
static void refuse_other_files(void)
{
    static const struct {
        const char *mark, *what;
        size_t length;
    } others[] = {
        {"\x89PNG", "it is a picture (PNG), and no cartridge", 4}, {"P6\n", "it is a picture (PPM), and no cartridge", 3},
        {"\x7F" "ELF", "it is a program for this machine, and no cartridge", 4}, {"PK\x03\x04", "it is packed (zip): unpack the cartridge first", 4},
        {"\x1F\x8B", "it is packed (gzip): unpack the cartridge first", 2}, {"PW\xBF", "it is a recording, and no cartridge: build/bin/desk shows it", 3},
        {"LS\x00", "it is a recording, and no cartridge: build/bin/desk shows it", 3},
    };
    size_t text = 0;

    for (size_t n = 0; n < sizeof others / sizeof *others; n++)
        if (cartridge_size >= others[n].length && memcmp(cartridge, others[n].mark, others[n].length) == 0)
            stop(1, cartridge_name, others[n].what);
    while (text < cartridge_size && (cartridge[text] >= 0x20 || (cartridge[text] >= '\t' && cartridge[text] <= '\r')) && cartridge[text] != 0x7F && cartridge[text] < 0xF8)
        text++;
    if (text == cartridge_size)
        stop(1, cartridge_name, "it is text, and no cartridge");
}

/* Reads the cartridge whole. */
static void read_cartridge(void)
{
    FILE *file = fopen(cartridge_name, "rb");

    if (!file)
        stop_by_number(cartridge_name, errno);
    cartridge = malloc(CARTRIDGE_MOST + 1);
    if (!cartridge)
        stop(2, cartridge_name, "no memory for it");
    errno = 0;
    cartridge_size = fread(cartridge, 1, CARTRIDGE_MOST + 1, file);
    if (ferror(file))
        stop_by_number(cartridge_name, errno);
    fclose(file);
    if (cartridge_size == 0)
        stop(1, cartridge_name, "it is empty, and no cartridge");
    if (cartridge_size > CARTRIDGE_MOST)
        stop(1, cartridge_name, "it has more than 4,194,304 bytes, and is no cartridge");
    refuse_other_files();
}

/* A file to write to; none where no name was given. */
static FILE *open_to_write(const char *name)
{
    FILE *file = name ? fopen(name, "wb") : NULL;

    if (name && !file)
        stop_by_number(name, errno);
    return file;
}

static void write_bytes(FILE *file, const char *name, const void *bytes, size_t count)
{
    errno = 0;
    if (fwrite(bytes, 1, count, file) != count)
        stop_by_number(name, errno);
}

static void close_written(FILE *file, const char *name)
{
    errno = 0;
    if (fflush(file) != 0 || ferror(file) || fclose(file) != 0)
        stop_by_number(name, errno);
}

/* The sums that a PNG is held to: of a part of the file, and of the bytes that are packed. */
static uint32_t part_sum(uint32_t sum, const uint8_t *bytes, size_t count)
{
    for (size_t n = 0; n < count; n++) {
        sum ^= bytes[n];
        for (int bit = 0; bit < 8; bit++)
            sum = sum >> 1 ^ (sum & 1 ? 0xEDB88320u : 0);
    }
    return sum;
}

static uint32_t packed_sum(const uint8_t *bytes, size_t count)
{
    uint32_t low = 1, high = 0;

    for (size_t n = 0; n < count; n++) {
        low = (low + bytes[n]) % 65521;
        high = (high + low) % 65521;
    }
    return high << 16 | low;
}

static void write_number(uint8_t *to, uint32_t number)
{
    for (int n = 0; n < 4; n++)
        to[n] = (uint8_t)(number >> (24 - 8 * n));
}

static void write_part(FILE *file, const char *mark, const uint8_t *bytes, size_t count)
{
    uint8_t number[4];

    write_number(number, (uint32_t)count);
    write_bytes(file, picture_name, number, 4);
    write_bytes(file, picture_name, mark, 4);
    write_bytes(file, picture_name, bytes, count);
    write_number(number, ~part_sum(part_sum(0xFFFFFFFFu, (const uint8_t *)mark, 4), bytes, count));
    write_bytes(file, picture_name, number, 4);
}

/* The frame as a PNG: each row in a block of its own, not packed, behind a byte that says it has no filter. */
static void write_png(FILE *file)
{
    static uint8_t raw[(1 + 3 * VDP_HOME_WIDTH) * VDP_HOME_HEIGHT], packed[2 + (6 + 3 * VDP_HOME_WIDTH) * VDP_HOME_HEIGHT + 4] = {0x78, 0x01};
    size_t length = 1 + 3 * width(), block_length = 5 + length, packed_length = 2 + block_length * height() + 4;
    uint8_t head[13] = {0, 0, 0, 0, 0, 0, 0, 0, 8, 2};

    write_number(head, width());
    write_number(head + 4, height());
    for (unsigned y = 0; y < height(); y++) {
        uint8_t *line = raw + length * y, *block = packed + 2 + block_length * y;

        for (unsigned x = 0; x < width(); x++)
            memcpy(line + 1 + 3 * x, frame + 4 * (width() * y + x), 3);
        block[0] = y == height() - 1; /* the last one */
        block[1] = length % 256, block[2] = (uint8_t)(length / 256);
        block[3] = (uint8_t)~block[1], block[4] = (uint8_t)~block[2];
        memcpy(block + 5, line, length);
    }
    write_number(packed + packed_length - 4, packed_sum(raw, length * height()));
    write_bytes(file, picture_name, "\x89PNG\r\n\x1A\n", 8);
    write_part(file, "IHDR", head, sizeof head);
    write_part(file, "IDAT", packed, packed_length);
    write_part(file, "IEND", NULL, 0);
}

/* And as build/bin/snapshot writes it. */
static void write_ppm(FILE *file)
{
    fprintf(file, "P6\n%u %u\n255\n", width(), height());
    for (unsigned pixel = 0; pixel < width() * height(); pixel++)
        write_bytes(file, picture_name, frame + 4 * pixel, 3);
}

/* The frame as it is now; which kind of file the name tells. */
static void write_picture(void)
{
    if (!picture_file)
        return;
    if (ends_in(picture_name, ".png"))
        write_png(picture_file);
    else
        write_ppm(picture_file);
    close_written(picture_file, picture_name);
}

static const char usage[] =
    "usage: play [--home] [--frames N] [--table 0|1] [--press WHEN:BUTTON].. [--frame N] [--picture FILE] [--record FILE] [--answers FILE] CARTRIDGE\n"
    "Plays a handheld's cartridge, CARTRIDGE.gg, for some frames, without sound; with --home one of the home machine, CARTRIDGE.sms.\n"
    "  --home          on the home machine, whose picture has 256 x 192 pixels; its recordings are for build/bin/home-trace,\n"
    "                  build/bin/home-snapshot, and build/bin/desk with --home. It has no button start\n"
    "  --frames N      so many frames, 1 to 1000000; with no number named 60, or as many as --frame asks for\n"
    "  --table 0|1     the line table: 0 has 261 steps to a frame, 1 has 262, and is taken where none is named\n"
    "  --press 120:start     a button is down in frame 120; --press 120-130:right from frame 120 to 130. Buttons: start, up, down,\n"
    "                  left, right, 1, 2. May be given again, for others\n"
    "  --picture FILE  writes the last frame: a PNG where the name ends in .png, else a binary PPM\n"
    "  --frame N       the picture is that of frame N, and not of the last one\n"
    "  --record FILE   writes all that was asked of the chip, as far as 65535 bytes hold it, for build/bin/trace and\n"
    "                  build/bin/snapshot (with table 0 for build/bin/trace-261 and build/bin/snapshot-261)\n"
    "  --answers FILE  writes what the chip answered to it, as build/bin/trace prints it\n"
    "  --help          this text\n"
    "Exit status: 0 played, 1 the command line or the cartridge is no good, 2 something could not be read or written.\n";

/* A whole number from least to most, and no more characters. */
static long number(const char *option, const char *text, long least, long most)
{
    char *end;
    long value;

    errno = 0;
    value = strtol(text, &end, 10);
    if (text[0] < '0' || text[0] > '9' || *end != '\0' || errno != 0 || value < least || value > most) {
        fprintf(stderr, "play: %s: a number from %ld to %ld, not '%s'\n", option, least, most, text);
        exit(1);
    }
    return value;
}

/* FRAME:BUTTON or FRAME-FRAME:BUTTON. */
static void read_press(const char *option, const char *text)
{
    char *end;
    long from = strtol(text, &end, 10), to = from;

    if (text[0] >= '0' && text[0] <= '9' && *end == '-' && end[1] >= '0' && end[1] <= '9')
        to = strtol(end + 1, &end, 10);
    if (text[0] >= '0' && text[0] <= '9' && *end == ':' && from >= 1 && from <= to && to <= FRAMES_MOST)
        for (size_t n = 0; n < sizeof buttons / sizeof *buttons; n++)
            if (strcmp(end + 1, buttons[n].name) == 0) {
                if (press_count == PRESSES_MOST)
                    stop(1, option, "more than 256 of them");
                presses[press_count].from = from, presses[press_count].to = to, presses[press_count].button = &buttons[n];
                press_count++;
                return;
            }
    fprintf(stderr, "play: %s: FRAME:BUTTON or FRAME-FRAME:BUTTON, with start, up, down, left, right, 1 or 2, and not '%s'\n", option, text);
    exit(1);
}

static void read_words(int count, char **words)
{
    int options = 1;

    for (int n = 1; n < count; n++) {
        const char *word = words[n];

        if (options && strcmp(word, "--help") == 0) {
            fputs(usage, stdout);
            close_written(stdout, "standard output");
            exit(0);
        }
        if (options && strcmp(word, "--") == 0) {
            options = 0;
        } else if (options && word[0] == '-') {
            const char **name = strcmp(word, "--picture") == 0  ? &picture_name
                                : strcmp(word, "--record") == 0  ? &recording_name
                                : strcmp(word, "--answers") == 0 ? &answers_name
                                                                 : NULL;
            int is_frames = strcmp(word, "--frames") == 0, is_table = strcmp(word, "--table") == 0;
            int is_frame = strcmp(word, "--frame") == 0, is_press = strcmp(word, "--press") == 0;

            if (strcmp(word, "--home") == 0) {
                home = 1;
                continue;
            }
            if (!name && !is_frames && !is_table && !is_frame && !is_press)
                stop(1, word, "no such option; --help tells which there are");
            if (++n == count)
                stop(1, word, name ? "a file's name is missing behind it" : is_press ? "FRAME:BUTTON is missing behind it" : "a number is missing behind it");
            if (name)
                *name = words[n];
            else if (is_frames)
                frames = number(word, words[n], 1, FRAMES_MOST);
            else if (is_frame)
                picture_frame = number(word, words[n], 1, FRAMES_MOST);
            else if (is_press)
                read_press(word, words[n]);
            else
                table = (uint8_t)number(word, words[n], VDP_OLD_TABLE, VDP_CHART_TABLE);
        } else if (cartridge_name) {
            stop(1, word, "a second cartridge; one is played at a time");
        } else {
            cartridge_name = word;
        }
    }
    if (!cartridge_name)
        stop(1, "no cartridge is named", "play CARTRIDGE.gg, and --help tells more");
    if (!home && ends_in(cartridge_name, ".sms"))
        stop(1, cartridge_name, "a cartridge of the home machine, by its name: --home plays it");
    if (home && ends_in(cartridge_name, ".gg"))
        stop(1, cartridge_name, "a cartridge of the handheld, by its name: it is played without --home");
    for (int n = 0; home && n < press_count; n++)
        if (presses[n].button->start_bit)
            stop(1, "--press", "the home machine has no button start");
    if (picture_frame && !picture_name)
        stop(1, "--frame", "it goes with --picture");
    if (!frames)
        frames = picture_frame > 0 ? picture_frame : FRAMES_USUAL;
    if (!picture_frame)
        picture_frame = frames;
    if (picture_frame > frames) {
        fprintf(stderr, "play: --frame: frame %ld, and %ld are played\n", picture_frame, frames);
        exit(1);
    }
    if ((picture_name && strcmp(picture_name, cartridge_name) == 0) || (recording_name && strcmp(recording_name, cartridge_name) == 0)
        || (answers_name && strcmp(answers_name, cartridge_name) == 0))
        stop(1, cartridge_name, "the cartridge itself would be written over");
}

int main(int count, char **words)
{
    FILE *recording_file;

    if (vdp_version() != VDP_VERSION)
        stop(2, "libvdp", "the library is not the one of this program's header");
    read_words(count, words);
    read_cartridge();
    /* What cannot be written is told before anything is played. */
    picture_file = open_to_write(picture_name);
    recording_file = open_to_write(recording_name);
    answers = open_to_write(answers_name);
    recording_on = recording_file || answers;

    call_new();
    play();

    if (recording_file) {
        write_bytes(recording_file, recording_name, recording, used);
        close_written(recording_file, recording_name);
    }
    if (answers) {
        fprintf(answers, "end %lu\n", records);
        close_written(answers, answers_name);
    }
    printf("%ld frames: %lu steps, %lu port calls, %lu refused\n", frames, steps, calls, refused);
    close_written(stdout, "standard output");
    free(cartridge);
    if (calls == 0)
        stop(1, cartridge_name, "its program has not used the chip in all this time: is it a cartridge?");
    return 0;
}
