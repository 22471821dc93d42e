/* replay.c: the published Rust's answers, replayed on the library by its C calls, where the Rust cannot run.
 *
 *   replay FILE    FILE is the list that crates/replay holds (oracle/VECTORS.md says what stands in it)
 *
 * Answer word, state block and row of every call are held to the list. Prints one line; exit status 1 where something differs.
 */
#include "vdp.h"

#include <stdio.h>

static uint8_t state[VDP_OLD_STATE_SIZE], vram[VDP_VRAM_SIZE], row[VDP_EFFECTIVE_ROW_SIZE];

static uint32_t checksum(const uint8_t *bytes, size_t count)
{
    uint32_t sum = 0;
    for (size_t k = 0; k < count; k++)
        sum += (uint32_t)(k + 1) * bytes[k];
    return sum;
}

static uint32_t number(const uint8_t *bytes) { return bytes[0] | (uint32_t)bytes[1] << 8 | (uint32_t)bytes[2] << 16 | (uint32_t)bytes[3] << 24; }

int main(int argc, char **argv)
{
    uint8_t record[16];
    unsigned long count = 0, rows = 0;
    FILE *list = argc == 2 ? fopen(argv[1], "rb") : NULL;
    if (!list || vdp_new_table(state, sizeof state, VDP_OLD_TABLE) != VDP_OK) {
        fprintf(stderr, "usage: replay FILE\n");
        return 2;
    }
    for (; fread(record, sizeof record, 1, list) == 1; count++) {
        uint32_t answer = record[0] == 'W'   ? vdp_out(state, sizeof state, vram, sizeof vram, record[1], record[2])
                          : record[0] == 'R' ? vdp_input(state, sizeof state, vram, sizeof vram, record[1])
                                             : vdp_row_step(state, sizeof state, vram, sizeof vram, row, sizeof row, record[1]);
        int drawn = record[0] == 'S' && vdp_drawn(answer);
        uint32_t shown = drawn ? checksum(row, record[1] == VDP_VISIBLE ? VDP_VISIBLE_ROW_SIZE : VDP_EFFECTIVE_ROW_SIZE) : 0;
        if (answer != number(record + 4) || checksum(state, sizeof state) != number(record + 8) || shown != number(record + 12)) {
            printf("replay: call %lu, %c %02X %02X: answer %08lX where the Rust has %08lX\n", count, record[0], record[1], record[2], (unsigned long)answer, (unsigned long)number(record + 4));
            return 1;
        }
        rows += drawn;
    }
    printf("replay: %lu answers of the Rust, %lu rows among them: the same\n", count, rows);
    return count == 65536 && rows > 1000 ? 0 : 1;
}
