/* record.c: the four calls on a recording, from C: a recording is written to the last byte of its room, refused, and read back.
 *
 *   record FILE    also writes the recording to FILE
 *
 * Prints the number of tests; exit status 1 where one failed.
 */
#include "vdp.h"

#include <stdio.h>
#include <string.h>

static int tests, failed;

static void test(int holds, const char *what)
{
    tests++;
    if (!holds) {
        failed++;
        printf("failed: %s\n", what);
    }
}

int main(int argc, char **argv)
{
    uint8_t room[29 + 8], before[sizeof room];
    size_t used = 0, at = 0;
    uint32_t answer;
    unsigned count = 0;
    FILE *file;

    /* The worked example of the rules: eight records, 29 bytes. */
    memset(room, 0xEE, sizeof room);
    used += vdp_recorded(vdp_record_out(room, 29, used, 0xBF, 0x00));
    used += vdp_recorded(vdp_record_out(room, 29, used, 0xBF, 0x40));
    used += vdp_recorded(vdp_record_out(room, 29, used, 0xBE, 0xAB));
    used += vdp_recorded(vdp_record_out(room, 29, used, 0xBF, 0x00));
    used += vdp_recorded(vdp_record_out(room, 29, used, 0xBF, 0x00));
    used += vdp_recorded(vdp_record_input(room, 29, used, 0xBE));
    used += vdp_recorded(vdp_record_step(room, 29, used, VDP_VISIBLE));
    test(used == 26, "seven records are 26 bytes");
    memcpy(before, room, sizeof room);
    test(vdp_record_out(room, 29, used, 0x7F, 0x00) == VDP_REFUSED_RECORD_ROOM, "a write has no room in three bytes");
    test(vdp_record_input(room, 28, used, 0x7F) == VDP_REFUSED_RECORD_ROOM, "a read has no room in two bytes");
    test(vdp_record_step(room, 28, used, VDP_EFFECTIVE) == VDP_REFUSED_RECORD_ROOM, "a step has no room in two bytes");
    test(memcmp(before, room, sizeof room) == 0, "a refused record changes nothing");
    test(vdp_record_input(room, 29, used, 0x7F) == 3 << 8, "a read has room in three bytes");
    used += 3;
    test(memcmp(room, "PW\xBF\x00PW\xBF\x40PW\xBE\xABPW\xBF\x00PW\xBF\x00PR\xBELS\x00PR\x7F", 29) == 0, "the bytes of the worked example");
    test(room[29] == 0xEE && room[36] == 0xEE, "the bytes past the room stay");

    /* The place at the end, past it, and as large as a number can be. */
    memcpy(before, room, sizeof room);
    for (size_t k = 0; k < 6; k++) {
        test(vdp_record_input(room, 29, 29 + k, 0) == VDP_REFUSED_RECORD_ROOM, "at the end and past it there is no room");
        test(vdp_record_out(room, 29, SIZE_MAX - k, 0, 0) == VDP_REFUSED_RECORD_ROOM, "nor at the largest places");
        test(vdp_record_step(room, 29, SIZE_MAX - k, 0) == VDP_REFUSED_RECORD_ROOM, "nor for a step there");
        test(vdp_record_next(room, 29, 29 + k) == VDP_RECORD_END, "at the end and past it there is nothing more");
        test(vdp_record_next(room, 29, SIZE_MAX - k) == VDP_RECORD_END, "nor at the largest places");
    }
    test(vdp_record_step(room, 29, SIZE_MAX, 255) == VDP_REFUSED_AREA, "the area comes before the room");
    test(vdp_record_step(room, 29, SIZE_MAX, 3) == VDP_REFUSED_AREA && vdp_record_step(room, 29, SIZE_MAX, VDP_TRUE_EDGES) == VDP_REFUSED_RECORD_ROOM,
         "an area is unknown from 3 on");
    test(memcmp(before, room, sizeof room) == 0, "and nothing has changed");

    /* Read back, one record after another. */
    while (vdp_record_kind(answer = vdp_record_next(room, used, at)) != VDP_RECORD_END && vdp_record_kind(answer) != VDP_RECORD_BAD) {
        if (count == 2)
            test(vdp_record_kind(answer) == VDP_RECORD_OUT && vdp_record_port(answer) == 0xBE && vdp_record_value(answer) == 0xAB && vdp_record_length(answer) == 4,
                 "the third record writes AB to BE");
        if (count == 6)
            test(vdp_record_kind(answer) == VDP_RECORD_STEP && vdp_record_area(answer) == VDP_VISIBLE && vdp_record_length(answer) == 3, "the seventh is a visible step");
        at += vdp_record_length(answer);
        count++;
    }
    test(count == 8 && at == used && vdp_record_kind(answer) == VDP_RECORD_END, "eight records, and the end");

    /* A bad record answers its kind alone, and a reader stays. */
    test(vdp_record_next(room, used, 1) == VDP_RECORD_BAD, "no record starts in the middle of one");
    test(vdp_record_next(room, 28, 26) == VDP_RECORD_BAD, "a record that is cut is bad");
    test(vdp_record_next((const uint8_t *)"LS\xFF", 3, 0) == VDP_RECORD_BAD, "and so is a step of no area");
    answer = vdp_record_next((const uint8_t *)"LS\x02", 3, 0);
    test(vdp_record_kind(answer) == VDP_RECORD_STEP && vdp_record_area(answer) == VDP_TRUE_EDGES, "a step with true edges is one");
    test(vdp_record_next((const uint8_t *)"LS\x03", 3, 0) == VDP_RECORD_BAD, "and the area behind it is none");

    if (argc > 1) {
        file = fopen(argv[1], "wb");
        test(file && fwrite(room, 1, used, file) == used && fclose(file) == 0, "the recording is written");
    }
    printf("%d tests, %d failed\n", tests, failed);
    return failed != 0;
}
