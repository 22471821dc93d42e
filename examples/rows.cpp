// rows.cpp: a pass row by row in C++, with a row buffer and no frame; and one of the home machine.
#include "vdp.h"

#include <array>
#include <cstdio>

// A pass of the home machine, over the same video memory; answers the rows that it drew.
static unsigned docked(const std::array<uint8_t, VDP_VRAM_SIZE> &vram)
{
    static_assert(VDP_HOME_FRAME_SIZE / VDP_HOME_HEIGHT == VDP_HOME_ROW_SIZE && VDP_HOME_ROW_SIZE == 4 * VDP_HOME_WIDTH, "a row is a frame's share");
    static_assert(VDP_HOME_LAYERS_SIZE == VDP_HOME_WIDTH && VDP_HOME_AT_COLOURS + 128 == VDP_HOME_STATE_SIZE, "a layer for each column; the block ends with its colours");
    std::array<uint8_t, VDP_HOME_STATE_SIZE> state;
    std::array<uint8_t, VDP_HOME_ROW_SIZE> row;
    unsigned drawn = 0;

    if (vdp_home_new(state.data(), state.size()) != VDP_OK)
        return 0;
    for (unsigned step = 0; step < VDP_CHART_PASS_STEPS; step++)
        drawn += vdp_drawn(vdp_home_row_step(state.data(), state.size(), vram.data(), vram.size(), row.data(), row.size())) ? 1 : 0;
    std::printf("%u rows of %u bytes on the home machine\n", drawn, static_cast<unsigned>(row.size()));
    return drawn;
}

int main()
{
    constexpr unsigned row_size = VDP_VISIBLE_FRAME_SIZE / VDP_VISIBLE_HEIGHT;
    static_assert(row_size == VDP_VISIBLE_ROW_SIZE, "a row is a frame's share");
    std::array<uint8_t, VDP_STATE_SIZE> state;
    std::array<uint8_t, VDP_VRAM_SIZE> vram{};
    std::array<uint8_t, row_size> row;
    unsigned drawn = 0;

    if (vdp_version() != VDP_VERSION || vdp_new(state.data(), state.size()) != VDP_OK)
        return 1;
    for (unsigned step = 0; step < VDP_CHART_PASS_STEPS; step++)
        drawn += vdp_drawn(vdp_row_step(state.data(), state.size(), vram.data(), vram.size(), row.data(), row.size(), VDP_VISIBLE)) ? 1 : 0;
    std::printf("%u rows of %u bytes\n", drawn, row_size);
    return drawn == VDP_VISIBLE_HEIGHT && docked(vram) == VDP_HOME_HEIGHT ? 0 : 1;
}
