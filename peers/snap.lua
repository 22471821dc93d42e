-- snap.lua: MAME saves a picture of frame 230, when all has settled, and ends.
local frame = 0
emu.register_frame_done(function()
    frame = frame + 1
    if frame == 230 then manager.machine.video:snapshot() end
    if frame == 232 then manager.machine:exit() end
end)
