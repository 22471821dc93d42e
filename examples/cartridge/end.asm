; end.asm: what a cartridge ends with. It is included last: the file is filled up to 32 KiB, the smallest size that other players take.

        ds 0x8000 - $
