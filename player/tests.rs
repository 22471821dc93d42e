//! The player's file under test: the published file's own public tests by what they check (`run_step`, `split_io`, `read_wrap`),
//! the marked examples (docs/RULES.md, R8.1) that show through the public names, and what is refused. Built by `rustc --test`.

/// What the player's file needs of the player: its trait of a device.
pub mod io {
    pub trait Device {
        fn out(&self, addr: u16, val: u8, cycle: u32) -> Result<(), String>;
        fn input(&self, addr: u16, cycle: u32) -> Result<u8, String>;
    }
}
pub mod vdp;

#[cfg(test)]
mod tests {
    use crate::io::Device;
    use crate::vdp::{
        refusal_text, DisplayRefresh, RenderArea, Save, Vdp, VdpInt, GG_VISIBLE_PIXEL_HEIGHT, GG_VISIBLE_PIXEL_WIDTH,
    };

    const COMMAND: u16 = 0xBF;
    const DATA: u16 = 0xBE;
    const LINE: u16 = 0x7E;
    const VISIBLE: usize = GG_VISIBLE_PIXEL_WIDTH * GG_VISIBLE_PIXEL_HEIGHT * 4;
    const EFFECTIVE: usize = 256 * 224 * 4;

    fn commands(vdp: &Vdp, bytes: &[u8]) {
        for byte in bytes {
            assert_eq!(vdp.out(COMMAND, *byte, 0), Ok(()));
        }
    }
    fn writes(vdp: &Vdp, bytes: &[u8]) {
        for byte in bytes {
            assert_eq!(vdp.out(DATA, *byte, 0), Ok(()));
        }
    }
    fn reads(vdp: &Vdp, bytes: &[u8]) {
        for byte in bytes {
            assert_eq!(vdp.input(DATA, 0), Ok(*byte));
        }
    }
    /// A write and a read that are refused by this number, with an error.
    fn write_refused(vdp: &Vdp, port: u16, byte: u8, number: u8) {
        assert!(vdp.out(port, byte, 0).is_err());
        assert_eq!(vdp.last_refusal(), number);
    }
    fn read_refused(vdp: &Vdp, port: u16, number: u8) {
        assert!(vdp.input(port, 0).is_err());
        assert_eq!(vdp.last_refusal(), number);
    }
    fn steps(vdp: &Vdp, count: usize) {
        let mut frame = vec![0; VISIBLE];
        for _ in 0..count {
            vdp.step(&mut frame, RenderArea::VisibleOnly);
        }
    }

    #[test]
    fn run_step() {
        let vdp = Vdp::default();
        vdp.step(&mut vec![0; EFFECTIVE], RenderArea::EffectiveArea);
        assert_eq!(vdp.input(LINE, 0), Ok(1));
    }

    #[test]
    fn split_io() {
        // a write, read back from its address
        let vdp = Vdp::default();
        commands(&vdp, &[0x00, 0x40]);
        writes(&vdp, &[0xAB]);
        commands(&vdp, &[0x00, 0x00]);
        reads(&vdp, &[0xAB]);

        // a write where a read was set up: first the read buffer, then the memory
        let vdp = Vdp::default();
        commands(&vdp, &[0x00, 0x00]);
        writes(&vdp, &[0x42]);
        reads(&vdp, &[0x42, 0x00]);
        commands(&vdp, &[0x00, 0x00]);
        reads(&vdp, &[0x00, 0x42]);

        // a read where a write was set up: the read buffer comes first
        let vdp = Vdp::default();
        commands(&vdp, &[0x00, 0x40]);
        writes(&vdp, &[0xA1, 0xB2, 0xC3, 0xD4]);
        commands(&vdp, &[0x00, 0x40]);
        reads(&vdp, &[0xD4, 0xA1, 0xB2, 0xC3]);
    }

    #[test]
    fn read_wrap() {
        // reads go on from the last address to the first
        let vdp = Vdp::default();
        commands(&vdp, &[0xFE, 0x7F]);
        writes(&vdp, &[0xA1, 0xB2]);
        commands(&vdp, &[0x00, 0x40]);
        writes(&vdp, &[0xC3, 0xD4]);
        commands(&vdp, &[0xFE, 0x3F]);
        reads(&vdp, &[0xA1, 0xB2, 0xC3, 0xD4]);

        // and do not wrap at 1,024
        let vdp = Vdp::default();
        commands(&vdp, &[0xFE, 0x43]);
        writes(&vdp, &[0xA1, 0xB2, 0xC3, 0xD4]);
        commands(&vdp, &[0xFE, 0x03]);
        reads(&vdp, &[0xA1, 0xB2, 0xC3, 0xD4]);
    }

    #[test]
    fn marked_examples() {
        // P2
        let vdp = Vdp::new();
        commands(&vdp, &[0x00, 0x00]);
        writes(&vdp, &[0x42]);
        reads(&vdp, &[0x42, 0x00]);
        // P3
        let vdp = Vdp::new();
        commands(&vdp, &[0xFE, 0x7F]);
        writes(&vdp, &[0xA1, 0xB2]);
        commands(&vdp, &[0xFE, 0x3F]);
        reads(&vdp, &[0xA1, 0xB2]);
        // P5
        let vdp = Vdp::new();
        commands(&vdp, &[0x01, 0xC0]);
        write_refused(&vdp, DATA, 0x77, 6);
        // P6
        let vdp = Vdp::new();
        commands(&vdp, &[0x00, 0x8A, 0x00]);
        assert_eq!(vdp.last_refusal(), 0);
        write_refused(&vdp, COMMAND, 0x8B, 3);
        // P7
        let tables = [[(217, 0xD9), (218, 0xD5), (260, 0xFF), (261, 0x00)], [(218, 0xDA), (219, 0xD5), (261, 0xFF), (262, 0x00)]];
        for (table, row) in (0..).zip(tables) {
            for (count, line) in row {
                let vdp = Vdp::with_table(table).expect("a table");
                steps(&vdp, count);
                assert_eq!(vdp.input(LINE, 0), Ok(line));
            }
        }
    }

    #[test]
    fn a_device_goes_by_the_table_that_it_is_made_with() {
        for (table, last, pass) in [(0, 0xD9u32, 261), (1, 0xDA, 262)] {
            let vdp = Vdp::with_table(table).expect("a table");
            let lines: Vec<u32> = (0..=last).chain(0xD5..=0xFF).chain(0..1).collect();
            assert_eq!(lines.len(), pass + 1);
            for line in lines {
                assert_eq!(vdp.input(LINE, 0), Ok(line as u8));
                steps(&vdp, 1);
            }
        }
        for table in 2..=255 {
            assert!(Vdp::with_table(table).is_none());
        }
    }

    #[test]
    fn with_no_table_named_it_is_the_chart() {
        for vdp in [Vdp::new(), Vdp::default()] {
            assert_eq!(format!("{:?}", vdp), format!("{:?}", Vdp::with_table(1).expect("a table")));
            steps(&vdp, 262);
            assert_eq!(vdp.input(LINE, 0), Ok(0));
        }
    }

    #[test]
    fn a_colour_is_drawn() {
        // P4: colour 3, here as the background of every row, is AA 55 33 FF
        let vdp = Vdp::new();
        commands(&vdp, &[0x00, 0x40]);
        writes(&vdp, &[0xFF, 0xFF, 0x00, 0x00].repeat(8));
        commands(&vdp, &[0x06, 0xC0]);
        writes(&vdp, &[0x5A, 0xF3]);
        let mut frame = vec![0; VISIBLE];
        for _ in 0..262 {
            vdp.step(&mut frame, RenderArea::VisibleOnly);
        }
        assert!(frame.chunks(4).all(|pixel| *pixel == [0xAA, 0x55, 0x33, 0xFF]));
    }

    #[test]
    fn line_interrupts() {
        // P12: on, register 10 at 3: from line 0 on, lines 2, 6, 10 come first
        let vdp = Vdp::new();
        commands(&vdp, &[0x10, 0x80, 0x03, 0x8A]);
        steps(&vdp, 261);
        let mut frame = vec![0; VISIBLE];
        let mut lines = Vec::new();
        for line in 0..12 {
            if let (VdpInt::InterruptGenerated, _) = vdp.step(&mut frame, RenderArea::VisibleOnly) {
                lines.push(line);
            }
        }
        assert_eq!(lines, [2, 6, 10]);
    }

    #[test]
    fn screen_end() {
        // once a pass; with or without a picture by register 1
        for (register, shown) in [(0x00, false), (0x40, true)] {
            let vdp = Vdp::new();
            commands(&vdp, &[register, 0x81]);
            let mut frame = vec![0; VISIBLE];
            let mut ends = Vec::new();
            for _ in 0..262 {
                match vdp.step(&mut frame, RenderArea::VisibleOnly).1 {
                    DisplayRefresh::NoDisplay => {}
                    DisplayRefresh::ScreenDone => ends.push(true),
                    DisplayRefresh::ScreenDoneNoRefresh => ends.push(false),
                }
            }
            assert_eq!(ends, [shown]);
        }
    }

    #[test]
    fn ports_answer_errors() {
        let vdp = Vdp::new();
        assert_eq!(vdp.last_refusal(), 0);
        write_refused(&vdp, 0x10, 0, 1);
        read_refused(&vdp, 0x10, 1);
        read_refused(&vdp, 0x7F, 2);
        write_refused(&vdp, DATA, 0, 4);
        read_refused(&vdp, DATA, 4);
        commands(&vdp, &[0x00, 0xC0]);
        read_refused(&vdp, DATA, 5);
        // only the low byte of a port counts (R3.3); an accepted call sets the number back
        assert_eq!(vdp.input(0x127E, 0), Ok(0));
        assert_eq!(vdp.last_refusal(), 0);
    }

    /// A device on which something has happened: tiles, half a colour, line interrupts at every line, and a pass of 30 steps.
    fn used() -> Vdp {
        let vdp = Vdp::new();
        commands(&vdp, &[0x10, 0x80, 0x60, 0x81, 0x00, 0x8A, 0x00, 0x40]);
        writes(&vdp, &[0xFF; 64]);
        steps(&vdp, 30);
        commands(&vdp, &[0x00, 0xC0]);
        writes(&vdp, &[0x5A]);
        vdp
    }

    #[test]
    fn other_frames_do_not_stop() {
        // R2.3: a whole pass on a frame that is one byte short, or one too long, or the other area's: nothing is reported, drawn or moved
        let (visible, effective, edges) = (RenderArea::VisibleOnly, RenderArea::EffectiveArea, RenderArea::TrueEdges);
        for (area, size, lent, number) in [
            (visible, VISIBLE, VISIBLE - 1, 9),
            (visible, VISIBLE, VISIBLE + 1, 12),
            (visible, VISIBLE, EFFECTIVE, 12),
            (effective, EFFECTIVE, VISIBLE, 9),
            (effective, EFFECTIVE, EFFECTIVE - 1, 9),
            (effective, EFFECTIVE, EFFECTIVE + 1, 12),
            (edges, VISIBLE, VISIBLE - 1, 9),
            (edges, VISIBLE, EFFECTIVE, 12),
        ] {
            let (vdp, other) = (used(), used());
            let mut frame = vec![7; lent];
            for _ in 0..262 {
                let answer = vdp.step(&mut frame, area);
                assert!(matches!(answer, (VdpInt::NoInterrupt, DisplayRefresh::NoDisplay)));
                assert_eq!(vdp.last_refusal(), number);
            }
            assert!(frame.iter().all(|byte| *byte == 7));
            // the whole device beside a twin that was not stepped; the last call of both is refused by 9
            vdp.dump_tileset(&mut []);
            other.dump_tileset(&mut []);
            assert_eq!(format!("{:?}", vdp), format!("{:?}", other));
            // and it goes on: the next line is the one after the 30
            assert!(matches!(vdp.step(&mut vec![7; size], area), (VdpInt::InterruptGenerated, DisplayRefresh::NoDisplay)));
            assert_eq!((vdp.last_refusal(), vdp.input(LINE, 0)), (0, Ok(31)));
        }
    }

    #[test]
    fn true_edges() {
        // R18.2: with the early clock a sprite at X 210, solid in colour 31, shows in columns 154 to 159, and in the visible area not at all
        for (area, shown) in [(RenderArea::VisibleOnly, 0), (RenderArea::TrueEdges, 6 * 8)] {
            let vdp = Vdp::new();
            commands(&vdp, &[0x08, 0x80, 0x00, 0x60]);
            writes(&vdp, &[0xFF; 32]);
            commands(&vdp, &[0x00, 0x7F]);
            writes(&vdp, &[23, 0xD0]);
            commands(&vdp, &[0x80, 0x7F]);
            writes(&vdp, &[210, 0]);
            commands(&vdp, &[0x3E, 0xC0]);
            writes(&vdp, &[0x0F, 0x00]);
            let mut frame = vec![0; VISIBLE];
            for _ in 0..262 {
                vdp.step(&mut frame, area);
            }
            let red: Vec<usize> = (0..VISIBLE / 4).filter(|at| frame[4 * at] == 0xFF).collect();
            assert_eq!(red.len(), shown);
            assert!(red.iter().all(|at| at % 160 >= 154 && at / 160 < 8));
        }
    }

    #[test]
    fn frame_sizes() {
        // P13
        for (short, number) in [(1, 9), (0, 0)] {
            let vdp = Vdp::new();
            vdp.step(&mut vec![0; VISIBLE - short], RenderArea::VisibleOnly);
            assert_eq!(vdp.last_refusal(), number);
        }
    }

    #[test]
    fn sheets_of_another_length_stay() {
        let vdp = used();
        for size in [0, 131_071, 131_073] {
            let mut sheet = vec![9; size];
            vdp.dump_tileset(&mut sheet);
            assert_eq!(vdp.last_refusal(), 9);
            assert!(sheet.iter().all(|byte| *byte == 9));
        }
        vdp.dump_tileset(&mut vec![9; 131_072]);
        assert_eq!(vdp.last_refusal(), 0);
    }

    #[test]
    fn early_clock_goes_on() {
        // a sprite on line 24 under the early clock: at X 45 the step ends and shows nothing of it, at X 60 it shows
        for (x, shown) in [(45, 0), (60, 64)] {
            let vdp = Vdp::new();
            commands(&vdp, &[0x08, 0x80]);
            commands(&vdp, &[0x00, 0x40]);
            writes(&vdp, &[0xFF; 32]);
            commands(&vdp, &[0x00, 0x7F]);
            writes(&vdp, &[23, 0xD0]);
            commands(&vdp, &[0x80, 0x7F]);
            writes(&vdp, &[x, 0]);
            // sprites of the same patterns as the background, in palette 1, where the colour is white
            commands(&vdp, &[0x00, 0x86]);
            commands(&vdp, &[0x3E, 0xC0]);
            writes(&vdp, &[0xFF, 0x0F]);
            let mut frame = vec![7; VISIBLE];
            for _ in 0..262 {
                vdp.step(&mut frame, RenderArea::VisibleOnly);
            }
            assert_eq!(frame.chunks(4).filter(|pixel| **pixel == [0xFF; 4]).count(), shown);
            assert_eq!(frame.chunks(4).filter(|pixel| **pixel == [0, 0, 0, 0xFF]).count(), 160 * 144 - shown);
        }
    }

    #[test]
    fn tile_sheet() {
        // tile 1 solid in code 1: colours come from the cache as the last row left it
        let vdp = Vdp::new();
        commands(&vdp, &[0x20, 0x40]);
        writes(&vdp, &[0xFF, 0, 0, 0].repeat(8));
        commands(&vdp, &[0x00, 0x86]);
        commands(&vdp, &[0x02, 0xC0]);
        writes(&vdp, &[0x0F, 0x00]);
        let mut sheet = vec![9; 131_072];
        vdp.dump_tileset(&mut sheet);
        assert_eq!(sheet[32..36], [0, 0, 0, 0]);
        steps(&vdp, 24);
        vdp.dump_tileset(&mut sheet);
        assert_eq!(sheet[32..36], [0xFF, 0, 0, 0xFF]);
        assert_eq!(sheet[28..32], [0, 0, 0, 0xFF]);
        // as a sprite, tile 0 has code 0 everywhere and leaves the sheet
        assert_eq!(sheet[65536..65540], [9, 9, 9, 9]);
    }

    /// Recording: off until it is switched on; refused port calls are recorded, refused steps are not; taken once.
    #[test]
    fn recordings() {
        let vdp = Vdp::new();
        commands(&vdp, &[0, 0xC0]);
        assert_eq!(vdp.take_recording(), None);
        vdp.start_recording(100);
        vdp.start_recording(40);
        write_refused(&vdp, 0x1280, 7, 1);
        read_refused(&vdp, DATA, 5);
        vdp.step(&mut [0; 100], RenderArea::VisibleOnly);
        assert_eq!(vdp.last_refusal(), 9);
        vdp.step(&mut vec![0; VISIBLE], RenderArea::VisibleOnly);
        vdp.step(&mut vec![0; EFFECTIVE], RenderArea::EffectiveArea);
        vdp.dump_tileset(&mut vec![0; 131_072]);
        assert_eq!(vdp.input(0xAB00 | LINE, 0), Ok(2));
        let recording = vdp.take_recording().unwrap();
        assert_eq!(recording.bytes, b"PW\x80\x07PR\xBELS\x00LS\x01PR\x7E");
        assert!(recording.whole);
        assert_eq!(vdp.take_recording(), None);
    }

    /// A buffer that is used up: whole records alone, none behind the first that has no room, and the calls go on as without.
    #[test]
    fn recordings_that_are_full() {
        for room in 0..12 {
            let vdp = Vdp::new();
            vdp.start_recording(room);
            commands(&vdp, &[0, 0x40]);
            assert_eq!(vdp.input(LINE, 0), Ok(0));
            assert_eq!(vdp.last_refusal(), 0);
            let recording = vdp.take_recording().unwrap();
            let whole = b"PW\xBF\x00PW\xBF\x40PR\x7E";
            assert_eq!(recording.bytes, whole[..[0, 0, 0, 0, 4, 4, 4, 4, 8, 8, 8, 11][room]]);
            assert_eq!(recording.whole, room == 11);
        }
    }

    /// A scene with a solid sprite, number 0, at column 12 of row 0, in palette 1's colour 15, white; the background is colour 0, red.
    fn scene() -> Vdp {
        let vdp = Vdp::new();
        commands(&vdp, &[0x20, 0x40]);
        writes(&vdp, &[0xFF; 32]);
        commands(&vdp, &[0x00, 0x7F]);
        writes(&vdp, &[23, 0xD0]);
        commands(&vdp, &[0x80, 0x7F]);
        writes(&vdp, &[60, 1]);
        commands(&vdp, &[0x00, 0x86]);
        commands(&vdp, &[0x3E, 0xC0]);
        writes(&vdp, &[0xFF, 0x0F]);
        commands(&vdp, &[0x00, 0xC0]);
        writes(&vdp, &[0x0F, 0x00]);
        vdp
    }

    /// A save brings back the device and its video memory; what goes on from it is what went on before, on any device, and in the first version too.
    #[test]
    fn saves() {
        let vdp = scene();
        steps(&vdp, 30);
        let save = vdp.save();
        assert_eq!((save.block.len(), save.vram.len()), (220, 16_384));
        let mut frames = vec![vec![0; VISIBLE]; 2];
        for _ in 0..300 {
            vdp.step(&mut frames[0], RenderArea::VisibleOnly);
        }
        writes(&vdp, &[1, 2, 3]);
        let after = vdp.save();
        assert_ne!(after, save);
        let other = Vdp::with_table(0).unwrap();
        assert_eq!(other.load(&save), Ok(()));
        assert_eq!(other.save(), save);
        for _ in 0..300 {
            other.step(&mut frames[1], RenderArea::VisibleOnly);
        }
        writes(&other, &[1, 2, 3]);
        assert!(frames[0] == frames[1]);
        assert_eq!(other.save(), after);
        // the first version, 219 bytes, stays what it is
        let mut old = Vdp::with_table(0).unwrap().save();
        old.block.pop();
        old.block[1] = 0x53;
        assert_eq!(other.load(&old), Ok(()));
        steps(&other, 261);
        assert_eq!(other.input(LINE, 0), Ok(0));
        assert_eq!(other.save().block.len(), 219);
    }

    /// What no call would take is refused, and the device stays.
    #[test]
    fn saves_that_are_refused() {
        let vdp = scene();
        let before = vdp.save();
        let refused = |save: &Save, number| {
            assert_eq!(vdp.load(save), Err(number));
            assert_eq!(vdp.last_refusal(), number);
            assert_eq!(vdp.save(), before);
        };
        let mut short = before.clone();
        short.block.pop();
        refused(&short, 10);
        let mut flag = before.clone();
        flag.block[26] = 2;
        flag.vram.pop();
        refused(&flag, 10);
        flag.block[26] = 1;
        refused(&flag, 8);
        // a save that is loaded ends a recording
        vdp.start_recording(100);
        assert_eq!(vdp.input(LINE, 0), Ok(0));
        assert_eq!(vdp.load(&before), Ok(()));
        assert_eq!(vdp.input(LINE, 0), Ok(0));
        let recording = vdp.take_recording().unwrap();
        assert_eq!((&recording.bytes[..], recording.whole), (&b"PR\x7E"[..], false));
    }

    #[test]
    fn repairs() {
        let good = scene().save();
        let mut save = good.clone();
        assert_eq!(save.repair(), Ok(vec![]));
        save.block[0] = 0x57;
        save.block[20] = 9;
        assert_eq!(Vdp::new().load(&save), Err(10));
        assert_eq!(save.repair(), Ok(vec![0, 20]));
        assert_eq!((save.block[0], save.block[20]), (0x56, 0));
        assert_eq!(save.vram, good.vram);
        assert_eq!(Vdp::new().load(&save), Ok(()));
        save.block.push(0);
        let longer = save.clone();
        assert_eq!(save.repair(), Err(10));
        assert_eq!(save, longer);
    }

    #[test]
    fn layers_and_pixels() {
        let (plain, layered) = (scene(), scene());
        let mut frames = vec![vec![7; VISIBLE]; 2];
        let mut layers = vec![9; 161];
        for step in 0..262 {
            let told = plain.step(&mut frames[0], RenderArea::VisibleOnly);
            let (interrupt, refresh, row) = layered.layer_step(&mut frames[1], &mut layers, RenderArea::VisibleOnly);
            assert_eq!(format!("{:?}", told), format!("{:?}", (interrupt, refresh)));
            let expected = if (23..167).contains(&step) { Some((step - 23) as u8) } else { None };
            assert_eq!((row, layered.last_refusal()), (expected, 0));
            if row == Some(0) {
                assert_eq!(layers[11..21], [0, 64, 64, 64, 64, 64, 64, 64, 64, 0]);
            }
        }
        assert!(frames[0] == frames[1] && layers[160] == 9);
        assert_eq!(plain.save(), layered.save());
        // one byte too few, on a line that draws nothing too
        for _ in 0..262 {
            layered.layer_step(&mut frames[1], &mut layers[..159], RenderArea::VisibleOnly);
            assert_eq!(layered.last_refusal(), 16);
        }
        assert_eq!(plain.save(), layered.save());
        // pixels: those of the row, and none outside
        for (row, column) in [(0, 11), (0, 12), (0, 19), (0, 20), (8, 12), (143, 159)] {
            let at = 4 * (160 * row as usize + column as usize);
            assert_eq!(plain.pixel(RenderArea::VisibleOnly, row, column).unwrap()[..], frames[0][at..at + 4]);
        }
        assert_eq!(plain.pixel(RenderArea::VisibleOnly, 0, 12), Some([0xFF; 4]));
        assert_eq!(plain.pixel(RenderArea::TrueEdges, 0, 11), Some([0xFF, 0, 0, 0xFF]));
        assert_eq!(plain.pixel(RenderArea::EffectiveArea, 24, 60), Some([0xFF; 4]));
        for (row, column) in [(144, 0), (0, 160), (u32::MAX, u32::MAX)] {
            assert_eq!(plain.pixel(RenderArea::VisibleOnly, row, column), None);
            assert_eq!(plain.last_refusal(), 0);
        }
        assert_eq!(plain.save(), layered.save());
    }

    /// The words of a refusal are those of the header.
    #[test]
    fn words() {
        let header = include_str!("../include/vdp.h");
        let part = header.split("*vdp_refusal_text(").nth(1).and_then(|rest| rest.split("};").next()).unwrap();
        let texts: Vec<&str> = part.split('"').skip(1).step_by(2).collect();
        assert_eq!(texts.len(), 19);
        for (number, text) in texts.iter().enumerate() {
            assert_eq!(refusal_text(number as u8), *text);
        }
        assert_eq!(refusal_text(19), "unknown refusal");
        let vdp = Vdp::new();
        assert!(vdp.input(0x7F, 0).unwrap_err().contains(texts[2]));
    }
}
