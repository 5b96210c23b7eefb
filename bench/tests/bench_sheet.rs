//! The bench sheet of document 01, row by row, typed from the paper; run on the model, on the
//! naive program and, in a build with it, on the proved library. Then rules of the paper
//! outside the sheet that give numbers or bytes.

use bench::model::{self, Entry, Geometry, Kind, Model, SoFar, State};
use bench::naive::Naive;
use bench::store::*;

/// Every program there is in this build.
fn programs() -> Vec<Box<dyn Store>> {
    vec![
        Box::new(Model::new()),
        Box::new(Model::lean()),
        Box::new(Naive),
        #[cfg(feature = "library")]
        Box::new(bench::library::Library::new()),
    ]
}

/// A lent image with its sizes, under one of the programs.
struct Unit<'a> {
    store: &'a mut dyn Store,
    size: usize,
    count: usize,
    image: Vec<u8>,
}

impl<'a> Unit<'a> {
    fn fresh(store: &'a mut dyn Store, count: usize, size: usize) -> Unit<'a> {
        let mut unit = Unit { store, size, count, image: vec![0x5A; size * count] };
        let blocks = (size * count / 16) as u32;
        assert_eq!(unit.format(ENOUGH), Answer::done(1 + blocks, 0));
        unit
    }
    fn format(&mut self, allowance: u32) -> Answer {
        self.store.format(&mut self.image, self.size, self.count, allowance)
    }
    fn mount(&mut self, allowance: u32) -> Answer {
        self.store.mount(&mut self.image, self.size, self.count, allowance)
    }
    fn write(&mut self, id: u32, value: &[u8]) -> Answer {
        self.write_cut(id, value, ENOUGH)
    }
    fn write_cut(&mut self, id: u32, value: &[u8], allowance: u32) -> Answer {
        self.store.write(&mut self.image, self.size, self.count, id, value, allowance)
    }
    fn delete(&mut self, id: u32) -> Answer {
        self.store.delete(&mut self.image, self.size, self.count, id, ENOUGH)
    }
    fn read(&mut self, id: u32) -> (Answer, Vec<u8>) {
        let mut buffer = vec![0xEE; 65_536];
        let answer = self.store.read(&self.image, self.size, self.count, id, &mut buffer);
        assert!(buffer[answer.length as usize..].iter().all(|b| *b == 0xEE), "rest unchanged");
        buffer.truncate(answer.length as usize);
        (answer, buffer)
    }
    fn geometry(&self) -> Geometry {
        Geometry::new(self.size, self.count, self.image.len()).unwrap()
    }
    fn state(&self) -> Option<State> {
        model::state(self.geometry(), &self.image)
    }
    fn open(&self) -> usize {
        match self.state() {
            Some(State::Rest { open }) => open,
            other => panic!("not at rest: {other:?}"),
        }
    }
    fn cycle(&self, sector: usize) -> u8 {
        let g = self.geometry();
        g.block(&self.image, sector, g.lead_block())[1]
    }
}

fn eight(n: u32) -> [u8; 8] {
    (n as u64 * 0x0101_0101_0101).to_le_bytes()
}

#[test]
fn check_values() {
    assert_eq!(model::crc8(b"123456789"), 0xF4);
    assert_eq!(model::crc32(b"123456789"), 0xCBF4_3926);
}

/// Row 1: 4 sectors of 1024: length 928 is accepted, 929 gives 6. With 128: 32 and 33.
#[test]
fn row_1() {
    for mut p in programs() {
        let mut unit = Unit::fresh(p.as_mut(), 4, 1024);
        // 58 data blocks and the entry
        assert_eq!(unit.write(1, &[7; 928]), Answer::done(59, 0));
        assert_eq!(unit.write(1, &[7; 929]), Answer::refusal(6));
        assert_eq!(unit.read(1).1, vec![7; 928]);
        let mut unit = Unit::fresh(p.as_mut(), 4, 128);
        assert_eq!(unit.write(1, &[7; 32]), Answer::done(3, 0));
        assert_eq!(unit.write(1, &[7; 33]), Answer::refusal(6));
    }
    assert_eq!(model::need(928), 59);
    assert_eq!(model::need(929), 60);
}

/// Row 2: Fresh 4 x 1024: values of need 1 fit 59 times without a turn; the 60th takes 1 turn, 4
/// stores.
#[test]
fn row_2() {
    for mut p in programs() {
        let mut unit = Unit::fresh(p.as_mut(), 4, 1024);
        for n in 1..=59 {
            assert_eq!(unit.write(n, &eight(n)), Answer::done(1, 0));
        }
        assert_eq!(unit.write(60, &eight(60)), Answer::done(4, 1));
    }
}

/// Row 3: There: 177 IDs of 8 bytes fit, the 178th gives 7, also for an ID already stored.
/// Row 4: Then deleting the first ID: 1 store, no turn; the next new ID of 8 bytes: 1 turn, 62
/// stores.
#[test]
fn rows_3_and_4() {
    for mut p in programs() {
        let mut unit = Unit::fresh(p.as_mut(), 4, 1024);
        for n in 1..=177 {
            assert_eq!(unit.write(n, &eight(n)).number, 0, "ID {n}");
        }
        let before = unit.image.clone();
        assert_eq!(unit.write(178, &eight(178)), Answer::refusal(7));
        for n in 1..=177 {
            assert_eq!(unit.write(n, &eight(n)), Answer::refusal(7));
        }
        assert_eq!(unit.image, before, "refusal 7 changes nothing");
        assert_eq!(unit.delete(1), Answer::done(1, 0));
        assert_eq!(unit.write(178, &eight(178)), Answer::done(62, 1));
        assert_eq!(unit.read(1).0, Answer::refusal(8));
        for n in 2..=178 {
            assert_eq!(unit.read(n).1, eight(n), "ID {n}");
        }
    }
}

/// Row 5: 64 bytes has need 5; 11 a sector. Run: 33 fit, the 34th gives 7.
#[test]
fn row_5() {
    assert_eq!(model::need(64), 5);
    for mut p in programs() {
        let mut unit = Unit::fresh(p.as_mut(), 4, 1024);
        for n in 1..=33 {
            let answer = unit.write(n, &[n as u8; 64]);
            let turn = (n - 1) / 11 > 0 && (n - 1) % 11 == 0;
            // 4 data blocks and the entry; a turn here is close, done and lead
            let due = if turn { Answer::done(8, 1) } else { Answer::done(5, 0) };
            assert_eq!(answer, due, "ID {n}");
        }
        assert_eq!(unit.write(34, &[34; 64]), Answer::refusal(7));
    }
}

/// Row 6: One ID of 8 bytes, 4 x 1024: writes 1 to 236 use sectors 0 to 3; 237 goes to sector 0.
#[test]
fn row_6() {
    for mut p in programs() {
        let mut unit = Unit::fresh(p.as_mut(), 4, 1024);
        for n in 1..=237 {
            assert_eq!(unit.write(9, &eight(n)).number, 0);
            assert_eq!(unit.open(), (n as usize - 1) / 59 % 4, "write {n}");
            assert_eq!(unit.read(9).1, eight(n));
        }
    }
}

/// Row 7: A blank block is no entry, lead or close, under any cycle.
#[test]
fn row_7() {
    let g = Geometry { blocks: 8, sectors: 2 };
    assert_eq!(model::lead_cycle(&model::BLANK), None);
    for cycle in 0..=255 {
        assert!(!model::is_close(&model::BLANK, cycle));
        for done in [false, true] {
            let so_far = SoFar { done, ..SoFar::default() };
            assert_eq!(model::look(g, &model::BLANK, cycle, so_far), None);
        }
    }
}

/// Row 8: Counter 255, reopened, is 0.
#[test]
fn row_8() {
    for mut p in programs() {
        let mut unit = Unit::fresh(p.as_mut(), 2, 128);
        for n in 1..=3 {
            unit.write(7, &eight(n));
        }
        assert_eq!(unit.write_cut(7, &eight(4), 1), Answer::cut(1)); // closed: mid-turn
        unit.image[7 * 16 + 128..].copy_from_slice(&model::lead(255));
        assert_eq!(unit.mount(1), Answer::cut(1));
        assert_eq!(unit.cycle(1), 0);
    }
}

/// Row 9: 2 x 128, ID 7 written three times with 8 bytes; the fourth write prints exactly ...
#[test]
fn row_9() {
    let mut traced = Model::traced();
    let mut image = vec![0; 256];
    traced.format(&mut image, 128, 2, ENOUGH);
    for n in 1..=3 {
        assert_eq!(traced.write(&mut image, 128, 2, 7, &eight(n), ENOUGH), Answer::done(1, 0));
    }
    let answer = traced.write(&mut image, 128, 2, 7, &eight(4), ENOUGH);
    let mut printed = format!("stores {} turns {}\n", answer.stores, answer.turns);
    for made in &traced.trace {
        printed += &format!("{} {} {}\n", made.sector, made.block, made.kind.word());
    }
    assert_eq!(printed, "stores 5 turns 1\n0 6 close\n1 5 value\n1 4 done\n0 7 lead\n1 3 value\n");
    for mut p in programs() {
        let mut unit = Unit::fresh(p.as_mut(), 2, 128);
        for n in 1..=3 {
            assert_eq!(unit.write(7, &eight(n)), Answer::done(1, 0));
        }
        assert_eq!(unit.write(7, &eight(4)), Answer::done(5, 1));
        assert_eq!(unit.image, image);
    }
}

fn cut_fourth_write(store: &mut dyn Store, allowance: u32) -> Unit<'_> {
    let mut unit = Unit::fresh(store, 2, 128);
    for n in 1..=3 {
        unit.write(7, &eight(n));
    }
    assert_eq!(unit.write_cut(7, &eight(4), allowance), Answer::cut(allowance));
    unit
}

/// Row 10: That fourth write cut after 2: mid-turn, ID 7 holds the third value; a mount takes 4
/// stores. Cut after 3: a mount takes 1 store.
#[test]
fn row_10() {
    for mut p in programs() {
        let mut unit = cut_fourth_write(p.as_mut(), 2);
        assert_eq!(unit.state(), Some(State::MidTurn { unfinished: 1 }));
        let g = unit.geometry();
        let (sector, found) = model::newest_of(g, &unit.image, unit.state().unwrap(), 7).unwrap();
        assert_eq!((sector, found.entry), (0, Entry::Value { id: 7, length: 8 }));
        assert_eq!(g.block(&unit.image, sector, found.block)[8..], eight(3));
        assert_eq!(unit.read(7).0, Answer::refusal(3));
        assert_eq!(unit.mount(ENOUGH), Answer::done(4, 1));
        assert_eq!(unit.read(7).1, eight(3));

        let mut unit = cut_fourth_write(p.as_mut(), 3);
        assert_eq!(unit.state(), Some(State::DoneNotReopened { working: 1 }));
        assert_eq!(unit.mount(ENOUGH), Answer::done(1, 0));
        assert_eq!(unit.read(7).1, eight(3));
    }
}

/// Row 11: After the cut at 2, mounts of allowance 1: the 255th sets cycle 0; the 256th stores a
/// blank in sector 1 block 5.
#[test]
fn row_11() {
    for mut p in programs() {
        let mut unit = cut_fourth_write(p.as_mut(), 2);
        for n in 1..=255u32 {
            assert_eq!(unit.mount(1), Answer::cut(1));
            assert_eq!(unit.cycle(1), (1 + n) as u8, "mount {n}");
        }
        assert_eq!(unit.cycle(1), 0);
        let before = unit.image.clone();
        assert_ne!(before[128 + 5 * 16..128 + 6 * 16], model::BLANK);
        assert_eq!(unit.mount(1), Answer::cut(1));
        let mut due = before;
        due[128 + 5 * 16..128 + 6 * 16].fill(0xFF);
        assert_eq!(unit.image, due);
    }
    let mut traced = Model::traced();
    let mut unit = cut_fourth_write(&mut traced, 2);
    for _ in 1..=255 {
        unit.mount(1);
    }
    unit.mount(1);
    assert_eq!(traced.trace, vec![model::Made { sector: 1, block: 5, kind: Kind::Blank }]);
}

/// Row 12: Read of ID 0 in a fresh store: 8. Mount of it: 0, no stores. Delete of an absent ID: 8.
#[test]
fn row_12() {
    for mut p in programs() {
        for (count, size) in [(2, 128), (4, 1024), (64, 65_536)] {
            let mut unit = Unit::fresh(p.as_mut(), count, size);
            assert_eq!(unit.read(0).0, Answer::refusal(8));
            assert_eq!(unit.mount(0), Answer::done(0, 0));
            assert_eq!(unit.delete(5), Answer::refusal(8));
        }
    }
}

/// Row 13: Sector size 112, 136, 65,552, or 1 or 65 sectors: 1.
#[test]
fn row_13() {
    for mut p in programs() {
        for (size, count) in [(112, 4), (136, 4), (65_552, 4), (128, 1), (128, 65)] {
            let mut image = vec![0xFF; size * count];
            let mut buffer = [0; 8];
            let one = Answer::refusal(1);
            assert_eq!(p.format(&mut image, size, count, ENOUGH), one);
            assert_eq!(p.mount(&mut image, size, count, ENOUGH), one);
            assert_eq!(p.read(&image, size, count, 0xFFFF_FFFF, &mut buffer), one);
            assert_eq!(p.write(&mut image, size, count, 0xFFFF_FFFF, &[], ENOUGH), one);
            assert_eq!(p.delete(&mut image, size, count, 0xFFFF_FFFF, ENOUGH), one);
            assert!(image.iter().all(|b| *b == 0xFF));
        }
        for wrong in [0, 255, 257, 512] {
            let mut image = vec![0xFF; wrong];
            assert_eq!(p.format(&mut image, 128, 2, ENOUGH), Answer::refusal(1));
        }
    }
}

/// Row 14: Format cut after 1: mount gives 2.
#[test]
fn row_14() {
    for mut p in programs() {
        let mut unit = Unit::fresh(p.as_mut(), 2, 128);
        assert_eq!(unit.format(1), Answer::cut(1));
        assert_eq!(unit.mount(ENOUGH), Answer::refusal(2));
        // and at every place but the end
        for allowance in 1..=16 {
            let mut unit = Unit::fresh(unit.store, 2, 128);
            assert_eq!(unit.format(allowance), Answer::cut(allowance));
            assert_eq!(unit.mount(ENOUGH), Answer::refusal(2));
        }
        let mut unit = Unit::fresh(p.as_mut(), 2, 128);
        let before = unit.image.clone();
        assert_eq!(unit.format(0), Answer::cut(0));
        assert_eq!(unit.image, before);
        assert_eq!(unit.format(17), Answer::done(17, 0));
    }
}

// ---------------------------------------------------------------------------------------
// Not on the sheet

/// The bytes of the format, by hand: CRC-8 worked out here, bit by bit.
#[test]
fn format_bytes() {
    fn sealed(rest: [u8; 15]) -> [u8; 16] {
        let mut c = 0u8;
        for b in rest {
            c ^= b;
            for _ in 0..8 {
                c = if c >= 128 { (c << 1) ^ 7 } else { c << 1 };
            }
        }
        let mut block = [c; 16];
        block[1..].copy_from_slice(&rest);
        block
    }
    let f = 0xFF;
    let lead = sealed([1, f, f, f, f, f, f, 0, 0, 0, 0, 0x01, 0x42, 0, 0]);
    let close = sealed([1, 0, 0, f, f, f, f, f, f, f, f, f, f, f, f]);
    for mut p in programs() {
        let unit = Unit::fresh(p.as_mut(), 4, 128);
        for sector in 0..4 {
            for block in 0..8 {
                let at = sector * 128 + block * 16;
                let due = match (sector, block) {
                    (_, 7) => lead,
                    (0, 5) => close,
                    (2 | 3, 6) => close,
                    _ => [f; 16],
                };
                assert_eq!(unit.image[at..at + 16], due, "sector {sector} block {block}");
            }
        }
    }
}

/// The bytes of a value of 20, its data and its entry.
#[test]
fn entry_bytes() {
    for mut p in programs() {
        let mut unit = Unit::fresh(p.as_mut(), 4, 1024);
        let value: Vec<u8> = (1..=20).collect();
        assert_eq!(unit.write(0x0403_0201, &[9; 3]), Answer::done(1, 0));
        assert_eq!(unit.write(0x0807_0605, &value), Answer::done(3, 0));
        assert_eq!(unit.write(0x0807_0605, &value), Answer::done(3, 0));
        assert_eq!(unit.image[..20], value[..]);
        assert_eq!(unit.image[20..32], [0xFF; 12]);
        let first = &unit.image[60 * 16..61 * 16]; // done stands in 61
        assert_eq!(first[1..], [1, 3, 0, 1, 2, 3, 4, 9, 9, 9, 0xFF, 0xFF, 0xFF, 0xFF, 0xFF]);
        let second = &unit.image[59 * 16..60 * 16];
        assert_eq!(second[1..12], [1, 20, 0, 5, 6, 7, 8, 0, 0, 0, 0]);
        assert_eq!(second[12..], model::crc32(&value).to_le_bytes());
        let third = &unit.image[58 * 16..59 * 16];
        assert_eq!(third[8..12], [32, 0, 0, 0]);
        for entry in [first, second, third] {
            assert_eq!(entry[0], model::crc8(&entry[1..]));
        }
    }
}

/// Checked in the order 1, 4, 5, 6, 2, 3, 8, 7, 10, 9.
#[test]
fn order_of_refusals() {
    for mut p in programs() {
        // no store: 4, 5 and 6 come first
        let mut unit = Unit { store: p.as_mut(), size: 128, count: 2, image: vec![0xFF; 256] };
        assert_eq!(unit.write(u32::MAX, &[]).number, 4);
        assert_eq!(unit.write(1, &[]).number, 5);
        assert_eq!(unit.write(1, &[0; 33]).number, 6);
        assert_eq!(unit.write(1, &[0; 32]).number, 2);
        assert_eq!(unit.read(u32::MAX).0.number, 4);
        assert_eq!(unit.read(1).0.number, 2);
        assert_eq!(unit.delete(u32::MAX).number, 4);
        assert_eq!(unit.delete(1).number, 2);
        // a store not at rest
        let mut unit = cut_fourth_write(p.as_mut(), 2);
        assert_eq!(unit.write(u32::MAX, &[]).number, 4);
        assert_eq!(unit.write(1, &[]).number, 5);
        assert_eq!(unit.write(1, &[0; 33]).number, 6);
        assert_eq!(unit.write(1, &[0; 32]).number, 3);
        assert_eq!(unit.read(7).0.number, 3);
        assert_eq!(unit.delete(8).number, 3);
        // 10 before 9; 9 leaves the buffer
        let mut unit = Unit::fresh(p.as_mut(), 2, 128);
        unit.write(1, &[3; 20]);
        unit.image[0] ^= 1;
        let mut buffer = [0xEE; 20];
        let short = unit.store.read(&unit.image, 128, 2, 1, &mut buffer[..19]);
        assert_eq!(short, Answer { number: 10, length: 20, ..Answer::default() });
        let bad = unit.store.read(&unit.image, 128, 2, 1, &mut buffer);
        assert_eq!(bad, Answer::refusal(9));
        assert_eq!(buffer, [0xEE; 20]);
    }
}

/// "the padding of data blocks is written but not checked", and copied "as they lie".
#[test]
fn padding_as_it_lies() {
    for mut p in programs() {
        let mut unit = Unit::fresh(p.as_mut(), 2, 128);
        assert_eq!(unit.write(1, &[3; 9]), Answer::done(2, 0));
        unit.image[15] = 0x77;
        assert_eq!(unit.read(1).1, [3; 9]);
        assert_eq!(unit.write(2, &[4]), Answer::done(1, 0));
        // needs 3: full; both live: 3 and 1 more is 4, above 3
        assert_eq!(unit.write(3, &[5]), Answer::refusal(7));
        assert_eq!(unit.delete(2), Answer::done(1, 0));
        // close, data, value, done, lead, value
        assert_eq!(unit.write(3, &[5]), Answer::done(6, 1));
        assert_eq!(unit.image[128..144], [3, 3, 3, 3, 3, 3, 3, 3, 3, 0xFF, 0xFF, 0xFF, 0xFF, 0xFF, 0xFF, 0x77]);
    }
}

/// A user's value that looks like a deletion of the coming cycle lies where the reading would
/// come to it: look-ahead blanks it before the entry above it.
#[test]
fn forged_value_is_blanked() {
    let mut traced = Model::traced();
    let mut image = vec![0; 256];
    traced.format(&mut image, 128, 2, ENOUGH);
    let mut forged = [0u8; 32];
    forged[16..].copy_from_slice(&model::deletion(2, 5)); // sector 0's next cycle
    assert_eq!(traced.write(&mut image, 128, 2, 1, &forged, ENOUGH), Answer::done(3, 0));
    assert_eq!(traced.delete(&mut image, 128, 2, 1, ENOUGH), Answer::done(1, 0));
    // to sector 1 and back: 0 is reopened under cycle 2
    assert_eq!(traced.write(&mut image, 128, 2, 5, &[1], ENOUGH), Answer::done(4, 1));
    for _ in 0..2 {
        assert_eq!(traced.write(&mut image, 128, 2, 5, &[1], ENOUGH), Answer::done(1, 0));
    }
    assert_eq!(traced.write(&mut image, 128, 2, 5, &[2], ENOUGH), Answer::done(5, 1));
    // sector 0: value 5, done, value 5 in blocks 5, 4, 3; the next goes to 2, and 1 is forged
    assert_eq!(traced.write(&mut image, 128, 2, 5, &[3], ENOUGH), Answer::done(2, 0));
    let lines: Vec<_> = traced.trace.iter().map(|m| (m.sector, m.block, m.kind.word())).collect();
    assert_eq!(lines, [(0, 1, "blank"), (0, 2, "value")]);
}

/// What the image builder of the benchmark makes is what writing makes.
#[test]
fn full_image_is_the_written_one() {
    for (size, count, length) in [(128, 2, 8), (1024, 4, 8), (1024, 4, 64), (256, 7, 20), (128, 64, 8), (144, 3, 8)] {
        let (built, ids) = bench::histories::full_image(size, count, length);
        let mut store = Model::new();
        let mut image = vec![0; size * count];
        store.format(&mut image, size, count, ENOUGH);
        for id in 0..ids {
            let value = bench::histories::value_of(id, length);
            assert_eq!(store.write(&mut image, size, count, id, &value, ENOUGH).number, 0);
        }
        assert_eq!(store.write(&mut image, size, count, ids, &vec![1; length], ENOUGH).number, 7);
        assert!(image == built, "{size} x {count}, values of {length}");
    }
}
