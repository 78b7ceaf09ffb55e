//! Each call, taken and refused, through the safe types.

mod common;
use common::{append_all, fill, started, MEMORY, PIXELS};
use svga::{cap, cmd, cursor_on, fifo, id, limit, reg, ring, rop};
use svga::{Adapter, Command, Device, Edges, End, Error, Fault, Flaw, Lent, Memory, Rect, Run, CURSOR_WORDS};

fn run_of(end: End, count: u32) -> Result<Run, Error> {
    Ok(Run { end, count })
}

// ---- making

#[test]
fn a_fresh_device() {
    let device = Device::new(MEMORY, PIXELS).unwrap();
    assert_eq!((device.memory(), device.ring_words(), device.pixels()), (10_256, 2_564, 1_024));
    assert_eq!((device.width(), device.height()), (640, 480)); // the one test that reads the fresh mode
    assert_eq!(device.read(reg::ID), Ok(id::ID_0));
    for index in [reg::ENABLE, reg::CONFIG_DONE, reg::BUSY, reg::GUEST_ID, reg::CURSOR_ON] {
        assert_eq!(device.read(index), Ok(0));
    }
    assert_eq!((device.fence(), device.fault()), (0, None));
    assert!(device.fence_passed(0));
}

#[test]
fn sizes_at_and_beyond_their_limits() {
    for (memory, pixels) in [(MEMORY, 1), (limit::MEMORY_MAX, limit::PIXELS_MAX)] {
        assert!(Device::new(memory, pixels).is_ok());
    }
    for (memory, pixels) in [(0, 1), (10_252, 1), (10_258, 1), (2_097_156, 1), (u32::MAX, 1), (MEMORY, 0), (MEMORY, 4_096_001)] {
        assert_eq!(Device::new(memory, pixels), Err(Error::BadSizes { memory, pixels }));
        assert_eq!(Adapter::new(memory, pixels), Err(Error::BadSizes { memory, pixels }));
    }
}

// ---- registers

#[test]
fn registers_that_are_written_read_back() {
    let mut device = Device::new(MEMORY, PIXELS).unwrap();
    for (index, value) in [
        (reg::ENABLE, 1),
        (reg::WIDTH, 2_560),
        (reg::HEIGHT, 1_600),
        (reg::GUEST_ID, u32::MAX),
        (reg::CURSOR_ID, 7),
        (reg::CURSOR_X, u32::MAX),
        (reg::CURSOR_Y, 12),
        (reg::CURSOR_ON, cursor_on::RESTORE_TO_FB),
        (reg::ID, id::ID_2),
    ] {
        assert_eq!(device.write(&[], index, value), Ok(()));
        assert_eq!(device.read(index), Ok(value));
    }
    assert_eq!(device.write(&[], reg::ID, 0x9000_0003), Ok(()));
    assert_eq!(device.read(reg::ID), Ok(id::ID_2), "an unknown id is taken and not stored");
    assert_eq!(device.write(&[], reg::SYNC, 1), Ok(()));
    assert_eq!((device.read(reg::SYNC), device.read(reg::BUSY)), (Ok(0), Ok(0)), "not configured: not busy");
}

#[test]
fn registers_that_only_read() {
    let mut adapter = started();
    for (index, value) in [
        (reg::MAX_WIDTH, 2_560),
        (reg::MAX_HEIGHT, 1_600),
        (reg::DEPTH, 24),
        (reg::BITS_PER_PIXEL, 32),
        (reg::PSEUDOCOLOR, 0),
        (reg::RED_MASK, 0xFF_0000),
        (reg::GREEN_MASK, 0xFF00),
        (reg::BLUE_MASK, 0xFF),
        (reg::BYTES_PER_LINE, 128),
        (reg::FB_START, 0),
        (reg::FB_OFFSET, 0),
        (reg::VRAM_SIZE, 4_096),
        (reg::FB_SIZE, 4_096),
        (reg::CAPABILITIES, svga::CAPABILITIES),
        (reg::MEM_START, 0),
        (reg::MEM_SIZE, MEMORY),
        (reg::BUSY, 0),
        (reg::HOST_BITS_PER_PIXEL, 32),
    ] {
        assert_eq!(adapter.read(index), Ok(value), "register {index}");
        assert_eq!(adapter.write(index, value), Err(Error::ReadOnly { index }));
    }
    assert_ne!(adapter.read(reg::CAPABILITIES).unwrap() & cap::ALPHA_CURSOR, 0);
}

#[test]
fn registers_that_are_not_there() {
    let mut adapter = started();
    for index in [29, 30, 31, 1_024, u32::MAX] {
        assert_eq!(adapter.read(index), Err(Error::NoRegister { index }));
        assert_eq!(adapter.write(index, 0), Err(Error::NoRegister { index }));
    }
}

#[test]
fn values_outside_the_range_change_nothing() {
    let mut adapter = started();
    let before = adapter.clone();
    for (index, value) in [
        (reg::ENABLE, 2),
        (reg::WIDTH, 0),
        (reg::WIDTH, 2_561),
        (reg::HEIGHT, 0),
        (reg::HEIGHT, 1_601),
        (reg::CONFIG_DONE, 2),
        (reg::CURSOR_ON, 4),
    ] {
        assert_eq!(adapter.write(index, value), Err(Error::BadValue { index, value }));
    }
    assert_eq!(adapter, before);
}

#[test]
fn a_ring_is_accepted_or_refused() {
    let mut device = Device::new(MEMORY, PIXELS).unwrap();
    let mut memory = vec![0; 2_564];
    ring::reset(&mut memory, limit::RING_START_MIN);
    assert_eq!(memory[..4], [16, 10_256, 16, 16]);
    let short = Error::Length { memory: Memory::Ring, lent: 2_563, wanted: 2_564 };
    assert_eq!(device.write(&memory[1..], reg::CONFIG_DONE, 1), Err(short));
    assert_eq!(device.write(&memory[1..], reg::CONFIG_DONE, 0), Ok(()), "only 1 looks at the ring");
    for (place, value) in [
        (fifo::MIN, 12),
        (fifo::MIN, 18),
        (fifo::MIN, 20),
        (fifo::MAX, 10_260),
        (fifo::MAX, 10_252),
        (fifo::NEXT_CMD, 12),
        (fifo::NEXT_CMD, 10_256),
        (fifo::NEXT_CMD, 18),
        (fifo::STOP, 0),
        (fifo::STOP, u32::MAX - 3),
    ] {
        let mut bad = memory.clone();
        bad[place as usize] = value;
        let refused = device.write(&bad, reg::CONFIG_DONE, 1);
        let &[min, max, next_cmd, stop, ..] = &bad[..] else { unreachable!() };
        assert_eq!(refused, Err(Error::RingRefused { min, max, next_cmd, stop, memory: MEMORY }));
        assert_eq!(device.read(reg::CONFIG_DONE), Ok(0));
    }
    assert_eq!(device.write(&memory, reg::CONFIG_DONE, 1), Ok(()));
    assert_eq!(device.read(reg::CONFIG_DONE), Ok(1));
}

#[test]
fn busy_from_sync_until_drained() {
    let mut adapter = started();
    adapter.submit(&Command::Fence(1)).unwrap();
    adapter.submit(&Command::Fence(2)).unwrap();
    adapter.write(reg::SYNC, 0).unwrap();
    assert_eq!(adapter.read(reg::BUSY), Ok(1));
    assert_eq!(adapter.run(1), run_of(End::Spent, 1));
    assert_eq!(adapter.read(reg::BUSY), Ok(1), "a spent budget keeps it");
    assert_eq!(adapter.run(9), run_of(End::Drained, 1));
    assert_eq!(adapter.read(reg::BUSY), Ok(0));
}

// ---- runs

#[test]
fn runs_end_where_the_rules_say() {
    let mut adapter = started();
    assert_eq!(adapter.run(9), run_of(End::Drained, 0));
    assert_eq!(adapter.run(0), run_of(End::Spent, 0));
    adapter.submit(&fill(255, 30, 31, u32::MAX, 5)).unwrap();
    assert_eq!(adapter.run(1), run_of(End::Spent, 1));
    assert_eq!(adapter.run(1), run_of(End::Drained, 0));
    assert_eq!(adapter.screen()[1_021..], [0, 255, 255]);
    adapter.append(cmd::FENCE).unwrap();
    assert_eq!(adapter.run(9), run_of(End::Waiting, 0));
    adapter.append(77).unwrap();
    assert_eq!(adapter.run(9), run_of(End::Drained, 1));
    assert_eq!(adapter.fence(), 77);
    assert_eq!(adapter.ring()[fifo::STOP as usize], adapter.ring()[fifo::NEXT_CMD as usize]);
}

#[test]
fn faults_stand_until_a_ring_is_accepted() {
    let bad_cursor = [cmd::DEFINE_ALPHA_CURSOR, 1, 0, 0, 65, 1];
    let long_cursor = [cmd::DEFINE_ALPHA_CURSOR, 1, 0, 0, 51, 51];
    let bad_rop = [cmd::RECT_ROP_FILL, 1, 0, 0, 1, 1, 16];
    let long_escape = [cmd::ESCAPE, 0, 10_225];
    for (words, fault) in [
        (&[20][..], Fault::NotOffered),
        (&[0], Fault::NotOffered),
        (&bad_cursor, Fault::BadOperand),
        (&bad_rop, Fault::BadOperand),
        (&long_cursor, Fault::TooLong),
        (&long_escape, Fault::TooLong),
    ] {
        let mut adapter = started();
        adapter.submit(&fill(1, 0, 0, 1, 1)).unwrap();
        append_all(&mut adapter, words);
        let run = adapter.run(9).unwrap();
        assert_eq!((run.fault(), run.count), (Some(fault), 1), "{words:?}");
        assert_eq!(adapter.screen()[0], 1, "what came before is done");
        assert_eq!(adapter.ring()[fifo::STOP as usize], 16 + 6 * 4, "nothing of the command is consumed");
        assert_eq!(adapter.device().fault(), Some(fault));
        let faulted = adapter.clone();
        assert_eq!(adapter.run(9), Err(Error::FaultStands(fault)));
        assert_eq!(adapter, faulted);
        ring::reset(adapter.ring_mut(), limit::RING_START_MIN);
        adapter.write(reg::CONFIG_DONE, 1).unwrap();
        assert_eq!(adapter.device().fault(), None);
        assert_eq!(adapter.run(9), run_of(End::Drained, 0));
    }
}

#[test]
fn a_next_cmd_that_is_no_place_of_the_ring() {
    for place in [18, 10_256, 12, u32::MAX] {
        let mut adapter = started();
        adapter.ring_mut()[fifo::NEXT_CMD as usize] = place;
        assert_eq!(adapter.run(1), run_of(End::Fault(Fault::BadNextCmd), 0), "NEXT_CMD {place}");
    }
}

#[test]
fn what_a_guest_writes_to_the_rings_ends_later_is_not_read() {
    let mut adapter = started();
    adapter.submit(&Command::Fence(5)).unwrap();
    let next = adapter.ring()[fifo::NEXT_CMD as usize];
    adapter.ring_mut()[..4].copy_from_slice(&[u32::MAX, 3, next, 0]);
    assert_eq!(adapter.run(9), run_of(End::Drained, 1));
    assert_eq!(adapter.ring()[..4], [u32::MAX, 3, next, next]);
    assert_eq!(adapter.fence(), 5);
}

#[test]
fn refusals_of_a_run_come_in_order() {
    let mut device = Device::new(MEMORY, PIXELS).unwrap();
    let (mut memory, framebuffer, mut screen, mut cursor) = (vec![0; 2_564], vec![0; 1_024], vec![0; 1_024], vec![0; CURSOR_WORDS]);
    ring::reset(&mut memory, limit::RING_START_MIN);
    memory[fifo::NEXT_CMD as usize] = 20;
    memory[4] = 20; // a command that is not offered
    macro_rules! run {
        () => {
            device.run(Lent { ring: &mut memory, framebuffer: &framebuffer, screen: &mut screen, cursor: &mut cursor }, 9)
        };
    }
    device.write(&[], reg::WIDTH, 33).unwrap();
    device.write(&[], reg::HEIGHT, 32).unwrap();
    assert_eq!(run!(), Err(Error::NotConfigured));
    device.write(&memory, reg::CONFIG_DONE, 1).unwrap();
    assert_eq!(run!(), Err(Error::Disabled));
    device.write(&[], reg::ENABLE, 1).unwrap();
    assert_eq!(run!(), Err(Error::ModeTooLarge { width: 33, height: 32, pixels: 1_024 }));
    device.write(&[], reg::WIDTH, 32).unwrap();
    assert_eq!(run!(), run_of(End::Fault(Fault::NotOffered), 0));
    assert_eq!(run!(), Err(Error::FaultStands(Fault::NotOffered)));
    device.write(&[], reg::WIDTH, 33).unwrap();
    assert_eq!(run!(), Err(Error::ModeTooLarge { width: 33, height: 32, pixels: 1_024 }));
    device.write(&[], reg::ENABLE, 0).unwrap();
    assert_eq!(run!(), Err(Error::Disabled));
    device.write(&[], reg::CONFIG_DONE, 0).unwrap();
    assert_eq!(run!(), Err(Error::NotConfigured));
}

#[test]
fn a_run_names_the_memory_that_has_another_length() {
    let mut device = Device::new(MEMORY, PIXELS).unwrap();
    let lengths = [2_564, 1_024, 1_024, CURSOR_WORDS];
    let names = [Memory::Ring, Memory::Framebuffer, Memory::Screen, Memory::Cursor];
    for which in 0..4 {
        for wrong in [0, lengths[which] - 1, lengths[which] + 1] {
            let mut lent = lengths;
            lent[which] = wrong;
            let [ring, framebuffer, screen, cursor] = &mut lent.map(|length| vec![0; length]);
            let error = device.run(Lent { ring, framebuffer, screen, cursor }, 1).unwrap_err();
            assert_eq!(error, Error::Length { memory: names[which], lent: wrong, wanted: lengths[which] });
        }
    }
}

// ---- commands

#[test]
fn updates_fills_and_copies() {
    let mut adapter = Adapter::new(MEMORY, 4).unwrap();
    adapter.start(4, 1).unwrap();
    adapter.framebuffer_mut().copy_from_slice(&[1, 2, 3, 4]);
    adapter.submit(&Command::Update(Rect::new(0, 0, 4, 1))).unwrap();
    adapter.submit(&Command::RectCopy { sx: 0, sy: 0, to: Rect::new(1, 0, 4, 1) }).unwrap();
    assert_eq!(adapter.run(9), run_of(End::Drained, 2));
    assert_eq!(adapter.screen(), [1, 1, 2, 3], "all sources are read before any is written");
    adapter.submit(&Command::UpdateVerbose { area: Rect::new(0, 0, 4, 1), reason: 9 }).unwrap();
    adapter.submit(&Command::RectRopCopy { sx: 2, sy: 0, to: Rect::new(0, 0, 4, 1), rop: rop::COPY }).unwrap();
    assert_eq!(adapter.run(9), run_of(End::Drained, 2));
    assert_eq!(adapter.screen(), [3, 4, 3, 4], "an offset moves if its source and its destination are in the mode");
    adapter.submit(&Command::RectRopFill { colour: 5, to: Rect::new(0, 0, 1, 1), rop: rop::XOR }).unwrap();
    adapter.submit(&Command::RectRopFill { colour: 5, to: Rect::new(2, 0, 1, 1), rop: rop::AND_REVERSE }).unwrap();
    adapter.submit(&fill(9, 0, u32::MAX, 4, 2)).unwrap();
    adapter.submit(&Command::Escape { namespace: 1, data: b"no effect" }).unwrap();
    assert_eq!(adapter.run(9), run_of(End::Drained, 4));
    assert_eq!(adapter.screen(), [6, 4, 4, 4]);
    assert_eq!(adapter.framebuffer(), [1, 2, 3, 4], "no command changes the framebuffer");
}

#[test]
fn every_raster_operation_is_named_and_follows_the_bit_rule() {
    let (s, d): (u32, u32) = (0b0011, 0b0101);
    let named = [
        (rop::CLEAR, 0),
        (rop::AND, s & d),
        (rop::AND_REVERSE, s & !d),
        (rop::COPY, s),
        (rop::AND_INVERTED, !s & d),
        (rop::NOOP, d),
        (rop::XOR, s ^ d),
        (rop::OR, s | d),
        (rop::NOR, !(s | d)),
        (rop::EQUIV, !(s ^ d)),
        (rop::INVERT, !d),
        (rop::OR_REVERSE, s | !d),
        (rop::COPY_INVERTED, !s),
        (rop::OR_INVERTED, !s | d),
        (rop::NAND, !(s & d)),
        (rop::SET, u32::MAX),
    ];
    for (number, (name, by_name)) in (0..16).zip(named) {
        let bits = |s: u32, d: u32| number >> (3 - 2 * s - d) & 1; // bit 0 for 1, 1; bit 1 for 1, 0; bit 2 for 0, 1; bit 3 for 0, 0
        let by_rule = (0..32).fold(0, |word, bit| word | bits(s >> bit & 1, d >> bit & 1) << bit);
        assert_eq!((name, by_name), (number, by_rule));
        let mut adapter = Adapter::new(MEMORY, 1).unwrap();
        adapter.start(1, 1).unwrap();
        adapter.submit(&fill(d, 0, 0, 1, 1)).unwrap();
        adapter.submit(&Command::RectRopFill { colour: s, to: Rect::new(0, 0, 1, 1), rop: number }).unwrap();
        assert_eq!(adapter.run(9), run_of(End::Drained, 2));
        assert_eq!(adapter.screen(), [by_rule], "rop {number}");
    }
}

// ---- commands appended whole

/// The smallest ring, empty at byte `place`.
fn empty_at(place: u32) -> Vec<u32> {
    let mut memory = vec![0; 2_564];
    ring::reset(&mut memory, limit::RING_START_MIN);
    memory[fifo::NEXT_CMD as usize] = place;
    memory[fifo::STOP as usize] = place;
    memory
}

/// The words that wait in the smallest ring.
fn waiting(memory: &[u32]) -> Vec<u32> {
    let place = |word: u32| (memory[word as usize] / 4) as usize;
    let behind = (place(fifo::STOP)..2_564).chain(4..).take_while(|&at| at != place(fifo::NEXT_CMD));
    behind.map(|at| memory[at]).collect()
}

#[test]
fn the_words_of_commands() {
    let area = Rect::new(1, 2, 3, 4);
    for (command, words) in [
        (Command::Update(area), &[1, 1, 2, 3, 4][..]),
        (Command::RectFill { colour: 9, to: area }, &[2, 9, 1, 2, 3, 4]),
        (Command::RectCopy { sx: 7, sy: 8, to: area }, &[3, 7, 8, 1, 2, 3, 4]),
        (Command::RectRopFill { colour: 9, to: area, rop: 6 }, &[13, 9, 1, 2, 3, 4, 6]),
        (Command::RectRopCopy { sx: 7, sy: 8, to: area, rop: 6 }, &[14, 7, 8, 1, 2, 3, 4, 6]),
        (Command::DefineAlphaCursor { id: 1, hotx: 2, hoty: 0, w: 3, h: 1, pixels: &[4, 5, 6] }, &[22, 1, 2, 0, 3, 1, 4, 5, 6]),
        (Command::UpdateVerbose { area, reason: 5 }, &[25, 1, 2, 3, 4, 5]),
        (Command::Fence(6), &[30, 6]),
        (Command::Escape { namespace: 7, data: &[] }, &[33, 7, 0]),
        (Command::Escape { namespace: 7, data: &[1, 2, 3, 4] }, &[33, 7, 4, 0x0403_0201]),
        (Command::Escape { namespace: 7, data: &[1, 2, 3, 4, 255] }, &[33, 7, 5, 0x0403_0201, 255]),
    ] {
        assert_eq!(command.unchecked_words(), words);
        // in a row of words, up to the ring's end, and over it at every word
        for place in [16, 10_256 - 4 * words.len() as u32].into_iter().chain((1..words.len() as u32).map(|n| 10_256 - 4 * n)) {
            let mut memory = empty_at(place);
            assert_eq!(command.append_to(&mut memory), Ok(()));
            assert_eq!(waiting(&memory), words, "{command:?} at {place}");
            let (min, stop) = (memory[fifo::MIN as usize], memory[fifo::STOP as usize]);
            assert_eq!((min, memory[fifo::MAX as usize], stop), (16, 10_256, place));
        }
    }
    let short = Command::DefineAlphaCursor { id: 1, hotx: 0, hoty: 0, w: 2, h: 2, pixels: &[4, 5, 6] };
    assert_eq!(short.unchecked_words(), [22, 1, 0, 0, 2, 2, 4, 5, 6], "as it is");
    assert_eq!(short.append_to(&mut empty_at(16)), Err(Error::Length { memory: Memory::Pixels, lent: 3, wanted: 4 }));
}

#[test]
fn refusals_of_a_command_come_in_order() {
    let refused = |memory: &mut Vec<u32>, head: &[u32], pixels: &[u32], data: &[u8]| {
        let before = memory.clone();
        let error = ring::append_command(memory, head, pixels, data).unwrap_err();
        assert_eq!(*memory, before, "a refused command changes nothing");
        error
    };
    let length = |memory, lent, wanted| Error::Length { memory, lent, wanted };
    // the ring, before all else
    let mut spoilt = empty_at(16);
    spoilt[fifo::STOP as usize] = 18;
    assert_eq!(refused(&mut spoilt, &[], &[1], &[]), Error::RingRefused { min: 16, max: 10_256, next_cmd: 16, stop: 18, memory: MEMORY });
    let missing = Error::RingRefused { min: 16, max: 16, next_cmd: 16, stop: 0, memory: 12 };
    assert_eq!(refused(&mut vec![16; 3], &[cmd::FENCE, 1], &[], &[]), missing);
    // the command, whatever is lent with it and however full the ring is
    let mut full = empty_at(16);
    full[fifo::NEXT_CMD as usize] = 10_252;
    let too_long = |number, words| Flaw::TooLong { number, words, carries: 2_559 };
    for (head, flaw) in [
        (&[][..], Flaw::Empty),
        (&[0], Flaw::Number { number: 0 }),
        (&[cmd::FENCE], Flaw::Words { number: cmd::FENCE, given: 1, wanted: 2 }),
        (&[cmd::FENCE, 1, 2], Flaw::Words { number: cmd::FENCE, given: 3, wanted: 2 }),
        (&[cmd::FENCE, 0], Flaw::FenceZero),
        (&[cmd::RECT_ROP_FILL, 1, 0, 0, 1, 1, 16], Flaw::Operation { number: cmd::RECT_ROP_FILL, rop: 16 }),
        (&[cmd::RECT_ROP_COPY, 0, 0, 0, 0, 1, 1, u32::MAX], Flaw::Operation { number: cmd::RECT_ROP_COPY, rop: u32::MAX }),
        (&[cmd::DEFINE_ALPHA_CURSOR, 1, 0, 0, 65, 1], Flaw::Cursor { w: 65, h: 1, hotx: 0, hoty: 0 }),
        (&[cmd::DEFINE_ALPHA_CURSOR, 1, 2, 0, 2, 2], Flaw::Cursor { w: 2, h: 2, hotx: 2, hoty: 0 }),
        (&[cmd::DEFINE_ALPHA_CURSOR, 1, 0, 0, 51, 51], too_long(cmd::DEFINE_ALPHA_CURSOR, 2_607)),
        (&[cmd::ESCAPE, 0, 10_225], too_long(cmd::ESCAPE, 2_560)),
        (&[cmd::ESCAPE, 0, u32::MAX], too_long(cmd::ESCAPE, 1_073_741_827)),
    ] {
        assert_eq!(refused(&mut full, head, &[1], &[2]), Error::NotACommand(flaw), "{head:?}");
    }
    // lengths, before room
    assert_eq!(refused(&mut full, &[cmd::FENCE, 1], &[1], &[]), length(Memory::Pixels, 1, 0));
    assert_eq!(refused(&mut full, &[cmd::FENCE, 1], &[], &[1]), length(Memory::Data, 1, 0));
    assert_eq!(refused(&mut full, &[cmd::ESCAPE, 0, 5], &[], &[1; 4]), length(Memory::Data, 4, 5));
    assert_eq!(refused(&mut full, &[cmd::ESCAPE, 0, 5], &[1], &[1; 5]), length(Memory::Pixels, 1, 0));
    assert_eq!(refused(&mut full, &[cmd::DEFINE_ALPHA_CURSOR, 1, 0, 0, 2, 2], &[1; 4], &[1]), length(Memory::Data, 1, 0));
    // room: none, and one word too little; on either side of the ring's end
    assert_eq!(refused(&mut full, &[cmd::FENCE, 1], &[], &[]), Error::NoRoom { words: 2, free: 0 });
    full[fifo::STOP as usize] = 20;
    assert_eq!(refused(&mut full, &[cmd::ESCAPE, 0, 1], &[], &[1]), Error::NoRoom { words: 4, free: 1 });
    full[fifo::NEXT_CMD as usize] = 16;
    full[fifo::STOP as usize] = 24;
    assert_eq!(refused(&mut full, &[cmd::FENCE, 1], &[], &[]), Error::NoRoom { words: 2, free: 1 });
    full[fifo::STOP as usize] = 28;
    assert_eq!(ring::append_command(&mut full, &[cmd::FENCE, 1], &[], &[]), Ok(()));
    assert_eq!(full[..6], [16, 10_256, 24, 28, cmd::FENCE, 1]);
}

#[test]
fn the_longest_command_fits_an_empty_ring() {
    let data: Vec<u8> = (0..10_224).map(|byte| byte as u8).collect();
    let longest = Command::Escape { namespace: 1, data: &data };
    for place in [16, 20, 5_000, 10_252] {
        let mut memory = empty_at(place);
        assert_eq!(longest.append_to(&mut memory), Ok(()));
        assert_eq!(waiting(&memory), longest.unchecked_words());
        assert_eq!(Command::Fence(1).append_to(&mut memory), Err(Error::NoRoom { words: 2, free: 0 }));
    }
    let mut adapter = started();
    adapter.submit(&longest).unwrap();
    assert_eq!(adapter.submit(&longest), Ok(()), "a run makes room for all of it");
    assert_eq!(adapter.run(9), run_of(End::Drained, 1));
}

#[test]
fn words_that_a_run_has_freed_are_used_again() {
    let mut adapter = started();
    let (mut appended, mut executed) = (0, 0);
    for turn in 0..3_000 {
        // more than fits: some are refused, and what is refused is not executed
        for _ in 0..turn % 400 {
            appended += u32::from(Command::Fence(appended + 1).append_to(adapter.ring_mut()).is_ok());
        }
        executed += adapter.run(turn % 300).unwrap().count;
        assert_eq!(adapter.fence(), executed, "in order");
    }
    executed += adapter.run(u32::MAX).unwrap().count;
    assert!(appended > 100_000, "{appended}");
    assert_eq!((executed, adapter.fence()), (appended, appended));
}

#[test]
fn submit_runs_where_the_ring_is_full() {
    let mut adapter = started();
    for number in 1..=2_000 {
        adapter.submit(&Command::Fence(number)).unwrap(); // 4,000 words through a ring that carries 2,559
    }
    assert!(adapter.run(u32::MAX).unwrap().count < 2_000);
    assert_eq!(adapter.fence(), 2_000);

    let pixels = vec![0; 51 * 51];
    let too_long = Command::DefineAlphaCursor { id: 0, hotx: 0, hoty: 0, w: 51, h: 51, pixels: &pixels };
    let flaw = Flaw::TooLong { number: cmd::DEFINE_ALPHA_CURSOR, words: 2_607, carries: 2_559 };
    assert_eq!(adapter.submit(&too_long), Err(Error::NotACommand(flaw)), "it never just waits");
    assert_eq!(adapter.run(1), run_of(End::Drained, 0), "nothing of it was appended");
    append_all(&mut adapter, &too_long.unchecked_words()[..2_559]);
    assert_eq!(adapter.submit(&Command::Fence(1)), Err(Error::FaultStands(Fault::TooLong)), "the run that makes room meets it");

    let mut adapter = started();
    adapter.ring_mut()[fifo::MIN as usize] = 2; // the guest's own append reads it
    let refused = Error::RingRefused { min: 2, max: MEMORY, next_cmd: 16, stop: 16, memory: MEMORY };
    assert_eq!(adapter.submit(&Command::Fence(1)), Err(refused));

    let mut adapter = started();
    append_all(&mut adapter, &[cmd::ESCAPE, 0, 10_224]);
    append_all(&mut adapter, &[0; 2_555]); // one word of the escape is missing: no run makes room
    assert_eq!(adapter.submit(&Command::Fence(1)), Err(Error::NoRoom { words: 2, free: 1 }));
}

#[test]
fn append_fills_the_ring_but_for_one_word() {
    let mut memory = vec![0; 2_564];
    ring::reset(&mut memory, limit::RING_START_MIN);
    for word in 0..2_559 {
        assert_eq!(ring::append(&mut memory, word), Ok(()));
    }
    let full = memory.clone();
    assert_eq!(ring::append(&mut memory, 1), Err(Error::AppendRefused));
    assert_eq!(memory, full);
    assert_eq!(ring::append(&mut [], 1), Err(Error::AppendRefused));
    let mut tiny = [0; 3];
    ring::reset(&mut tiny, limit::RING_START_MIN);
    assert_eq!(tiny, [0; 3]);
}

// ---- cursor and pictures

fn with_cursor() -> Adapter {
    let mut adapter = started();
    adapter.submit(&fill(0x20_4060, 0, 0, 32, 32)).unwrap();
    let pixels = [0xFFFF_0000, 0x8000_00FF, 0x0012_3456, 0xFF00_FF00];
    adapter.submit(&Command::DefineAlphaCursor { id: 3, hotx: 1, hoty: 0, w: 2, h: 2, pixels: &pixels }).unwrap();
    assert_eq!(adapter.run(9), run_of(End::Drained, 2));
    for (index, value) in [(reg::CURSOR_ID, 3), (reg::CURSOR_X, 10), (reg::CURSOR_Y, 20), (reg::CURSOR_ON, cursor_on::SHOW)] {
        adapter.write(index, value).unwrap();
    }
    adapter
}

#[test]
fn a_picture_has_the_cursor_over_the_screen() {
    let mut adapter = with_cursor();
    let blend = |a: u32, over: u32, below: u32| (a * over + (255 - a) * below + 127) / 255;
    let half = blend(128, 0, 0x20) << 16 | blend(128, 0, 0x40) << 8 | blend(128, 255, 0x60);
    let picture = adapter.picture().unwrap();
    assert_eq!((picture.width, picture.height, picture.pixels.len(), picture.rows().count()), (32, 32, 1_024, 32));
    assert_eq!(picture.pixel(9, 20), Some(0xFF_0000));
    assert_eq!(picture.pixel(10, 20), Some(half));
    assert_eq!(picture.pixel(9, 21), Some(0x20_4060));
    assert_eq!(picture.pixel(10, 21), Some(0xFF00));
    assert_eq!(picture.pixel(11, 21), Some(0x20_4060));
    assert_eq!((picture.pixel(32, 0), picture.pixel(0, 32)), (None, None));
    assert!(adapter.screen().iter().all(|&pixel| pixel == 0x20_4060), "the screen has no cursor");

    adapter.write(reg::CURSOR_X, 0).unwrap(); // moves nothing until CURSOR_ON is written
    assert_eq!(adapter.picture().unwrap().pixel(9, 20), Some(0xFF_0000));
    adapter.write(reg::CURSOR_ON, cursor_on::SHOW).unwrap(); // now column −1 is cut
    assert_eq!(adapter.picture().unwrap().pixel(0, 21), Some(0xFF00));
    adapter.write(reg::CURSOR_ON, cursor_on::HIDE).unwrap();
    assert!(adapter.picture().unwrap().pixels.iter().all(|&pixel| pixel == 0x20_4060));
}

#[test]
fn a_picture_is_refused() {
    let adapter = with_cursor();
    let (device, screen, cursor) = (adapter.device(), adapter.screen(), adapter.cursor());
    let mut output = vec![7; 1_024];
    let length = |memory, lent, wanted| Err(Error::Length { memory, lent, wanted });
    assert_eq!(device.picture(&screen[1..], cursor, &mut output), length(Memory::Screen, 1_023, 1_024));
    assert_eq!(device.picture(screen, &cursor[1..], &mut output), length(Memory::Cursor, 4_095, 4_096));
    assert_eq!(device.picture(screen, cursor, &mut output[1..]), length(Memory::Output, 1_023, 1_024));
    let mut large = device.clone();
    large.write(&[], reg::HEIGHT, 33).unwrap();
    assert_eq!(large.picture(screen, cursor, &mut output), Err(Error::ModeTooLarge { width: 32, height: 33, pixels: 1_024 }));
    assert_eq!(large.picture(screen, &[], &mut output), length(Memory::Cursor, 0, 4_096), "lengths come first");
    assert!(output.iter().all(|&word| word == 7), "a refused picture changes nothing");

    let mut small = device.clone();
    small.write(&[], reg::HEIGHT, 31).unwrap();
    small.picture(screen, cursor, &mut output).unwrap();
    assert!(output[31 * 32..].iter().all(|&word| word == 7), "words beyond the mode stay");
}

// ---- offscreen rectangle and fences

#[test]
fn the_offscreen_rectangle() {
    let mut device = Device::new(MEMORY, 1_024 * 100).unwrap();
    device.write(&[], reg::WIDTH, 1_024).unwrap();
    device.write(&[], reg::HEIGHT, 60).unwrap();
    let Edges { left, top, bottom, .. } = device.offscreen();
    assert_eq!((left, top, bottom), (0, 60, 100));
    assert!(!device.offscreen().is_empty());
    device.write(&[], reg::HEIGHT, 100).unwrap();
    assert!(device.offscreen().is_empty());
    device.write(&[], reg::HEIGHT, 101).unwrap();
    assert_eq!((device.offscreen().top, device.offscreen().bottom), (101, 100), "edges as they come out");
    assert!(device.offscreen().is_empty());
}

/// "Scrolling tide curves want somewhere to keep a strip."
#[test]
fn a_strip_is_kept_offscreen_and_scrolled() {
    let mut adapter = Adapter::new(MEMORY, 8 * 6 + 5).unwrap();
    adapter.framebuffer_mut().fill(9);
    adapter.start(8, 3).unwrap();
    let Edges { left, top, right, bottom } = adapter.offscreen();
    assert_eq!((left, top, right, bottom), (0, 3, 8, 6));
    assert_eq!(adapter.read(reg::CAPABILITIES).unwrap() & cap::OFFSCREEN_1, cap::OFFSCREEN_1);
    let copy = |sx, sy, x, y, w, h| Command::RectCopy { sx, sy, to: Rect::new(x, y, w, h) };
    for column in 0..8 {
        adapter.submit(&fill(column, column, top, 1, u32::MAX)).unwrap();
    }
    for step in [copy(1, top, 0, top, 7, 3), fill(8, 7, top, 1, 3), copy(0, top, 0, 0, 8, 3), Command::Update(Rect::new(0, top, 8, 3))] {
        adapter.submit(&step).unwrap();
    }
    assert_eq!(adapter.run(u32::MAX), run_of(End::Drained, 12));
    for row in adapter.screen()[..48].chunks(8) {
        assert_eq!(row, [1, 2, 3, 4, 5, 6, 7, 8]);
    }
    assert_eq!(adapter.screen()[48..], [0; 5], "words behind the last whole row are never painted");
    assert_eq!(adapter.picture().unwrap().pixels.len(), 24);
}

#[test]
fn fences_pass_and_wrap() {
    let mut adapter = started();
    adapter.submit(&Command::Fence(1)).unwrap();
    assert!(!adapter.fence_passed(1));
    assert_eq!(adapter.run(1), run_of(End::Spent, 1));
    assert_eq!(adapter.fence(), 1);
    assert!(adapter.fence_passed(1) && adapter.fence_passed(0) && adapter.fence_passed(u32::MAX));
    assert!(!adapter.fence_passed(2) && !adapter.fence_passed(0x8000_0001));
    assert!(adapter.fence_passed(0x8000_0002));
}

// ---- the fence in ring word 6

const FENCE: usize = fifo::FENCE as usize;

/// An adapter whose ring begins at `min`, as small as a ring can be.
fn started_at(min: u32) -> Adapter {
    let mut adapter = Adapter::new(min + limit::RING_BYTES_MIN, PIXELS).unwrap();
    adapter.start_at(min, 32, 32).unwrap();
    adapter
}

/// Moves the empty ring's NEXT_CMD and STOP to `place` and has it accepted anew.
fn accept_at(adapter: &mut Adapter, place: u32) {
    adapter.ring_mut()[fifo::NEXT_CMD as usize] = place;
    adapter.ring_mut()[fifo::STOP as usize] = place;
    adapter.write(reg::CONFIG_DONE, 1).unwrap();
}

#[test]
fn a_fence_is_posted_where_the_ring_begins_at_28_or_later() {
    for min in [28, 32, 64, 4_096] {
        let mut adapter = started_at(min);
        let end = min + limit::RING_BYTES_MIN;
        assert!(adapter.device().posts_fences());
        assert_eq!(adapter.posted_fence(), Some(0));
        // in a row of words, over the ring's end, and up to it
        for (fence, place) in [(7, min + 400), (0x8000_0001, end - 4), (1, end - 8)] {
            accept_at(&mut adapter, place);
            adapter.submit(&Command::Fence(fence)).unwrap();
            assert_eq!(adapter.run(9), run_of(End::Drained, 1));
            assert_eq!((adapter.posted_fence(), adapter.fence()), (Some(fence), fence), "MIN {min}, STOP {place}");
        }
    }
}

#[test]
fn a_fence_of_0_is_a_fault_once_both_its_words_are_there() {
    let mut adapter = started_at(28);
    assert_eq!(adapter.submit(&Command::Fence(0)), Err(Error::NotACommand(Flaw::FenceZero)));
    append_all(&mut adapter, &[cmd::FENCE, 7, cmd::FENCE]);
    assert_eq!(adapter.run(9), run_of(End::Waiting, 1));
    append_all(&mut adapter, &[0]);
    assert_eq!(adapter.run(0), run_of(End::Spent, 0));
    assert_eq!(adapter.run(9), run_of(End::Fault(Fault::BadOperand), 0));
    assert_eq!((adapter.posted_fence(), adapter.fence()), (Some(7), 7));
}

#[test]
fn below_28_word_6_is_the_rings_own() {
    for min in [16, 20, 24] {
        let mut adapter = started_at(min);
        assert!(!adapter.device().posts_fences());
        assert_eq!(adapter.posted_fence(), None);
        for place in [min + 400, min + limit::RING_BYTES_MIN - 4] {
            accept_at(&mut adapter, place);
            adapter.submit(&Command::Fence(7)).unwrap();
            adapter.ring_mut()[FENCE] += 70; // whatever stands there, an argument of the command itself for MIN 24
            let before = adapter.ring().to_vec();
            assert_eq!(adapter.run(9), run_of(End::Drained, 1));
            let written = (0..before.len()).filter(|&at| adapter.ring()[at] != before[at]);
            assert_eq!(written.collect::<Vec<_>>(), [fifo::STOP as usize], "MIN {min}, STOP {place}");
        }
    }
}

#[test]
fn a_run_writes_words_3_and_6_alone_and_word_6_for_a_fence_alone() {
    let mut adapter = started_at(28);
    let written = |adapter: &mut Adapter, budget, end, count| {
        let before = adapter.ring().to_vec();
        assert_eq!(adapter.run(budget), run_of(end, count));
        (0..before.len()).filter(|&at| adapter.ring()[at] != before[at]).collect::<Vec<_>>()
    };
    adapter.ring_mut()[FENCE] = 99; // a guest may write it: no run reads it
    assert_eq!(written(&mut adapter, 9, End::Drained, 0), []);
    adapter.submit(&fill(1, 0, 0, 1, 1)).unwrap();
    adapter.submit(&Command::Escape { namespace: 0, data: b"no fence" }).unwrap();
    assert_eq!(written(&mut adapter, 0, End::Spent, 0), []);
    assert_eq!(written(&mut adapter, 9, End::Drained, 2), [3]);
    append_all(&mut adapter, &[cmd::FENCE]);
    assert_eq!(written(&mut adapter, 9, End::Waiting, 0), []);
    append_all(&mut adapter, &[5]);
    adapter.submit(&Command::Fence(6)).unwrap();
    adapter.submit(&fill(1, 0, 0, 1, 1)).unwrap();
    append_all(&mut adapter, &[20]);
    assert_eq!(written(&mut adapter, 1, End::Spent, 1), [3, FENCE]);
    assert_eq!(adapter.posted_fence(), Some(5));
    assert_eq!(written(&mut adapter, 9, End::Fault(Fault::NotOffered), 2), [3, FENCE]);
    assert_eq!(adapter.posted_fence(), Some(6), "what was posted before a fault stands");
    assert!(!adapter.device().posts_fences(), "no ring is remembered");
}

#[test]
fn the_accepted_min_decides_and_not_ring_word_0() {
    for (accepted, now, posts) in [(28, 16, true), (28, 24, true), (28, 0, true), (24, 28, false), (16, u32::MAX, false)] {
        let mut adapter = started_at(accepted);
        accept_at(&mut adapter, 4_000);
        adapter.submit(&Command::Fence(7)).unwrap();
        adapter.ring_mut()[fifo::MIN as usize] = now;
        adapter.ring_mut()[FENCE] = 99;
        assert_eq!(adapter.run(9), run_of(End::Drained, 1));
        assert_eq!(adapter.ring()[FENCE], if posts { 7 } else { 99 }, "accepted {accepted}, now {now}");
        assert_eq!(adapter.device().posts_fences(), posts);
    }
}

#[test]
fn accepting_a_ring_posts_nothing() {
    let mut adapter = started_at(28);
    adapter.submit(&Command::Fence(7)).unwrap();
    assert_eq!(adapter.run(9), run_of(End::Drained, 1));
    adapter.ring_mut()[FENCE] = 99;
    adapter.write(reg::CONFIG_DONE, 1).unwrap();
    assert_eq!(adapter.posted_fence(), Some(99));
    adapter.start_at(28, 32, 32).unwrap();
    assert_eq!(adapter.posted_fence(), Some(7), "a start writes the last fence itself");
    ring::reset(adapter.ring_mut(), limit::RING_START_FENCE);
    assert_eq!(adapter.posted_fence(), Some(0), "a driver that knows of none writes 0");
}

#[test]
fn the_smallest_memory_has_no_room_for_a_posted_fence() {
    let mut adapter = Adapter::new(MEMORY, PIXELS).unwrap();
    let refused = Error::RingRefused { min: 28, max: MEMORY, next_cmd: 28, stop: 28, memory: MEMORY };
    assert_eq!(adapter.start_at(limit::RING_START_FENCE, 32, 32), Err(refused));
    assert_eq!(adapter.start(32, 32), Ok(()));
    assert_eq!(adapter.posted_fence(), None);
    assert_eq!((ring::posted_fence(&[28; 6]), ring::posted_fence(&[28; 7]), ring::posted_fence(&[])), (None, Some(28), None));
}

// ---- starting

#[test]
fn start_refuses_a_mode_that_does_not_fit() {
    let mut adapter = Adapter::new(MEMORY, PIXELS).unwrap();
    assert_eq!(adapter.start(0, 1), Err(Error::BadValue { index: reg::WIDTH, value: 0 }));
    assert_eq!(adapter.start(33, 32), Err(Error::ModeTooLarge { width: 33, height: 32, pixels: 1_024 }));
    assert_eq!(adapter.start(32, 32), Ok(()));
    assert_eq!(adapter.run(1), run_of(End::Drained, 0));
}
