//! Device words that are saved, restored, and scrambled in between.

mod common;
use common::{append_all, fill, started, MEMORY, PIXELS};
use svga::{answer, cmd, cursor_on, reg, sys};
use svga::{Adapter, Command, Device, End, Error, Fault, Memory, CURSOR_WORDS, DEVICE_WORDS};

/// An adapter with a cursor, a fence and commands that wait.
fn used() -> Adapter {
    let mut adapter = started();
    let pixels = [0x80FF_FFFF; 6];
    adapter.submit(&Command::DefineAlphaCursor { id: 9, hotx: 1, hoty: 1, w: 3, h: 2, pixels: &pixels }).unwrap();
    adapter.submit(&Command::Fence(41)).unwrap();
    adapter.submit(&fill(0x11_2233, 4, 4, 9, 9)).unwrap();
    adapter.submit(&Command::Fence(42)).unwrap();
    for (index, value) in [(reg::CURSOR_ID, 9), (reg::CURSOR_X, 6), (reg::CURSOR_Y, 6), (reg::CURSOR_ON, cursor_on::SHOW)] {
        adapter.write(index, value).unwrap();
    }
    adapter.write(reg::SYNC, 1).unwrap();
    assert_eq!(adapter.run(2).unwrap().end, End::Spent);
    adapter
}

#[test]
fn a_restored_adapter_goes_on_as_the_saved_one() {
    let mut adapter = used();
    let saved: Vec<u32> = adapter.device().words().to_vec();
    let device = Device::from_words(&saved).unwrap();
    assert_eq!(&device, adapter.device());
    let parts = (adapter.ring().to_vec(), adapter.framebuffer().to_vec(), adapter.screen().to_vec(), adapter.cursor().to_vec());
    let mut restored = Adapter::from_parts(device, parts.0, parts.1, parts.2, parts.3).unwrap();
    assert_eq!((restored.fence(), restored.read(reg::BUSY)), (41, Ok(1)));

    assert_eq!(adapter.run(9), restored.run(9));
    assert_eq!(restored.fence(), 42);
    assert_eq!(adapter, restored);
    let picture = adapter.picture().unwrap().pixels.to_vec();
    assert_eq!(adapter, restored, "a picture is no part of an adapter");
    assert_eq!(restored.picture().unwrap().pixels, picture);
}

#[test]
fn a_fault_is_saved_too() {
    let mut adapter = started();
    append_all(&mut adapter, &[cmd::ESCAPE, 0, u32::MAX]);
    assert_eq!(adapter.run(1).unwrap().fault(), Some(Fault::TooLong));
    let restored = Device::from_words(adapter.device().words()).unwrap();
    assert_eq!(restored.fault(), Some(Fault::TooLong));
}

#[test]
fn parts_of_other_lengths_are_refused() {
    let device = Device::new(MEMORY, PIXELS).unwrap();
    let right = [2_564, 1_024, 1_024, CURSOR_WORDS];
    for (which, memory) in [Memory::Ring, Memory::Framebuffer, Memory::Screen, Memory::Cursor].into_iter().enumerate() {
        let mut lengths = right;
        lengths[which] += 1;
        let [ring, framebuffer, screen, cursor] = lengths.map(|length| vec![0; length]);
        let refused = Adapter::from_parts(device.clone(), ring, framebuffer, screen, cursor).unwrap_err();
        assert_eq!(refused, Error::Length { memory, lent: right[which] + 1, wanted: right[which] });
    }
    for length in [0, 63, 65] {
        let refused = Device::from_words(&vec![0; length]).unwrap_err();
        assert_eq!(refused, Error::Length { memory: Memory::Device, lent: length, wanted: DEVICE_WORDS });
    }
}

/// Changes that leave words that no device can have.
fn scrambled() -> Vec<[u32; DEVICE_WORDS]> {
    let running = *started().device().words();
    let defined = *used().device().words();
    let mut faulted = started();
    faulted.append(0).unwrap();
    assert!(faulted.run(1).unwrap().fault().is_some());
    let faulted = *faulted.device().words();
    let idle = *Device::new(MEMORY, PIXELS).unwrap().words();

    let mut changes: Vec<([u32; DEVICE_WORDS], usize, u32)> = [
        (0, 10_252),
        (0, 10_255),
        (0, 2_097_156),
        (1, 0),
        (1, 4_096_001),
        (3, 2),
        (4, 0),
        (4, 2_561),
        (5, 0),
        (5, 1_601),
        (6, 0),
        (6, 2),
        (12, 2),
        (16, 1),
        (16, 2),
        (17, 1),
        (18, 1),
        (19, 1),
        (20, 1),
        (21, 1),
        (23, 2),
        (24, 0),
        (24, 2),
        (24, 9),
        (24, 10),
        (24, 14),
        (25, 3),
        (25, 5),
        (26, 2_563),
        (26, 2_565),
        (27, 3),
        (27, 2_564),
    ]
    .map(|(place, value)| (running, place, value))
    .to_vec();
    changes.extend((28..DEVICE_WORDS).map(|place| (running, place, 1)));
    changes.extend([(16, 0), (18, 3), (19, 2), (20, 0), (20, 65), (21, 0), (21, 65)].map(|(place, value)| (defined, place, value)));
    changes.extend([(24, 0), (24, 1), (25, 4), (26, 2_564), (27, 4)].map(|(place, value)| (faulted, place, value)));
    changes.extend([(6, 1), (24, 1), (27, 4)].map(|(place, value)| (idle, place, value)));
    let changed = changes.into_iter().map(|(mut words, place, value)| {
        assert_ne!(words[place], value, "word {place}");
        words[place] = value;
        words
    });
    changed.chain([[0; DEVICE_WORDS], [u32::MAX; DEVICE_WORDS]]).collect()
}

#[test]
fn scrambled_words_are_no_device() {
    for words in scrambled() {
        assert_eq!(Device::from_words(&words), Err(Error::Malformed), "{words:?}");
    }
}

#[test]
fn every_call_refuses_scrambled_words_and_changes_nothing() {
    let adapter = used();
    let refused = |number: u32| u64::from(number) << 32;
    for words in scrambled() {
        let (mut device, mut ring, mut screen, mut cursor) =
            (words, adapter.ring().to_vec(), adapter.screen().to_vec(), adapter.cursor().to_vec());
        for (index, value) in [(reg::WIDTH, 10), (reg::CONFIG_DONE, 1), (reg::DEPTH, 0), (99, 0)] {
            assert_eq!(sys::write(&mut device, &ring, index, value), answer::NO_REGISTER);
            assert_eq!(sys::read(&device, index), refused(answer::NO_REGISTER));
        }
        let run = sys::run(&mut device, &mut ring, adapter.framebuffer(), &mut screen, &mut cursor, 9);
        assert_eq!(run, refused(answer::NOT_CONFIGURED));
        assert_eq!(sys::run(&mut device, &mut [], &[], &mut [], &mut [], 9), refused(answer::NOT_CONFIGURED), "before the lengths");
        let mut output = vec![7; 1_024];
        assert_eq!(sys::picture(&device, &screen, &cursor, &mut output), answer::MODE_TOO_LARGE);
        assert_eq!(sys::picture(&device, &[], &[], &mut output), answer::MODE_TOO_LARGE, "before the lengths");
        assert_eq!(sys::fence(&device), refused(answer::NO_REGISTER));
        assert_eq!(sys::fence_passed(&device, 0), refused(answer::NO_REGISTER));
        let mut edges = [7; 4];
        assert_eq!(sys::offscreen(&device, &mut edges), answer::NO_REGISTER);
        assert_eq!(sys::offscreen(&device, &mut edges[..3]), answer::LENT_LENGTH, "the lengths first");
        assert_eq!(edges, [7; 4]);
        assert_eq!(device, words);
        assert_eq!((&ring[..], &screen[..], &cursor[..]), (adapter.ring(), adapter.screen(), adapter.cursor()));
        assert!(output.iter().all(|&word| word == 7));
    }
}

#[test]
fn words_that_may_hold_anything_may() {
    for place in [2, 7, 8, 9, 10, 11, 13, 14, 15, 22] {
        for value in [0, 1, 0x8000_0000, u32::MAX] {
            let mut words = *used().device().words();
            words[place] = value;
            assert_eq!(Device::from_words(&words).unwrap().words(), &words);
        }
    }
}

#[test]
fn a_device_of_another_length_is_refused_by_every_call() {
    let adapter = used();
    let refused = u64::from(answer::LENT_LENGTH) << 32;
    for length in [0, 1, 63, 65, 1_000] {
        let words: Vec<u32> = adapter.device().words().iter().copied().chain(std::iter::repeat(0)).take(length).collect();
        let (mut device, mut ring, mut screen, mut cursor) =
            (words.clone(), adapter.ring().to_vec(), adapter.screen().to_vec(), adapter.cursor().to_vec());
        assert_eq!(sys::make(&mut device, MEMORY, PIXELS), answer::LENT_LENGTH);
        assert_eq!(sys::make(&mut device, 0, 0), answer::LENT_LENGTH);
        assert_eq!(sys::write(&mut device, &ring, 99, 0), answer::LENT_LENGTH);
        assert_eq!(sys::read(&device, reg::ID), refused);
        assert_eq!(sys::run(&mut device, &mut ring, adapter.framebuffer(), &mut screen, &mut cursor, 9), refused);
        assert_eq!(sys::picture(&device, &screen, &cursor, &mut [0; 1_024]), answer::LENT_LENGTH);
        assert_eq!(sys::offscreen(&device, &mut [0; 4]), answer::LENT_LENGTH);
        assert_eq!(sys::fence(&device), refused);
        assert_eq!(sys::fence_passed(&device, 0), refused);
        assert_eq!(device, words);
        assert_eq!((&ring[..], &screen[..], &cursor[..]), (adapter.ring(), adapter.screen(), adapter.cursor()));
    }
    let mut device = [7; DEVICE_WORDS];
    assert_eq!(sys::make(&mut device, 0, PIXELS), answer::BAD_SIZES);
    assert_eq!(device, [7; DEVICE_WORDS], "a refused making changes nothing");
    assert_eq!(sys::make(&mut device, MEMORY, PIXELS), answer::TAKEN);
    assert_eq!(device[28..], [0; 36], "all words are written");
}
