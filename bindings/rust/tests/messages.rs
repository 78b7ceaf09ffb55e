//! What the answers say, and their numbers.

use std::error::Error as _;
use svga::{cmd, fifo, limit, reg, ring, Device, End, Error, Fault, Flaw, Memory, Run};

#[test]
fn runs() {
    let said = |end, count| Run { end, count }.to_string();
    assert_eq!(said(End::Drained, 0), "drained, 0 commands consumed");
    assert_eq!(said(End::Waiting, 1), "waiting for the rest of a command, 1 command consumed");
    assert_eq!(said(End::Spent, 7), "budget spent, 7 commands consumed");
    assert_eq!(said(End::Fault(Fault::NotOffered), 2), "fault 10: the command is not offered, 2 commands consumed");
    let faults = [Fault::NotOffered, Fault::BadOperand, Fault::TooLong, Fault::BadNextCmd];
    assert_eq!(faults.map(Fault::number), [10, 11, 12, 13]);
    assert_eq!([End::Drained, End::Waiting, End::Spent, End::Fault(Fault::TooLong)].map(End::number), [0, 1, 2, 12]);
    assert_eq!(Fault::BadOperand.to_string(), "a cursor of bad size or hotspot, a raster operation above 15, or a fence of 0");
    assert_eq!(Fault::TooLong.to_string(), "the command is longer than the ring can hold");
    assert_eq!(Fault::BadNextCmd.to_string(), "NEXT_CMD is no multiple of 4, or outside the ring");
}

#[test]
fn refusals() {
    for (error, number, said) in [
        (Error::Length { memory: Memory::Screen, lent: 9, wanted: 1_024 }, Some(20), "the screen has 9 words and needs 1024"),
        (Error::Length { memory: Memory::Cursor, lent: 0, wanted: 4_096 }, Some(20), "the cursor image has 0 words and needs 4096"),
        (Error::Length { memory: Memory::Pixels, lent: 3, wanted: 4 }, Some(20), "the command's pixel memory has 3 words and needs 4"),
        (Error::Length { memory: Memory::Data, lent: 3, wanted: 0 }, Some(20), "the command's data memory has 3 bytes and needs 0"),
        (Error::Disabled, Some(21), "the device is disabled: ENABLE is 0"),
        (Error::NotConfigured, Some(22), "the device has no ring: CONFIG_DONE is 0"),
        (
            Error::FaultStands(Fault::TooLong),
            Some(23),
            "fault 12 stands until CONFIG_DONE 1 is accepted: the command is longer than the ring can hold",
        ),
        (Error::ModeTooLarge { width: 33, height: 32, pixels: 1_024 }, Some(24), "the mode 33 by 32 is above the device's 1024 pixels"),
        (Error::NoRegister { index: 40 }, Some(30), "there is no register 40"),
        (Error::ReadOnly { index: reg::DEPTH }, Some(31), "register 6 (DEPTH) is read-only"),
        (Error::BadValue { index: reg::WIDTH, value: 5_000 }, Some(32), "register 2 (WIDTH) does not take 5000: 1 to 2560"),
        (
            Error::BadSizes { memory: 1, pixels: 2 },
            Some(34),
            "no device has a ring memory of 1 bytes and 2 pixels: the memory is a multiple of 4 from 10256 to 2097152, the pixels are 1 to 4096000",
        ),
        (
            Error::NoRoom { words: 6, free: 3 },
            Some(40),
            "the command has 6 words, and 3 of the ring's are free until a run frees more",
        ),
        (Error::NotACommand(Flaw::Number { number: 20 }), Some(41), "there is no command 20"),
        (Error::Malformed, None, "the words are not those of a device"),
        (Error::AppendRefused, None, "the word was not appended: the ring is full, or its words 0 to 3 are unusable"),
    ] {
        assert_eq!((error.number(), error.to_string().as_str()), (number, said));
    }
    assert_eq!(Error::FaultStands(Fault::NotOffered).source().unwrap().to_string(), Fault::NotOffered.to_string());
    assert!(Error::Disabled.source().is_none());
}

#[test]
fn a_refused_command_says_what_is_wrong() {
    let mut memory = vec![0; 2_564];
    ring::reset(&mut memory, limit::RING_START_MIN);
    for (head, said) in [
        (&[][..], "a command without a word: the first is its number"),
        (&[20, 1], "there is no command 20"),
        (&[cmd::RECT_FILL, 9, 0, 0, 1], "command 2 (RECT_FILL) has 6 words, its number among them, and 5 are given"),
        (&[cmd::FENCE, 0], "command 30 (FENCE) does not take 0: it stands for no fence"),
        (&[cmd::RECT_ROP_FILL, 9, 0, 0, 1, 1, 16], "command 13 (RECT_ROP_FILL) does not take raster operation 16: 0 to 15"),
        (
            &[cmd::DEFINE_ALPHA_CURSOR, 1, 0, 3, 65, 3],
            "a cursor of 65 by 3 with its hotspot at (0, 3): both sides are 1 to 64, and the hotspot lies inside",
        ),
        (&[cmd::ESCAPE, 0, 10_225], "command 33 (ESCAPE) has 2560 words, and the ring can hold 2559"),
    ] {
        let error = ring::append_command(&mut memory, head, &[], &[]).unwrap_err();
        assert_eq!((error.number(), error.to_string().as_str()), (Some(41), said));
    }
    let missing = ring::append_command(&mut memory[..3], &[cmd::FENCE, 1], &[], &[]).unwrap_err();
    assert!(missing.to_string().ends_with("is unusable: words 0 to 3 are not all there"), "{missing}");
}

#[test]
fn a_refused_ring_says_what_is_wrong() {
    let mut device = Device::new(10_260, 1).unwrap();
    let mut memory = vec![0; 2_565];
    ring::reset(&mut memory, limit::RING_START_MIN);
    for (place, value, said) in [
        (fifo::STOP, 17, "all four are multiples of 4"),
        (fifo::MIN, 12, "MIN is at least 16"),
        (fifo::MAX, 10_264, "MAX lies within the memory"),
        (fifo::MIN, 24, "MAX is at least MIN + 10240"),
        (fifo::MAX, 16, "MAX is at least MIN + 10240"),
        (fifo::NEXT_CMD, 10_260, "NEXT_CMD lies from MIN to below MAX"),
        (fifo::STOP, 12, "STOP lies from MIN to below MAX"),
    ] {
        let mut bad = memory.clone();
        bad[place as usize] = value;
        let error = device.write(&bad, reg::CONFIG_DONE, 1).unwrap_err();
        assert_eq!(error.number(), Some(33));
        let message = error.to_string();
        assert!(message.ends_with(&format!("is unusable: {said}")), "{message}");
    }
}

#[test]
fn a_device_is_short_to_print() {
    let mut device = Device::new(10_256, 1_024).unwrap();
    device.write(&[], reg::WIDTH, 32).unwrap();
    device.write(&[], reg::HEIGHT, 16).unwrap();
    assert_eq!(format!("{device:?}"), "Device { memory: 10256, pixels: 1024, mode: (32, 16), fence: 0, fault: None, .. }");
}
