//! Registers, and the acceptance of a ring.

use super::device::{Condition, Device, Ring};
use super::{Model, Rule};

/// "17 CAPABILITIES 0x2D3", and 02's P5: "CAPABILITIES gains 0x1000."
const CAPABILITIES: u64 = 0x2D3 + 0x1000;

/// "Read-only: 4 .. 19, 22, 28"
fn read_only(index: u64) -> bool {
    matches!(index, 4..=19 | 22 | 28)
}

/// "ENABLE (0 or 1), WIDTH (1 to 2,560), HEIGHT (1 to 1,600), CONFIG_DONE (0 or 1), CURSOR_ON (0 to 3)"; "registers with no range
/// take all"
fn in_range(index: u64, value: u64) -> bool {
    match index {
        1 | 20 => value <= 1,
        2 => (1..=2560).contains(&value),
        3 => (1..=1600).contains(&value),
        27 => value <= 3,
        _ => true,
    }
}

impl Model {
    /// "Ring words 0 to 3 are MIN, MAX, NEXT_CMD, STOP, in bytes. All are multiples of 4; MIN ≥ 16; MAX ≤ M; MAX − MIN ≥ 10,240;
    /// NEXT_CMD and STOP lie from MIN to below MAX; else 33."
    pub fn usable(&self, words: &[u32], memory: u64) -> bool {
        let [min, max, next, stop] = [0, 1, 2, 3].map(|place| u64::from(words[place]));
        let multiples = [min, max, next, stop].iter().all(|word| word % 4 == 0);
        let least = if self.breaks(Rule::LeastRingOneWordLarger) { 10_244 } else { 10_240 };
        let below_max = |word: u64| word < max || self.breaks(Rule::NextAtMaxAccepted) && word == max;
        multiples
            && (min >= 16 || self.breaks(Rule::MinTwelveAccepted) && min >= 12)
            && max <= memory
            && max >= min + least
            && min <= next
            && below_max(next)
            && min <= stop
            && stop < max
    }

    /// "A register write checks 30, 31, 32."
    pub fn write_register(&self, device: &mut Device, ring: &[u32], index: u64, value: u64) -> u64 {
        // "Every other index is absent, palette included."
        if index > 28 {
            return 30;
        }
        if read_only(index) {
            if self.breaks(Rule::BitsPerPixelWritable) && index == 7 && value == 32 {
                return 0;
            }
            return if self.breaks(Rule::ReadOnlyAnsweredAbsent) { 30 } else { 31 };
        }
        let wrongly_taken = self.breaks(Rule::Width2561Taken) && index == 2 && value == 2561;
        if !in_range(index, value) && !wrongly_taken {
            // "Answers 20 to 34 change nothing"
            if self.breaks(Rule::RefusedWriteStored) && index == 27 {
                device.cursor_on = value;
            }
            return 32;
        }
        match index {
            // "0x90000000, ..01, ..02 are stored; any other value is taken and changes nothing"
            0 => {
                if (0x9000_0000..=0x9000_0002).contains(&value) || self.breaks(Rule::ForeignIdStored) {
                    device.id = value;
                }
            }
            1 => {
                device.enable = value == 1;
                // "Writing 0 to ENABLE or CONFIG_DONE clears BUSY."
                if value == 0 && !self.breaks(Rule::DisablingKeepsBusy) {
                    device.busy = false;
                }
                if self.breaks(Rule::DisablingUnconfigures) && value == 0 {
                    device.condition = Condition::Idle;
                    device.config_done = false;
                }
                if self.breaks(Rule::EnablingClearsFault) && value == 1 && matches!(device.condition, Condition::Faulted(_)) {
                    device.condition = Condition::Idle;
                    device.config_done = false;
                }
            }
            2 | 3 => {
                let (width, height) = if index == 2 { (value, device.height) } else { (device.width, value) };
                if self.breaks(Rule::ModeAbovePixelsRefused) && width * height > device.pixels {
                    return 32;
                }
                (device.width, device.height) = (width, height);
            }
            20 => return self.configure(device, ring, value),
            // "SYNC sets BUSY to 1 if the device is configured, enabled and without fault; otherwise nothing."
            21 => {
                let fault = matches!(device.condition, Condition::Faulted(_)) && !self.breaks(Rule::SyncIgnoresFault);
                let enabled = device.enable || self.breaks(Rule::SyncIgnoresEnable);
                let configured = device.config_done || self.breaks(Rule::SyncIgnoresConfiguration);
                if configured && enabled && !fault && !(self.breaks(Rule::SyncZeroIgnored) && value == 0) {
                    device.busy = true;
                }
            }
            23 => device.guest_id = value,
            24 => device.cursor_id = value,
            25 => device.cursor_x = value,
            26 => device.cursor_y = value,
            27 => self.cursor_on(device, value),
            _ => unreachable!("every index up to 28 is read-only or writable"),
        }
        0
    }

    /// "CONFIG_DONE 1: first 32, then 20, then 33." 32 was looked at before.
    fn configure(&self, device: &mut Device, ring: &[u32], value: u64) -> u64 {
        let length_right = ring.len() as u64 * 4 == device.memory;
        if value == 0 {
            if self.breaks(Rule::ConfigZeroLooksAtRing) && !length_right {
                return 20;
            }
            device.config_done = false;
            if !self.breaks(Rule::ConfigZeroKeepsBusy) {
                device.busy = false;
            }
            // "A fault .. stands until CONFIG_DONE 1 is accepted"
            let fault = matches!(device.condition, Condition::Faulted(_)) && !self.breaks(Rule::ConfigZeroClearsFault);
            if !fault {
                device.condition = Condition::Idle;
            }
            return 0;
        }
        if !length_right {
            return 20;
        }
        if self.breaks(Rule::RingNeedsId2) && device.id != 0x9000_0002 {
            return 33;
        }
        if !self.usable(ring, device.memory) {
            if self.breaks(Rule::RefusedRingUnconfigures) {
                device.config_done = false;
                device.condition = Condition::Idle;
            }
            return 33;
        }
        // "Accepted: MIN, MAX and STOP are remembered, a standing fault is cleared."
        device.config_done = true;
        if self.breaks(Rule::AcceptanceKeepsFault) && matches!(device.condition, Condition::Faulted(_)) {
            return 0;
        }
        let stop = if self.breaks(Rule::AcceptanceEmptiesRing) { ring[2] } else { ring[3] };
        device.condition = Condition::Running(Ring { min: u64::from(ring[0]), max: u64::from(ring[1]), stop: u64::from(stop) });
        if self.breaks(Rule::AcceptanceClearsBusy) {
            device.busy = false;
        }
        0
    }

    /// "CURSOR_ON 1 remembers id, X and Y and shows; 0 hides; 2 and 3 leave the plane as it is"
    fn cursor_on(&self, device: &mut Device, value: u64) {
        device.cursor_on = value;
        if value == 1 {
            device.plane.shown = true;
            device.plane.id = device.cursor_id;
            device.plane.x = device.cursor_x;
            device.plane.y = device.cursor_y;
        }
        if value == 3 && self.breaks(Rule::CursorOnThreeShows) {
            device.plane.shown = true;
        }
        if value == 0 || value == 2 && self.breaks(Rule::CursorOnTwoHides) {
            device.plane.shown = false;
        }
    }

    /// "Each reads back the value last taken, ID and SYNC as said." "Reading an absent register gives 30 and value 0."
    pub fn read_register(&self, device: &Device, index: u64) -> (u64, u64) {
        let value = match index {
            0 => device.id,
            1 => u64::from(device.enable),
            2 => device.width,
            3 => device.height,
            // "4 and 5 maximum width and height (2,560; 1,600), 6 DEPTH 24, 7 and 28 bits per pixel 32, 8 PSEUDOCOLOR 0"
            4 => 2560,
            5 => 1600,
            6 => 24,
            7 | 28 => 32,
            8 => 0,
            // "9 to 11 masks 0xFF0000, 0xFF00, 0xFF"
            9 => 0xFF_0000,
            10 => 0xFF00,
            11 => 0xFF,
            12 => bytes_per_line(device),
            // "13, 14 and 18 zero"
            13 | 14 | 18 => 0,
            15 if self.breaks(Rule::VramSizeOfMode) => fb_size(device),
            15 => vram_size(device),
            16 => fb_size(device),
            17 if self.breaks(Rule::CapabilitiesOfBase) => 0x2D3,
            17 => CAPABILITIES,
            19 => device.memory,
            20 => u64::from(device.config_done && !(self.breaks(Rule::FaultReadsUnconfigured) && faulted(device))),
            // "SYNC reads 0."
            21 => 0,
            22 => u64::from(device.busy),
            23 => device.guest_id,
            24 => device.cursor_id,
            25 => device.cursor_x,
            26 => device.cursor_y,
            27 => device.cursor_on,
            _ if self.breaks(Rule::AbsentReadsTaken) => 0,
            _ => return (30, 0),
        };
        (0, value)
    }

    /// The usable offscreen rectangle, as it is reported.
    pub fn reported_edges(&self, device: &Device) -> [u64; 4] {
        let [left, top, mut right, mut bottom] = edges(device);
        if self.breaks(Rule::OffscreenRightByDepth) {
            right = bytes_per_line(device) / 24;
        }
        if self.breaks(Rule::OffscreenBottomRoundedUp) {
            bottom = vram_size(device).div_ceil(bytes_per_line(device));
        }
        if self.breaks(Rule::OffscreenEmptyCut) {
            bottom = bottom.max(top);
        }
        [left, top, right, bottom]
    }

    /// "Fence f has passed if the last fence minus f, taken modulo 2^32, is below 2^31"
    pub fn passed(&self, device: &Device, fence: u64) -> bool {
        if self.breaks(Rule::FenceComparedPlainly) {
            return device.fence >= fence;
        }
        if self.breaks(Rule::LastFenceNotPassed) && device.fence == fence {
            return false;
        }
        let below = if self.breaks(Rule::FenceHalfIncluded) { (1 << 31) + 1 } else { 1 << 31 };
        (device.fence + (1 << 32) - fence) % (1 << 32) < below
    }
}

/// 02's P4: "The right end is 8·BYTES_PER_LINE divided by bits per pixel". 01: "x from 0 .., y from FB_SIZE / BYTES_PER_LINE rounded up to
/// VRAM_SIZE / BYTES_PER_LINE, floors otherwise, ends excluded": left, top, right, bottom.
pub fn edges(device: &Device) -> [u64; 4] {
    let line = bytes_per_line(device);
    [0, fb_size(device).div_ceil(line), 8 * line / 32, vram_size(device) / line]
}

fn faulted(device: &Device) -> bool {
    matches!(device.condition, Condition::Faulted(_))
}

/// "12 BYTES_PER_LINE 4·width"
fn bytes_per_line(device: &Device) -> u64 {
    4 * device.width
}

/// "15 VRAM_SIZE 4·P"
fn vram_size(device: &Device) -> u64 {
    4 * device.pixels
}

/// "16 FB_SIZE 4·width·height"
fn fb_size(device: &Device) -> u64 {
    4 * device.width * device.height
}
