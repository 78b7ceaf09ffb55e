//! What a device holds, and the 64 words that hold it.

/// Words of a device.
pub const DEVICE_WORDS: usize = 64;

/// Words of a cursor image.
pub const CURSOR_WORDS: usize = 4096;

/// "the defined cursor (none, or id, hotspot and size)"
#[derive(Clone, Copy, PartialEq, Eq, Debug)]
pub struct Cursor {
    pub id: u64,
    pub hotx: u64,
    pub hoty: u64,
    pub w: u64,
    pub h: u64,
}

/// What CURSOR_ON 1 remembered, and whether the cursor is shown. X and Y are kept as written.
#[derive(Clone, Copy, PartialEq, Eq, Debug)]
pub struct Plane {
    pub shown: bool,
    pub id: u64,
    pub x: u64,
    pub y: u64,
}

/// The remembered ring, in bytes.
#[derive(Clone, Copy, PartialEq, Eq, Debug)]
pub struct Ring {
    pub min: u64,
    pub max: u64,
    pub stop: u64,
}

#[derive(Clone, Copy, PartialEq, Eq, Debug)]
pub enum Condition {
    Idle,
    Running(Ring),
    /// The fault that stands, 10 to 13.
    Faulted(u64),
}

#[derive(Clone, PartialEq, Eq, Debug)]
pub struct Device {
    /// M, in bytes.
    pub memory: u64,
    /// P.
    pub pixels: u64,
    pub id: u64,
    pub enable: bool,
    pub width: u64,
    pub height: u64,
    pub config_done: bool,
    pub guest_id: u64,
    pub cursor_id: u64,
    pub cursor_x: u64,
    pub cursor_y: u64,
    pub cursor_on: u64,
    pub plane: Plane,
    pub cursor: Option<Cursor>,
    pub fence: u64,
    pub busy: bool,
    pub condition: Condition,
}

/// "M is a multiple of 4 from 10,256 to 2,097,152; P is 1 to 4,096,000"
pub fn sizes_allowed(memory: u64, pixels: u64) -> bool {
    memory % 4 == 0 && (10_256..=2_097_152).contains(&memory) && (1..=4_096_000).contains(&pixels)
}

/// "w and h 1 to 64, hotx < w, hoty < h"
pub fn cursor_allowed(cursor: &Cursor) -> bool {
    (1..=64).contains(&cursor.w) && (1..=64).contains(&cursor.h) && cursor.hotx < cursor.w && cursor.hoty < cursor.h
}

/// "Fresh: id 0x90000000, mode 640 by 480, disabled, not configured, no fault, not busy, fence 0, other written registers 0,
/// cursor undefined and hidden."
pub fn fresh(memory: u64, pixels: u64) -> Device {
    Device {
        memory,
        pixels,
        id: 0x9000_0000,
        enable: false,
        width: 640,
        height: 480,
        config_done: false,
        guest_id: 0,
        cursor_id: 0,
        cursor_x: 0,
        cursor_y: 0,
        cursor_on: 0,
        plane: Plane { shown: false, id: 0, x: 0, y: 0 },
        cursor: None,
        fence: 0,
        busy: false,
        condition: Condition::Idle,
    }
}

fn flag(word: u32) -> Option<bool> {
    match word {
        0 => Some(false),
        1 => Some(true),
        _ => None,
    }
}

fn all_zero(words: &[u32]) -> bool {
    words.iter().all(|&word| word == 0)
}

/// The device that 64 words hold; none where they are not well formed.
pub fn from_words(words: &[u32]) -> Option<Device> {
    let word = |place: usize| u64::from(words[place]);
    if !sizes_allowed(word(0), word(1)) {
        return None;
    }
    if !(1..=2560).contains(&word(4)) || !(1..=1600).contains(&word(5)) {
        return None;
    }
    let config_done = flag(words[6])?;
    let cursor = if flag(words[16])? {
        let cursor = Cursor { id: word(17), hotx: word(18), hoty: word(19), w: word(20), h: word(21) };
        if !cursor_allowed(&cursor) {
            return None;
        }
        Some(cursor)
    } else {
        if !all_zero(&words[17..=21]) {
            return None;
        }
        None
    };
    let condition = match words[24] {
        0 if !config_done => Condition::Idle,
        1 if config_done => {
            let (min, max, stop) = (word(25), word(26), word(27));
            if min < 4 || max > word(0) / 4 || min + 2560 > max || stop < min || stop >= max {
                return None;
            }
            Condition::Running(Ring { min: 4 * min, max: 4 * max, stop: 4 * stop })
        }
        10..=13 => Condition::Faulted(word(24)),
        _ => return None,
    };
    let running = matches!(condition, Condition::Running(_));
    if (!running && !all_zero(&words[25..=27])) || !all_zero(&words[28..]) {
        return None;
    }
    Some(Device {
        memory: word(0),
        pixels: word(1),
        id: word(2),
        enable: flag(words[3])?,
        width: word(4),
        height: word(5),
        config_done,
        guest_id: word(7),
        cursor_id: word(8),
        cursor_x: word(9),
        cursor_y: word(10),
        cursor_on: word(11),
        plane: Plane { shown: flag(words[12])?, id: word(13), x: word(14), y: word(15) },
        cursor,
        fence: word(22),
        busy: flag(words[23])?,
        condition,
    })
}

/// The 64 words that hold a device.
pub fn to_words(device: &Device) -> [u32; DEVICE_WORDS] {
    let cursor = device.cursor.unwrap_or(Cursor { id: 0, hotx: 0, hoty: 0, w: 0, h: 0 });
    let (condition, ring) = match device.condition {
        Condition::Idle => (0, Ring { min: 0, max: 0, stop: 0 }),
        Condition::Running(ring) => (1, ring),
        Condition::Faulted(fault) => (fault, Ring { min: 0, max: 0, stop: 0 }),
    };
    let held = [
        device.memory,
        device.pixels,
        device.id,
        u64::from(device.enable),
        device.width,
        device.height,
        u64::from(device.config_done),
        device.guest_id,
        device.cursor_id,
        device.cursor_x,
        device.cursor_y,
        device.cursor_on,
        u64::from(device.plane.shown),
        device.plane.id,
        device.plane.x,
        device.plane.y,
        u64::from(device.cursor.is_some()),
        cursor.id,
        cursor.hotx,
        cursor.hoty,
        cursor.w,
        cursor.h,
        device.fence,
        u64::from(device.busy),
        condition,
        ring.min / 4,
        ring.max / 4,
        ring.stop / 4,
    ];
    let mut words = [0; DEVICE_WORDS];
    for (word, number) in words.iter_mut().zip(held) {
        *word = u32::try_from(number).expect("a device holds 32-bit numbers");
    }
    words
}

/// "width·height above P" is answer 24.
pub fn mode_fits(device: &Device) -> bool {
    device.width * device.height <= device.pixels
}
