//! What the calls answer.

use crate::{answer, cmd, command_name, limit, reg, register_name};
use std::fmt;

/// Where a run ended, and how many commands it consumed.
#[derive(Clone, Copy, Debug, PartialEq, Eq, Hash)]
#[must_use = "a run may have ended in a fault"]
pub struct Run {
    /// Where it ended.
    pub end: End,
    /// The commands consumed in this run, at most its budget.
    pub count: u32,
}

impl Run {
    /// The fault that it ended in, if it did.
    pub fn fault(self) -> Option<Fault> {
        match self.end {
            End::Fault(fault) => Some(fault),
            _ => None,
        }
    }
}

impl fmt::Display for Run {
    fn fmt(&self, f: &mut fmt::Formatter<'_>) -> fmt::Result {
        write!(f, "{}, {} command{} consumed", self.end, self.count, if self.count == 1 { "" } else { "s" })
    }
}

/// Where a run ended.
#[derive(Clone, Copy, Debug, PartialEq, Eq, Hash)]
pub enum End {
    /// No word waits.
    Drained,
    /// The rest of a command is not there yet.
    Waiting,
    /// The budget is used up; more may wait.
    Spent,
    /// A command that the device refuses. Those before it are done, nothing of it is. The fault stands until CONFIG_DONE 1 is accepted.
    Fault(Fault),
}

impl End {
    /// The answer number.
    pub fn number(self) -> u32 {
        match self {
            End::Drained => answer::DRAINED,
            End::Waiting => answer::WAITING,
            End::Spent => answer::SPENT,
            End::Fault(fault) => fault.number(),
        }
    }

    pub(crate) fn of(number: u32) -> Option<End> {
        match number {
            answer::DRAINED => Some(End::Drained),
            answer::WAITING => Some(End::Waiting),
            answer::SPENT => Some(End::Spent),
            _ => Fault::of(number).map(End::Fault),
        }
    }
}

impl fmt::Display for End {
    fn fmt(&self, f: &mut fmt::Formatter<'_>) -> fmt::Result {
        match self {
            End::Drained => f.write_str("drained"),
            End::Waiting => f.write_str("waiting for the rest of a command"),
            End::Spent => f.write_str("budget spent"),
            End::Fault(fault) => write!(f, "fault {}: {fault}", fault.number()),
        }
    }
}

/// Why a command was not executed.
#[derive(Clone, Copy, Debug, PartialEq, Eq, Hash)]
pub enum Fault {
    /// A command number that is not offered.
    NotOffered,
    /// A bad cursor size or hotspot, a raster operation above 15, or a fence of 0.
    BadOperand,
    /// A command longer than the ring can hold.
    TooLong,
    /// NEXT_CMD is no multiple of 4, or outside the ring.
    BadNextCmd,
}

impl Fault {
    /// The answer number.
    pub fn number(self) -> u32 {
        match self {
            Fault::NotOffered => answer::NOT_OFFERED,
            Fault::BadOperand => answer::BAD_OPERAND,
            Fault::TooLong => answer::TOO_LONG,
            Fault::BadNextCmd => answer::BAD_NEXT_CMD,
        }
    }

    pub(crate) fn of(number: u32) -> Option<Fault> {
        match number {
            answer::NOT_OFFERED => Some(Fault::NotOffered),
            answer::BAD_OPERAND => Some(Fault::BadOperand),
            answer::TOO_LONG => Some(Fault::TooLong),
            answer::BAD_NEXT_CMD => Some(Fault::BadNextCmd),
            _ => None,
        }
    }
}

impl fmt::Display for Fault {
    fn fmt(&self, f: &mut fmt::Formatter<'_>) -> fmt::Result {
        f.write_str(match self {
            Fault::NotOffered => "the command is not offered",
            Fault::BadOperand => "a cursor of bad size or hotspot, a raster operation above 15, or a fence of 0",
            Fault::TooLong => "the command is longer than the ring can hold",
            Fault::BadNextCmd => "NEXT_CMD is no multiple of 4, or outside the ring",
        })
    }
}

impl std::error::Error for Fault {}

/// A lent memory.
#[derive(Clone, Copy, Debug, PartialEq, Eq, Hash)]
#[non_exhaustive]
pub enum Memory {
    /// The device words.
    Device,
    /// The ring memory.
    Ring,
    /// The framebuffer.
    Framebuffer,
    /// The screen.
    Screen,
    /// The cursor image.
    Cursor,
    /// The output of a picture.
    Output,
    /// The pixels lent with a command: `w · h` with a DEFINE_ALPHA_CURSOR, none with any other.
    Pixels,
    /// The data lent with a command, in bytes: `size` with an ESCAPE, none with any other.
    Data,
}

impl fmt::Display for Memory {
    fn fmt(&self, f: &mut fmt::Formatter<'_>) -> fmt::Result {
        f.write_str(match self {
            Memory::Device => "device",
            Memory::Ring => "ring",
            Memory::Framebuffer => "framebuffer",
            Memory::Screen => "screen",
            Memory::Cursor => "cursor image",
            Memory::Output => "output",
            Memory::Pixels => "command's pixel memory",
            Memory::Data => "command's data memory",
        })
    }
}

/// Why [`crate::ring::append_command`] takes words for no command: a device with this ring would not execute them.
#[derive(Clone, Copy, Debug, PartialEq, Eq, Hash)]
#[non_exhaustive]
pub enum Flaw {
    /// There is no word, and so no number.
    Empty,
    /// There is no command of this number.
    Number {
        /// The number.
        number: u32,
    },
    /// Another number of arguments than the command has.
    Words {
        /// The command's number.
        number: u32,
        /// The words given, the number among them.
        given: usize,
        /// The words that the command has.
        wanted: usize,
    },
    /// A raster operation above 15.
    Operation {
        /// The command's number.
        number: u32,
        /// The operation.
        rop: u32,
    },
    /// A fence of 0, which drivers take for none.
    FenceZero,
    /// A cursor whose sides are not 1 to 64, or whose hotspot lies outside.
    Cursor {
        /// The columns.
        w: u32,
        /// The rows.
        h: u32,
        /// The hotspot's column.
        hotx: u32,
        /// The hotspot's row.
        hoty: u32,
    },
    /// Longer than the ring can hold.
    TooLong {
        /// The command's number.
        number: u32,
        /// All its words.
        words: u64,
        /// The words that the ring can hold.
        carries: usize,
    },
}

impl fmt::Display for Flaw {
    fn fmt(&self, f: &mut fmt::Formatter<'_>) -> fmt::Result {
        match *self {
            Flaw::Empty => f.write_str("a command without a word: the first is its number"),
            Flaw::Number { number } => write!(f, "there is no command {number}"),
            Flaw::Words { number, given, wanted } => {
                write!(f, "{} has {wanted} words, its number among them, and {given} are given", Numbered(number))
            }
            Flaw::Operation { number, rop } => write!(f, "{} does not take raster operation {rop}: 0 to 15", Numbered(number)),
            Flaw::FenceZero => write!(f, "{} does not take 0: it stands for no fence", Numbered(cmd::FENCE)),
            Flaw::Cursor { w, h, hotx, hoty } => {
                write!(
                    f,
                    "a cursor of {w} by {h} with its hotspot at ({hotx}, {hoty}): both sides are 1 to 64, and the hotspot lies inside"
                )
            }
            Flaw::TooLong { number, words, carries } => {
                write!(f, "{} has {words} words, and the ring can hold {carries}", Numbered(number))
            }
        }
    }
}

/// Why a call was refused. A refused call has changed nothing.
#[derive(Clone, Copy, Debug, PartialEq, Eq, Hash)]
#[non_exhaustive]
pub enum Error {
    /// 20: a lent memory has another length than the device was made for, or than the appended command asks for.
    Length {
        /// Which memory.
        memory: Memory,
        /// The words lent; bytes of [`Memory::Data`].
        lent: usize,
        /// The words wanted; bytes of [`Memory::Data`].
        wanted: usize,
    },
    /// 21: ENABLE is 0.
    Disabled,
    /// 22: CONFIG_DONE is 0.
    NotConfigured,
    /// 23: an earlier run ended in this fault.
    FaultStands(Fault),
    /// 24: the mode has more pixels than the device.
    ModeTooLarge {
        /// The mode's width.
        width: u32,
        /// The mode's height.
        height: u32,
        /// The device's pixels.
        pixels: u32,
    },
    /// 30: there is no such register.
    NoRegister {
        /// Its index.
        index: u32,
    },
    /// 31: the register is read-only.
    ReadOnly {
        /// Its index.
        index: u32,
    },
    /// 32: the register does not take the value.
    BadValue {
        /// Its index.
        index: u32,
        /// The value.
        value: u32,
    },
    /// 33: ring words 0 to 3 are no usable ring.
    RingRefused {
        /// Ring word 0.
        min: u32,
        /// Ring word 1.
        max: u32,
        /// Ring word 2.
        next_cmd: u32,
        /// Ring word 3.
        stop: u32,
        /// The bytes of the ring memory.
        memory: u32,
    },
    /// 34: no device is made for these sizes.
    BadSizes {
        /// The bytes of the ring memory.
        memory: u32,
        /// The pixels.
        pixels: u32,
    },
    /// 40: the ring could hold the command, but too few of its words are free now.
    NoRoom {
        /// The words of the command.
        words: usize,
        /// The words that are free.
        free: usize,
    },
    /// 41: no command, or one at which a device with this ring would fault.
    NotACommand(Flaw),
    /// Restored device words that no device can have: they were changed since they were saved, or are none.
    Malformed,
    /// A word was not appended: the ring is full, or its words 0 to 3 are unusable.
    AppendRefused,
    /// An answer that this crate does not know: it and the library are of different versions.
    Unknown {
        /// The answer.
        answer: u32,
    },
}

impl Error {
    /// The answer number of the refusal; `None` for [`Error::Malformed`] and [`Error::AppendRefused`], which have none.
    pub fn number(self) -> Option<u32> {
        Some(match self {
            Error::Length { .. } => answer::LENT_LENGTH,
            Error::Disabled => answer::DISABLED,
            Error::NotConfigured => answer::NOT_CONFIGURED,
            Error::FaultStands(_) => answer::FAULT_STANDS,
            Error::ModeTooLarge { .. } => answer::MODE_TOO_LARGE,
            Error::NoRegister { .. } => answer::NO_REGISTER,
            Error::ReadOnly { .. } => answer::READ_ONLY,
            Error::BadValue { .. } => answer::BAD_VALUE,
            Error::RingRefused { .. } => answer::RING_REFUSED,
            Error::BadSizes { .. } => answer::BAD_SIZES,
            Error::NoRoom { .. } => answer::NO_ROOM,
            Error::NotACommand(_) => answer::NOT_A_COMMAND,
            Error::Unknown { answer } => answer,
            Error::Malformed | Error::AppendRefused => return None,
        })
    }
}

impl std::error::Error for Error {
    fn source(&self) -> Option<&(dyn std::error::Error + 'static)> {
        match self {
            Error::FaultStands(fault) => Some(fault),
            _ => None,
        }
    }
}

impl fmt::Display for Error {
    fn fmt(&self, f: &mut fmt::Formatter<'_>) -> fmt::Result {
        match *self {
            Error::Length { memory, lent, wanted } => {
                let unit = if memory == Memory::Data { "bytes" } else { "words" };
                write!(f, "the {memory} has {lent} {unit} and needs {wanted}")
            }
            Error::Disabled => f.write_str("the device is disabled: ENABLE is 0"),
            Error::NotConfigured => f.write_str("the device has no ring: CONFIG_DONE is 0"),
            Error::FaultStands(fault) => write!(f, "fault {} stands until CONFIG_DONE 1 is accepted: {fault}", fault.number()),
            Error::ModeTooLarge { width, height, pixels } => write!(f, "the mode {width} by {height} is above the device's {pixels} pixels"),
            Error::NoRegister { index } => write!(f, "there is no register {index}"),
            Error::ReadOnly { index } => write!(f, "{} is read-only", Register(index)),
            Error::BadValue { index, value } => write!(f, "{} does not take {value}{}", Register(index), range(index)),
            Error::RingRefused { min, max, next_cmd, stop, memory } => write!(
                f,
                "the ring MIN {min}, MAX {max}, NEXT_CMD {next_cmd}, STOP {stop} in a memory of {memory} bytes is unusable: {}",
                flaw(min, max, next_cmd, stop, memory)
            ),
            Error::BadSizes { memory, pixels } => write!(
                f,
                "no device has a ring memory of {memory} bytes and {pixels} pixels: the memory is a multiple of 4 from {} to {}, the pixels are {} to {}",
                limit::MEMORY_MIN,
                limit::MEMORY_MAX,
                limit::PIXELS_MIN,
                limit::PIXELS_MAX
            ),
            Error::NoRoom { words, free } => write!(f, "the command has {words} words, and {free} of the ring's are free until a run frees more"),
            Error::NotACommand(flaw) => write!(f, "{flaw}"),
            Error::Malformed => f.write_str("the words are not those of a device"),
            Error::AppendRefused => f.write_str("the word was not appended: the ring is full, or its words 0 to 3 are unusable"),
            Error::Unknown { answer } => write!(f, "answer {answer}, which this crate does not know: it and libsvga.a are of different versions"),
        }
    }
}

/// A command as messages name it.
struct Numbered(u32);

impl fmt::Display for Numbered {
    fn fmt(&self, f: &mut fmt::Formatter<'_>) -> fmt::Result {
        write!(f, "command {} ({})", self.0, command_name(self.0).unwrap_or("unknown"))
    }
}

/// A register as messages name it.
struct Register(u32);

impl fmt::Display for Register {
    fn fmt(&self, f: &mut fmt::Formatter<'_>) -> fmt::Result {
        match register_name(self.0) {
            Some(name) => write!(f, "register {} ({name})", self.0),
            None => write!(f, "register {}", self.0),
        }
    }
}

/// What a register takes, for the message.
fn range(index: u32) -> &'static str {
    match index {
        reg::ENABLE | reg::CONFIG_DONE => ": 0 or 1",
        reg::WIDTH => ": 1 to 2560",
        reg::HEIGHT => ": 1 to 1600",
        reg::CURSOR_ON => ": 0 to 3",
        _ => "",
    }
}

/// The first thing wrong with a ring, for the message.
fn flaw(min: u32, max: u32, next_cmd: u32, stop: u32, memory: u32) -> &'static str {
    let inside = |place| min <= place && place < max;
    if memory < 16 {
        "words 0 to 3 are not all there"
    } else if [min, max, next_cmd, stop].iter().any(|place| place % 4 != 0) {
        "all four are multiples of 4"
    } else if min < limit::RING_START_MIN {
        "MIN is at least 16"
    } else if max > memory {
        "MAX lies within the memory"
    } else if u64::from(max) < u64::from(min) + u64::from(limit::RING_BYTES_MIN) {
        "MAX is at least MIN + 10240"
    } else if !inside(next_cmd) {
        "NEXT_CMD lies from MIN to below MAX"
    } else if !inside(stop) {
        "STOP lies from MIN to below MAX"
    } else {
        "the device refuses it"
    }
}
