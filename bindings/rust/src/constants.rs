//! The names of `include/svga.h`. A test holds both against each other.

/// Makes a module of numbers, and its list with the header's names.
macro_rules! numbers {
    ($(#[$about:meta])* $module:ident, $prefix:literal, $($(#[$doc:meta])* $name:ident = $value:expr;)*) => {
        $(#[$about])*
        pub mod $module {
            $($(#[$doc])* pub const $name: u32 = $value;)*

            /// All of them, under the names that `svga.h` gives them.
            pub const ALL: &[(&str, u32)] = &[$((concat!($prefix, stringify!($name)), $name)),*];
        }
    };
}

/// Signatures and the layout of the device words are those of this version of `svga.h`.
pub const ABI_VERSION: u32 = 1;
/// The words of a device.
pub const DEVICE_WORDS: usize = 64;
/// The words of the cursor image: 64 by 64.
pub const CURSOR_WORDS: usize = 4096;
/// The words of the offscreen rectangle's edges.
pub const EDGES_WORDS: usize = 4;
/// What the register CAPABILITIES reads: all bits of [`cap`].
pub const CAPABILITIES: u32 = 0x12D3;
/// What `svga_append` answers where the word was taken.
pub const APPEND_TAKEN: u32 = 0;
/// What `svga_append` answers where the ring is full or its words 0 to 3 are unusable.
pub const APPEND_REFUSED: u32 = 1;

numbers! {
    /// Limits of what a device is made for and of what it takes.
    limit, "SVGA_",
    /// The least bytes of a ring memory; they are a multiple of 4.
    MEMORY_MIN = 10_256;
    /// The most bytes of a ring memory.
    MEMORY_MAX = 2_097_152;
    /// The least pixels of framebuffer and screen.
    PIXELS_MIN = 1;
    /// The most pixels of framebuffer and screen.
    PIXELS_MAX = 4_096_000;
    /// The most of a mode's width, from 1.
    WIDTH_MAX = 2_560;
    /// The most of a mode's height, from 1.
    HEIGHT_MAX = 1_600;
    /// The most of a cursor's width and height, from 1.
    CURSOR_SIDE_MAX = 64;
    /// The least MAX − MIN of a ring.
    RING_BYTES_MIN = 10_240;
    /// The least MIN of a ring: it starts behind its four words.
    RING_START_MIN = 16;
    /// The least MIN with which fences are posted: the ring starts behind word [`crate::fifo::FENCE`].
    RING_START_FENCE = 28;
}

numbers! {
    /// Answer numbers, as [`crate::sys`] gives them.
    answer, "SVGA_ANSWER_",
    /// Done.
    TAKEN = 0;
    /// Run: no word waits.
    DRAINED = 0;
    /// Run: the rest of a command is not there yet.
    WAITING = 1;
    /// Run: the budget is used up; more may wait.
    SPENT = 2;
    /// Run, fault: a command number that is not offered.
    NOT_OFFERED = 10;
    /// Run, fault: a bad cursor size or hotspot, a raster operation above 15, or a fence of 0.
    BAD_OPERAND = 11;
    /// Run, fault: a command longer than the ring can hold.
    TOO_LONG = 12;
    /// Run, fault: NEXT_CMD is no multiple of 4, or outside the ring.
    BAD_NEXT_CMD = 13;
    /// A lent length is not the one that the device was made for; of an appended command's pixels or data, that the command has.
    LENT_LENGTH = 20;
    /// Run: ENABLE is 0.
    DISABLED = 21;
    /// Run: CONFIG_DONE is 0.
    NOT_CONFIGURED = 22;
    /// Run: an earlier run ended in a fault.
    FAULT_STANDS = 23;
    /// Run, picture: width · height is above the device's pixels.
    MODE_TOO_LARGE = 24;
    /// Write, read: no such register.
    NO_REGISTER = 30;
    /// Write: the register is read-only.
    READ_ONLY = 31;
    /// Write: the value is outside the register's range.
    BAD_VALUE = 32;
    /// Write of CONFIG_DONE 1, appending a command: ring words 0 to 3 are no usable ring.
    RING_REFUSED = 33;
    /// Making: the ring memory's bytes or the pixels are outside their limits.
    BAD_SIZES = 34;
    /// Appending a command: the ring could hold it, but too few of its words are free now.
    NO_ROOM = 40;
    /// Appending a command: it is none, or one at which a device would fault.
    NOT_A_COMMAND = 41;
}

numbers! {
    /// Register indices.
    reg, "SVGA_REG_",
    /// Takes every value and stores those of [`crate::id`].
    ID = 0;
    /// 0 or 1.
    ENABLE = 1;
    /// 1 to 2,560.
    WIDTH = 2;
    /// 1 to 1,600.
    HEIGHT = 3;
    /// Read-only: 2,560.
    MAX_WIDTH = 4;
    /// Read-only: 1,600.
    MAX_HEIGHT = 5;
    /// Read-only: 24.
    DEPTH = 6;
    /// Read-only: 32.
    BITS_PER_PIXEL = 7;
    /// Read-only: 0.
    PSEUDOCOLOR = 8;
    /// Read-only: 0xFF0000.
    RED_MASK = 9;
    /// Read-only: 0xFF00.
    GREEN_MASK = 10;
    /// Read-only: 0xFF.
    BLUE_MASK = 11;
    /// Read-only: 4 · width.
    BYTES_PER_LINE = 12;
    /// Read-only: 0; the host maps the framebuffer.
    FB_START = 13;
    /// Read-only: 0.
    FB_OFFSET = 14;
    /// Read-only: 4 · pixels.
    VRAM_SIZE = 15;
    /// Read-only: 4 · width · height.
    FB_SIZE = 16;
    /// Read-only: [`crate::CAPABILITIES`].
    CAPABILITIES = 17;
    /// Read-only: 0; the host maps the ring memory.
    MEM_START = 18;
    /// Read-only: the bytes of the ring memory.
    MEM_SIZE = 19;
    /// 0 or 1; 1 looks at ring words 0 to 3, remembers them and clears a fault.
    CONFIG_DONE = 20;
    /// Any value: BUSY becomes 1 if the device is configured, enabled and without fault. Reads 0.
    SYNC = 21;
    /// Read-only: 1 from SYNC until a run drains, waits or faults, or ENABLE or CONFIG_DONE becomes 0.
    BUSY = 22;
    /// Any value.
    GUEST_ID = 23;
    /// Any value.
    CURSOR_ID = 24;
    /// Any value, read as a signed number.
    CURSOR_X = 25;
    /// Any value, read as a signed number.
    CURSOR_Y = 26;
    /// A value of [`crate::cursor_on`].
    CURSOR_ON = 27;
    /// Read-only: 32.
    HOST_BITS_PER_PIXEL = 28;
}

numbers! {
    /// Values of the register ID.
    id, "SVGA_",
    /// The oldest version.
    ID_0 = 0x9000_0000;
    /// The version between.
    ID_1 = 0x9000_0001;
    /// The newest version.
    ID_2 = 0x9000_0002;
}

numbers! {
    /// Values of the register CURSOR_ON.
    cursor_on, "SVGA_CURSOR_ON_",
    /// Hides the cursor.
    HIDE = 0;
    /// Shows it, with the CURSOR_ID, CURSOR_X and CURSOR_Y of this moment.
    SHOW = 1;
    /// Leaves it as it is: it is never in the framebuffer.
    REMOVE_FROM_FB = 2;
    /// Leaves it as it is.
    RESTORE_TO_FB = 3;
}

numbers! {
    /// Bits of the register CAPABILITIES.
    cap, "SVGA_CAP_",
    /// RECT_FILL.
    RECT_FILL = 0x1;
    /// RECT_COPY.
    RECT_COPY = 0x2;
    /// Raster operations.
    RASTER_OP = 0x10;
    /// The cursor is shown by registers.
    CURSOR_BYPASS = 0x40;
    /// CURSOR_ON takes REMOVE_FROM_FB and RESTORE_TO_FB.
    CURSOR_BYPASS_2 = 0x80;
    /// DEFINE_ALPHA_CURSOR.
    ALPHA_CURSOR = 0x200;
    /// Fills and copies reach the offscreen rectangle: [`crate::Device::offscreen`].
    OFFSCREEN_1 = 0x1000;
}

numbers! {
    /// The ring memory's first words: byte offsets from its start, and a fence.
    fifo, "SVGA_FIFO_",
    /// Where the ring begins.
    MIN = 0;
    /// Where it ends.
    MAX = 1;
    /// Where the guest writes its next word.
    NEXT_CMD = 2;
    /// Where the device reads its next word.
    STOP = 3;
    /// The last fence, where the accepted MIN is [`crate::limit::RING_START_FENCE`] or more; one of the ring's own words where it is less.
    FENCE = 6;
}

numbers! {
    /// Command numbers; [`crate::Command`] builds the words. Updates are cut to the mode, fills and copies to the mode and the offscreen
    /// rows behind it.
    cmd, "SVGA_CMD_",
    /// x y w h: framebuffer pixels come to the screen.
    UPDATE = 1;
    /// colour x y w h.
    RECT_FILL = 2;
    /// sx sy dx dy w h.
    RECT_COPY = 3;
    /// colour x y w h rop.
    RECT_ROP_FILL = 13;
    /// sx sy dx dy w h rop.
    RECT_ROP_COPY = 14;
    /// id hotx hoty w h, then w · h pixels.
    DEFINE_ALPHA_CURSOR = 22;
    /// x y w h reason.
    UPDATE_VERBOSE = 25;
    /// number, not 0; also written to ring word [`crate::fifo::FENCE`] where fences are posted.
    FENCE = 30;
    /// namespace, size in bytes, then the data in whole words.
    ESCAPE = 33;
}

numbers! {
    /// Raster operations, as X numbers them: s is the colour or the pixel copied, d the pixel it falls on.
    rop, "SVGA_ROP_",
    /// 0.
    CLEAR = 0;
    /// s & d.
    AND = 1;
    /// s & !d.
    AND_REVERSE = 2;
    /// s.
    COPY = 3;
    /// !s & d.
    AND_INVERTED = 4;
    /// d.
    NOOP = 5;
    /// s ^ d.
    XOR = 6;
    /// s | d.
    OR = 7;
    /// !(s | d).
    NOR = 8;
    /// !(s ^ d).
    EQUIV = 9;
    /// !d.
    INVERT = 10;
    /// s | !d.
    OR_REVERSE = 11;
    /// !s.
    COPY_INVERTED = 12;
    /// !s | d.
    OR_INVERTED = 13;
    /// !(s & d).
    NAND = 14;
    /// All ones.
    SET = 15;
}

/// A register's name, for a log of what a guest does: `register_name(2)` is `Some("WIDTH")`.
pub fn register_name(index: u32) -> Option<&'static str> {
    name(reg::ALL, "SVGA_REG_", index)
}

/// A command's name: `command_name(2)` is `Some("RECT_FILL")`.
pub fn command_name(number: u32) -> Option<&'static str> {
    name(cmd::ALL, "SVGA_CMD_", number)
}

fn name(all: &[(&'static str, u32)], prefix: &str, number: u32) -> Option<&'static str> {
    all.iter().find(|entry| entry.1 == number).and_then(|entry| entry.0.strip_prefix(prefix))
}
