//! The library's ten functions over slices, and the one module with `unsafe`.
//!
//! These are the C functions of `include/svga.h` with each pointer and length made a slice: any length and any content may be lent, and
//! every call gives an answer from the table in that header ([`crate::answer`] has the names). [`crate::Device`] and [`crate::Adapter`]
//! are built on them and are what most hosts want.
//!
//! Where a call answers with a `u64`, the answer is its high half and the value its low half.

mod raw {
    #![allow(missing_docs)]
    extern "C" {
        pub fn svga_make(device: *mut u32, device_len: usize, memory: u32, pixels: u32) -> u32;
        pub fn svga_write(device: *mut u32, device_len: usize, ring: *const u32, ring_len: usize, index: u32, value: u32) -> u32;
        pub fn svga_read(device: *const u32, device_len: usize, index: u32) -> u64;
        pub fn svga_run(
            device: *mut u32,
            device_len: usize,
            ring: *mut u32,
            ring_len: usize,
            framebuffer: *const u32,
            framebuffer_len: usize,
            screen: *mut u32,
            screen_len: usize,
            cursor: *mut u32,
            cursor_len: usize,
            budget: u32,
        ) -> u64;
        pub fn svga_picture(
            device: *const u32,
            device_len: usize,
            screen: *const u32,
            screen_len: usize,
            cursor: *const u32,
            cursor_len: usize,
            output: *mut u32,
            output_len: usize,
        ) -> u32;
        pub fn svga_offscreen(device: *const u32, device_len: usize, edges: *mut u32, edges_len: usize) -> u32;
        pub fn svga_fence(device: *const u32, device_len: usize) -> u64;
        pub fn svga_fence_passed(device: *const u32, device_len: usize, fence: u32) -> u64;
        pub fn svga_append(ring: *mut u32, ring_len: usize, word: u32) -> u32;
        pub fn svga_append_command(
            ring: *mut u32,
            ring_len: usize,
            command: *const u32,
            command_len: usize,
            pixels: *const u32,
            pixels_len: usize,
            data: *const u8,
            data_len: usize,
        ) -> u32;
    }
}

// Why each block below is sound: a slice's pointer and length name memory that may be read (and, if lent mutably, written) during the
// call; the borrows keep the slices apart and keep everybody else from writing them; and the library is proved to stay within the
// lengths for any content, and to keep no pointer.

/// Makes a device for a ring memory of `memory` bytes and `pixels` pixels: 0, 20 or 34.
#[must_use]
pub fn make(device: &mut [u32], memory: u32, pixels: u32) -> u32 {
    // SAFETY: see above.
    unsafe { raw::svga_make(device.as_mut_ptr(), device.len(), memory, pixels) }
}

/// Writes a register: 0, 20, 30, 31, 32 or 33. Only CONFIG_DONE 1 looks at the ring.
#[must_use]
pub fn write(device: &mut [u32], ring: &[u32], index: u32, value: u32) -> u32 {
    // SAFETY: see above.
    unsafe { raw::svga_write(device.as_mut_ptr(), device.len(), ring.as_ptr(), ring.len(), index, value) }
}

/// Reads a register: the answer (0, 20 or 30) in the high half, the value in the low half.
#[must_use]
pub fn read(device: &[u32], index: u32) -> u64 {
    // SAFETY: see above.
    unsafe { raw::svga_read(device.as_ptr(), device.len(), index) }
}

/// Runs at most `budget` commands: the answer (0, 1, 2, 10 to 13, 20 to 24) in the high half, the commands consumed in the low half.
#[must_use]
pub fn run(device: &mut [u32], ring: &mut [u32], framebuffer: &[u32], screen: &mut [u32], cursor: &mut [u32], budget: u32) -> u64 {
    // SAFETY: see above.
    unsafe {
        raw::svga_run(
            device.as_mut_ptr(),
            device.len(),
            ring.as_mut_ptr(),
            ring.len(),
            framebuffer.as_ptr(),
            framebuffer.len(),
            screen.as_mut_ptr(),
            screen.len(),
            cursor.as_mut_ptr(),
            cursor.len(),
            budget,
        )
    }
}

/// Writes the picture, which is the screen with the cursor over it, to `output`: 0, 20 or 24.
#[must_use]
pub fn picture(device: &[u32], screen: &[u32], cursor: &[u32], output: &mut [u32]) -> u32 {
    // SAFETY: see above.
    unsafe {
        raw::svga_picture(
            device.as_ptr(),
            device.len(),
            screen.as_ptr(),
            screen.len(),
            cursor.as_ptr(),
            cursor.len(),
            output.as_mut_ptr(),
            output.len(),
        )
    }
}

/// Writes the offscreen rectangle's left, top, right and bottom edge to `edges`, four words: 0, 20 or 30.
#[must_use]
pub fn offscreen(device: &[u32], edges: &mut [u32]) -> u32 {
    // SAFETY: see above.
    unsafe { raw::svga_offscreen(device.as_ptr(), device.len(), edges.as_mut_ptr(), edges.len()) }
}

/// The last fence executed: the answer (0, 20 or 30) in the high half, the fence in the low half.
#[must_use]
pub fn fence(device: &[u32]) -> u64 {
    // SAFETY: see above.
    unsafe { raw::svga_fence(device.as_ptr(), device.len()) }
}

/// Whether a fence has passed: the answer (0, 20 or 30) in the high half, 1 or 0 in the low half.
#[must_use]
pub fn fence_passed(device: &[u32], fence: u32) -> u64 {
    // SAFETY: see above.
    unsafe { raw::svga_fence_passed(device.as_ptr(), device.len(), fence) }
}

/// Appends one word to the ring, as a guest does: 0 taken, 1 refused (full, or the ring words are unusable).
#[must_use]
pub fn append(ring: &mut [u32], word: u32) -> u32 {
    // SAFETY: see above.
    unsafe { raw::svga_append(ring.as_mut_ptr(), ring.len(), word) }
}

/// Appends a command to the ring, as a guest does, all its words or none: 0, 20, 33, 40 or 41. `command` is its number and its arguments.
#[must_use]
pub fn append_command(ring: &mut [u32], command: &[u32], pixels: &[u32], data: &[u8]) -> u32 {
    // SAFETY: see above.
    unsafe {
        raw::svga_append_command(
            ring.as_mut_ptr(),
            ring.len(),
            command.as_ptr(),
            command.len(),
            pixels.as_ptr(),
            pixels.len(),
            data.as_ptr(),
            data.len(),
        )
    }
}
