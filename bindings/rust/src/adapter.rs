//! A device that owns its memories.

use crate::{limit, reg, ring, Command, Device, Edges, Error, Lent, Memory, Run, CURSOR_WORDS};
use std::fmt;

/// A device with memories of its own, for hosts that drive it themselves, for tests and for small boards. A hypervisor that lends its
/// guest's memory uses [`Device`].
#[derive(Clone)]
pub struct Adapter {
    device: Device,
    ring: Vec<u32>,
    framebuffer: Vec<u32>,
    screen: Vec<u32>,
    cursor: Vec<u32>,
    /// The last picture; empty until one is asked for.
    output: Vec<u32>,
}

/// Adapters are equal if device and memories are; a picture that was asked for is no part of them.
impl PartialEq for Adapter {
    fn eq(&self, other: &Adapter) -> bool {
        self.device == other.device
            && self.ring == other.ring
            && self.framebuffer == other.framebuffer
            && self.screen == other.screen
            && self.cursor == other.cursor
    }
}

impl Eq for Adapter {}

/// A finished picture: the mode's pixels, row by row, 0x00RRGGBB.
#[derive(Clone, Copy, Debug, PartialEq, Eq)]
pub struct Picture<'a> {
    /// The columns.
    pub width: u32,
    /// The rows.
    pub height: u32,
    /// `width · height` pixels.
    pub pixels: &'a [u32],
}

impl<'a> Picture<'a> {
    /// The pixel at (`x`, `y`), if it is in the picture.
    pub fn pixel(&self, x: u32, y: u32) -> Option<u32> {
        (x < self.width).then(|| self.pixels.get(y as usize * self.width as usize + x as usize).copied()).flatten()
    }

    /// The rows, from the top.
    pub fn rows(&self) -> impl Iterator<Item = &'a [u32]> {
        self.pixels.chunks(self.width.max(1) as usize)
    }
}

impl Adapter {
    /// Makes a device for a ring memory of `memory` bytes and for `pixels` pixels, with memories of zeros and an empty ring. Nothing is
    /// enabled yet: see [`Adapter::start`].
    ///
    /// # Errors
    ///
    /// [`Error::BadSizes`], as [`Device::new`].
    pub fn new(memory: u32, pixels: u32) -> Result<Adapter, Error> {
        let device = Device::new(memory, pixels)?;
        let plane = || vec![0; device.pixels()];
        let mut ring = vec![0; device.ring_words()];
        ring::reset(&mut ring, limit::RING_START_MIN);
        Ok(Adapter { ring, framebuffer: plane(), screen: plane(), cursor: vec![0; CURSOR_WORDS], output: Vec::new(), device })
    }

    /// An adapter from a device and its memories, as they were saved.
    ///
    /// # Errors
    ///
    /// [`Error::Length`] where a memory has not the length that the device was made for.
    pub fn from_parts(device: Device, ring: Vec<u32>, framebuffer: Vec<u32>, screen: Vec<u32>, cursor: Vec<u32>) -> Result<Adapter, Error> {
        device.check_lengths(&[
            (Memory::Ring, ring.len()),
            (Memory::Framebuffer, framebuffer.len()),
            (Memory::Screen, screen.len()),
            (Memory::Cursor, cursor.len()),
        ])?;
        Ok(Adapter { device, ring, framebuffer, screen, cursor, output: Vec::new() })
    }

    /// Does what a driver does: sets the mode, enables the device, makes the ring empty and has it accepted. The ring begins at
    /// [`limit::RING_START_MIN`], for which every memory has room; fences are not posted to ring word 6.
    ///
    /// # Errors
    ///
    /// [`Error::BadValue`] for a mode outside 1 to 2,560 by 1 to 1,600; [`Error::ModeTooLarge`] for one above the device's pixels, which
    /// then is set all the same.
    pub fn start(&mut self, width: u32, height: u32) -> Result<(), Error> {
        self.start_at(limit::RING_START_MIN, width, height)
    }

    /// As [`Adapter::start`], with a ring that begins at byte `min` of its memory. From [`limit::RING_START_FENCE`] on fences are posted
    /// to ring word 6, which begins with the last fence executed.
    ///
    /// ```
    /// # use svga::{limit, Adapter, Command};
    /// # fn main() -> Result<(), svga::Error> {
    /// let mut adapter = Adapter::new(65_536, 1_024)?;
    /// adapter.start_at(limit::RING_START_FENCE, 32, 32)?;
    /// adapter.submit(&Command::Fence(7))?;
    /// assert_eq!(adapter.posted_fence(), Some(0));
    /// assert_eq!(adapter.run(1000)?.count, 1);
    /// assert_eq!(adapter.posted_fence(), Some(7));
    /// # Ok(())
    /// # }
    /// ```
    ///
    /// # Errors
    ///
    /// As [`Adapter::start`]; [`Error::RingRefused`] for a `min` that is below 16, no multiple of 4, or less than 10,240 bytes before the
    /// memory's end. The mode is then set, and the ring words are written.
    pub fn start_at(&mut self, min: u32, width: u32, height: u32) -> Result<(), Error> {
        self.write(reg::WIDTH, width)?;
        self.write(reg::HEIGHT, height)?;
        self.write(reg::ENABLE, 1)?;
        ring::reset(&mut self.ring, min);
        ring::post(&mut self.ring, self.device.fence());
        self.write(reg::CONFIG_DONE, 1)?;
        match self.run(0) {
            Err(error @ Error::ModeTooLarge { .. }) => Err(error),
            _ => Ok(()),
        }
    }

    /// Writes a register: [`Device::write`].
    ///
    /// # Errors
    ///
    /// As [`Device::write`].
    pub fn write(&mut self, index: u32, value: u32) -> Result<(), Error> {
        self.device.write(&self.ring, index, value)
    }

    /// Reads a register: [`Device::read`].
    ///
    /// # Errors
    ///
    /// As [`Device::read`].
    pub fn read(&self, index: u32) -> Result<u32, Error> {
        self.device.read(index)
    }

    /// Appends one word to the ring, whatever it is: [`ring::append`].
    ///
    /// # Errors
    ///
    /// As [`ring::append`].
    pub fn append(&mut self, word: u32) -> Result<(), Error> {
        ring::append(&mut self.ring, word)
    }

    /// Appends a command, all its words or none: [`Command::append_to`]. Where the ring has no room for it, the commands that wait are run,
    /// as a guest waits for it; else they wait for the next run. The order of this work does not show: the screen is that of the commands
    /// one by one.
    ///
    /// # Errors
    ///
    /// As [`Command::append_to`]; [`Error::NoRoom`] only where a run makes no room. Where room has to be made also as [`Device::run`], and
    /// [`Error::FaultStands`] if that run ended in a fault. Nothing is appended.
    pub fn submit(&mut self, command: &Command<'_>) -> Result<(), Error> {
        while let Err(error) = command.append_to(&mut self.ring) {
            let Error::NoRoom { .. } = error else { return Err(error) };
            let run = self.run(u32::MAX)?;
            match run.fault() {
                Some(fault) => return Err(Error::FaultStands(fault)),
                None if run.count == 0 => return Err(error),
                None => {}
            }
        }
        Ok(())
    }

    /// Runs at most `budget` commands: [`Device::run`].
    ///
    /// # Errors
    ///
    /// As [`Device::run`]; lengths are always right.
    pub fn run(&mut self, budget: u32) -> Result<Run, Error> {
        let Adapter { device, ring, framebuffer, screen, cursor, .. } = self;
        device.run(Lent { ring, framebuffer, screen, cursor }, budget)
    }

    /// The picture: the screen with the cursor over it.
    ///
    /// # Errors
    ///
    /// [`Error::ModeTooLarge`].
    pub fn picture(&mut self) -> Result<Picture<'_>, Error> {
        self.output.resize(self.device.pixels(), 0);
        self.device.picture(&self.screen, &self.cursor, &mut self.output)?;
        let (width, height) = (self.device.width(), self.device.height());
        Ok(Picture { width, height, pixels: &self.output[..width as usize * height as usize] })
    }

    /// The offscreen rectangle: [`Device::offscreen`]. What is kept there can be shown again:
    ///
    /// ```
    /// # use svga::{Adapter, Command, Rect};
    /// # fn main() -> Result<(), svga::Error> {
    /// let mut adapter = Adapter::new(10_256, 32 * 40)?; // pixels for 40 rows of 32
    /// adapter.start(32, 32)?; // eight rows are left
    /// let kept = adapter.offscreen().top;
    /// adapter.submit(&Command::RectFill { colour: 0x3399FF, to: Rect::new(0, kept, 32, 8) })?;
    /// adapter.submit(&Command::RectCopy { sx: 0, sy: kept, to: Rect::new(0, 24, 32, 8) })?;
    /// adapter.run(1000)?;
    /// assert_eq!(adapter.picture()?.pixel(31, 31), Some(0x3399FF));
    /// # Ok(())
    /// # }
    /// ```
    pub fn offscreen(&self) -> Edges {
        self.device.offscreen()
    }

    /// The last fence executed: [`Device::fence`].
    pub fn fence(&self) -> u32 {
        self.device.fence()
    }

    /// Whether a fence has passed: [`Device::fence_passed`].
    pub fn fence_passed(&self, fence: u32) -> bool {
        self.device.fence_passed(fence)
    }

    /// The last fence, where a guest looks for it: [`ring::posted_fence`]. `None` where the ring begins too early for it.
    pub fn posted_fence(&self) -> Option<u32> {
        ring::posted_fence(&self.ring)
    }

    /// The device, with its words to be saved.
    pub fn device(&self) -> &Device {
        &self.device
    }

    /// The ring memory.
    pub fn ring(&self) -> &[u32] {
        &self.ring
    }

    /// The ring memory, for a guest to write: any content is safe.
    pub fn ring_mut(&mut self) -> &mut [u32] {
        &mut self.ring
    }

    /// The framebuffer.
    pub fn framebuffer(&self) -> &[u32] {
        &self.framebuffer
    }

    /// The framebuffer, for a guest to draw in: pixel (x, y) stands at y · width + x.
    pub fn framebuffer_mut(&mut self) -> &mut [u32] {
        &mut self.framebuffer
    }

    /// The screen, without the cursor: the mode's rows, then the offscreen ones.
    pub fn screen(&self) -> &[u32] {
        &self.screen
    }

    /// The cursor image.
    pub fn cursor(&self) -> &[u32] {
        &self.cursor
    }
}

impl fmt::Debug for Adapter {
    fn fmt(&self, f: &mut fmt::Formatter<'_>) -> fmt::Result {
        f.debug_struct("Adapter").field("device", &self.device).finish_non_exhaustive()
    }
}
