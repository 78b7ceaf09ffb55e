//! A device, with its memories lent to each call.

use crate::{answer, limit, reg, ring, sys, End, Error, Fault, Memory, Run, CURSOR_WORDS, DEVICE_WORDS, EDGES_WORDS};
use std::fmt;

/// Places in the device words.
mod place {
    pub const MEMORY: usize = 0;
    pub const PIXELS: usize = 1;
    pub const WIDTH: usize = 4;
    pub const HEIGHT: usize = 5;
    pub const CONDITION: usize = 24;
    /// The remembered MIN, in words; 0 where no ring is remembered.
    pub const MIN: usize = 25;
}

/// The memories lent to a run: the ring and the framebuffer are the guest's, the screen and the cursor image the host's.
#[derive(Debug)]
pub struct Lent<'a> {
    /// The ring memory: a word for each 4 bytes that the device was made for.
    pub ring: &'a mut [u32],
    /// The framebuffer: a word for each pixel. No call changes it.
    pub framebuffer: &'a [u32],
    /// The screen: a word for each pixel, those of the mode first.
    pub screen: &'a mut [u32],
    /// The cursor image: [`CURSOR_WORDS`] words.
    pub cursor: &'a mut [u32],
}

/// The usable offscreen rectangle: the rows of the screen's memory behind the mode, as wide as the mode. Fills and copies read and write
/// them as they do the mode's; no update reaches them, and no picture shows them. Right and bottom are excluded; right is
/// 8 · BYTES_PER_LINE / BITS_PER_PIXEL, top FB_SIZE / BYTES_PER_LINE rounded up, bottom VRAM_SIZE / BYTES_PER_LINE.
#[derive(Clone, Copy, Debug, PartialEq, Eq, Hash)]
pub struct Edges {
    /// The first column.
    pub left: u32,
    /// The first row.
    pub top: u32,
    /// The column behind the last.
    pub right: u32,
    /// The row behind the last.
    pub bottom: u32,
}

impl Edges {
    /// Whether it has no pixel.
    pub fn is_empty(self) -> bool {
        self.right <= self.left || self.bottom <= self.top
    }
}

/// A device: 64 words of state, and no memory of its own. Each call is lent the memories that it works on, so a hypervisor can lend the
/// guest's, and the borrows see to it that they do not overlap and that nobody else in the program writes them meanwhile. (Guest
/// processors that run on are outside what a borrow can see: pause them for the call, or lend copies.)
///
/// A `Device` is always well-formed: only [`Device::new`] and [`Device::from_words`] give one.
#[derive(Clone, PartialEq, Eq)]
pub struct Device {
    words: [u32; DEVICE_WORDS],
}

impl Device {
    /// Makes a device for a ring memory of `memory` bytes and for `pixels` pixels: disabled, not configured, with the mode that new
    /// devices have. Set the mode that you want.
    ///
    /// # Errors
    ///
    /// [`Error::BadSizes`] unless `memory` is a multiple of 4 from 10,256 to 2,097,152 and `pixels` is 1 to 4,096,000.
    pub fn new(memory: u32, pixels: u32) -> Result<Device, Error> {
        let mut words = [0; DEVICE_WORDS];
        match sys::make(&mut words, memory, pixels) {
            answer::TAKEN => Ok(Device { words }),
            answer::BAD_SIZES => Err(Error::BadSizes { memory, pixels }),
            answer => Err(Error::Unknown { answer }),
        }
    }

    /// A device from words that [`Device::words`] gave. Ring, framebuffer, screen and cursor image are to be restored with them.
    ///
    /// # Errors
    ///
    /// [`Error::Length`] unless there are [`DEVICE_WORDS`]; [`Error::Malformed`] for words that no device can have.
    pub fn from_words(words: &[u32]) -> Result<Device, Error> {
        let length = Error::Length { memory: Memory::Device, lent: words.len(), wanted: DEVICE_WORDS };
        let device = Device { words: words.try_into().map_err(|_| length)? };
        match device.read(reg::ID) {
            Err(Error::NoRegister { .. }) => Err(Error::Malformed),
            Err(error) => Err(error),
            Ok(_) => Ok(device),
        }
    }

    /// The words, to be saved. Their layout stands in `svga.h`.
    pub fn words(&self) -> &[u32; DEVICE_WORDS] {
        &self.words
    }

    /// The bytes of the ring memory.
    pub fn memory(&self) -> u32 {
        self.words[place::MEMORY]
    }

    /// The words of the ring memory: a quarter of its bytes.
    pub fn ring_words(&self) -> usize {
        self.memory() as usize / 4
    }

    /// The pixels of framebuffer, screen and output.
    pub fn pixels(&self) -> usize {
        self.words[place::PIXELS] as usize
    }

    /// The mode's width.
    pub fn width(&self) -> u32 {
        self.words[place::WIDTH]
    }

    /// The mode's height.
    pub fn height(&self) -> u32 {
        self.words[place::HEIGHT]
    }

    /// The fault that stands, if one does.
    pub fn fault(&self) -> Option<Fault> {
        Fault::of(self.words[place::CONDITION])
    }

    /// Whether a run writes the number of each FENCE to ring word 6 too: a ring is accepted whose MIN is [`limit::RING_START_FENCE`] or
    /// more. What ring word 0 holds now does not count. In a fault it is false, since the ring is no longer remembered.
    pub fn posts_fences(&self) -> bool {
        self.words[place::MIN] >= limit::RING_START_FENCE / 4
    }

    /// Writes a register of [`reg`]. Only CONFIG_DONE 1 looks at the ring: other writes may be lent none, `&[]`.
    ///
    /// # Errors
    ///
    /// [`Error::NoRegister`], [`Error::ReadOnly`], [`Error::BadValue`]; for CONFIG_DONE 1 then [`Error::Length`] and
    /// [`Error::RingRefused`].
    pub fn write(&mut self, ring: &[u32], index: u32, value: u32) -> Result<(), Error> {
        match sys::write(&mut self.words, ring, index, value) {
            answer::TAKEN => Ok(()),
            answer::LENT_LENGTH => Err(self.wrong_length(&[(Memory::Ring, ring.len())])),
            answer::NO_REGISTER => Err(Error::NoRegister { index }),
            answer::READ_ONLY => Err(Error::ReadOnly { index }),
            answer::BAD_VALUE => Err(Error::BadValue { index, value }),
            answer::RING_REFUSED => Err(ring::refused(ring, self.memory())),
            answer => Err(Error::Unknown { answer }),
        }
    }

    /// Reads a register of [`reg`].
    ///
    /// # Errors
    ///
    /// [`Error::NoRegister`]. A guest that reads one is given 0: `device.read(index).unwrap_or(0)`.
    pub fn read(&self, index: u32) -> Result<u32, Error> {
        let both = sys::read(&self.words, index);
        match high(both) {
            answer::TAKEN => Ok(low(both)),
            answer::NO_REGISTER => Err(Error::NoRegister { index }),
            answer => Err(Error::Unknown { answer }),
        }
    }

    /// Runs at most `budget` commands out of the ring. It changes the screen within the commands' rectangles, the cursor image where a
    /// cursor is defined, and of the ring the word [`crate::fifo::STOP`], and where the device [posts fences](Device::posts_fences) and a
    /// FENCE is executed the word [`crate::fifo::FENCE`].
    ///
    /// A host that lends a copy of the ring writes back the word FENCE if the run changed it, which it does only where the device posts
    /// fences, and then the word STOP. Where it does not post them, the first is one of the ring's own, and the guest may have written it.
    ///
    /// # Errors
    ///
    /// [`Error::Length`], [`Error::NotConfigured`], [`Error::Disabled`], [`Error::ModeTooLarge`], [`Error::FaultStands`], looked for in
    /// this order. A fault that comes up in this run is no error: see [`Run::fault`].
    pub fn run(&mut self, lent: Lent<'_>, budget: u32) -> Result<Run, Error> {
        let Lent { ring, framebuffer, screen, cursor } = lent;
        let both = sys::run(&mut self.words, ring, framebuffer, screen, cursor, budget);
        if let Some(end) = End::of(high(both)) {
            return Ok(Run { end, count: low(both) });
        }
        Err(match high(both) {
            answer::LENT_LENGTH => self.wrong_length(&[
                (Memory::Ring, ring.len()),
                (Memory::Framebuffer, framebuffer.len()),
                (Memory::Screen, screen.len()),
                (Memory::Cursor, cursor.len()),
            ]),
            answer::NOT_CONFIGURED => Error::NotConfigured,
            answer::DISABLED => Error::Disabled,
            answer::MODE_TOO_LARGE => self.too_large(),
            answer => match self.fault() {
                Some(fault) if answer == answer::FAULT_STANDS => Error::FaultStands(fault),
                _ => Error::Unknown { answer },
            },
        })
    }

    /// Writes the picture to the first width · height words of `output`: the screen with the cursor over it.
    ///
    /// # Errors
    ///
    /// [`Error::Length`], then [`Error::ModeTooLarge`]. The device need not be enabled.
    pub fn picture(&self, screen: &[u32], cursor: &[u32], output: &mut [u32]) -> Result<(), Error> {
        match sys::picture(&self.words, screen, cursor, output) {
            answer::TAKEN => Ok(()),
            answer::LENT_LENGTH => {
                Err(self.wrong_length(&[(Memory::Screen, screen.len()), (Memory::Cursor, cursor.len()), (Memory::Output, output.len())]))
            }
            answer::MODE_TOO_LARGE => Err(self.too_large()),
            answer => Err(Error::Unknown { answer }),
        }
    }

    /// The usable offscreen rectangle. It is empty where the mode takes all pixels: make the device for more to have rows there.
    pub fn offscreen(&self) -> Edges {
        let mut edges = [0; EDGES_WORDS];
        // the device is well-formed and the edges are four words: taken
        let _ = sys::offscreen(&self.words, &mut edges);
        let [left, top, right, bottom] = edges;
        Edges { left, top, right, bottom }
    }

    /// The last fence executed, 0 where there was none.
    pub fn fence(&self) -> u32 {
        low(sys::fence(&self.words))
    }

    /// Whether a fence has passed: it is at most 2³¹ − 1 steps behind the last one, counted modulo 2³².
    pub fn fence_passed(&self, fence: u32) -> bool {
        low(sys::fence_passed(&self.words, fence)) == 1
    }

    /// Checks the lengths of memories that are to be lent.
    pub(crate) fn check_lengths(&self, lent: &[(Memory, usize)]) -> Result<(), Error> {
        for &(memory, lent) in lent {
            let wanted = match memory {
                Memory::Ring => self.ring_words(),
                Memory::Cursor => CURSOR_WORDS,
                _ => self.pixels(),
            };
            if lent != wanted {
                return Err(Error::Length { memory, lent, wanted });
            }
        }
        Ok(())
    }

    /// The first lent memory that made a call answer 20.
    fn wrong_length(&self, lent: &[(Memory, usize)]) -> Error {
        self.check_lengths(lent).err().unwrap_or(Error::Unknown { answer: answer::LENT_LENGTH })
    }

    fn too_large(&self) -> Error {
        Error::ModeTooLarge { width: self.width(), height: self.height(), pixels: self.words[place::PIXELS] }
    }
}

impl fmt::Debug for Device {
    fn fmt(&self, f: &mut fmt::Formatter<'_>) -> fmt::Result {
        f.debug_struct("Device")
            .field("memory", &self.memory())
            .field("pixels", &self.pixels())
            .field("mode", &(self.width(), self.height()))
            .field("fence", &self.fence())
            .field("fault", &self.fault())
            .finish_non_exhaustive()
    }
}

/// The answer's half.
fn high(both: u64) -> u32 {
    (both >> 32) as u32
}

/// The value's half.
fn low(both: u64) -> u32 {
    both as u32
}
