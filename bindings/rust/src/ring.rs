//! What a guest does with the ring memory.

use crate::{answer, command, fifo, limit, sys, Error, APPEND_TAKEN};

/// Writes ring words 0 to 3 for an empty ring from byte `min` to the memory's end, as a driver does before it writes CONFIG_DONE 1. A
/// memory of fewer than four words is left as it is.
///
/// With [`limit::RING_START_MIN`] the ring starts as early as it can, and every memory that a device is made for has room for it. With
/// [`limit::RING_START_FENCE`] or more, which needs a memory of 10,268 bytes or more, fences are posted to ring word 6 ([`posted_fence`]),
/// and the word becomes 0: accepting a ring writes nothing.
pub fn reset(ring: &mut [u32], min: u32) {
    let bytes = bytes(ring);
    if let Some(words) = ring.get_mut(..4) {
        words[fifo::MIN as usize] = min;
        words[fifo::MAX as usize] = bytes;
        words[fifo::NEXT_CMD as usize] = min;
        words[fifo::STOP as usize] = min;
    }
    post(ring, 0);
}

/// The last fence, where a guest looks for it: ring word 6, which the device writes whenever it executes a FENCE, if the ring was accepted
/// with this MIN. `None` where ring word 0 is below [`limit::RING_START_FENCE`]: word 6 is then one of the ring's own.
pub fn posted_fence(ring: &[u32]) -> Option<u32> {
    let min = *ring.get(fifo::MIN as usize)?;
    ring.get(fifo::FENCE as usize).copied().filter(|_| min >= limit::RING_START_FENCE)
}

/// Writes ring word 6 as a driver does before it has a ring accepted, where fences are to be posted there.
pub(crate) fn post(ring: &mut [u32], fence: u32) {
    if posted_fence(ring).is_some() {
        ring[fifo::FENCE as usize] = fence;
    }
}

/// Appends one word, whatever it is. A command goes by [`append_command`]; this is for tests of words that are none.
///
/// # Errors
///
/// [`Error::AppendRefused`] where the ring is full or its words 0 to 3 are unusable; nothing has changed.
pub fn append(ring: &mut [u32], word: u32) -> Result<(), Error> {
    match sys::append(ring, word) {
        APPEND_TAKEN => Ok(()),
        _ => Err(Error::AppendRefused),
    }
}

/// Appends a command, all its words or none: its number and its arguments (`head`), the `pixels` of a DEFINE_ALPHA_CURSOR, the `data` of an
/// ESCAPE; both are empty for every other command. [`crate::Command::append_to`] makes these of a [`crate::Command`].
///
/// The library's proved writer does it: the words are stored from NEXT_CMD on, and NEXT_CMD moves on after all of them. STOP is read from
/// the ring, and the last word before it is never filled. Memory order between processors is the host's affair, as `svga.h` has it.
///
/// ```
/// # use svga::{cmd, limit, ring, Error};
/// let mut memory = vec![0; 2_564];
/// ring::reset(&mut memory, limit::RING_START_MIN);
/// ring::append_command(&mut memory, &[cmd::FENCE, 7], &[], &[])?;
/// assert_eq!(memory[..6], [16, 10_256, 24, 16, cmd::FENCE, 7]);
///
/// let short = ring::append_command(&mut memory, &[cmd::RECT_FILL, 0x3399FF, 0, 0, 8], &[], &[]);
/// assert_eq!(short.unwrap_err().to_string(), "command 2 (RECT_FILL) has 6 words, its number among them, and 5 are given");
/// # Ok::<(), Error>(())
/// ```
///
/// # Errors
///
/// [`Error::RingRefused`], [`Error::NotACommand`], [`Error::Length`] for pixels or data, [`Error::NoRoom`], looked for in this order;
/// nothing has changed.
pub fn append_command(ring: &mut [u32], head: &[u32], pixels: &[u32], data: &[u8]) -> Result<(), Error> {
    let answer = sys::append_command(ring, head, pixels, data);
    let unknown = Error::Unknown { answer };
    match answer {
        answer::TAKEN => Ok(()),
        answer::RING_REFUSED => Err(refused(ring, bytes(ring))),
        answer::NOT_A_COMMAND => Err(command::flaw(head, room(ring).0).map_or(unknown, Error::NotACommand)),
        answer::LENT_LENGTH => Err(command::wrong_length(head, pixels.len(), data.len()).unwrap_or(unknown)),
        answer::NO_ROOM => Err(Error::NoRoom { words: head.len() + pixels.len() + data.len().div_ceil(4), free: room(ring).1 }),
        _ => Err(unknown),
    }
}

/// The bytes of a memory.
fn bytes(ring: &[u32]) -> u32 {
    u32::try_from(ring.len().saturating_mul(4)).unwrap_or(u32::MAX)
}

/// Ring words 0 to 3, those that are missing as 0.
fn words(ring: &[u32]) -> [u32; 4] {
    [fifo::MIN, fifo::MAX, fifo::NEXT_CMD, fifo::STOP].map(|place| ring.get(place as usize).copied().unwrap_or(0))
}

/// What answer 33 says of these ring words.
pub(crate) fn refused(ring: &[u32], memory: u32) -> Error {
    let [min, max, next_cmd, stop] = words(ring);
    Error::RingRefused { min, max, next_cmd, stop, memory }
}

/// The words that a usable ring can hold, and those that are free of them. For messages.
fn room(ring: &[u32]) -> (usize, usize) {
    let [min, max, next_cmd, stop] = words(ring).map(|place| place as usize / 4);
    let size = max.saturating_sub(min);
    let waiting = if stop <= next_cmd { next_cmd - stop } else { (next_cmd + size).saturating_sub(stop) };
    (size.saturating_sub(1), size.saturating_sub(1 + waiting))
}
