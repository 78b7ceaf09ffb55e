//! The commands that a guest appends.

use crate::{cmd, limit, ring, rop, Error, Flaw, Memory};

/// A rectangle: unsigned, cut by the device. `x + w` never wraps. An update is cut to the mode; a fill or a copy, both its source and where
/// it goes, to the mode and the offscreen rows behind it ([`crate::Device::offscreen`]).
#[derive(Clone, Copy, Debug, PartialEq, Eq, Hash)]
pub struct Rect {
    /// The left column.
    pub x: u32,
    /// The top row.
    pub y: u32,
    /// The columns.
    pub w: u32,
    /// The rows.
    pub h: u32,
}

impl Rect {
    /// The rectangle of `w` by `h` pixels at (`x`, `y`).
    pub const fn new(x: u32, y: u32, w: u32, h: u32) -> Rect {
        Rect { x, y, w, h }
    }
}

/// A command of the ring. [`crate::Adapter::submit`] appends it, and [`Command::append_to`] where the ring memory lies elsewhere.
#[derive(Clone, Copy, Debug, PartialEq, Eq, Hash)]
pub enum Command<'a> {
    /// Brings framebuffer pixels to the screen.
    Update(Rect),
    /// Fills.
    RectFill {
        /// The pixel stored, all 32 bits.
        colour: u32,
        /// Where.
        to: Rect,
    },
    /// Copies within the screen. All pixels are read before any is written.
    RectCopy {
        /// The source's left column.
        sx: u32,
        /// The source's top row.
        sy: u32,
        /// The destination.
        to: Rect,
    },
    /// Fills by a raster operation of [`crate::rop`].
    RectRopFill {
        /// The source of the operation.
        colour: u32,
        /// Where.
        to: Rect,
        /// The operation.
        rop: u32,
    },
    /// Copies by a raster operation of [`crate::rop`].
    RectRopCopy {
        /// The source's left column.
        sx: u32,
        /// The source's top row.
        sy: u32,
        /// The destination.
        to: Rect,
        /// The operation.
        rop: u32,
    },
    /// Defines the cursor. It appears where CURSOR_ON shows its id.
    DefineAlphaCursor {
        /// Its id.
        id: u32,
        /// The hotspot's column, below `w`.
        hotx: u32,
        /// The hotspot's row, below `h`.
        hoty: u32,
        /// The columns, 1 to 64.
        w: u32,
        /// The rows, 1 to 64.
        h: u32,
        /// `w · h` pixels, row by row; the top byte is how much of it covers what is below.
        pixels: &'a [u32],
    },
    /// As `Update`.
    UpdateVerbose {
        /// Where.
        area: Rect,
        /// A number with no effect.
        reason: u32,
    },
    /// Stores a number, not 0, that the host can ask for, [`crate::Device::fence`], and that a guest finds in its ring memory where the ring
    /// begins late enough: [`crate::ring::posted_fence`].
    Fence(u32),
    /// Data with no effect.
    Escape {
        /// The namespace.
        namespace: u32,
        /// The bytes, lowest first in each word, the last word filled with zeros.
        data: &'a [u8],
    },
}

impl<'a> Command<'a> {
    /// Appends it to a ring memory by the library's proved writer, all its words or none: [`ring::append_command`].
    ///
    /// # Errors
    ///
    /// As [`ring::append_command`], but that a number and its arguments always fit each other.
    pub fn append_to(&self, ring: &mut [u32]) -> Result<(), Error> {
        ring::append_command(ring, &self.head(), self.pixels(), self.data())
    }

    /// Its words as this crate encodes them, with nothing checked. No command goes this way that the library's writer takes: it is for tests
    /// that append bad ones word by word ([`ring::append`]). Where a cursor's pixels do not number `w · h`, the next command is misread.
    pub fn unchecked_words(&self) -> Vec<u32> {
        let four = |bytes: &[u8]| bytes.iter().rev().fold(0, |word, byte| word << 8 | u32::from(*byte));
        let head = self.head();
        head.into_iter().chain(self.pixels().iter().copied()).chain(self.data().chunks(4).map(four)).collect()
    }

    /// Its number and its arguments.
    fn head(&self) -> Vec<u32> {
        let with = |head: &[u32], r: Rect, tail: &[u32]| [head, &[r.x, r.y, r.w, r.h], tail].concat();
        match *self {
            Command::Update(area) => with(&[cmd::UPDATE], area, &[]),
            Command::RectFill { colour, to } => with(&[cmd::RECT_FILL, colour], to, &[]),
            Command::RectCopy { sx, sy, to } => with(&[cmd::RECT_COPY, sx, sy], to, &[]),
            Command::RectRopFill { colour, to, rop } => with(&[cmd::RECT_ROP_FILL, colour], to, &[rop]),
            Command::RectRopCopy { sx, sy, to, rop } => with(&[cmd::RECT_ROP_COPY, sx, sy], to, &[rop]),
            Command::DefineAlphaCursor { id, hotx, hoty, w, h, .. } => vec![cmd::DEFINE_ALPHA_CURSOR, id, hotx, hoty, w, h],
            Command::UpdateVerbose { area, reason } => with(&[cmd::UPDATE_VERBOSE], area, &[reason]),
            Command::Fence(number) => vec![cmd::FENCE, number],
            Command::Escape { namespace, data } => vec![cmd::ESCAPE, namespace, u32::try_from(data.len()).unwrap_or(u32::MAX)],
        }
    }

    fn pixels(&self) -> &'a [u32] {
        match *self {
            Command::DefineAlphaCursor { pixels, .. } => pixels,
            _ => &[],
        }
    }

    fn data(&self) -> &'a [u8] {
        match *self {
            Command::Escape { data, .. } => data,
            _ => &[],
        }
    }
}

// What follows is for messages alone: whether a command is appended is the library's answer.

/// The words of a command's number and arguments.
fn head_words(number: u32) -> Option<usize> {
    Some(match number {
        cmd::FENCE => 2,
        cmd::ESCAPE => 3,
        cmd::UPDATE => 5,
        cmd::RECT_FILL | cmd::UPDATE_VERBOSE | cmd::DEFINE_ALPHA_CURSOR => 6,
        cmd::RECT_COPY | cmd::RECT_ROP_FILL => 7,
        cmd::RECT_ROP_COPY => 8,
        _ => return None,
    })
}

/// The pixels and the bytes of data that a number with its arguments asks for.
fn asked(head: &[u32]) -> (u64, u64) {
    match *head {
        [cmd::DEFINE_ALPHA_CURSOR, _, _, _, w, h] => (u64::from(w) * u64::from(h), 0),
        [cmd::ESCAPE, _, size] => (0, u64::from(size)),
        _ => (0, 0),
    }
}

/// What made the writer answer 41, in a ring that can hold so many words.
pub(crate) fn flaw(head: &[u32], carries: usize) -> Option<Flaw> {
    let Some(&number) = head.first() else { return Some(Flaw::Empty) };
    let Some(wanted) = head_words(number) else { return Some(Flaw::Number { number }) };
    let side = 1..=limit::CURSOR_SIDE_MAX;
    match *head {
        _ if head.len() != wanted => return Some(Flaw::Words { number, given: head.len(), wanted }),
        [cmd::RECT_ROP_FILL | cmd::RECT_ROP_COPY, .., rop] if rop > rop::SET => return Some(Flaw::Operation { number, rop }),
        [cmd::FENCE, 0] => return Some(Flaw::FenceZero),
        [cmd::DEFINE_ALPHA_CURSOR, _, hotx, hoty, w, h] if !side.contains(&w) || !side.contains(&h) || hotx >= w || hoty >= h => {
            return Some(Flaw::Cursor { w, h, hotx, hoty });
        }
        _ => {}
    }
    let (pixels, bytes) = asked(head);
    let words = head.len() as u64 + pixels + bytes.div_ceil(4);
    (words > carries as u64).then_some(Flaw::TooLong { number, words, carries })
}

/// What made the writer answer 20.
pub(crate) fn wrong_length(head: &[u32], pixels: usize, data: usize) -> Option<Error> {
    let (wanted_pixels, wanted_data) = asked(head);
    [(Memory::Pixels, pixels, wanted_pixels), (Memory::Data, data, wanted_data)]
        .into_iter()
        .find(|&(_, lent, wanted)| lent as u64 != wanted)
        .map(|(memory, lent, wanted)| Error::Length { memory, lent, wanted: wanted as usize })
}
