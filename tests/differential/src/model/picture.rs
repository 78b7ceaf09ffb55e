//! The cursor plane and finished pictures.

use super::device::{mode_fits, Device, CURSOR_WORDS};
use super::paint::place;
use super::{Model, Rule};

/// Where a cursor stands in a picture: its top left corner, which may be negative, and its size.
#[derive(Clone, Copy, PartialEq, Eq, Debug)]
pub struct Standing {
    pub left: i64,
    pub top: i64,
    pub w: u64,
    pub h: u64,
}

/// "X and Y are read as signed 32-bit numbers"
fn signed(number: u64) -> i64 {
    if number < 1 << 31 {
        number as i64
    } else {
        number as i64 - (1 << 32)
    }
}

impl Model {
    /// "In a picture the cursor appears if shown and its remembered id is that of the defined cursor." "the top left corner is
    /// position minus hotspot and may be negative"
    pub fn cursor_in_picture(&self, device: &Device) -> Option<Standing> {
        let cursor = device.cursor?;
        if !device.plane.shown {
            return None;
        }
        let id = if self.breaks(Rule::IdAtPicture) { device.cursor_id } else { device.plane.id };
        if id != cursor.id && !self.breaks(Rule::CursorIdNotCompared) {
            return None;
        }
        if self.breaks(Rule::DisabledHidesCursor) && !device.enable {
            return None;
        }
        let (x, y) =
            if self.breaks(Rule::PositionAtPicture) { (device.cursor_x, device.cursor_y) } else { (device.plane.x, device.plane.y) };
        let (x, y) = if self.breaks(Rule::PositionUnsigned) { (x as i64, y as i64) } else { (signed(x), signed(y)) };
        let (hotx, hoty) = if self.breaks(Rule::HotspotIgnored) { (0, 0) } else { (cursor.hotx as i64, cursor.hoty as i64) };
        Some(Standing { left: x - hotx, top: y - hoty, w: cursor.w, h: cursor.h })
    }

    /// "with a the cursor pixel's top byte, each colour is floor((a·cursor + (255 − a)·below + 127) / 255), top byte 0"
    fn blend(&self, cursor: u32, below: u32) -> u32 {
        let byte = |pixel: u32, shift: u32| u64::from(pixel >> shift & 0xFF);
        let a = byte(cursor, 24);
        let half = if self.breaks(Rule::BlendRoundsDown) { 0 } else { 127 };
        let mut pixel = if self.breaks(Rule::TopByteKept) { byte(below, 24) << 24 } else { 0 };
        for shift in [0, 8, 16] {
            let mut colour = (a * byte(cursor, shift) + (255 - a) * byte(below, shift) + half) / 255;
            if self.breaks(Rule::BlendPremultiplied) {
                colour = (byte(cursor, shift) + ((255 - a) * byte(below, shift) + 127) / 255).min(255);
            }
            pixel |= colour << shift;
        }
        pixel as u32
    }

    /// "a picture [checks] 20, 24". "Uncovered pixels equal the screen; output beyond the mode is unchanged."
    pub fn picture_of(&self, device: &Device, screen: &[u32], cursor: &[u32], output: &mut [u32]) -> u64 {
        let lengths_right = screen.len() as u64 == device.pixels
            && (cursor.len() == CURSOR_WORDS || self.breaks(Rule::PictureForgetsCursorLength))
            && output.len() as u64 == device.pixels;
        if self.breaks(Rule::PictureModeBeforeLengths) && !mode_fits(device) {
            return 24;
        }
        if !lengths_right {
            return 20;
        }
        if !mode_fits(device) {
            return 24;
        }
        let standing = self.cursor_in_picture(device);
        for y in 0..device.height {
            for x in 0..device.width {
                let below = screen[place(device.width, x, y)];
                output[place(device.width, x, y)] = match &standing {
                    Some(standing) => match self.covered(standing, x as i64, y as i64) {
                        Some(pixel) => self.blend(cursor[pixel], below),
                        None => below,
                    },
                    None => below,
                };
            }
        }
        if self.breaks(Rule::PictureShowsOffscreen) {
            let (from, to) = (device.width * device.height, device.pixels / device.width * device.width);
            output[from as usize..to as usize].copy_from_slice(&screen[from as usize..to as usize]);
        }
        if self.breaks(Rule::OutputBeyondModeCleared) {
            output[(device.width * device.height) as usize..].fill(0);
        }
        0
    }

    /// The cursor word that covers pixel (x, y), if one does: "Its pixels fill the first w·h cursor words, row by row".
    fn covered(&self, standing: &Standing, x: i64, y: i64) -> Option<usize> {
        let (i, j) = (x - standing.left, y - standing.top);
        if i < 0 || i >= standing.w as i64 || j < 0 || j >= standing.h as i64 {
            return None;
        }
        let row = if self.breaks(Rule::CursorStride64) { 64 } else { standing.w as i64 };
        Some((j * row + i) as usize)
    }
}
