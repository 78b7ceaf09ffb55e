//! Rectangles, raster operations and painters: plain loops over the pixels that a command may reach.

use super::device::Device;
use super::registers::edges;
use super::{Model, Rule};

/// "Rectangles are unsigned"
#[derive(Clone, Copy, PartialEq, Eq, Debug)]
pub struct Rect {
    pub x: u64,
    pub y: u64,
    pub w: u64,
    pub h: u64,
}

/// "Pixel (x, y) stands at y·width + x."
pub fn place(width: u64, x: u64, y: u64) -> usize {
    (y * width + x) as usize
}

/// What a command may reach of the screen: the mode, and what 02's P5 joins to it: a left, top, right and bottom edge, ends excluded.
struct Reach {
    width: u64,
    height: u64,
    offscreen: [u64; 4],
    /// P.
    pixels: u64,
}

impl Reach {
    fn of_mode(device: &Device) -> Reach {
        Reach { width: device.width, height: device.height, offscreen: [0; 4], pixels: device.pixels }
    }

    fn in_mode(&self, x: u64, y: u64) -> bool {
        x < self.width && y < self.height
    }

    /// "the mode joined with P4's rectangle, in the lent screen"
    fn has(&self, x: u64, y: u64) -> bool {
        let [left, top, right, bottom] = self.offscreen;
        let offscreen = left <= x && x < right && top <= y && y < bottom;
        (self.in_mode(x, y) || offscreen) && y * self.width + x < self.pixels
    }

    /// Its pixels, row by row.
    fn places(&self) -> impl Iterator<Item = (u64, u64)> + '_ {
        let rows = self.height.max(self.offscreen[3]);
        (0..rows).flat_map(|y| (0..self.width).map(move |x| (x, y))).filter(|&(x, y)| self.has(x, y))
    }
}

/// A plain fill or copy: the result is the source.
pub const SOURCE: u64 = 3;

const WORD: u64 = 1 << 32;

impl Model {
    /// "x + w is a whole number and never wraps"
    fn end(&self, start: u64, extent: u64) -> u64 {
        if self.breaks(Rule::EndWraps) {
            return (start + extent) % WORD;
        }
        start + extent
    }

    fn inside(&self, rect: &Rect, x: u64, y: u64) -> bool {
        let right = self.end(rect.x, rect.w);
        let bottom = self.end(rect.y, rect.h);
        rect.x <= x && x < right && rect.y <= y && y < bottom
    }

    /// "result bit is bit 0 of the number for source 1, destination 1; bit 1 for 1, 0; bit 2 for 0, 1; bit 3 for 0, 0"
    pub fn raster(&self, operation: u64, source: u32, destination: u32) -> u32 {
        let mut bits = [operation & 1 != 0, operation & 2 != 0, operation & 4 != 0, operation & 8 != 0];
        if self.breaks(Rule::RasterBitsReversed) {
            bits.reverse();
        }
        if self.breaks(Rule::RasterOperandsSwapped) {
            bits.swap(1, 2);
        }
        let mut result = 0;
        if bits[0] {
            result |= source & destination;
        }
        if bits[1] {
            result |= source & !destination;
        }
        if bits[2] {
            result |= !source & destination;
        }
        if bits[3] {
            result |= !source & !destination;
        }
        result
    }

    /// 02's P5: "Commands 2, 3, 13 and 14 may now read and write offscreen rows: they are cut to the mode joined with P4's rectangle, in
    /// the lent screen."
    fn reach(&self, device: &Device, rect: &Rect, kept: Rule) -> Reach {
        let mode = Reach::of_mode(device);
        if self.breaks(kept) || self.breaks(Rule::OffscreenNotCrossed) && rect.y < device.height {
            return mode;
        }
        let [left, top, mut right, mut bottom] = edges(device);
        if self.breaks(Rule::OffscreenColumnsByDepth) {
            right = 4 * device.width / 24;
        }
        if self.breaks(Rule::OffscreenRowMissing) {
            bottom -= 1;
        }
        if self.breaks(Rule::OffscreenAtMost1600) {
            bottom = bottom.min(1600);
        }
        if self.breaks(Rule::OffscreenPartOfRow) {
            bottom = device.pixels.div_ceil(device.width);
        }
        Reach { offscreen: [left, top, right, bottom], ..mode }
    }

    /// Where rows are rounded up, as a wrong model has it, and do not all fit, nothing is painted.
    fn rows_lost(&self, device: &Device) -> bool {
        self.breaks(Rule::OffscreenRoundedUp) && device.pixels % device.width != 0
    }

    /// "an empty one is consumed and paints nothing." "fills and copies act on the screen alone"
    pub fn fill(&self, device: &Device, screen: &mut [u32], colour: u64, rect: &Rect, operation: u64) {
        if self.rows_lost(device) {
            return;
        }
        for (x, y) in self.reach(device, rect, Rule::FillKeepsToMode).places() {
            if self.inside(rect, x, y) {
                let pixel = &mut screen[place(device.width, x, y)];
                *pixel = self.raster(operation, colour as u32, *pixel);
            }
        }
    }

    /// "offset (i, j) moves exactly if both its source and its destination pixel lie" "in the mode or offscreen", "and all sources are read
    /// before any is written". The framebuffer is not looked at.
    pub fn copy(&self, device: &Device, framebuffer: &[u32], screen: &mut [u32], (sx, sy): (u64, u64), rect: &Rect, operation: u64) {
        if self.rows_lost(device) {
            return;
        }
        let reach = self.reach(device, rect, Rule::CopyKeepsToMode);
        let before = screen.to_vec();
        for (x, y) in reach.places() {
            if !self.inside(rect, x, y) || self.breaks(Rule::CopyKeepsItsDestination) && !reach.in_mode(x, y) {
                continue;
            }
            let (mut from_x, mut from_y) = (sx + (x - rect.x), sy + (y - rect.y));
            if self.breaks(Rule::SourceWraps) {
                (from_x, from_y) = (from_x % WORD, from_y % WORD);
            }
            let in_mode = reach.in_mode(from_x, from_y);
            let source_inside = if self.breaks(Rule::CopyKeepsItsSource) { in_mode } else { reach.has(from_x, from_y) };
            let source = if source_inside {
                let from = place(device.width, from_x, from_y);
                let painted_first = self.breaks(Rule::CopyTopDown) && from_y < y
                    || self.breaks(Rule::CopyLeftToRight) && from_y == y
                    || self.breaks(Rule::CopyInTwoParts) && in_mode && !reach.in_mode(x, y);
                if painted_first {
                    screen[from]
                } else if self.breaks(Rule::OffscreenInFramebuffer) && !in_mode {
                    framebuffer[from]
                } else {
                    before[from]
                }
            } else if self.breaks(Rule::CopyForgetsSource) {
                0
            } else {
                continue;
            };
            let to = place(device.width, x, y);
            screen[to] = self.raster(operation, source, before[to]);
        }
    }

    /// "UPDATE brings framebuffer pixels to the screen". 02's P5: "UPDATE and pictures keep to the mode."
    pub fn update(&self, device: &Device, framebuffer: &[u32], screen: &mut [u32], rect: &Rect) {
        let mut reach = Reach::of_mode(device);
        if self.breaks(Rule::UpdateReachesOffscreen) {
            reach.offscreen = edges(device);
        }
        for (x, y) in reach.places() {
            if self.inside(rect, x, y) {
                let at = place(device.width, x, y);
                screen[at] = if self.breaks(Rule::UpdateDropsTopByte) { framebuffer[at] & 0xFF_FFFF } else { framebuffer[at] };
            }
        }
    }
}
