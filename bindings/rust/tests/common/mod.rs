//! A small adapter, as most tests want it.
#![allow(dead_code)]

use svga::{Adapter, Command, Rect};

/// The bytes of the smallest ring memory, and the pixels of a mode of 32 by 32.
pub const MEMORY: u32 = 10_256;
pub const PIXELS: u32 = 1_024;

/// An adapter in mode 32 by 32, enabled and configured.
pub fn started() -> Adapter {
    let mut adapter = Adapter::new(MEMORY, PIXELS).expect("good sizes");
    adapter.start(32, 32).expect("a mode that fits");
    adapter
}

pub fn fill(colour: u32, x: u32, y: u32, w: u32, h: u32) -> Command<'static> {
    Command::RectFill { colour, to: Rect::new(x, y, w, h) }
}

/// Appends words as they are.
pub fn append_all(adapter: &mut Adapter, words: &[u32]) {
    for &word in words {
        adapter.append(word).expect("room in the ring");
    }
}
