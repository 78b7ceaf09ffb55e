//! One step of a sequence: a call with all its arguments and lent lengths, or what guest and host do to the memories between calls.
//! A step stands for itself, so that a sequence can be repeated without the generator, and shortened.

use crate::model::writer::Submission;
use std::fmt;

/// The lent lengths of a call, in words. A call uses those that it takes.
#[derive(Clone, Copy, PartialEq, Eq, Debug)]
pub struct Lengths {
    pub device: usize,
    pub ring: usize,
    pub framebuffer: usize,
    pub screen: usize,
    pub cursor: usize,
    pub output: usize,
    pub edges: usize,
}

impl Lengths {
    pub fn of(&self, memory: &str) -> usize {
        match memory {
            "device" => self.device,
            "ring" => self.ring,
            "framebuffer" => self.framebuffer,
            "screen" => self.screen,
            "cursor" => self.cursor,
            "output" => self.output,
            _ => self.edges,
        }
    }
}

#[derive(Clone, PartialEq, Eq, Debug)]
pub enum Step {
    /// New memories with room for so many words, filled from a seed; the device's words are zero.
    Memories {
        ring: usize,
        pixels: usize,
        fill: u64,
    },
    Make {
        lengths: Lengths,
        memory: u32,
        pixels: u32,
    },
    Write {
        lengths: Lengths,
        index: u32,
        value: u32,
    },
    Read {
        lengths: Lengths,
        index: u32,
    },
    Run {
        lengths: Lengths,
        budget: u32,
    },
    Picture {
        lengths: Lengths,
    },
    Offscreen {
        lengths: Lengths,
    },
    Fence {
        lengths: Lengths,
    },
    FencePassed {
        lengths: Lengths,
        fence: u32,
    },
    Append {
        lengths: Lengths,
        word: u32,
    },
    Submit {
        lengths: Lengths,
        submission: Submission,
    },
    /// The guest writes words at NEXT_CMD and moves it on, without looking whether the ring is full.
    Put {
        words: Vec<u32>,
    },
    /// The guest writes ring memory.
    Ring {
        place: usize,
        words: Vec<u32>,
    },
    /// The host writes the device's words.
    Device {
        place: usize,
        words: Vec<u32>,
    },
    /// The guest draws: the framebuffer is filled from a seed.
    Framebuffer {
        fill: u64,
    },
}

impl Step {
    /// The lent lengths, where it is a call.
    pub fn lengths(&self) -> Option<&Lengths> {
        match self {
            Step::Make { lengths, .. }
            | Step::Write { lengths, .. }
            | Step::Read { lengths, .. }
            | Step::Run { lengths, .. }
            | Step::Picture { lengths }
            | Step::Offscreen { lengths }
            | Step::Fence { lengths }
            | Step::FencePassed { lengths, .. }
            | Step::Append { lengths, .. }
            | Step::Submit { lengths, .. } => Some(lengths),
            _ => None,
        }
    }
}

/// Words or bytes of a list, cut short where it is long.
struct Words<'a, T>(&'a [T]);

impl<T: Copy + Into<u32>> fmt::Display for Words<'_, T> {
    fn fmt(&self, out: &mut fmt::Formatter) -> fmt::Result {
        const SHOWN: usize = 64;
        for (place, &word) in self.0.iter().take(SHOWN).enumerate() {
            let (space, word): (_, u32) = (if place == 0 { "" } else { " " }, word.into());
            if word < 1 << 20 {
                write!(out, "{space}{word}")?;
            } else {
                write!(out, "{space}{word:#x}")?;
            }
        }
        if self.0.len() > SHOWN {
            write!(out, " .. ({} in all)", self.0.len())?;
        }
        Ok(())
    }
}

impl fmt::Display for Step {
    fn fmt(&self, out: &mut fmt::Formatter) -> fmt::Result {
        match self {
            Step::Memories { ring, pixels, fill } => {
                write!(out, "memories: ring {ring} words, pixels {pixels}, filled from {fill}")
            }
            Step::Make { lengths: l, memory, pixels } => {
                write!(out, "svga_make(device[{}], memory {memory}, pixels {pixels})", l.device)
            }
            Step::Write { lengths: l, index, value } => {
                write!(out, "svga_write(device[{}], ring[{}], index {index}, value {value:#x})", l.device, l.ring)
            }
            Step::Read { lengths: l, index } => write!(out, "svga_read(device[{}], index {index})", l.device),
            Step::Run { lengths: l, budget } => write!(
                out,
                "svga_run(device[{}], ring[{}], framebuffer[{}], screen[{}], cursor[{}], budget {budget})",
                l.device, l.ring, l.framebuffer, l.screen, l.cursor
            ),
            Step::Picture { lengths: l } => {
                write!(out, "svga_picture(device[{}], screen[{}], cursor[{}], output[{}])", l.device, l.screen, l.cursor, l.output)
            }
            Step::Offscreen { lengths: l } => write!(out, "svga_offscreen(device[{}], edges[{}])", l.device, l.edges),
            Step::Fence { lengths: l } => write!(out, "svga_fence(device[{}])", l.device),
            Step::FencePassed { lengths: l, fence } => {
                write!(out, "svga_fence_passed(device[{}], fence {fence:#x})", l.device)
            }
            Step::Append { lengths: l, word } => write!(out, "svga_append(ring[{}], word {})", l.ring, Words(&[*word])),
            Step::Submit { lengths: l, submission: Submission { head, pixels, bytes } } => write!(
                out,
                "svga_append_command(ring[{}], command[{}] {}, pixels[{}] {}, data[{}] {})",
                l.ring,
                head.len(),
                Words(head),
                pixels.len(),
                Words(pixels),
                bytes.len(),
                Words(bytes)
            ),
            Step::Put { words } => write!(out, "guest puts {}", Words(words)),
            Step::Ring { place, words } => write!(out, "guest writes ring word {place}: {}", Words(words)),
            Step::Device { place, words } => write!(out, "host writes device word {place}: {}", Words(words)),
            Step::Framebuffer { fill } => write!(out, "guest fills the framebuffer from {fill}"),
        }
    }
}
