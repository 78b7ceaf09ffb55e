//! The device as document 01 has it, with what 02's P1, P2, P4 and P5 change, written from their sentences and from nothing else: whole
//! numbers in 64 bits, plain loops over pixels, no speed. The calls are those of the interface for C, on slices.
//!
//! A model may break one `Rule`: the driver has to find each of these.

pub mod device;
pub mod paint;
pub mod picture;
mod registers;
mod rules;
pub mod run;
pub mod writer;

pub use rules::Rule;

use device::{fresh, from_words, sizes_allowed, to_words, Device, DEVICE_WORDS};
use run::Executed;

pub struct Model {
    broken: Option<Rule>,
    /// What the last run executed.
    pub executed: Vec<Executed>,
}

/// A device length other than 64 is 20, looked at first. Words that are not well formed get the call's own answer.
fn device_of(words: &[u32], malformed: u64) -> Result<Device, u64> {
    if words.len() != DEVICE_WORDS {
        return Err(20);
    }
    from_words(words).ok_or(malformed)
}

impl Model {
    pub fn new(broken: Option<Rule>) -> Model {
        Model { broken, executed: Vec::new() }
    }

    fn breaks(&self, rule: Rule) -> bool {
        self.broken == Some(rule)
    }

    pub fn make(&self, device: &mut [u32], memory: u32, pixels: u32) -> u64 {
        if device.len() != DEVICE_WORDS {
            return 20;
        }
        let mut memory_asked = u64::from(memory);
        if self.breaks(Rule::MemoryRoundedDown) {
            memory_asked -= memory_asked % 4;
        }
        // "M is a multiple of 4 from 10,256 to 2,097,152; P is 1 to 4,096,000; otherwise answer 34."
        if !sizes_allowed(memory_asked, u64::from(pixels)) {
            return 34;
        }
        let mut made = fresh(memory_asked, u64::from(pixels));
        if self.breaks(Rule::FreshMode1280By720) {
            (made.width, made.height) = (1280, 720);
        }
        device.copy_from_slice(&to_words(&made));
        0
    }

    pub fn write(&self, device: &mut [u32], ring: &[u32], index: u32, value: u32) -> u64 {
        let mut held = match device_of(device, 30) {
            Ok(held) => held,
            Err(answer) => return answer,
        };
        let answer = self.write_register(&mut held, ring, u64::from(index), u64::from(value));
        device.copy_from_slice(&to_words(&held));
        answer
    }

    pub fn read(&self, device: &[u32], index: u32) -> (u64, u64) {
        match device_of(device, 30) {
            Ok(held) => self.read_register(&held, u64::from(index)),
            Err(answer) => (answer, 0),
        }
    }

    pub fn run(
        &mut self,
        device: &mut [u32],
        ring: &mut [u32],
        framebuffer: &[u32],
        screen: &mut [u32],
        cursor: &mut [u32],
        budget: u32,
    ) -> (u64, u64) {
        self.executed.clear();
        let mut held = match device_of(device, 22) {
            Ok(held) => held,
            Err(answer) => return (answer, 0),
        };
        let result = self.run_device(&mut held, ring, framebuffer, screen, cursor, u64::from(budget));
        device.copy_from_slice(&to_words(&held));
        result
    }

    pub fn picture(&self, device: &[u32], screen: &[u32], cursor: &[u32], output: &mut [u32]) -> u64 {
        match device_of(device, 24) {
            Ok(held) => self.picture_of(&held, screen, cursor, output),
            Err(answer) => answer,
        }
    }

    /// Both lengths are looked at before the words. A refusal leaves the edges.
    pub fn offscreen(&self, device: &[u32], edges: &mut [u32]) -> u64 {
        if device.len() != DEVICE_WORDS || edges.len() != 4 {
            return 20;
        }
        let found = match from_words(device) {
            Some(held) => self.reported_edges(&held),
            None if self.breaks(Rule::OffscreenOfNoDevice) => [0; 4],
            None => return 30,
        };
        for (edge, number) in edges.iter_mut().zip(found) {
            *edge = u32::try_from(number).expect("an edge is a 32-bit number");
        }
        0
    }

    /// "Fence: the last number executed."
    pub fn fence(&self, device: &[u32]) -> (u64, u64) {
        match device_of(device, 30) {
            Ok(held) => (0, held.fence),
            Err(answer) => (answer, 0),
        }
    }

    pub fn fence_passed(&self, device: &[u32], fence: u32) -> (u64, u64) {
        match device_of(device, 30) {
            Ok(held) => (0, u64::from(self.passed(&held, u64::from(fence)))),
            Err(answer) => (answer, 0),
        }
    }
}
