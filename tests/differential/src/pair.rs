//! The library and the model side by side: each step is done to both, then everything is compared.

use crate::counts::{Before, Counts};
use crate::memory::Memory;
use crate::model::device::{from_words, Device, CURSOR_WORDS, DEVICE_WORDS};
use crate::model::writer::Submission;
use crate::model::Model;
use crate::random::Random;
use crate::step::{Lengths, Step};
use svga::sys;

/// Room beyond the right length, so that a longer one can be lent.
const SPARE: usize = 2;

/// Registers that are read after each step; those from 29 on are absent.
const FAR_REGISTERS: [u32; 6] = [1023, 1024, 1791, 0x7FFF_FFFF, 0x8000_0000, 0xFFFF_FFFF];
const NEAR_REGISTERS: u32 = 40;

#[derive(Clone)]
pub struct Memories {
    pub device: Memory,
    pub ring: Memory,
    pub framebuffer: Memory,
    pub screen: Memory,
    pub cursor: Memory,
    pub output: Memory,
    pub edges: Memory,
}

impl Memories {
    fn new(ring: usize, pixels: usize) -> Memories {
        Memories {
            device: Memory::new(DEVICE_WORDS + SPARE),
            ring: Memory::new(ring + SPARE),
            framebuffer: Memory::new(pixels + SPARE),
            screen: Memory::new(pixels + SPARE),
            cursor: Memory::new(CURSOR_WORDS + SPARE),
            output: Memory::new(pixels + SPARE),
            edges: Memory::new(4 + SPARE),
        }
    }

    fn named(&self) -> [(&'static str, &Memory); 7] {
        [
            ("device", &self.device),
            ("ring", &self.ring),
            ("framebuffer", &self.framebuffer),
            ("screen", &self.screen),
            ("cursor", &self.cursor),
            ("output", &self.output),
            ("edges", &self.edges),
        ]
    }

    /// The guest's own append of many words: it looks at nothing but that the words stand in the memory.
    fn put(&mut self, words: &[u32]) {
        let ring = self.ring.all_mut();
        let [min, max, mut next] = [0, 1, 2].map(|place| ring[place] as usize / 4);
        if min < 4 || max > ring.len() || next < min || next >= max {
            return;
        }
        for &word in words {
            ring[next] = word;
            next = if next + 1 == max { min } else { next + 1 };
        }
        ring[2] = 4 * next as u32;
    }
}

/// What a call answered: the answer, and the value or count where it has one.
#[derive(Clone, Copy, PartialEq, Eq, Debug)]
pub struct Answered {
    pub answer: u64,
    pub value: u64,
}

pub struct Pair {
    pub model: Model,
    /// The memories that the library was lent, and the model's.
    library: Memories,
    pub expected: Memories,
    /// Lend blocks of exactly the lent length.
    exact: bool,
}

impl Pair {
    pub fn new(model: Model, exact: bool) -> Pair {
        let memories = Memories::new(4, 1);
        Pair { model, library: memories.clone(), expected: memories, exact }
    }

    /// Ring words 0 to 3: MIN, MAX, NEXT_CMD, STOP.
    pub fn ring_words(&self) -> [u32; 4] {
        std::array::from_fn(|place| self.expected.ring.first(4)[place])
    }

    /// The device as its words now are; none where they are not well formed.
    pub fn device(&self) -> Option<Device> {
        from_words(self.expected.device.first(DEVICE_WORDS))
    }

    /// Does a step to both sides and compares. An error says what differs.
    pub fn step(&mut self, step: &Step, counts: &mut Counts) -> Result<Option<Answered>, String> {
        let before = Before { device: self.device(), ring_words: self.ring_words() };
        let ours = self.model_step(step);
        let theirs = self.library_step(step)?;
        if ours != theirs {
            let [model, library] = [ours, theirs].map(|answered| answered.unwrap_or(Answered { answer: 0, value: 0 }));
            return Err(format!(
                "the library answers {} with value {}, the model {} with value {}",
                library.answer, library.value, model.answer, model.value
            ));
        }
        for ((name, library), (_, model)) in self.library.named().into_iter().zip(self.expected.named()) {
            if let Some((place, theirs, ours)) = library.difference(model) {
                let lent = step.lengths().map_or(0, |lengths| lengths.of(name));
                let beyond = if place < 0 || place >= lent as i64 { ", not among those lent" } else { "" };
                return Err(format!("{name} word {place}{beyond}: the library's is {theirs:#x}, the model's {ours:#x}"));
            }
        }
        self.read_all()?;
        self.read_back(step, ours, &before)?;
        match ours {
            Some(answered) => counts.call(step, answered, &before, self),
            None => counts.between(step),
        }
        Ok(ours)
    }

    fn read_all(&self) -> Result<(), String> {
        let words = self.library.device.first(DEVICE_WORDS);
        for index in (0..=NEAR_REGISTERS).chain(FAR_REGISTERS) {
            let (answer, value) = halves(sys::read(words, index));
            let ours = self.model.read(words, index);
            if (answer, value) != ours {
                return Err(format!("register {index} reads {value:#x} with answer {answer}, the model's {:#x} with {}", ours.1, ours.0));
            }
        }
        Ok(())
    }

    /// A submitted command that was taken stands in the ring as that command.
    fn read_back(&self, step: &Step, answered: Option<Answered>, before: &Before) -> Result<(), String> {
        let (Step::Submit { lengths, submission }, Some(Answered { answer: 0, .. })) = (step, answered) else {
            return Ok(());
        };
        if self.model.reads_back(self.expected.ring.first(lengths.ring), before.ring_words[2], submission) {
            return Ok(());
        }
        Err("the words that were appended do not read back as the command".to_string())
    }

    fn model_step(&mut self, step: &Step) -> Option<Answered> {
        let (model, m) = (&mut self.model, &mut self.expected);
        let alone = |answer| Some(Answered { answer, value: 0 });
        let with = |(answer, value)| Some(Answered { answer, value });
        match step {
            Step::Make { lengths: l, memory, pixels } => alone(model.make(m.device.first_mut(l.device), *memory, *pixels)),
            Step::Write { lengths: l, index, value } => {
                alone(model.write(m.device.first_mut(l.device), m.ring.first(l.ring), *index, *value))
            }
            Step::Read { lengths: l, index } => with(model.read(m.device.first(l.device), *index)),
            Step::Run { lengths: l, budget } => with(model.run(
                m.device.first_mut(l.device),
                m.ring.first_mut(l.ring),
                m.framebuffer.first(l.framebuffer),
                m.screen.first_mut(l.screen),
                m.cursor.first_mut(l.cursor),
                *budget,
            )),
            Step::Picture { lengths: l } => alone(model.picture(
                m.device.first(l.device),
                m.screen.first(l.screen),
                m.cursor.first(l.cursor),
                m.output.first_mut(l.output),
            )),
            Step::Offscreen { lengths: l } => alone(model.offscreen(m.device.first(l.device), m.edges.first_mut(l.edges))),
            Step::Fence { lengths: l } => with(model.fence(m.device.first(l.device))),
            Step::FencePassed { lengths: l, fence } => with(model.fence_passed(m.device.first(l.device), *fence)),
            Step::Append { lengths: l, word } => alone(model.append(m.ring.first_mut(l.ring), *word)),
            Step::Submit { lengths: l, submission } => {
                let device = from_words(m.device.first(DEVICE_WORDS));
                alone(model.submit(m.ring.first_mut(l.ring), submission, device.as_ref()))
            }
            _ => {
                between_calls(m, step);
                None
            }
        }
    }

    fn library_step(&mut self, step: &Step) -> Result<Option<Answered>, String> {
        let (m, exact) = (&mut self.library, self.exact);
        let alone = |answer: u32| Some(Answered { answer: u64::from(answer), value: 0 });
        let with = |both| {
            let (answer, value) = halves(both);
            Some(Answered { answer, value })
        };
        Ok(match step {
            Step::Make { lengths: l, memory, pixels } => alone(sys::make(&mut m.device.lend(l.device, exact), *memory, *pixels)),
            Step::Write { lengths: l, index, value } => {
                alone(sys::write(&mut m.device.lend(l.device, exact), &m.ring.lend(l.ring, exact), *index, *value))
            }
            Step::Read { lengths: l, index } => with(sys::read(&m.device.lend(l.device, exact), *index)),
            Step::Run { lengths: l, budget } => with(sys::run(
                &mut m.device.lend(l.device, exact),
                &mut m.ring.lend(l.ring, exact),
                &m.framebuffer.lend(l.framebuffer, exact),
                &mut m.screen.lend(l.screen, exact),
                &mut m.cursor.lend(l.cursor, exact),
                *budget,
            )),
            Step::Picture { lengths: l } => alone(sys::picture(
                &m.device.lend(l.device, exact),
                &m.screen.lend(l.screen, exact),
                &m.cursor.lend(l.cursor, exact),
                &mut m.output.lend(l.output, exact),
            )),
            Step::Offscreen { lengths: l } => alone(sys::offscreen(&m.device.lend(l.device, exact), &mut m.edges.lend(l.edges, exact))),
            Step::Fence { lengths: l } => with(sys::fence(&m.device.lend(l.device, exact))),
            Step::FencePassed { lengths: l, fence } => with(sys::fence_passed(&m.device.lend(l.device, exact), *fence)),
            Step::Append { lengths: l, word } => alone(sys::append(&mut m.ring.lend(l.ring, exact), *word)),
            Step::Submit { lengths: l, submission } => alone(submit(&mut m.ring.lend(l.ring, exact), submission)?),
            _ => {
                between_calls(m, step);
                None
            }
        })
    }

    /// The right lengths for the device as it now is, as far as there is room.
    pub fn right_lengths(&self) -> Lengths {
        let room = &self.expected;
        let words = room.device.first(2);
        let ring = (words[0] as usize / 4).min(room.ring.room());
        let pixels = (words[1] as usize).min(room.screen.room());
        Lengths { device: DEVICE_WORDS, ring, framebuffer: pixels, screen: pixels, cursor: CURSOR_WORDS, output: pixels, edges: 4 }
    }
}

/// Lends copies of the command's words, pixels and bytes, each a block of exactly its length. They are lent to be read.
fn submit(ring: &mut [u32], submission: &Submission) -> Result<u32, String> {
    let lent = submission.clone();
    let answer = sys::append_command(ring, &lent.head, &lent.pixels, &lent.bytes);
    if lent != *submission {
        return Err("the library changed the command, the pixels or the data that it was lent".to_string());
    }
    Ok(answer)
}

fn halves(both: u64) -> (u64, u64) {
    (both >> 32, both & 0xFFFF_FFFF)
}

/// What happens between calls is the same on both sides.
fn between_calls(memories: &mut Memories, step: &Step) {
    match step {
        Step::Memories { ring, pixels, fill } => {
            *memories = Memories::new(*ring, *pixels);
            let mut random = Random::new(*fill);
            for memory in [
                &mut memories.ring,
                &mut memories.framebuffer,
                &mut memories.screen,
                &mut memories.cursor,
                &mut memories.output,
                &mut memories.edges,
            ] {
                memory.fill(&mut random);
            }
        }
        Step::Put { words } => memories.put(words),
        Step::Ring { place, words } => write_words(memories.ring.all_mut(), *place, words),
        Step::Device { place, words } => write_words(memories.device.all_mut(), *place, words),
        Step::Framebuffer { fill } => memories.framebuffer.fill(&mut Random::new(*fill)),
        _ => unreachable!("a call"),
    }
}

fn write_words(memory: &mut [u32], place: usize, words: &[u32]) {
    for (offset, word) in words.iter().enumerate() {
        if let Some(there) = memory.get_mut(place + offset) {
            *there = *word;
        }
    }
}
