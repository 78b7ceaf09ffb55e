//! Random sequences of steps: good, hostile and truncated ones.

use crate::model::device::{mode_fits, Condition, Device, Ring, DEVICE_WORDS};
use crate::pair::Pair;
use crate::random::Random;
use crate::step::{Lengths, Step};
use std::collections::VecDeque;

mod submit;

const TOP: u32 = u32::MAX;
const HALF: u32 = 1 << 31;

/// Numbers that are on some edge or other.
const EDGES: [u32; 28] = [
    0,
    1,
    2,
    3,
    4,
    5,
    8,
    10,
    13,
    15,
    16,
    17,
    28,
    63,
    64,
    65,
    1600,
    1601,
    2560,
    2561,
    10_239,
    10_240,
    10_256,
    HALF - 1,
    HALF,
    HALF + 1,
    TOP - 3,
    TOP,
];

/// Words of a ring that a cursor 64 wide and 1 high fits.
const LEAST_SEEN: u32 = 100;

pub struct Generator {
    random: Random,
    queue: VecDeque<Step>,
    /// Plans that are still to be made.
    left: u64,
    /// Device words kept from earlier.
    saved: Vec<Vec<u32>>,
    /// Pixels are many: commands are few.
    large: bool,
}

/// The ring words as a guest sees them, where they describe a ring in the memory.
struct Seen {
    min: u32,
    max: u32,
    next: u32,
    stop: u32,
}

impl Seen {
    fn holds(&self) -> u32 {
        (self.max - self.min) / 4
    }

    fn free(&self) -> u32 {
        let size = self.max - self.min;
        (size + self.stop - self.next - 4) % size / 4
    }
}

impl Generator {
    pub fn new(seed: u64) -> Generator {
        let mut generator = Generator { random: Random::new(seed), queue: VecDeque::new(), left: 0, saved: Vec::new(), large: false };
        generator.begin();
        generator
    }

    /// The next step; none at the sequence's end.
    pub fn next(&mut self, pair: &Pair) -> Option<Step> {
        if self.queue.is_empty() && self.left > 0 {
            self.left -= 1;
            match pair.device() {
                Some(device) => self.plan(pair, &device),
                None => self.plan_on_malformed(pair),
            }
        }
        self.queue.pop_front()
    }

    fn push(&mut self, step: Step) {
        self.queue.push_back(step);
    }

    // ---- the start

    fn begin(&mut self) {
        let r = &mut self.random;
        self.large = r.chance(1, 2500);
        let middle = !self.large && r.chance(1, 60);
        self.left = r.between(40, 80);
        if middle {
            self.left = 12;
        }
        if self.large {
            self.left = 16;
        }
        let pixels = if self.large {
            r.of(&[4_096_000, 2_560_007, 1_500_000, 1_000_003])
        } else if middle {
            r.between(3000, 60_000)
        } else {
            match r.below(10) {
                0 => r.between(1, 24),
                1..=2 => r.between(9, 100),
                3..=7 => r.between(100, 600),
                _ => r.between(600, 2500),
            }
        };
        let memory = 4 * if self.large || r.chance(1, 400) {
            r.of(&[524_288, 524_287, 200_000])
        } else {
            match r.below(10) {
                0..=2 => 2564,
                3..=6 => 2564 + r.below(60),
                7..=8 => r.between(4100, 5000),
                _ => r.between(2564, 8000),
            }
        };
        let fill = r.next();
        self.push(Step::Memories { ring: memory as usize / 4, pixels: pixels as usize, fill });
        let lengths = Lengths { device: DEVICE_WORDS, ring: 0, framebuffer: 0, screen: 0, cursor: 0, output: 0, edges: 0 };
        if self.random.chance(1, 8) {
            self.bad_make(lengths, memory as u32, pixels as u32);
        }
        self.push(Step::Make { lengths, memory: memory as u32, pixels: pixels as u32 });
        if self.large {
            let width = self.random.of(&[2560, 2559, 2048, 1]);
            let height = (pixels as u32 / width).min(1600) / self.random.of(&[1, 2]);
            self.push(Step::Write { lengths, index: 2, value: width });
            self.push(Step::Write { lengths, index: 3, value: height });
        }
    }

    /// M or P on the wrong side of an edge, or a wrong device length.
    fn bad_make(&mut self, mut lengths: Lengths, mut memory: u32, mut pixels: u32) {
        let r = &mut self.random;
        match r.below(4) {
            0 => memory = r.of(&[0, 4, 10_252, 10_255, 10_257, 10_258, 2_097_151, 2_097_153, 2_097_156, HALF, TOP - 3, TOP]),
            1 => pixels = r.of(&[0, 4_096_001, HALF, TOP]),
            2 => memory += r.of(&[1, 2, 3]),
            _ => lengths.device = r.of(&[0, 63, 65]),
        }
        self.push(Step::Make { lengths, memory, pixels });
    }

    // ---- lent lengths

    /// The right lengths; now and then one of them is wrong, mostly by one.
    fn lengths(&mut self, pair: &Pair) -> Lengths {
        let r = &mut self.random;
        let mut lengths = pair.right_lengths();
        if !r.chance(1, 25) {
            return lengths;
        }
        let room = &pair.expected;
        let (length, most) = match r.below(7) {
            0 => (&mut lengths.device, room.device.room()),
            1 => (&mut lengths.ring, room.ring.room()),
            2 => (&mut lengths.framebuffer, room.framebuffer.room()),
            3 => (&mut lengths.screen, room.screen.room()),
            4 => (&mut lengths.cursor, room.cursor.room()),
            5 => (&mut lengths.output, room.output.room()),
            _ => (&mut lengths.edges, room.edges.room()),
        };
        *length = match r.below(8) {
            0..=2 => length.saturating_sub(1),
            3..=5 => (*length + 1).min(most),
            6 => 0,
            _ => r.below(1 + *length as u64) as usize,
        };
        lengths
    }

    // ---- calls

    fn write(&mut self, pair: &Pair, index: u32, value: u32) {
        let lengths = self.lengths(pair);
        self.push(Step::Write { lengths, index, value });
    }

    /// A write with a ring of the wrong length, at which only CONFIG_DONE 1 looks.
    fn write_with_wrong_ring(&mut self, pair: &Pair, index: u32, value: u32) {
        let mut lengths = pair.right_lengths();
        lengths.ring -= self.random.of(&[1, 4, lengths.ring]).min(lengths.ring);
        self.push(Step::Write { lengths, index, value });
    }

    /// A write with the right lengths.
    fn write_rightly(&mut self, pair: &Pair, index: u32, value: u32) {
        self.push(Step::Write { lengths: pair.right_lengths(), index, value });
    }

    fn run(&mut self, pair: &Pair) {
        let lengths = self.lengths(pair);
        let r = &mut self.random;
        let budget = match r.below(20) {
            0..=1 => 0,
            2..=5 => 1,
            6..=9 => r.between(2, 5) as u32,
            10..=11 => 100,
            12 => r.word(),
            13 => HALF,
            _ => TOP,
        };
        self.push(Step::Run { lengths, budget });
    }

    fn picture(&mut self, pair: &Pair) {
        let lengths = self.lengths(pair);
        self.push(Step::Picture { lengths });
    }

    fn small_question(&mut self, pair: &Pair) {
        let lengths = self.lengths(pair);
        let fence = pair.expected.device.first(DEVICE_WORDS)[22];
        let r = &mut self.random;
        let step = match r.below(4) {
            0 => Step::Offscreen { lengths },
            1 => Step::Fence { lengths },
            2 => {
                let back = match r.below(4) {
                    0 => r.between(0, 3) as u32,
                    1 => TOP - r.between(0, 3) as u32,
                    2 => HALF - 2 + r.between(0, 4) as u32,
                    _ => r.word(),
                };
                Step::FencePassed { lengths, fence: fence.wrapping_sub(back) }
            }
            _ => Step::Read { lengths, index: if r.chance(1, 2) { r.between(0, 32) as u32 } else { r.word() } },
        };
        self.push(step);
    }

    fn append(&mut self, pair: &Pair, word: u32) {
        let lengths = self.lengths(pair);
        self.push(Step::Append { lengths, word });
    }

    /// Any call at all.
    fn any_call(&mut self, pair: &Pair) {
        match self.random.below(11) {
            0..=1 => {
                let (index, value) = (self.random.between(0, 30) as u32, self.value());
                self.write(pair, index, value);
            }
            2..=4 => self.run(pair),
            5..=6 => self.picture(pair),
            7 => {
                let word = self.value();
                self.append(pair, word);
            }
            8 => self.submit_any(pair),
            _ => self.small_question(pair),
        }
    }

    /// A number, often an edge.
    fn value(&mut self) -> u32 {
        match self.random.below(4) {
            0 => self.random.word(),
            1 => self.random.below(70) as u32,
            _ => self.random.of(&EDGES),
        }
    }

    // ---- plans

    fn plan(&mut self, pair: &Pair, device: &Device) {
        let running = matches!(device.condition, Condition::Running(_));
        let ready = running && device.enable && mode_fits(device);
        if matches!(device.condition, Condition::Faulted(_)) && self.random.chance(1, 12) {
            return self.refusals(pair);
        }
        if !ready && (self.large || self.random.chance(13, 20)) {
            return self.repair(pair, device);
        }
        if self.large && self.random.chance(1, 2) {
            return self.commands(pair, device);
        }
        match self.random.below(106) {
            0..=47 => self.commands(pair, device),
            48..=49 => self.fences(pair, device),
            50..=56 => self.run(pair),
            57..=61 => self.picture(pair),
            62..=66 => self.show_cursor(pair, device),
            67..=72 => self.registers(pair),
            73..=76 => {
                let value = self.value();
                self.write(pair, 21, value);
            }
            77..=81 => self.small_question(pair),
            82..=85 => self.ring_words(pair, device),
            86..=88 => self.scramble(pair),
            89..=90 => self.refusals(pair),
            91..=92 => self.fill_ring(pair),
            93..=94 => self.mode(pair, device),
            95..=96 => {
                let fill = self.random.next();
                self.push(Step::Framebuffer { fill });
            }
            97 => self.configure(pair, device),
            100..=105 => self.submits(pair, device),
            98 => match self.random.below(3) {
                0 => self.push(Step::Make { lengths: pair.right_lengths(), memory: device.memory as u32, pixels: device.pixels as u32 }),
                1 => self.make_again(pair),
                _ => self.bad_make(pair.right_lengths(), device.memory as u32, device.pixels as u32),
            },
            _ => self.restore(pair),
        }
    }

    /// What leads back to a device that runs, or tries to.
    fn repair(&mut self, pair: &Pair, device: &Device) {
        if !mode_fits(device) {
            self.mode(pair, device);
        }
        if !device.enable {
            self.write(pair, 1, 1);
        }
        if !matches!(device.condition, Condition::Running(_)) {
            self.configure(pair, device);
        }
    }

    /// A mode, mostly one that fits, and often with fewer rows than there are pixels for: the others are offscreen.
    fn mode(&mut self, pair: &Pair, device: &Device) {
        let pixels = device.pixels;
        let r = &mut self.random;
        let mut width = match r.below(6) {
            0 => pixels.min(2560),
            1 => 1,
            2 => r.between(1, pixels.min(2560)),
            _ => {
                let root = (1..).find(|side| side * side > pixels).unwrap_or(1);
                r.between(1 + root / 3, 2 * root).min(2560)
            }
        };
        let mut height = (pixels / width).clamp(1, 1600);
        match r.below(12) {
            0 => height = (height + 1).min(1600),
            1 => width = (width + 1).min(2560),
            2 => height -= height.min(2) - 1,
            3..=6 => height = r.between(1, height),
            _ => {}
        }
        if r.chance(1, 2) {
            self.write(pair, 2, width as u32);
            self.write(pair, 3, height as u32);
        } else {
            self.write(pair, 3, height as u32);
            self.write(pair, 2, width as u32);
        }
    }

    /// Ring words and CONFIG_DONE 1; now and then refused ones.
    fn configure(&mut self, pair: &Pair, device: &Device) {
        if self.random.chance(1, 12) {
            // The ring as it stands: a fault comes up again.
            return self.write(pair, 20, 1);
        }
        let mut words = self.good_ring(device.memory as u32);
        if self.random.chance(1, 6) {
            self.spoil_ring(&mut words, device.memory as u32);
        }
        self.push(Step::Ring { place: 0, words: words.to_vec() });
        self.write(pair, 20, 1);
        if self.random.chance(1, 16) {
            self.append(pair, 30);
        }
    }

    /// Ring words that are accepted: MIN often 16 to 32, STOP often near the end, NEXT_CMD mostly at STOP.
    fn good_ring(&mut self, memory: u32) -> [u32; 4] {
        let r = &mut self.random;
        let slack = u64::from(memory - 10_256) / 4;
        let most = r.of(&[4, 4, 8, slack, slack]).min(slack);
        let min = 16 + 4 * r.below(most + 1) as u32;
        let least = min + 10_240;
        let max = match r.below(3) {
            0 => least,
            1 => memory,
            _ => least + 4 * r.below(u64::from(memory - least) / 4 + 1) as u32,
        };
        let stop = match r.below(4) {
            0 => min,
            1 => min + 4 * r.below(u64::from(max - min) / 4) as u32,
            _ => max - 4 * r.between(1, 60) as u32,
        };
        let next = if r.chance(1, 12) { min + 4 * r.below(u64::from(max - min) / 4) as u32 } else { stop };
        [min, max, next, stop]
    }

    /// Changes a ring word to one that is on an edge, or beyond.
    fn spoil_ring(&mut self, words: &mut [u32; 4], memory: u32) {
        let [min, max, ..] = *words;
        let r = &mut self.random;
        let place = r.below(4) as usize;
        words[place] = match r.below(10) {
            0 => words[place].wrapping_add(r.of(&[1, 2, 3])),
            1 => 12,
            2 => max,
            3 => min.wrapping_sub(4),
            4 => max.wrapping_sub(4),
            5 => memory + 4,
            6 => memory,
            7 => words[place].wrapping_sub(4),
            8 => r.of(&EDGES),
            _ => r.word(),
        };
    }

    /// The guest rewrites NEXT_CMD or another of the four words between runs.
    fn ring_words(&mut self, pair: &Pair, device: &Device) {
        let right = pair.ring_words();
        let mut words = right;
        match device.condition {
            Condition::Running(Ring { max, .. }) if self.random.chance(1, 2) => {
                // A usable one, but not the one remembered.
                let slack = device.memory as u32 - 10_256;
                match self.random.below(4) {
                    0 if slack > 0 => words[0] = words[0].wrapping_add(4),
                    1 if slack > 0 => words[1] = words[1].wrapping_add(4),
                    2 if slack > 0 => words[1] = words[1].wrapping_sub(4),
                    _ if u64::from(words[3]) + 8 <= max => words[3] += 4,
                    _ => words[3] = words[3].wrapping_sub(8),
                }
            }
            _ => self.spoil_ring(&mut words, device.memory as u32),
        }
        self.push(Step::Ring { place: 0, words: words.to_vec() });
        match self.random.below(5) {
            0 => self.append(pair, 30),
            1 => self.write(pair, 20, 1),
            2 => {
                let words = self.fence(device);
                self.submit(pair, &words);
            }
            _ => {}
        }
        self.run(pair);
        if self.random.chance(1, 2) {
            self.run(pair);
        }
        if let Condition::Running(ring) = device.condition {
            self.push(Step::Ring { place: 0, words: vec![ring.min as u32, ring.max as u32] });
        }
    }

    fn registers(&mut self, pair: &Pair) {
        for _ in 0..self.random.between(1, 4) {
            let r = &mut self.random;
            let index = match r.below(10) {
                0 => r.of(&[29, 30, 40, 1023, 1024, 1791, HALF, TOP]),
                1..=2 => r.of(&[24, 25, 26, 27]),
                _ => r.below(29) as u32,
            };
            let value = match (index, r.below(3)) {
                (0, 0..=1) => 0x8FFF_FFFE + r.below(6) as u32,
                (1 | 20, 0..=1) => r.of(&[0, 1, 1, 2]),
                (2, 0) => r.of(&[0, 1, 2560, 2561]),
                (3, 0) => r.of(&[0, 1, 1600, 1601]),
                (27, 0..=1) => r.below(5) as u32,
                (7 | 28, 0..=1) => r.of(&[8, 16, 24, 32]),
                _ => self.value(),
            };
            self.write(pair, index, value);
        }
    }

    /// Several things that each refuse a run, then a run: their order shows.
    fn refusals(&mut self, pair: &Pair) {
        if self.random.chance(1, 2) {
            self.write_rightly(pair, 21, 0);
        }
        for _ in 0..self.random.between(1, 3) {
            match self.random.below(5) {
                0 => self.write_rightly(pair, 1, 0),
                1 => self.write_rightly(pair, 20, 0),
                2 => self.write_rightly(pair, 2, 2560),
                3 => {
                    let index = self.random.of(&[1, 3, 20, 20, 21, 27]);
                    self.write_with_wrong_ring(pair, index, 0);
                }
                _ => self.write_rightly(pair, 3, 1600),
            }
        }
        self.run(pair);
        self.picture(pair);
        self.push(Step::Offscreen { lengths: pair.right_lengths() });
    }

    /// Shows the cursor near the mode, asks for a picture, moves it without showing it anew.
    fn show_cursor(&mut self, pair: &Pair, device: &Device) {
        let id = device.cursor.map_or(0, |cursor| cursor.id as u32);
        let id = if self.random.chance(1, 6) { id.wrapping_add(1) } else { id };
        self.write(pair, 24, id);
        for (index, edge) in [(25, device.width), (26, device.height)] {
            let position = self.position(edge);
            self.write(pair, index, position);
        }
        let on = if self.random.chance(4, 5) { 1 } else { self.random.below(4) as u32 };
        self.write(pair, 27, on);
        self.picture(pair);
        if self.random.chance(1, 2) {
            let index = self.random.of(&[24, 25, 26]);
            let position = self.position(device.width);
            self.write(pair, index, position);
            self.picture(pair);
        }
        if self.random.chance(1, 6) {
            let on = self.random.of(&[0, 2, 3]);
            self.write(pair, 27, on);
            self.picture(pair);
        }
    }

    /// A cursor position around 0 to `edge`.
    fn position(&mut self, edge: u64) -> u32 {
        match self.random.below(8) {
            0 => self.value(),
            1 => (self.random.between(0, 66) as u32).wrapping_neg(),
            2 => edge as u32 + self.random.below(66) as u32,
            3 => self.random.between(0, 3) as u32,
            _ => self.random.between(0, edge) as u32,
        }
    }

    // ---- device words

    fn save(&mut self, pair: &Pair) {
        self.saved.push(pair.expected.device.first(DEVICE_WORDS).to_vec());
        if self.saved.len() > 4 {
            self.saved.remove(0);
        }
    }

    fn restore(&mut self, pair: &Pair) {
        if self.saved.is_empty() {
            return self.save_and_ask(pair);
        }
        let place = self.random.below(self.saved.len() as u64) as usize;
        let words = self.saved[place].clone();
        self.push(Step::Device { place: 0, words });
        self.any_call(pair);
    }

    fn save_and_ask(&mut self, pair: &Pair) {
        self.save(pair);
        self.small_question(pair);
    }

    fn make_again(&mut self, pair: &Pair) {
        let r = &mut self.random;
        let memory = 4 * r.between(2564, pair.expected.ring.room() as u64) as u32;
        let pixels = r.between(1, pair.expected.screen.room() as u64) as u32;
        self.push(Step::Make { lengths: pair.right_lengths(), memory, pixels });
    }

    /// Changes device words: one, some that belong together, or all.
    fn scramble(&mut self, pair: &Pair) {
        self.save(pair);
        let words = pair.expected.device.first(DEVICE_WORDS).to_vec();
        let step = match self.random.below(20) {
            0 => Step::Device { place: 0, words: vec![0; DEVICE_WORDS] },
            1 => Step::Device { place: 0, words: (0..DEVICE_WORDS).map(|_| self.random.word()).collect() },
            2 => Step::Device { place: 24, words: vec![self.random.between(10, 13) as u32, 0, 0, 0] },
            3 => Step::Device { place: 16, words: vec![0; 6] },
            4 => {
                let (w, h) = (self.random.between(1, 64) as u32, self.random.between(1, 64) as u32);
                Step::Device { place: 16, words: vec![1, 0, w - 1, 0, w, h] }
            }
            5 => {
                let [min, max, _, stop] = self.good_ring(words[0].clamp(10_256, 2_097_152) / 4 * 4);
                Step::Device { place: 24, words: vec![1, min / 4, max / 4, stop / 4] }
            }
            _ => {
                let place = if self.random.chance(1, 12) { self.random.below(64) } else { self.random.below(29) } as usize;
                let old = words[place];
                let word = match self.random.below(6) {
                    0 => old.wrapping_add(1),
                    1 => old.wrapping_sub(1),
                    2 => self.random.below(15) as u32,
                    3 => self.random.word(),
                    _ => match place {
                        0 => self.random.of(&[10_252, 10_256, 2_097_152, 2_097_156, old ^ 4]),
                        1 => self.random.of(&[0, 1, 4_096_000, 4_096_001, old.wrapping_add(1)]),
                        25..=27 => self.random.of(&[words[25], words[26], words[0] / 4, 3, 4, words[26].wrapping_sub(2560)]),
                        _ => self.random.of(&EDGES),
                    },
                };
                Step::Device { place, words: vec![word] }
            }
        };
        self.push(step);
        self.any_call(pair);
    }

    /// Every call has an answer for words that are no device; then good words again.
    fn plan_on_malformed(&mut self, pair: &Pair) {
        for _ in 0..self.random.below(4) {
            self.any_call(pair);
        }
        match self.saved.last() {
            Some(words) if self.random.chance(9, 10) => {
                let words = words.clone();
                self.push(Step::Device { place: 0, words });
            }
            _ => self.make_again(pair),
        }
    }

    // ---- commands

    /// What the guest sees in ring words 0 to 3; none where it is no ring in the memory, or too small for any cursor.
    fn seen(&self, pair: &Pair) -> Option<Seen> {
        let [min, max, next, stop] = pair.ring_words();
        let inside = |word: u32| word % 4 == 0 && min <= word && word < max;
        let sane = min % 4 == 0 && max % 4 == 0 && min >= 16 && max as usize <= 4 * pair.expected.ring.room();
        (sane && max / 4 > min / 4 + LEAST_SEEN && inside(next) && inside(stop)).then_some(Seen { min, max, next, stop })
    }

    /// Some commands, by one way or another, and runs between them.
    fn commands(&mut self, pair: &Pair, device: &Device) {
        let Some(seen) = self.seen(pair) else {
            return self.configure(pair, device);
        };
        let mut free = seen.free() as usize;
        for _ in 0..self.random.between(1, if self.large { 2 } else { 6 }) {
            let words = self.command(device, &seen);
            if words.len() > free && !self.random.chance(1, 20) {
                break;
            }
            free = free.saturating_sub(words.len());
            let most = words.len() as u64;
            match self.random.below(16) {
                0..=1 if most > 1 => {
                    // In part, the rest later.
                    let rest = words[self.random.between(1, most - 1) as usize..].to_vec();
                    let part = words[..words.len() - rest.len()].to_vec();
                    self.push(Step::Put { words: part });
                    self.run(pair);
                    if self.random.chance(1, 3) {
                        self.any_call(pair);
                    }
                    self.push(Step::Put { words: rest });
                }
                2..=4 if most < 20 => {
                    for word in words {
                        self.append(pair, word);
                    }
                }
                5..=7 => self.submit(pair, &words),
                _ => self.push(Step::Put { words }),
            }
            if self.random.chance(1, 6) {
                self.write(pair, 21, 1);
            }
            if self.random.chance(1, 3) {
                self.run(pair);
            }
        }
        self.run(pair);
    }

    /// Fences, and few other commands, often at the ring's end; before they run the guest may rewrite ring word 0, which does not change
    /// where fences are posted, and ring word 6.
    fn fences(&mut self, pair: &Pair, device: &Device) {
        let mut min = pair.ring_words()[0];
        if self.random.chance(1, 2) {
            let ring = self.good_ring(device.memory as u32);
            let stop = ring[1] - 4 * self.random.between(1, 5) as u32;
            min = ring[0];
            self.push(Step::Ring { place: 0, words: vec![min, ring[1], stop, stop] });
            self.write(pair, 20, 1);
        }
        for _ in 0..self.random.between(1, 3) {
            let words = if self.random.chance(1, 5) { vec![2, self.random.word(), 0, 0, 1, 1] } else { self.fence(device) };
            self.push(Step::Put { words });
        }
        if self.random.chance(1, 3) {
            let word = self.value();
            self.push(Step::Ring { place: 6, words: vec![word] });
        }
        let rewritten = self.random.chance(1, 2);
        if rewritten {
            let word = self.random.of(&[0, 16, 20, 24, 25, 27, 28, 29, 32, HALF, TOP]);
            self.push(Step::Ring { place: 0, words: vec![word] });
        }
        self.run(pair);
        if self.random.chance(1, 2) {
            self.run(pair);
        }
        if rewritten {
            self.push(Step::Ring { place: 0, words: vec![min] });
        }
    }

    /// An ESCAPE that leaves few words free or none, and appends until one is refused.
    fn fill_ring(&mut self, pair: &Pair) {
        let Some(seen) = self.seen(pair) else {
            return self.any_call(pair);
        };
        let left = self.random.below(3) as u32;
        let Some(data) = seen.free().checked_sub(left + 3) else {
            return self.run(pair);
        };
        let mut words = vec![33, self.random.word(), 4 * data];
        words.resize(3 + data as usize, 30);
        self.push(Step::Put { words });
        for _ in 0..4 {
            let word = self.random.of(&[30, 30, 1, 2, TOP]);
            self.append(pair, word);
        }
        self.run(pair);
        self.append(pair, 30);
    }

    fn command(&mut self, device: &Device, seen: &Seen) -> Vec<u32> {
        let number = match self.random.below(100) {
            0..=9 => 1,
            10..=15 => 25,
            16..=27 => 2,
            28..=41 => 13,
            42..=53 => 3,
            54..=79 => 14,
            80..=86 => 30,
            87..=93 => 22,
            94..=97 => 33,
            _ => return self.foreign(),
        };
        self.command_of(number, device, seen)
    }

    /// A command of an offered number.
    fn command_of(&mut self, number: u32, device: &Device, seen: &Seen) -> Vec<u32> {
        match number {
            1 => {
                let rect = self.rect(device, 3);
                [&[1][..], &rect].concat()
            }
            25 => {
                let rect = self.rect(device, 3);
                let reason = self.value();
                [&[25][..], &rect, &[reason]].concat()
            }
            2 => {
                let rect = self.rect(device, 6);
                let colour = self.colour();
                [&[2, colour][..], &rect].concat()
            }
            13 => {
                let rect = self.rect(device, 6);
                let (colour, operation) = (self.colour(), self.operation());
                [&[13, colour][..], &rect, &[operation]].concat()
            }
            3 => [&[3][..], &self.move_of(device)].concat(),
            14 => {
                let operation = self.operation();
                [&[14][..], &self.move_of(device), &[operation]].concat()
            }
            22 => self.cursor(seen),
            33 => self.escape(seen),
            _ => self.fence(device),
        }
    }

    fn fence(&mut self, device: &Device) -> Vec<u32> {
        let number = match self.random.below(4) {
            _ if self.random.chance(1, 40) => 0,
            0 => (device.fence as u32).wrapping_add(1),
            1 => (device.fence as u32).max(1),
            2 => self.random.word(),
            _ => self.value(),
        };
        vec![30, number]
    }

    fn colour(&mut self) -> u32 {
        match self.random.below(6) {
            0 => self.value(),
            _ => self.random.word(),
        }
    }

    fn operation(&mut self) -> u32 {
        if self.random.chance(1, 60) {
            return self.random.of(&[16, 17, 31, 32, HALF, TOP]);
        }
        self.random.below(16) as u32
    }

    /// The rows that a rectangle goes by: the mode's or, so many times in ten, all that the screen has.
    fn rows(&mut self, device: &Device, all: u64) -> u32 {
        let rows = if self.random.chance(all, 10) { device.pixels / device.width } else { device.height };
        rows.max(1) as u32
    }

    /// A row, now and then one where the mode ends.
    fn row(&mut self, device: &Device, edge: u32) -> u32 {
        if self.random.chance(1, 8) {
            return (device.height as u32).saturating_sub(2) + self.random.below(4) as u32;
        }
        self.coordinate(edge)
    }

    /// A coordinate: mostly before the edge, else at it or far away.
    fn coordinate(&mut self, edge: u32) -> u32 {
        let r = &mut self.random;
        match r.below(24) {
            0..=1 => r.of(&[0, 1, edge.saturating_sub(1), edge, edge + 1]),
            2 => r.of(&[HALF, HALF - 1, HALF + 1, TOP, TOP - 1, TOP - edge, 0u32.wrapping_sub(edge)]),
            _ => r.below(u64::from(edge)) as u32,
        }
    }

    /// An extent: mostly one that ends before the edge, else one that ends at it, is empty, or is very large.
    fn extent(&mut self, start: u32, edge: u32) -> u32 {
        let r = &mut self.random;
        let left = edge.saturating_sub(start);
        match r.below(16) {
            0..=1 => r.of(&[0, 1, left.saturating_sub(1), left, left + 1]),
            2 => r.of(&[
                edge.saturating_sub(1),
                edge,
                edge + 1,
                HALF,
                TOP,
                TOP - edge,
                0u32.wrapping_sub(start),
                1u32.wrapping_sub(start),
                edge.wrapping_sub(start),
            ]),
            3..=5 => r.between(1, u64::from(edge)) as u32,
            _ => 1 + r.below(u64::from(left.max(1))) as u32,
        }
    }

    fn rect(&mut self, device: &Device, all: u64) -> [u32; 4] {
        let (width, rows) = (device.width as u32, self.rows(device, all));
        let (x, y) = (self.coordinate(width), self.row(device, rows));
        [x, y, self.extent(x, width), self.extent(y, rows)]
    }

    /// Source, destination and size of a copy: mostly near each other, so that they overlap.
    fn move_of(&mut self, device: &Device) -> [u32; 6] {
        let (width, rows) = (device.width as u32, self.rows(device, 6));
        let (sx, sy) = (self.coordinate(width), self.row(device, rows));
        let (dx, dy) = match self.random.below(10) {
            0..=1 => (self.coordinate(width), self.row(device, rows)),
            2 => (self.near(sx, width), self.row(device, rows)),
            _ => (self.near(sx, width), self.near(sy, rows)),
        };
        [sx, sy, dx, dy, self.extent(sx.min(dx), width), self.extent(sy.min(dy), rows)]
    }

    fn near(&mut self, place: u32, edge: u32) -> u32 {
        let distance = if self.random.chance(3, 4) { self.random.between(0, 2) } else { self.random.below(u64::from(edge)) } as u32;
        if self.random.chance(1, 2) {
            place.saturating_sub(distance)
        } else {
            place.saturating_add(distance)
        }
    }

    fn cursor(&mut self, seen: &Seen) -> Vec<u32> {
        let r = &mut self.random;
        let carried = seen.holds() - 1;
        let (mut w, mut h) = match r.below(5) {
            0 => (r.between(1, 64) as u32, r.between(1, 64) as u32),
            1 => (r.between(1, 64) as u32, r.between(1, 3) as u32),
            2 => (r.between(1, 3) as u32, r.between(1, 64) as u32),
            _ => (r.between(1, 9) as u32, r.between(1, 9) as u32),
        };
        let too_long = r.chance(1, 12);
        while 6 + w * h > carried && !too_long {
            h -= 1;
        }
        let (mut hotx, mut hoty) = (r.below(u64::from(w)) as u32, r.below(u64::from(h)) as u32);
        let id = if r.chance(1, 6) { self.random.of(&EDGES) } else { self.random.below(3) as u32 };
        let mut bad = self.random.chance(1, 14);
        if bad {
            let number = self.random.of(&[0, 64, 65, 66, HALF, TOP]);
            match self.random.below(6) {
                0 => w = number,
                1 => h = number,
                2 => hotx = w,
                3 => hoty = h,
                4 => (w, h) = (65, 64),
                _ => hotx = number,
            }
            bad = w > 64 || h > 64;
        }
        let mut words = vec![22, id, hotx, hoty, w, h];
        if bad || 6 + w * h > carried {
            // A fault is judged by the head: its pixels may be there, in part.
            let there = self.random.of(&[0, 1, 70]);
            words.extend((0..there).map(|_| 30));
            return words;
        }
        let opaque = self.random.chance(1, 4);
        for _ in 0..w * h {
            let pixel = self.random.word();
            words.push(if opaque { pixel | 0xFF00_0000 } else { pixel });
        }
        words
    }

    fn escape(&mut self, seen: &Seen) -> Vec<u32> {
        let most = 4 * (seen.holds() - 4);
        let r = &mut self.random;
        let size = match r.below(10) {
            0 => r.of(&[most - 4, most - 3, most - 1, most]),
            1 => r.of(&[most + 1, most + 4, most + 5, HALF, TOP - 3, TOP]),
            _ => r.below(34) as u32,
        };
        let mut words = vec![33, r.word(), size];
        if size <= most {
            words.extend((0..size.div_ceil(4)).map(|_| r.word()));
        }
        words
    }

    /// Numbers that are not offered.
    fn foreign(&mut self) -> Vec<u32> {
        let number = match self.random.below(3) {
            0 => self.random.of(&[0, 4, 5, 8, 10, 12, 15, 19, 20, 21, 23, 24, 26, 29, 31, 32, 34, 256 + 1, HALF + 2, TOP]),
            1 => self.random.between(34, 60) as u32,
            _ => self.random.word(),
        };
        let more = self.random.below(6);
        let mut words = vec![number];
        words.extend((0..more).map(|_| self.random.below(4) as u32));
        words
    }
}
