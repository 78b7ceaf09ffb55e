//! Commands out of the ring.

use super::device::{cursor_allowed, mode_fits, Condition, Cursor, Device, Ring, CURSOR_WORDS};
use super::paint::{Rect, SOURCE};
use super::{Model, Rule};

/// A command with its arguments.
#[derive(Clone, PartialEq, Eq, Debug)]
pub enum Command {
    Update(Rect),
    Fill { colour: u64, rect: Rect },
    Copy { source: (u64, u64), rect: Rect },
    RopFill { colour: u64, rect: Rect, operation: u64 },
    RopCopy { source: (u64, u64), rect: Rect, operation: u64 },
    DefineCursor { cursor: Cursor, pixels: Vec<u32> },
    UpdateVerbose { rect: Rect, reason: u64 },
    Fence(u64),
    Escape { namespace: u64, size: u64 },
}

/// A command that a run executed.
#[derive(Clone, PartialEq, Eq, Debug)]
pub struct Executed {
    pub command: Command,
    /// STOP before it, in bytes, and its words.
    pub from: u64,
    pub words: u64,
    pub mode: (u64, u64),
    /// Rows that fills and copies reach: the mode's, and the offscreen ones behind them.
    pub rows: u64,
    /// Words of the screen behind those rows.
    pub rest: u64,
    /// STOP came to MIN, or passed from MAX to MIN.
    pub wrapped: bool,
    /// Words of it stand on both sides of the ring's end.
    pub straddled: bool,
}

/// What a turn finds.
pub(super) enum Turn {
    /// The run ends with this answer: 0, 1 or 10 to 12.
    Ends(u64),
    /// This command of so many words is to be executed.
    Executes(Command, u64),
}

/// Words from STOP to below NEXT_CMD wait.
pub(super) struct Waiting<'a> {
    pub model: &'a Model,
    pub memory: &'a [u32],
    pub ring: Ring,
    pub words: u64,
}

impl Waiting<'_> {
    /// "Words wrap from MAX to MIN."
    pub fn word(&self, offset: u64) -> u64 {
        if self.model.breaks(Rule::WordsReadBeyondMax) {
            return u64::from(*self.memory.get((self.ring.stop / 4 + offset) as usize).unwrap_or(&0));
        }
        u64::from(self.memory[(moved_on(&self.ring, offset) / 4) as usize])
    }
}

/// "The ring holds (MAX − MIN)/4 words"
pub fn holds(ring: &Ring) -> u64 {
    (ring.max - ring.min) / 4
}

/// STOP moved on by so many words, "MAX becoming MIN".
pub fn moved_on(ring: &Ring, words: u64) -> u64 {
    ring.min + (ring.stop - ring.min + 4 * words) % (ring.max - ring.min)
}

/// The words of a command's head; none where "Number not offered".
pub fn head_words(number: u64) -> Option<u64> {
    match number {
        1 => Some(5),
        2 => Some(6),
        3 => Some(7),
        13 => Some(7),
        14 => Some(8),
        22 => Some(6),
        25 => Some(6),
        30 => Some(2),
        33 => Some(3),
        _ => None,
    }
}

/// "id hotx hoty w h"
pub fn cursor_in(word: impl Fn(u64) -> u64) -> Cursor {
    Cursor { id: word(1), hotx: word(2), hoty: word(3), w: word(4), h: word(5) }
}

/// The command of so many words, an offered one.
pub fn command_in(word: impl Fn(u64) -> u64, length: u64) -> Command {
    let rect = |first: u64| Rect { x: word(first), y: word(first + 1), w: word(first + 2), h: word(first + 3) };
    match word(0) {
        1 => Command::Update(rect(1)),
        2 => Command::Fill { colour: word(1), rect: rect(2) },
        3 => Command::Copy { source: (word(1), word(2)), rect: rect(3) },
        13 => Command::RopFill { colour: word(1), rect: rect(2), operation: word(6) },
        14 => Command::RopCopy { source: (word(1), word(2)), rect: rect(3), operation: word(7) },
        22 => Command::DefineCursor { cursor: cursor_in(&word), pixels: (6..length).map(|place| word(place) as u32).collect() },
        25 => Command::UpdateVerbose { rect: rect(1), reason: word(5) },
        30 => Command::Fence(word(1)),
        _ => Command::Escape { namespace: word(1), size: word(2) },
    }
}

impl Model {
    /// "Each turn, in this order: .. Number not offered: 10. Head incomplete: 1. Cursor head bad: 11. Length above what the ring
    /// carries: 12. Words missing: 1. Raster operation above 15: 11. Then it is executed". 02's P6: "11 for FENCE 0, judged once both words
    /// are there, in the place of the raster check".
    pub(super) fn turn(&self, waiting: &Waiting) -> Turn {
        let number = waiting.word(0);
        let Some(head) = head_words(number) else {
            if self.breaks(Rule::ForeignNumberWaits) && waiting.words == 1 {
                return Turn::Ends(1);
            }
            return Turn::Ends(10);
        };
        if self.breaks(Rule::FenceZeroJudgedEarly) && number == 30 && waiting.word(1) == 0 {
            return Turn::Ends(11);
        }
        if waiting.words < head {
            return Turn::Ends(1);
        }
        let word = |place| waiting.word(place);
        let length = match number {
            // "head 6, then w·h"
            22 => {
                let cursor = cursor_in(word);
                let too_long = cursor.w < 1 << 31 && cursor.h < 1 << 31 && 6 + cursor.w * cursor.h >= holds(&waiting.ring);
                if self.breaks(Rule::LengthBeforeCursorHead) && too_long {
                    return Turn::Ends(12);
                }
                if !self.cursor_head_allowed(&cursor) {
                    return Turn::Ends(11);
                }
                6 + cursor.w * cursor.h
            }
            // "head 3, then ceil(size/4)"
            33 if self.breaks(Rule::EscapeRoundedDown) => 3 + word(2) / 4,
            33 if self.breaks(Rule::EscapeWraps) => 3 + (word(2) + 3) % (1 << 32) / 4,
            33 if self.breaks(Rule::EscapeInWords) => 3 + word(2),
            33 => 3 + word(2).div_ceil(4),
            _ => head,
        };
        // "The ring holds (MAX − MIN)/4 words and carries one fewer."
        let carries = if self.breaks(Rule::RingCarriesAll) { holds(&waiting.ring) } else { holds(&waiting.ring) - 1 };
        if length > carries {
            return Turn::Ends(if self.breaks(Rule::TooLongWaits) { 1 } else { 12 });
        }
        if waiting.words < length {
            return Turn::Ends(1);
        }
        let mut command = command_in(word, length);
        if let Command::RopFill { operation, .. } | Command::RopCopy { operation, .. } = &mut command {
            if self.breaks(Rule::OperationModulo16) {
                *operation %= 16;
            }
            if *operation > 15 {
                return Turn::Ends(11);
            }
        }
        let zero_taken = self.breaks(Rule::FenceZeroStored) || self.breaks(Rule::FenceZeroConsumed);
        if command == Command::Fence(0) && !zero_taken {
            return Turn::Ends(11);
        }
        Turn::Executes(command, length)
    }

    /// "Cursor: w and h 1 to 64, hotx < w, hoty < h, else 11."
    fn cursor_head_allowed(&self, cursor: &Cursor) -> bool {
        if self.breaks(Rule::Cursor65Accepted) && (cursor.w == 65 || cursor.h == 65) {
            return true;
        }
        if self.breaks(Rule::HotspotAtEdgeAccepted) && (cursor.hotx == cursor.w || cursor.hoty == cursor.h) {
            return true;
        }
        cursor_allowed(cursor)
    }

    fn execute(&self, device: &mut Device, command: &Command, framebuffer: &[u32], screen: &mut [u32], image: &mut [u32]) {
        match command {
            Command::Update(rect) => self.update(device, framebuffer, screen, rect),
            // "as 1, reason (no effect)"
            Command::UpdateVerbose { .. } if self.breaks(Rule::VerbosePaintsNothing) => {}
            Command::UpdateVerbose { rect, .. } => self.update(device, framebuffer, screen, rect),
            Command::Fill { colour, rect } => self.fill(device, screen, *colour, rect, SOURCE),
            Command::RopFill { colour, rect, operation } => self.fill(device, screen, *colour, rect, *operation),
            Command::Copy { source, rect } => self.copy(device, framebuffer, screen, *source, rect, SOURCE),
            Command::RopCopy { source, rect, operation } => self.copy(device, framebuffer, screen, *source, rect, *operation),
            // "Its pixels fill the first w·h cursor words, row by row; the rest stay."
            Command::DefineCursor { cursor, pixels } => {
                device.cursor = Some(*cursor);
                if self.breaks(Rule::DefiningHides) {
                    device.plane.shown = false;
                }
                for (word, pixel) in image.iter_mut().zip(pixels) {
                    *word = *pixel;
                }
                if self.breaks(Rule::CursorRestCleared) {
                    image[pixels.len()..].fill(0);
                }
            }
            // "Fence: the last number executed."
            Command::Fence(number) => {
                let back = self.breaks(Rule::FenceNeverGoesBack) && *number < device.fence;
                let zero = self.breaks(Rule::FenceZeroConsumed) && *number == 0;
                if !back && !zero {
                    device.fence = *number;
                }
            }
            // "data (no effect)"
            Command::Escape { .. } => {}
        }
    }

    /// 02's P1: "When MIN is 28 or more, an executed FENCE also writes its number to word 6; below that, as today." MIN is the one that
    /// is remembered: "Later changes by the guest to words 0, 1 and 3 are not read".
    fn posts(&self, remembered: &Ring, ring: &[u32]) -> bool {
        let min = if self.breaks(Rule::FencePostedByWord0) { u64::from(ring[0]) } else { remembered.min };
        if self.breaks(Rule::FenceNotPosted) {
            return false;
        }
        if self.breaks(Rule::FencePostedAlways) {
            return true;
        }
        if self.breaks(Rule::FencePostedAt24) {
            return min >= 24;
        }
        if self.breaks(Rule::FenceNotPostedAt28) {
            return min > 28;
        }
        min >= 28
    }

    /// "A run checks 20, 22, 21, 24, 23 in that order."
    fn refusal(&self, device: &Device, ring: &[u32], framebuffer: &[u32], screen: &[u32], image: &[u32]) -> Option<u64> {
        let length_wrong = ring.len() as u64 * 4 != device.memory
            || framebuffer.len() as u64 != device.pixels && !self.breaks(Rule::RunForgetsFramebufferLength)
            || screen.len() as u64 != device.pixels && !(self.breaks(Rule::LongerScreenTaken) && screen.len() as u64 > device.pixels)
            || image.len() != CURSOR_WORDS;
        let refusals = [
            (length_wrong, 20),
            (!device.config_done, 22),
            (!device.enable, 21),
            (!mode_fits(device), 24),
            (matches!(device.condition, Condition::Faulted(_)), 23),
        ];
        let mut order = [0, 1, 2, 3, 4];
        if self.breaks(Rule::LengthsAfterConfiguration) {
            order.swap(0, 1);
        }
        if self.breaks(Rule::DisabledBeforeUnconfigured) {
            order.swap(1, 2);
        }
        if self.breaks(Rule::ModeBeforeDisabled) {
            order.swap(2, 3);
        }
        if self.breaks(Rule::FaultBeforeMode) {
            order.swap(3, 4);
        }
        order.into_iter().find(|&place| refusals[place].0).map(|place| refusals[place].1)
    }

    /// "The run stops after a number of commands never above its budget"
    fn budget(&self, given: u64) -> u64 {
        if self.breaks(Rule::BudgetOneTooMany) {
            return given + 1;
        }
        if self.breaks(Rule::BudgetZeroRunsOne) {
            return given.max(1);
        }
        given
    }

    /// The answer and "the number of commands consumed in this run".
    pub fn run_device(
        &mut self,
        device: &mut Device,
        ring: &mut [u32],
        framebuffer: &[u32],
        screen: &mut [u32],
        image: &mut [u32],
        budget: u64,
    ) -> (u64, u64) {
        if let Some(refused) = self.refusal(device, ring, framebuffer, screen, image) {
            return (refused, 0);
        }
        let Condition::Running(mut remembered) = device.condition else {
            unreachable!("a configured device without fault has a ring");
        };
        // "Later changes by the guest to words 0, 1 and 3 are not read"
        if self.breaks(Rule::MinAndMaxReread) && self.usable(ring, device.memory) {
            let (min, max) = (u64::from(ring[0]), u64::from(ring[1]));
            if min <= remembered.stop && remembered.stop < max {
                (remembered.min, remembered.max) = (min, max);
            }
        }
        if self.breaks(Rule::StopReread) {
            let stop = u64::from(ring[3]);
            if stop % 4 == 0 && remembered.min <= stop && stop < remembered.max {
                remembered.stop = stop;
            }
        }
        let budget = self.budget(budget);
        let mut count = 0;
        let answer = loop {
            let next = u64::from(ring[2]);
            let below_max = next < remembered.max || self.breaks(Rule::NextAtMaxUsable) && next == remembered.max;
            let unusable = next % 4 != 0 || next < remembered.min || !below_max;
            if self.breaks(Rule::UnusableBeforeBudget) && unusable {
                break 13;
            }
            if self.breaks(Rule::DrainedBeforeBudget) && next == remembered.stop {
                break 0;
            }
            // "budget used up: 2"
            if count == budget {
                break 2;
            }
            // "NEXT_CMD not a multiple of 4 or outside the ring: 13"
            if unusable {
                break 13;
            }
            // "NEXT_CMD = STOP: 0"
            if next == remembered.stop {
                break 0;
            }
            let size = remembered.max - remembered.min;
            let words = (next + size - remembered.stop) % size / 4;
            let (command, length) = match self.turn(&Waiting { model: self, memory: ring, ring: remembered, words }) {
                Turn::Ends(answer) => break answer,
                Turn::Executes(command, length) => (command, length),
            };
            // "Then it is executed, STOP passes it, ring word 3 is written."
            let old_fence = device.fence;
            self.execute(device, &command, framebuffer, screen, image);
            let words_to_end = (remembered.max - remembered.stop) / 4;
            let straddled = length > words_to_end;
            if let Command::Fence(number) = command {
                let left_out = self.breaks(Rule::FencePostedInRowOnly) && straddled
                    || self.breaks(Rule::SameFenceNotPosted) && number == old_fence
                    || self.breaks(Rule::FenceZeroConsumed) && number == 0;
                if self.posts(&remembered, ring) && !left_out {
                    ring[6] = if self.breaks(Rule::OldFencePosted) { old_fence } else { number } as u32;
                }
            }
            let from = remembered.stop;
            remembered.stop = moved_on(&remembered, length);
            if self.breaks(Rule::StopLeftAtMax) && length == words_to_end {
                remembered.stop = remembered.max;
            }
            if !self.breaks(Rule::StopNotWritten) {
                ring[3] = remembered.stop as u32;
            }
            // "an empty one is consumed"
            let empty = matches!(&command, Command::Fill { rect, .. } if rect.w == 0 || rect.h == 0);
            if !(self.breaks(Rule::EmptyRectangleNotCounted) && empty) {
                count += 1;
            }
            let (mode, rows, rest) = ((device.width, device.height), device.pixels / device.width, device.pixels % device.width);
            let wrapped = length >= words_to_end;
            self.executed.push(Executed { command, from, words: length, mode, rows, rest, wrapped, straddled });
        };
        // "The run changes no other ring word, and none if it consumed nothing." 02's P1: "A run then changes words 3 and 6 only".
        if self.breaks(Rule::StopWrittenUnasked) {
            ring[3] = remembered.stop as u32;
        }
        let fences = self.executed.iter().filter(|executed| matches!(executed.command, Command::Fence(_))).count();
        if self.breaks(Rule::FencePostedUnasked) && fences == 0 && self.posts(&remembered, ring) {
            ring[6] = device.fence as u32;
        }
        device.condition = Condition::Running(remembered);
        if (10..=13).contains(&answer) {
            // "A fault consumes nothing of its command and stands until CONFIG_DONE 1 is accepted"
            if !(self.breaks(Rule::UnusableDoesNotStand) && answer == 13) {
                device.condition = Condition::Faulted(answer);
            }
            if self.breaks(Rule::FaultConsumesItsNumber) {
                ring[3] = moved_on(&remembered, 1) as u32;
            }
            if self.breaks(Rule::FaultCounted) {
                count += 1;
            }
        }
        // "A run ending 0, 1 or in a fault clears it; one ending 2 keeps it."
        let keeps = match answer {
            0 => self.breaks(Rule::DrainKeepsBusy),
            1 => self.breaks(Rule::WaitingKeepsBusy),
            2 => !self.breaks(Rule::BudgetClearsBusy),
            _ => self.breaks(Rule::FaultKeepsBusy),
        };
        if !keeps {
            device.busy = false;
        }
        (answer, count)
    }

    /// Whether an append would look further than at ring words 0 to 3: M is then four times the lent words.
    pub fn usable_ring(&self, ring: &[u32]) -> bool {
        ring.len() >= 4 && self.usable(ring, ring.len() as u64 * 4)
    }

    /// "An append writes its word at NEXT_CMD and moves NEXT_CMD on by 4, MAX becoming MIN; if that would make it equal ring word 3,
    /// it is refused and nothing changes." Unusable ring words: refused. 0 taken, 1 refused.
    pub fn append(&self, ring: &mut [u32], word: u32) -> u64 {
        if !self.usable_ring(ring) {
            return 1;
        }
        let [min, max, next, stop] = [0, 1, 2, 3].map(|place| ring[place]);
        if self.breaks(Rule::NextAtMaxAccepted) && next == max {
            return 1;
        }
        let moved = if next + 4 == max && !self.breaks(Rule::AppendForgetsWrap) { min } else { next + 4 };
        if moved == stop && !self.breaks(Rule::AppendFillsLastWord) {
            return 1;
        }
        ring[(next / 4) as usize] = word;
        ring[2] = moved;
        0
    }
}

impl std::fmt::Display for Rect {
    fn fmt(&self, out: &mut std::fmt::Formatter) -> std::fmt::Result {
        write!(out, "({}, {}) {} by {}", self.x, self.y, self.w, self.h)
    }
}

impl std::fmt::Display for Command {
    fn fmt(&self, out: &mut std::fmt::Formatter) -> std::fmt::Result {
        match self {
            Command::Update(rect) => write!(out, "UPDATE {rect}"),
            Command::Fill { colour, rect } => write!(out, "RECT_FILL {colour:#x} {rect}"),
            Command::Copy { source: (x, y), rect } => write!(out, "RECT_COPY ({x}, {y}) to {rect}"),
            Command::RopFill { colour, rect, operation } => write!(out, "RECT_ROP_FILL {colour:#x} {rect} rop {operation}"),
            Command::RopCopy { source: (x, y), rect, operation } => {
                write!(out, "RECT_ROP_COPY ({x}, {y}) to {rect} rop {operation}")
            }
            Command::DefineCursor { cursor, .. } => {
                let Cursor { id, hotx, hoty, w, h } = cursor;
                write!(out, "DEFINE_ALPHA_CURSOR id {id} hotspot ({hotx}, {hoty}) {w} by {h}")
            }
            Command::UpdateVerbose { rect, reason } => write!(out, "UPDATE_VERBOSE {rect} reason {reason}"),
            Command::Fence(number) => write!(out, "FENCE {number}"),
            Command::Escape { namespace, size } => write!(out, "ESCAPE namespace {namespace:#x} size {size}"),
        }
    }
}
