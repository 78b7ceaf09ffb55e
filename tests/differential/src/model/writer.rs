//! The guest's writer: document 02, P2.

use super::device::{cursor_allowed, Condition, Device, Ring};
use super::run::{command_in, cursor_in, head_words, holds, Command, Turn, Waiting};
use super::{Model, Rule};

/// "a command with its arguments and pixels": its number and arguments, its pixels, and its data, which are bytes.
#[derive(Clone, PartialEq, Eq, Debug)]
pub struct Submission {
    pub head: Vec<u32>,
    pub pixels: Vec<u32>,
    pub bytes: Vec<u8>,
}

impl Submission {
    pub fn number(&self) -> Option<u64> {
        self.head.first().map(|&number| u64::from(number))
    }

    /// A word of the head, or of the pixels behind it; 0 where there is none.
    fn word(&self, place: u64) -> u64 {
        u64::from(*self.head.iter().chain(&self.pixels).nth(place as usize).unwrap_or(&0))
    }

    /// "head 6, then w·h"
    pub fn pixels_asked(&self) -> u64 {
        match self.number() {
            Some(22) => self.word(4) * self.word(5),
            _ => 0,
        }
    }

    /// "size in bytes"
    pub fn bytes_asked(&self) -> u64 {
        match self.number() {
            Some(33) => self.word(2),
            _ => 0,
        }
    }

    /// The words that the head says.
    pub fn words(&self) -> u64 {
        self.head.len() as u64 + self.pixels_asked() + self.bytes_asked().div_ceil(4)
    }

    /// "Cursor head bad: 11."
    pub fn cursor_bad(&self) -> bool {
        self.number() == Some(22) && !cursor_allowed(&cursor_in(|place| self.word(place)))
    }

    /// "Raster operation above 15: 11."
    pub fn operation_bad(&self) -> bool {
        match self.number() {
            Some(13) => self.word(6) > 15,
            Some(14) => self.word(7) > 15,
            _ => false,
        }
    }

    /// 02's P6: "11 for FENCE 0", and "The writer of P2 refuses it too."
    pub fn fence_zero(&self) -> bool {
        self.number() == Some(30) && self.word(1) == 0
    }

    /// The command itself, where it is one.
    pub fn command(&self) -> Command {
        command_in(|place| self.word(place), self.words())
    }
}

/// The ring of ring words 0 to 3, "reading STOP from ring word 3".
pub fn ring_of(words: &[u32]) -> Ring {
    Ring { min: u64::from(words[0]), max: u64::from(words[1]), stop: u64::from(words[3]) }
}

/// The words that wait from STOP to below NEXT_CMD.
pub fn waiting(ring: &Ring, next: u64) -> u64 {
    let size = ring.max - ring.min;
    (next + size - ring.stop) % size / 4
}

impl Model {
    /// "append all its words by the published rule or none". The device is there for wrong models alone: the writer is lent none.
    pub fn submit(&self, memory: &mut [u32], submission: &Submission, device: Option<&Device>) -> u64 {
        let words = self.words_of(submission);
        if let Some(refused) = self.refused(memory, submission, device) {
            // "nothing written"
            if self.breaks(Rule::SubmitRefusedLeavesWords) && refused == 40 {
                words.iter().for_each(|&word| _ = self.append(memory, word));
            }
            return refused;
        }
        for &word in &words {
            let taken = self.append(memory, word) == 0;
            debug_assert!(taken || self.broken.is_some(), "there is room for every word");
            if !taken && self.breaks(Rule::SubmitFillsLastWord) {
                memory[memory[2] as usize / 4] = word;
                memory[2] = memory[3];
            }
        }
        if self.breaks(Rule::SubmitLeavesNextAtMax) && !words.is_empty() && memory[2] == memory[0] {
            memory[2] = memory[1];
        }
        0
    }

    /// "all its words": the head, then the pixels or the data.
    fn words_of(&self, submission: &Submission) -> Vec<u32> {
        let Submission { head, pixels, bytes } = submission;
        let mut words = head.clone();
        if submission.number() == Some(22) {
            words.extend(pixels);
        }
        if submission.number() == Some(33) {
            words.extend(self.data_words(bytes));
        }
        words
    }

    /// "ESCAPE data being bytes, lowest first in each word, its padding zero"
    fn data_words(&self, bytes: &[u8]) -> Vec<u32> {
        let padding = if self.breaks(Rule::SubmitPaddingOnes) { 255 } else { 0 };
        let word = |four: &[u8]| {
            let mut digits = [0, 1, 2, 3].map(|place| u32::from(*four.get(place).unwrap_or(&padding)));
            if self.breaks(Rule::SubmitBytesHighestFirst) {
                digits.reverse();
            }
            digits.iter().rev().fold(0, |high, digit| 256 * high + digit)
        };
        if self.breaks(Rule::SubmitEscapeRoundedDown) {
            return bytes.chunks_exact(4).map(word).collect();
        }
        bytes.chunks(4).map(word).collect()
    }

    /// "33 if the ring words are missing or unusable by document 01's rule, M being four times the lent words; 41 ..; 20 ..; 40 exactly if
    /// the command could fit the ring but there are too few free words now; in that order".
    fn refused(&self, memory: &[u32], submission: &Submission, device: Option<&Device>) -> Option<u64> {
        let usable = self.usable_ring(memory)
            && !(self.breaks(Rule::SubmitRingOfOtherLength) && device.is_some_and(|device| device.memory != 4 * memory.len() as u64));
        let ring = usable.then(|| self.stopped(ring_of(memory), device));
        let carries = ring.as_ref().map_or(u64::MAX, |ring| holds(ring) - 1);
        let free = ring.as_ref().map_or(u64::MAX, |ring| self.free(ring, u64::from(memory[2])));
        let refusals = [
            (!usable, 33),
            (!self.is_command(submission, carries), 41),
            (!self.lent_right(submission), 20),
            (self.words_asked(submission) > free, 40),
        ];
        let mut order = [0, 1, 2, 3];
        if self.breaks(Rule::SubmitCommandBeforeRing) {
            order.swap(0, 1);
        }
        if self.breaks(Rule::SubmitLentBeforeCommand) {
            order.swap(1, 2);
        }
        if self.breaks(Rule::SubmitRoomBeforeLent) {
            order.swap(2, 3);
        }
        order.into_iter().find(|&place| refusals[place].0).map(|place| refusals[place].1)
    }

    /// The ring with its STOP, which a wrong model takes from the device.
    fn stopped(&self, ring: Ring, device: Option<&Device>) -> Ring {
        match device.map(|device| device.condition) {
            Some(Condition::Running(Ring { stop, .. })) if self.breaks(Rule::SubmitStopOfDevice) && ring.min <= stop && stop < ring.max => {
                Ring { stop, ..ring }
            }
            _ => ring,
        }
    }

    /// "head 3, then ceil(size/4)"
    fn words_asked(&self, submission: &Submission) -> u64 {
        let rounded_down = self.breaks(Rule::SubmitEscapeRoundedDown) && submission.bytes_asked() % 4 != 0;
        submission.words() - u64::from(rounded_down)
    }

    /// "free words now", "never filling the last word": "The ring holds (MAX − MIN)/4 words and carries one fewer."
    fn free(&self, ring: &Ring, next: u64) -> u64 {
        let free = holds(ring) - 1 - waiting(ring, next);
        if self.breaks(Rule::SubmitFillsLastWord) || self.breaks(Rule::SubmitLosesLastWord) {
            return free + 1;
        }
        if self.breaks(Rule::SubmitLeavesRoom) {
            return free.saturating_sub(1);
        }
        // "Freed words are used again."
        if self.breaks(Rule::SubmitNeverWraps) {
            return free.min((ring.max - next) / 4);
        }
        free
    }

    /// "41 if the number isn't in document 01's command table or the device would fault with 11 or 12". A number of arguments that is not
    /// the command's is 41 too, and so is no word at all.
    fn is_command(&self, submission: &Submission, carries: u64) -> bool {
        let length = submission.head.len() as u64;
        let Some(number) = submission.number() else {
            return self.breaks(Rule::SubmitNoWords);
        };
        let number = if self.breaks(Rule::SubmitNumberInByte) { number % 256 } else { number };
        let Some(head) = head_words(number) else {
            let bitmaps = matches!((number, length), (8, 8) | (10, 10) | (12, 2));
            return self.breaks(Rule::SubmitUnknownNumber) || self.breaks(Rule::SubmitBitmaps) && bitmaps;
        };
        if length < head && !self.breaks(Rule::SubmitFewArguments) || length > head && !self.breaks(Rule::SubmitManyArguments) {
            return false;
        }
        if submission.cursor_bad() && !self.bad_cursor_taken(submission) {
            return false;
        }
        if submission.operation_bad() && !(self.breaks(Rule::SubmitOperation16) && submission.head.ends_with(&[16])) {
            return false;
        }
        if submission.fence_zero() && !self.breaks(Rule::SubmitFenceZeroTaken) {
            return false;
        }
        self.could_fit(submission, carries)
    }

    fn bad_cursor_taken(&self, submission: &Submission) -> bool {
        let cursor = cursor_in(|place| submission.word(place));
        self.breaks(Rule::SubmitCursor65) && (cursor.w == 65 || cursor.h == 65)
            || self.breaks(Rule::SubmitHotspotAtEdge) && (cursor.hotx == cursor.w || cursor.hoty == cursor.h)
    }

    /// "Length above what the ring carries: 12."
    fn could_fit(&self, submission: &Submission, carries: u64) -> bool {
        if self.breaks(Rule::SubmitTooLongIsNoRoom) {
            return true;
        }
        if self.breaks(Rule::SubmitEscapeWraps) && submission.bytes_asked() > u64::from(u32::MAX) - 3 {
            return true;
        }
        let most = if self.breaks(Rule::SubmitWholeRingIsNoRoom) { carries.saturating_add(1) } else { carries };
        self.words_asked(submission) <= most
    }

    /// "20 if the lent pixels or data don't number what the head says (none where no head asks for them)"
    fn lent_right(&self, submission: &Submission) -> bool {
        let (pixels, bytes) = (submission.pixels.len() as u64, submission.bytes.len() as u64);
        let (pixels_asked, bytes_asked) = (submission.pixels_asked(), submission.bytes_asked());
        let number = submission.number();
        let pixels_ignored = match number {
            Some(22) => false,
            Some(33) => self.breaks(Rule::SubmitPixelsWithEscape),
            _ => self.breaks(Rule::SubmitPixelsWithNone),
        };
        let bytes_ignored = match number {
            Some(22) => self.breaks(Rule::SubmitBytesWithCursor),
            Some(33) => false,
            _ => self.breaks(Rule::SubmitBytesWithNone),
        };
        (pixels == pixels_asked || pixels_ignored || self.breaks(Rule::SubmitMorePixels) && number == Some(22) && pixels > pixels_asked)
            && (bytes == bytes_asked
                || bytes_ignored
                || self.breaks(Rule::SubmitBytesInWords) && bytes_asked > 0 && bytes.div_ceil(4) == bytes_asked.div_ceil(4))
    }

    /// "What the writer appended, a device that remembers this MIN and MAX reads back as that command once its STOP stands there and those
    /// words wait unchanged": there is the byte at which the command was appended.
    pub fn reads_back(&self, memory: &[u32], there: u32, submission: &Submission) -> bool {
        let ring = Ring { stop: u64::from(there), ..ring_of(memory) };
        let waiting = Waiting { model: self, memory, ring, words: waiting(&ring, u64::from(memory[2])) };
        let byte = |place: usize| waiting.word(3 + place as u64 / 4) >> (8 * (place % 4)) & 0xFF;
        let same_data = submission.bytes.iter().enumerate().all(|(place, &lent)| byte(place) == u64::from(lent));
        match self.turn(&waiting) {
            Turn::Executes(command, length) => command == submission.command() && length == waiting.words && same_data,
            Turn::Ends(_) => false,
        }
    }
}
