//! What the sequences met of the writer.

use super::{Before, Counts, Event};
use crate::model::device::{Condition, Ring};
use crate::model::run::{head_words, holds, moved_on, Command, Executed};
use crate::model::writer::{ring_of, waiting, Submission};

const OFFERED: [u64; 9] = [1, 2, 3, 13, 14, 22, 25, 30, 33];
/// Numbers that 02 offers later or not at all, and the ends of the range.
const FOREIGN: [u64; 9] = [0, 4, 8, 10, 12, 23, 24, 31, u32::MAX as u64];

/// Minima: for each of these numbers; for each size of data; for each word of a head.
const TAKEN_MINIMUM: u64 = 7000;
const FOREIGN_MINIMUM: u64 = 600;
const SIZE_MINIMUM: u64 = 200;
const SPLIT_MINIMUM: u64 = 180;

#[derive(Clone)]
pub struct Submitted {
    /// Commands that were taken, as `OFFERED` has their numbers, and numbers that were not, as `FOREIGN` has them.
    taken: [u64; OFFERED.len()],
    foreign: [u64; FOREIGN.len()],
    /// Data of 0 to 9 bytes that were taken.
    sizes: [u64; 10],
    /// Commands that were taken with so many words of their head, one and more, before the ring's end.
    splits: [u64; 7],
    /// Commands that were not executed yet, with their places in the ring.
    waiting: Vec<(u64, Command)>,
    /// Whether a run has consumed this word of the ring since it was accepted.
    freed: Vec<bool>,
}

impl Submitted {
    pub fn new() -> Submitted {
        Submitted {
            taken: [0; OFFERED.len()],
            foreign: [0; FOREIGN.len()],
            sizes: [0; 10],
            splits: [0; 7],
            waiting: Vec::new(),
            freed: Vec::new(),
        }
    }

    pub fn begin_sequence(&mut self) {
        self.waiting.clear();
        self.freed.clear();
    }

    pub fn ring_accepted(&mut self) {
        self.freed.clear();
    }

    /// Counts in rows, each with what every number in it has to reach.
    pub fn rows(&self) -> [(&'static str, u64, &[u64]); 4] {
        [
            ("submitted commands 1, 2, 3, 13, 14, 22, 25, 30, 33 taken", TAKEN_MINIMUM, &self.taken),
            ("submitted numbers 0, 4, 8, 10, 12, 23, 24, 31, 4294967295 refused", FOREIGN_MINIMUM, &self.foreign),
            ("submitted data of 0 to 9 bytes taken", SIZE_MINIMUM, &self.sizes),
            ("submitted heads with 1 to 7 words before the ring's end taken", SPLIT_MINIMUM, &self.splits),
        ]
    }
}

/// Counts a number where it stands in a list.
fn count(counts: &mut [u64], list: &[u64], number: u64) {
    if let Some(place) = list.iter().position(|&listed| listed == number) {
        counts[place] += 1;
    }
}

fn free(ring: &Ring, next: u64) -> u64 {
    holds(ring) - 1 - waiting(ring, next)
}

fn lent_right(submission: &Submission) -> bool {
    (submission.pixels.len() as u64, submission.bytes.len() as u64) == (submission.pixels_asked(), submission.bytes_asked())
}

impl Counts {
    pub(super) fn submit(&mut self, submission: &Submission, answer: u64, lent_ring: usize, before: &Before) {
        if answer == 33 {
            return self.ring_refused(submission, lent_ring, before.ring_words[1]);
        }
        let (ring, next) = (ring_of(&before.ring_words), u64::from(before.ring_words[2]));
        match answer {
            41 => self.no_command(submission, &ring),
            20 => self.lent_wrong(submission, free(&ring, next)),
            _ => self.judged_by_room(submission, answer, before, &ring, next),
        }
        if answer == 0 {
            let length = lent_ring as u64 * 4;
            self.event(Event::SubmitOtherLength, before.device.as_ref().is_some_and(|device| device.memory != length));
            self.taken(submission, &ring, next);
        }
    }

    fn ring_refused(&mut self, submission: &Submission, lent_ring: usize, max: u32) {
        self.event(Event::SubmitRingMissing, lent_ring < 4);
        self.event(Event::SubmitRingUnusable, lent_ring >= 4);
        self.event(Event::SubmitRingShort, lent_ring >= 4 && 4 * lent_ring < max as usize);
        self.event(Event::SubmitRingBeforeCommand, submission.number().and_then(head_words).is_none());
    }

    fn no_command(&mut self, submission: &Submission, ring: &Ring) {
        self.event(Event::SubmitCommandBeforeLent, !lent_right(submission));
        let length = submission.head.len() as u64;
        let Some(number) = submission.number() else {
            return self.event(Event::SubmitNoWords, true);
        };
        count(&mut self.submitted.foreign, &FOREIGN, number);
        let Some(head) = head_words(number) else {
            return self.event(Event::SubmitUnknown, true);
        };
        self.event(Event::SubmitFewArguments, length < head);
        self.event(Event::SubmitManyArguments, length > head);
        if length == head {
            self.event(Event::SubmitBadCursor, submission.cursor_bad());
            self.event(Event::SubmitBadOperation, submission.operation_bad());
            self.event(Event::SubmitFenceZero, submission.fence_zero());
            self.event(Event::SubmitTooLong, submission.words() >= holds(ring) && !submission.cursor_bad());
            self.event(Event::SubmitWholeRing, submission.words() == holds(ring));
        }
    }

    fn lent_wrong(&mut self, submission: &Submission, free: u64) {
        let (pixels, bytes) = (submission.pixels.len() as u64, submission.bytes.len() as u64);
        let (pixels_asked, bytes_asked) = (submission.pixels_asked(), submission.bytes_asked());
        let (cursor, escape) = (submission.number() == Some(22), submission.number() == Some(33));
        self.event(Event::SubmitPixelMore, cursor && pixels == pixels_asked + 1);
        self.event(Event::SubmitPixelFewer, cursor && pixels + 1 == pixels_asked);
        self.event(Event::SubmitByteMore, escape && bytes == bytes_asked + 1);
        self.event(Event::SubmitByteFewer, escape && bytes + 1 == bytes_asked);
        self.event(Event::SubmitPixelsWithEscape, escape && bytes == bytes_asked);
        self.event(Event::SubmitBytesWithCursor, cursor && pixels == pixels_asked);
        self.event(Event::SubmitPixelsWithNone, !cursor && !escape && bytes == 0);
        self.event(Event::SubmitBytesWithNone, !cursor && !escape && pixels == 0);
        self.event(Event::SubmitLentBeforeRoom, submission.words() > free);
    }

    /// 0 or 40.
    fn judged_by_room(&mut self, submission: &Submission, answer: u64, before: &Before, ring: &Ring, next: u64) {
        let (words, free_now) = (submission.words(), free(ring, next));
        self.event(Event::SubmitExact, words == free_now);
        self.event(Event::SubmitOneShort, words == free_now + 1);
        let Some(Condition::Running(Ring { stop, .. })) = before.device.as_ref().map(|device| device.condition) else {
            return;
        };
        if ring.min <= stop && stop < ring.max {
            let taken_by_device = words <= free(&Ring { stop, ..*ring }, next);
            self.event(Event::SubmitByWord3, taken_by_device != (answer == 0));
        }
    }

    fn taken(&mut self, submission: &Submission, ring: &Ring, next: u64) {
        let (words, head) = (submission.words(), submission.head.len() as u64);
        let to_end = (ring.max - next) / 4;
        if to_end < head {
            self.submitted.splits[to_end as usize - 1] += 1;
        }
        self.event(Event::SubmitWrapInHead, to_end < head);
        self.event(Event::SubmitWrapBehindHead, to_end == head && to_end < words);
        let behind = head < to_end && to_end < words;
        self.event(Event::SubmitWrapInPixels, behind && !submission.pixels.is_empty());
        self.event(Event::SubmitWrapInData, behind && !submission.bytes.is_empty());
        self.event(Event::SubmitToEnd, to_end == words);
        self.event(Event::SubmitLargest, holds(ring) == 2560 && words == 2559);
        self.event(Event::SubmitPadded, submission.bytes.len() % 4 != 0);
        let there = Ring { stop: next, ..*ring };
        let freed = |offset| self.submitted.freed.get(moved_on(&there, offset) as usize / 4) == Some(&true);
        self.event(Event::SubmitFreed, (0..words).any(freed));
        let number = submission.number().expect("a command has a number");
        count(&mut self.submitted.taken, &OFFERED, number);
        if number == 33 {
            count(&mut self.submitted.sizes, &[0, 1, 2, 3, 4, 5, 6, 7, 8, 9], submission.bytes_asked());
        }
        self.submitted.waiting.push((next, submission.command()));
    }

    /// A run consumed a command: it may be one that was submitted, and its words are free.
    pub(super) fn consumed(&mut self, executed: &Executed, ring: &Ring) {
        let submitted = |(from, command): &(u64, _)| *from == executed.from && *command == executed.command;
        if let Some(place) = self.submitted.waiting.iter().position(submitted) {
            self.submitted.waiting.swap_remove(place);
            self.event(Event::SubmitExecuted, true);
        }
        let freed = &mut self.submitted.freed;
        freed.resize(ring.max as usize / 4, false);
        let there = Ring { stop: executed.from, ..*ring };
        (0..executed.words).for_each(|offset| freed[moved_on(&there, offset) as usize / 4] = true);
    }
}
