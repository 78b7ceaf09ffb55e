//! Commands through the writer: good ones, bad ones, and ones that just fit.

use super::{Generator, Seen, HALF, TOP};
use crate::model::device::Device;
use crate::model::writer::Submission;
use crate::pair::Pair;
use crate::step::{Lengths, Step};

const OFFERED: [u32; 9] = [1, 2, 3, 13, 14, 22, 25, 30, 33];
const FOREIGN: [u32; 9] = [0, 4, 8, 10, 12, 23, 24, 31, TOP];

/// Bytes of data that fill the smallest ring.
const MOST_DATA: u32 = 10_224;

/// A command's words as the writer is lent them.
fn submission(words: &[u32]) -> Submission {
    let head = match words.first() {
        Some(22) => 6.min(words.len()),
        Some(33) => 3.min(words.len()),
        _ => words.len(),
    };
    let (head, tail) = words.split_at(head);
    let (head, pixels) = (head.to_vec(), tail.to_vec());
    if words.first() != Some(&33) {
        return Submission { head, pixels, bytes: Vec::new() };
    }
    let size = *words.get(2).unwrap_or(&0) as usize;
    let bytes = tail.iter().flat_map(|word| word.to_le_bytes()).take(size).collect();
    Submission { head, pixels: Vec::new(), bytes }
}

impl Generator {
    /// Submits a command, now and then a spoiled one.
    pub(super) fn submit(&mut self, pair: &Pair, words: &[u32]) {
        let mut submission = submission(words);
        if self.random.chance(1, 4) {
            self.spoil(&mut submission);
        }
        if self.random.chance(1, 20) {
            self.spoil(&mut submission);
        }
        let lengths = self.submit_lengths(pair);
        self.push(Step::Submit { lengths, submission });
    }

    fn submit_rightly(&mut self, pair: &Pair, words: &[u32]) {
        self.push(Step::Submit { lengths: pair.right_lengths(), submission: submission(words) });
    }

    /// Any words, pixels and bytes.
    pub(super) fn submit_any(&mut self, pair: &Pair) {
        let number = if self.random.chance(3, 4) { self.random.of(&OFFERED) } else { self.random.of(&FOREIGN) };
        let arguments = self.random.below(10);
        let mut head = vec![number];
        head.extend((0..arguments).map(|_| self.value()));
        let [pixels, bytes] = [0, 1].map(|_| if self.random.chance(1, 2) { 0 } else { self.random.below(10) });
        let pixels = (0..pixels).map(|_| self.random.word()).collect();
        let bytes = (0..bytes).map(|_| self.random.word() as u8).collect();
        let lengths = self.submit_lengths(pair);
        self.push(Step::Submit { lengths, submission: Submission { head, pixels, bytes } });
    }

    /// The ring's right length, or another, MAX among them.
    fn submit_lengths(&mut self, pair: &Pair) -> Lengths {
        let mut lengths = pair.right_lengths();
        if self.random.chance(1, 12) {
            let (right, max) = (lengths.ring, pair.ring_words()[1] as usize / 4);
            let other = self.random.of(&[0, 1, 2, 3, 4, right.saturating_sub(1), right + 1, right + 2, max.saturating_sub(1), max]);
            lengths.ring = other.min(pair.expected.ring.room());
        }
        lengths
    }

    fn spoil(&mut self, submission: &mut Submission) {
        let Submission { head, pixels, bytes } = submission;
        let r = &mut self.random;
        let Some(&number) = head.first() else {
            return head.push(r.of(&OFFERED));
        };
        let last = head.len() - 1;
        match r.below(14) {
            0 => head.clear(),
            1 => _ = head.pop(),
            2 => head.push(r.word() & 15),
            3 => head[0] = r.of(&FOREIGN),
            4 => head[0] = r.of(&OFFERED),
            // An offered number in its low bits alone.
            5 => head[0] = number ^ r.of(&[1 << 8, 1 << 16, HALF]),
            // An operation, a cursor's height or an escape's size, if the command has one.
            6 => head[last] = r.of(&[0, 1, 16, 17, 64, 65, TOP - 2, TOP]),
            7 => pixels.push(r.word()),
            8 => _ = pixels.pop(),
            9 => bytes.push(r.word() as u8),
            10 => _ = bytes.pop(),
            11 => bytes.extend((0..r.between(1, 3)).map(|_| 1)),
            12 => pixels.clear(),
            _ => bytes.clear(),
        }
    }

    // ---- plans

    pub(super) fn submits(&mut self, pair: &Pair, device: &Device) {
        match self.random.below(8) {
            0..=2 => self.submit_at_end(pair, device),
            3..=5 => self.submit_what_fits(pair, device),
            6 => self.submit_largest(pair, device),
            _ => self.submit_by_word_3(pair, device),
        }
    }

    /// The guest's own ring words, accepted.
    fn ring_from(&mut self, pair: &Pair, [min, max, stop]: [u32; 3]) -> Seen {
        self.push(Step::Ring { place: 0, words: vec![min, max, stop, stop] });
        self.write_rightly(pair, 20, 1);
        Seen { min, max, next: stop, stop }
    }

    /// Commands over the ring's end, and up to it.
    fn submit_at_end(&mut self, pair: &Pair, device: &Device) {
        let [min, max, ..] = self.good_ring(device.memory as u32);
        let before_end = self.random.between(1, 12) as u32;
        let seen = self.ring_from(pair, [min, max, max - 4 * before_end]);
        for _ in 0..self.random.between(1, 4) {
            let words = match self.random.below(6) {
                0 => self.cursor(&seen),
                1 => self.escape(&seen),
                2 => self.fitted(device, &seen, before_end),
                _ => self.command(device, &seen),
            };
            self.submit(pair, &words);
        }
        self.run(pair);
    }

    /// An ESCAPE that leaves few words free, commands that take as many or one more, and then the words that a run has freed.
    fn submit_what_fits(&mut self, pair: &Pair, device: &Device) {
        let Some(seen) = self.seen(pair) else {
            return self.submit_any(pair);
        };
        let left = self.random.below(12) as u32;
        let Some(most) = seen.free().checked_sub(left).filter(|&most| most > 2) else {
            return self.run(pair);
        };
        let words = self.escape_of(most);
        self.submit_rightly(pair, &words);
        for more in [1, 0, 1] {
            let words = self.fitted(device, &seen, left + more);
            self.submit(pair, &words);
        }
        self.push(Step::Run { lengths: pair.right_lengths(), budget: 1 });
        let more = self.random.below(2) as u32;
        let words = self.fitted(device, &seen, most + more);
        self.submit(pair, &words);
        self.run(pair);
    }

    /// The largest commands of the smallest ring, each into an empty one; and those that no ring of this size carries.
    fn submit_largest(&mut self, pair: &Pair, device: &Device) {
        let slack = (device.memory - 10_256) / 4;
        let min = 16 + 4 * self.random.below(slack.min(4) + 1) as u32;
        let anywhere = self.random.below(2560) as u32;
        let stop = min + 4 * self.random.of(&[0, 1, 2558, 2559, anywhere]);
        self.ring_from(pair, [min, min + 10_240, stop]);
        for _ in 0..2 {
            let size = MOST_DATA - 3 + self.random.below(8) as u32;
            let words = match self.random.below(8) {
                0 => self.cursor_of(50, 51),
                1 => self.cursor_of(51, 51),
                _ => self.escape_with(size),
            };
            self.submit_rightly(pair, &words);
            if self.random.chance(1, 3) {
                let words = self.fence(device);
                self.submit(pair, &words);
            }
            self.push(Step::Run { lengths: pair.right_lengths(), budget: TOP });
        }
    }

    /// A STOP in ring word 3 that is not the device's, and a command that just fits by it, or just does not.
    fn submit_by_word_3(&mut self, pair: &Pair, device: &Device) {
        let Some(seen) = self.seen(pair) else {
            return self.submit_any(pair);
        };
        let stop = seen.min + 4 * self.random.below(u64::from(seen.holds())) as u32;
        self.push(Step::Ring { place: 3, words: vec![stop] });
        let more = self.random.below(2) as u32;
        let words = self.fitted(device, &seen, Seen { stop, ..seen }.free() + more);
        self.submit_rightly(pair, &words);
        if self.random.chance(1, 2) {
            self.push(Step::Ring { place: 3, words: vec![seen.stop] });
        }
        self.run(pair);
    }

    // ---- commands of a size

    /// A command of so many words, where there is one; a FENCE below that.
    fn fitted(&mut self, device: &Device, seen: &Seen, words: u32) -> Vec<u32> {
        match (words, self.random.below(4)) {
            (0..=2, _) => self.fence(device),
            (5, 0..=2) => self.command_of(1, device, seen),
            (6, 0..=1) => self.command_of(2, device, seen),
            (6, 2) => self.command_of(25, device, seen),
            (7, 0) => self.command_of(3, device, seen),
            (7, 1) => self.command_of(13, device, seen),
            (8, 0..=1) => self.command_of(14, device, seen),
            (7..=70, 2) => self.cursor_of(words - 6, 1),
            (7..=70, 3) => self.cursor_of(1, words - 6),
            _ => self.escape_of(words),
        }
    }

    fn cursor_of(&mut self, w: u32, h: u32) -> Vec<u32> {
        let mut words = vec![22, self.random.below(3) as u32, 0, 0, w, h];
        words.extend((0..w * h).map(|_| self.random.word()));
        words
    }

    /// An ESCAPE of so many words, three or more.
    fn escape_of(&mut self, words: u32) -> Vec<u32> {
        let data = 4 * (words - 3);
        let size = data - (self.random.below(4) as u32).min(data);
        self.escape_with(size)
    }

    fn escape_with(&mut self, size: u32) -> Vec<u32> {
        let mut words = vec![33, self.random.word(), size];
        words.extend((0..size.div_ceil(4)).map(|_| self.random.word()));
        words
    }
}
