//! Numbers for 02's P2, the writer.

use super::{Bench, ALL, MAX, MEMORY};
use crate::model::writer::Submission;
use crate::step::Step;

impl Bench {
    /// Submits a command to a ring of so many lent words.
    fn submit_to(&mut self, ring: usize, head: &[u32], pixels: &[u32], bytes: &[u8]) -> u64 {
        let mut lengths = self.pair.right_lengths();
        lengths.ring = ring;
        let submission = Submission { head: head.to_vec(), pixels: pixels.to_vec(), bytes: bytes.to_vec() };
        self.step(Step::Submit { lengths, submission }).0
    }

    fn submit(&mut self, head: &[u32], pixels: &[u32], bytes: &[u8]) -> u64 {
        self.submit_to(self.pair.right_lengths().ring, head, pixels, bytes)
    }

    fn submit_escape(&mut self, size: usize) -> u64 {
        self.submit(&[33, 7, size as u32], &[], &vec![9; size])
    }

    fn submit_cursor(&mut self, w: u32, h: u32) -> u64 {
        self.submit(&[22, 1, 0, 0, w, h], &vec![5; (w * h) as usize], &[])
    }

    /// The words from STOP to NEXT_CMD, as ring words 0 to 3 have them.
    fn waiting(&self) -> Vec<u32> {
        let [min, max, next, stop] = self.pair.ring_words().map(|word| word as usize / 4);
        let ring = self.pair.expected.ring.first(max);
        if stop <= next {
            return ring[stop..next].to_vec();
        }
        [&ring[stop..], &ring[min..next]].concat()
    }

    /// The smallest ring, with so many words waiting from its begin on.
    fn filled(&mut self, words: u32) {
        self.accepted([16, MAX, 16 + 4 * words, 16], 1, 1);
    }
}

pub(super) fn hold(b: &mut Bench) {
    commands(b);
    lengths(b);
    order(b);
    room(b);
    ring_words(b);
}

fn commands(b: &mut Bench) {
    let heads: [&[u32]; 7] = [
        &[1, 0, 0, 1, 1],
        &[2, 9, 0, 0, 1, 1],
        &[3, 0, 0, 0, 0, 1, 1],
        &[13, 9, 0, 0, 1, 1, 15],
        &[14, 0, 0, 0, 0, 1, 1, 15],
        &[25, 0, 0, 1, 1, 3],
        &[30, 1],
    ];
    for head in heads {
        b.filled(0);
        let (answer, waiting) = (b.submit(head, &[], &[]), b.waiting());
        b.holds("P2, commands without pixels and data", (answer, waiting) == (0, head.to_vec()));
        let answered = b.run(&[], ALL);
        b.holds("P2, a command is executed", answered == (0, 1));
        let fewer = b.submit(&head[..head.len() - 1], &[], &[]);
        let more = b.submit(&[head, &[0]].concat(), &[], &[]);
        b.holds("P2, one argument fewer or more", (fewer, more) == (41, 41));
    }
    b.filled(0);
    let answer = b.submit(&[22, 1, 0, 1, 1, 2], &[5, ALL], &[]);
    b.holds("P2, a cursor", (answer, b.waiting()) == (0, vec![22, 1, 0, 1, 1, 2, 5, ALL]));
    b.filled(0);
    let answer = b.submit(&[33, 7, 5], &[], &[1, 2, 3, 4, 255]);
    b.holds("P2, bytes lowest first and padding zero", (answer, b.waiting()) == (0, vec![33, 7, 5, 0x0403_0201, 255]));
    let answers =
        [0, 4, 5, 8, 10, 12, 19, 20, 21, 23, 24, 31, 34, 30 + 256, 30 + 65_536, ALL].map(|number| b.submit(&[number, 0], &[], &[]));
    b.holds("P2, numbers not in the table", answers.iter().all(|&answer| answer == 41));
    let answers = [b.submit(&[], &[], &[]), b.submit(&[13, 9, 0, 0, 1, 1, 16], &[], &[]), b.submit(&[14, 0, 0, 0, 0, 1, 1, ALL], &[], &[])];
    b.holds("P2, no words, and raster operations above 15", answers == [41; 3]);
    let answers = [b.submit(&[30, 0], &[], &[]), b.submit(&[30, 0], &[5], &[1])];
    b.holds("P6, the writer refuses FENCE 0", answers == [41; 2]);
    b.holds("P2, a refused command writes nothing", b.waiting().len() == 5);
}

/// Document 01's cases 5 to 7, through the writer.
fn lengths(b: &mut Bench) {
    for (size, words) in [(0, 3), (1, 4), (4, 4), (5, 5), (10_221, 2559), (10_224, 2559)] {
        b.filled(0);
        let answers = (b.submit_escape(size), b.waiting().len(), b.run(&[], ALL));
        b.holds("P2, case 7", answers == (0, words, (0, 1)));
    }
    b.filled(0);
    let answers = [b.submit_escape(10_225), b.submit(&[33, 7, ALL], &[], &[]), b.submit(&[33, 7, ALL - 2], &[], &[])];
    b.holds("P2, case 7", answers == [41; 3]);
    for (w, h, answer, words) in [(50, 51, 0, 2556), (51, 51, 41, 0), (64, 1, 0, 70), (65, 1, 41, 0), (0, 1, 41, 0)] {
        b.filled(0);
        let answers = (b.submit_cursor(w, h), b.waiting().len());
        b.holds("P2, cases 5 and 6", answers == (answer, words));
    }
    b.filled(0);
    let answers = [[1, 0, 1, 1], [0, 1, 1, 1]].map(|[hotx, hoty, w, h]| b.submit(&[22, 1, hotx, hoty, w, h], &[5], &[]));
    b.holds("P2, hotspots", answers == [41; 2]);
}

fn order(b: &mut Bench) {
    b.filled(2559);
    let answers = [
        b.submit(&[22, 1, 0, 0, 1, 1], &[], &[]),
        b.submit(&[22, 1, 0, 0, 1, 1], &[5, 5], &[]),
        b.submit(&[22, 1, 0, 0, 1, 1], &[5], &[1]),
        b.submit(&[33, 7, 1], &[], &[]),
        b.submit(&[33, 7, 1], &[], &[1, 1]),
        b.submit(&[33, 7, 1], &[5], &[1]),
        b.submit(&[33, 7, 0], &[5], &[]),
        b.submit(&[30, 1], &[5], &[]),
        b.submit(&[30, 1], &[], &[1]),
    ];
    b.holds("P2, 20 before 40", answers == [20; 9]);
    let answers = [
        b.submit(&[20], &[5], &[1]),
        b.submit(&[30], &[5], &[1]),
        b.submit(&[22, 1, 0, 0, 65, 1], &[], &[]),
        b.submit(&[13, 9, 0, 0, 1, 1, 16], &[5], &[]),
        b.submit(&[33, 7, 10_225], &[], &[]),
    ];
    b.holds("P2, 41 before 20", answers == [41; 5]);
    b.step(Step::Ring { place: 2, words: vec![MAX] });
    let answers = [b.submit(&[20], &[5], &[1]), b.submit(&[30, 1], &[5], &[1]), b.submit(&[30, 1], &[], &[])];
    b.holds("P2, 33 first", answers == [33; 3]);
}

fn room(b: &mut Bench) {
    for (waiting, update, fence) in [(0, 0, 0), (2554, 0, 40), (2555, 40, 0), (2557, 40, 0), (2558, 40, 40), (2559, 40, 40)] {
        b.filled(waiting);
        let answers = (b.submit(&[1, 0, 0, 1, 1], &[], &[]), b.submit(&[30, 7], &[], &[]));
        b.holds("P2, room", answers == (update, fence));
    }
    b.filled(0);
    let full = [b.submit_escape(10_224), b.submit_escape(10_224), b.submit(&[30, 7], &[], &[])];
    let (ran, again) = (b.run(&[], 1), b.submit_escape(10_224));
    b.holds("P2, freed words", full == [0, 40, 40] && ran == (2, 1) && again == 0);
    // The device's STOP stays at 16: ring word 3 decides.
    b.filled(2559);
    b.step(Step::Ring { place: 3, words: vec![24] });
    let answers = [b.submit(&[33, 7, 0], &[], &[]), b.submit(&[30, 7], &[], &[])];
    b.holds("P2, STOP is read from ring word 3", answers == [40, 0]);
    b.filled(0);
    b.step(Step::Ring { place: 3, words: vec![24] });
    let answers = [b.submit(&[30, 7], &[], &[]), b.submit(&[33, 7, 0], &[], &[])];
    b.holds("P2, STOP is read from ring word 3", answers == [40, 40]);
}

fn ring_words(b: &mut Bench) {
    for (before_end, next) in [(1, 20), (2, 16), (3, MAX - 4)] {
        let stop = MAX - 4 * before_end;
        b.accepted([16, MAX, stop, stop], 1, 1);
        let answers = (b.submit(&[30, 7], &[], &[]), b.pair.ring_words(), b.waiting(), b.run(&[], ALL));
        b.holds("P2, the ring's end", answers == (0, [16, MAX, next, stop], vec![30, 7], (0, 1)));
    }
    b.filled(0);
    let words = MEMORY as usize / 4;
    let answers = [0, 1, 3, 4, words - 1, words, words + 1].map(|ring| b.submit_to(ring, &[30, 7], &[], &[]));
    b.holds("P2, M is four times the lent words", answers == [33, 33, 33, 33, 33, 0, 0]);
    // More than a device can be made for.
    let memory = 2_097_152 + 400;
    b.step(Step::Memories { ring: memory as usize / 4, pixels: 1, fill: 0 });
    b.step(Step::Ring { place: 0, words: vec![16, memory, memory - 8, 16] });
    let answers = [b.submit_to(memory as usize / 4, &[30, 7], &[], &[]), b.submit_to(memory as usize / 4, &[30, 7], &[], &[])];
    b.holds("P2, a ring of any size", answers == [40, 40]);
    b.step(Step::Ring { place: 3, words: vec![memory - 8] });
    let answers = [b.submit_to(memory as usize / 4, &[30, 7], &[], &[]), b.submit_to(memory as usize / 4, &[30, 7], &[], &[])];
    b.holds("P2, a ring of any size", answers == [0, 0]);
}
