//! Document 01's "Numbers to hold against it" and its console example, and numbers for 02's P1, P2, P4 and P5, on library and model.

use crate::alarm;
use crate::counts::Counts;
use crate::model::Model;
use crate::pair::Pair;
use crate::step::Step;

mod offscreen;
mod writer;

const MEMORY: u32 = 10_256;
const MAX: u32 = MEMORY;
const ALL: u32 = u32::MAX;

struct Bench {
    pair: Pair,
    counts: Counts,
    exact: bool,
    failed: Vec<String>,
    held: u32,
}

impl Bench {
    fn step(&mut self, step: Step) -> (u64, u64) {
        match self.pair.step(&step, &mut self.counts) {
            Ok(answered) => answered.map_or((0, 0), |answered| (answered.answer, answered.value)),
            Err(what) => {
                self.failed.push(format!("{step}: {what}"));
                (u64::MAX, u64::MAX)
            }
        }
    }

    fn write(&mut self, index: u32, value: u32) -> u64 {
        let lengths = self.pair.right_lengths();
        self.step(Step::Write { lengths, index, value }).0
    }

    /// A device with these ring words, enabled and configured, and a mode that fills the pixels.
    fn accepted(&mut self, ring: [u32; 4], width: u32, height: u32) {
        self.accepted_in(ring, width, height, width * height);
    }

    /// The same with so many pixels.
    fn accepted_in(&mut self, ring: [u32; 4], width: u32, height: u32, pixels: u32) {
        self.pair = Pair::new(Model::new(None), self.exact);
        let memory = ring[1];
        self.step(Step::Memories { ring: memory as usize / 4, pixels: pixels as usize, fill: 0 });
        let lengths = self.pair.right_lengths();
        self.step(Step::Make { lengths, memory, pixels });
        self.step(Step::Ring { place: 0, words: ring.to_vec() });
        for (index, value) in [(2, width), (3, height), (1, 1), (20, 1)] {
            self.write(index, value);
        }
    }

    /// The smallest ring, empty; everything else zero.
    fn fresh(&mut self, width: u32, height: u32) {
        self.accepted([16, MAX, 16, 16], width, height);
        self.run(&[2, 0, 0, 0, ALL, ALL], ALL);
    }

    /// Runs these words in a ring of this MIN that was accepted empty, with STOP so many words before its end. The guest writes 99 to ring
    /// word 6 before and rewrites ring word 0 after that. Gives the answer, the ring words that the run changed, and ring word 6.
    fn posting(&mut self, min: u32, before_end: u32, word_0: u32, words: &[u32]) -> ((u64, u64), Vec<usize>, u32) {
        let max = min + 10_240;
        self.accepted([min, max, max - 4 * before_end, max - 4 * before_end], 1, 1);
        self.step(Step::Ring { place: 6, words: vec![99] });
        self.write(20, 1);
        self.append(words);
        self.step(Step::Ring { place: 0, words: vec![word_0] });
        let ring = |bench: &Bench| bench.pair.expected.ring.first(max as usize / 4).to_vec();
        let before = ring(self);
        let answered = self.run(&[], ALL);
        let after = ring(self);
        (answered, (0..before.len()).filter(|&place| before[place] != after[place]).collect(), after[6])
    }

    fn append(&mut self, words: &[u32]) {
        let lengths = self.pair.right_lengths();
        for &word in words {
            self.step(Step::Append { lengths, word });
        }
    }

    fn run(&mut self, words: &[u32], budget: u32) -> (u64, u64) {
        self.append(words);
        let lengths = self.pair.right_lengths();
        self.step(Step::Run { lengths, budget })
    }

    fn screen(&self, length: usize) -> &[u32] {
        self.pair.expected.screen.first(length)
    }

    fn holds(&mut self, case: &str, held: bool) {
        if held {
            self.held += 1;
        } else {
            self.failed.push(format!("{case} does not hold"));
        }
    }

    fn one_to_four(&mut self) {
        self.fresh(4, 1);
        for x in 0..4 {
            self.run(&[2, x + 1, x, 0, 1, 1], 1);
        }
    }

    /// STOP's way in words, from the ring word that it had.
    fn consumed(&self, from: u32) -> u32 {
        (self.pair.ring_words()[3] + (MAX - 16) - from) % (MAX - 16) / 4
    }

    fn cursor(&mut self, w: u32, h: u32) -> (u64, u64) {
        self.fresh(4, 4);
        let mut words = vec![22, 1, 0, 0, w, h];
        words.resize(6 + (w * h) as usize, 0);
        words.truncate(2559);
        self.run(&words, ALL)
    }

    fn escape(&mut self, size: u32) -> ((u64, u64), u32) {
        self.fresh(4, 4);
        let from = self.pair.ring_words()[3];
        let mut words = vec![33, 0, size];
        words.resize(3 + size.div_ceil(4) as usize, 0);
        words.truncate(2559);
        let answered = self.run(&words, ALL);
        (answered, self.consumed(from))
    }
}

/// True if all hold.
pub fn hold(exact: bool) -> bool {
    alarm::set_cases();
    let pair = Pair::new(Model::new(None), exact);
    let mut b = Bench { pair, counts: Counts::new(), exact, failed: Vec::new(), held: 0 };

    b.one_to_four();
    b.run(&[3, 0, 0, 1, 0, 4, 1], ALL);
    b.holds("case 1", b.screen(4) == [1, 1, 2, 3]);

    b.one_to_four();
    b.run(&[3, 2, 0, 0, 0, 4, 1], ALL);
    b.holds("case 2", b.screen(4) == [3, 4, 3, 4]);

    b.one_to_four();
    let answered = b.run(&[2, 9, 0, ALL, 4, 2], ALL);
    b.holds("case 3", answered == (0, 1) && b.screen(4) == [1, 2, 3, 4]);

    for (operation, colour, below, result) in [(6, 5, 3, 6), (2, 5, 3, 4), (8, 0, 0, ALL)] {
        b.fresh(1, 1);
        b.run(&[2, below, 0, 0, 1, 1, 13, colour, 0, 0, 1, 1, operation], ALL);
        b.holds("case 4", b.screen(1) == [result]);
    }

    let answers = [b.cursor(50, 51), b.cursor(51, 51)];
    b.holds("case 5", answers == [(0, 1), (12, 0)]);

    let answers = [b.cursor(64, 1), b.cursor(65, 1), b.cursor(0, 1)];
    b.holds("case 6", answers == [(0, 1), (11, 0), (11, 0)]);

    let answers = [b.escape(0), b.escape(1), b.escape(10_224), b.escape(10_225)];
    b.holds("case 7", answers == [((0, 1), 3), ((0, 1), 4), ((0, 1), 2559), ((12, 0), 0)]);

    b.fresh(2, 1);
    b.run(&[22, 0, 0, 0, 1, 1, 0x80FF_FFFF], ALL);
    b.write(27, 1);
    let lengths = b.pair.right_lengths();
    b.step(Step::Picture { lengths });
    b.holds("case 8", b.pair.expected.output.first(2) == [0x0080_8080, 0]);

    b.fresh(2, 1);
    b.run(&[22, 0, 0, 0, 2, 1, 0xFF00_0001, 0xFF00_0002], ALL);
    b.write(25, 4_294_967_295);
    b.write(27, 1);
    b.step(Step::Picture { lengths });
    b.holds("case 9", b.pair.expected.output.first(2) == [2, 0]);

    b.fresh(1, 1);
    b.run(&[30, 1], ALL);
    let lengths = b.pair.right_lengths();
    let passed = [4_294_967_295, 2].map(|fence| b.step(Step::FencePassed { lengths, fence }));
    b.holds("case 10", passed == [(0, 1), (0, 0)]);

    for next in [18, MAX] {
        b.fresh(1, 1);
        b.step(Step::Ring { place: 2, words: vec![next] });
        let answered = b.run(&[], ALL);
        b.holds("case 11", answered == (13, 0));
    }
    b.fresh(1, 1);
    let answered = b.run(&[20], ALL);
    b.holds("case 11", answered == (10, 0));

    b.fresh(1, 1);
    let answers = [b.run(&[30, 7], 1), b.run(&[], 1)];
    b.holds("case 12", answers == [(2, 1), (0, 0)]);

    // 02's P6: "FENCE 0 becomes a fault; case 13 changes with it." It was "Fence 0 is stored."
    b.fresh(1, 1);
    let answered = b.run(&[30, 7, 30, 0, 30, 8], ALL);
    let lengths = b.pair.right_lengths();
    let fence = b.step(Step::Fence { lengths });
    b.holds("case 13", answered == (11, 1) && fence == (0, 7));
    let answered = b.run(&[], ALL);
    b.holds("P6, the fault stands", answered == (23, 0));
    b.fresh(1, 1);
    let from = b.pair.ring_words()[3];
    let answers = [b.run(&[30], 0), b.run(&[], ALL), b.run(&[0], 0), b.run(&[], 1)];
    b.holds("P6, judged once both words are there", answers == [(2, 0), (1, 0), (2, 0), (11, 0)] && b.consumed(from) == 0);

    b.fresh(32, 32);
    let answered = b.run(&[2, 255, 30, 31, 4_294_967_295, 5], 9);
    b.holds("the console example", answered == (0, 1) && b.screen(1024)[1021..] == [0, 255, 255]);

    // 02's P1: in a row of words, over the ring's end and up to it, in rings of each MIN.
    for (min, posts) in [(16, false), (20, false), (24, false), (28, true), (32, true), (64, true)] {
        for before_end in [40, 2, 1] {
            // With MIN 24 the number of a FENCE over the ring's end is itself ring word 6.
            let kept = if min == 24 && before_end == 1 { 7 } else { 99 };
            let expected = if posts { (vec![3, 6], 7) } else { (vec![3], kept) };
            let (answered, changed, word_6) = b.posting(min, before_end, min, &[30, 7]);
            b.holds("P1, where fences are posted", answered == (0, 1) && (changed, word_6) == expected);
        }
    }
    for (min, word_0, word_6) in [(28, 24, 7), (28, 0, 7), (28, ALL, 7), (24, 28, 99), (16, ALL, 99)] {
        let found = b.posting(min, 40, word_0, &[30, 7]);
        b.holds("P1, the remembered MIN decides", found.0 == (0, 1) && found.2 == word_6);
    }
    // The last fence is 7 already, and the guest has written 99 to ring word 6.
    b.posting(28, 40, 28, &[30, 7]);
    let found = b.posting(28, 40, 28, &[30, 7]);
    b.holds("P1, a fence that comes again", found == ((0, 1), vec![3, 6], 7));
    for (words, answer, changed, word_6) in [
        (&[][..], (0, 0), vec![], 99),
        (&[2, 1, 0, 0, 1, 1], (0, 1), vec![3], 99),
        (&[30], (1, 0), vec![], 99),
        (&[30, 7, 30, 0], (11, 1), vec![3, 6], 7),
        (&[30, 0], (11, 0), vec![], 99),
        (&[30, 7, 30, 8, 20], (10, 2), vec![3, 6], 8),
        (&[20], (10, 0), vec![], 99),
    ] {
        let found = b.posting(28, 40, 28, words);
        b.holds("P1, what a run writes", found == (answer, changed, word_6));
    }

    writer::hold(&mut b);

    // 02's P4: "at width 1,024 .. got 170 columns"; two rows are left behind the mode.
    b.accepted([16, MAX, 16, 16], 1024, 6);
    b.write(3, 4);
    let lengths = b.pair.right_lengths();
    b.step(Step::Offscreen { lengths });
    let edges = b.pair.expected.edges.first(4).to_vec();
    b.holds("P4, the offscreen rectangle at width 1,024", edges == [0, 4, 1024, 6]);

    offscreen::hold(&mut b);

    for line in &b.failed {
        println!("failed: the documents' numbers: {line}");
    }
    println!("passed: {} of the documents' numbers, {} calls", b.held, b.counts.calls);
    b.failed.is_empty()
}
