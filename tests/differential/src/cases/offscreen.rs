//! Numbers for 02's P5, offscreen rows.

use super::{Bench, ALL, MAX};
use crate::step::Step;

/// Rows and words behind them: four rows of four, two of them offscreen, and three words.
const WIDTH: u32 = 4;
const HEIGHT: u32 = 2;
const PIXELS: u32 = 19;

impl Bench {
    /// Pixels 1, 2, 3 and so on in every row that lies whole in the screen, painted while the mode had them all; then this height.
    fn numbered(&mut self, width: u32, height: u32, pixels: u32) {
        let rows = pixels / width;
        self.accepted_in([16, MAX, 16, 16], width, rows, pixels);
        for place in 0..width * rows {
            self.run(&[2, place + 1, place % width, place / width, 1, 1], 1);
        }
        self.write(3, height);
    }

    /// Runs a command on that screen. Gives its rows, and whether it was executed and the words behind them are as before.
    fn painted(&mut self, (width, height, pixels): (u32, u32, u32), words: &[u32]) -> (Vec<u32>, bool) {
        self.numbered(width, height, pixels);
        let (all, rows) = (pixels as usize, (pixels / width * width) as usize);
        let behind = self.screen(all)[rows..].to_vec();
        let answered = self.run(words, ALL);
        (self.screen(rows).to_vec(), answered == (0, 1) && self.screen(all)[rows..] == behind)
    }

    /// The same in four rows of four, two of them offscreen. These words stand in the rows from one on, the others are as before.
    fn paints(&mut self, case: &str, words: &[u32], first_row: u32, changed: &[u32]) {
        let mut expected: Vec<u32> = (1..=WIDTH * (PIXELS / WIDTH)).collect();
        expected[(first_row * WIDTH) as usize..][..changed.len()].copy_from_slice(changed);
        let found = self.painted((WIDTH, HEIGHT, PIXELS), words);
        self.holds(case, found == (expected, true));
    }
}

pub(super) fn hold(b: &mut Bench) {
    empty_rectangle(b);
    fills(b);
    copies(b);
    strip(b);
    mode_alone(b);
    rows_by_width(b);
    many_rows(b);
}

/// "Document 01's clipping cases hold where the rectangle is empty, as in 1 and 2 with P = 4." These three hold where it is not, too.
fn empty_rectangle(b: &mut Bench) {
    for pixels in [4, 5, 6, 7, 8, 13] {
        for (case, words, first_row) in [
            ("P5, case 1", &[3, 0, 0, 1, 0, 4, 1][..], [1, 1, 2, 3]),
            ("P5, case 2", &[3, 2, 0, 0, 0, 4, 1], [3, 4, 3, 4]),
            ("P5, case 3", &[2, 9, 0, ALL, 4, 2], [1, 2, 3, 4]),
        ] {
            let expected = first_row.into_iter().chain(5..=pixels / 4 * 4).collect();
            let found = b.painted((4, 1, pixels), words);
            b.holds(case, found == (expected, true));
        }
    }
    for pixels in 4..8 {
        for words in [&[2, 9, 0, 1, ALL, ALL][..], &[3, 0, 1, 0, 0, 4, 1], &[3, 0, 0, 0, 1, 4, 1]] {
            let found = b.painted((4, 1, pixels), words);
            b.holds("P5, below a mode with no row behind it", found == (vec![1, 2, 3, 4], true));
        }
    }
}

fn fills(b: &mut Bench) {
    b.paints("P5, case 3", &[2, 9, 0, ALL, 4, 2], 0, &[]);
    b.paints("P5, a fill offscreen", &[2, 99, 1, 2, 2, 1], 2, &[9, 99, 99, 12]);
    b.paints("P5, a fill over the mode's last row", &[2, 9, 0, 1, 4, 2], 1, &[9; 8]);
    b.paints("P5, a fill of everything", &[2, 9, 0, 0, ALL, ALL], 0, &[9; 16]);
    b.paints("P5, a fill of the last pixel", &[2, 9, 3, 3, ALL, ALL], 3, &[13, 14, 15, 9]);
    b.paints("P5, a fill behind the last whole row", &[2, 9, 0, 4, ALL, ALL], 0, &[]);
    b.paints("P5, an XOR fill", &[13, 1, 0, 3, 4, 1, 6], 3, &[12, 15, 14, 17]);
}

/// Demand 2's rule "in the mode or offscreen" for both pixels.
fn copies(b: &mut Bench) {
    b.paints("P5, a copy to offscreen rows", &[3, 0, 0, 0, 2, 4, 2], 2, &[1, 2, 3, 4, 5, 6, 7, 8]);
    b.paints("P5, a copy from offscreen rows", &[3, 0, 2, 0, 0, 4, 2], 0, &[9, 10, 11, 12, 13, 14, 15, 16]);
    b.paints("P5, a copy within offscreen rows", &[3, 0, 2, 1, 2, 4, 2], 2, &[9, 9, 10, 11, 13, 13, 14, 15]);
    b.paints("P5, a copy down over the mode's last row", &[3, 0, 0, 0, 1, 4, 3], 1, &[1, 2, 3, 4, 5, 6, 7, 8, 9, 10, 11, 12]);
    b.paints("P5, a copy up over the mode's last row", &[3, 0, 1, 0, 0, 4, 3], 0, &[5, 6, 7, 8, 9, 10, 11, 12, 13, 14, 15, 16]);
    b.paints("P5, a copy cut by its source", &[3, 0, 3, 0, 0, 4, 2], 0, &[13, 14, 15, 16]);
    b.paints("P5, a copy cut by its destination", &[3, 0, 0, 0, 3, 4, 2], 3, &[1, 2, 3, 4]);
    b.paints("P5, a copy from behind the last whole row", &[3, 0, 4, 0, 0, 3, 1], 0, &[]);
    b.paints("P5, an XOR copy", &[14, 0, 2, 0, 0, 4, 1, 6], 0, &[8, 8, 8, 8]);
}

/// A strip is kept offscreen, moved on there, and brought back.
fn strip(b: &mut Bench) {
    b.numbered(WIDTH, HEIGHT, PIXELS);
    let behind = b.screen(PIXELS as usize)[16..].to_vec();
    let kept = b.run(&[3, 0, 0, 0, 2, 4, 2, 2, 0, 0, 0, 4, 2], ALL);
    b.holds("P5, a strip is kept", kept == (0, 2) && b.screen(16) == [0, 0, 0, 0, 0, 0, 0, 0, 1, 2, 3, 4, 5, 6, 7, 8]);
    b.run(&[3, 1, 2, 0, 2, 3, 2, 2, 9, 3, 2, 1, 2], ALL);
    b.holds("P5, a strip is moved on", b.screen(16) == [0, 0, 0, 0, 0, 0, 0, 0, 2, 3, 4, 9, 6, 7, 8, 9]);
    b.run(&[3, 0, 2, 0, 0, 4, 2], ALL);
    b.holds("P5, a strip is brought back", b.screen(8) == [2, 3, 4, 9, 6, 7, 8, 9]);
    b.holds("P5, the words behind the last whole row", b.screen(PIXELS as usize)[16..] == behind);
}

/// "UPDATE and pictures keep to the mode. CAPABILITIES gains 0x1000."
fn mode_alone(b: &mut Bench) {
    for words in [&[1, 0, 0, ALL, ALL][..], &[25, 0, 0, ALL, ALL, 7], &[1, 0, 1, 4, 3], &[1, 0, 2, 4, 2]] {
        let (screen, executed) = b.painted((WIDTH, HEIGHT, PIXELS), words);
        let from = (words[2].min(HEIGHT) * WIDTH) as usize;
        let framebuffer = b.pair.expected.framebuffer.first(8);
        let as_before = |places: std::ops::Range<usize>| places.into_iter().all(|place| screen[place] == place as u32 + 1);
        let held = executed && as_before(0..from) && screen[from..8] == framebuffer[from..] && as_before(8..16);
        b.holds("P5, UPDATE keeps to the mode", held);
    }
    let lengths = b.pair.right_lengths();
    let output = b.pair.expected.output.first(PIXELS as usize).to_vec();
    let pictured = b.step(Step::Picture { lengths });
    let (screen, now) = (b.screen(8), b.pair.expected.output.first(PIXELS as usize));
    b.holds("P5, a picture keeps to the mode", pictured == (0, 0) && now[..8] == *screen && now[8..] == output[8..]);
    let capabilities = b.step(Step::Read { lengths, index: 17 });
    b.holds("P5, CAPABILITIES", capabilities == (0, 0x12D3));
}

/// The rows are those of the width of now.
fn rows_by_width(b: &mut Bench) {
    for (width, painted) in [(1, 23), (2, 22), (3, 21), (4, 20), (5, 20), (6, 18), (12, 12), (23, 23)] {
        b.numbered(23, 1, 23);
        b.write(2, width);
        b.run(&[2, 99, 0, 0, ALL, ALL], ALL);
        let expected: Vec<u32> = (1..=23).map(|pixel| if pixel <= painted { 99 } else { pixel }).collect();
        b.holds("P5, rows by the width", b.screen(23) == expected);
    }
}

/// More rows than a mode can have. Fewer where each memory is lent as a block of its own.
fn many_rows(b: &mut Bench) {
    let pixels: u32 = if b.exact { 50_000 } else { 4_096_000 };
    b.accepted_in([16, MAX, 16, 16], 1, 1600, pixels);
    let last = pixels - 1;
    b.run(&[2, 7, 0, 0, 1, 1, 2, 9, 0, last, ALL, ALL, 3, 0, last - 1, 0, 0, 1, 2], ALL);
    let screen = b.screen(pixels as usize);
    b.holds("P5, the last of many rows", screen[last as usize] == 9 && screen[1] == 9 && screen[0] == screen[last as usize - 1]);
}
