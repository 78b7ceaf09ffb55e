//! A sea-level board, drawn only by commands through the ring, and written as PPM and PNG.
//!
//!     board FOLDER
//!
//! Rectangles are unsigned, so they reach right and down. The chart is therefore drawn standing on its head, a level being a height from
//! its row of 0 m: whatever a wave's height, it is handed to the device as it is, and the device cuts it where the screen ends.
//!
//! The chart is kept in offscreen rows, behind the mode's, and blank paper with it. As hours pass it scrolls there, and the new ones are
//! drawn on paper that comes in at its right. To be shown, its rows are copied into the mode, the last first; then labels come on top.

mod files;
mod font;
mod pointer;

use std::ops::Range;
use std::path::Path;
use std::{env, fs, process};
use svga::{cursor_on, limit, reg, rop, Adapter, Command, Error, Rect};

const WIDTH: u32 = 640;
const HEIGHT: u32 = 360;
/// The offscreen rows: first the paper, then the chart, up to the last one, so that a wave above the picture ends where the screen does.
const PAPER: u32 = HEIGHT;
const CHART: u32 = 2 * HEIGHT;
const ROWS: u32 = 3 * HEIGHT;
/// The chart: the columns of its 24 hours, and the rows below 0 m.
const LEFT: u32 = 44;
const HOUR: u32 = 24;
const ACROSS: u32 = 24 * HOUR;
/// The columns by which it scrolls: grid and ticks are the same again after three hours.
const STEP: u32 = 3 * HOUR;
const BASE: u32 = 36;
const METRE: u32 = 48;
/// The axis goes to here. The curve does not care.
const AXIS_MAXIMUM: u32 = 5;
/// The quay's edge: water above it is a flood.
const QUAY: f64 = 3.5;

const AXIS: u32 = 0x8FA8BF;
const TEXT: u32 = 0xDCE6F0;
const DIM: u32 = 0x8398AC;
const AMBER: u32 = 0xE8B040;
const CREST: u32 = 0xC8F0FF;
const FLOOD_CREST: u32 = 0xFFE8C8;
// Bits for OR that the background has not set, so that what is below shows through.
const WATER: u32 = 0x004080;
const SHALLOW: u32 = 0x002040;
const ZONE: u32 = 0x200000;
const FLOOD: u32 = 0xC00000;
const NOT_BLUE: u32 = 0xFFFF7F;

/// Pixels of a level.
fn pixels(level: f64) -> u32 {
    (level * f64::from(METRE)).round().max(0.0) as u32
}

/// A wave of period 1 and height 1, of parabolas.
fn wave(t: f64) -> f64 {
    let t = t - t.floor();
    if t < 0.5 {
        16.0 * t * (0.5 - t)
    } else {
        -16.0 * (t - 0.5) * (1.0 - t)
    }
}

/// The sea level in metres at an hour: two tides, some swell, and a surge at a quarter past three.
fn level(hour: f64) -> f64 {
    let surge = (hour - 15.25) / 1.15;
    let surge = 5.1 / (1.0 + surge * surge) / (1.0 + surge * surge);
    1.9 + 0.95 * wave((hour - 0.6) / 12.4) + 0.07 * wave(hour / 0.83) + 0.05 * wave(hour / 0.37) + surge
}

struct Board {
    adapter: Adapter,
}

impl Board {
    fn fill(&mut self, colour: u32, x: u32, y: u32, w: u32, h: u32) -> Result<(), Error> {
        self.adapter.submit(&Command::RectFill { colour, to: Rect::new(x, y, w, h) })
    }

    fn combine(&mut self, rop: u32, colour: u32, x: u32, y: u32, w: u32, h: u32) -> Result<(), Error> {
        self.adapter.submit(&Command::RectRopFill { colour, to: Rect::new(x, y, w, h), rop })
    }

    /// Text by fills, a run of pixels each.
    fn text(&mut self, text: &str, x: u32, y: u32, size: u32, colour: u32) -> Result<(), Error> {
        for (column, row, length) in font::runs(text) {
            self.fill(colour, x + column * size, y + row * size, length * size, size)?;
        }
        Ok(())
    }

    fn copy(&mut self, sx: u32, sy: u32, x: u32, y: u32, w: u32, h: u32) -> Result<(), Error> {
        self.adapter.submit(&Command::RectCopy { sx, sy, to: Rect::new(x, y, w, h) })
    }

    /// Repeats a strip of `first` columns until it is `whole` wide, doubling it by copies.
    fn repeat(&mut self, y: u32, h: u32, first: u32, whole: u32) -> Result<(), Error> {
        let mut done = first;
        while done < whole {
            let w = done.min(whole - done);
            self.copy(LEFT, y, LEFT + done, y, w, h)?;
            done += w;
        }
        Ok(())
    }

    /// The ground and the axes, on their head: the first row is the lowest.
    fn paper(&mut self) -> Result<(), Error> {
        for row in 0..HEIGHT {
            let up = |low: u32, high: u32| (low * (HEIGHT - row) + high * row) / HEIGHT;
            self.fill(up(14, 9) << 16 | up(30, 17) << 8 | up(56, 32), 0, PAPER + row, WIDTH, 1)?;
        }
        let base = PAPER + BASE;
        let quay = base + pixels(QUAY);
        self.combine(rop::OR, ZONE, LEFT, quay, ACROSS, u32::MAX)?; // the flood zone has no upper end
        self.fill(AMBER, LEFT, quay, 7, 1)?;
        self.repeat(quay, 1, 12, ACROSS)?;
        for metre in 0..=AXIS_MAXIMUM {
            let row = base + metre * METRE;
            self.combine(rop::OR, 0x10_1818, LEFT, row, ACROSS, 1)?;
            self.fill(AXIS, LEFT - 6, row, 6, 1)?;
            if metre < AXIS_MAXIMUM {
                self.fill(AXIS, LEFT - 3, row + METRE / 2, 3, 1)?;
            }
        }
        self.fill(AXIS, LEFT - 1, base, 1, AXIS_MAXIMUM * METRE + 1)?;
        for hour in (0..=24).step_by(3) {
            self.combine(rop::OR, 0x10_1818, LEFT + hour * HOUR, base + 1, 1, AXIS_MAXIMUM * METRE)?;
        }
        self.fill(AXIS, LEFT, base - 6, 1, 6)?; // ticks of three hours, then copies
        self.fill(AXIS, LEFT + HOUR, base - 3, 1, 3)?;
        self.fill(AXIS, LEFT + 2 * HOUR, base - 3, 1, 3)?;
        self.repeat(base - 6, 6, STEP, ACROSS + 1)?;
        self.fill(AXIS, LEFT - 1, base - 1, ACROSS + 2, 1)
    }

    /// The water of some columns with its crest, on its head: any height will do. Columns count from 00:00; the chart begins at `first`.
    fn tide(&mut self, first: i32, columns: Range<i32>) -> Result<(), Error> {
        let (base, quay) = (CHART + BASE, pixels(QUAY));
        for column in columns {
            let x = LEFT + (column - first) as u32;
            let [left, height] = [column, column + 1].map(|edge| pixels(level(f64::from(edge) / f64::from(HOUR))));
            self.combine(rop::OR, WATER, x, base, 1, height)?;
            self.combine(rop::OR, SHALLOW, x, base + height.saturating_sub(5), 1, height.min(5))?;
            if height > quay {
                self.combine(rop::AND, NOT_BLUE, x, base + quay, 1, height - quay)?;
                self.combine(rop::OR, FLOOD, x, base + quay, 1, height - quay)?;
            }
            let (low, high) = (left.min(height), left.max(height));
            let colour = if high > quay { FLOOD_CREST } else { CREST };
            self.combine(rop::OR, 0x30_5050, x, base + low - 2, 1, high - low + 5)?;
            self.fill(colour, x, base + low - 1, 1, high - low + 2)?;
        }
        Ok(())
    }

    /// The chart from column `first` on, 24 hours of it.
    fn chart(&mut self, first: i32) -> Result<(), Error> {
        self.copy(0, PAPER, 0, CHART, WIDTH, HEIGHT)?;
        self.tide(first, first..first + ACROSS as i32)
    }

    /// Three hours on, where nobody looks: the chart moves to the left, paper comes in at the right, and on it the new hours. Then it
    /// begins at column `first`.
    fn scroll(&mut self, first: i32) -> Result<(), Error> {
        self.copy(LEFT + STEP, CHART, LEFT, CHART, ACROSS - STEP, HEIGHT)?;
        self.copy(LEFT, PAPER, LEFT + ACROSS - STEP, CHART, STEP, HEIGHT)?;
        let end = first + ACROSS as i32;
        self.tide(first, end - STEP as i32..end)
    }

    /// Shows the chart, on its feet.
    fn show(&mut self) -> Result<(), Error> {
        (0..HEIGHT).try_for_each(|row| self.copy(0, ROWS - 1 - row, 0, row, WIDTH, 1))
    }

    fn labels(&mut self) -> Result<(), Error> {
        let hours = (0..ACROSS).map(|column| f64::from(column) / f64::from(HOUR));
        let (peak, hour) = hours.map(|hour| (level(hour), hour)).fold((0.0, 0.0), |a, b| if b.0 > a.0 { b } else { a });
        let left = LEFT + (hour * f64::from(HOUR)) as u32 - 96;
        self.text(&format!("{peak:.1} m"), left, 14, 2, FLOOD_CREST)?;
        self.text(&format!("at {:02}:{:02}", hour as u32, (hour % 1.0 * 60.0) as u32), left, 34, 1, DIM)?;
        for metre in 0..=AXIS_MAXIMUM {
            self.text(&format!("{metre} m"), LEFT - 28, HEIGHT - BASE - 4 - metre * METRE, 1, TEXT)?;
        }
        for hour in (0..=24).step_by(3) {
            self.text(&format!("{hour:02}:00"), LEFT + hour * HOUR - 14, HEIGHT - BASE + 11, 1, TEXT)?;
        }
        self.text("Sea level", LEFT + 8, 14, 2, TEXT)?;
        self.text("Harbour gauge, metres", LEFT + 8, 34, 1, DIM)?;
        self.text("Flood zone", LEFT + 8, HEIGHT - BASE - pixels(QUAY) - 13, 1, AMBER)
    }

    /// The legend, which the guest draws in the framebuffer and has brought to the screen.
    fn legend(&mut self) -> Result<(), Error> {
        let card = Rect::new(LEFT + ACROSS - 138, 12, 130, 62);
        let plane = self.adapter.framebuffer_mut();
        let mut paint = |x: u32, y: u32, w: u32, h: u32, colour: u32| {
            for row in y..y + h {
                plane[(row * WIDTH + x) as usize..][..w as usize].fill(colour);
            }
        };
        paint(card.x, card.y, card.w, card.h, 0x3A5268);
        paint(card.x + 1, card.y + 1, card.w - 2, card.h - 2, 0x101E2C);
        let lines = [("Sea level", CREST, 3), ("Water", 0x0E5CB0, 8), ("Flood", 0xEC5A28, 8), ("Quay edge, 3.5 m", AMBER, 1)];
        for ((text, colour, thick), y) in lines.into_iter().zip((card.y + 8..).step_by(13)) {
            paint(card.x + 8, y + 3 - thick / 2, 14, thick, colour);
            for (column, row, length) in font::runs(text) {
                paint(card.x + 29 + column, y + row, length, 1, TEXT);
            }
        }
        self.adapter.submit(&Command::Update(card))
    }

    /// Defines the cursor by the ring and shows it by registers.
    fn cursor(&mut self, x: u32, y: u32) -> Result<(), Error> {
        let (id, (hotx, hoty)) = (1, pointer::HOTSPOT);
        let image = pointer::pixels();
        self.adapter.submit(&Command::DefineAlphaCursor { id, hotx, hoty, w: pointer::WIDTH, h: pointer::HEIGHT, pixels: &image })?;
        for (index, value) in [(reg::CURSOR_ID, id), (reg::CURSOR_X, x), (reg::CURSOR_Y, y), (reg::CURSOR_ON, cursor_on::SHOW)] {
            self.adapter.write(index, value)?;
        }
        Ok(())
    }

    /// Appends a fence and runs until it stands in ring word 6, where guests look: then all before it is on the screen.
    fn wait(&mut self, fence: u32) -> Result<(), Error> {
        self.adapter.submit(&Command::Fence(fence))?;
        while self.adapter.posted_fence() != Some(fence) {
            let run = self.adapter.run(64)?;
            if let Some(fault) = run.fault() {
                return Err(Error::FaultStands(fault));
            }
            assert_ne!(run.count, 0, "the ring is empty and no fence is posted: libsvga.a is older than this program");
        }
        Ok(())
    }
}

/// The board at midnight, as an adapter shows it: begun so many times three hours before, and scrolled since.
fn draw(steps: i32) -> Result<Adapter, Error> {
    let mut board = Board { adapter: Adapter::new(65_536, WIDTH * ROWS)? };
    board.adapter.start_at(limit::RING_START_FENCE, WIDTH, HEIGHT)?;
    board.paper()?;
    board.chart(-steps * STEP as i32)?;
    for left in (0..steps).rev() {
        board.show()?;
        board.scroll(-left * STEP as i32)?;
    }
    board.show()?;
    board.labels()?;
    board.legend()?;
    board.cursor(452, 96)?;
    board.wait(1)?;
    Ok(board.adapter)
}

fn write(folder: &Path) -> Result<(), Box<dyn std::error::Error>> {
    let mut adapter = draw(2)?;
    let picture = adapter.picture()?;
    fs::create_dir_all(folder)?;
    for (name, file) in [("board.ppm", files::ppm(&picture)), ("board.png", files::png(&picture))] {
        let path = folder.join(name);
        fs::write(&path, &file)?;
        println!("{}: {} by {}, {} bytes", path.display(), picture.width, picture.height, file.len());
    }
    Ok(())
}

fn main() {
    let words: Vec<_> = env::args_os().skip(1).collect();
    let [folder] = &words[..] else {
        eprintln!("usage: board FOLDER");
        process::exit(2);
    };
    if let Err(error) = write(Path::new(folder)) {
        eprintln!("board: {error}");
        process::exit(1);
    }
}

#[cfg(test)]
mod tests {
    use super::*;

    /// The screen's rows of a chart column, from the top.
    fn column(adapter: &Adapter, column: u32) -> Vec<u32> {
        (0..HEIGHT).map(|row| adapter.screen()[(row * WIDTH + LEFT + column) as usize]).collect()
    }

    /// The height of the water at a column's right edge, in pixels above 0 m.
    fn height(column: u32) -> u32 {
        pixels(level(f64::from(column + 1) / f64::from(HOUR)))
    }

    /// Whether the crest of a column, which goes from the height at its left edge to that at its right edge, is above a height.
    fn crest_above(column: u32, limit: u32) -> bool {
        column > 0 && height(column - 1).min(height(column)) > limit + 1
    }

    #[test]
    fn a_wave_is_cut_at_the_screens_edge_and_nowhere_else() {
        let adapter = draw(2).unwrap();
        let (axis, screen) = (AXIS_MAXIMUM * METRE, HEIGHT - BASE);
        let (mut above_axis, mut above_screen) = (0, 0);
        for x in 0..ACROSS {
            let (height, rows) = (height(x), column(&adapter, x));
            if !crest_above(x, axis) {
                continue;
            }
            above_axis += 1;
            // flooded from the axis maximum up to the crest, or to the screen's top edge where the crest lies above it
            for up in axis..height.min(screen) {
                let pixel = rows[(screen - 1 - up) as usize];
                assert!(pixel & FLOOD == FLOOD, "column {x}, {up} above 0 m: {pixel:06x} is no flood");
            }
            if crest_above(x, screen) {
                above_screen += 1;
                assert!(rows[0] != FLOOD_CREST, "column {x}: the crest is above the screen");
            }
        }
        assert!(
            above_axis > 20 && above_screen > 8,
            "the wave is above the axis in {above_axis} columns, above the screen in {above_screen}"
        );
    }

    #[test]
    fn crests_stand_where_the_level_is() {
        let adapter = draw(2).unwrap();
        for x in 0..ACROSS {
            let height = height(x);
            if height + 2 < HEIGHT - BASE {
                let crest = column(&adapter, x)[(HEIGHT - 1 - BASE - height) as usize];
                assert!(crest == CREST || crest == FLOOD_CREST, "column {x}: {crest:06x}");
            }
        }
    }

    /// What was scrolled is what would have been drawn at once, and what nobody sees is not in the picture.
    #[test]
    fn scrolling_does_not_show() {
        let mode = (WIDTH * HEIGHT) as usize;
        let at_once = draw(0).unwrap();
        for steps in 1..=8 {
            let mut scrolled = draw(steps).unwrap();
            assert!(scrolled.screen()[..mode] == at_once.screen()[..mode], "begun {steps} times three hours before");
            assert_eq!(scrolled.picture().unwrap().pixels.len(), mode);
        }
    }

    #[test]
    fn nothing_is_left_in_the_ring() {
        let mut adapter = draw(2).unwrap();
        assert_eq!((adapter.fence(), adapter.posted_fence()), (1, Some(1)));
        assert_eq!(adapter.run(1).unwrap().to_string(), "drained, 0 commands consumed");
    }
}
