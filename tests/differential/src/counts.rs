//! What the sequences met, and how much of it is required.

use crate::model::device::{Condition, Cursor, Device, CURSOR_WORDS, DEVICE_WORDS};
use crate::model::paint::{Rect, SOURCE};
use crate::model::run::{moved_on, Command, Executed};
use crate::pair::{Answered, Pair};
use crate::step::Step;

mod writer;

use writer::Submitted;

/// Sequences that the minima are for.
pub const SEQUENCES: u64 = 20_000;

const CALLS: [&str; 10] = [
    "svga_make",
    "svga_write",
    "svga_read",
    "svga_run",
    "svga_picture",
    "svga_offscreen",
    "svga_fence",
    "svga_fence_passed",
    "svga_append",
    "svga_append_command",
];

/// The answers of each call, and how often each is required. No other answer may be seen.
const ANSWERS: [&[(usize, u64)]; CALLS.len()] = [
    &[(0, 20_000), (20, 600), (34, 2000)],
    &[(0, 500_000), (20, 3000), (30, 10_000), (31, 30_000), (32, 6000), (33, 15_000)],
    &[(0, 3000), (20, 40), (30, 5000)],
    &[
        (0, 250_000),
        (1, 60_000),
        (2, 150_000),
        (10, 30_000),
        (11, 8000),
        (12, 2500),
        (13, 2000),
        (20, 20_000),
        (21, 8000),
        (22, 20_000),
        (23, 50_000),
        (24, 10_000),
    ],
    &[(0, 70_000), (20, 2000), (24, 15_000)],
    &[(0, 25_000), (20, 80), (30, 700)],
    &[(0, 8000), (20, 40), (30, 700)],
    &[(0, 8000), (20, 40), (30, 700)],
    &[(0, 800_000), (1, 35_000)],
    &[(0, 140_000), (20, 15_000), (33, 14_000), (40, 20_000), (41, 35_000)],
];

const COMMANDS: [&str; 9] =
    ["UPDATE", "RECT_FILL", "RECT_COPY", "RECT_ROP_FILL", "RECT_ROP_COPY", "DEFINE_ALPHA_CURSOR", "UPDATE_VERBOSE", "FENCE", "ESCAPE"];
const COMMAND_MINIMUM: u64 = 25_000;
const CUT_MINIMUM: u64 = 7000;
const EMPTY_MINIMUM: u64 = 7000;
/// For each raster operation; for each one in each direction; for each width and each height.
const FILL_MINIMUM: u64 = 5000;
const OVERLAP_MINIMUM: u64 = 80;
const CURSOR_MINIMUM: u64 = 150;
/// For each MIN; for each one with words of the FENCE on both sides of the ring's end.
const FENCE_MINIMUM: u64 = 40_000;
const STRADDLED_FENCE_MINIMUM: u64 = 150;
const MINS: [&str; 6] = ["16", "20", "24", "28", "32", "above"];

/// Painting commands: the first five and UPDATE_VERBOSE.
const PAINTING: [usize; 6] = [0, 1, 2, 3, 4, 6];

macro_rules! events {
    ($($name:ident: $text:literal, $minimum:literal;)*) => {
        #[derive(Clone, Copy)]
        enum Event {
            $($name,)*
        }

        const EVENTS: &[(&str, u64)] = &[$(($text, $minimum),)*];
    };
}

events! {
    RingWrap: "STOP wrapped from MAX to MIN", 25_000;
    Straddled: "commands with words on both sides of the ring's end", 25_000;
    AppendWrap: "appends that moved NEXT_CMD to MIN", 4000;
    AppendFull: "appends refused by a full ring", 30_000;
    AppendUnusable: "appends refused by unusable ring words", 8000;
    FullRing: "runs on a full ring", 10_000;
    Completed: "commands executed after a run had waited for their rest", 50_000;
    BudgetZero: "runs of budget 0 that were not refused", 50_000;
    BudgetOne: "runs of budget 1 that were not refused", 100_000;
    BudgetAll: "runs of budget 4294967295 that were not refused", 150_000;
    FaultAfterCommands: "faults after commands of the same run", 20_000;
    Changed0: "runs with ring word 0 not as remembered", 10_000;
    Changed1: "runs with ring word 1 not as remembered", 10_000;
    Changed3: "runs with ring word 3 not as remembered", 25_000;
    BusyKept: "runs that kept BUSY", 50_000;
    BusyCleared: "runs that cleared BUSY", 100_000;
    FaultCleared: "faults cleared by CONFIG_DONE 1", 40_000;
    CopyOfCutSource: "copies cut by their source alone", 15_000;
    FillOffscreen: "fills of offscreen rows alone", 12_000;
    FillAcross: "fills of rows of the mode and offscreen rows", 9000;
    CopyToOffscreen: "copies from the mode to offscreen rows", 3000;
    CopyFromOffscreen: "copies from offscreen rows to the mode", 2500;
    CopyWithinOffscreen: "copies from offscreen rows to offscreen rows", 9000;
    CopyAcross: "copies that cross the mode's last row, offscreen rows behind it", 15_000;
    OverlapAcross: "overlapping copies among them", 9000;
    BeyondRows: "fills and copies that go on over the last whole row to words behind it", 12_000;
    SourceBeyondRows: "copies whose source goes on over the last whole row to words behind it", 5000;
    NoRows: "fills and copies that go on over the mode's last row, no offscreen row behind it", 20_000;
    ManyRows: "fills and copies of rows from 1,600 on", 1500;
    UpdateAcross: "UPDATEs cut at the mode's last row, offscreen rows behind it", 4500;
    UpdateOffscreen: "UPDATEs of offscreen rows alone", 5000;
    PictureOffscreen: "pictures with offscreen rows behind the mode", 25_000;
    Largest: "commands executed in screens of a million pixels and more", 10;
    Wide: "overlapping copies in modes at least 2,000 wide", 500;
    CursorInside: "cursors drawn wholly inside", 1000;
    CursorPartly: "cursors drawn partly outside", 9000;
    CursorOutside: "cursors shown wholly outside", 10_000;
    CursorHidden: "pictures without a cursor, though one is defined", 20_000;
    PostedAgainstWord0: "runs that posted a fence with ring word 0 below 28", 1000;
    KeptAgainstWord0: "runs that executed a FENCE and posted none with ring word 0 at 28 or more", 1000;
    NotPosted: "runs with MIN 28 or more that executed commands and no FENCE", 100_000;
    PostedThenFault: "faults after a posted fence of the same run", 3000;
    FenceZero: "faults at a FENCE 0", 1500;
    FenceAwaited: "runs that waited at a FENCE, with a 0 behind the words that wait", 130;
    SubmitExact: "submitted commands that took every free word", 12_000;
    SubmitOneShort: "submitted commands refused for one word", 12_000;
    SubmitByWord3: "submitted commands taken or refused by ring word 3, and not by the device's STOP", 2000;
    SubmitWrapInHead: "submitted commands with the ring's end in their head", 8000;
    SubmitWrapBehindHead: "submitted commands with the ring's end behind their head", 600;
    SubmitWrapInPixels: "submitted commands with the ring's end in their pixels", 1500;
    SubmitWrapInData: "submitted commands with the ring's end in their data", 12_000;
    SubmitToEnd: "submitted commands that moved NEXT_CMD to MIN", 3000;
    SubmitLargest: "submitted commands of 2,559 words in a ring of 2,560", 3000;
    SubmitPadded: "submitted data with padding", 18_000;
    SubmitExecuted: "submitted commands executed", 100_000;
    SubmitFreed: "submitted commands in words that a run had freed", 30_000;
    SubmitOtherLength: "submitted commands taken with a ring of another length than the device's", 3000;
    SubmitRingMissing: "33 by fewer than four ring words", 7000;
    SubmitRingUnusable: "33 by unusable ring words", 7000;
    SubmitRingShort: "33 by a ring that is lent shorter than MAX", 5000;
    SubmitRingBeforeCommand: "33 by the writer, though the number is not offered", 900;
    SubmitNoWords: "41 by no words at all", 4000;
    SubmitUnknown: "41 by a number not offered", 8000;
    SubmitFewArguments: "41 by too few arguments", 7000;
    SubmitManyArguments: "41 by too many arguments", 7000;
    SubmitBadCursor: "41 by a bad cursor head", 1000;
    SubmitBadOperation: "41 by a raster operation above 15", 1800;
    SubmitFenceZero: "41 by a FENCE 0", 500;
    SubmitTooLong: "41 by a command longer than the ring carries", 4500;
    SubmitWholeRing: "41 by a command of as many words as the ring holds", 3000;
    SubmitCommandBeforeLent: "41, though the lent pixels or data are wrong in number", 10_000;
    SubmitPixelMore: "20 by one pixel more", 400;
    SubmitPixelFewer: "20 by one pixel fewer", 400;
    SubmitByteMore: "20 by one byte more", 800;
    SubmitByteFewer: "20 by one byte fewer", 500;
    SubmitPixelsWithEscape: "20 by pixels with an ESCAPE", 600;
    SubmitBytesWithCursor: "20 by data with a cursor", 800;
    SubmitPixelsWithNone: "20 by pixels with a command that has none", 3000;
    SubmitBytesWithNone: "20 by data with a command that has none", 6000;
    SubmitLentBeforeRoom: "20 by the writer, though there is too little room", 2500;
    FencePassed: "fences passed", 4000;
    FenceNotPassed: "fences not passed", 4000;
    LengthDevice: "20 by the device's length", 8000;
    LengthRing: "20 by the ring's length", 5000;
    LengthFramebuffer: "20 by the framebuffer's length", 4000;
    LengthScreen: "20 by the screen's length", 5000;
    LengthCursor: "20 by the cursor image's length", 4000;
    LengthOutput: "20 by the output's length", 500;
    LengthEdges: "20 by the length for the edges", 30;
    Replaced: "device words replaced, all 64", 9000;
    Changed: "device words changed, one or some", 12_000;
}

/// Calls that take a device and meet words that are none.
const MALFORMED_MINIMUM: u64 = 700;

#[derive(Clone)]
pub struct Counts {
    pub sequences: u64,
    pub calls: u64,
    answers: [[u64; 64]; CALLS.len()],
    commands: [u64; 9],
    /// Painting commands that an edge cut, and those that painted nothing.
    cut: [u64; 9],
    empty: [u64; 9],
    /// Raster operations of fills, and of overlapping copies by direction.
    fills: [u64; 16],
    overlaps: [[u64; 9]; 16],
    cursor_widths: [u64; 65],
    cursor_heights: [u64; 65],
    /// Fences by the remembered MIN, as `MINS` has them, and those of them that straddled the ring's end.
    fences: [u64; MINS.len()],
    straddled_fences: [u64; MINS.len()],
    malformed: [u64; CALLS.len()],
    submitted: Submitted,
    events: [u64; EVENTS.len()],
    /// The last run waited for the rest of a command.
    waiting: bool,
}

fn call_number(step: &Step) -> usize {
    match step {
        Step::Make { .. } => 0,
        Step::Write { .. } => 1,
        Step::Read { .. } => 2,
        Step::Run { .. } => 3,
        Step::Picture { .. } => 4,
        Step::Offscreen { .. } => 5,
        Step::Fence { .. } => 6,
        Step::FencePassed { .. } => 7,
        Step::Append { .. } => 8,
        Step::Submit { .. } => 9,
        _ => unreachable!("no call"),
    }
}

/// What stood before a step.
pub struct Before {
    pub device: Option<Device>,
    pub ring_words: [u32; 4],
}

impl Counts {
    pub fn new() -> Counts {
        Counts {
            sequences: 0,
            calls: 0,
            answers: [[0; 64]; CALLS.len()],
            commands: [0; 9],
            cut: [0; 9],
            empty: [0; 9],
            fills: [0; 16],
            overlaps: [[0; 9]; 16],
            cursor_widths: [0; 65],
            cursor_heights: [0; 65],
            fences: [0; MINS.len()],
            straddled_fences: [0; MINS.len()],
            malformed: [0; CALLS.len()],
            submitted: Submitted::new(),
            events: [0; EVENTS.len()],
            waiting: false,
        }
    }

    pub fn begin_sequence(&mut self) {
        self.sequences += 1;
        self.waiting = false;
        self.submitted.begin_sequence();
    }

    fn event(&mut self, event: Event, happened: bool) {
        self.events[event as usize] += u64::from(happened);
    }

    /// What happens between calls.
    pub fn between(&mut self, step: &Step) {
        if let Step::Device { words, .. } = step {
            let all = words.len() == DEVICE_WORDS;
            self.event(Event::Replaced, all);
            self.event(Event::Changed, !all);
        }
    }

    pub fn call(&mut self, step: &Step, answered: Answered, before: &Before, pair: &Pair) {
        self.calls += 1;
        let call = call_number(step);
        self.answers[call][answered.answer as usize] += 1;
        let device_length = match step {
            Step::Append { .. } | Step::Submit { .. } => DEVICE_WORDS,
            _ => step.lengths().map_or(DEVICE_WORDS, |lengths| lengths.device),
        };
        self.event(Event::LengthDevice, device_length != DEVICE_WORDS);
        if device_length != DEVICE_WORDS {
            return;
        }
        if let Step::Append { lengths, .. } = step {
            return self.append(answered, before, pair.model.usable_ring(pair.expected.ring.first(lengths.ring)));
        }
        if let Step::Submit { lengths, submission } = step {
            return self.submit(submission, answered.answer, lengths.ring, before);
        }
        let Some(device) = &before.device else {
            self.malformed[call] += 1;
            return;
        };
        match step {
            Step::Write { lengths, index: 20, value: 1 } => {
                self.event(Event::LengthRing, answered.answer == 20 && lengths.ring as u64 * 4 != device.memory);
                let faulted = matches!(device.condition, Condition::Faulted(_));
                self.event(Event::FaultCleared, faulted && answered.answer == 0);
                if answered.answer == 0 {
                    self.submitted.ring_accepted();
                }
            }
            Step::Run { lengths, budget } => {
                if answered.answer == 20 {
                    self.event(Event::LengthRing, lengths.ring as u64 * 4 != device.memory);
                    self.event(Event::LengthFramebuffer, lengths.framebuffer as u64 != device.pixels);
                    self.event(Event::LengthScreen, lengths.screen as u64 != device.pixels);
                    self.event(Event::LengthCursor, lengths.cursor != CURSOR_WORDS);
                }
                if answered.answer < 20 {
                    self.run(*budget, answered, device, before.ring_words, pair);
                }
            }
            Step::Picture { lengths } => {
                if answered.answer == 20 {
                    self.event(Event::LengthScreen, lengths.screen as u64 != device.pixels);
                    self.event(Event::LengthCursor, lengths.cursor != CURSOR_WORDS);
                    self.event(Event::LengthOutput, lengths.output as u64 != device.pixels);
                }
                if answered.answer == 0 {
                    self.picture(device, pair);
                }
            }
            Step::Offscreen { lengths } => self.event(Event::LengthEdges, lengths.edges != 4),
            Step::FencePassed { .. } => {
                self.event(Event::FencePassed, answered.value == 1);
                self.event(Event::FenceNotPassed, answered.value == 0);
            }
            _ => {}
        }
    }

    fn append(&mut self, answered: Answered, before: &Before, usable: bool) {
        let [min, max, next, _] = before.ring_words;
        if answered.answer == 0 {
            self.event(Event::AppendWrap, u64::from(next) + 4 == u64::from(max) && min < max);
        } else {
            self.event(Event::AppendFull, usable);
            self.event(Event::AppendUnusable, !usable);
        }
    }

    fn run(&mut self, budget: u32, answered: Answered, device: &Device, ring_words: [u32; 4], pair: &Pair) {
        self.event(Event::BudgetZero, budget == 0);
        self.event(Event::BudgetOne, budget == 1);
        self.event(Event::BudgetAll, budget == u32::MAX);
        self.event(Event::FaultAfterCommands, answered.answer >= 10 && answered.value > 0);
        let [min, max, next, stop] = ring_words.map(u64::from);
        if let Condition::Running(ring) = device.condition {
            self.event(Event::Changed0, min != ring.min);
            self.event(Event::Changed1, max != ring.max);
            self.event(Event::Changed3, stop != ring.stop);
            let size = ring.max - ring.min;
            let inside = ring.min <= next && next < ring.max;
            self.event(Event::FullRing, inside && (next + 4 - ring.min) % size == ring.stop - ring.min);
            self.fences(ring.min, min, answered.answer, &pair.model.executed);
            let consumed: u64 = pair.model.executed.iter().map(|executed| executed.words).sum();
            let memory = pair.expected.ring.first(device.memory as usize / 4);
            let fence_zero = [0, 1].map(|word| memory[moved_on(&ring, consumed + word) as usize / 4]) == [30, 0];
            self.event(Event::FenceZero, fence_zero && answered.answer == 11);
            self.event(Event::FenceAwaited, fence_zero && answered.answer == 1);
            pair.model.executed.iter().for_each(|executed| self.consumed(executed, &ring));
        }
        if let Some(after) = pair.device() {
            self.event(Event::BusyKept, device.busy && after.busy);
            self.event(Event::BusyCleared, device.busy && !after.busy);
        }
        self.event(Event::Completed, self.waiting && answered.value > 0);
        self.waiting = answered.answer == 1;
        for executed in &pair.model.executed {
            self.executed(executed);
        }
    }

    /// The fences of a run, with the MIN that is remembered and ring word 0.
    fn fences(&mut self, min: u64, word_0: u64, answer: u64, executed: &[Executed]) {
        let place = (min as usize / 4 - 4).min(MINS.len() - 1);
        let fences: Vec<_> = executed.iter().filter(|executed| matches!(executed.command, Command::Fence(_))).collect();
        self.fences[place] += fences.len() as u64;
        self.straddled_fences[place] += fences.iter().filter(|fence| fence.straddled).count() as u64;
        let (posts, some) = (min >= 28, !fences.is_empty());
        self.event(Event::PostedAgainstWord0, some && posts && word_0 < 28);
        self.event(Event::KeptAgainstWord0, some && !posts && word_0 >= 28);
        self.event(Event::NotPosted, !some && posts && !executed.is_empty());
        self.event(Event::PostedThenFault, some && posts && answer >= 10);
    }

    fn executed(&mut self, executed: &Executed) {
        self.event(Event::RingWrap, executed.wrapped);
        self.event(Event::Straddled, executed.straddled);
        self.event(Event::Largest, executed.mode.0 * executed.rows >= 1_000_000);
        let number = match &executed.command {
            Command::Update(rect) => self.updated(0, rect, executed),
            Command::Fill { rect, .. } => self.filled(1, rect, executed),
            Command::Copy { source, rect } => self.copied(2, *source, rect, SOURCE, executed),
            Command::RopFill { rect, operation, .. } => {
                self.fills[*operation as usize] += 1;
                self.filled(3, rect, executed)
            }
            Command::RopCopy { source, rect, operation } => self.copied(4, *source, rect, *operation, executed),
            Command::DefineCursor { cursor: Cursor { w, h, .. }, .. } => {
                self.cursor_widths[*w as usize] += 1;
                self.cursor_heights[*h as usize] += 1;
                5
            }
            Command::UpdateVerbose { rect, .. } => self.updated(6, rect, executed),
            Command::Fence(_) => 7,
            Command::Escape { .. } => 8,
        };
        self.commands[number] += 1;
    }

    /// Counts a rectangle that was cut to so many rows in part, or to nothing. Gives the command's number back.
    fn painted(&mut self, number: usize, rect: &Rect, width: u64, rows: u64) -> usize {
        let visible = rect.x < width && rect.y < rows && rect.w > 0 && rect.h > 0;
        let beyond = rect.x + rect.w > width || rect.y + rect.h > rows;
        self.cut[number] += u64::from(visible && beyond);
        self.empty[number] += u64::from(!visible);
        number
    }

    /// "UPDATE and pictures keep to the mode."
    fn updated(&mut self, number: usize, rect: &Rect, executed: &Executed) -> usize {
        let ((width, height), rows) = (executed.mode, executed.rows);
        let part = Part::of(rect.y, rect.h, height, rows);
        let some = rect.x < width && rect.w > 0;
        self.event(Event::UpdateAcross, some && part == Part::Both);
        self.event(Event::UpdateOffscreen, some && part == Part::Offscreen);
        self.painted(number, rect, width, height)
    }

    fn filled(&mut self, number: usize, rect: &Rect, executed: &Executed) -> usize {
        let ((width, height), rows) = (executed.mode, executed.rows);
        let part = Part::of(rect.y, rect.h, height, rows);
        let some = rect.x < width && rect.w > 0;
        self.event(Event::FillOffscreen, some && part == Part::Offscreen);
        self.event(Event::FillAcross, some && part == Part::Both);
        self.beyond(rect, executed);
        self.painted(number, rect, width, rows)
    }

    /// What a fill's or a copy's destination finds behind the mode's last row, and behind the last whole one.
    fn beyond(&mut self, rect: &Rect, executed: &Executed) {
        let ((width, height), rows) = (executed.mode, executed.rows);
        let some = rect.x < width && rect.w > 0;
        let bottom = rect.y + rect.h;
        self.event(Event::BeyondRows, rect.w > 0 && rect.x < executed.rest && rect.y < rows && bottom > rows);
        self.event(Event::NoRows, some && rows == height && rect.y < rows && bottom > rows);
        self.event(Event::ManyRows, some && rect.h > 0 && rect.y < rows && bottom.min(rows) > 1600);
    }

    fn copied(&mut self, number: usize, (sx, sy): (u64, u64), rect: &Rect, operation: u64, executed: &Executed) -> usize {
        let ((width, height), rows) = (executed.mode, executed.rows);
        self.beyond(rect, executed);
        self.painted(number, rect, width, rows);
        if sx >= width || rect.x >= width || sy >= rows || rect.y >= rows {
            return number;
        }
        let moved_columns = rect.w.min(width - sx).min(width - rect.x);
        let moved_rows = rect.h.min(rows - sy).min(rows - rect.y);
        if moved_columns == 0 || moved_rows == 0 {
            return number;
        }
        let destination_cut = rect.x + rect.w > width || rect.y + rect.h > rows;
        let source_cut = sx + rect.w > width || sy + rect.h > rows;
        self.event(Event::CopyOfCutSource, source_cut && !destination_cut);
        self.event(Event::SourceBeyondRows, sx < executed.rest && sy + rect.h > rows && rect.y + (rows - sy) < rows);
        let [from, to] = [sy, rect.y].map(|first| Part::of(first, moved_rows, height, rows));
        self.event(Event::CopyToOffscreen, (from, to) == (Part::Mode, Part::Offscreen));
        self.event(Event::CopyFromOffscreen, (from, to) == (Part::Offscreen, Part::Mode));
        self.event(Event::CopyWithinOffscreen, (from, to) == (Part::Offscreen, Part::Offscreen));
        let across = from == Part::Both || to == Part::Both;
        self.event(Event::CopyAcross, across);
        if rect.x.abs_diff(sx) < moved_columns && rect.y.abs_diff(sy) < moved_rows {
            let towards = |from: u64, to: u64| match to.cmp(&from) {
                std::cmp::Ordering::Less => 0,
                std::cmp::Ordering::Equal => 1,
                std::cmp::Ordering::Greater => 2,
            };
            self.overlaps[operation as usize][3 * towards(sy, rect.y) + towards(sx, rect.x)] += 1;
            self.event(Event::Wide, width >= 2000);
            self.event(Event::OverlapAcross, across);
        }
        number
    }

    fn picture(&mut self, device: &Device, pair: &Pair) {
        self.event(Event::PictureOffscreen, device.pixels / device.width > device.height);
        let Some(standing) = pair.model.cursor_in_picture(device) else {
            self.event(Event::CursorHidden, device.cursor.is_some());
            return;
        };
        let (right, bottom) = (standing.left + standing.w as i64, standing.top + standing.h as i64);
        let (width, height) = (device.width as i64, device.height as i64);
        let outside = right <= 0 || bottom <= 0 || standing.left >= width || standing.top >= height;
        let inside = standing.left >= 0 && standing.top >= 0 && right <= width && bottom <= height;
        self.event(Event::CursorOutside, outside);
        self.event(Event::CursorInside, inside);
        self.event(Event::CursorPartly, !outside && !inside);
    }

    // ---- the report

    /// Counts, each with the least that `SEQUENCES` have to meet in brackets.
    pub fn print(&self) {
        println!("{} sequences, {} calls", self.sequences, self.calls);
        println!("counts, in brackets the least that {SEQUENCES} sequences have to meet:");
        for ((name, answers), required) in CALLS.iter().zip(&self.answers).zip(ANSWERS) {
            let seen: Vec<String> =
                required.iter().map(|&(answer, minimum)| format!("{answer}: {} ({minimum})", answers[answer])).collect();
            println!("  {name} answered  {}", seen.join("  "));
        }
        for (number, name) in COMMANDS.iter().enumerate() {
            print!("  {name} executed {} ({COMMAND_MINIMUM})", self.commands[number]);
            if PAINTING.contains(&number) {
                let (cut, empty) = (self.cut[number], self.empty[number]);
                print!(", cut at an edge in part {cut} ({CUT_MINIMUM}), painted nothing {empty} ({EMPTY_MINIMUM})");
            }
            println!();
        }
        println!("  raster operations 0 to 15 in fills ({FILL_MINIMUM}):  {}", numbers(&self.fills));
        println!("  raster operations 0 to 15 in overlapping copies:  {}", numbers(&self.overlaps.map(|by| moving(&by).iter().sum())));
        let rarest = self.overlaps.map(|by| moving(&by).into_iter().min().unwrap_or(0));
        println!("    .. in the rarest of eight directions ({OVERLAP_MINIMUM}):  {}", numbers(&rarest));
        let rarest = |sizes: &[u64; 65]| sizes[1..].iter().copied().min().unwrap_or(0);
        println!(
            "  cursors of each size 1 to 64 ({CURSOR_MINIMUM}): the rarest width {}, the rarest height {}",
            rarest(&self.cursor_widths),
            rarest(&self.cursor_heights)
        );
        let by_min = |counts: &[u64]| MINS.iter().zip(counts).map(|(min, count)| format!("{min}: {count}")).collect::<Vec<_>>().join("  ");
        println!("  FENCE executed by MIN ({FENCE_MINIMUM}):  {}", by_min(&self.fences));
        println!("    .. over the ring's end ({STRADDLED_FENCE_MINIMUM}):  {}", by_min(&self.straddled_fences));
        for (text, minimum, counts) in self.submitted.rows() {
            println!("  {text} ({minimum}):  {}", numbers(counts));
        }
        let malformed: Vec<String> = self.malformed_calls().map(|(name, count)| format!("{name} {count}")).collect();
        println!("  calls on words that are no device ({MALFORMED_MINIMUM}):  {}", malformed.join("  "));
        for ((text, minimum), count) in EVENTS.iter().zip(&self.events) {
            println!("  {text}: {count} ({minimum})");
        }
    }

    /// The calls that take a made device, and how often they met words that are none.
    fn malformed_calls(&self) -> impl Iterator<Item = (&'static str, u64)> + '_ {
        CALLS.into_iter().zip(self.malformed).skip(1).take(7)
    }

    /// What is below its minimum, a line each.
    pub fn shortfalls(&self) -> Vec<String> {
        let mut short = Vec::new();
        let mut require = |what: String, count: u64, minimum: u64| {
            if count < minimum {
                short.push(format!("{what}: {count}, at least {minimum} required"));
            }
        };
        for ((name, answers), required) in CALLS.iter().zip(&self.answers).zip(ANSWERS) {
            for &(answer, minimum) in required {
                require(format!("{name} answers {answer}"), answers[answer], minimum);
            }
        }
        for (number, name) in COMMANDS.iter().enumerate() {
            require(format!("{name} executed"), self.commands[number], COMMAND_MINIMUM);
        }
        for number in PAINTING {
            require(format!("{} cut in part", COMMANDS[number]), self.cut[number], CUT_MINIMUM);
            require(format!("{} painted nothing", COMMANDS[number]), self.empty[number], EMPTY_MINIMUM);
        }
        for operation in 0..16 {
            require(format!("fills with operation {operation}"), self.fills[operation], FILL_MINIMUM);
            for (direction, count) in moving(&self.overlaps[operation]).into_iter().enumerate() {
                require(format!("overlapping copies with operation {operation}, direction {direction}"), count, OVERLAP_MINIMUM);
            }
        }
        for size in 1..=64 {
            require(format!("cursors {size} wide"), self.cursor_widths[size], CURSOR_MINIMUM);
            require(format!("cursors {size} high"), self.cursor_heights[size], CURSOR_MINIMUM);
        }
        for (place, min) in MINS.iter().enumerate() {
            require(format!("FENCE executed with MIN {min}"), self.fences[place], FENCE_MINIMUM);
            require(format!("FENCE over the ring's end with MIN {min}"), self.straddled_fences[place], STRADDLED_FENCE_MINIMUM);
        }
        for (text, minimum, counts) in self.submitted.rows() {
            for (place, &count) in counts.iter().enumerate() {
                require(format!("{text}, number {} of the row", place + 1), count, minimum);
            }
        }
        for (name, count) in self.malformed_calls() {
            require(format!("{name} on words that are no device"), count, MALFORMED_MINIMUM);
        }
        for (&(text, minimum), &count) in EVENTS.iter().zip(&self.events) {
            require(text.to_string(), count, minimum);
        }
        for ((name, answers), required) in CALLS.iter().zip(&self.answers).zip(ANSWERS) {
            for (answer, &count) in answers.iter().enumerate() {
                if count > 0 && !required.iter().any(|&(known, _)| known == answer) {
                    short.push(format!("{name} answers {answer}, which is none of its answers"));
                }
            }
        }
        short
    }
}

/// Where rows of a screen lie.
#[derive(Clone, Copy, PartialEq, Eq)]
enum Part {
    Mode,
    Offscreen,
    /// Some in the mode, some offscreen.
    Both,
    Nowhere,
}

impl Part {
    /// Of some rows from a first one on, where the mode has `height` and the screen `rows`.
    fn of(first: u64, count: u64, height: u64, rows: u64) -> Part {
        let last = (first + count).min(rows);
        match (first < height.min(last), height < rows && height.max(first) < last) {
            (true, true) => Part::Both,
            (true, false) => Part::Mode,
            (false, true) => Part::Offscreen,
            (false, false) => Part::Nowhere,
        }
    }
}

/// The eight directions in which a copy moves; the ninth moves nothing.
fn moving(directions: &[u64; 9]) -> Vec<u64> {
    directions.iter().enumerate().filter(|&(direction, _)| direction != 4).map(|(_, &count)| count).collect()
}

fn numbers(list: &[u64]) -> String {
    list.iter().map(u64::to_string).collect::<Vec<_>>().join(" ")
}
