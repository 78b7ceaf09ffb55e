//! The console program against the model: document 01, "The console program".

use crate::model::device::DEVICE_WORDS;
use crate::model::Model;
use crate::random::Random;
use std::fmt::Write;
use std::fs::{read, File};
use std::path::Path;
use std::process::{Command, Stdio};

const MEMORY: u32 = 10_256;
const PIXELS: usize = 1_024;
/// Random inputs for the program, beside the one that stands in the repository.
const INPUTS: u64 = 300;

/// "M = 10,256, P = 1,024, everything zero, ring words 16, 10256, 16, 16."
struct Console {
    model: Model,
    device: [u32; DEVICE_WORDS],
    ring: Vec<u32>,
    framebuffer: Vec<u32>,
    screen: Vec<u32>,
    cursor: Vec<u32>,
}

/// "a number is one to ten digits, at most 4294967295"
fn number(field: &[u8]) -> Option<u32> {
    if !(1..=10).contains(&field.len()) || !field.iter().all(u8::is_ascii_digit) {
        return None;
    }
    std::str::from_utf8(field).ok()?.parse().ok()
}

fn place(field: &[u8]) -> Option<usize> {
    number(field).map(|number| number as usize).filter(|&place| place < PIXELS)
}

impl Console {
    fn new() -> Console {
        let mut ring = vec![0; MEMORY as usize / 4];
        ring[..4].copy_from_slice(&[16, MEMORY, 16, 16]);
        let (model, mut device) = (Model::new(None), [0; DEVICE_WORDS]);
        assert_eq!(model.make(&mut device, MEMORY, PIXELS as u32), 0);
        Console { model, device, ring, framebuffer: vec![0; PIXELS], screen: vec![0; PIXELS], cursor: vec![0; 4_096] }
    }

    /// What a line prints. "Any other line or place above 1,023 prints `bad`."
    fn answer(&mut self, line: &[u8]) -> String {
        self.request(line).unwrap_or_else(|| "bad\n".to_string())
    }

    /// "fields parted by one tab"
    fn request(&mut self, line: &[u8]) -> Option<String> {
        let fields: Vec<&[u8]> = line.split(|&byte| byte == b'\t').collect();
        Some(match fields[..] {
            [b"w", index, value] => {
                let (index, value) = (number(index)?, number(value)?);
                format!("w\t{index}\t{}\n", self.model.write(&mut self.device, &self.ring, index, value))
            }
            [b"r", index] => {
                let index = number(index)?;
                format!("r\t{index}\t{}\n", self.model.read(&self.device, index).1)
            }
            [b"p", word] => match self.model.append(&mut self.ring, number(word)?) {
                0 => String::new(),
                _ => "full\n".to_string(),
            },
            [b"f", at, pixel] => {
                let (at, pixel) = (place(at)?, number(pixel)?);
                self.framebuffer[at] = pixel;
                String::new()
            }
            [b"run", budget] => {
                let budget = number(budget)?;
                let Console { model, device, ring, framebuffer, screen, cursor } = self;
                let (answer, count) = model.run(device, ring, framebuffer, screen, cursor, budget);
                format!("run\t{answer}\t{count}\n")
            }
            [b"s", at] => {
                let at = place(at)?;
                format!("s\t{at}\t{}\n", self.screen[at])
            }
            _ => return None,
        })
    }
}

/// What the console prints for an input. A newline ends a line, and a last line without one is a line.
fn output(input: &[u8]) -> Vec<u8> {
    let mut console = Console::new();
    let mut lines: Vec<&[u8]> = input.split(|&byte| byte == b'\n').collect();
    if lines.last().is_some_and(|last| last.is_empty()) {
        lines.pop();
    }
    lines.iter().flat_map(|line| console.answer(line).into_bytes()).collect()
}

// ---- random inputs

fn random_number(random: &mut Random) -> String {
    let number = match random.below(6) {
        0 => random.of(&[0, 1, 2, 31, 32, 33, 1_023, 1_024, 0x7FFF_FFFF, 0x8000_0000, 0xFFFF_FFFF]),
        1 => random.next() >> 31,
        _ => random.below(34),
    };
    let zeros = if random.chance(1, 20) { random.below(11) as usize } else { 0 };
    format!("{}{number}", "0".repeat(zeros))
}

/// A command's words as requests, and now and then with one of them left out.
fn random_command(random: &mut Random, input: &mut String) {
    let (number, arguments) = random.of(&[(1, 4), (2, 5), (3, 6), (13, 6), (14, 7), (22, 5), (25, 5), (30, 1), (33, 2), (20, 0)]);
    let left_out = random.below(60);
    let _ = writeln!(input, "p\t{number}");
    for argument in (0..arguments).filter(|&argument| argument != left_out) {
        let word = match (number, argument) {
            (22, 1..=2) => "0".to_string(),
            (22, 3..=4) => random.between(0, 9).to_string(),
            (33, 1) => random.below(12).to_string(),
            (13, 5) | (14, 6) => random.below(17).to_string(),
            _ => random_number(random),
        };
        let _ = writeln!(input, "p\t{word}");
    }
}

fn random_line(random: &mut Random, input: &mut String) {
    let (a, b) = (random_number(random), random_number(random));
    let _ = match random.below(12) {
        0 => writeln!(input, "r\t{a}"),
        1 => writeln!(input, "w\t{a}\t{b}"),
        2 => writeln!(input, "f\t{a}\t{b}"),
        3 => writeln!(input, "s\t{a}"),
        4 => writeln!(input, "run\t{a}"),
        5 => writeln!(
            input,
            "{}",
            random.of(&["", "bad", "run", "w\t1", "w 1 1", "R\t1", "r\t", "r\t1\t", "\tr\t1", "s\t-1", "s\t1\r", "p\té"])
        ),
        6 => writeln!(input, "run\t{}", "1".repeat(random.below(80) as usize)),
        _ => {
            random_command(random, input);
            Ok(())
        }
    };
}

fn random_input(seed: u64) -> Vec<u8> {
    let mut random = Random::new(seed);
    let mut input = String::new();
    if random.chance(9, 10) {
        // All 1,024 pixels, or some rows and a rest of them offscreen.
        let (width, height) = random.of(&[(32, 32), (32, 20), (33, 9)]);
        let _ = write!(input, "w\t2\t{width}\nw\t3\t{height}\nw\t1\t1\nw\t20\t1\n");
    }
    for _ in 0..random.below(400) {
        random_line(&mut random, &mut input);
    }
    (0..PIXELS).for_each(|place| writeln!(input, "s\t{place}").expect("a string can be written to"));
    if random.chance(1, 2) {
        input.pop();
    }
    input.into_bytes()
}

// ---- the program

fn printed(program: &Path, input: &[u8], file: &Path) -> std::io::Result<Vec<u8>> {
    std::fs::write(file, input)?;
    Ok(Command::new(program).stdin(Stdio::from(File::open(file)?)).stderr(Stdio::inherit()).output()?.stdout)
}

/// The first line in which two outputs differ.
fn difference(expected: &[u8], printed: &[u8]) -> Option<String> {
    let lines =
        |bytes: &[u8]| bytes.split(|&byte| byte == b'\n').map(|line| String::from_utf8_lossy(line).into_owned()).collect::<Vec<_>>();
    let (expected, printed) = (lines(expected), lines(printed));
    (0..expected.len().max(printed.len())).find(|&at| expected.get(at) != printed.get(at)).map(|at| {
        let shown = |lines: &[String]| lines.get(at).cloned().unwrap_or_else(|| "(no more lines)".to_string());
        format!("line {}: the model prints '{}', the console '{}'", at + 1, shown(&expected), shown(&printed))
    })
}

/// Holds the model against the crate's stored input and output, and the program against the model. True if nothing differs.
pub fn hold(program: &Path, crate_folder: &Path, seed: u64) -> std::io::Result<bool> {
    let stored = output(&read(crate_folder.join("stdin"))?);
    if let Some(what) = difference(&stored, &read(crate_folder.join("stdout"))?) {
        println!("failed: the console's file 'stdout': {what}");
        return Ok(false);
    }
    let file = std::env::temp_dir().join(format!("console-input-{}", std::process::id()));
    let mut good = true;
    for number in seed..seed + INPUTS {
        let input = random_input(number);
        if let Some(what) = difference(&output(&input), &printed(program, &input, &file)?) {
            println!("failed: the console, input {number} (it stands in {}): {what}", file.display());
            good = false;
            break;
        }
    }
    if good {
        std::fs::remove_file(&file)?;
        println!("passed: {} inputs of the console", INPUTS + 1);
    }
    Ok(good)
}
