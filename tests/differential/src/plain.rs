//! 02's P3: "plain and raster versions must not drift apart". Command 2 against 13, and 3 against 14, with raster operation 3, on equal
//! screens; places and sizes reach over every edge and into offscreen rows, and most copies overlap themselves.

use crate::random::Random;
use svga::{rop, Adapter, Command, Error, Rect};

const SCREENS: u32 = 300;
const COMMANDS: u32 = 30;

/// Mostly inside a screen of this side, now and then at its end, far beyond it, or nearly 2^32.
fn number(random: &mut Random, side: u32) -> u32 {
    match random.below(40) {
        0 => side,
        1 => random.word(),
        2 => u32::MAX - random.below(4) as u32,
        _ => random.below(u64::from(side)) as u32,
    }
}

/// A plain command and the same with raster operation 3, in so many rows.
fn both(random: &mut Random, width: u32, rows: u32) -> [Command<'static>; 2] {
    let place = |random: &mut Random| (number(random, width), number(random, rows));
    let ((sx, sy), (x, y), (w, h)) = (place(random), place(random), place(random));
    let to = Rect::new(x, y, w, h);
    if random.chance(1, 3) {
        let colour = random.word();
        return [Command::RectFill { colour, to }, Command::RectRopFill { colour, to, rop: rop::COPY }];
    }
    [Command::RectCopy { sx, sy, to }, Command::RectRopCopy { sx, sy, to, rop: rop::COPY }]
}

/// An adapter of this mode that shows what its framebuffer holds. Behind the mode it has some rows, with the same again, and some pixels.
fn shown(width: u32, height: u32, framebuffer: &[u32]) -> Result<Adapter, Error> {
    let mut adapter = Adapter::new(65_536, framebuffer.len() as u32)?;
    adapter.start(width, height)?;
    adapter.framebuffer_mut().copy_from_slice(framebuffer);
    adapter.submit(&Command::Update(Rect::new(0, 0, width, height)))?;
    adapter.submit(&Command::RectCopy { sx: 0, sy: 0, to: Rect::new(0, height, width, u32::MAX) })?;
    let _ = adapter.run(u32::MAX)?;
    Ok(adapter)
}

fn held() -> Result<u32, String> {
    let error = |error: Error| error.to_string();
    let mut random = Random::new(3);
    let mut changed = 0;
    for screen in 0..SCREENS {
        let (width, height) = (random.between(2, 70) as u32, random.between(2, 20) as u32);
        let rows = height + random.below(10) as u32;
        let rest = random.below(u64::from(width)) as u32;
        let framebuffer: Vec<u32> = (0..width * rows + rest).map(|_| random.word()).collect();
        let mut plain = shown(width, height, &framebuffer).map_err(error)?;
        let mut raster = shown(width, height, &framebuffer).map_err(error)?;
        for _ in 0..COMMANDS {
            let before = plain.screen().to_vec();
            let [one, other] = both(&mut random, width, rows);
            plain.submit(&one).map_err(error)?;
            raster.submit(&other).map_err(error)?;
            let (ran, also) = (plain.run(u32::MAX).map_err(error)?, raster.run(u32::MAX).map_err(error)?);
            if ran != also || plain.screen() != raster.screen() {
                return Err(format!("screen {screen}, {width} by {height}: {one:?} and {other:?} differ"));
            }
            changed += u32::from(before != plain.screen());
        }
    }
    Ok(changed)
}

pub fn hold() -> bool {
    match held() {
        Ok(changed) if changed > SCREENS * COMMANDS / 2 => {
            println!("passed: 1 run of {} plain commands as raster operation 3, {changed} of which changed the screen", SCREENS * COMMANDS);
            true
        }
        Ok(changed) => {
            println!("failed: plain commands as raster operation 3: only {changed} of them changed the screen");
            false
        }
        Err(what) => {
            println!("failed: plain commands as raster operation 3: {what}");
            false
        }
    }
}
