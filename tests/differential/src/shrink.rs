//! Fewer steps that still differ.

use crate::counts::Counts;
use crate::model::Model;
use crate::pair::Pair;
use crate::step::Step;
use std::time::{Duration, Instant};

const MOST_TIME: Duration = Duration::from_secs(20);

/// What differs first, and after how many steps.
fn first_difference(steps: &[Step]) -> Option<(usize, String)> {
    let mut counts = Counts::new();
    let mut pair = Pair::new(Model::new(None), false);
    for (place, step) in steps.iter().enumerate() {
        if let Err(what) = pair.step(step, &mut counts) {
            return Some((place + 1, what));
        }
    }
    None
}

/// Leaves out what it can, the first step (the memories) apart.
pub fn shortened(steps: &[Step]) -> (Vec<Step>, String) {
    let began = Instant::now();
    let Some((length, mut what)) = first_difference(steps) else {
        return (steps.to_vec(), "none when repeated: the library answered otherwise this time".to_string());
    };
    let mut kept = steps[..length].to_vec();
    // Halves, then lengths about those of a command that was appended word by word.
    let mut chunk = kept.len() / 2;
    while chunk > 0 && began.elapsed() < MOST_TIME {
        let mut start = 1;
        let before = kept.len();
        while start < kept.len() && began.elapsed() < MOST_TIME {
            let end = (start + chunk).min(kept.len());
            let fewer = [&kept[..start], &kept[end..]].concat();
            match first_difference(&fewer) {
                Some((length, other)) => {
                    kept = fewer;
                    kept.truncate(length);
                    what = other;
                }
                None => start = end,
            }
        }
        if chunk > 1 || kept.len() == before {
            chunk = if chunk > 16 { (chunk / 2).max(16) } else { chunk - 1 };
        }
    }
    (kept, what)
}
