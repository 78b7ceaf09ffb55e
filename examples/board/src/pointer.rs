//! The cursor: an arrow with smooth edges and a shadow.

pub const WIDTH: u32 = 20;
pub const HEIGHT: u32 = 28;
/// The arrow's tip.
pub const HOTSPOT: (u32, u32) = (2, 2);

/// The arrow's outline from its tip, and the one inside its border.
const OUTER: [(f64, f64); 7] = [(0.0, 0.0), (0.0, 17.0), (4.0, 13.4), (6.8, 19.6), (9.6, 18.4), (6.9, 12.4), (12.2, 12.4)];
const INNER: [(f64, f64); 7] = [(1.2, 2.9), (1.2, 14.3), (4.4, 11.4), (7.4, 18.0), (8.0, 17.7), (5.1, 11.2), (9.4, 11.2)];

/// Whether a point is inside a polygon: a ray to the right crosses its sides an odd number of times.
fn inside(polygon: &[(f64, f64)], x: f64, y: f64) -> bool {
    let sides = polygon.iter().zip(polygon.iter().cycle().skip(1));
    sides.filter(|((ax, ay), (bx, by))| (*ay > y) != (*by > y) && x < (bx - ax) * (y - ay) / (by - ay) + ax).count() % 2 == 1
}

/// How much of a square of `size` pixels around (x, y) the polygon covers, in 0 to 1.
fn cover(polygon: &[(f64, f64)], x: f64, y: f64, size: f64) -> f64 {
    let steps = (0..6).map(|step| (f64::from(step) + 0.5) / 6.0 - 0.5);
    let hits =
        steps.clone().flat_map(|dy| steps.clone().map(move |dx| (dx, dy))).filter(|(dx, dy)| inside(polygon, x + dx * size, y + dy * size));
    hits.count() as f64 / 36.0
}

/// Its pixels, row by row: how much each covers in the top byte, and its colour.
pub fn pixels() -> Vec<u32> {
    let places = (0..HEIGHT).flat_map(|y| (0..WIDTH).map(move |x| (x, y)));
    let pixel = |(x, y): (u32, u32)| {
        let (x, y) = (f64::from(x) + 0.5 - f64::from(HOTSPOT.0), f64::from(y) + 0.5 - f64::from(HOTSPOT.1));
        let (outer, inner) = (cover(&OUTER, x, y, 1.0), cover(&INNER, x, y, 1.0));
        let shadow = 0.55 * cover(&OUTER, x - 1.5, y - 2.5, 4.0);
        let alpha = outer + (1.0 - outer) * shadow;
        let white = if alpha > 0.0 { inner / alpha } else { 0.0 };
        let grey = (white.min(1.0) * 255.0).round() as u32;
        ((alpha * 255.0).round() as u32) << 24 | grey << 16 | grey << 8 | grey
    };
    places.map(pixel).collect()
}
