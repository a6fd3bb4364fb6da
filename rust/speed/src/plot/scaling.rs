//! How the cost grows with the records.
use super::svg::{Point, Side, Svg};
use super::{legend, HELP, LOOKS, WORDS};
use crate::measured::{by_size, Measured};
use crate::program::{CONTESTANTS, NAMES};
use crate::report::{grouped, title};
use crate::row::{Call, CALLS, SIZES};

/// Where the three plots stand, beside each other.
const WIDTH: f64 = 980.0;
const HEIGHT: f64 = 430.0;
const LEFT: f64 = 80.0;
const EACH: f64 = 250.0;
const BETWEEN: f64 = 55.0;
const TOP: f64 = 110.0;
const BOTTOM: f64 = 370.0;

/// The plot.
pub fn plot(rows: &[Measured]) -> String {
    let heading = "Nanoseconds a record over the records of the flags (both axes logarithmic)";
    let mut svg = Svg::new(WIDTH, HEIGHT, heading);
    svg.heading((24.0, 32.0), 16, heading);
    let names: Vec<(usize, &str)> = NAMES.iter().copied().enumerate().collect();
    legend(&mut svg, (LEFT, 62.0), &names);
    svg.upwards((24.0, (TOP + BOTTOM) / 2.0), "ns a record, shortest round");
    let scale = scale(rows);
    for (place, call) in CALLS.into_iter().enumerate() {
        let left = LEFT + place as f64 * (EACH + BETWEEN);
        panel(&mut svg, &scale, left, call, rows);
    }
    svg.finish()
}

/// From nanoseconds to places: powers of ten, from one to another.
struct Scale {
    least: i32,
    most: i32,
}

impl Scale {
    fn y(&self, nanoseconds: f64) -> f64 {
        let part = (nanoseconds.log10() - f64::from(self.least)) / f64::from(self.most - self.least);
        BOTTOM - (BOTTOM - TOP) * part
    }
}

/// A scale that holds all that is drawn.
fn scale(rows: &[Measured]) -> Scale {
    let drawn: Vec<f64> = CALLS.iter().flat_map(|call| by_size(rows, *call)).flat_map(times).collect();
    let least = drawn.iter().copied().fold(f64::INFINITY, f64::min);
    let most = drawn.iter().copied().fold(0.0, f64::max);
    Scale { least: least.log10().floor() as i32, most: most.log10().ceil() as i32 }
}

/// The times of all contestants.
fn times(measured: &Measured) -> [f64; CONTESTANTS] {
    std::array::from_fn(|contestant| measured.least(contestant))
}

/// The place of a size from the left: a power of two.
fn x(left: f64, records: usize) -> f64 {
    let [first, last] = [SIZES[0], SIZES[SIZES.len() - 1]].map(|size| (size as f64).log2());
    left + EACH * ((records as f64).log2() - first) / (last - first)
}

/// One call.
fn panel(svg: &mut Svg, scale: &Scale, left: f64, call: Call, rows: &[Measured]) {
    svg.heading((left, TOP - 12.0), 13, title(call));
    for power in scale.least..=scale.most {
        let number = 10f64.powi(power);
        let y = scale.y(number);
        svg.line((left, y), (left + EACH, y), HELP, 1.0, "");
        svg.words_at((left - 8.0, y + 4.0), Side::Left, &number.to_string());
    }
    for records in SIZES {
        svg.line((x(left, records), TOP), (x(left, records), BOTTOM), HELP, 1.0, "");
        svg.words_at((x(left, records), BOTTOM + 18.0), Side::Middle, &grouped(records));
    }
    svg.words_at((left + EACH / 2.0, BOTTOM + 42.0), Side::Middle, "records");
    svg.line((left, TOP), (left, BOTTOM), WORDS, 1.0, "");
    svg.line((left, BOTTOM), (left + EACH, BOTTOM), WORDS, 1.0, "");
    // ours last, over the others
    for contestant in (0..CONTESTANTS).rev() {
        let (colour, mark) = LOOKS[contestant];
        let points: Vec<Point> =
            by_size(rows, call).map(|measured| (x(left, measured.row.records), scale.y(measured.least(contestant)))).collect();
        svg.path(&points, colour, if contestant == 0 { 3.0 } else { 1.5 });
        for point in points {
            svg.mark(point, mark, colour);
        }
    }
}
