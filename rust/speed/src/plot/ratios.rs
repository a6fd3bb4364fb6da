//! Each row at one size: the time as a multiple of the lean program's.
use super::svg::{Side, Svg};
use super::{legend, HELP, LOOKS, WORDS};
use crate::measured::{at_size, Measured};
use crate::program::{CAREFUL, LEAN, OURS, TUNED};
use crate::report::{grouped, title};
use crate::row::{CALLS, SIZE};

/// Where the plot stands.
const WIDTH: f64 = 900.0;
const LEFT: f64 = 280.0;
const RIGHT: f64 = 840.0;
const TOP: f64 = 110.0;
const STEP: f64 = 17.0;

/// The colour of the bars.
const BAR: &str = "#a9c8ee";

/// What the lines across stand for.
const LIMITS: [(f64, &str, &str); 3] = [(1.0, "1.0 lean", ""), (1.3, "1.3 aim", "5 4"), (2.0, "2.0 promise", "")];

/// The plot.
pub fn plot(rows: &[Measured]) -> String {
    let lines: usize = CALLS.map(|call| at_size(rows, call).count() + 2).iter().sum();
    let bottom = TOP + STEP * lines as f64;
    let heading = format!("Time as a multiple of the lean plain program, flags of {} records", grouped(SIZE));
    let mut svg = Svg::new(WIDTH, bottom + 60.0, &heading);
    svg.heading((24.0, 32.0), 16, &heading);
    legend(&mut svg, (30.0, 60.0), &[(OURS, "ours, with its number"), (CAREFUL, "careful plain program"), (TUNED, "tuned plain program")]);
    let scale = Scale { most: most(rows) };
    axes(&mut svg, &scale, bottom);
    let mut y = TOP;
    for call in CALLS {
        y += 1.5 * STEP;
        svg.heading((24.0, y), 13, title(call));
        for measured in at_size(rows, call) {
            y += STEP;
            one(&mut svg, &scale, measured, y);
        }
        y += 0.5 * STEP;
    }
    svg.finish()
}

/// The largest number that is drawn, up to the next half.
fn most(rows: &[Measured]) -> f64 {
    let drawn = CALLS.into_iter().flat_map(|call| at_size(rows, call));
    let largest = drawn.flat_map(|measured| [OURS, CAREFUL, TUNED].map(|of| measured.ratio(of, LEAN))).fold(2.0, f64::max);
    (2.0 * largest).ceil() / 2.0
}

/// From numbers to places.
struct Scale {
    most: f64,
}

impl Scale {
    fn x(&self, number: f64) -> f64 {
        LEFT + (RIGHT - LEFT) * number / self.most
    }
}

/// The axis below, and the lines that rows are held to.
fn axes(svg: &mut Svg, scale: &Scale, bottom: f64) {
    for half in 0..=(2.0 * scale.most) as usize {
        let number = half as f64 / 2.0;
        svg.line((scale.x(number), TOP), (scale.x(number), bottom), HELP, 1.0, "");
        svg.words_at((scale.x(number), bottom + 18.0), Side::Middle, &format!("{number:.1}"));
    }
    for (number, words, dashes) in LIMITS {
        svg.line((scale.x(number), TOP - 6.0), (scale.x(number), bottom), WORDS, 1.5, dashes);
        svg.words_at((scale.x(number), TOP - 12.0), Side::Middle, words);
    }
    svg.words_at(((LEFT + RIGHT) / 2.0, bottom + 42.0), Side::Middle, "time / time of the lean program (shortest rounds)");
}

/// One row: its name, a bar with its number for ours, and marks for the other plain programs.
fn one(svg: &mut Svg, scale: &Scale, measured: &Measured, y: f64) {
    svg.words_at((LEFT - 10.0, y), Side::Left, &measured.row.inputs().join(", "));
    let (ours, middle) = (measured.promised(), y - 4.0);
    svg.bar((scale.x(0.0), middle - 4.0), scale.x(ours) - scale.x(0.0), 8.0, BAR);
    for contestant in [CAREFUL, TUNED, OURS] {
        let (colour, mark) = LOOKS[contestant];
        svg.mark((scale.x(measured.ratio(contestant, LEAN)), middle), mark, colour);
    }
    svg.words((RIGHT + 10.0, y), &format!("{ours:.2}"));
}
