//! The plots: SVG on white, written without another tool.
pub mod ratios;
pub mod scaling;
mod svg;

use crate::program::CONTESTANTS;
use svg::{Mark, Point, Svg};

/// How each contestant is drawn: its colour, which can be told from the others in grey too, and its mark.
const LOOKS: [(&str, Mark); CONTESTANTS] =
    [("#1a5fb4", Mark::Disc), ("#222222", Mark::Square), ("#c2600c", Mark::Triangle), ("#7a3fa8", Mark::Diamond), ("#b3262e", Mark::Cross)];

/// The colours of words, and of lines that only help.
const WORDS: &str = "#222222";
const HELP: &str = "#cccccc";

/// A row of marks with their names, from a place on.
fn legend(svg: &mut Svg, from: Point, names: &[(usize, &str)]) {
    let mut x = from.0;
    for (contestant, name) in names {
        let (colour, mark) = LOOKS[*contestant];
        svg.mark((x, from.1 - 4.0), mark, colour);
        svg.words((x + 10.0, from.1), name);
        // about seven to a letter, and some space
        x += 34.0 + 7.0 * name.len() as f64;
    }
}
