//! What an SVG is made of.
use super::WORDS;
use std::fmt::Write;

/// A place: how far from the left, and from the top.
pub type Point = (f64, f64);

/// A mark for one measured number.
#[derive(Clone, Copy)]
pub enum Mark {
    Disc,
    Square,
    Triangle,
    Diamond,
    Cross,
}

/// Where words stand to their place.
#[derive(Clone, Copy)]
pub enum Side {
    Right,
    Middle,
    Left,
}

/// A picture in the making.
pub struct Svg {
    text: String,
}

impl Svg {
    /// A white picture of a size, with a title that a reader who cannot see it is told.
    pub fn new(width: f64, height: f64, title: &str) -> Svg {
        let text = format!(
            "<svg xmlns=\"http://www.w3.org/2000/svg\" viewBox=\"0 0 {width} {height}\" width=\"{width}\" height=\"{height}\" \
             font-family=\"DejaVu Sans, Verdana, sans-serif\" font-size=\"12\">\n<title>{title}</title>\n\
             <rect width=\"{width}\" height=\"{height}\" fill=\"#ffffff\"/>\n"
        );
        Svg { text }
    }

    /// The finished text.
    pub fn finish(self) -> String {
        self.text + "</svg>\n"
    }

    fn add(&mut self, element: std::fmt::Arguments) {
        writeln!(self.text, "{element}").expect("a string takes what is written");
    }

    /// Words that start at a place.
    pub fn words(&mut self, at: Point, words: &str) {
        self.words_at(at, Side::Right, words);
    }

    /// Words beside a place.
    pub fn words_at(&mut self, (x, y): Point, side: Side, words: &str) {
        let anchor = match side {
            Side::Right => "start",
            Side::Middle => "middle",
            Side::Left => "end",
        };
        self.add(format_args!("<text x=\"{x:.1}\" y=\"{y:.1}\" text-anchor=\"{anchor}\" fill=\"{WORDS}\">{words}</text>"));
    }

    /// Words in bold, for a heading.
    pub fn heading(&mut self, (x, y): Point, size: u32, words: &str) {
        self.add(format_args!("<text x=\"{x:.1}\" y=\"{y:.1}\" font-size=\"{size}\" font-weight=\"bold\" fill=\"{WORDS}\">{words}</text>"));
    }

    /// Words that run upwards, in the middle of a side.
    pub fn upwards(&mut self, (x, y): Point, words: &str) {
        self.add(format_args!(
            "<text transform=\"translate({x:.1} {y:.1}) rotate(-90)\" text-anchor=\"middle\" fill=\"{WORDS}\">{words}</text>"
        ));
    }

    /// A line; dashes are such as `4 3`, or nothing.
    pub fn line(&mut self, (x1, y1): Point, (x2, y2): Point, colour: &str, width: f64, dashes: &str) {
        self.add(format_args!(
            "<line x1=\"{x1:.1}\" y1=\"{y1:.1}\" x2=\"{x2:.1}\" y2=\"{y2:.1}\" stroke=\"{colour}\" stroke-width=\"{width}\" \
             stroke-dasharray=\"{dashes}\"/>"
        ));
    }

    /// A line through places.
    pub fn path(&mut self, points: &[Point], colour: &str, width: f64) {
        let places: Vec<String> = points.iter().map(|(x, y)| format!("{x:.1},{y:.1}")).collect();
        let places = places.join(" ");
        self.add(format_args!("<polyline points=\"{places}\" fill=\"none\" stroke=\"{colour}\" stroke-width=\"{width}\"/>"));
    }

    /// A filled box.
    pub fn bar(&mut self, (x, y): Point, width: f64, height: f64, colour: &str) {
        self.add(format_args!("<rect x=\"{x:.1}\" y=\"{y:.1}\" width=\"{width:.1}\" height=\"{height:.1}\" fill=\"{colour}\"/>"));
    }

    /// A mark around a place.
    pub fn mark(&mut self, (x, y): Point, mark: Mark, colour: &str) {
        let path = match mark {
            Mark::Disc => return self.add(format_args!("<circle cx=\"{x:.1}\" cy=\"{y:.1}\" r=\"4\" fill=\"{colour}\"/>")),
            Mark::Square => "m-3.5 -3.5 h7 v7 h-7 z",
            Mark::Triangle => "m0 -4.5 l4.5 8 h-9 z",
            Mark::Diamond => "m0 -5 l4.5 5 l-4.5 5 l-4.5 -5 z",
            Mark::Cross => "m-4 -4 l8 8 m0 -8 l-8 8",
        };
        self.add(format_args!("<path d=\"M{x:.1} {y:.1} {path}\" fill=\"{colour}\" stroke=\"{colour}\" stroke-width=\"1.5\"/>"));
    }
}
