//! The figures as bars on a logarithmic scale, in SVG.

use crate::measure::Measured;
use crate::{cell, columns, readable, Column};
use std::fmt::Write;

const WIDTH: f64 = 900.0;
const NAMES: f64 = 150.0;
const FIGURES: f64 = 160.0;
const BAR: f64 = 16.0;
const TITLE: f64 = 26.0;
const MARGIN: f64 = 14.0;

/// From the quickest figure, rounded down to a power of ten, to the slowest, rounded up.
struct Scale {
    least: f64,
    most: f64,
}

impl Scale {
    fn of(measured: &[Measured]) -> Scale {
        let powers = || measured.iter().flat_map(|task| &task.figures).map(|figure| figure.seconds.log10());
        Scale { least: powers().fold(f64::MAX, f64::min).floor(), most: powers().fold(f64::MIN, f64::max).ceil() }
    }

    fn length(&self, seconds: f64) -> f64 {
        (seconds.log10() - self.least) / (self.most - self.least) * (WIDTH - NAMES - FIGURES)
    }
}

pub fn draw(measured: &[Measured]) -> String {
    let (scale, columns) = (Scale::of(measured), columns(measured));
    let mut body = String::new();
    let mut y = draw_group(&mut body, "what each leaves out of document 01", MARGIN, &columns, |column| Some((BAR, column.leaves_out.into())));
    for task in measured {
        let bar = |column: &Column| task.seconds(column.name).map(|seconds| (scale.length(seconds).max(1.0), cell(task, column.name)));
        y = draw_group(&mut body, task.task, y, &columns, bar);
    }
    let height = y + TITLE + MARGIN;
    let foot =
        format!("median processor time of one run, logarithmic from {}; × is against the hand-tuned program", readable(10f64.powf(scale.least)));
    text(&mut body, MARGIN, y + TITLE / 2.0, "foot", &foot);
    format!(
        "<svg xmlns=\"http://www.w3.org/2000/svg\" viewBox=\"0 0 {WIDTH} {height}\" font-family=\"sans-serif\" font-size=\"12\">\n\
         <style>.task{{font-weight:bold}}.foot{{fill:#555}}</style>\n<rect width=\"{WIDTH}\" height=\"{height}\" fill=\"#fff\"/>\n{body}</svg>\n"
    )
}

/// A title, and for each column a bar with words behind it. Gives the height where the next group starts.
fn draw_group(body: &mut String, title: &str, top: f64, columns: &[Column], bar: impl Fn(&Column) -> Option<(f64, String)>) -> f64 {
    text(body, MARGIN, top + TITLE / 2.0, "task", title);
    let mut y = top + TITLE;
    for column in columns {
        let Some((length, words)) = bar(column) else { continue };
        text(body, MARGIN, y + BAR / 2.0, "name", column.name);
        let (height, colour) = (BAR - 3.0, column.colour);
        writeln!(body, "<rect x=\"{NAMES}\" y=\"{y}\" width=\"{length:.1}\" height=\"{height}\" fill=\"{colour}\"/>").expect("strings take all");
        text(body, NAMES + length + 6.0, y + BAR / 2.0, "figure", &words);
        y += BAR;
    }
    y + MARGIN
}

fn text(body: &mut String, x: f64, middle: f64, class: &str, words: &str) {
    writeln!(body, "<text x=\"{x:.1}\" y=\"{:.1}\" class=\"{class}\">{words}</text>", middle + 3.0).expect("strings take all");
}
